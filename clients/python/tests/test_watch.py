"""Tests of the live view, against a daemon that the tests start."""
import subprocess
import sys
import tempfile
import unittest
from xml.etree import ElementTree

from capsched import Ask, ClusterReport, Connection, QueueReport, Resource
from capsched.watch import Seen, picture, screen
from serving import EXAMPLES, read, serve, wait_until


class WatchGpus(unittest.TestCase):
    def test_gpus_are_shown_where_nodes_have_some(self):
        used, total = Resource(2048, 2, 1), Resource(8192, 8, 2)
        root = QueueReport(True, False, Resource(0, 0), None, used, 1)
        queues = [root, QueueReport(True, True, Resource(4096, 4, 2), None, used, 1)]
        seen = Seen(0.0, ClusterReport(1, 1, 2, total, used), queues)
        lines = screen(["root", "root.train"], seen, False)
        head = "nodes 1   applications 1   containers 2   memory 2048 of 8192 MiB   vcores 2 of 8   GPUs 1 of 2"
        self.assertEqual(lines[0], head)
        last = [line.split("  ")[-1].strip() for line in lines[2:5]]
        self.assertEqual(last, ["GPUs of its maximum", *["##########.......... 1 of 2"] * 2])
        drawing = picture(["root", "root.train"], [seen])
        self.assertIn("root.train: GPUs: use 1; guarantee 2; maximum none", drawing)
        without = Seen(0.0, ClusterReport(1, 1, 2, Resource(8192, 8), Resource(2048, 2)), queues)
        self.assertNotIn("GPU", "\n".join(screen(["root", "root.train"], without, False)))
        self.assertNotIn("GPU", picture(["root", "root.train"], [without]))


class Watch(unittest.TestCase):
    def setUp(self):
        """One node of (24576, 24), and an application in root.prod with six containers of (2048, 2)."""
        self.port, self.daemon = serve(self, f"{EXAMPLES}/serve.conf", 4)
        self.node = Connection.to_port(self.port, timeout=20)
        self.master = Connection.to_port(self.port, timeout=20)
        self.addCleanup(self.node.close)
        self.addCleanup(self.master.close)
        self.node.register_node("n1", "/r1", Resource(24576, 24))
        app = self.master.submit("root.prod", "ann")
        self.master.register_master(app)
        reply = self.master.allocate(app, 0, [Ask(1, 1, 6, Resource(2048, 2))])
        granted = 0

        def are_granted():
            nonlocal reply, granted
            reply = self.master.allocate(app, reply.response)
            granted += len(reply.grants)
            return granted >= 6

        wait_until(self, are_granted, "six containers are not granted")

    def watch(self, *words):
        words = [sys.executable, "-m", "capsched.watch", str(self.port), "--config", f"{EXAMPLES}/serve.conf", *words]
        return subprocess.run(words, capture_output=True, text=True, timeout=60)

    def test_the_screen_and_the_picture(self):
        with tempfile.TemporaryDirectory() as folder:
            file = f"{folder}/use.svg"
            ran = self.watch("--every", "0.1", "--looks", "2", "--svg", file)
            self.assertEqual((ran.returncode, ran.stderr), (0, ""))
            self.assertEqual(ran.stdout, read("watch.out") * 2)
            picture = ElementTree.parse(file).getroot()
        self.assertEqual(picture.tag, "{http://www.w3.org/2000/svg}svg")
        titles = [it.text for it in picture.iter("{http://www.w3.org/2000/svg}title")]
        self.assertEqual(titles, [
            "root: memory in MiB: use 12288 12288; of the nodes 24576; maximum none",
            "root: vcores: use 12 12; of the nodes 24; maximum none",
            "root.prod: memory in MiB: use 12288 12288; guarantee 8192; maximum 16384",
            "root.prod: vcores: use 12 12; guarantee 8; maximum 16",
            "root.dev: memory in MiB: use 0 0; guarantee 4096; maximum 8192",
            "root.dev: vcores: use 0 0; guarantee 4; maximum 8",
        ])

    def test_a_queue_that_the_daemon_has_not(self):
        with tempfile.NamedTemporaryFile("w", suffix=".conf") as config:
            config.write("yarn.scheduler.capacity.root.queues=other\n")
            config.flush()
            words = [sys.executable, "-m", "capsched.watch", str(self.port), "--config", config.name]
            ran = subprocess.run(words, capture_output=True, text=True, timeout=60)
        self.assertEqual((ran.returncode, ran.stdout), (1, ""))
        self.assertIn("capsched-watch: QueueInfo root.other: UnknownQueue (1); correct the path", ran.stderr)

    def test_it_looks_once(self):
        ran = self.watch("--once")
        self.assertEqual((ran.returncode, ran.stdout, ran.stderr), (0, read("watch.out"), ""))


if __name__ == "__main__":
    unittest.main()
