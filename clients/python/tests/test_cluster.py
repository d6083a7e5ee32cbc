"""A test of the small cluster, against a daemon."""
import subprocess
import sys
import unittest

from serving import EXAMPLES, serve


class Cluster(unittest.TestCase):
    def test_it_runs_to_its_end(self):
        port, daemon = serve(self, f"{EXAMPLES}/serve.conf", 8)
        words = [sys.executable, "-m", "capsched.cluster", str(port), "--rounds", "8", "--pause", "0.2"]
        ran = subprocess.run(words, capture_output=True, text=True, timeout=60)
        self.assertEqual((ran.returncode, ran.stderr), (0, ""))
        self.assertEqual(ran.stdout.splitlines()[:7], [
            "node 1 is n1 in /r1 with [8192 MiB, 8 vcores]",
            "node 2 is n2 in /r1 with [8192 MiB, 8 vcores]",
            "node 3 is n3 in /r2 with [8192 MiB, 8 vcores]",
            "application 1 is of ann in root.prod",
            "application 2 is of bob in root.dev",
            "application 3 is of ann in root.prod",
            "application 4 is of bob in root.dev",
        ])
        self.assertEqual(ran.stdout.splitlines()[-3:], [
            "queue root.prod uses [0 MiB, 0 vcores], with 0 applications",
            "queue root.dev uses [0 MiB, 0 vcores], with 0 applications",
            "the cluster has 3 nodes, 0 applications and 0 containers",
        ])
        # how many the other applications get by then depends on the user limit and on how the worker takes turns
        self.assertRegex(ran.stdout, "container .* of application 1 has ended: released")
        self.assertRegex(ran.stdout, "container .* of application 1 has ended: ended on its node")
        self.assertEqual(daemon.wait(20), 0)

    def test_where_no_daemon_is(self):
        words = [sys.executable, "-m", "capsched.cluster", "1"]
        ran = subprocess.run(words, capture_output=True, text=True, timeout=60)
        self.assertEqual((ran.returncode, ran.stdout), (1, ""))
        self.assertIn("nothing listens on 127.0.0.1:1: start `capsched serve --port 1`", ran.stderr)


if __name__ == "__main__":
    unittest.main()
