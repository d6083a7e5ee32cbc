"""Tests of the exporter: its formats by themselves, and what it serves of a daemon with a known cluster."""
import json
import math
import os
import re
import signal
import subprocess
import sys
import tempfile
import threading
import unittest
import urllib.error
import urllib.request
from unittest import mock
from xml.etree import ElementTree

from capsched import Ask, ClusterReport, Connection, Master, NodeManager, QueueReport, Resource
from capsched.exporter.looking import History, Look, Looker, State, StatsFile
from capsched.exporter.metrics import Metric, metrics_of
from capsched.exporter.page import page_of, said
from capsched.exporter.stating import json_of
from serving import EXAMPLES, line_of, serve, wait_until

NONE = Resource(0, 0)
EXPORTER = [sys.executable, "-m", "capsched.exporter"]
SAMPLE = re.compile(r'([a-z_]+)(?:\{((?:[a-z]+="(?:[^"\\\n]|\\[\\"n])*",?)+)\})? (\S+)')
LABEL = re.compile(r'([a-z]+)="((?:[^"\\\n]|\\[\\"n])*)"')
ODD = 'root.<b>"a\\\'&'
STATS = "stats entries=40 calls=30 grants=6 reservations=4 rejected=2 epochs=1 connections=3\n"


def unescape(value):
    return re.sub(r"\\(.)", lambda at: {"n": "\n"}.get(at[1], at[1]), value)


def parsed(text):
    """The samples of Prometheus' text format by name and labels, below the help and the type of their metric."""
    found, name, kinds = {}, None, {}
    for line in text.splitlines():
        words = line.split(" ", 3)
        if line.startswith("# HELP "):
            name = words[2]
        elif line.startswith("# TYPE "):
            assert words[2] == name and name not in kinds, line
            kinds[name] = words[3]
        else:
            it = SAMPLE.fullmatch(line)
            assert it and it[1] == name and name in kinds, line
            assert (kinds[name] == "counter") == name.endswith("_total"), line
            labels = tuple((key, unescape(value)) for key, value in LABEL.findall(it[2] or ""))
            assert (name, labels) not in found, line
            found[name, labels] = float(it[3])
    assert text.endswith("\n")
    return found


def a_look(queues, total=Resource(8192, 8), used=NONE):
    return Look(1_000_000.0, 0.25, ClusterReport(1, 0, 0, total, used), queues)


def texts(element):
    return [it.strip() for it in element.itertext() if it.strip()]


class Formats(unittest.TestCase):
    def test_labels_are_escaped(self):
        lines = list(Metric("m", "gauge", "says", [({"queue": 'a"b\\c\nd'}, 1), ({}, math.inf)]).lines())
        self.assertEqual(lines, ["# HELP m says", "# TYPE m gauge", 'm{queue="a\\"b\\\\c\\nd"} 1', "m +Inf"])

    def test_odd_names_go_through_each_format(self):
        queues = {path: QueueReport(True, path == ODD, NONE, None, NONE, 0) for path in ("root", ODD)}
        state = State("127.0.0.1:1", a_look(queues), None)
        self.assertEqual(parsed(metrics_of(state))["capsched_queue_running", (("queue", ODD),)], 1.0)
        self.assertEqual([it["queue"] for it in json.loads(json_of(state))["queues"]], ["root", ODD])
        page = ElementTree.fromstring(page_of(state, History(queues), 2.0))
        self.assertEqual([it.text for it in page.iter("b")], ["root", '<b>"a\\\'&'])

    def test_a_queue_without_a_maximum_and_gpus(self):
        queues = {"root": QueueReport(True, False, NONE, Resource(1, 2, 3), Resource(1024, 1, 1), 0)}
        found = parsed(metrics_of(State("d", a_look(queues, Resource(8192, 8, 2)), None)))
        label = (("queue", "root"),)
        self.assertEqual(found["capsched_queue_maximum_bytes", label], 2**20)
        self.assertEqual(found["capsched_queue_used_gpus", label], 1)
        queues["root"] = QueueReport(True, False, NONE, None, NONE, 0)
        found = parsed(metrics_of(State("d", a_look(queues), None)))
        for unit in ("bytes", "vcores", "gpus"):
            self.assertEqual(found[f"capsched_queue_maximum_{unit}", label], math.inf)

    def test_gpus_are_on_the_page_where_there_are_some(self):
        queues = {"root": QueueReport(True, False, NONE, None, NONE, 0)}
        for gpus, count in ((2, 2), (0, 0)):
            page = page_of(State("d", a_look(queues, Resource(8192, 8, gpus)), None), History(queues), 2.0)
            self.assertEqual(texts(ElementTree.fromstring(page)).count("GPUs"), count)

    def test_amounts_in_words(self):
        for amount, words in (
            (0, "0"), (512, "512 MiB"), (1023, "1023 MiB"), (1024, "1 GiB"), (1536, "1.5 GiB"), (2**20, "1 TiB"),
            (2**40, "1,048,576 TiB"),
        ):
            self.assertEqual(said("memory", amount), words)
        self.assertEqual(said("vcores", 12000), "12,000")

    def test_before_the_first_answer(self):
        state = State("127.0.0.1:1")
        self.assertEqual(parsed(metrics_of(state))["capsched_up", ()], 0)
        found = json.loads(json_of(state))
        self.assertEqual((found["daemon"]["up"], found["cluster"], found["queues"]), (False, None, None))
        page = ElementTree.fromstring(page_of(state, History([]), 2.0))
        self.assertIn("127.0.0.1:1 does not answer: it was not asked yet", texts(page))


class Histories(unittest.TestCase):
    def test_ten_minutes_are_kept(self):
        history = History(["root"])
        for at in range(0, 1400):
            used = Resource(4096, 4) if at == 1200 else NONE
            history.add(float(at), a_look({"root": QueueReport(True, False, NONE, None, used, 0)}))
        moments = history.shares("root", 1399.0)
        # a moment every four seconds: from 800 to 1396
        self.assertEqual([ago for ago, _ in moments], [float(ago) for ago in range(599, 2, -4)])
        self.assertEqual([ago for ago, share in moments if share == 0.5], [199.0])

    def test_a_clock_that_is_set_back(self):
        history = History(["root"])
        for at in (100.0, 200.0, 150.0, 160.0):
            history.add(at, None)
        self.assertEqual([ago for ago, _ in history.shares("root", 160.0)], [60.0, 10.0, 0.0])

    def test_the_share_is_that_of_the_resource_of_which_most_is_used(self):
        report = QueueReport(True, True, NONE, Resource(4096, 8), Resource(1024, 4), 0)
        self.assertEqual(a_look({"root.a": report}).share("root.a"), 0.5)

    def test_where_the_daemon_did_not_answer_the_line_is_broken(self):
        queues = {"root": QueueReport(True, False, NONE, None, Resource(8192, 4), 0)}
        history = History(queues)
        for at in (0, 100, 200, 300, 400):
            history.add(1_000_000.0 + at, None if at == 200 else a_look(queues))
        with mock.patch("capsched.exporter.page.time.time", return_value=1_000_600.0):
            page = page_of(State("d", a_look(queues), None), history, 2.0)
        drawn = [it.get("d") for it in ElementTree.fromstring(page).iter("path")]
        self.assertEqual(drawn, ["M0.0 1.0L16.7 1.0M50.0 1.0L66.7 1.0"])


class StatsFiles(unittest.TestCase):
    def setUp(self):
        file = tempfile.NamedTemporaryFile("w", suffix=".err")
        self.addCleanup(file.close)
        self.file, self.stats = file, StatsFile(file.name)

    def add(self, text):
        self.file.write(text)
        self.file.flush()
        return self.stats.read()

    def test_the_last_whole_line_counts(self):
        self.assertEqual(self.add(""), {})
        self.assertEqual(self.add("listener: out of descriptors\n"), {})
        names = ("entries", "calls", "grants", "reservations", "rejected", "epochs", "connections")
        counters = dict(zip(names, (40, 30, 6, 4, 2, 1, 3)))
        other = "epochs: 3 changes, at most 950 microseconds\n"
        self.assertEqual(self.add("stats entries=1 calls=1\n" + STATS + other), counters)
        self.assertEqual(self.add("stats entries=41 calls=3"), counters)
        self.assertEqual(self.add("1\n"), {"entries": 41, "calls": 31})

    def test_lines_of_another_form_are_passed_over(self):
        counters = self.add("stats entries=7\n")
        for other in (
            "stats\n", "stats entries=-1\n", "stats entries=x\n", "stats  entries=9\n", "xstats entries=9\n",
            "stats entries=9;\n", "\n", "\u00e4\n",
        ):
            self.assertEqual(self.add(other), counters, other)
        self.assertEqual(self.add("stats entries=8\r\n"), {"entries": 8})

    def test_a_file_that_begins_anew(self):
        self.add(STATS)
        self.file.seek(0)
        self.file.truncate()
        self.assertEqual(self.add("stats entries=2\n"), {"entries": 2})

    def test_a_long_line(self):
        self.assertEqual(self.add("x" * 3_000_000 + "\nstats entries=3\n"), {"entries": 3})

    def test_a_file_that_is_not_there(self):
        with self.assertRaises(OSError):
            StatsFile(f"{self.file.name}.none").read()


class Waiting(unittest.TestCase):
    def test_a_daemon_that_takes_long_does_not_answer(self):
        began, over = threading.Event(), threading.Event()

        def connect():
            began.set()
            over.wait(20)
            raise ConnectionRefusedError("nothing listens")

        looker = Looker("127.0.0.1:1", connect, ["root"])
        looker._state = State("127.0.0.1:1", a_look({}), None)
        thread = threading.Thread(target=looker.look)
        thread.start()
        self.addCleanup(thread.join, 20)
        self.addCleanup(over.set)
        self.assertTrue(began.wait(20))
        self.assertTrue(looker.state().is_up)
        with mock.patch("capsched.exporter.looking.PATIENCE", -1.0):
            self.assertEqual(looker.state().fault, "no answer for 0 s")
        over.set()
        thread.join(20)
        self.assertEqual((looker.state().fault, looker.state().failures), ("nothing listens", 1))


class Served(unittest.TestCase):
    def begin(self, port, *words):
        """An exporter of a daemon: what it serves is at `self.url`."""
        words = [*EXPORTER, str(port), "--listen", "127.0.0.1:0", "--every", "0.05", *words]
        self.exporter = subprocess.Popen(words, stdout=subprocess.PIPE, stderr=subprocess.PIPE, text=True)
        for end in (self.exporter.stderr.close, self.exporter.stdout.close, self.exporter.wait, self.exporter.kill):
            self.addCleanup(end)
        said = line_of(self.exporter)
        self.assertRegex(said, r"^listening 127\.0\.0\.1:\d+\n$")
        self.url = f"http://{said.split()[1]}"

    def get(self, path, **words):
        with urllib.request.urlopen(urllib.request.Request(self.url + path, **words), timeout=20) as answer:
            return answer.headers, answer.read().decode()

    def metrics(self):
        return parsed(self.get("/metrics")[1])

    def wait_for(self, *samples):
        """Waits until the metrics without labels are these."""

        def have_come():
            found = self.metrics()
            return all(found.get((name, ())) == value for name, value in samples)

        wait_until(self, have_come, f"{samples} do not come")

    def cluster(self, port):
        """One node of (24576, 24), and an application in root.prod with six containers of (2048, 2)."""
        node = NodeManager(lambda: Connection.to_port(port, timeout=20), "n1", "/r1", Resource(24576, 24))
        master = Master(lambda: Connection.to_port(port, timeout=20), "root.prod", "ann")
        self.addCleanup(node.close)
        self.addCleanup(master.close)
        master.ask(Ask(1, 1, 6, Resource(2048, 2)))
        wait_until(self, lambda: master.allocate() and len(master.containers) == 6, "six containers are not granted")
        return node, master

    def test_a_known_cluster(self):
        port, _ = serve(self, f"{EXAMPLES}/serve.conf", 10)
        with Connection.to_port(port, timeout=20) as operator:
            operator.set_queue_state("root.dev", False)
        self.cluster(port)
        self.begin(port, "--config", f"{EXAMPLES}/serve.conf")
        self.wait_for(("capsched_up", 1), ("capsched_containers", 6))
        headers, text = self.get("/metrics")
        self.assertEqual(headers["Content-Type"], "text/plain; version=0.0.4; charset=utf-8")
        self.check_metrics(parsed(text))
        self.check_state(json.loads(self.get("/state.json")[1]), port)
        self.check_page(*self.get("/"))

    def check_metrics(self, found):
        gib = 2**30
        wanted = {(f"capsched_{name}", ()): value for name, value in (
            ("up", 1), ("exporter_failed_looks_total", 0), ("nodes", 1), ("applications", 1), ("containers", 6),
            ("cluster_total_bytes", 24 * gib), ("cluster_total_vcores", 24), ("cluster_total_gpus", 0),
            ("cluster_used_bytes", 12 * gib), ("cluster_used_vcores", 12), ("cluster_used_gpus", 0),
        )}
        none = math.inf
        for path, used, guaranteed, maximum, running, leaf, applications in (
            ("root", (12 * gib, 12, 0), (0, 0, 0), (none, none, none), 1, 0, 1),
            ("root.prod", (12 * gib, 12, 0), (8 * gib, 8, 0), (16 * gib, 16, 0), 1, 1, 1),
            ("root.dev", (0, 0, 0), (4 * gib, 4, 0), (8 * gib, 8, 0), 0, 1, 0),
        ):
            for which, amounts in (("used", used), ("guaranteed", guaranteed), ("maximum", maximum)):
                for unit, amount in zip(("bytes", "vcores", "gpus"), amounts):
                    wanted[f"capsched_queue_{which}_{unit}", (("queue", path),)] = amount
            for which, value in (("running", running), ("leaf", leaf), ("applications", applications)):
                wanted[f"capsched_queue_{which}", (("queue", path),)] = value
        moving = ["capsched_answer_seconds", "capsched_exporter_looks_total", "capsched_last_answer_timestamp_seconds"]
        self.assertEqual({key: value for key, value in found.items() if key[0] not in moving}, wanted)
        for name in moving:
            self.assertGreater(found[name, ()], 0)

    def check_state(self, state, port):
        self.assertEqual([state["daemon"][it] for it in ("address", "up", "fault")], [f"127.0.0.1:{port}", True, None])
        self.assertGreater(state["daemon"]["answer_seconds"], 0)

        def amounts(memory, vcores):
            return {"memory": memory, "vcores": vcores, "gpus": 0}

        self.assertEqual(state["cluster"], {
            "nodes": 1, "applications": 1, "containers": 6, "total": amounts(24576, 24), "used": amounts(12288, 12),
        })
        names = ("queue", "leaf", "running", "applications", "used", "guaranteed", "maximum")
        self.assertEqual(state["queues"], [dict(zip(names, it)) for it in (
            ("root", False, True, 1, amounts(12288, 12), amounts(0, 0), None),
            ("root.prod", True, True, 1, amounts(12288, 12), amounts(8192, 8), amounts(16384, 16)),
            ("root.dev", True, False, 0, amounts(0, 0), amounts(4096, 4), amounts(8192, 8)),
        )])
        self.assertEqual((state["unknown_queues"], state["counters"]), ([], {}))

    def check_page(self, headers, text):
        self.assertEqual(headers["Content-Type"], "text/html; charset=utf-8")
        self.assertIn("default-src 'none'", headers["Content-Security-Policy"])
        self.assertNotRegex(text, "https?:|//[a-z]")
        page = ElementTree.fromstring(text)
        live = {it.get("data-live"): it for it in page.iter() if it.get("data-live")}
        self.assertEqual(texts(live["counts"]), ["nodes", "1", "applications", "1", "containers", "6"])
        self.assertEqual(texts(live["name root.prod"]), ["prod", "RUNNING, 1 application"])
        self.assertEqual(texts(live["name root.dev"]), ["dev", "STOPPED", ", 0 applications"])
        self.assertEqual(texts(live["memory root.prod"]), ["Memory", "12 GiB of 16 GiB", "guarantee 8 GiB"])
        self.assertEqual(texts(live["vcores root.dev"]), ["vcores", "0 of 8", "guarantee 4"])
        self.assertEqual(texts(live["memory root"]), ["Memory", "12 GiB of 24 GiB", "of all nodes"])
        bars = [(it.get("class"), it.get("style")) for it in live["memory root.prod"].find("span[@class='bar']")]
        self.assertEqual(bars, [("use beyond", "width:75.0%"), ("guarantee", "left:50.0%")])
        under_root = page.find(".//ul[@class='queues card']/li/details/ul")
        self.assertEqual([it.text for it in under_root.iter("b")], ["prod", "dev"])

    def test_other_paths_and_head(self):
        port, _ = serve(self, f"{EXAMPLES}/serve.conf", 10)
        self.begin(port, "--config", f"{EXAMPLES}/serve.conf")
        with self.assertRaises(urllib.error.HTTPError) as raised:
            self.get("/other")
        self.addCleanup(raised.exception.close)
        self.assertEqual(raised.exception.code, 404)
        headers, body = self.get("/metrics", method="HEAD")
        self.assertEqual((int(headers["Content-Length"]) > 0, body), (True, ""))

    def test_a_daemon_that_goes_and_comes_again(self):
        port, daemon = serve(self, f"{EXAMPLES}/serve.conf", 10)
        self.cluster(port)
        self.begin(port, "--config", f"{EXAMPLES}/serve.conf")
        self.wait_for(("capsched_containers", 6))
        daemon.kill()
        daemon.wait(20)
        self.wait_for(("capsched_up", 0))
        self.assertEqual({name for name, _ in self.metrics()}, {
            "capsched_up", "capsched_exporter_looks_total", "capsched_exporter_failed_looks_total",
            "capsched_last_answer_timestamp_seconds",
        })
        self.assertGreater(self.metrics()["capsched_exporter_failed_looks_total", ()], 0)
        state = json.loads(self.get("/state.json")[1])
        self.assertEqual((state["daemon"]["up"], state["cluster"]["containers"]), (False, 6))
        page = self.get("/")[1]
        self.assertRegex(page, f'class="bad">127.0.0.1:{port} does not answer: ')
        self.assertIn("12 GiB of 16 GiB", texts(ElementTree.fromstring(page)))
        serve(self, f"{EXAMPLES}/serve.conf", 10, port)
        self.wait_for(("capsched_up", 1), ("capsched_nodes", 0), ("capsched_containers", 0))

    def test_where_no_daemon_was_yet(self):
        port, daemon = serve(self, f"{EXAMPLES}/serve.conf", 1)
        daemon.kill()
        daemon.wait(20)
        self.begin(port, "--config", f"{EXAMPLES}/serve.conf")
        self.wait_for(("capsched_up", 0))
        wait_until(self, lambda: "nothing listens" in self.get("/")[1], "the page does not say why")
        serve(self, f"{EXAMPLES}/serve.conf", 10, port)
        self.wait_for(("capsched_up", 1))

    def test_a_queue_that_the_daemon_has_not(self):
        port, _ = serve(self, f"{EXAMPLES}/serve.conf", 10)
        with tempfile.NamedTemporaryFile("w", suffix=".conf") as config:
            config.write("yarn.scheduler.capacity.root.queues=prod,other\n")
            config.flush()
            self.begin(port, "--config", config.name)
        self.wait_for(("capsched_up", 1))
        state = json.loads(self.get("/state.json")[1])
        self.assertEqual([it["queue"] for it in state["queues"]], ["root", "root.prod"])
        self.assertEqual(state["unknown_queues"], ["root.other"])
        said = texts(ElementTree.fromstring(self.get("/")[1]))
        self.assertIn("The daemon has no queue root.other: is --config its file?", said)

    def test_the_daemon_s_counters(self):
        port, _ = serve(self, f"{EXAMPLES}/serve.conf", 10)
        with tempfile.NamedTemporaryFile("w", suffix=".err") as file:
            file.write("listener: no descriptor\n" + STATS)
            file.flush()
            self.begin(port, "--stats-file", file.name)
            self.wait_for(
                ("capsched_entries_total", 40), ("capsched_calls_total", 30), ("capsched_grants_total", 6),
                ("capsched_reservations_total", 4), ("capsched_rejections_total", 2), ("capsched_epochs_total", 1),
                ("capsched_connections_total", 3),
            )
            file.write(STATS.replace("grants=6", "grants=9"))
            file.flush()
            self.wait_for(("capsched_grants_total", 9))

    def test_without_a_settings_file_root_alone_is_shown(self):
        port, _ = serve(self, f"{EXAMPLES}/serve.conf", 10)
        self.begin(port, "--stats-file", "/none.err")
        self.wait_for(("capsched_up", 1))
        self.assertEqual([it["queue"] for it in json.loads(self.get("/state.json")[1])["queues"]], ["root"])
        self.exporter.send_signal(signal.SIGTERM)
        self.assertEqual(self.exporter.wait(20), 0)
        said = self.exporter.stderr.read()
        self.assertIn("root alone is shown: name the daemon's settings file by --config", said)
        self.assertIn("/none.err is not there yet", said)


class Words(unittest.TestCase):
    def test_bad_words(self):
        for words, status, said_so in (
            (["0"], 2, "'0' is not a port"),
            (["70000"], 2, "'70000' is not a port"),
            (["7070", "--listen", "9101"], 2, "'9101' is not HOST:PORT"),
            (["7070", "--listen", "a:99999"], 2, "'a:99999' is not HOST:PORT"),
            (["7070", "--every", "0"], 2, "'0' is not a number of seconds"),
            (["7070", "--config", "/none.conf"], 1, "capsched-exporter: [Errno 2] No such file or directory: "),
            (["7070", "--listen", "192.0.2.1:9101"], 1, "capsched-exporter: "),
        ):
            ran = subprocess.run([*EXPORTER, *words], capture_output=True, text=True, timeout=60)
            self.assertEqual((ran.returncode, ran.stdout), (status, ""), words)
            self.assertIn(said_so, ran.stderr)


if __name__ == "__main__":
    unittest.main()
