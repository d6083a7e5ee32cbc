"""Tests of `capsched-simulate`: what was worked out by hand, and what a slow simulation of the same does step by
step."""
import csv
import io
import json
import os
import pty
import random
import subprocess
import sys
import tempfile
import unittest
from contextlib import redirect_stderr, redirect_stdout
from xml.etree import ElementTree

from capsched import Ask, Replay, Resource
from capsched.simulate import main
from capsched.simulate.report import Row, Unit, rank
from capsched.simulate.traces import Notes, read_jobs
from serving import EXAMPLES, PROGRAM, read

P = "yarn.scheduler.capacity"
HEAD = "submit_ms,queue,user,containers,duration_ms,memory,vcores,gpus,priority"
TWO_QUEUES = [f"{P}.root.queues=a,b", f"{P}.root.a.capacity=[memory=4096,vcores=4]",
              f"{P}.root.b.capacity=[memory=4096,vcores=4]"]
# Two nodes of (2048, 2) beat at 0, 1000, .. and at 500, 1500, ..
#    0  job 1 is granted containers on node 1, node 2 and node 1; they run to 2300
#  100  job 2 is granted one on node 2, which runs to 1100; for the other room is reserved on node 1
#  700  job 3 would bring its user to (5120, 5), over the limit of (4096, 4)
# 1500  node 2 reports the end of 1100: job 2 has its room elsewhere, and job 3 is over the limit still
# 2500  node 2 reports an end of 2300: job 3 is granted its container there, which runs to 3000
# 3000  node 1 reports two ends of 2300: the reservation becomes a container, which runs to 4000
# 3500  node 2 reports the end of 3000
# 4000  node 1 reports the end of 4000
THREE_JOBS = ["0,root.a,ann,3,2300,1024,1,0,1", "100,root.b,bob,2,1000,1024,1,0,1", "700,root.a,ann,1,500,2048,2,0,1"]


class Case(unittest.TestCase):
    def setUp(self):
        folder = tempfile.TemporaryDirectory()
        self.addCleanup(folder.cleanup)
        self.folder = folder.name

    def write(self, name, *lines):
        file = f"{self.folder}/{name}"
        with open(file, "w", encoding="utf-8", newline="") as it:
            it.write("".join(f"{line}\n" for line in lines))
        return file

    def run_main(self, *words):
        """The status of the command, and what it prints."""
        out, err = io.StringIO(), io.StringIO()
        with redirect_stdout(out), redirect_stderr(err):
            status = main([*map(str, words), "--program", PROGRAM])
        return status, out.getvalue(), err.getvalue()

    def play(self, settings, jobs, *words, out="out"):
        """What the command prints for settings by name and the rows of a trace; it writes to a folder of this name."""
        files = [word for name, lines in settings.items() for word in ("--config", self.write(f"{name}.conf", *lines))]
        trace = self.write("jobs.csv", HEAD, *jobs)
        return self.run_main(*files, "--jobs", trace, "--out", f"{self.folder}/{out}", *words)

    def rows(self, name, out="out"):
        """The rows of a file of the answers."""
        with open(f"{self.folder}/{out}/{name}", encoding="utf-8", newline="") as it:
            return list(csv.DictReader(it))

    def times(self, config=None, out="out"):
        """Of each job by its name when its first and last containers began, and when all had ended."""
        rows = self.rows("jobs.csv", out)
        return {row["job"]: tuple(int(row[name]) if row[name] else None for name in ("first_ms", "last_ms", "end_ms"))
                for row in rows if config in (None, row["config"])}


class ThreeJobs(Case):
    def setUp(self):
        super().setUp()
        self.status, self.printed, self.said = self.play(
            {"now": TWO_QUEUES}, THREE_JOBS, "--node", "2048,2", "--count", 2)

    def test_they_begin_and_end_when_they_do(self):
        self.assertEqual((self.status, self.said), (0, ""))
        self.assertEqual(self.times(), {"1": (0, 0, 2300), "2": (100, 3000, 4000), "3": (2500, 2500, 3000)})

    def test_a_row_has_all_of_a_job(self):
        row = next(row for row in self.rows("jobs.csv") if row["job"] == "2")
        self.assertEqual(row, {
            "config": "now", "job": "2", "queue": "root.b", "user": "bob", "state": "ended", "submit_ms": "100",
            "first_ms": "100", "last_ms": "3000", "end_ms": "4000", "first_wait_ms": "0", "last_wait_ms": "2900",
            "containers": "2", "granted": "2"})

    def test_queues_over_time(self):
        """Once a second from the first job on, and at the end: use with what is reserved, that, applications, and what
        they ask for."""
        names = ("memory", "vcores", "reserved_memory", "reserved_vcores", "applications", "wanted_containers")
        seen = {(int(row["time_ms"]), row["queue"]): tuple(int(row[name]) for name in names)
                for row in self.rows("queues.csv")}
        self.assertEqual(seen, {
            (0, "root"): (3072, 3, 0, 0, 1, 0), (0, "root.a"): (3072, 3, 0, 0, 1, 0), (0, "root.b"): (0, 0, 0, 0, 0, 0),
            (1000, "root"): (5120, 5, 1024, 1, 3, 2), (1000, "root.a"): (3072, 3, 0, 0, 2, 1),
            (1000, "root.b"): (2048, 2, 1024, 1, 1, 1),
            (2000, "root"): (4096, 4, 1024, 1, 3, 2), (2000, "root.a"): (3072, 3, 0, 0, 2, 1),
            (2000, "root.b"): (1024, 1, 1024, 1, 1, 1),
            (3000, "root"): (3072, 3, 0, 0, 2, 0), (3000, "root.a"): (2048, 2, 0, 0, 1, 0),
            (3000, "root.b"): (1024, 1, 0, 0, 1, 0),
            (4000, "root"): (0, 0, 0, 0, 0, 0), (4000, "root.a"): (0, 0, 0, 0, 0, 0),
            (4000, "root.b"): (0, 0, 0, 0, 0, 0),
        })

    def test_the_table(self):
        """Of 16,384,000 MiB times ms in the 4 s, 1024 times 9,900 are used, and 1024 times 2,900 reserved."""
        tables = [block.splitlines() for block in self.printed.split("\n\n")]
        heads = [block[0].split() for block in tables]
        self.assertEqual(heads, [["the", "cluster", "now"], ["root.a", "now"], ["root.b", "now"]])
        self.assertEqual([line.rsplit(None, 1) for line in tables[0][1:]], [
            ["jobs", "3"], ["containers", "6"], ["makespan, s", "4.000"],
            ["memory used, % of the cluster", "61.88"], ["memory reserved, % of the cluster", "18.13"],
            ["vcores used, % of the cluster", "61.88"], ["vcores reserved, % of the cluster", "18.13"],
            ["wait for the first container,", "s"],
            ["  mean", "0.600"], ["  median", "0.000"], ["  95th percentile", "1.800"], ["  longest", "1.800"],
            ["wait for the last container,", "s"],
            ["  mean", "1.567"], ["  median", "1.800"], ["  95th percentile", "2.900"], ["  longest", "2.900"]])
        self.assertEqual([line.rsplit(None, 1) for line in tables[1][1:5]], [
            ["jobs", "2"], ["containers", "4"], ["memory used, % of the cluster", "49.38"],
            ["memory reserved, % of the cluster", "0.00"]][:3] + [["vcores used, % of the cluster", "49.38"]])
        self.assertEqual([line.rsplit(None, 1) for line in tables[2][1:5]], [
            ["jobs", "1"], ["containers", "2"], ["memory used, % of the cluster", "12.50"],
            ["memory reserved, % of the cluster", "18.13"]])

    def test_the_picture(self):
        root = ElementTree.parse(f"{self.folder}/out/queues.svg").getroot()
        titles = [it.text for it in root.iter("{http://www.w3.org/2000/svg}title")]
        self.assertEqual(titles, [
            "root, memory in MiB, now: at most 5120 in use; of the nodes 4096; maximum none",
            "root, vcores, now: at most 5 in use; of the nodes 4; maximum none",
            "root.a, memory in MiB, now: at most 3072 in use; guarantee 4096; maximum none",
            "root.a, vcores, now: at most 3 in use; guarantee 4; maximum none",
            "root.b, memory in MiB, now: at most 2048 in use; guarantee 4096; maximum none",
            "root.b, vcores, now: at most 2 in use; guarantee 4; maximum none"])

    def test_the_same_words_give_the_same_bytes(self):
        words = [sys.executable, "-m", "capsched.simulate", "--config", f"{self.folder}/now.conf", "--jobs",
                 f"{self.folder}/jobs.csv", "--node", "2048,2", "--count", "2", "--out", f"{self.folder}/again"]
        again = subprocess.run(words, env={**os.environ, "CAPSCHED": PROGRAM, "PYTHONHASHSEED": "7"},
                               capture_output=True, text=True, timeout=60)
        self.assertEqual((again.returncode, again.stdout, again.stderr), (0, self.printed, ""))
        for name in ("jobs.csv", "queues.csv", "queues.svg"):
            with open(f"{self.folder}/out/{name}", "rb") as one, open(f"{self.folder}/again/{name}", "rb") as other:
                self.assertEqual(one.read(), other.read(), name)


class Limited(Case):
    def test_a_user_limit_is_waited_for(self):
        """One node of (8192, 8). The first job ends at 2500, which the node reports at 3000."""
        jobs = ["0,a,ann,4,2500,1024,1,0,1", "200,a,ann,4,1000,1024,1,0,1"]
        settings = {"one": TWO_QUEUES, "two": [*TWO_QUEUES, f"{P}.root.a.user-limit-factor=2"]}
        self.play(settings, jobs, "--node", "8192,8", "--count", 1)
        self.assertEqual(self.times("one"), {"1": (0, 0, 2500), "2": (3000, 3000, 4000)})
        self.assertEqual(self.times("two"), {"1": (0, 0, 2500), "2": (200, 200, 1200)})

    def test_it_is_the_users_own(self):
        jobs = ["0,a,ann,4,2500,1024,1,0,1", "200,a,bob,4,1000,1024,1,0,1"]
        self.play({"one": TWO_QUEUES}, jobs, "--node", "8192,8", "--count", 1)
        self.assertEqual(self.times()["2"], (200, 200, 1200))

    def test_with_a_higher_maximum_jobs_wait_less(self):
        """One node of (8192, 8), and jobs of four users with two containers each. With a maximum of (4096, 4) two jobs
        run at a time, from 0, 2000 and 4000 on; with one of (8192, 8) all do."""
        jobs = [f"0,a,u{n},2,2000,1024,1,0,1" for n in range(4)]
        low = [*TWO_QUEUES, f"{P}.root.a.maximum-capacity=[memory=4096,vcores=4]"]
        high = [*TWO_QUEUES, f"{P}.root.a.maximum-capacity=[memory=8192,vcores=8]"]
        status, printed, _ = self.play({"low": low, "high": high}, jobs, "--node", "8192,8", "--count", 1)
        self.assertEqual(status, 0)
        self.assertEqual(self.times("low"), {"1": (0, 0, 2000), "2": (0, 0, 2000), "3": (2000, 2000, 4000),
                                             "4": (2000, 2000, 4000)})
        self.assertEqual(set(self.times("high").values()), {(0, 0, 2000)})
        lines = [line.rsplit(None, 3) for line in printed.splitlines()]
        self.assertEqual(lines[0], ["the cluster", "low", "high", "difference"])
        self.assertIn(["makespan, s", "4.000", "2.000", "-2.000"], lines)
        self.assertIn(["  mean", "1.000", "0.000", "-1.000"], lines)
        self.assertIn(["memory used, % of the cluster", "50.00", "100.00", "+50.00"], lines)

    def test_settings_with_comments_and_other_ends_of_lines(self):
        settings = [f"{line}\r" for line in ["# für Ann\rand Bob", "", *TWO_QUEUES]]
        status, _, said = self.play({"now": settings}, ["0,a,ann,1,100,1024,1,0,1"], "--count", 1)
        self.assertEqual((status, said, self.times()), (0, "", {"1": (0, 0, 100)}))

    def test_gpus(self):
        """Two jobs want the one GPU: the second begins once the node has reported the end of the first."""
        settings = [*TWO_QUEUES[:2], f"{P}.root.b.capacity=[memory=4096,vcores=4,yarn.io/gpu=1]"]
        jobs = ["0,b,ann,1,1500,1024,1,1,1", "0,b,bob,1,1000,1024,1,1,1"]
        status, printed, _ = self.play({"now": settings}, jobs, "--node", "8192,8,1", "--count", 1)
        self.assertEqual((status, self.times()), (0, {"1": (0, 0, 1500), "2": (2000, 2000, 3000)}))
        self.assertIn(["gpus used, % of the cluster", "83.33"], [it.rsplit(None, 1) for it in printed.splitlines()])

    def test_a_node_reports_thousands_at_one_beat(self):
        """2,500 containers end at 100 and are reported at 1000; then there is room for one as large as the node."""
        settings = [f"{P}.root.queues=a", f"{P}.root.a.capacity=[memory=2560000,vcores=2500]",
                    "yarn.scheduler.maximum-allocation-mb=2560000", "yarn.scheduler.maximum-allocation-vcores=2500"]
        jobs = ["0,a,ann,2500,100,1024,1,0,1", "50,a,bob,1,100,2560000,2500,0,1"]
        status, _, said = self.play({"now": settings}, jobs, "--node", "2560000,2500", "--count", 1)
        self.assertEqual((status, said), (0, ""))
        self.assertEqual(self.times(), {"1": (0, 0, 100), "2": (1000, 1000, 1100)})

    def test_masters_hear_what_is_new(self):
        """Three times 100 of 300 containers begin at 0, 1000 and 2000. Before the beats of 1000, 2000 and 3000 the
        master has 100, 236 and 244 grants and ends to hear of, and takes 64, 192 and 192 of them."""
        log = f"{self.folder}/log"
        program = self.write("program", "#!/bin/sh", f'[ "$1" = replay ] || exec "{PROGRAM}" "$@"',
                             f'tee "{log}" | "{PROGRAM}" replay')
        os.chmod(program, 0o700)
        settings = self.write("now.conf", f"{P}.root.queues=a", f"{P}.root.a.capacity=[memory=102400,vcores=100]")
        trace = self.write("jobs.csv", HEAD, "0,a,ann,300,1000,1024,1,0,1")
        with redirect_stdout(io.StringIO()):
            status = main(["--config", settings, "--jobs", trace, "--node", "102400,100", "--count", "1", "--program",
                           program])
        self.assertEqual(status, 0)
        with open(log, encoding="ascii") as it:
            kinds = [line.split()[2][10:12] for line in it if line.startswith("bytes ")]
        self.assertEqual(kinds.count("03"), 1 + 1 + 3 + 3)

    def test_a_place_is_waited_for(self):
        """Both jobs are for node2, which has room for one; node1 stays empty."""
        jobs = [{"job.start.ms": 0, "job.queue.name": "a", "job.user": user, "job.tasks": [
            {"container.host": "/default-rack/node2", "duration.ms": 700, "container.memory-mb": 2048}]}
            for user in ("ann", "bob")]
        trace = self.write("jobs.json", json.dumps(jobs))
        settings = self.write("now.conf", *TWO_QUEUES)
        status, _, _ = self.run_main("--config", settings, "--jobs", trace, "--node", "2048,2", "--count", 2, "--out",
                                     f"{self.folder}/out")
        self.assertEqual((status, self.times()), (0, {"0": (0, 0, 700), "1": (1500, 1500, 2200)}))


class Whole(Case):
    """A trace of 40 jobs in three leaf queues that are full most of the time."""

    SETTINGS = [
        f"{P}.root.queues=prod,dev", f"{P}.root.dev.queues=x,y",
        f"{P}.root.prod.capacity=[memory=8192,vcores=8]", f"{P}.root.prod.maximum-capacity=[memory=14336,vcores=14]",
        f"{P}.root.dev.capacity=[memory=8192,vcores=8]", f"{P}.root.dev.x.capacity=[memory=4096,vcores=4]",
        f"{P}.root.dev.y.capacity=[memory=4096,vcores=4]", f"{P}.root.dev.x.user-limit-factor=3",
        f"{P}.root.prod.user-limit-factor=2",
    ]
    NODES, NODE, PERIOD = 4, Resource(5120, 5), 400

    def trace(self, seed):
        """Rows of a trace, in order of time."""
        random.seed(seed)
        submits = sorted(random.randrange(6000) for _ in range(40))
        return [f"{at},{random.choice(['prod', 'x', 'y'])},{random.choice('uvw')},{random.randint(1, 6)},"
                f"{random.randint(1, 1500)},{random.choice([1024, 2048, 4096])},{random.choice([1, 2])},0,"
                f"{random.randint(1, 3)}" for at in submits]

    def slowly(self, jobs):
        """The same by a loop over each millisecond, one step of the scheduler after the other, in which each node beats
        whether it has something to report or not: of each job when its first and last container began and all had
        ended."""
        paths = {"prod": "root.prod", "x": "root.dev.x", "y": "root.dev.y"}
        rows = [dict(zip(HEAD.split(","), row.split(","))) for row in jobs]
        times, ends, start = {}, [], 0  # ends: when, node, container, application
        with Replay([PROGRAM, "replay"], self.SETTINGS) as cluster:
            connection = cluster.connect()
            for node in range(self.NODES):
                connection.register_node(f"node{node + 1}", "/default-rack", self.NODE)
            responses, apps, left = [0] * self.NODES, {}, {}
            for now in range(60_000):
                for node in range(self.NODES):
                    if (now - node * self.PERIOD // self.NODES) % self.PERIOD == 0:
                        told = sorted(it for it in ends if it[0] <= now and it[1] == node + 1)
                        ends = [it for it in ends if it not in told]
                        containers = sorted(container for _, _, container, _ in told)
                        connection.heartbeat(node + 1, responses[node], containers)
                        responses[node] += 1
                        for _, _, _, app in told:
                            left[app] -= 1
                            if left[app] == 0:
                                connection.finish_master(app)
                for name, row in enumerate(rows, 1):
                    if int(row["submit_ms"]) == now:
                        app = connection.submit(paths[row["queue"]], row["user"])
                        connection.register_master(app)
                        resource = Resource(int(row["memory"]), int(row["vcores"]))
                        connection.allocate(app, 0, [Ask(int(row["priority"]), 0, int(row["containers"]), resource)])
                        apps[app], left[app] = (str(name), int(row["duration_ms"])), int(row["containers"])
                for _ in range(1000):
                    cluster.copy(0)
                    proposal = cluster.propose(0, start)
                    if proposal == ["none"]:
                        break
                    verdict, start = cluster.commit(0), start + 1
                    self.assertEqual(verdict[0], "done")
                    if proposal[0] == "grant":
                        app, node = int(proposal[1]), int(proposal[4])
                        name, duration = apps[app]
                        first, _, end = times.get(name, (now, now, 0))
                        times[name] = (first, now, max(end, now + duration))
                        ends.append((now + duration, node, int(verdict[3]), app))
                else:
                    self.fail("the worker finds something to propose for ever")
                if len(apps) == len(rows) and not any(left.values()):
                    return times
        self.fail("the slow simulation has not ended after a minute of simulated time")

    def test_it_is_what_a_slow_simulation_does(self):
        for seed in (1, 2):
            jobs = self.trace(seed)
            status, _, said = self.play({"now": self.SETTINGS}, jobs, "--node", "5120,5", "--count", self.NODES,
                                        "--heartbeat", self.PERIOD, out=str(seed))
            self.assertEqual((status, said), (0, ""))
            self.assertEqual(self.times(out=str(seed)), self.slowly(jobs))
            self.assertTrue(any(int(row["reserved_memory"]) for row in self.rows("queues.csv", str(seed))))

    def test_the_sum_over_queues_is_the_clusters(self):
        jobs = self.trace(3)
        _, printed, _ = self.play({"now": self.SETTINGS}, jobs, "--node", "5120,5", "--count", self.NODES)
        by_time = {}
        for row in self.rows("queues.csv"):
            amounts = tuple(int(value) for value in list(row.values())[3:])
            by_time.setdefault(row["time_ms"], {})[row["queue"]] = amounts
        self.assertGreater(len(by_time), 5)
        self.assertGreater(max(queues["root"][0] for queues in by_time.values()), 0)
        for queues in by_time.values():
            self.assertEqual(queues["root.dev"], added(queues["root.dev.x"], queues["root.dev.y"]))
            self.assertEqual(queues["root"], added(queues["root.prod"], queues["root.dev"]))
        counts = [int(line.split()[1]) for line in printed.splitlines() if line.startswith("containers ")]
        self.assertEqual(counts[0], sum(int(row.split(",")[3]) for row in jobs))
        self.assertEqual(counts[0], sum(counts[1:]))
        self.assertEqual(len(counts), 4)

    def test_a_trace_in_another_order_is_played_by_time(self):
        jobs = self.trace(4)
        for out, rows in (("sorted", jobs), ("turned", [*jobs[20:], *jobs[:20]])):
            self.play({"now": self.SETTINGS}, rows, "--node", "5120,5", "--count", self.NODES, out=out)
        times = [sorted(self.times(out=out).values()) for out in ("sorted", "turned")]
        self.assertEqual(times[0], times[1])


def added(one, other):
    return tuple(a + b for a, b in zip(one, other))


class Failing(Case):
    def test_a_trace_as_a_spreadsheet_writes_it(self):
        """With a mark of the byte order, other ends of lines, quotes, an empty line and columns in another order."""
        trace = self.write("jobs.csv", "\ufeffqueue,submit_ms,user,containers,duration_ms,memory,vcores\r",
                           '"a", 3 ,ann,1,"100",1024,1\r', "\r")
        status, _, said = self.run_main("--config", self.write("now.conf", *TWO_QUEUES), "--jobs", trace, "--count", 1,
                                        "--out", f"{self.folder}/out")
        self.assertEqual((status, said, self.times()), (0, "", {"1": (3, 3, 103)}))

    def test_a_queue_that_is_not_there(self):
        status, printed, said = self.play({"now": TWO_QUEUES}, ["0,a,ann,1,100,1024,1,0,1", "5,c,ann,1,100,1024,1,0,1"],
                                          "--node", "8192,8", "--count", 1)
        self.assertEqual(status, 1)
        self.assertEqual(said, f"capsched-simulate: now: 1 job, first job 2 ({self.folder}/jobs.csv: line 3): refused: "
                               "UnknownQueue (1), c\n")
        self.assertEqual([(row["job"], row["state"]) for row in self.rows("jobs.csv")],
                         [("2", "UnknownQueue"), ("1", "ended")])
        self.assertEqual([line.split() for line in printed.splitlines()[1:3]], [["jobs", "2"], ["refused", "1"]])

    def test_where_no_job_is_accepted_there_are_no_waits(self):
        status, printed, _ = self.play({"now": TWO_QUEUES}, ["7,c,ann,1,100,1024,1,0,1"], "--count", 1)
        self.assertEqual(status, 1)
        lines = [line.rsplit(None, 1) for line in printed.splitlines()]
        for row in (["makespan, s", "0.000"], ["memory used, % of the cluster", "-"], ["  longest", "-"]):
            self.assertIn(row, lines)

    def test_a_queue_with_queues_below_it_and_a_stopped_one(self):
        settings = [f"{P}.root.queues=a,b", f"{P}.root.a.queues=x", f"{P}.root.b.state=STOPPED"]
        jobs = ["0,a,ann,1,100,1024,1,0,1", "5,b,ann,1,100,1024,1,0,1"]
        status, _, said = self.play({"now": settings}, jobs, "--node", "8192,8", "--count", 1)
        self.assertEqual((status, [line.rsplit(": ", 1)[1] for line in said.splitlines()]),
                         (1, ["NotLeaf (2), root.a", "QueueStopped (3), root.b"]))

    def test_jobs_that_are_too_large_are_named(self):
        """Each has a container that nothing ever makes room for; the last job is larger than the cluster, and not its
        containers, so it ends."""
        settings = [f"{P}.root.queues=a,b", f"{P}.root.a.capacity=[memory=9216,vcores=9]",
                    f"{P}.root.b.capacity=[memory=2048,vcores=2]", f"{P}.root.b.user-limit-factor=2",
                    f"{P}.root.b.maximum-capacity=[memory=5120,vcores=8]"]
        jobs = ["0,a,ann,1,100,8192,1,0,1", "0,b,ann,1,100,6144,1,0,1", "0,b,ann,2,100,4097,1,0,1",
                "0,a,ann,1,100,9000,1,0,1", "0,a,bob,30,100,1024,1,0,1"]
        status, printed, said = self.play({"now": settings}, jobs, "--node", "7168,8", "--count", 2)
        self.assertEqual(status, 1)
        self.assertEqual([line.split("): ", 1)[1] for line in said.splitlines()], [
            "refused: AskTooLarge (9), root.a",
            "a container of [8192 MiB, 1 vcore] is larger than any node",
            "a container of [6144 MiB, 1 vcore] is larger than the maximum of root.b, [5120 MiB, 8 vcores]",
            "a container of [5120 MiB, 1 vcore] is over the user limit of root.b, whose guarantee is "
            "[2048 MiB, 2 vcores]"])
        states = {row["job"]: (row["state"], row["granted"]) for row in self.rows("jobs.csv")}
        self.assertEqual(states, {"1": ("waiting", "0"), "2": ("waiting", "0"), "3": ("waiting", "0"),
                                  "4": ("AskTooLarge", "0"), "5": ("ended", "30")})
        self.assertEqual([line.split() for line in printed.splitlines()[1:4]],
                         [["jobs", "5"], ["refused", "1"], ["never", "granted", "all", "3"]])
        last = self.rows("queues.csv")[-3]
        self.assertEqual((last["queue"], last["memory"], last["applications"], last["wanted_containers"]),
                         ("root", "0", "3", "4"))

    def test_a_bad_trace(self):
        good = "0,a,ann,1,100,1024,1,0,1"
        cases = [
            ("", "line 1: no column submit_ms, queue"),
            (f"{HEAD}\n", "there are no jobs"),
            ("submit_ms,queue,user\n", "line 1: no column containers, duration_ms, memory, vcores"),
            (f"{HEAD},queue\n{good},a\n", "line 1: a column stands twice"),
            (f"{HEAD}\n{good}\n0,a,ann,1,100,1024\n", "line 3: a row has 9 values"),
            (f"{HEAD}\n{good},7\n", "line 2: a row has 9 values"),
            (f"{HEAD}\n{good.replace('100', '-1')}\n", "line 2: duration_ms is '-1': a whole number from 1"),
            (f"{HEAD}\n{good.replace('ann', 'a b')}\n", "line 2: user is 'a b': 1 to 64 characters"),
            (f"{HEAD}\n{good.replace(',1,0,1', ',,0,1')}\n", "line 2: vcores is missing"),
            (f"{HEAD}\n{good.replace('1024,1', '0,0')}\n", "line 2: a container is for more than nothing"),
            (f'{HEAD}\n{good}\n0,"a\n', "line 3: "),
            ('[{"job.tasks": [{"duration.ms": 5}]}', "line 2: no JSON: "),
            ('\n{"job.tasks": [\n{"duration.ms" 5}]}', "line 3: no JSON: Expecting ':' delimiter"),
            ('{"job.tasks": []}', "line 1: an object has a list job.tasks"),
            ('[\n{"job.tasks": [{"duration.ms": 5}]}, 7]', "line 2: an object is expected, and not 7"),
            ('{"job.tasks": [7]}', "line 1: a task is an object, and not 7"),
            ('{"job.tasks": [{"container.start.ms": 9, "container.end.ms": 9}]}', "end.ms 9 is not after"),
            ('{"job.tasks": [{"count": 3}]}', "container.start.ms is missing"),
            ('{"job.start.ms": -4, "job.tasks": [{"duration.ms": 5}]}', "job.start.ms is -4"),
        ]
        settings = self.write("now.conf", *TWO_QUEUES)
        for text, wanted in cases:
            trace = self.write("bad", text[:-1] if text.endswith("\n") else text)
            status, printed, said = self.run_main("--config", settings, "--jobs", trace, "--node", "8192,8",
                                                  "--count", 1, "--out", f"{self.folder}/no")
            self.assertEqual((status, printed), (2, ""), text)
            self.assertIn(wanted, said, text)
            self.assertIn(trace, said, text)
            self.assertFalse(os.path.exists(f"{self.folder}/no"), text)

    def test_bytes_that_are_no_text(self):
        with open(f"{self.folder}/bad", "wb") as it:
            it.write(b"submit_ms\xff\n")
        status, _, said = self.run_main("--config", self.write("now.conf", *TWO_QUEUES), "--jobs", f"{self.folder}/bad",
                                        "--count", 1)
        self.assertEqual((status, "no text in UTF-8" in said), (2, True))

    def test_bad_settings_nodes_and_words(self):
        settings, trace = self.write("now.conf", *TWO_QUEUES), self.write("jobs.csv", HEAD, "0,a,ann,1,100,1024,1,0,1")
        over = self.write("over.conf", *TWO_QUEUES, f"{P}.root.a.maximum-capacity=[memory=2048,vcores=4]")
        nodes = self.write("nodes", '{"rack": "r", "nodes": [{"node": "n1"}, {"node": "n1"}]}')
        cases = [
            (["--config", over, "--count", 1], f"{over}: line 2: {P}.root.a.capacity: more than the queue's maximum"),
            (["--config", f"{self.folder}/none", "--count", 1], "none"),
            (["--config", settings], "how many nodes there are is not known"),
            (["--config", settings, "--config", settings, "--count", 1], "named twice"),
            (["--config", settings, "--nodes", nodes], f"{nodes}: the node n1 stands twice"),
            (["--config", settings, "--nodes", trace], "no JSON"),
            (["--config", settings, "--node", "0,0", "--count", 1], "ZeroResource"),
        ]
        for words, wanted in cases:
            status, printed, said = self.run_main(*words, "--jobs", trace)
            self.assertEqual((status, printed), (2, ""), words)
            self.assertIn(wanted, said)


class Traces(Case):
    # as the documentation of Hadoop's Scheduler Load Simulator has it, without its comments
    SLS = """
{
  "num.nodes": 3,
  "num.racks": 1
}
{
  "am.type" : "mapreduce", "job.start.ms" : 0, "job.end.ms" : 95375,
  "job.queue.name" : "sls_queue_1", "job.id" : "job_1", "job.user" : "default",
  "job.tasks" : [ {
    "container.host" : "/default-rack/node1", "container.start.ms" : 6664, "container.end.ms" : 23707,
    "container.priority" : 20, "container.type" : "map"
  }, {
    "container.host" : "/default-rack/node3", "container.start.ms" : 6665, "container.end.ms" : 21593,
    "container.priority" : 20, "container.type" : "map"
  }, {
    "container.host" : "/default-rack/node2", "container.start.ms" : 68770, "container.end.ms" : 86613,
    "container.priority" : 20, "container.type" : "map"
  } ]
}
{
  "am.type" : "mapreduce", "job.start.ms" : 105204, "job.end.ms" : 197256,
  "job.queue.name" : "sls_queue_2", "job.id" : "job_2", "job.user" : "default",
  "job.tasks" : [ {
    "container.host" : "/default-rack/node1", "container.start.ms" : 111822, "container.end.ms" : 133985,
    "container.priority" : 20, "container.type" : "map"
  }, {
    "count": 2, "duration.ms": 19589, "container.memory-mb": 2048, "container.vcores": 2,
    "container.priority" : 10, "container.type" : "reduce"
  } ]
}
"""
    SETTINGS = [f"{P}.root.queues=jobs", f"{P}.root.jobs.queues=sls_queue_1,sls_queue_2",
                f"{P}.root.jobs.capacity=[memory=20480,vcores=20]",
                f"{P}.root.jobs.sls_queue_1.capacity=[memory=10240,vcores=10]",
                f"{P}.root.jobs.sls_queue_2.capacity=[memory=10240,vcores=10]"]

    def test_hadoops_own(self):
        """All containers begin at once. They run 17,043, 14,928 and 17,843 ms, and 22,163 and twice 19,589 ms. The
        nodes are the three of the trace, of 10,240 MiB and 10 vcores as in Hadoop's simulator."""
        settings, trace = self.write("now.conf", *self.SETTINGS), self.write("sls.json", self.SLS)
        status, printed, said = self.run_main("--config", settings, "--jobs", trace, "--out", f"{self.folder}/out")
        self.assertEqual(status, 0)
        self.assertEqual(self.times(), {"job_1": (0, 0, 17843), "job_2": (105204, 105204, 127367)})
        self.assertEqual([row["queue"] for row in self.rows("jobs.csv")],
                         ["root.jobs.sls_queue_1", "root.jobs.sls_queue_2"])
        self.assertEqual(said, f"capsched-simulate: passed over once, first at {trace}: line 20: container.type: the "
                               "containers of a job are all asked for when it is submitted, reduces with maps\n")
        # 1024 times 49,814 and 22,163, and 2048 times 39,178, of 30,720 times 127,367
        self.assertIn(["memory used, % of the cluster", "3.93"], [it.rsplit(None, 1) for it in printed.splitlines()])

    def test_tasks_begin_by_priority_and_then_in_the_order_of_the_trace(self):
        """A node with room for one container, which runs 3000, 1000, 1000 and 5000 ms in turn."""
        tasks = [{"duration.ms": 1000, "count": 2}, {"duration.ms": 5000},
                 {"duration.ms": 3000, "container.priority": 19}]
        trace = self.write("sls.json", json.dumps({"job.queue.name": "a", "job.tasks": tasks}))
        status, _, _ = self.run_main("--config", self.write("now.conf", *TWO_QUEUES), "--jobs", trace, "--node",
                                     "1024,1", "--count", 1, "--out", f"{self.folder}/out")
        self.assertEqual((status, self.times()), (0, {"0": (0, 5000, 10_000)}))

    def test_what_is_passed_over_is_refused_with_strict(self):
        settings, trace = self.write("now.conf", *self.SETTINGS), self.write("sls.json", self.SLS)
        status, printed, said = self.run_main("--config", settings, "--jobs", trace, "--strict")
        self.assertEqual((status, printed), (2, ""))
        self.assertIn("line 20: container.type", said)

    def test_nodes_and_hosts(self):
        """A host that the nodes don't have is passed over, and so are labels; a node's memory stands in its file."""
        nodes = self.write("nodes", '{"rack": "r1", "nodes": [{"node": "node1", "memory-mb": 4096, "vcores": 4}]}',
                           '{"rack": "/r2", "nodes": [{"node": "n2", "labels": ["x"]}]}')
        settings, trace = self.write("now.conf", *self.SETTINGS), self.write("sls.json", self.SLS)
        status, _, said = self.run_main("--config", settings, "--jobs", trace, "--nodes", nodes, "--node", "2048,2",
                                        "--out", f"{self.folder}/out")
        self.assertEqual((status, [row["state"] for row in self.rows("jobs.csv")]), (0, ["ended", "ended"]))
        notes = [(line.split(" ")[3].rstrip(","), line.split(": ")[-2]) for line in said.splitlines()]
        self.assertEqual(notes, [
            ("once", "labels"), ("2", "container.host of a node that the cluster does not have"),
            ("once", "container.type")])
        with open(f"{self.folder}/out/queues.svg", encoding="utf-8") as it:
            self.assertIn("root, memory in MiB, now: at most 5120 in use; of the nodes 6144;", it.read())

    def test_objects_in_a_list_and_long_ones(self):
        """A list of two jobs, of which the second has more tasks than are read at once: they are alike, and so one
        ask."""
        tasks = [{"duration.ms": "5", "container.priority": 3}] * 5000
        jobs = [{"job.count": 2, "job.user": "ann", "job.tasks": tasks[:1]}, {"job.start.ms": 7, "job.tasks": tasks}]
        trace = self.write("list.json", json.dumps(jobs, indent=1))
        found = list(read_jobs(trace, Notes(), set()))
        self.assertEqual([(job.name, job.submit, job.user, job.queue, job.containers) for job in found], [
            ("0", 0, "ann", "default", 1), ("1", 0, "ann", "default", 1), ("2", 7, "default", "default", 5000)])
        self.assertEqual([len(job.tasks) for job in found], [1, 1, 1])
        self.assertEqual(found[2].where, f"{trace}: line 12")

    def test_more_asks_than_an_application_may_have(self):
        """Of 300 asks, each of its own priority, 256 stand at once; all containers begin at 0, and each runs as long as
        its task says."""
        tasks = [{"duration.ms": 1000 + n, "container.priority": n, "container.memory-mb": 1024} for n in range(300)]
        trace = self.write("many.json", json.dumps({"job.queue.name": "a", "job.tasks": tasks}))
        settings = [f"{P}.root.queues=a", f"{P}.root.a.capacity=[memory=400000,vcores=400]"]
        status, _, _ = self.run_main("--config", self.write("now.conf", *settings), "--jobs", trace, "--node",
                                     "400000,400", "--count", 1, "--out", f"{self.folder}/out")
        self.assertEqual((status, self.times()), (0, {"0": (0, 0, 1299)}))
        row = self.rows("jobs.csv")[0]
        self.assertEqual((row["containers"], row["granted"]), ("300", "300"))

    def test_an_ask_that_comes_later_and_is_too_large(self):
        tasks = [{"duration.ms": 1, "container.priority": n, "container.memory-mb": 1024 if n < 299 else 9000}
                 for n in range(300)]
        trace = self.write("many.json", json.dumps({"job.queue.name": "a", "job.tasks": tasks}))
        status, _, said = self.run_main("--config", self.write("now.conf", *TWO_QUEUES), "--jobs", trace, "--node",
                                        "400000,400", "--count", 1)
        self.assertEqual((status, said.rsplit(": ", 1)[1]), (1, "AskTooLarge (9), root.a\n"))


class Example(Case):
    """The question in examples/what_if."""

    def test_its_jobs_are_those_of_the_script(self):
        made = subprocess.run([sys.executable, f"{EXAMPLES}/what_if/make_jobs.py"], capture_output=True, text=True,
                              timeout=60)
        self.assertEqual((made.returncode, made.stdout), (0, read("what_if/jobs.csv")))

    def test_it_is_answered_as_it_says(self):
        """The tables and the picture are those that stand there."""
        folder = f"{EXAMPLES}/what_if"
        words = ["--config", f"{folder}/now.conf", "--config", f"{folder}/then.conf", "--jobs", f"{folder}/jobs.csv",
                 "--node", "16384,16", "--count", 8, "--out", self.folder]
        status, printed, said = self.run_main(*words)
        self.assertEqual((status, printed, said), (0, read("what_if/what_if.out"), ""))
        with open(f"{self.folder}/queues.svg", encoding="utf-8") as it:
            self.assertEqual(it.read(), read("what_if/queues.svg"))


class Report(unittest.TestCase):
    def test_percentiles_are_by_nearest_rank(self):
        self.assertEqual([rank([30, 10, 20, 40], percent) for percent in (50, 95)], [20, 40])
        self.assertEqual([rank([7], percent) for percent in (50, 95)], [7, 7])
        self.assertEqual(rank(range(1, 101), 95), 95)

    def test_values_and_differences(self):
        self.assertEqual(list(Row("x", Unit.SECONDS, [1500, 1005, 2000]).cells()),
                         ["1.500", "1.005", "-0.495", "2.000", "+0.500"])
        self.assertEqual(list(Row("x", Unit.PERCENT, [None, 1205]).cells()), ["-", "12.05", "-"])
        self.assertEqual(list(Row("x", Unit.COUNT, [3, 3]).cells()), ["3", "3", "0"])


class Terminal(Case):
    def test_progress_on_a_terminal(self):
        settings, trace = self.write("now.conf", *TWO_QUEUES), self.write("jobs.csv", HEAD, *THREE_JOBS)
        terminal, side = pty.openpty()
        self.addCleanup(os.close, terminal)
        words = ["--config", settings, "--jobs", trace, "--count", "2", "--program", PROGRAM]
        ran = subprocess.run([sys.executable, "-m", "capsched.simulate", *words], stdout=subprocess.PIPE, stderr=side,
                             timeout=60)
        os.close(side)
        self.assertEqual(ran.returncode, 0)
        self.assertIn(b"now: at 0 s, 0 of 6 containers", os.read(terminal, 4096))


if __name__ == "__main__":
    unittest.main()
