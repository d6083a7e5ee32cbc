"""Tests of messages and connections: the bytes against docs/FORMATS.md, and the calls against `capsched replay` and a
`capsched serve` that the tests start.

    PYTHONPATH=clients/python/src python3 -m unittest discover -s clients/python/tests

The program is crates/capsched/out/capsched, or what CAPSCHED names. Where there is none, the tests that need it
fail."""
import re
import tempfile
import threading
import unittest

from capsched import (
    Allocate, AllocateReply, Allocations, Ask, BadReply, Cause, ClusterInfo, ClusterReport, Connection, End, Ended,
    Fault, FinishMaster, Grant, Heartbeat, HeartbeatReply, NodeGone, QueueInfo, QueueReport, Refresh, Refusal, Refused,
    RegisterMaster, RegisterNode, Replay, Resource, SetQueueState, SettingsFault, Submit, frame,
)
from serving import PROGRAM, TOP, line_of, serve, wait_until

QUEUES = "yarn.scheduler.capacity.root.queues=default"
SETTINGS = [QUEUES, "yarn.scheduler.capacity.root.default.capacity=[memory=4096,vcores=4]"]
GPU_SETTINGS = [QUEUES, "yarn.scheduler.capacity.root.default.capacity=[memory=4096,vcores=4,yarn.io/gpu=2]"]
NONE, SMALL, LARGE = Resource(0, 0), Resource(1024, 1), Resource(8192, 8)
ASKED = Ask(1, 0, 2, Resource(1000, 1))
WITH_GPU, WITH_GPUS = Resource(1024, 1, 1), Resource(8192, 8, 2)
# the exchange of docs/FORMATS.md in version 1, by call id
EXCHANGE = {
    1: (RegisterNode("n1", "/r1", LARGE), 1),
    2: (Submit("root.default", "u1"), 1),
    3: (RegisterMaster(1), Allocations(SMALL, Resource(8192, 4))),
    4: (Allocate(1, 0, [ASKED]), AllocateReply(1, 0, [], [])),
    5: (Allocate(1, 1), AllocateReply(2, 0, [Grant(1, 1, 0, 1, "n1", SMALL), Grant(2, 1, 0, 1, "n1", SMALL)], [])),
    6: (Allocate(1, 2, [], [1]), AllocateReply(3, 0, [], [End(1, Cause.RELEASED)])),
    7: (Heartbeat(1, 0, [2]), HeartbeatReply(1, 0, 0)),
    9: (FinishMaster(1), 0),
    10: (ClusterInfo(), ClusterReport(1, 0, 0, LARGE, NONE)),
    11: (QueueInfo("root.default"), QueueReport(True, True, Resource(4096, 4), None, NONE, 0)),
    12: (SetQueueState("root.default", False), None),
    13: (NodeGone(1), 0),
    15: (Refresh(SETTINGS[0]), None),
}


# and in version 2
EXCHANGE_2 = {
    1: (RegisterNode("n1", "/r1", WITH_GPUS), 1),
    2: (Submit("root.default", "u1"), 1),
    3: (RegisterMaster(1), Allocations(SMALL, Resource(8192, 4, 2**40))),
    4: (Allocate(1, 0, [Ask(1, 0, 1, WITH_GPU)]), AllocateReply(1, 0, [], [])),
    5: (Allocate(1, 1), AllocateReply(2, 0, [Grant(1, 1, 0, 1, "n1", WITH_GPU)], [])),
    6: (QueueInfo("root.default"), QueueReport(True, True, Resource(4096, 4, 2), None, WITH_GPU, 1)),
    7: (ClusterInfo(), ClusterReport(1, 1, 1, WITH_GPUS, WITH_GPU)),
}


def documented(version):
    """The exchange as docs/FORMATS.md spells it in a version: by call id the request and the reply, as frames."""
    with open(f"{TOP}/docs/FORMATS.md", encoding="utf-8") as it:
        messages = it.read().split("\n## Messages\n")[1].split("\n### Bounds\n")[0]
    messages = messages.split("\n### The same in version 2\n")[version - 1]
    found, into = {}, None
    for line in messages.splitlines():
        cells = [cell.strip() for cell in line.strip("|").split("|")] if line.startswith("|") else []
        if len(cells) != 3:
            continue
        digits = (it for it in re.findall(r"`([0-9a-f ]+)`", cells[2]) if len(it) % 2 == 0 or " " in it)
        data = b"".join(bytes.fromhex(it) for it in digits)
        if cells[0] == "request":
            into = found.setdefault(int.from_bytes(data[6:10], "big"), [b"", b""])
        if into is not None and cells[0] in ("request", "reply"):
            side = ("request", "reply").index(cells[0])
        if into is not None and cells[0] != "Field":
            into[side] += data
    return found


class Bytes(unittest.TestCase):
    def test_requests_and_replies_are_as_documented(self):
        for version, exchange in ((1, EXCHANGE), (2, EXCHANGE_2)):
            found = documented(version)
            self.assertEqual(sorted(found), sorted(exchange))
            for call_id, (request, result) in exchange.items():
                sent, answered = found[call_id]
                self.assertEqual(frame(request.payload(call_id, version)).hex(), sent.hex(), request)
                self.assertEqual(int.from_bytes(answered[:4], "big"), len(answered) - 4, request)
                self.assertEqual(request.reply(answered[4:], call_id, version), result)

    def test_names_of_docs_and_names_of_before(self):
        """Each refusal, fault and cause has the word of docs/FORMATS.md, which was its name in Python before."""
        with open(f"{TOP}/docs/FORMATS.md", encoding="utf-8") as it:
            text = it.read()
        rows = dict(re.findall(r"^\| (\d+) \| ([A-Z][A-Za-z]+) \|", text, re.M))
        named = {str(it.value): it.word for it in Refusal if it not in (Refusal.BAD_LENGTH, Refusal.BAD_REQUEST)}
        self.assertEqual(named, rows)
        for enum in (Refusal, SettingsFault, Cause):
            for it in enum:
                self.assertIs(getattr(enum, it.word), it)
        self.assertEqual([it.word for it in SettingsFault][:3], ["BadLine", "UnknownKey", "Repeated"])
        self.assertTrue(all(Refused(it).to_do for it in Refusal))

    def test_what_requests_are_about(self):
        named = [request.named for request, _ in EXCHANGE.values()]
        self.assertEqual(named, [
            "RegisterNode n1", "Submit root.default", "RegisterMaster 1", "Allocate 1", "Allocate 1", "Allocate 1",
            "Heartbeat 1", "FinishMaster 1", "ClusterInfo", "QueueInfo root.default", "SetQueueState root.default",
            "NodeGone 1", "Refresh",
        ])

    def test_version_2_where_nothing_is_said(self):
        self.assertEqual(ClusterInfo().payload(3).hex(), "020a00000003")
        self.assertEqual(ClusterInfo().payload(3, 1).hex(), "010a00000003")
        with self.assertRaises(ValueError):
            ClusterInfo().payload(3, 3)

    def test_version_1_has_no_gpus(self):
        for request in (RegisterNode("n1", "/r1", WITH_GPUS), Allocate(1, 0, [Ask(1, 0, 1, WITH_GPU)])):
            request.payload(1, 2)
            with self.assertRaisesRegex(ValueError, "version 1 has no GPUs"):
                request.payload(1, 1)

    def test_resources_in_words(self):
        for resource, words in (
            (SMALL, "[1024 MiB, 1 vcore]"), (WITH_GPU, "[1024 MiB, 1 vcore, 1 GPU]"),
            (WITH_GPUS, "[8192 MiB, 8 vcores, 2 GPUs]"),
        ):
            self.assertEqual(str(resource), words)

    def test_a_refusal_has_its_number_and_name(self):
        for version in (1, 2):
            with self.assertRaises(Refused) as raised:
                Submit("root.default", "u1").reply(bytes.fromhex(f"0{version}010000000e03"), 14, version)
            refused, to_do = raised.exception, "start it with SetQueueState, or submit to another queue"
            self.assertEqual((refused.refusal, refused.refusal.value, refused.to_do), (Refusal.QUEUE_STOPPED, 3, to_do))
            self.assertEqual(str(refused), f"Submit root.default: QueueStopped (3); {to_do}")

    def test_a_refusal_of_property_lines_has_its_fault(self):
        with self.assertRaises(Refused) as raised:
            Refresh("").reply(bytes.fromhex("020b0000000a" + "11" + "00000000" + "0a"), 10)
        refused = raised.exception
        self.assertEqual((refused.refusal, refused.fault), (Refusal.BAD_SETTINGS, Fault(0, SettingsFault.NO_CHILD)))
        self.assertTrue(str(refused).startswith("Refresh: BadSettings (17), line 0: NoChild (10); "))
        for bad in ("11", "11" + "00000000", "11" + "00000000" + "0b", "11" + "00000000" + "0a" + "00", "12" + "00"):
            with self.assertRaises(BadReply, msg=bad):
                Refresh("").reply(bytes.fromhex("020b0000000a" + bad), 10)

    def test_property_lines_to_the_longest_payload(self):
        self.assertEqual(frame(Refresh("").payload(10)).hex(), "0000000a020b0000000a00000000")
        self.assertEqual(len(Refresh("#" * 65526).payload(1)), 65536)

    def test_faults_answer_any_request(self):
        for version, status, refusal in (
            (1, "28", Refusal.BAD_LENGTH), (1, "29", Refusal.BAD_REQUEST),
            (2, "28", Refusal.BAD_LENGTH), (2, "29", Refusal.BAD_REQUEST),
        ):
            with self.assertRaises(Refused) as raised:
                ClusterInfo().reply(bytes.fromhex("010000000000" + status), 7, version)
            self.assertEqual(raised.exception.refusal, refusal)
            with self.assertRaises(BadReply):
                ClusterInfo().reply(bytes.fromhex("020000000000" + status), 7, version)

    def test_other_bytes_are_no_reply(self):
        for version, other in (("01", "02"), ("02", "01")):
            good = version + "0400000009" + "00" + "00000000"
            for bad in (
                other + "0400000009" + "0000000000", "030400000009" + "0000000000",
                version + "0500000009" + "0000000000", version + "0400000008" + "0000000000",
                good[:-2], good + "00", version + "040000000911", "010000000000" + "03",
                version + "040000000903" + "00",
            ):
                with self.assertRaises(BadReply, msg=bad):
                    FinishMaster(1).reply(bytes.fromhex(bad), 9, int(version))
            self.assertEqual(FinishMaster(1).reply(bytes.fromhex(good), 9, int(version)), 0)

    def test_what_no_field_holds_is_not_sent(self):
        most = Ask(2**32 - 1, 2**64 - 1, 2**32 - 1, Resource(2**40, 2**40), "r" * 64)
        payload = Allocate(1, 0, [most] * 256, [1] * 1024).payload(1, 1)
        self.assertEqual(len(payload), 6 + 8 + 4 + 2 + 256 * 97 + 2 + 1024 * 8)
        most = Ask(2**32 - 1, 2**64 - 1, 2**32 - 1, Resource(2**40, 2**40, 2**40), "r" * 64)
        payload = Allocate(1, 0, [most] * 256, [1] * 1024).payload(1)
        self.assertEqual(len(payload), 6 + 8 + 4 + 2 + 256 * 105 + 2 + 1024 * 8)
        bad = [
            Submit("", "u"), Submit("r" * 256, "u"), Submit("root.a", "a b"), Submit("root.ä", "u"),
            Submit("root", "u" * 65), RegisterMaster(2**64), RegisterMaster(-1),
            RegisterNode("n", "/r", Resource(2**40 + 1, 1)), RegisterNode("n", "/r", Resource(1, -1)),
            RegisterNode("n", "/r", Resource(1, 1, 2**40 + 1)),
            Allocate(1, 2**32), Allocate(1, 0, [ASKED] * 257), Heartbeat(1, 0, [1] * 1025), Refresh("#" * 65527),
        ]
        for request in bad:
            for version in (1, 2):
                with self.assertRaises(ValueError, msg=request):
                    request.payload(1, version)


class Replayed(unittest.TestCase):
    def cluster(self, settings=SETTINGS):
        replay = Replay([PROGRAM, "replay"], settings)
        self.addCleanup(replay.close)
        return replay

    def test_the_documented_exchange_in_version_2(self):
        replay = self.cluster(GPU_SETTINGS)
        connection = replay.connect()
        for call_id, (request, result) in EXCHANGE_2.items():
            if call_id == 5:
                self.assertEqual(replay.turn(0), ["done", "0", "grant", "1"])
            self.assertEqual(connection.call(request), result, request)

    def test_either_version_on_one_connection(self):
        replay = self.cluster(GPU_SETTINGS)
        connection = replay.connect(version=1)
        connection.register_node("n1", "/r1", LARGE)
        with self.assertRaises(ValueError):
            connection.register_node("n2", "/r1", WITH_GPUS)
        connection.version = 2
        connection.register_node("n2", "/r1", WITH_GPUS)
        pending = [connection.send(ClusterInfo())]
        connection.version = 1
        pending.append(connection.send(ClusterInfo()))
        self.assertEqual([it.result().total for it in pending], [Resource(16384, 16, 2), Resource(16384, 16)])

    def test_a_kept_reply_in_the_other_version(self):
        replay = self.cluster(GPU_SETTINGS)
        old, new = replay.connect(version=1), replay.connect()
        new.register_node("n1", "/r1", WITH_GPUS)
        app = new.submit("root.default", "u1")
        self.assertEqual(old.register_master(app).maximum, Resource(8192, 4))
        new.allocate(app, 0, [Ask(1, 0, 1, WITH_GPU)])
        replay.copy(0)
        self.assertEqual(replay.propose(0), "grant 1 1 0 1 1024 1 1".split())
        replay.commit(0)
        self.assertEqual([it.allocate(app, 1).grants[0].resource for it in (old, new, old)], [SMALL, WITH_GPU, SMALL])

    def test_the_documented_exchange(self):
        replay = self.cluster()
        node, master = replay.connect(version=1), replay.connect(version=1)
        on_node = (RegisterNode, Heartbeat, NodeGone)
        for call_id, (request, result) in EXCHANGE.items():
            if call_id == 5:
                turns = [" ".join(replay.turn(0)) for _ in range(3)]
                self.assertEqual(turns, ["done 0 grant 1", "done 0 grant 2", "idle"])
            if call_id == 9:
                self.assertEqual(master.allocate(1, 3).ends, [End(2, Cause.ENDED_ON_NODE)])
            if call_id == 15:
                with self.assertRaises(Refused) as raised:
                    master.submit("root.default", "u1")
                self.assertEqual(raised.exception.refusal, Refusal.QUEUE_STOPPED)
            self.assertEqual((node if isinstance(request, on_node) else master).call(request), result, request)
        self.assertEqual(master.queue_info("root.default"), QueueReport(True, True, NONE, None, NONE, 0))

    def test_a_refresh_is_refused_as_a_whole(self):
        replay = self.cluster()
        operator = replay.connect()
        before = operator.queue_info("root.default")
        for lines, refusal, fault in (
            ("", Refusal.BAD_SETTINGS, Fault(0, SettingsFault.NO_CHILD)),
            (SETTINGS[0] + "\nx", Refusal.BAD_SETTINGS, Fault(2, SettingsFault.BAD_LINE)),
            ("yarn.scheduler.capacity.root.queues=other", Refusal.OTHER_QUEUES, None),
        ):
            with self.assertRaises(Refused) as raised:
                operator.refresh(lines)
            self.assertEqual((raised.exception.refusal, raised.exception.fault), (refusal, fault))
            self.assertEqual(operator.queue_info("root.default"), before)
        operator.refresh("\n".join(SETTINGS).replace("memory=4096", "memory=8192"))
        self.assertEqual(operator.queue_info("root.default").guaranteed, Resource(8192, 4))

    def test_a_proposal_in_words(self):
        replay = self.cluster()
        master = replay.connect()
        replay.connect().register_node("n1", "/r1", LARGE)
        app = master.submit("root.default", "u1")
        master.register_master(app)
        master.allocate(app, 0, [ASKED])
        replay.copy(3)
        self.assertEqual(replay.propose(3), "grant 1 1 0 1 1024 1".split())
        self.assertEqual(replay.step("propose 4 0"), "idle")

    def test_many_requests_in_flight(self):
        connection = self.cluster().connect()
        connection.register_node("n1", "/r1", LARGE)
        waiting = [connection.send(ClusterInfo() if n % 2 else QueueInfo("root.default")) for n in range(3000)]
        for n, pending in reversed(list(enumerate(waiting))):
            self.assertIsInstance(pending.result(), ClusterReport if n % 2 else QueueReport)

    def test_many_lines_in_flight(self):
        replay = self.cluster()
        # should either side wait for the other, the program is ended, and the test fails
        timer = threading.Timer(30, replay._process.kill)
        timer.start()
        self.addCleanup(timer.cancel)
        for number in range(50_000):
            replay.send(f"copy {number % 64}")
            replay.send("commit 64")
        replay.flush()
        printed = [replay.read_line() for _ in range(100_000)]
        self.assertEqual(printed[::2], [f"copied {number % 64}" for number in range(50_000)])
        self.assertEqual(set(printed[1::2]), {"idle"})
        self.assertEqual(replay.turn(0), ["idle"])
        self.assertEqual(replay.close(), 0)

    def test_its_last_words(self):
        replay = self.cluster()
        for line in ("copy 1", "copies", "copy 2"):
            replay.send(line)
        self.assertEqual(replay.read_line(), "copied 1")
        with self.assertRaisesRegex(Ended, "the replay has ended: bad line 4"):
            replay.read_line()
        for _ in range(2):
            with self.assertRaises(Ended):
                replay.read_line()
        with self.assertRaises(Ended):
            replay.send("copy 3")
        self.assertEqual(replay.close(), 2)

    def test_faults_of_the_settings_end_it(self):
        with self.assertRaisesRegex(Ended, "config 1 2"):
            self.cluster(["yarn.scheduler.capacity.root.acl_submit_applications=*"]).connect()


class Served(unittest.TestCase):
    """Against the daemon, on 127.0.0.1 alone."""

    def serve(self, connections, lines=SETTINGS):
        settings = tempfile.NamedTemporaryFile("w", suffix=".conf")
        self.addCleanup(settings.close)
        settings.write("\n".join(lines))
        settings.flush()
        return serve(self, settings.name, connections)

    def test_a_container_from_the_ask_to_its_end(self):
        port, daemon = self.serve(2)
        with Connection.to_port(port, timeout=20) as node, Connection.to_port(port, timeout=20) as master:
            number = node.register_node("n1", "/r1", LARGE)
            app = master.submit("root.default", "ann")
            self.assertEqual(master.register_master(app).minimum, SMALL)
            response, grants = master.allocate(app, 0, [ASKED]).response, []

            def are_granted():
                nonlocal response
                reply = master.allocate(app, response)
                response = reply.response
                grants.extend(reply.grants)
                return len(grants) >= 2

            wait_until(self, are_granted, "two containers are not granted")
            told = [(it.container, it.node, it.host, it.resource) for it in grants]
            self.assertEqual(told, [(1, number, "n1", SMALL), (2, number, "n1", SMALL)])
            self.assertEqual(master.queue_info("root.default").used, Resource(2048, 2))
            self.assertEqual(node.heartbeat(number, 0, [1]), HeartbeatReply(1, 0, 1))
            self.assertEqual(node.heartbeat(number, 0, [1]), HeartbeatReply(1, 0, 1))
            self.assertEqual(master.allocate(app, response).ends, [End(1, Cause.ENDED_ON_NODE)])
            self.assertEqual(master.finish_master(app), 1)
            with self.assertRaises(Refused) as raised:
                master.allocate(app, response)
            self.assertEqual(raised.exception.refusal, Refusal.UNKNOWN_APPLICATION)
        self.assertRegex(line_of(daemon), r"^closed epochs=1 entries=\d+\n$")
        self.assertEqual(daemon.wait(20), 0)

    def test_a_container_with_a_gpu_beside_a_client_of_version_1(self):
        port, daemon = self.serve(2, GPU_SETTINGS)
        with Connection.to_port(port, timeout=20) as new, Connection.to_port(port, timeout=20, version=1) as old:
            new.register_node("n1", "/r1", WITH_GPUS)
            app = new.submit("root.default", "ann")
            self.assertEqual(new.register_master(app).maximum, Resource(8192, 4, 2**40))
            response, replies = 0, [new.allocate(app, 0, [Ask(1, 0, 1, WITH_GPU)])]

            def is_granted():
                nonlocal response
                response = replies[-1].response
                replies.append(new.allocate(app, response))
                return replies[-1].grants

            wait_until(self, is_granted, "a container with a GPU is not granted")
            self.assertEqual([it.resource for it in replies[-1].grants], [WITH_GPU])
            self.assertEqual([it.resource for it in old.allocate(app, response).grants], [SMALL])
            used = [it.queue_info("root.default").used for it in (new, old)]
            self.assertEqual(used, [WITH_GPU, SMALL])
            self.assertEqual((new.cluster_info().total, old.cluster_info().total), (WITH_GPUS, LARGE))
        self.assertEqual(daemon.wait(20), 0)

    def test_many_requests_in_flight(self):
        port, daemon = self.serve(1)
        with Connection.to_port(port, timeout=20) as connection:
            waiting = [connection.send(ClusterInfo()) for _ in range(5000)]
            self.assertEqual({it.result() for it in waiting}, {ClusterReport(0, 0, 0, NONE, NONE)})
        self.assertEqual(daemon.wait(20), 0)

    def test_a_bad_length_ends_the_connection(self):
        port, daemon = self.serve(1)
        with Connection.to_port(port, timeout=20) as connection:
            pending = connection.send(ClusterInfo())
            connection._stream.send(bytes(4))
            late = connection.send(ClusterInfo())
            later = connection.send(ClusterInfo())
            self.assertEqual(pending.result().nodes, 0)
            with self.assertRaises(Refused) as raised:
                late.result()
            self.assertEqual(raised.exception.refusal, Refusal.BAD_LENGTH)
            with self.assertRaises(ConnectionError):
                later.result()
        self.assertEqual(daemon.wait(20), 0)


if __name__ == "__main__":
    unittest.main()
