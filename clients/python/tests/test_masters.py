"""Tests of node managers and application masters: against `capsched replay`, where a worker takes a turn when the test
says so, and against a daemon."""
import unittest
from collections import deque
from unittest import mock

from capsched import (
    Ask, Cause, ClusterReport, Connection, End, Ended, HeartbeatReply, Master, NodeManager, Refusal, Refused, Replay,
    Resource,
)
from serving import EXAMPLES, PROGRAM, serve, wait_until

SETTINGS = [
    "yarn.scheduler.capacity.root.queues=default",
    "yarn.scheduler.capacity.root.default.capacity=[memory=8192,vcores=8]",
    "yarn.scheduler.maximum-allocation-mb=4096",
]
SMALL, LARGE, TOTAL = Resource(1024, 1), Resource(5120, 1), Resource(8192, 8)


class Breaking:
    """A stream that breaks as planned. Of each request the plan says whether it is answered (`.`), gets lost before the
    scheduler has it (`<`), or was processed and its reply gets lost (`>`)."""

    def __init__(self, stream, plan):
        self.stream, self.plan, self.fate, self.left = stream, plan, ".", 5000

    def send(self, data):
        self.left -= 1
        assert self.left, "it calls for ever"
        self.fate = self.plan.popleft() if self.plan else "."
        if self.fate != "<":
            self.stream.send(data)

    def receive(self, count):
        if self.fate == ">":
            self.stream.receive(int.from_bytes(self.stream.receive(4), "big"))
        if self.fate != ".":
            raise ConnectionResetError("cut")
        return self.stream.receive(count)

    def close(self):
        self.stream.close()


class OnReplay(unittest.TestCase):
    def setUp(self):
        self.replay = Replay([PROGRAM, "replay"], SETTINGS)
        self.addCleanup(self.replay.close)
        self.operator = self.replay.connect()
        self.opened = 0

    def connect(self, plan="", at_second=lambda: None):
        """What opens connections that break as planned, and makes a call when it opens the second."""
        plan = deque(plan)

        def opens():
            self.opened += 1
            if self.opened == 2:
                at_second()
            return Connection(Breaking(self.replay.connect()._stream, plan))

        return opens

    def node(self, plan=""):
        return NodeManager(self.connect(plan), "n1", "/r1", TOTAL)

    def master(self, plan="", at_second=lambda: None):
        self.opened = 0
        return Master(self.connect(plan, at_second), "root.default", "ann")

    def turns(self):
        """Turns of a worker until it has nothing to propose: the containers that were granted."""
        granted = []
        for _ in range(100):
            done = self.replay.turn(0)
            if done == ["idle"]:
                return granted
            self.assertEqual(done[:3], ["done", "0", "grant"])
            granted.append(int(done[3]))
        self.fail("a worker goes on granting")

    def containers(self):
        return self.operator.cluster_info().containers


class Calls(OnReplay):
    def test_grants_and_ends_as_they_come(self):
        node, master = self.node(), self.master()
        self.assertEqual((node.node, master.app, master.allocations.maximum), (1, 1, Resource(4096, 4, 2**40)))
        master.ask(Ask(1, 7, 3, SMALL))
        self.assertEqual(master.allocate().grants, [])
        self.assertEqual(self.turns(), [1, 2, 3])
        told = [(it.container, it.request_id, it.host, it.resource) for it in master.allocate().grants]
        self.assertEqual(told, [(it, 7, "n1", SMALL) for it in (1, 2, 3)])
        self.assertEqual((sorted(master.containers), self.turns()), ([1, 2, 3], []))
        node.complete(1)
        self.assertEqual(node.heartbeat(), HeartbeatReply(1, 0, 2))
        self.assertEqual(node.heartbeat(), HeartbeatReply(2, 0, 2))
        master.release(2)
        self.assertEqual(master.allocate().ends, [End(1, Cause.ENDED_ON_NODE), End(2, Cause.RELEASED)])
        self.assertEqual(master.allocate().ends, [])
        self.assertEqual(list(master.containers), [3])
        self.assertEqual(master.finish(), 1)
        self.assertEqual((master.containers, node.heartbeat()), ({}, HeartbeatReply(3, 0, 0)))
        self.assertEqual(node.leave(), 0)
        self.assertEqual(self.operator.cluster_info(), ClusterReport(0, 0, 0, Resource(0, 0), Resource(0, 0)))

    def test_one_ask_is_taken_back_and_the_other_stays(self):
        self.node()
        master = self.master()
        master.ask(Ask(1, 1, 2, SMALL), Ask(2, 1, 1, SMALL))
        master.allocate()
        master.take_back(1, 1)
        master.allocate()
        self.assertEqual(self.turns(), [1])
        self.assertEqual([it.priority for it in master.allocate().grants], [2])

    def test_the_later_ask_of_a_key_is_sent(self):
        self.node()
        master = self.master()
        master.ask(Ask(1, 1, 5, SMALL))
        master.ask(Ask(1, 1, 2, SMALL))
        master.allocate()
        self.assertEqual(self.turns(), [1, 2])

    def test_follow(self):
        self.node()
        master = self.master()
        master.ask(Ask(1, 1, 1, SMALL))
        pauses = []

        def sleep(seconds):
            pauses.append(seconds)
            self.assertLess(len(pauses), 3, "it waits for ever")
            self.turns()

        with mock.patch("capsched.masters.time.sleep", sleep):
            events = master.follow(every=0.25)
            self.assertEqual(next(events).container, 1)
            master.release(1)
            self.assertEqual(next(events), End(1, Cause.RELEASED))
            master.finish()
            self.assertEqual(list(events), [])
        self.assertEqual(pauses, [0.25])

    def test_what_does_not_fit_goes_with_the_next_call(self):
        node, master = self.node(), self.master()
        master.release(*range(1000, 2100))
        node.complete(*range(1000, 2100))
        self.assertEqual([master.allocate().ignored for _ in range(3)], [1024, 76, 0])
        self.assertEqual([node.heartbeat().ignored for _ in range(3)], [1024, 76, 0])

    def test_refused_asks_are_dropped_and_releases_kept(self):
        self.node()
        master = self.master()
        master.ask(Ask(1, 1, 1, SMALL))
        master.allocate()
        self.assertEqual(self.turns(), [1])
        master.allocate()
        master.ask(Ask(2, 1, 1, LARGE))
        master.release(1)
        with self.assertRaisesRegex(Refused, r"AskTooLarge \(9\); ask for less") as raised:
            master.allocate()
        self.assertEqual([it.resource for it in raised.exception.request.asks], [LARGE])
        self.assertEqual(self.containers(), 1)
        self.assertEqual(master.allocate().ends, [End(1, Cause.RELEASED)])

    def test_what_no_field_holds_is_refused_at_once(self):
        master, node = self.master(), self.node()
        for call in (
            lambda: master.ask(Ask(1, 1, 2**32, SMALL)), lambda: master.ask(Ask(1, 1, 1, SMALL, "a b")),
            lambda: master.release(-1), lambda: node.complete(2**64),
        ):
            self.assertRaises(ValueError, call)
        self.assertEqual((master.allocate().response, node.heartbeat().response), (1, 1))

    def test_refusals_of_the_first_call(self):
        for call, refusal in (
            (lambda: Master(self.replay.connect, "root.none", "ann"), Refusal.UNKNOWN_QUEUE),
            (lambda: NodeManager(self.replay.connect, "n2", "/r1", Resource(0, 0)), Refusal.ZERO_RESOURCE),
        ):
            with self.assertRaises(Refused) as raised:
                call()
            self.assertIs(raised.exception.refusal, refusal)


class Broken(OnReplay):
    """After Submit and RegisterMaster, or RegisterNode, the connection breaks."""

    def test_an_allocate_that_got_lost_is_sent_again(self):
        self.node()
        master = self.master("..<")
        master.ask(Ask(1, 1, 2, SMALL))
        self.assertEqual(master.allocate().response, 1)
        self.assertEqual((self.opened, self.turns()), (2, [1, 2]))
        self.assertEqual([it.container for it in master.allocate().grants], [1, 2])

    def test_an_allocate_whose_reply_got_lost_is_processed_once(self):
        self.node()
        master = self.master("..>", lambda: self.assertEqual(self.turns(), [1, 2]))
        master.ask(Ask(1, 1, 2, SMALL))
        reply = master.allocate()
        # had the ask been processed a second time, two more would be granted
        self.assertEqual((self.opened, reply.response, reply.grants, self.turns()), (2, 1, [], []))
        self.assertEqual([it.container for it in master.allocate().grants], [1, 2])
        self.assertEqual(self.containers(), 2)

    def test_grants_in_a_lost_reply_are_told(self):
        self.node()
        master = self.master("...>")
        master.ask(Ask(1, 1, 2, SMALL))
        master.allocate()
        self.turns()
        self.assertEqual([it.container for it in master.allocate().grants], [1, 2])
        self.assertEqual((self.opened, master.allocate().grants, sorted(master.containers)), (2, [], [1, 2]))

    def test_where_it_breaks_twice_the_next_call_sends_the_same(self):
        self.node()
        master = self.master("..><")
        master.ask(Ask(1, 1, 2, SMALL))
        with self.assertRaises(ConnectionResetError):
            master.allocate()
        master.ask(Ask(2, 1, 1, SMALL))
        self.assertEqual(master.allocate().response, 1)
        self.assertEqual(self.turns(), [1, 2])
        master.allocate()
        self.assertEqual(self.turns(), [3])
        self.assertEqual([(it.container, it.priority) for it in master.allocate().grants], [(3, 2)])
        self.assertEqual(sorted(master.containers), [1, 2, 3])

    def test_a_release_whose_reply_got_lost_is_processed_once(self):
        self.node()
        master = self.master("....>")
        master.ask(Ask(1, 1, 2, SMALL))
        master.allocate()
        self.turns()
        master.allocate()
        master.release(1)
        reply = master.allocate()
        self.assertEqual((reply.ignored, reply.ends, self.containers()), (0, [End(1, Cause.RELEASED)], 1))

    def test_a_heartbeat_whose_reply_got_lost_is_processed_once(self):
        self.opened = 0
        node, master = self.node(".>"), Master(self.replay.connect, "root.default", "ann")
        master.ask(Ask(1, 1, 2, SMALL))
        master.allocate()
        self.turns()
        node.complete(1)
        self.assertEqual((node.heartbeat(), self.opened), (HeartbeatReply(1, 0, 1), 2))
        self.assertEqual(node.heartbeat(), HeartbeatReply(2, 0, 1))

    def test_where_a_heartbeat_breaks_twice_the_next_sends_the_same(self):
        self.opened = 0
        node, master = self.node(".><"), Master(self.replay.connect, "root.default", "ann")
        master.ask(Ask(1, 1, 3, SMALL))
        master.allocate()
        self.turns()
        node.complete(1)
        with self.assertRaises(ConnectionResetError):
            node.heartbeat()
        node.complete(2)
        replies = [HeartbeatReply(1, 0, 2), HeartbeatReply(2, 0, 1), HeartbeatReply(3, 0, 1)]
        self.assertEqual([node.heartbeat() for _ in replies], replies)

    def test_a_finish_whose_reply_got_lost(self):
        master = self.master("..>")
        self.assertIsNone(master.finish())
        self.assertEqual(self.operator.cluster_info().applications, 0)
        with self.assertRaises(Refused) as raised:
            master.finish()
        self.assertIs(raised.exception.refusal, Refusal.UNKNOWN_APPLICATION)

    def test_a_node_that_leaves_and_whose_reply_got_lost(self):
        node = self.node(".>")
        self.assertIsNone(node.leave())
        self.assertEqual(self.operator.cluster_info().nodes, 0)
        with self.assertRaises(Refused):
            node.leave()

    def test_what_might_be_registered_twice_is_not_sent_again(self):
        for plan, applications in (("<", 0), (">", 1)):
            with self.assertRaisesRegex(Ended, "whether an application was submitted to root.default is not known"):
                self.master(plan)
            self.assertEqual((self.opened, self.operator.cluster_info().applications), (1, applications))
        with self.assertRaisesRegex(Ended, "whether node n1 was registered is not known"):
            self.node(">")
        self.assertEqual(self.operator.cluster_info().nodes, 1)

    def test_a_registration_whose_reply_got_lost(self):
        master = self.master(".>")
        self.assertIsNone(master.allocations)
        self.assertEqual(master.allocate().response, 1)
        with self.assertRaisesRegex(Ended, "application 2 is submitted, and its master is not registered"):
            self.master(".<<")

    def test_where_nothing_listens(self):
        def refuses():
            raise ConnectionRefusedError("nothing listens")

        with self.assertRaisesRegex(ConnectionRefusedError, "nothing listens"):
            Master(refuses, "root.default", "ann")


class OnDaemon(unittest.TestCase):
    def test_a_connection_breaks_while_containers_are_granted(self):
        port, _ = serve(self, f"{EXAMPLES}/serve.conf", 10)
        plan = deque("..>.>")

        def connect():
            return Connection.to_port(port, timeout=20)

        def connect_and_break():
            return Connection(Breaking(connect()._stream, plan))

        node, master = NodeManager(connect, "n1", "/r1", TOTAL), Master(connect_and_break, "root.prod", "ann")
        with node, master:
            master.ask(Ask(1, 1, 5, SMALL))
            told = []

            def are_granted():
                told.extend(it.container for it in master.allocate().grants)
                return len(told) >= 5

            wait_until(self, are_granted, "five containers are not granted")
            self.assertEqual((plan, told), (deque(), [1, 2, 3, 4, 5]))
            self.assertEqual(node.heartbeat().live, 5)
            self.assertEqual(master.finish(), 5)


if __name__ == "__main__":
    unittest.main()
