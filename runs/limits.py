#!/usr/bin/env python3
"""Brings `capsched replay` to its limits, and one step past each, by scripts that are made here, and compares what it prints line by line.

The frames are spelled by the client in clients/python/src, which PYTHONPATH must name. With words this runs the programs
that they name, else the one that `./capsched` builds.
"""
import os
import subprocess
import sys
from itertools import chain

sys.dont_write_bytecode = True
HERE = os.path.dirname(os.path.abspath(__file__))
TOP = os.path.dirname(HERE)
try:
    from capsched import (
        Allocate, Ask, ClusterInfo, FinishMaster, Heartbeat, NodeGone, QueueInfo, Refresh, RegisterMaster, RegisterNode,
        Resource, Submit, frame,
    )
except ModuleNotFoundError:
    sys.exit("the client in Python is not found: set PYTHONPATH to clients/python/src")

PROPERTY = "yarn.scheduler.capacity"
ONE_LEAF = f"{PROPERTY}.root.queues=a"
SMALL, LARGE, WITH_GPU = Resource(1024, 1), Resource(2048, 2), Resource(1024, 1, 1)
SCRIPTS = 20  # how many scripts are made here
INFO = frame(ClusterInfo().payload(1, 1)).hex()
EMPTY = "out 1 00000033010a0000000100" + "00" * 44  # what a ClusterInfo is answered where there is nothing


def sent(request, call_id=1, version=1):
    """The line on which connection 1 brings a request."""
    return f"bytes 1 {frame(request.payload(call_id, version)).hex()}"


def told(kind, status, body="", call_id=1, version=1):
    """The line on which connection 1 is answered."""
    payload = f"{version:02x}{kind.KIND:02x}{call_id:08x}{status:02x}{body}"
    return f"out 1 {len(payload) // 2:08x}{payload}"


def is_answered(name, program, settings, steps):
    """Plays a script, a list of steps and what each prints: whether that is what it prints. Says where it is not."""
    lines = [f"conf {line}" for line in settings.splitlines()] + ["open 1"] + [line for line, _ in steps]
    wanted = ["opened 1", *chain.from_iterable(printed for _, printed in steps)]
    return is_printed(name, program, lines, wanted, 0)


def is_printed(name, program, lines, wanted, status):
    script = "".join(f"{line}\n" for line in lines)
    ended = subprocess.run([program, "replay"], input=script, capture_output=True, text=True, timeout=120)
    printed = ended.stdout.splitlines()
    if printed == wanted and ended.returncode == status:
        return True
    at = next((at for at, pair in enumerate(zip(printed, wanted)) if pair[0] != pair[1]), min(len(printed), len(wanted)))
    seen, meant = ([*it, "the end"][at : at + 1] for it in (printed, wanted))
    print(f"{name}: line {at + 1} of what is printed is {seen}, and not {meant}; status {ended.returncode}", file=sys.stderr)
    return False


def check_settings(program):
    """Queues one below the other and beside each other, a long path, and many bytes: what is opened is asked for its last queue, and a fault is named."""
    nested, deepest = nest(16, 1024)
    long, path = lengthen(255)
    comments = "\n".join(["#" * 99] * 10_999)
    filled = f"{comments}\n{'#' * (99 - len(ONE_LEAF))}\n{ONE_LEAF}"
    assert len(filled) == 1_100_000
    for name, settings, asked in (
        ("1,024 queues on 16 levels", nested, deepest),
        ("a path of 255 bytes", long, path),
        ("1,100,000 bytes of settings", filled, "root.a"),
    ):
        report = "0101" + "00" * 16 + "00" + "00" * 16 + "00" * 16 + "00" * 4
        yield is_answered(name, program, settings, [(sent(QueueInfo(asked)), [told(QueueInfo, 0, report)])])
    for name, settings, fault in (
        ("1,025 queues on 16 levels", nest(16, 1025)[0], "config 15 8"),
        ("17 queues on 17 levels", nest(17, 17)[0], "config 16 9"),
        ("a path of 256 bytes", lengthen(256)[0], "config 4 4"),
    ):
        yield is_printed(name, program, [f"conf {line}" for line in settings.splitlines()], [fault], 2)


def nest(levels, count):
    """Settings of so many queues: one below the other down to this level, and the others in root. And the path of the deepest."""
    lines = [f"{PROPERTY}.root.queues=" + ",".join(["c", *(f"q{number}" for number in range(levels, count))])]
    path = "root.c"
    for _ in range(2, levels):
        lines.append(f"{PROPERTY}.{path}.queues=c")
        path += ".c"
    return "\n".join(lines), path


def lengthen(length):
    """Settings of a queue whose path has so many bytes, with names of 64 where they are as long as may be. And the path."""
    lines, path = [], "root"
    for _ in range(4):
        name = "q" * min(64, length - len(path) - 1)
        lines.append(f"{PROPERTY}.{path}.queues={name}")
        path += f".{name}"
    return "\n".join(lines), path


def check_nodes(program):
    """4,096 nodes are registered, one more is not, and is once one is gone."""
    nodes = [RegisterNode(f"n{number}", "/r1", SMALL) for number in range(4097)]
    steps = [(sent(node), [told(RegisterNode, 0, f"{number:016x}")]) for number, node in enumerate(nodes[:4096], 1)]
    steps += [(sent(nodes[4096]), [told(RegisterNode, 14)]), (sent(NodeGone(1)), [told(NodeGone, 0, "00000000")])]
    steps += [(sent(nodes[4096]), [told(RegisterNode, 0, f"{4097:016x}")])]
    yield is_answered("4,096 nodes", program, ONE_LEAF, steps)


def check_applications(program):
    """10,000 applications enter, one more does not, and does once one has finished."""
    submit = sent(Submit("root.a", "u"))
    steps = [(submit, [told(Submit, 0, f"{number:016x}")]) for number in range(1, 10_001)]
    steps += [(submit, [told(Submit, 4)]), *registered(), (sent(FinishMaster(1)), [told(FinishMaster, 0, "00000000")])]
    steps += [(submit, [told(Submit, 0, f"{10_001:016x}")])]
    yield is_answered("10,000 applications", program, ONE_LEAF, steps)


def registered(app=1):
    """The master of an application registers."""
    most = f"{1024:016x}{1:016x}{8192:016x}{4:016x}"
    return [(sent(RegisterMaster(app)), [told(RegisterMaster, 0, most)])]


def entered(app=1):
    """An application enters, and its master registers."""
    return [(sent(Submit("root.a", "u")), [told(Submit, 0, f"{app:016x}")]), *registered(app)]


def allocated(app, response, asks=(), releases=(), ignored=0, version=1):
    """An Allocate without news, the response id of whose reply is one more."""
    reply = told(Allocate, 0, f"{response + 1:08x}{ignored:04x}0000", response, version)
    return sent(Allocate(app, response, asks, releases), response, version), [reply]


def check_allocates(program):
    """An Allocate with as many asks and releases as it may have, an application with as many keys, and many Allocates in a row."""
    asks = [Ask(1, request, 1, SMALL) for request in range(1, 258)]
    with_gpus = [Ask(1, request, 1, WITH_GPU) for request in range(1, 257)]
    for version, most in ((1, asks[:256]), (2, with_gpus)):
        steps = [*entered(), allocated(1, 0, most, range(1, 1025), 1024, version)]
        yield is_answered(f"256 asks and 1,024 releases in version {version}", program, ONE_LEAF, steps)
    full, one_more = allocated(1, 0, asks[:256]), (sent(Allocate(1, 1, asks[256:])), [told(Allocate, 10)])
    in_place = allocated(1, 1, [Ask(1, 3, 0, SMALL), asks[256]])
    yield is_answered("256 keys", program, ONE_LEAF, [*entered(), full, one_more, in_place])
    # the request ids 257 and 4,353 have one slot of the 4,096 by which keys are told apart first
    away, put, taken, other = (Ask(1, request, count, SMALL) for request, count in ((3, 0), (257, 1), (257, 0), (4353, 1)))
    two_more = (sent(Allocate(1, 1, [away, put, other])), [told(Allocate, 10)])
    in_its_place = allocated(1, 1, [away, put, taken, other])
    yield is_answered("256 keys, two of one slot", program, ONE_LEAF, [*entered(), full, two_more, in_its_place])
    yield is_answered("10,000 Allocates", program, ONE_LEAF, [*entered(), *(allocated(1, response) for response in range(10_000))])


def check_longest_reply(program):
    """64 grants on a host of 64 bytes, and 64 ends: told in version 2, and the same once more in version 1."""
    settings = f"{ONE_LEAF}\n{PROPERTY}.root.a.capacity=[memory=131072,vcores=128,yarn.io/gpu=128]"
    host, asked, first, later = "n" * 64, [Ask(1, 0, 64, WITH_GPU)], range(1, 65), range(65, 129)
    node = RegisterNode(host, "/r1", Resource(131_072, 128, 128))
    steps = [(sent(node, version=2), [told(RegisterNode, 0, f"{1:016x}", version=2)]), *entered()]
    steps += [allocated(1, 0, asked, version=2), *granted(first)]
    steps += [news(2, 1, first, (), host, asked), *granted(later)]
    steps += [(sent(Heartbeat(1, 0, first)), [told(Heartbeat, 0, f"{1:08x}{0:04x}{64:08x}")])]
    longest, in_version_1 = news(2, 2, later, first, host), news(1, 2, later, first, host)
    assert [len(printed[0]) - len("out 1 ") for _, printed in (longest, in_version_1)] == [2 * (4 + 8_079), 2 * (4 + 7_567)]
    yield is_answered("a reply of 8,079 bytes", program, settings, [*steps, longest, in_version_1])


def granted(containers):
    """Turns of worker 0, who is granted these containers for one ask on one node."""
    proposed = ("propose 0 0", ["proposed 0 grant 1 1 0 1 1024 1 1"])
    turns = ((proposed, ("commit 0", [f"done 0 grant {container}"])) for container in containers)
    return [("copy 0", ["copied 0"]), *chain.from_iterable(turns)]


def news(version, response, grants, ends, host, asks=()):
    """An Allocate of application 1 that is told of grants on node 1, and of containers that have ended there."""
    amounts = (1024, 1, 1)[: 1 + version]
    told_grants = "".join(grant(container, 1, host, amounts) for container in grants)
    body = f"{response + 1:08x}0000{len(grants):02x}{told_grants}{len(ends):02x}" + "".join(f"{container:016x}02" for container in ends)
    return sent(Allocate(1, response, asks), 1, version), [told(Allocate, 0, body, 1, version)]


def check_streams(program):
    """128 connections; many answers on one; the longest payload, and a frame after it; and a length that no frame has, after a request."""
    opened = [(f"open {number}", [f"opened {number}"]) for number in range(2, 129)]
    asked = [(f"bytes {number} {INFO}", [EMPTY.replace("out 1", f"out {number}")]) for number in range(1, 129)]
    closed = [(f"end {number}", [f"closed {number}"]) for number in range(1, 129)]
    yield is_answered("128 connections", program, ONE_LEAF, [*opened, *asked, *closed])
    yield is_answered("20,000 requests on one connection", program, ONE_LEAF, [(f"bytes 1 {INFO}", [EMPTY])] * 20_000)
    bad_request, bad_length = (f"out 1 00000007010000000000{status:02x}" for status in (41, 40))
    longest = f"bytes 1 00010000{'00' * 65_536}{INFO}"
    yield is_answered("a payload of 65,536 bytes", program, ONE_LEAF, [(longest, [bad_request, EMPTY])])
    fault = [(f"bytes 1 {INFO}00000000{INFO}", [EMPTY, bad_length, "ended 1"])]
    yield is_answered("a fault after an answer", program, ONE_LEAF, fault)


def check_refreshes(program):
    """1,024 queues are refreshed by the longest text that a frame holds: the deepest stops with root. With a queue less nothing changes. A byte more is in no frame."""
    settings, deepest = nest(16, 1024)
    stopped = f"{settings}\n{PROPERTY}.root.state=STOPPED\n"
    longest = stopped + "#" * (65_526 - len(stopped))
    asked = sent(QueueInfo(deepest)), [told(QueueInfo, 0, "0001" + "00" * 53)]
    steps = [(sent(Refresh(longest)), [told(Refresh, 0)]), asked, (sent(Refresh(nest(16, 1023)[0])), [told(Refresh, 18)]), asked]
    bad_length = "out 1 00000007010000000000" + "28"
    yield is_answered("a Refresh of 65,536 bytes", program, settings, [*steps, (f"bytes 1 {65_537:08x}", [bad_length, "ended 1"])])


def check_reservations(program):
    """A container and a reservation on each of 4,096 nodes: nothing is proposed then. One container ends, and its node's reservation becomes another; then all
    nodes are lost, and nothing is left."""
    settings = f"{ONE_LEAF}\n{PROPERTY}.root.a.capacity=[memory=16777216,vcores=16384]"
    steps = [(sent(RegisterNode(f"n{node}", "/r1", LARGE)), [told(RegisterNode, 0, f"{node:016x}")]) for node in range(1, 4097)]
    for app in range(1, 17):
        steps += [*entered(app), *kept(app)]
    steps += [cluster_info(16, 4096, 4096, 4096 * 1024 + 4096 * 2048, 4096 + 4096 * 2)]
    steps += [("copy 0", ["copied 0"]), ("propose 0 0", ["proposed 0 none"]), ("commit 0", ["idle"])]
    steps += [(sent(Heartbeat(2000, 0, [2000])), [told(Heartbeat, 0, f"{1:08x}{0:04x}{0:08x}")])]
    steps += [("copy 0", ["copied 0"]), ("propose 0 0", ["proposed 0 grant 8 2 0 2000 2048 2"]), ("commit 0", ["done 0 grant 4097"])]
    steps += [cluster_info(16, 4096, 4096, 4095 * 1024 + 4096 * 2048, 4095 + 4096 * 2)]
    steps += [(sent(NodeGone(node)), [told(NodeGone, 0, f"{1:08x}")]) for node in range(4096, 0, -1)]
    yield is_answered("4,096 reservations", program, settings, [*steps, cluster_info(16, 0, 0, 0, 0)])


def kept(app):
    """An application gets a small container on each of 256 nodes, and then room there for a large one."""
    first = 256 * (app - 1)
    steps = [allocated(app, 0, [Ask(1, 0, 256, SMALL)]), ("copy 0", ["copied 0"])]
    for node in range(first + 1, first + 257):
        steps += [(f"propose 0 {node - 1}", [f"proposed 0 grant {app} 1 0 {node} 1024 1"]), ("commit 0", [f"done 0 grant {node}"])]
    steps += [told_of_grants(app, first), ("copy 0", ["copied 0"])]
    for node in range(first + 1, first + 257):
        steps += [(f"propose 0 {node - 1}", [f"proposed 0 reserve {app} 2 0 {node} 2048 2"]), ("commit 0", ["done 0 reserve"])]
    return steps


def told_of_grants(app, first):
    """The next Allocate of the application: it asks for the large ones, and is told of its first 64 containers."""
    grants = "".join(grant(node, node, f"n{node}", (1024, 1)) for node in range(first + 1, first + 65))
    return sent(Allocate(app, 1, [Ask(2, 0, 256, LARGE)])), [told(Allocate, 0, f"{2:08x}000040{grants}00")]


def grant(container, node, host, amounts):
    """What an application is told of a container that it has for its ask of priority 1."""
    return f"{container:016x}{1:08x}{0:016x}{node:016x}{len(host):02x}{host.encode().hex()}" + "".join(f"{amount:016x}" for amount in amounts)


def cluster_info(apps, nodes, containers, memory, vcores):
    """A ClusterInfo where each node has (2048, 2)."""
    amounts = (nodes * 2048, nodes * 2, memory, vcores)
    body = "".join(f"{count:08x}" for count in (nodes, apps, containers)) + "".join(f"{amount:016x}" for amount in amounts)
    return sent(ClusterInfo()), [told(ClusterInfo, 0, body)]


CHECKS = (check_settings, check_nodes, check_applications, check_allocates, check_longest_reply, check_streams, check_refreshes, check_reservations)


def check(program):
    """Makes all checks, as many as there were. The result is how many there are."""
    results = [result for made in CHECKS for result in made(program)]
    if not all(results):
        sys.exit(f"{program} does not answer at its limits as it must")
    if len(results) != SCRIPTS:
        sys.exit(f"limits: {SCRIPTS} scripts are to be played, and not {len(results)}")
    return len(results)


def main():
    programs = [os.path.abspath(program) for program in sys.argv[1:]] or [f"{TOP}/crates/capsched/out/capsched"]
    for program in programs:
        print(f"{os.path.relpath(program, TOP)} limits: {check(program)} scripts are answered as they must be")


if __name__ == "__main__":
    main()
