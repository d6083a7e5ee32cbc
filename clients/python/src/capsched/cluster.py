"""A small cluster to see `capsched serve` with. In two terminals, side by side, at the top of the repository:

    ./capsched serve --port 7070 --workers 2 --config examples/serve.conf --connections 8
    capsched-cluster 7070

Three node managers, four application masters and an operator connect, each on a connection of its own: eight, as the
daemon is told. In each round the masters hear what they were granted, and the nodes report containers that have run for
long enough as ended."""
from __future__ import annotations

import argparse
import sys
import time
from collections import defaultdict
from functools import partial
from typing import DefaultDict, Dict, List, Optional, Sequence

from .arguments import port
from .connection import Connection
from .masters import Master, NodeManager
from .messages import Ask, BadReply, Cause, Refused, Resource

CAUSES = {Cause.RELEASED: "released", Cause.ENDED_ON_NODE: "ended on its node", Cause.NODE_LOST: "node lost"}
QUEUES, USERS = ("root.prod", "root.dev"), ("ann", "bob")
TOTAL = Resource(8192, 8)
RELEASED, RUNS = Ask(1, 1, 1, Resource(2048, 2)), Ask(2, 1, 6, Resource(1024, 1))
ROUNDS_OF_A_CONTAINER = 3


class Cluster:
    """The node managers by their numbers, the masters, and the containers on each node that end in each round."""

    def __init__(self, port: int, nodes: int, apps: int) -> None:
        connect = partial(Connection.to_port, port)
        self.operator = connect()
        self.nodes: Dict[int, NodeManager] = {}
        self.masters: List[Master] = []
        self.ending: Dict[int, DefaultDict[int, List[int]]] = {}
        for number in range(1, nodes + 1):
            host, rack = f"n{number}", f"/r{(number + 1) // 2}"
            node = NodeManager(connect, host, rack, TOTAL)
            print(f"node {node.node} is {host} in {rack} with {TOTAL}")
            self.nodes[node.node], self.ending[node.node] = node, defaultdict(list)
        for number in range(apps):
            queue, user = QUEUES[number % 2], USERS[number % 2]
            master = Master(connect, queue, user)
            master.ask(RELEASED, RUNS)
            print(f"application {master.app} is of {user} in {queue}")
            self.masters.append(master)

    def play_round(self, now: int) -> None:
        """Each master and each node calls once."""
        for master in self.masters:
            self.hear(master, now)
        for number, node in self.nodes.items():
            node.complete(*self.ending[number].pop(now, []))
            node.heartbeat()

    def hear(self, master: Master, now: int) -> None:
        """What is new of an application. Some containers are released as soon as they are granted, the others run."""
        reply = master.allocate()
        for grant in reply.grants:
            print(
                f"round {now}: application {master.app} is granted container {grant.container} on node {grant.node} "
                f"({grant.host}): {grant.resource}"
            )
            if grant.priority == RELEASED.priority:
                master.release(grant.container)
            else:
                self.ending[grant.node][now + ROUNDS_OF_A_CONTAINER].append(grant.container)
        for end in reply.ends:
            cause = CAUSES[end.cause]
            print(f"round {now}: container {end.container} of application {master.app} has ended: {cause}")

    def show(self) -> None:
        """What an operator sees."""
        for path in QUEUES:
            queue = self.operator.queue_info(path)
            print(f"queue {path} uses {queue.used}, with {queue.applications} applications")
        held = self.operator.cluster_info()
        print(f"the cluster has {held.nodes} nodes, {held.applications} applications and {held.containers} containers")

    def close(self) -> None:
        self.operator.close()
        for node in self.nodes.values():
            node.close()
        for master in self.masters:
            master.close()


def play(words: argparse.Namespace) -> None:
    cluster = Cluster(words.port, words.nodes, words.apps)
    for now in range(1, words.rounds + 1):
        cluster.play_round(now)
        if now == 2:
            cluster.show()
        time.sleep(words.pause)
    for master in cluster.masters:
        print(f"application {master.app} finishes, which ends {master.finish()} of its containers")
    cluster.show()
    cluster.close()


def parse(argv: Optional[Sequence[str]]) -> argparse.Namespace:
    parser = argparse.ArgumentParser(
        prog="capsched-cluster", description="Shows what a running `capsched serve` grants to a small cluster.")
    parser.add_argument("port", type=port, help="the daemon's port on 127.0.0.1")
    parser.add_argument("--nodes", type=int, default=3, help="node managers, 3 if not given")
    parser.add_argument("--apps", type=int, default=4, help="applications, 4 if not given")
    parser.add_argument("--rounds", type=int, default=8, help="8 if not given")
    parser.add_argument("--pause", type=float, default=0.2, metavar="SECONDS", help="between rounds, 0.2 if not given")
    return parser.parse_args(argv)


def main(argv: Optional[Sequence[str]] = None) -> int:
    """The command `capsched-cluster`: 0, or 1 where a call has failed."""
    try:
        play(parse(argv))
    except (OSError, BadReply, Refused) as fault:
        print(f"capsched-cluster: a call has failed: {fault}", file=sys.stderr)
        return 1
    return 0


if __name__ == "__main__":
    sys.exit(main())
