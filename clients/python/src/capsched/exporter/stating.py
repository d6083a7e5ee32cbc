"""The state as JSON."""
from __future__ import annotations

import json
from dataclasses import asdict
from typing import Dict, Optional

from ..messages import QueueReport, Resource
from .looking import Look, State

Json = Dict[str, object]


def of_resource(resource: Optional[Resource]) -> Optional[Json]:
    return asdict(resource) if resource else None


def of_queue(path: str, report: QueueReport) -> Json:
    return {
        "queue": path,
        "leaf": report.leaf,
        "running": report.running,
        "applications": report.applications,
        "used": of_resource(report.used),
        "guaranteed": of_resource(report.guaranteed),
        "maximum": of_resource(report.maximum),
    }


def of_cluster(look: Look) -> Json:
    cluster = look.cluster
    return {
        "nodes": cluster.nodes,
        "applications": cluster.applications,
        "containers": cluster.containers,
        "total": of_resource(cluster.total),
        "used": of_resource(cluster.used),
    }


def json_of(state: State) -> str:
    """The daemon, the cluster and the queues: memory in MiB, times in seconds since 1970. Where the daemon does not
    answer, `up` is false, and the cluster and the queues are those of its last answer, or null."""
    last = state.last
    return json.dumps({
        "daemon": {
            "address": state.daemon,
            "up": state.is_up,
            "fault": state.fault,
            "answered_at": last.at if last else None,
            "answer_seconds": last.seconds if last else None,
        },
        "cluster": of_cluster(last) if last else None,
        "queues": [of_queue(path, report) for path, report in last.queues.items()] if last else None,
        "unknown_queues": list(last.unknown) if last else [],
        "counters": state.counters,
    }, indent=1) + "\n"
