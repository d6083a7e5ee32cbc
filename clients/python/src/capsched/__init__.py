"""A client of `capsched`, the allocation engine of a YARN cluster, over the standard library alone.

    from capsched import Connection

    with Connection.to_port(7070) as operator:
        print(operator.cluster_info())

`Connection` has a call for each request. `Master` and `NodeManager` stand above it: they keep response ids, and go on
over a new connection where one broke. `Replay` is a cluster in a process of its own, without a daemon.

Memory is counted in MiB, vcores and GPUs in whole ones. The bytes are those of docs/FORMATS.md."""
from .connection import Connection, Ended, Pending, Stream
from .masters import Master, NodeManager
from .messages import (
    VERSION, Allocate, AllocateReply, Allocations, Ask, BadReply, Cause, ClusterInfo, ClusterReport, End, Fault,
    FinishMaster, Grant, Heartbeat, HeartbeatReply, NodeGone, QueueInfo, QueueReport, Refresh, Refusal, Refused,
    RegisterMaster, RegisterNode, Request, Resource, SetQueueState, SettingsFault, Submit, frame,
)
from .replaying import Replay

__all__ = [
    "VERSION", "Allocate", "AllocateReply", "Allocations", "Ask", "BadReply", "Cause", "ClusterInfo", "ClusterReport",
    "Connection", "End", "Ended", "Fault", "FinishMaster", "Grant", "Heartbeat", "HeartbeatReply", "Master", "NodeGone",
    "NodeManager", "Pending", "QueueInfo", "QueueReport", "Refresh", "Refusal", "Refused", "RegisterMaster",
    "RegisterNode", "Replay", "Request", "Resource", "SetQueueState", "SettingsFault", "Stream", "Submit", "frame",
]
