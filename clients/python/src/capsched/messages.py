"""The requests to the scheduler and its replies, and their bytes, as docs/FORMATS.md has them.

Memory is counted in MiB, vcores and GPUs in whole ones. Messages have two versions; version 1 has no GPUs: there no
request can name any, and in replies they are left out. Each request is answered in its own version."""
from __future__ import annotations

import struct
from dataclasses import dataclass, field
from enum import IntEnum
from typing import ClassVar, Dict, Generic, List, NamedTuple, Optional, Sequence, Sized, Tuple, Type, TypeVar, Union

VERSION = 2  # what a connection speaks where nothing else is said
PAYLOAD_MAX = 65_536
TEXT_MAX = 65_526
ASKS_MAX = 256
CONTAINERS_MAX = 1024  # releases in an Allocate, and ended containers in a Heartbeat
AMOUNT_MAX = 1 << 40
T_co = TypeVar("T_co", covariant=True)
Member = TypeVar("Member", bound=IntEnum)


class Named(IntEnum):
    """An enum whose members have the names of docs/FORMATS.md too."""

    @property
    def word(self) -> str:
        """The name as docs/FORMATS.md writes it: `QueueStopped` of QUEUE_STOPPED."""
        return "".join(part.capitalize() for part in self.name.split("_"))


class Refusal(Named):
    """Why a request was refused; a refused request changes nothing. Where several hold, the smallest number is
    answered."""

    UNKNOWN_QUEUE = 1  # no queue has this path
    NOT_LEAF = 2  # an application is submitted to a queue with children
    QUEUE_STOPPED = 3  # the queue or one above it is STOPPED
    TOO_MANY_APPLICATIONS = 4  # as many are active as yarn.scheduler.capacity.maximum-applications allows
    UNKNOWN_APPLICATION = 5  # no active application has this number
    ALREADY_REGISTERED = 6  # the application's master has registered before
    NOT_REGISTERED = 7  # the application's master has not registered
    BAD_RESPONSE_ID = 8  # neither the last response id nor, where its reply is kept, the one before it
    ASK_TOO_LARGE = 9  # an ask with a count over 0 has a resource over the maximum allocation
    TOO_MANY_ASKS = 10  # the application would have asks under more than 256 keys
    UNKNOWN_NODE = 11  # no present node has this number
    HOST_TAKEN = 12  # a present node has this host
    TOTAL_TOO_LARGE = 13  # the sum of all nodes would pass 2^40 in some resource
    TOO_MANY_NODES = 14  # 4,096 nodes are present
    ZERO_RESOURCE = 15  # the node's total is 0 in every resource
    NUMBERS_SPENT = 16  # the next application or node number would be 2^62
    BAD_SETTINGS = 17  # property lines have a fault: `Refused.fault` says which
    OTHER_QUEUES = 18  # property lines name other queues than the cluster has
    NO_MEMORY = 20  # an allocation of the scheduler failed
    BAD_LENGTH = 40  # a frame of a length that none has: the connection has ended
    BAD_REQUEST = 41  # a payload that is no request: the connection goes on
    # the names that these had before
    UnknownQueue = UNKNOWN_QUEUE
    NotLeaf = NOT_LEAF
    QueueStopped = QUEUE_STOPPED
    TooManyApplications = TOO_MANY_APPLICATIONS
    UnknownApplication = UNKNOWN_APPLICATION
    AlreadyRegistered = ALREADY_REGISTERED
    NotRegistered = NOT_REGISTERED
    BadResponseId = BAD_RESPONSE_ID
    AskTooLarge = ASK_TOO_LARGE
    TooManyAsks = TOO_MANY_ASKS
    UnknownNode = UNKNOWN_NODE
    HostTaken = HOST_TAKEN
    TotalTooLarge = TOTAL_TOO_LARGE
    TooManyNodes = TOO_MANY_NODES
    ZeroResource = ZERO_RESOURCE
    NumbersSpent = NUMBERS_SPENT
    BadSettings = BAD_SETTINGS
    OtherQueues = OTHER_QUEUES
    NoMemory = NO_MEMORY
    BadLength = BAD_LENGTH
    BadRequest = BAD_REQUEST


TO_DO: Dict[Refusal, str] = {
    Refusal.UNKNOWN_QUEUE: "correct the path; queues are those of the settings",
    Refusal.NOT_LEAF: "submit to a queue below it",
    Refusal.QUEUE_STOPPED: "start it with SetQueueState, or submit to another queue",
    Refusal.TOO_MANY_APPLICATIONS: "wait, or raise maximum-applications by a Refresh",
    Refusal.UNKNOWN_APPLICATION: "it was never submitted here, or has finished: submit again",
    Refusal.ALREADY_REGISTERED: "go on with the next Allocate",
    Refusal.NOT_REGISTERED: "register the master first",
    Refusal.BAD_RESPONSE_ID: "send the last response id, or after a lost reply the same again",
    Refusal.ASK_TOO_LARGE: "ask for less, or raise the maximum allocation by a Refresh",
    Refusal.TOO_MANY_ASKS: "take some back, with a count of 0",
    Refusal.UNKNOWN_NODE: "register it again, as a new node; its containers are gone",
    Refusal.HOST_TAKEN: "declare the old node of this host lost first, by NodeGone",
    Refusal.TOTAL_TOO_LARGE: "a cluster has at most 2^40 MiB, vcores and GPUs: open a second one",
    Refusal.TOO_MANY_NODES: "a cluster has at most 4,096 nodes: open a second one",
    Refusal.ZERO_RESOURCE: "correct the resources in the node manager's configuration",
    Refusal.NUMBERS_SPENT: "open a new cluster",
    Refusal.BAD_SETTINGS: "`capsched check` with the same lines says what would mend it",
    Refusal.OTHER_QUEUES: "name the queues that the cluster has; others need a new cluster",
    Refusal.NO_MEMORY: "nothing has changed: send the same request again once there is memory",
    Refusal.BAD_LENGTH: "the client has sent a length that no frame has: open a new connection",
    Refusal.BAD_REQUEST: "the client has sent a payload that is no request",
}


class SettingsFault(Named):
    """What is wrong in property lines; docs/FORMATS.md, "Property lines", says where each holds."""

    BAD_LINE = 1
    UNKNOWN_KEY = 2
    REPEATED = 3
    BAD_VALUE = 4
    NO_SUCH_QUEUE = 5
    OVER_PARENT = 6
    GUARANTEE_OVER_MAXIMUM = 7
    TOO_MANY_QUEUES = 8
    TOO_DEEP = 9
    NO_CHILD = 10
    # the names that these had before
    BadLine = BAD_LINE
    UnknownKey = UNKNOWN_KEY
    Repeated = REPEATED
    BadValue = BAD_VALUE
    NoSuchQueue = NO_SUCH_QUEUE
    OverParent = OVER_PARENT
    GuaranteeOverMaximum = GUARANTEE_OVER_MAXIMUM
    TooManyQueues = TOO_MANY_QUEUES
    TooDeep = TOO_DEEP
    NoChild = NO_CHILD


class Fault(NamedTuple):
    """The first fault of property lines: its line, counted from 1 (0 where `root` has no queues), and what is wrong
    there."""

    line: int
    kind: SettingsFault

    def __str__(self) -> str:
        return f"line {self.line}: {self.kind.word} ({self.kind.value})"


class Refused(Exception):
    """A request was refused. `refusal` says why, and `to_do` what mends it; of BadSettings `fault` has the first fault
    of the lines."""

    def __init__(
        self, refusal: Refusal, request: Optional[Request[object]] = None, fault: Optional[Fault] = None
    ) -> None:
        self.refusal, self.request, self.fault, self.to_do = refusal, request, fault, TO_DO[refusal]
        of = f"{request.named}: " if request else ""
        at = f", {fault}" if fault else ""
        super().__init__(f"{of}{refusal.word} ({refusal.value}){at}; {self.to_do}")


class BadReply(ValueError):
    """Bytes came that are no reply to the request that waits for one."""


class Cause(Named):
    """Why a container has ended."""

    RELEASED = 1  # its master released it
    ENDED_ON_NODE = 2  # its node reported that it had ended
    NODE_LOST = 3  # its node is gone
    # the names that these had before
    Released = RELEASED
    EndedOnNode = ENDED_ON_NODE
    NodeLost = NODE_LOST


@dataclass(frozen=True)
class Resource:
    """Memory in MiB, vcores, and GPUs (`yarn.io/gpu`), each 0 to 2^40."""

    memory: int
    vcores: int
    gpus: int = 0

    def __str__(self) -> str:
        gpus = f", {self.gpus} GPU{'s' * (self.gpus != 1)}" if self.gpus else ""
        return f"[{self.memory} MiB, {self.vcores} vcore{'s' * (self.vcores != 1)}{gpus}]"


@dataclass(frozen=True)
class Ask:
    """How many containers of one resource an application still wants at a place. A new ask of the same priority and
    request id replaces the old one; a count of 0 takes it away. The smaller priority is served first. The resource is
    rounded up to a multiple of the minimum allocation."""

    priority: int
    request_id: int
    count: int
    resource: Resource
    place: str = "*"  # `*`, a host or a rack


@dataclass(frozen=True)
class Grant:
    """A container that was granted to an application, and the ask that it is for."""

    container: int
    priority: int
    request_id: int
    node: int
    host: str
    resource: Resource


@dataclass(frozen=True)
class End:
    """A container that has ended."""

    container: int
    cause: Cause


@dataclass(frozen=True)
class Allocations:
    """What a container may have at least and at most."""

    minimum: Resource
    maximum: Resource


@dataclass(frozen=True)
class AllocateReply:
    """The response id for the next Allocate, how many releases named no live container of the application, and what was
    granted and has ended since the reply before: at most 64 of each, the rest in the next reply."""

    response: int
    ignored: int
    grants: List[Grant]
    ends: List[End]


@dataclass(frozen=True)
class HeartbeatReply:
    """The response id for the next Heartbeat, how many of the containers were not live on the node, and how many are
    live there now."""

    response: int
    ignored: int
    live: int


@dataclass(frozen=True)
class QueueReport:
    """What an operator sees of a queue: whether it and all above it are RUNNING, whether it is a leaf, its guarantee,
    its maximum or None, what is in use with what is reserved, and the active applications in and under it."""

    running: bool
    leaf: bool
    guaranteed: Resource
    maximum: Optional[Resource]
    used: Resource
    applications: int


@dataclass(frozen=True)
class ClusterReport:
    """What the cluster holds: nodes, active applications, live containers, the nodes' totals together, and the use of
    `root`."""

    nodes: int
    applications: int
    containers: int
    total: Resource
    used: Resource


class Fields:
    """The fields of a message of a version, big-endian: each `put` adds some at the end, each `take` reads the next."""

    def __init__(self, version: int, data: bytes = b"") -> None:
        if version not in (1, 2):
            raise ValueError(f"a message is of version 1 or 2, and not {version}")
        self.version, self.data, self.at = version, data, 0

    def put(self, form: str, *values: Union[int, bytes]) -> Fields:
        """Adds values, in the form of the module `struct`. ValueError where one does not fit."""
        try:
            self.data += struct.pack(">" + form, *values)
        except struct.error as fault:
            raise ValueError(f"a number does not fit its field: {fault}") from None
        return self

    def put_text(self, text: str, most: int) -> Fields:
        data = text.encode("ascii", "replace")
        is_printable = all(0x21 <= byte <= 0x7E for byte in data) and len(text) == len(text.encode())
        if not 0 < len(data) <= most or not is_printable:
            raise ValueError(f"a text has 1 to {most} printable ASCII bytes and no blanks: {text!r}")
        return self.put(f"B{len(data)}s", len(data), data)

    def put_resource(self, resource: Resource) -> Fields:
        amounts = (resource.memory, resource.vcores, resource.gpus)
        if not all(0 <= amount <= AMOUNT_MAX for amount in amounts):
            raise ValueError(f"an amount is 0 to 2^40: {resource}")
        if self.version == 1 and resource.gpus:
            raise ValueError(f"version 1 has no GPUs: {resource}; use a connection of version 2")
        return self.put("QQ", *amounts[:2]) if self.version == 1 else self.put("QQQ", *amounts)

    def put_numbers(self, numbers: Sequence[int]) -> Fields:
        check_count(numbers, CONTAINERS_MAX)
        return self.put(f"H{len(numbers)}Q", len(numbers), *numbers)

    def put_asks(self, asks: Sequence[Ask]) -> Fields:
        check_count(asks, ASKS_MAX)
        self.put("H", len(asks))
        for ask in asks:
            self.put("IQI", ask.priority, ask.request_id, ask.count).put_resource(ask.resource).put_text(ask.place, 64)
        return self

    def take(self, form: str) -> Tuple[int, ...]:
        """The next numbers, in the form of the module `struct`. BadReply where there are too few bytes."""
        try:
            values = struct.unpack_from(">" + form, self.data, self.at)
        except struct.error:
            raise BadReply(f"a reply has too few bytes: {self.data.hex()}") from None
        self.at += struct.calcsize(">" + form)
        return values

    def take_number(self, form: str) -> int:
        return self.take(form)[0]

    def take_text(self) -> str:
        length = self.take_number("B")
        text = self.data[self.at:self.at + length]
        if len(text) < length:
            raise BadReply(f"a reply has too few bytes: {self.data.hex()}")
        self.at += length
        return text.decode("ascii", "replace")

    def take_resource(self) -> Resource:
        return Resource(*self.take("QQ" if self.version == 1 else "QQQ"))

    def take_grant(self) -> Grant:
        container, priority, request_id, node = self.take("QIQQ")
        return Grant(container, priority, request_id, node, self.take_text(), self.take_resource())

    def take_end(self) -> End:
        container, cause = self.take("QB")
        return End(container, member(Cause, cause))

    def take_fault(self) -> Fault:
        line, kind = self.take("IB")
        return Fault(line, member(SettingsFault, kind))

    def take_flag(self) -> bool:
        flag = self.take_number("B")
        if flag > 1:
            raise BadReply(f"a flag is 0 or 1, and not {flag}")
        return flag == 1

    def is_at_end(self) -> bool:
        return self.at == len(self.data)


def check_count(items: Sized, most: int) -> None:
    if len(items) > most:
        raise ValueError(f"a list has at most {most} entries, and not {len(items)}")


def member(of: Type[Member], number: int) -> Member:
    try:
        return of(number)
    except ValueError:
        raise BadReply(f"{number} is no {of.__name__}") from None


class Head(NamedTuple):
    """What every message begins with."""

    version: int
    kind: int
    call_id: int


FAULT = Head(1, 0, 0)  # of the answer to what is no request, whatever the version


@dataclass(frozen=True)
class Request(Generic[T_co]):
    """A request: what it says (`put_body`), and what it is answered (`take_body`)."""

    KIND: ClassVar[int]
    OF: ClassVar[Optional[str]] = None  # the field that says what it is about

    @property
    def named(self) -> str:
        """What it is and what it is about, for people: `QueueInfo root.a`, `Allocate 7`."""
        return f"{type(self).__name__} {getattr(self, self.OF)}" if self.OF else type(self).__name__

    def put_body(self, fields: Fields) -> None:
        """Adds what stands after the head; nothing where a request doesn't say otherwise."""

    def take_body(self, fields: Fields) -> T_co:
        """What stands after the status of a reply that is no refusal."""
        raise NotImplementedError

    def payload(self, call_id: int, version: int = VERSION) -> bytes:
        """The request's bytes under a call id, without the length of the frame. ValueError where a part does not fit
        its field, or the version has no GPUs."""
        fields = Fields(version).put("BBI", version, self.KIND, call_id)
        self.put_body(fields)
        return fields.data

    def reply(self, payload: bytes, call_id: int, version: int = VERSION) -> T_co:
        """What the payload of a reply says, under the call id and the version of the request. `Refused` where it is a
        refusal, `BadReply` where it is no such reply."""
        fields = Fields(version, payload)
        head, status = Head(*fields.take("BBI")), fields.take_number("B")
        is_fault = head == FAULT and status in (Refusal.BAD_LENGTH, Refusal.BAD_REQUEST)
        if not is_fault and head != (version, self.KIND, call_id):
            raise BadReply(f"{payload.hex()} is no reply of version {version} to call {call_id} of kind {self.KIND}")
        if status:
            refusal = member(Refusal, status)
            fault = fields.take_fault() if refusal is Refusal.BAD_SETTINGS else None
            if not fields.is_at_end():
                raise BadReply(f"bytes are left over after a refusal: {payload.hex()}")
            raise Refused(refusal, self, fault)
        result = self.take_body(fields)
        if not fields.is_at_end():
            raise BadReply(f"bytes are left over: {payload.hex()}")
        return result


@dataclass(frozen=True)
class Submit(Request[int]):
    """An application enters a leaf queue for a user. The answer is the application's number."""

    KIND: ClassVar[int] = 1
    OF = "path"
    path: str
    user: str

    def put_body(self, fields: Fields) -> None:
        fields.put_text(self.path, 255).put_text(self.user, 64)

    def take_body(self, fields: Fields) -> int:
        return fields.take_number("Q")


@dataclass(frozen=True)
class RegisterMaster(Request[Allocations]):
    """An application's master reports, once. The answer is what a container may have."""

    KIND: ClassVar[int] = 2
    OF = "app"
    app: int

    def put_body(self, fields: Fields) -> None:
        fields.put("Q", self.app)

    def take_body(self, fields: Fields) -> Allocations:
        return Allocations(fields.take_resource(), fields.take_resource())


@dataclass(frozen=True)
class Allocate(Request[AllocateReply]):
    """A master asks for containers, gives containers back, and hears what was granted and what has ended."""

    KIND: ClassVar[int] = 3
    OF = "app"
    app: int
    response: int
    asks: Sequence[Ask] = field(default=())
    releases: Sequence[int] = field(default=())

    def put_body(self, fields: Fields) -> None:
        fields.put("QI", self.app, self.response).put_asks(self.asks).put_numbers(self.releases)

    def take_body(self, fields: Fields) -> AllocateReply:
        response, ignored = fields.take("IH")
        grants = [fields.take_grant() for _ in range(fields.take_number("B"))]
        ends = [fields.take_end() for _ in range(fields.take_number("B"))]
        return AllocateReply(response, ignored, grants, ends)


@dataclass(frozen=True)
class FinishMaster(Request[int]):
    """An application ends. The answer is how many of its containers have ended with it."""

    KIND: ClassVar[int] = 4
    OF = "app"
    app: int

    def put_body(self, fields: Fields) -> None:
        fields.put("Q", self.app)

    def take_body(self, fields: Fields) -> int:
        return fields.take_number("I")


@dataclass(frozen=True)
class RegisterNode(Request[int]):
    """A node manager joins the cluster. The answer is the node's number."""

    KIND: ClassVar[int] = 5
    OF = "host"
    host: str
    rack: str
    total: Resource

    def put_body(self, fields: Fields) -> None:
        fields.put_text(self.host, 64).put_text(self.rack, 64).put_resource(self.total)

    def take_body(self, fields: Fields) -> int:
        return fields.take_number("Q")


@dataclass(frozen=True)
class Heartbeat(Request[HeartbeatReply]):
    """A node manager reports which containers have ended on its node."""

    KIND: ClassVar[int] = 6
    OF = "node"
    node: int
    response: int
    ended: Sequence[int] = field(default=())

    def put_body(self, fields: Fields) -> None:
        fields.put("QI", self.node, self.response).put_numbers(self.ended)

    def take_body(self, fields: Fields) -> HeartbeatReply:
        return HeartbeatReply(*fields.take("IHI"))


@dataclass(frozen=True)
class NodeGone(Request[int]):
    """A node is declared lost. The answer is how many containers have ended with it."""

    KIND: ClassVar[int] = 7
    OF = "node"
    node: int

    def put_body(self, fields: Fields) -> None:
        fields.put("Q", self.node)

    def take_body(self, fields: Fields) -> int:
        return fields.take_number("I")


@dataclass(frozen=True)
class QueueInfo(Request[QueueReport]):
    """What an operator sees of a queue."""

    KIND: ClassVar[int] = 8
    OF = "path"
    path: str

    def put_body(self, fields: Fields) -> None:
        fields.put_text(self.path, 255)

    def take_body(self, fields: Fields) -> QueueReport:
        running, leaf, guaranteed = fields.take_flag(), fields.take_flag(), fields.take_resource()
        bounded, maximum = fields.take_flag(), fields.take_resource()
        used, applications = fields.take_resource(), fields.take_number("I")
        return QueueReport(running, leaf, guaranteed, maximum if bounded else None, used, applications)


@dataclass(frozen=True)
class SetQueueState(Request[None]):
    """A queue is started or stopped: the property yarn.scheduler.capacity.<queue-path>.state."""

    KIND: ClassVar[int] = 9
    OF = "path"
    path: str
    running: bool

    def put_body(self, fields: Fields) -> None:
        fields.put_text(self.path, 255).put("B", self.running)

    def take_body(self, fields: Fields) -> None:
        return None


@dataclass(frozen=True)
class ClusterInfo(Request[ClusterReport]):
    """What the cluster holds."""

    KIND: ClassVar[int] = 10

    def take_body(self, fields: Fields) -> ClusterReport:
        nodes, applications, containers = fields.take("III")
        return ClusterReport(nodes, applications, containers, fields.take_resource(), fields.take_resource())


@dataclass(frozen=True)
class Refresh(Request[None]):
    """All settings become those of property lines, whose queues are those of the cluster."""

    KIND: ClassVar[int] = 11
    lines: str

    def put_body(self, fields: Fields) -> None:
        data = self.lines.encode()
        if len(data) > TEXT_MAX:
            raise ValueError(f"property lines have at most {TEXT_MAX} bytes, and not {len(data)}")
        fields.put(f"I{len(data)}s", len(data), data)

    def take_body(self, fields: Fields) -> None:
        return None


def frame(payload: bytes) -> bytes:
    """The payload with its length before it."""
    if not 0 < len(payload) <= PAYLOAD_MAX:
        raise ValueError(f"a payload has 1 to {PAYLOAD_MAX} bytes, and not {len(payload)}")
    return struct.pack(">I", len(payload)) + payload
