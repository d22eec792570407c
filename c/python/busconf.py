"""FireWire cable buses: read, planned and run by the proved calls of libbusconf.

    >>> import busconf
    >>> bus = busconf.read_capture(open("two-nodes.capture", "rb").read())
    >>> bus.root, [node.id for node in bus.nodes]
    (1, [0, 1])

A list is the first quadlets of the self-ID packets of a bus, as integers, in the order in which they came. A call that
reads one takes the standard by which nodes show themselves, and raises `Refused` where no bus sends the list; the
exception has the fault, its line and its sentence. Scripts and configuration ROMs are refused in the same way. The
docstrings say what else a call raises; each may raise `MemoryError`.

The shared object is `libbusconf.so.0`, or the one that the environment variable BUSCONF_LIBRARY names. What is proved of
the calls, and what isn't, docs/LIBRARY.md says; this module is tested and not proved.
"""
from __future__ import annotations

import ctypes
import os
from collections.abc import Callable, Iterable, Iterator
from dataclasses import dataclass
from enum import IntEnum
from typing import Any

VERSION = (0, 3, 0)
"""The version of this module, and of the library that it is made for."""

U8, U16, U32, SIZE = ctypes.c_uint8, ctypes.c_uint16, ctypes.c_uint32, ctypes.c_size_t


# ---- numbers


class Status(IntEnum):
    """What a call of the library answers."""

    OK = 0
    REFUSED = 1
    NO_MEMORY = 2
    TOO_SHORT = 3
    NO_STANDARD = 4
    NO_CANDIDATE = 5
    INCOMPLETE = 6
    OUT_OF_RANGE = 7
    TOO_LONG = 8
    NO_NAME = 9


class Standard(IntEnum):
    """By which standard nodes show themselves."""

    IEEE1995 = 1995
    IEEE2000 = 2000


class SlotStatus(IntEnum):
    """What a slot of a node leads to."""

    ABSENT = 0
    UNPLUGGED = 1
    UP = 2
    DOWN = 3


class FaultKind(IntEnum):
    """The kinds of faults of a list, and from BAD_LENGTH on of a capture alone."""

    NOT_SELF_ID = 1
    WRONG_ID = 2
    BAD_ORDER = 3
    CUT = 4
    TWO_PARENTS = 5
    EMPTY = 6
    TOO_FEW_CHILDREN = 7
    TREES_LEFT = 8
    AFTER_ROOT = 9
    NO_ROOT = 10
    TOO_MANY = 11
    BAD_LENGTH = 12
    BAD_INVERSE = 13


class PacketKind(IntEnum):
    """The kinds of PHY packets."""

    CONFIG = 1
    LINK_ON = 2
    SELF_ZERO = 3
    SELF_MORE = 4
    EXTENDED = 5
    OTHER = 6


class ScriptFaultKind(IntEnum):
    """The kinds of faults of a script."""

    WORD = 1
    NUMBER = 2
    NAME = 3
    TWICE = 4
    LATE = 5
    TOO_MANY_NODES = 6
    NO_NODE = 7
    NO_PORT = 8
    IN_USE = 9
    SAME_NODE = 10
    NOT_PLUGGED = 11
    RANGE = 12
    NOT_SETTLED = 13
    NO_MANAGER = 14
    NOT_MANAGER = 15
    TOO_MANY_TURNS = 16
    TOO_MANY_MAPS = 17


class BlockKind(IntEnum):
    """The kinds of blocks of a configuration ROM."""

    DIRECTORY = 1
    LEAF = 2


class BlockCrc(IntEnum):
    """What is known of the CRC that a block keeps."""

    GOOD = 1
    BAD = 2
    PAST = 3


class RomFaultKind(IntEnum):
    """The kinds of faults of a configuration ROM."""

    LENGTH = 1
    TOO_LONG = 2
    EMPTY = 3
    NO_INFO = 4
    MINIMAL = 5
    CUT = 6
    BUS_NAME = 7
    OUTSIDE = 8
    SELF_TARGET = 9


class Which(IntEnum):
    """Which of two lists is meant."""

    OLD = 1
    NEW = 2


class ChangeKind(IntEnum):
    """What differs between two buses. LINK to POWER are what a node says of itself."""

    WENT = 1
    CAME = 2
    MOVED = 3
    LINK = 4
    GAP = 5
    SPEED = 6
    CONTENDER = 7
    POWER = 8
    ROOT = 9
    MANAGER = 10


class EventKind(IntEnum):
    """The kinds of events of a script's bus. PLUG to CONFIG are acts of the script."""

    PLUG = 1
    PULL = 2
    RESET = 3
    HOLD = 4
    CONFIG = 5
    ENTERS = 6
    TIMEOUT = 7
    TO_PARENT = 8
    TO_CHILD = 9
    COIN = 10
    PHY_ID = 11
    SENDS = 12
    MISSES = 13


class State(IntEnum):
    """The states of a node by the standard's names."""

    R0 = 0
    R1 = 1
    T0 = 2
    T1 = 3
    T2 = 4
    T3 = 5
    S0 = 6
    A0 = 7


class Signal(IntEnum):
    """What a node sends on a port."""

    RESET = 0
    IDLE = 1
    PARENT = 2
    CHILD = 3
    GRANT = 4
    PACKET = 5
    DONE = 6


class GrantKind(IntEnum):
    """Why an allocation or a release is refused."""

    NO_CHANNEL = 1
    NO_BANDWIDTH = 2
    CHANGED = 3


ID_NONE = 63
MAX_NODES = 63
MAX_SLOTS = 27
READER_QUADS = 253
NUMBER_NONE = 4294967295


# ---- records, as C has them


class _Slot(ctypes.Structure):
    _fields_ = [("status", U8), ("peer", U8)]


class _Node(ctypes.Structure):
    words = ("id", "link", "gap", "speed", "contender", "power", "initiated", "slot_count")
    _fields_ = [*((it, U8) for it in words), ("slots", _Slot * MAX_SLOTS)]


class _Bus(ctypes.Structure):
    _fields_ = [("nodes", U8), ("root", U8), ("manager", U8)]


class _Fault(ctypes.Structure):
    _fields_ = [("at", SIZE), ("kind", U8), ("found", U8), ("wanted", U8)]


class _Packet(ctypes.Structure):
    words = ("kind", "phy_id", "force", "set_gap", "gap", "link", "speed", "delay", "contender", "power", "p0", "p1", "p2",
             "initiated", "more", "n", "kept", "r")
    _fields_ = [("rest", U32), ("fields", U16), *((it, U8) for it in words)]


class _Plan(ctypes.Structure):
    _fields_ = [("packet", U32), ("root", U8), ("hops", U8), ("gap", U8), ("reach", U8)]


class _Cable(ctypes.Structure):
    words = ("parent", "port", "child", "child_port", "speed")
    _fields_ = [(it, U8) for it in words]


class _Change(ctypes.Structure):
    words = ("kind", "old_id", "new_id", "old_value", "new_value")
    _fields_ = [*((it, U8) for it in words), ("old_cable", _Cable), ("new_cable", _Cable)]


class _Event(ctypes.Structure):
    words = ("turn", "port", "other_port", "value", "second")
    _fields_ = [*((it, SIZE) for it in ("name", "name_length", "other", "other_length")), *((it, U32) for it in words),
                ("kind", U8)]


class _Reader(ctypes.Structure):
    _fields_ = [("count", U32), ("quads", U32 * READER_QUADS)]


class _ScriptFault(ctypes.Structure):
    _fields_ = [("line", U32), ("kind", U8)]


class _Block(ctypes.Structure):
    _fields_ = [("at", U16), ("length", U16), ("kept", U16), ("computed", U16), ("kind", U8), ("crc", U8)]


class _RomFault(ctypes.Structure):
    _fields_ = [("at", SIZE), ("found", U32), ("kind", U8)]


class _Registers(ctypes.Structure):
    words = ("bus_manager_id", "bandwidth_available", "channels_available_hi", "channels_available_lo")
    _fields_ = [(it, U32) for it in words]


class _Reply(ctypes.Structure):
    _fields_ = [("value", U32), ("rcode", U8)]


class _Seen(ctypes.Structure):
    _fields_ = [("bandwidth", U32), ("hi", U32), ("lo", U32)]


class _Grant(ctypes.Structure):
    _fields_ = [("detail", U32), ("now", U32), ("kind", U8)]


# ---- what is handed out


@dataclass(frozen=True)
class Slot:
    """A slot of a node, and the ID of the node at its other end, if there is one."""

    status: SlotStatus
    peer: int | None


@dataclass(frozen=True)
class Node:
    """A node of a bus, as its self-ID packets show it."""

    id: int
    link: bool
    gap: int
    speed: int
    contender: bool
    power: int
    initiated: bool
    slots: tuple[Slot, ...]


@dataclass(frozen=True)
class Bus:
    """A bus: its nodes by ID, the ID of its root, and that of its isochronous resource manager, if it has one."""

    nodes: tuple[Node, ...]
    root: int
    manager: int | None


@dataclass(frozen=True)
class Fault:
    """The fault of a list or a capture: `at` counts quadlets of a list, or pairs of a capture, from 0."""

    kind: FaultKind
    at: int
    found: int
    wanted: int


@dataclass(frozen=True)
class ScriptFault:
    """The fault of a script's first bad line, by its number from 1."""

    kind: ScriptFaultKind
    line: int


@dataclass(frozen=True)
class RomFault:
    """The fault of a configuration ROM: `at` counts quadlets from 0."""

    kind: RomFaultKind
    at: int
    found: int


@dataclass(frozen=True)
class Event:
    """What happens on a bus once `turn` turns are done: at a node, on one of its ports or on none. Of an act of the
    script there is no node, and `what` is its line. As a text it is the line of a trace. `value` and `second` are those
    of the header's enum busconf_event_kind: the `State` that is entered, say, or the `Signal` that is sent."""

    turn: int
    node: str | None
    port: int | None
    what: str
    kind: EventKind
    value: int | None
    second: int | None

    def __str__(self) -> str:
        node = "" if self.node is None else f"{self.node} "
        port = "" if self.port is None else f"port {self.port} "
        return f"turn {self.turn} {node}{port}{self.what}"


@dataclass(frozen=True)
class Cable:
    """A cable of a bus: the node nearer to the root and the one further from it, each by its ID and with its port, and
    the less of both nodes' speed codes."""

    parent: int
    port: int
    child: int
    child_port: int
    speed: int


@dataclass(frozen=True)
class Change:
    """Something that differs between two buses: of a node by its IDs in the old one and the new one, where it is in them,
    and what the kind says of it, as the header's enum busconf_change_kind has it."""

    kind: ChangeKind
    old_id: int | None
    new_id: int | None
    old_value: int
    new_value: int
    old_cable: Cable | None
    new_cable: Cable | None


@dataclass(frozen=True)
class Plan:
    """The root that suits a bus best, and the first quadlet of the packet that makes it root."""

    packet: int
    root: int
    hops: int
    gap: int
    reach: int


@dataclass(frozen=True)
class Block:
    """A block of a configuration ROM. Of a bad CRC `kept` is in the ROM and `computed` should be."""

    kind: BlockKind
    at: int
    length: int
    crc: BlockCrc
    kept: int
    computed: int


class Refused(ValueError):
    """What was read has a fault. `line` is what the program `busconf` writes of it, and `sentence` says what was found
    and what was wanted; of a ROM there is no sentence. Of two lists `which` says the one that has the fault."""

    def __init__(self, fault: Fault | ScriptFault | RomFault, line: str, sentence: str = "",
                 which: Which | None = None) -> None:
        super().__init__(f"{line}: {sentence}" if sentence else line)
        self.fault = fault
        self.line = line
        self.sentence = sentence
        self.which = which

    def __reduce__(self) -> tuple[Any, ...]:
        return Refused, (self.fault, self.line, self.sentence, self.which)


class Denied(Exception):
    """An allocation or a release is refused. `detail` and `now` are those of the header's struct busconf_grant."""

    def __init__(self, kind: GrantKind, detail: int, now: int) -> None:
        super().__init__(f"{kind.name}: {detail}, now {now}")
        self.kind, self.detail, self.now = kind, detail, now

    def __reduce__(self) -> tuple[Any, ...]:
        return Denied, (self.kind, self.detail, self.now)


# ---- the shared object


def _load() -> ctypes.CDLL:
    name = os.environ.get("BUSCONF_LIBRARY") or "libbusconf.so.0"
    try:
        library = ctypes.CDLL(name)
        library.busconf_version.restype = U32
    except OSError as error:
        raise ImportError(f"the library {name} can't be loaded: {error}") from error
    except AttributeError as error:
        raise ImportError(f"{name} is no libbusconf: it has no call busconf_version") from error
    found = library.busconf_version()
    if found // 1000 != VERSION[0] * 1000 + VERSION[1]:
        raise ImportError(f"libbusconf has the version {found}, and this module is for {'.'.join(map(str, VERSION))}")
    library.busconf_gap_for.restype = U8
    library.busconf_crc16.restype = U16
    return library


_library = _load()


def _answer(status: int) -> Status:
    """What a call answered, where it isn't what is raised whatever the call."""
    if status == Status.NO_MEMORY:
        raise MemoryError("libbusconf had no memory")
    if status == Status.NO_STANDARD:
        raise ValueError("the standard is neither 1995 nor 2000")
    if status == Status.TOO_LONG:
        raise ValueError("the script has more than 1048576 bytes")
    if status == Status.OUT_OF_RANGE:
        raise ValueError("a number is past what it may be")
    if status == Status.NO_NAME:
        raise ValueError("no node may have the name")
    return Status(status)


def _fits(what: str, value: int, item: Any) -> Any:
    """A number as the calls take it, where it has the room of a C type."""
    most = (1 << 8 * ctypes.sizeof(item)) - 1
    if not 0 <= value <= most:
        raise ValueError(f"{what} is 0 to {most}")
    return item(value)


def _year(standard: int) -> Any:
    if standard not in tuple(Standard):
        raise ValueError("the standard is neither 1995 nor 2000")
    return U32(standard)


def _listed(quads: Iterable[int]) -> tuple[Any, Any]:
    """A list as the calls take it: a pointer and a length."""
    values = [_fits("a quadlet", it, U32).value for it in quads]
    return (U32 * len(values))(*values), SIZE(len(values))


def _bytes(data: bytes) -> tuple[Any, Any]:
    """Bytes as the calls take them. Of a view whose items are wider it is the bytes that count."""
    data = memoryview(data).tobytes()
    return (ctypes.c_char * len(data)).from_buffer_copy(data), SIZE(len(data))


def _told(call: Callable[..., int], before: tuple[Any, ...], behind: tuple[Any, ...], item: Any) -> tuple[Status, Any]:
    """The items that a call tells at a place. The first call tells how many they are."""
    needed, room = SIZE(0), 0
    while True:
        place = (item * room)()
        status = _answer(call(*before, place, SIZE(room), ctypes.byref(needed), *behind))
        if status != Status.TOO_SHORT:
            return status, place[: needed.value] if status == Status.OK else None
        room = needed.value


def _text(call: Callable[..., int], *before: Any) -> str:
    """A text of one line, without its line feed."""
    return _told(call, before, (), ctypes.c_char)[1].decode("ascii").rstrip("\n")


def _fault_of(fault: _Fault) -> Fault:
    return Fault(FaultKind(fault.kind), fault.at, fault.found, fault.wanted)


def _refused(fault: _Fault, sentence: Callable[..., int], words: tuple[Any, ...]) -> Refused:
    line = _text(_library.busconf_fault_text, ctypes.byref(fault))
    return Refused(_fault_of(fault), line, _text(sentence, *words, ctypes.byref(fault)))


# ---- lists and captures


def _bus_of(bus: _Bus, nodes: Any) -> Bus:
    return Bus(tuple(map(_node_of, nodes[: bus.nodes])), bus.root, _id_of(bus.manager))


def _read(call: Callable[..., int], sentence: Callable[..., int], words: tuple[Any, ...]) -> Bus:
    nodes, bus, fault = (_Node * MAX_NODES)(), _Bus(), _Fault()
    status = _answer(call(*words, nodes, SIZE(MAX_NODES), ctypes.byref(bus), ctypes.byref(fault)))
    if status == Status.REFUSED:
        raise _refused(fault, sentence, words)
    return _bus_of(bus, nodes)


def _id_of(number: int) -> int | None:
    return None if number == ID_NONE else number


def _node_of(node: _Node) -> Node:
    slots = tuple(Slot(SlotStatus(it.status), _id_of(it.peer)) for it in node.slots[: node.slot_count])
    return Node(node.id, bool(node.link), node.gap, node.speed, bool(node.contender), node.power, bool(node.initiated),
                slots)


def read(quads: Iterable[int], standard: int = Standard.IEEE2000) -> Bus:
    """The bus of a list. Raises `Refused`, and `ValueError` of another standard."""
    return _read(_library.busconf_read, _library.busconf_sentence, (*_listed(quads), _year(standard)))


def read_capture(data: bytes, standard: int = Standard.IEEE2000) -> Bus:
    """The bus of the bytes of a capture: of each packet its quadlet and then the bitwise inverse of it, each with its
    highest byte first. Raises as `read`."""
    words = (*_bytes(data), _year(standard))
    return _read(_library.busconf_read_capture, _library.busconf_sentence_capture, words)


def _of_list(call: Callable[..., int], quads: Iterable[int], standard: int, found: Any) -> Status:
    words, fault = (*_listed(quads), _year(standard)), _Fault()
    status = _answer(call(*words, ctypes.byref(found), ctypes.byref(fault)))
    if status == Status.REFUSED:
        raise _refused(fault, _library.busconf_sentence, words)
    return status


def hops(quads: Iterable[int], standard: int = Standard.IEEE2000) -> int:
    """The cables on the longest path of a list's bus. Raises as `read`."""
    found = U8()
    _of_list(_library.busconf_hops, quads, standard, found)
    return found.value


def gap_for(count: int) -> int:
    """The gap count for so many hops, 0 to 255: that of the standard's table, and 63 past its end."""
    if not 0 <= count < 256:
        raise ValueError("hops are 0 to 255")
    return _library.busconf_gap_for(U8(count))


def plan(quads: Iterable[int], standard: int = Standard.IEEE2000) -> Plan | None:
    """The root that suits a list's bus best, or None where no node is eligible. Raises as `read`."""
    found = _Plan()
    if _of_list(_library.busconf_plan, quads, standard, found) == Status.NO_CANDIDATE:
        return None
    return Plan(found.packet, found.root, found.hops, found.gap, found.reach)


def _cable_of(cable: _Cable) -> Cable | None:
    return None if cable.child == ID_NONE else Cable(*(getattr(cable, it) for it in _Cable.words))


def _change_of(it: _Change) -> Change:
    return Change(ChangeKind(it.kind), _id_of(it.old_id), _id_of(it.new_id), it.old_value, it.new_value,
                  _cable_of(it.old_cable), _cable_of(it.new_cable))


def diff(old: Iterable[int], new: Iterable[int], standard: int = Standard.IEEE2000) -> list[Change]:
    """What differs between the buses of two lists; which node of one is which of the other is a guess, and by that guess
    exactly what differs is told. Raises as `read`: `which` of the exception is the list that is refused."""
    lists = _listed(old), _listed(new)
    which, fault = U8(), _Fault()
    before, behind = (*lists[0], *lists[1], _year(standard)), (ctypes.byref(which), ctypes.byref(fault))
    status, told = _told(_library.busconf_diff, before, behind, _Change)
    if status == Status.REFUSED:
        refused = _refused(fault, _library.busconf_sentence, (*lists[which.value - 1], _year(standard)))
        refused.which = Which(which.value)
        raise refused
    return [_change_of(it) for it in told]


def _map(call: Callable[..., int], quads: Iterable[int], standard: int, more: tuple[Any, ...], item: Any) -> Any:
    words, fault = (*_listed(quads), _year(standard)), _Fault()
    status, told = _told(call, (*words, *more), (ctypes.byref(fault),), item)
    if status == Status.REFUSED:
        raise _refused(fault, _library.busconf_sentence, words)
    return told


def topology_map(quads: Iterable[int], generation: int, standard: int = Standard.IEEE2000) -> list[int]:
    """The quadlets of the topology map of a list's bus. Raises as `read`."""
    return _map(_library.busconf_topology_map, quads, standard, (_fits("a generation", generation, U32),), U32)


def speed_map(quads: Iterable[int], generation: int, standard: int = Standard.IEEE2000) -> list[int]:
    """The quadlets of the speed map of a list's bus. Raises as `read`."""
    return _map(_library.busconf_speed_map, quads, standard, (_fits("a generation", generation, U32),), U32)


def speed_rows(quads: Iterable[int], standard: int = Standard.IEEE2000) -> bytes:
    """The rows of that speed map, 64 bytes a node. Raises as `read`."""
    return bytes(_map(_library.busconf_speed_rows, quads, standard, (), U8))


class Reader:
    """Reads a list that comes quadlet by quadlet."""

    def __init__(self) -> None:
        self._reader = _Reader()
        self.reset()

    def reset(self) -> None:
        """Forgets what it was given, as at a bus reset."""
        _library.busconf_reader_init(ctypes.byref(self._reader))

    def push(self, quad: int) -> None:
        """Takes the next quadlet, 0 to 4294967295."""
        _library.busconf_reader_push(ctypes.byref(self._reader), _fits("a quadlet", quad, U32))

    def state(self) -> tuple[Status, Fault | None]:
        """OK where a bus sends the list so far by IEEE 1394a-2000; REFUSED with the fault that the list keeps however it
        goes on; INCOMPLETE with the fault that it has if it ends here."""
        fault = _Fault()
        status = _answer(_library.busconf_reader_state(ctypes.byref(self._reader), ctypes.byref(fault)))
        return status, None if status == Status.OK else _fault_of(fault)

    def bus(self, standard: Standard = Standard.IEEE2000) -> tuple[Status, Bus | Fault]:
        """By either standard: OK with the bus that sends the list so far, or REFUSED or INCOMPLETE with a fault, as
        `state` says it."""
        nodes, bus, fault = (_Node * MAX_NODES)(), _Bus(), _Fault()
        status = _answer(_library.busconf_reader_bus(ctypes.byref(self._reader), _year(standard), nodes, SIZE(MAX_NODES),
                                                     ctypes.byref(bus), ctypes.byref(fault)))
        return status, _bus_of(bus, nodes) if status == Status.OK else _fault_of(fault)

    @property
    def quads(self) -> list[int]:
        """The quadlets that it was given, the first 253 of them."""
        return self._reader.quads[: self._reader.count]


# ---- packets and the CRC


_FIELDS = tuple(it[0] for it in _Packet._fields_)


def decode(quad: int) -> dict[str, int]:
    """The packet that a quadlet shows: its `kind`, a `PacketKind`, and the fields of the header's struct
    busconf_packet."""
    packet = _Packet()
    _library.busconf_decode(_fits("a quadlet", quad, U32), ctypes.byref(packet))
    return {it: getattr(packet, it) for it in _FIELDS} | {"kind": PacketKind(packet.kind)}


def encode(packet: dict[str, int]) -> int:
    """The quadlet of a packet, of which a field that isn't there is 0. Raises `ValueError` where the kind is none, a field
    doesn't fit its bits, or a name is that of no field."""
    found, quad = _Packet(), U32()
    for name, value in packet.items():
        if name not in _FIELDS:
            raise ValueError(f"a packet has no field {name}")
        setattr(found, name, value)
        if getattr(found, name) != value:
            raise ValueError(f"{name} doesn't fit its bits")
    if _answer(_library.busconf_encode(ctypes.byref(found), ctypes.byref(quad))) == Status.REFUSED:
        raise ValueError("no packet is so")
    return quad.value


def crc16(quads: Iterable[int]) -> int:
    """The CRC of quadlets (IEEE Std 1212)."""
    return _library.busconf_crc16(*_listed(quads))


# ---- scripts


def _script(call: Callable[..., int], script: str | bytes, more: tuple[Any, ...] = ()) -> bytes:
    words, fault = _bytes(script.encode() if isinstance(script, str) else script), _ScriptFault()
    status, told = _told(call, (*words, *more), (ctypes.byref(fault),), ctypes.c_char)
    if status == Status.REFUSED:
        line = _text(_library.busconf_script_fault_text, ctypes.byref(fault))
        sentence = _text(_library.busconf_script_sentence, *words, ctypes.byref(fault))
        raise Refused(ScriptFault(ScriptFaultKind(fault.kind), fault.line), line, sentence)
    return told


def run(script: str | bytes) -> str:
    """What a script prints, as `busconf run` writes it. Raises `Refused`, and `ValueError` of a script that is too
    long."""
    return _script(_library.busconf_run, script).decode("ascii")


def advice(script: str | bytes) -> str:
    """Which cables to pull so that no loop is left, as `busconf advice` writes it. Raises as `run`."""
    return _script(_library.busconf_advice, script).decode("ascii")


def trace(script: str | bytes) -> str:
    """What happens on a script's bus, an event a line, as `busview trace` writes it. Raises as `run`."""
    return _script(_library.busconf_trace, script).decode("ascii")


_ON_PORT = (EventKind.TO_PARENT, EventKind.TO_CHILD, EventKind.SENDS)


def _number_of(number: int) -> int | None:
    return None if number == NUMBER_NONE else number


def _event_of(event: _Event, text: str, at: int, end: int) -> Event:
    """The event whose line has these places in a trace."""
    kind, numbers = EventKind(event.kind), (_number_of(event.value), _number_of(event.second))
    if kind <= EventKind.CONFIG:
        return Event(event.turn, None, None, text[at:end].split(" ", 2)[2], kind, *numbers)
    behind = event.name + event.name_length
    what = text[behind + 1 : end]
    if kind in _ON_PORT:
        return Event(event.turn, text[event.name : behind], event.port, what.split(" ", 2)[2], kind, *numbers)
    return Event(event.turn, text[event.name : behind], None, what, kind, *numbers)


def events(script: str | bytes) -> Iterator[Event]:
    """The events of a script's bus, in the order in which they happen: those of `trace`. Raises as `run`."""
    text = _script(_library.busconf_trace, script)
    words, shown = _bytes(text), text.decode("ascii")
    event, at, next_at = _Event(), 0, SIZE()
    while at < len(text):
        status = _library.busconf_trace_event(*words, SIZE(at), ctypes.byref(event), ctypes.byref(next_at))
        if _answer(status) != Status.OK:
            raise RuntimeError(f"no event is found at the byte {at} of the trace")
        yield _event_of(event, shown, at, next_at.value - 1)
        at = next_at.value


def waves(script: str | bytes) -> str:
    """What changes on a script's bus, as a Value Change Dump. Raises as `run`."""
    return _script(_library.busconf_waves, script).decode("ascii")


def capture(script: str | bytes, name: str) -> bytes:
    """The capture of the tree in which the node with a name stands in the end. Raises as `run`, and `ValueError` of a
    name that no node may have."""
    return _script(_library.busconf_capture, script, _bytes(name.encode()))


# ---- configuration ROMs


def rom_check(data: bytes) -> list[Block]:
    """The blocks that the root directory of a ROM leads to, itself included, by rising place. Raises `Refused`."""
    fault = _RomFault()
    status, told = _told(_library.busconf_rom_check, _bytes(data), (ctypes.byref(fault),), _Block)
    if status == Status.REFUSED:
        line = _text(_library.busconf_rom_fault_text, ctypes.byref(fault))
        raise Refused(RomFault(RomFaultKind(fault.kind), fault.at, fault.found), line)
    return [Block(BlockKind(it.kind), it.at, it.length, BlockCrc(it.crc), it.kept, it.computed) for it in told]


# ---- the registers of an isochronous resource manager


class Registers:
    """The four registers of an isochronous resource manager, with the values that a bus reset restores."""

    def __init__(self) -> None:
        self._registers = _Registers()
        self.reset()

    def reset(self) -> None:
        """Gives the registers the values that a bus reset restores."""
        _library.busconf_registers_reset(ctypes.byref(self._registers))

    def values(self) -> dict[str, int]:
        """The values of the registers."""
        return {it: getattr(self._registers, it) for it in _Registers.words}

    def read(self, offset: int) -> tuple[int, int]:
        """The value at an offset and the response code: complete 0, address error 7."""
        reply = _Reply()
        at = _fits("an offset", offset, U32)
        _library.busconf_registers_read(ctypes.byref(self._registers), at, ctypes.byref(reply))
        return reply.value, reply.rcode

    def lock(self, offset: int, arg: int, value: int, kind: int = 2) -> tuple[int, int]:
        """A lock, by default compare_swap: the value found and the response code."""
        reply = _Reply()
        numbers = (_fits("an offset", offset, U32), _fits("a kind", kind, U8), _fits("an argument", arg, U32),
                   _fits("a value", value, U32))
        _library.busconf_registers_lock(ctypes.byref(self._registers), *numbers, ctypes.byref(reply))
        return reply.value, reply.rcode

    def look(self) -> tuple[int, int, int]:
        """The bandwidth and the channels, as allocations and releases are asked for by what was seen."""
        seen = _Seen()
        _library.busconf_registers_look(ctypes.byref(self._registers), ctypes.byref(seen))
        return seen.bandwidth, seen.hi, seen.lo

    def allocate(self, channel: int, units: int, seen: tuple[int, int, int] | None = None) -> None:
        """Takes a channel, 0 to 63, and units of bandwidth, 0 to 4915, by what was seen, or else by what is there.
        Raises `Denied`, and then nothing changes."""
        self._ask(_library.busconf_registers_allocate, channel, units, seen)

    def release(self, channel: int, units: int, seen: tuple[int, int, int] | None = None) -> None:
        """Gives them back, as `allocate`."""
        self._ask(_library.busconf_registers_release, channel, units, seen)

    def _ask(self, call: Callable[..., int], channel: int, units: int, seen: tuple[int, int, int] | None) -> None:
        if not (0 <= channel <= 63 and 0 <= units <= 4915):
            raise ValueError("a channel is 0 to 63 and units are 0 to 4915")
        numbers = tuple(self.look() if seen is None else seen)
        if len(numbers) != 3:
            raise ValueError("what was seen is the bandwidth and both words of the channels")
        saw, grant = _Seen(*(_fits("a number seen", it, U32) for it in numbers)), _Grant()
        status = _answer(call(ctypes.byref(self._registers), ctypes.byref(saw), U8(channel), U16(units),
                              ctypes.byref(grant)))
        if status == Status.REFUSED:
            raise Denied(GrantKind(grant.kind), grant.detail, grant.now)

    def attempt(self, node: int) -> tuple[bool, int]:
        """The attempt of a node, 0 to 62, to become bus manager: whether it is, and the ID of the one that is."""
        if not 0 <= node <= 62:
            raise ValueError("an ID is 0 to 62")
        manager = U8()
        status = _answer(_library.busconf_registers_attempt(ctypes.byref(self._registers), U8(node), ctypes.byref(manager)))
        return status == Status.OK, manager.value
