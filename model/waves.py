"""Value Change Dumps: docs/VIEW-SCRIPTS.md, 'waves'."""

from .machine import CHILD, DONE, GRANT, IDLE, LEVELS, PARENT, RESET
from .run import Script
from .trace import WORDS, Listener

PHASES = ("R0", "R1", "T0", "T1", "T2", "T3", "S0", "A0")
SHOWS = {RESET: "BUS_RESET", IDLE: "IDLE", PARENT: "RX_PARENT_NOTIFY", CHILD: "RX_CHILD_NOTIFY"}
ROLES = ("-", "child", "parent")
# The variables of a node and of each of its ports: the letter of the identifier, the kind, and the name.
OF_NODE = (
    ("s", "string 1", "state"),
    ("c", "reg 3", "state_code"),
    ("i", "reg 6", "phy_ID"),
    ("t", "reg 1", "timeout"),
    ("r", "reg 1", "root"),
)
OF_PORT = (
    ("r", "string 1", "role"),
    ("a", "reg 2", "role_code"),
    ("h", "string 1", "shows"),
    ("b", "reg 2", "shows_code"),
    ("s", "string 1", "sends"),
    ("c", "reg 3", "sends_code"),
    ("g", "event 1", "grant"),
    ("p", "reg 32", "packet"),
    ("d", "event 1", "done"),
)


def mark(number):
    return chr(33 + number)


def word(text, code, width, letters, of):
    """A string and its number."""
    return [f"s{text} {of}{letters[0]}", f"b{code:0{width}b} {of}{letters[1]}"]


def node_values(node, seen):
    """Groups of lines for the node's own variables, each of which is written if it changes."""
    of = mark(node)
    identity = "x" if seen["id"] is None else f"{seen['id']:06b}"
    root = seen["phase"] in ("S0", "A0") and seen["parent"] is None
    return [
        word(seen["phase"], PHASES.index(seen["phase"]), 3, "sc", of),
        [f"b{identity} {of}i"],
        [f"b{seen['timed_out']:b} {of}t"],
        [f"b{root:b} {of}r"],
    ]


def port_values(node, port, seen):
    of = mark(node) + mark(port)
    role = 2 if seen["parent"] == port else int(seen["children"][port])
    shown = seen["shown"][port]
    return [
        word(ROLES[role], role, 2, "ra", of),
        word(SHOWS[shown], LEVELS.index(shown), 2, "hb", of),
    ]


def no_cable(node, port):
    return word("-", 4, 3, "sc", mark(node) + mark(port))


def sent(node, port, signal):
    of = mark(node) + mark(port)
    if signal in LEVELS:
        return word(WORDS[signal], LEVELS.index(signal), 3, "sc", of)
    if signal in (GRANT, DONE):
        return ["1" + of + ("g" if signal == GRANT else "d")]
    return [f"b{signal[1]:032b} {of}p"]


class Dump(Listener):
    """`time` gives the time of a turn in the file's unit."""

    def __init__(self, script):
        super().__init__()
        self.script = script

    def time(self, turn):
        if self.script.nanoseconds is None:
            return turn
        return 1000 * turn * self.script.nanoseconds // self.script.delay

    def write(self, turn, act, steps):
        lines = []
        for node, before, after, sends, missed in steps:
            lines += [f"1{mark(node)}m"] if missed else []
            for old, new in zip(node_values(node, before), node_values(node, after)):
                lines += new if new != old else []
            for port, connected in enumerate(after["connected"]):
                for old, new in zip(port_values(node, port, before), port_values(node, port, after)):
                    lines += new if new != old else []
                if before["connected"][port] and not connected:
                    lines += no_cable(node, port)
                for at, signal in sends:
                    lines += sent(node, port, signal) if at == port else []
        if lines:
            self.out += [f"#{self.time(turn)}"] + lines


def head(script):
    """The variables, and the values of nodes that have just powered on."""
    unit = "One unit of time is one turn, which is no time of the standard."
    if script.nanoseconds is not None:
        unit = f"One unit of time is one picosecond, and {script.delay} turns are {script.nanoseconds} ns."
    lines = ["$comment busview waves $end", f"$comment {unit} $end"]
    lines.append(f"$timescale 1 {'ns' if script.nanoseconds is None else 'ps'} $end")
    values = []
    for node, state in enumerate(script.world.nodes):
        lines.append(f"$scope module {state.name} $end")
        lines += [f"$var {kind} {mark(node)}{letter} {name} $end" for letter, kind, name in OF_NODE]
        lines += [f"$var event 1 {mark(node)}m missed $end"] if state.clock else []
        fresh = {"phase": "R0", "id": None, "timed_out": False, "parent": None}
        fresh.update(children=[False] * len(state.ports), shown=[IDLE] * len(state.ports))
        groups = node_values(node, fresh)
        for port in range(len(state.ports)):
            of = mark(node) + mark(port)
            lines += [f"$var {kind} {of}{letter} p{port}_{name} $end" for letter, kind, name in OF_PORT]
            groups += port_values(node, port, fresh) + [no_cable(node, port), [f"bx {of}p"]]
        lines.append("$upscope $end")
        values += [line for group in groups for line in group]
    return lines + ["$enddefinitions $end", "#0", "$dumpvars"] + values + ["$end"]


def waves(data):
    script = Script()
    script.world.listener = Dump(script)
    script.run(data)
    return "".join(line + "\n" for line in head(script) + script.world.listener.out)
