"""Traces: docs/VIEW-SCRIPTS.md, 'trace'."""

from .machine import CHILD, DONE, GRANT, IDLE, PARENT, RESET
from .reach import reached
from .run import Script

WORDS = {
    RESET: "BUS_RESET",
    IDLE: "IDLE",
    PARENT: "TX_PARENT_NOTIFY",
    CHILD: "TX_CHILD_NOTIFY",
    GRANT: "TX_GRANT",
    DONE: "TX_IDENT_DONE",
}


class Listener:
    """Keeps the steps of nodes until the act or the turn is done."""

    def __init__(self):
        self.steps = []
        self.out = []

    def stepped(self, node, before, after, sends, missed):
        self.steps.append((node, before, after, sends, missed))

    def done(self, turn, act=None):
        """An act, with the words of its line, or a turn."""
        steps, self.steps = sorted(self.steps, key=lambda step: step[0]), []
        self.write(turn, act, steps)


class Trace(Listener):
    def __init__(self, script_nodes):
        super().__init__()
        self.nodes = script_nodes

    def write(self, turn, act, steps):
        lines = [act] if act else []
        for node, before, after, sends, missed in steps:
            for kind, said in events(before, after, sends, missed):
                reached[f"event {kind}"] += 1
                lines.append(f"{self.nodes[node].name} {said}")
        self.out += [f"turn {turn} {line}\n" for line in lines]


def events(before, after, sends, missed):
    """What happened to a node from one snapshot to the next, in the order of the table: kinds of lines, and lines."""
    if missed:
        yield "misses", "misses a tick"
    if after["phase"] != before["phase"] or after["resets"] != before["resets"]:
        yield "enters", f"enters {after['phase']}"
    if after["timed_out"] and not before["timed_out"]:
        yield "timeout", "configuration timeout"
    if after["parent"] is not None and after["parent"] != before["parent"]:
        yield "to its parent", f"port {after['parent']} to its parent"
    for port, child in enumerate(after["children"]):
        if child and not before["children"][port]:
            yield "to a child", f"port {port} to a child"
    if after["draws"] > before["draws"]:
        value = f" {after['first_draws'][-1]}" if after["draws"] <= 32 else ""
        yield "coin" if value else "coin past the 32nd", f"coin{value} wait {after['wait']}"
    if after["id"] is not None and after["id"] != before["id"]:
        yield "phy_ID", f"phy_ID {after['id']}"
    for port, signal in sorted(sends, key=lambda send: send[0]):
        if signal in WORDS:
            yield f"sends {WORDS[signal]}", f"port {port} sends {WORDS[signal]}"
        else:
            yield "sends packet", f"port {port} sends packet {signal[1]:08x}"


def trace(data):
    script = Script()
    script.world.listener = Trace(script.world.nodes)
    script.run(data)
    return "".join(script.world.listener.out)
