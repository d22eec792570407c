"""A world of nodes, cables and wires, its turns and its acts: docs/MODEL.md, 'The wires', 'A turn', 'Between turns'.

A wire is a list of [age, signal], the oldest first; it is named by the end that it leaves, a pair of node and port.
A listener, if there is one, hears what each act and each turn does to a node (`stepped`, with the node's snapshots
before and after, what it sent, and whether its clock missed the turn), and then that the act or turn is done (`done`).
"""

from .reach import reached


class Fault(Exception):
    """Why a line of a script is refused."""


class World:
    def __init__(self, delay, nodes):
        self.delay, self.nodes = delay, nodes
        self.far = {}  # the other end of the cable at an end, if there is one
        self.wires = {}
        self.held = {}  # for how many turns a wire is held, if it is
        self.turns = 0
        self.changed = [0] * len(nodes)
        self.listener = None

    def end(self, node, port):
        if port >= len(self.nodes[node].ports):
            raise Fault("NoPort")
        return node, port

    # The acts.

    def plug(self, first, second):
        ends = self.end(*first), self.end(*second)
        if first in self.far or second in self.far:
            raise Fault("InUse")
        if first[0] == second[0]:
            raise Fault("SameNode")
        self.far[first], self.far[second] = second, first
        self.wires[first], self.wires[second] = [], []
        for node, port in ends:
            self.step(node, lambda state: state.plugged(port))

    def pull(self, first):
        if self.end(*first) not in self.far:
            raise Fault("NotPlugged")
        second = self.far[first]
        for end in first, second:
            del self.far[end], self.wires[end]
            self.held.pop(end, None)
        for node, port in first, second:
            self.step(node, lambda state: state.pulled(port))

    def reset(self, node):
        self.step(node, lambda state: state.enter_reset(True))

    def config(self, sender, root, gap):
        for node in self.component(sender):
            self.nodes[node].set_config(root, gap)
        self.reset(sender)

    def hold(self, end, turns):
        if self.end(*end) not in self.far:
            raise Fault("NotPlugged")
        self.held[end] = turns

    def step(self, node, act, missed=False):
        """Lets a node act or take its turn, puts what it sends onto its wires, and notes whether its list changed."""
        state = self.nodes[node]
        packets = list(state.packets)
        before = self.listener and state.snapshot()
        act(state)
        sends, state.sends = state.sends, []
        for port, signal in sends:
            self.wires[node, port].append([0, signal])
        if state.packets != packets:
            self.changed[node] = self.turns
        if self.listener:
            self.listener.stepped(node, before, state.snapshot(), sends, missed)

    # A turn.

    def turn(self):
        arrived = self.deliver()
        self.turns += 1
        for node, state in enumerate(self.nodes):
            missed = state.misses_turn()
            if missed:
                reached["turn missed"] += 1
            if missed or node in arrived or not state.passes_over_tick():
                self.step(node, lambda state: hear_and_tick(state, arrived.get(node, {}), missed), missed)
        if self.listener:
            self.listener.done(self.turns)

    def deliver(self):
        """Lets all signals age, and takes those that arrive off their wires: by node, by port, the oldest first."""
        arrived = {}
        for end, wire in self.wires.items():
            if wire:
                for aged in wire:
                    aged[0] += 1
                if end not in self.held or wire[0][0] >= self.delay:
                    reached["held wire gives" if end in self.held else "wire gives"] += 1
                    node, port = self.far[end]
                    arrived.setdefault(node, {})[port] = [signal for _, signal in wire]
                    wire.clear()
        self.held = {end: turns - 1 for end, turns in self.held.items() if turns > 1}
        return arrived

    # Components.

    def component(self, node):
        """The nodes that cables join to this one, by rising number."""
        joined, new = set(), {node}
        while new:
            joined |= new
            new = {b for (a, _), (b, _) in self.far.items() if a in new} - joined
        return sorted(joined)

    def components(self):
        found = []
        for node in range(len(self.nodes)):
            if not any(node in component for component in found):
                found.append(self.component(node))
        return found


def hear_and_tick(state, heard, missed):
    for port in sorted(heard):
        for signal in heard[port]:
            state.hear(port, signal)
    if not missed:
        state.tick()
