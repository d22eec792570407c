"""The run of a script: docs/SCRIPTS.md, from 'Cables, resets and time' on. The faults that depend on the bus are here,
and are looked for in the order of the table in 'Faults'.
"""

from . import outcomes, plans, registers
from .coins import GivenCoins, SeededCoins
from .captures import MAX_NODES, manager_of
from .machine import Node
from .maps import maps_text
from .reach import reached
from .scripts import lines_of, parse, words_of
from .times import profile, real_times, suit, turns_to_settle, widened
from .world import Fault, World

STAGES = {"delay": 1, "times": 2, "node": 3, "clock": 4}
MAX_TURNS = 2000000
MAX_MAPS = 100


class ScriptFault(Exception):
    def __init__(self, line, kind):
        super().__init__(kind)
        self.place, self.kind = line, kind
        reached[f"fault {kind}"] += 1

    def line(self):
        return f"refused line {self.place} {self.kind}\n"


class Script:
    """What a script has come to after some of its lines. A listener is told of its lines that act on the bus."""

    def __init__(self, listener=None):
        self.delay, self.times = 4, profile(4)
        self.nanoseconds = None
        self.stage = 0  # how far the lines have come in the order `delay`, `times`, `node`, `clock`, all else
        self.world = World(self.delay, [])
        self.world.listener = listener
        self.node_of = {}
        self.report = None  # the last one, unless an act came since
        self.reports = []
        self.looks = {}  # what nodes saw of the registers, by node
        self.maps = 0
        self.out = []

    def run(self, data):
        number = 0
        for number, line in enumerate(lines_of(data), 1):
            try:
                words = words_of(line)
                if words:
                    form, values = parse(words, self.times)
                    verb = form.split()[0]
                    self.enter_stage(verb)
                    getattr(self, "line_" + verb)(form, *values)
                    reached[f"command {form}"] += 1
            except Fault as fault:
                raise ScriptFault(number, str(fault)) from None
        self.lines = number
        self.last_settle()
        return self

    def last_settle(self):
        """The settling at the end, which belongs to the line after the last; so does one more, of an advice."""
        try:
            self.line_settle("settle")
        except Fault as fault:
            raise ScriptFault(self.lines + 1, str(fault)) from None

    def text(self):
        return "".join(self.out)

    # Lines that say how nodes are made.

    def enter_stage(self, verb):
        stage = STAGES.get(verb, 5)
        if stage < self.stage or stage == self.stage and verb in ("delay", "times"):
            raise Fault("Late")
        self.stage = stage

    def line_delay(self, form, delay):
        self.delay = self.world.delay = delay
        self.times = profile(delay)

    def line_times(self, form, nanoseconds):
        self.times = real_times(form.split()[1], nanoseconds, self.delay)
        self.nanoseconds = nanoseconds
        if not suit(self.times, self.delay):
            raise Fault("Range")

    def line_node(self, form, name, ports, keys):
        number = len(self.world.nodes)
        if number == MAX_NODES:
            raise Fault("TooManyNodes")
        if name in self.node_of:
            raise Fault("Twice")
        times = {time: least for time, (least, _) in self.times.items()}
        times.update((key, value) for key, value in keys.items() if key in ("hold", "short", "long"))
        usual = {"link": 1, "speed": 2, "contender": 0, "power": 0}
        traits = {key: keys.get(key, value) for key, value in usual.items()}
        coins = GivenCoins(keys["coins"]) if "coins" in keys else SeededCoins(keys.get("seed", number))
        self.node_of[name] = number
        gap, resets_gap = keys.get("gap", 63), bool(keys.get("gapreset", 0))
        force = bool(keys.get("force", 0))
        self.world.nodes.append(Node(name, ports, times, traits, gap, resets_gap, force, coins))
        self.world.changed.append(0)

    def line_clock(self, form, name, parts, first=None):
        node = self.world.nodes[self.node(name)]
        if node.clock:
            raise Fault("Twice")
        between = 1000000 // parts
        self.times = widened(self.times, node.times)
        suits, paced = suit(self.times, self.delay, slow=True), between >= node.times["long"]
        reached[f"clock that ticks through a long wait: {paced}"] += 1
        if not (suits and paced):
            raise Fault("Range")
        node.clock = between, between if first is None else first - 1

    def turns_to_settle(self):
        slow = any(node.clock for node in self.world.nodes)
        return turns_to_settle(self.times, self.delay, len(self.world.nodes), slow)

    def node(self, name):
        if name not in self.node_of:
            raise Fault("NoNode")
        return self.node_of[name]

    # Acts, holds and turns.

    def line_plug(self, form, name, port, far_name, far_port):
        first, second = self.node(name), self.node(far_name)
        self.act(f"plug {name} {port} {far_name} {far_port}", self.world.plug, (first, port), (second, far_port))

    def line_pull(self, form, name, port):
        self.act(f"pull {name} {port}", self.world.pull, (self.node(name), port))

    def line_reset(self, form, name):
        self.act(f"reset {name}", self.world.reset, self.node(name))

    def act(self, words, act, *ends):
        """Does an act. Each ends all looks, and after it the bus has to settle again."""
        act(*ends)
        self.report = None
        self.looks = {}
        if self.world.listener:
            self.world.listener.done(self.world.turns, words)

    def line_hold(self, form, name, port, turns):
        self.world.hold((self.node(name), port), turns)
        if self.world.listener:
            self.world.listener.done(self.world.turns, f"hold {name} {port} {turns}")

    def line_turn(self, form, count):
        self.turn(count)

    def turn(self, count):
        if self.world.turns + count > MAX_TURNS:
            raise Fault("TooManyTurns")
        for _ in range(count):
            self.world.turn()

    def line_settle(self, form):
        self.turn(self.turns_to_settle())
        self.take_report()

    def take_report(self):
        self.report = outcomes.take_report(self.world, len(self.reports) + 1)
        self.reports.append(self.report)
        self.out.append(outcomes.report_text(self.world, self.report))

    # Lines that need a tree that has settled.

    def settled(self, name):
        """The node of this name and its part of the last report, which is a tree."""
        node = self.node(name)
        parts = self.report["parts"] if self.report else []
        part = next((part for part in parts if node in part["nodes"] and part["kind"] == "tree"), None)
        if part is None:
            raise Fault("NotSettled")
        return node, part

    def managed(self, name):
        """The node, its part, and the registers of the part's isochronous resource manager."""
        node, part = self.settled(name)
        manager = manager_of(part["tree"])
        if manager is None:
            raise Fault("NoManager")
        return node, part, self.world.nodes[part["end"][manager]].registers

    def line_config(self, form, name, root, gap):
        node, _ = self.settled(name)
        self.send_config(node, root, gap)

    def send_config(self, node, root, gap):
        said = " ".join("-" if value is None else str(value) for value in (root, gap))
        self.act(f"config {self.world.nodes[node].name} {said}", self.world.config, node, root, gap)

    def line_csr(self, form, name, offset, *values):
        _, _, held = self.managed(name)
        kind = form.split()[1]
        lock = values if kind == "lock" else ()
        code, value = registers.access(held, kind, offset, *lock)
        self.out.append(f"csr {name} rcode {code} value {value}\n")

    def line_look(self, form, name):
        node, _, held = self.managed(name)
        self.looks[node] = dict(held)

    def line_allocate(self, form, name, channel, units):
        node, _, held = self.managed(name)
        said = registers.grant(held, self.looks.pop(node, held), form == "allocate", channel, units)
        reached[f"{form} {said.split()[0]}"] += 1
        self.out.append(f"{form} {name} {said}\n")

    line_release = line_allocate

    def line_manager(self, form, name):
        node, _, held = self.managed(name)
        said = registers.become_manager(held, self.world.nodes[node].id)
        reached[f"manager {said.split()[0]}"] += 1
        self.out.append(f"manager {name} {said}\n")

    def line_plan(self, form, name):
        node, part, held = self.managed(name)
        if held[registers.BUS_MANAGER_ID] != self.world.nodes[node].id:
            raise Fault("NotManager")
        turns = self.turns_to_settle()
        if self.world.turns + turns > MAX_TURNS:
            raise Fault("TooManyTurns")
        tree = part["tree"]
        root, hops = plans.choose_root(tree), plans.hops(tree)
        gap, far = plans.gap_for(hops), plans.reach(tree, root)
        expected = outcomes.names(self.world, outcomes.walk(self.world, part["end"][root]))
        root_name = self.world.nodes[part["end"][root]].name
        self.out.append(f"plan {name} root {root_name} hops {hops} gap {gap} far {far} expect {' '.join(expected)}\n")
        self.send_config(node, root, gap)
        self.line_settle("settle")

    def line_maps(self, form, name):
        node, part = self.settled(name)
        if self.maps == MAX_MAPS:
            raise Fault("TooManyMaps")
        self.maps += 1
        root = self.world.nodes[part["end"][-1]]
        self.out.append(maps_text(root.packets, part["tree"], root.resets))


def run(data):
    return Script().run(data).text()
