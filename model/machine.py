"""The port machine: docs/MODEL.md, 'The port machine' and above all 'The steps of a node'. A step is a call of `tick`,
`hear` or one of the acts; what it sends it puts at the end of `sends`, as pairs of a port and a signal.
"""

from . import registers
from .packets import CHILD as CHILD_PORT, INACTIVE, PARENT as PARENT_PORT, is_packet_zero, write_group
from .reach import reached

# The levels, and the signals that happen and are gone. A packet is a pair of PACKET and its quadlet.
RESET, IDLE, PARENT, CHILD = LEVELS = ("Reset", "Idle", "Parent", "Child")
GRANT, DONE, PACKET = "Grant", "Done", "Packet"

LAST_TICK = 65535
FULL_LIST = 252

# The one shortcut of the model. A node whose last tick applied no row, which has heard nothing since, and none of whose
# times ends at this tick, has no row at this tick either: only its timer rises. If this isn't set, such ticks are done
# in full.
PASS_OVER_IDLE_TICKS = True


class Port:
    def __init__(self):
        self.connected = False
        self.shown = IDLE
        self.child = self.asked = self.named = False


class Node:
    """
    `times` has hold, force, timeout, short and long; `traits` has link, speed, contender and power. `resets_gap` is
    whether the gap count is 63 again at the second reset without a configuration packet that sets it.
    """

    def __init__(self, name, ports, times, traits, gap, resets_gap, force, coins):
        self.name, self.times, self.traits, self.coins = name, times, traits, coins
        self.ports = [Port() for _ in range(ports)]
        self.next_gap, self.resets_gap = gap, resets_gap
        self.next_force = force
        self.resets = 0
        self.sends = []
        self.ends = set(times.values())
        self.clock = None  # of a slow one: in how many turns it ticks between two that it misses, and before the next
        self.idle = False  # whether no row applied at the last tick, and nothing was heard since
        self.enter_reset(True)  # power-on: as after a reset of its own, with no port to send on

    def connected(self):
        return [port for port, state in enumerate(self.ports) if state.connected]

    def snapshot(self):
        """What can be seen of the node between two steps."""
        return {
            "phase": self.phase,
            "resets": self.resets,
            "timed_out": self.timed_out,
            "parent": self.parent,
            "id": self.id,
            "draws": self.draws,
            "first_draws": list(self.first_draws),
            "wait": self.wait,
            "connected": [port.connected for port in self.ports],
            "children": [port.child for port in self.ports],
            "shown": [port.shown for port in self.ports],
        }

    def send(self, port, signal):
        self.sends.append((port, signal))

    def send_all(self, signal):
        for port in self.connected():
            self.send(port, signal)

    # The acts, and the reset that each of them is.

    def enter_reset(self, initiated):
        self.phase, self.timer, self.wait = "R0", 0, 0
        for port in self.ports:
            port.child = port.asked = port.named = False
        self.parent = self.id = None
        self.granted = self.timed_out = False
        self.packets = []
        self.draws, self.first_draws = 0, []
        self.initiated = initiated
        self.gap, self.force = self.next_gap, self.next_force
        if self.resets_gap and self.next_gap != 63:
            reached["gap count set back"] += 1
            self.next_gap = 63
        self.resets += 1
        self.registers = registers.initial()
        self.idle = False
        self.send_all(RESET)

    def plugged(self, port):
        self.ports[port].connected, self.ports[port].shown = True, RESET
        self.enter_reset(True)

    def pulled(self, port):
        self.ports[port].connected, self.ports[port].shown = False, IDLE
        self.enter_reset(True)

    def set_config(self, root, gap):
        """A configuration packet: a root's ID or None, a gap count or None. It takes effect at the next reset."""
        if root is not None:
            self.next_force = self.id == root
        if gap is not None:
            self.next_gap = gap

    # Hearing.

    def hear(self, port, signal):
        self.idle = False
        state = self.ports[port]
        if signal in LEVELS:
            state.shown = signal
            if signal == RESET and self.phase != "R0":
                reached["reset heard"] += 1
                self.enter_reset(False)
        elif signal == GRANT:
            if self.phase == "S0" and port == self.parent:
                self.granted = True
        elif signal == DONE:
            if self.phase == "S0" and state.child:
                state.named = True
        elif self.phase in ("S0", "A0"):
            if len(self.packets) < FULL_LIST:
                self.packets.append(signal[1])
            for other in self.connected():
                if other != port:
                    self.send(other, signal)

    # The clock.

    def misses_turn(self):
        """Whether the clock misses this turn; then it goes on to the next."""
        if not self.clock:
            return False
        between, before = self.clock
        self.clock = between, before - 1 if before else between
        return not before

    # A tick: the timer rises, and then at most one row applies, that of the node's phase.

    def passes_over_tick(self):
        """Does the tick and answers True if it is plain that no row applies (PASS_OVER_IDLE_TICKS)."""
        if not self.idle or self.timer + 1 in self.ends or not PASS_OVER_IDLE_TICKS:
            return False
        self.timer = min(self.timer + 1, LAST_TICK)
        return True

    def tick(self):
        self.timer = min(self.timer + 1, LAST_TICK)
        row = {
            "R0": self.reset_start,
            "R1": self.reset_wait,
            "T0": self.tree_start,
            "T1": self.child_handshake,
            "T2": self.parent_handshake,
            "T3": self.contend,
            "S0": self.self_identify,
            "A0": self.ready,
        }[self.phase]()
        self.idle = row is None
        if row is not None:
            reached[f"row {row}"] += 1

    def reset_start(self):
        if self.timer >= self.times["hold"]:
            self.phase, self.timer = "R1", 0
            self.send_all(IDLE)
            return "R0->R1"

    def reset_wait(self):
        if all(self.ports[port].shown in (IDLE, PARENT) for port in self.connected()):
            self.phase, self.timer = "T0", 0
            return "R1->T0"

    def tree_start(self):
        ports = self.connected()
        asking = [port for port in ports if self.ports[port].shown == PARENT]
        left = [port for port in ports if port not in asking]
        may_ask = not self.force or self.timer >= self.times["force"]
        if not left or len(left) == 1 and may_ask:
            self.phase, self.timed_out = "T1", False
            self.parent = left[0] if left else None
            for port in ports:
                self.ports[port].child = port in asking
                self.send(port, CHILD if port in asking else PARENT)
            return "T0->T1"
        if self.timer >= self.times["timeout"] and not self.timed_out:
            self.timed_out = True
            return "T0 timeout"

    def children(self):
        return [port for port in self.connected() if self.ports[port].child]

    def child_handshake(self):
        if all(self.ports[port].shown == IDLE for port in self.children()):
            self.phase = "T2"
            return "T1->T2"

    def parent_handshake(self):
        if self.parent is None:
            self.phase, self.granted = "S0", True
            return "T2->S0 as root"
        if self.ports[self.parent].shown == CHILD:
            self.phase = "S0"
            self.send(self.parent, IDLE)
            return "T2->S0 as child"
        if self.ports[self.parent].shown == PARENT:
            coin = self.coins.draw()
            self.phase, self.timer = "T3", 0
            self.wait = self.times["long" if coin else "short"]
            self.draws = min(self.draws + 1, 65535)
            if len(self.first_draws) < 32:
                self.first_draws.append(coin)
            self.send(self.parent, IDLE)
            return "T2->T3"

    def contend(self):
        if self.timer < self.wait:
            return None
        if self.ports[self.parent].shown == PARENT:
            self.phase = "T1"
            self.ports[self.parent].child = True
            self.send(self.parent, CHILD)
            self.parent = None
            return "T3->T1"
        self.phase = "T2"
        self.send(self.parent, PARENT)
        return "T3->T2"

    def self_identify(self):
        if not self.granted:
            return None
        unnamed = [port for port in self.children() if not self.ports[port].named]
        if unnamed:
            if self.ports[unnamed[0]].asked:
                return None
            self.ports[unnamed[0]].asked = True
            self.send(unnamed[0], GRANT)
            return "S0 grant"
        self.phase = "A0"
        self.id = sum(is_packet_zero(quad) for quad in self.packets)
        for quad in self.group():
            self.packets.append(quad)
            self.send_all((PACKET, quad))
        if self.parent is not None:
            self.send(self.parent, DONE)
        return "S0->A0"

    def ready(self):
        return None

    def group(self):
        """The node's own self-ID packets."""
        statuses = [
            INACTIVE if not state.connected else CHILD_PORT if state.child else PARENT_PORT for state in self.ports
        ]
        return write_group(
            dict(self.traits, id=self.id, gap=self.gap, initiated=int(self.initiated), ports=statuses)
        )
