"""Logs of a Linux kernel with bus resets: both events of a trace, the OHCI driver's own lists, and lines between them.

Each is made by a generator `words` (random.Random) alone. docs/VIEW-LOGS.md, 'resets', has the lines.
"""
from . import captures

DEVICES = ["0000:05:00.0", "000a:1f:0b.3", "10000:e1:00.0"]
MESSAGES = [
    "firewire_core {}: topology build failed", "firewire_core {}: PHY ID mismatch in self ID: 2 != 1",
    "firewire_core {}: parent port inconsistency for node 2: parent_count=2",
    "firewire_core {}: phy config: new root=1, gap_count=5",
    "firewire_ohci {}: bad self ID 1/4 (807f8094 != ~7f807f6a)", "firewire_ohci {}: self ID receive error",
    "firewire_ohci {}: new bus reset, discarding self ids", "firewire_ohci {}: added OHCI v1.10 device as card 0"]
OTHERS = ["", "CPU:2 [LOST 12 EVENTS]", "CPU:2 [12 EVENTS DROPPED]", "# tracer: nop", "  x: sched_switch: prev_pid=9",
          "  x: xbus_reset_handle: card_index=0", "\xff\xfe", "bus_reset_handle: card_index=0"]


class Log:
    """A log that is being written: its lines, and for each card its generation and the list of its last reset."""

    def __init__(self, words):
        self.words, self.lines, self.micros = words, [], words.randrange(1 << 28)
        self.braces = words.random() < 0.7
        self.cards = {card: [words.randrange(256), captures.small_bus(words)] for card in words.sample([0, 1, 2, 17], 2)}

    def head(self):
        """What stands before the name of an event."""
        time = f"{self.micros // 1000000}.{self.micros % 1000000:06}"
        return self.words.choice([f"  irq/19-firewire-412   [002] .....   {time}: "] * 6 + [
            f"swapper     0 [001]  {time[:-3]}: ", "", "x: ", f"kworker/1:2-123 [001] {time}: ",
            f"kworker/1:2-123 [001] {time}789: "])

    def front(self):
        """What stands before a driver's name."""
        micros = self.micros % 1000000
        return self.words.choice([
            f"[{self.micros // 1000000:5}.{micros:06}] ", f"[{self.micros // 1000000:5}.{micros:06}] ",
            "Nov 29 10:00:00 desk kernel: ", f"4,1234,{self.micros},-;", f"17646232{self.micros // 10000000 % 100:02}.{micros:06} k: ",
            f"2026-12-01T21:06:{self.micros // 1000000 % 60:02},{micros:06}+00:00 ", "MESSAGE=",
            f"2026-12-01T21:06:{self.micros // 1000000 % 60:02}+0100 desk kernel: "])

    def quads(self, quads):
        if self.braces:
            return "{" + self.words.choice([",", ",", ", "]).join(f"0x{quad:x}" for quad in quads) + "}"
        return " ".join(map(str, quads))

    def reset(self):
        """A reset of a card: one of the events or both, or the driver's list."""
        words, card = self.words, self.words.choice(list(self.cards))
        generation, quads = self.cards[card]
        generation = (generation + words.choice([1, 1, 1, 1, 1, 2, 5, 0])) % 256
        quads = captures.next_list(words, quads)
        self.cards[card] = [generation, quads]
        self.micros += words.choice([1, 400, 1500000])
        kind = words.choices(["handle", "complete", "both", "driver"], [40, 25, 15, 20])[0]
        if kind in ("complete", "both"):
            self.complete(card, generation, quads)
        if kind in ("handle", "both"):
            self.handle(card, generation, quads)
        if kind == "driver":
            self.driver(words.choice(DEVICES), generation, quads)

    def handle(self, card, generation, quads):
        last = f"node_id={0xffc0 | len(quads) - 1 & 63:#x} "
        node = self.words.choice(["node_id=0xffc0 ", last, "node_id=0xffff ", "", "node_id=x "])
        self.event("bus_reset_handle", "firewire:", f"card_index={card} generation={generation} {node}bm_abdicate=false "
                   f"self_ids={self.quads(quads)}")

    def complete(self, card, generation, quads):
        pairs = [half for quad in quads for half in (quad, quad ^ captures.INVERSE)]
        if self.words.random() < 0.1:
            del pairs[self.words.randrange(len(pairs)):]
        failed = self.words.choice(["false"] * 9 + ["true"])
        self.event("self_id_complete", "firewire_ohci:", f"card_index={card} is_error={failed} "
                   f"generation_at_bus_reset={generation} generation_at_completion={generation} timestamp=0x1f3a "
                   f"packet_data={self.quads(pairs)}")

    def event(self, name, system, fields):
        """A line of an event; now and then a field is left out, or the line is cut."""
        words = self.words
        if words.random() < 0.1:
            parts = fields.split(" ")
            del parts[words.randrange(len(parts))]
            fields = " ".join(parts)
        line = self.head() + words.choice(["", "", system]) + f"{name}: {fields}"
        self.lines.append(line[:words.randint(0, len(line))] if words.random() < 0.04 else line)

    def driver(self, device, generation, quads):
        """The driver's list of a reset; now and then packets are missing, or other lines stand within it."""
        words = self.words
        head = self.front() + f"firewire_ohci {device}: "
        self.lines.append(f"{head}{len(quads)} selfIDs, generation {generation}, local node ID ffc{words.randrange(16):x}")
        for quad in quads:
            if words.random() < 0.03:
                self.lines.append(words.choice(OTHERS))
            if words.random() < 0.02:
                break
            self.lines.append(f"{head}selfID 0: {quad:08x}, phy {quad >> 24 & 63} [p--] S400 gc=63 +0W L")

    def other(self):
        words = self.words
        message = words.choice(MESSAGES).format(words.choice(DEVICES))
        self.lines.append(words.choice([self.front() + message, words.choice(OTHERS)]))


def log(words):
    made = Log(words)
    for _ in range(words.choice([0, 1, 2, 4, 8])):
        made.reset() if words.random() < 0.8 else made.other()
    end = words.choice(["\n"] * 9 + ["\r\n"])
    data = (end.join(made.lines) + words.choice([end, end, ""])).encode("latin-1")
    if data and words.random() < 0.1:
        at = words.randrange(len(data))
        data = data[:at] + words.choice([b"", b" ", b"\n", b"=", bytes([data[at] ^ 1 << words.randrange(8)])]) + data[at + 1:]
    return data
