"""Scripts: such as are mostly valid, with a word at an edge, with a line at fault, and with bytes mashed.

Each is made by a generator `words` (random.Random) alone. docs/SCRIPTS.md has the lines, keys and ranges.
"""

NAMES = ["a", "b", "c", "d", "hub", "pc", "disk", "tape", "camera", "n0", "n1", "n2", "a_1", "z9_", "a234567890123456"]
COINS = ["0", "1", "01", "10", "0110", "1" * 33, "0" * 40 + "1", "01" * 32]
OFFSETS = ["0x21c", "0x220", "0x224", "0x228", "540", "544"]
NUMBERS = [0, 1, 2, 3, 4, 5, 7, 8, 10, 11, 12, 15, 16, 17, 31, 32, 62, 63, 64, 65, 255, 256, 319, 320, 321, 4915, 4916,
           65534, 65535, 65536, 1999999, 2000000, 2000001, 4294967295, 4294967296, 9999999999, 10000000000]
ODD_WORDS = ["-", "-1", "+1", "0x", "0x0", "0X1", "0xffffffff", "0x100000000", "0x00000001", "0x000000001", "0000000003",
             "00000000003", "1e3", "1.0", "a", "A", "hub", "9a", "_a", "zz", "a2345678901234567", "coins", "seed", "kind",
             "new", "field", "packed", "read", "write", "lock", "swap", "1394a", "1394-1995", "#", "# x", "node", "settle",
             "012"]
BAD_LINES = ["shake a", "node", "node a2345678901234567 3", "node a2345678901234567 3", "turn 0x00000001", "turn 0x000000001",
             "node a", "node q 3 colour 1", "node q 3 speed", "node q 0", "node q 17", "node q 3 speed 3",
             "node q 3 speed 1 speed 2", "node q 3 coins 0 seed 1", "node q 3 coins 012", "node q 3 kind new", "node 9a 3",
             "node q 3 hold 0", "node q 3 short 65535", "delay 17", "delay 0", "delay 2", "times 1394a 170",
             "times 1394-1995 170", "times 1394b 1", "turn 0", "turn 2000001", "turn 0x", "turn -1", "turn 4294967296",
             "turn 5 # five", "hold a 0 0", "hold a 0 65536", "settle now", "config a - -", "config a 63 -", "config a - 64",
             "csr a swap 0", "csr a read", "csr a lock 0x220 2 1", "maps a", "maps zz", "plan a", "manager a", "look a",
             "allocate a 64 1", "allocate a 1 4916", "release a 1 1", "allocate a 1 1", "reset Hub", "reset zz", "plug a 0 b",
             "plug a 0 a 1", "plug a 16 b 0", "plug zz 0 a 0", "pull a 15", "pull a 0", "pull zz 0", "\x7f", "a\x00b",
             "\xe9", "node q 3\x0b", "turn 1\r\r", "turn\r1"]


class Script:
    """A script that is being written: its lines, and the bus as far as lines show it."""

    def __init__(self, words, real_times):
        self.words, self.lines, self.real_times = words, [], real_times
        self.delay, self.timed, self.hold = 4, False, 256
        self.ports, self.cables, self.pulled, self.looked = {}, {}, [], []
        self.settled = False
        # Whether most of its lines need a bus that has settled, and from which coins nodes take theirs.
        self.asks = words.random() < 0.4
        self.coins = words.choice([[], [], ["0", "1"], ["0"], COINS])
        # For how many turns of a node scripts may last: what a model in Python bears.
        self.left = 400_000 if words.random() < 0.97 else 3_000_000

    # The head: delay, times and nodes.

    def write_head(self):
        words = self.words
        self.timed = words.random() < self.real_times
        # A model in Python is slow for long delays. By real times a turn is no whole number of picoseconds if 3 or 7 of them
        # are the delay.
        if words.random() < 0.7:
            delays = [3, 3, 7, words.randint(1, 16)] if self.timed else [1, 1, 1, 2, 2, 2, 3, 3, 4, 5, 8, words.randint(1, 16)]
            self.delay = words.choice(delays)
            self.hold = 64 * self.delay
            self.lines.append(f"delay {self.delay}")
        if self.timed:
            newer = words.random() < 0.6
            nanoseconds = words.randint(60, 400) if newer else words.randint(20, 120)
            self.hold = 166600 * self.delay // nanoseconds
            self.lines.append(f"times {'1394a' if newer else '1394-1995'} {nanoseconds}")
        count = words.choice([0, 1, 2, 2, 2, 3, 3, 3, 4, 4, 5, 6, 7, 9, 12])
        if words.random() < 0.01:
            count = words.choice([20, 40, 62, 63])
        names = words.sample(NAMES, count) if count <= len(NAMES) else [f"n{k}" for k in range(count)]
        for name in names:
            self.write_node(name)
        if words.random() < 0.2:
            for name in words.sample(names, words.randint(0, min(3, count))):
                self.write_clock(name)

    def write_node(self, name):
        words = self.words
        ports = words.choice([1, 2, 3, 3, 3, 4, 11, 12, 16, words.randint(1, 16)])
        self.ports[name] = ports
        keys = []
        if words.random() < (0.97 if self.asks else 0.5):
            keys.append("contender 1")
        elif words.random() < 0.1:
            keys.append("contender 0")
        for key, most in (("speed", 2), ("link", 1), ("force", 1), ("power", 7), ("gap", 63), ("gapreset", 1)):
            if words.random() < (0.04 if key == "link" else 0.15):
                keys.append(f"{key} {words.randint(0, most)}")
        for key, low, high in (("hold", 64, 80), ("short", 3, 4), ("long", 8, 10)):
            if not self.timed and words.random() < 0.12:
                least, most = low * self.delay, high * self.delay
                keys.append(f"{key} {words.choice([least, most, words.randint(least, most)])}")
        if self.coins and words.random() < 0.8:
            keys.append(f"coins {words.choice(self.coins)}")
        elif words.random() < 0.4:
            keys.append(f"seed {words.choice([0, 1, 7, words.randrange(1 << 32)])}")
        if words.random() < 0.1:
            keys.append(f"kind {words.choice(['field', 'packed'])}")
        words.shuffle(keys)
        self.lines.append(" ".join([f"node {name} {ports}"] + keys))

    def write_clock(self, name):
        """A clock that misses its first turn while nodes reset or contend, or at any time."""
        words = self.words
        pace = words.choice([50, 200, 1000, 5000, 10000, words.randint(1, 20000), 1000000 // (10 * self.delay)])
        first = words.choice([words.randint(1, 20), self.hold + words.randint(0, 60), words.randint(1, 4000)])
        self.lines.append(f"clock {name} {pace}" + (f" {first}" if words.random() < 0.8 else ""))

    # Acts and turns.

    def ends(self, wanted_cable):
        """Ends of cables, or ports without one."""
        every = [(name, port) for name, ports in self.ports.items() for port in range(ports)]
        return [end for end in every if (end in self.cables) == wanted_cable]

    def component(self, name):
        joined, new = set(), {name}
        while new:
            joined |= new
            new = {far[0] for end, far in self.cables.items() if end[0] in new} - joined
        return joined

    def plug(self, loops):
        free = self.ends(False)
        again = [pair for pair in self.pulled if pair[0] in free and pair[1] in free]
        if again and self.words.random() < 0.6:
            self.join(*self.words.choice(again))
            return
        if not free:
            return
        one = self.words.choice(free)
        joined = {one[0]} if loops else self.component(one[0])
        others = [end for end in free if end[0] not in joined]
        if others:
            self.join(one, self.words.choice(others))

    def join(self, one, other):
        self.cables[one], self.cables[other] = other, one
        self.act(f"plug {one[0]} {one[1]} {other[0]} {other[1]}")

    def pull(self):
        ends = self.ends(True)
        if ends:
            end = self.words.choice(ends)
            far = self.cables.pop(end)
            del self.cables[far]
            self.pulled.append((end, far))
            self.act(f"pull {end[0]} {end[1]}")

    def act(self, line):
        self.lines.append(line)
        self.settled = False

    def turn(self):
        """Turns: a few, about as many as a reset is held or a loop takes to be found, or any number."""
        words, hold = self.words, self.hold
        count = words.choice([words.randint(1, 12), words.randint(1, 12), max(hold + words.randint(-6, 40), 1),
                              words.randint(1, 600), hold + 512 * self.delay + words.randint(-4, 12),
                              words.randint(1, hold + 50), words.randint(1, 5000)])
        if self.spend(count):
            self.lines.append(f"turn {count}")

    def spend(self, turns):
        """Whether the script may last for so many turns more."""
        cost = turns * max(len(self.ports), 1)
        self.left -= cost if cost <= self.left else 0
        return cost <= self.left

    def settle(self):
        n = len(self.ports)
        if self.spend(self.delay * (2000 + 4 * n * n + 8 * n)):
            self.lines.append("settle")
            self.settled = True

    def name(self):
        return self.words.choice(list(self.ports))

    def change(self, loops):
        """A line that changes something on the bus, or lets time pass."""
        kind = self.words.choices(["plug", "pull", "reset", "turn", "hold", "settle", "twice", "again"],
                                  [12, 6, 6, 14, 6, 6, 2, 3])[0]
        if kind == "plug":
            self.plug(loops)
        elif kind == "pull":
            self.pull()
        elif kind == "turn":
            self.turn()
        elif kind == "again":
            self.hold_and_pull()
        elif kind == "twice":
            # A second reset, where nodes are about to leave the first.
            for turns in (1, self.hold + self.words.randint(-3, 8)):
                self.act(f"reset {self.name()}")
                self.lines.append(f"turn {max(turns, 1)}")
            self.act(f"reset {self.name()}")
        elif kind == "settle":
            self.settle()
        elif kind == "reset":
            self.act(f"reset {self.name()}")
        elif self.ends(True):
            name, port = self.words.choice(self.ends(True))
            count = self.words.choice([1, 2, self.delay, self.words.randint(1, 12), self.words.randint(1, 300), 65535])
            self.lines.append(f"hold {name} {port} {count}")

    def hold_and_pull(self):
        """A wire is held, and its cable pulled and plugged in again."""
        ends = self.ends(True)
        if ends:
            end = self.words.choice(ends)
            far = self.cables[end]
            self.lines.append(f"hold {end[0]} {end[1]} {self.words.choice([300, 2000, 65535])}")
            self.lines.append(f"turn {self.words.randint(1, 20)}")
            self.act(f"pull {far[0]} {far[1]}")
            self.lines.append(f"turn {self.words.randint(1, 20)}")
            self.join(end, far)

    def ask(self):
        """A line that needs a bus that has settled."""
        words, name = self.words, self.name()
        kind = words.choice(["config", "csr", "csr", "look", "allocate", "allocate", "release", "manager", "manager", "plan",
                             "maps"])
        if kind == "config":
            root, gap = words.choice([("-", words.randint(0, 63)), (words.randint(0, len(self.ports)), "-"),
                                      (words.randint(0, len(self.ports)), words.choice([0, 5, 63])), (62, "-")])
            self.act(f"config {name} {root} {gap}")
        elif kind == "csr":
            self.lines.append(f"csr {name} {self.register_words()}")
        elif kind in ("allocate", "release"):
            if self.looked and words.random() < 0.6:
                name = self.looked.pop()
            units = words.choice([0, 1, 100, 1000, 4915, words.randint(0, 4915)])
            self.lines.append(f"{kind} {name} {words.choice([0, 1, 5, 31, 32, 63])} {units}")
        elif kind == "plan":
            n = len(self.ports)
            if self.spend(self.delay * (2000 + 4 * n * n + 8 * n)):
                self.lines += [f"manager {name}", f"plan {name}"] if words.random() < 0.9 else [f"plan {name}"]
        elif kind == "look" and words.random() < 0.3:
            self.look_and_act(name)
        else:
            self.looked += [name] if kind == "look" else []
            self.lines.append(f"{kind} {name}")

    def look_and_act(self, name):
        """A node looks at what another act then undoes."""
        self.lines += [f"allocate {self.name()} {self.words.randrange(64)} {self.words.randint(1, 2000)}", f"look {name}"]
        self.act(f"reset {self.name()}")
        self.settle()
        if self.settled:
            self.lines.append(f"allocate {name} {self.words.randrange(64)} {self.words.randint(1, 2000)}")

    def register_words(self):
        words = self.words
        offset = words.choice(OFFSETS + ["0x230", "0"])
        value = words.choice([0, 1, 62, 63, 100, 4815, 4915, 0x7fffffff, 0xffffffff])
        argument = words.choice([value, 63, 4915, 0xffffffff])
        return words.choice([f"read {offset}", f"write {offset} {value}",
                             f"lock {offset} {words.choice([2, 2, 2, 1, 3, 0])} {argument} {value}"])

    def write(self):
        words = self.words
        self.write_head()
        count = len(self.ports)
        loops = words.random() < (0.05 if self.asks else 0.3)
        for _ in range(words.randrange(count + 1) if count > 1 else 0):
            self.plug(loops)
        if self.asks and count:
            self.settle()
        for _ in range(words.choice([0, 1, 3, 6, 10, 15, 25]) if count else 0):
            if self.settled and words.random() < (0.95 if self.asks else 0.5):
                self.ask()
            elif self.asks and words.random() < 0.8:
                self.settle()
            else:
                self.change(loops)
        return self.lines


def valid(words, real_times):
    return Script(words, real_times).write()


def at_an_edge(words, real_times):
    """A script of which some words are others, at the edge of what may stand there."""
    lines = valid(words, real_times)
    for _ in range(words.choice([1, 1, 1, 2, 4])):
        if lines:
            at = words.randrange(len(lines))
            parts = lines[at].split(" ")
            numbers = [k for k, part in enumerate(parts) if k and part.isdigit()]
            place = words.choice(numbers) if numbers and words.random() < 0.8 else words.randrange(len(parts))
            near = int(parts[place]) + words.choice([-1, 1]) if place in numbers else 0
            parts[place] = str(words.choice([words.choice(NUMBERS), words.choice(ODD_WORDS), near, near]))
            lines[at] = " ".join(parts)
    return lines


def with_a_fault(words, real_times):
    """A script with a line that is at fault, in most places."""
    lines = valid(words, real_times)
    for _ in range(words.choice([1, 1, 2])):
        other = words.choice(lines) if lines and words.random() < 0.3 else words.choice(BAD_LINES)
        names = dict(zip("ab", words.sample([line.split()[1] for line in lines if line.startswith("node ")] + ["a", "b"], 2)))
        other = " ".join(names.get(word, word) for word in other.split(" "))
        lines.insert(words.randint(0, len(lines)), other)
    if words.random() < 0.05:
        lines[:0] = [f"node m{k} 1" for k in range(words.choice([62, 63, 64]))]
    return lines


def past_a_limit(words, real_times):
    """A script with more turns or maps than there may be."""
    lines = valid(words, real_times)
    if words.random() < 0.6 or not any(line.startswith("node ") for line in lines):
        return lines + ["turn 3", words.choice(["turn 2000000", "turn 1999999", "turn 1999998"])]
    node = next(line for line in lines if line.startswith("node ")).split()[1]
    return lines + ["settle"] + [f"maps {node}"] * words.choice([99, 100, 101])


def laid_out(words, lines):
    """The bytes of a script: now and then with blanks, remarks, empty lines and other ends of lines."""
    if words.random() < 0.15:
        lines = [words.choice(["", " ", "\t"]) + line.replace(" ", words.choice([" ", "  ", "\t", " \t"]))
                 + words.choice(["", " ", "\t"]) for line in lines]
        for _ in range(words.randrange(4)):
            other = words.choice(["", "#", "# a remark \xff", "  # x", "\t", "#plug a 0 b 0"])
            lines.insert(words.randint(0, len(lines)), other)
    end = words.choice(["\n"] * 9 + ["\r\n"])
    return (end.join(lines) + words.choice([end, end, end, ""])).encode("latin-1")


def mashed(words, data):
    """Bytes of which some are left out, doubled, turned or others."""
    data = bytearray(data)
    for _ in range(words.choice([1, 1, 2, 4])):
        if not data:
            break
        at, long = words.randrange(len(data)), words.choice([1, 1, 1, 2, 8, 40])
        how = words.randrange(5)
        if how == 0:
            del data[at:at + long]
        elif how == 1:
            data[at:at] = data[at:at + long]
        elif how == 2:
            data[at] ^= 1 << words.randrange(8)
        elif how == 3:
            data[at] = words.choice(b"\n \t#09azx_-\r\x00\xff")
        else:
            other = words.randrange(len(data))
            data[at], data[other] = data[other], data[at]
    return bytes(data)


def script(words, real_times=0.12):
    """A script of any of these sorts, of which such a part has the times of a standard."""
    sort = words.choices([valid, at_an_edge, with_a_fault, past_a_limit, mashed], [45, 15, 24, 1, 15])[0]
    if sort is mashed:
        return mashed(words, laid_out(words, valid(words, real_times)))
    return laid_out(words, sort(words, real_times))
