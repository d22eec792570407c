"""The text of a Linux kernel's trace or log: docs/VIEW-LOGS.md, 'resets'."""

import re
from datetime import datetime, timedelta

from .captures import write_pairs
from .changes import Log
from .reach import reached

LONGEST_LINE = 65536
EVENTS = {
    "self_id_complete:": "controller",
    "firewire_ohci:self_id_complete:": "controller",
    "bus_reset_handle:": "kernel",
    "firewire:bus_reset_handle:": "kernel",
}
DRIVERS = ("firewire_core", "firewire_ohci")
DEVICE = "([0-9a-fA-F]{4,8}:[0-9a-fA-F]{2}:[0-9a-fA-F]{2}[.][0-9a-fA-F]):"
FIRST = DEVICE + " ([0-9]+) selfIDs, generation ([0-9]+),(?: local node ID ([0-9a-fA-F]{1,4}))?(?= |$)"
PACKET = DEVICE + " selfID [0n]: ([0-9a-fA-F]{1,8}), "
# How the drivers' own messages begin.
MESSAGES = (
    ["topology", "build"],
    ["topology", "stack"],
    ["inconsistent", "extended"],
    ["PHY", "ID"],
    ["parent", "port"],
    ["bad", "self"],
    ["self", "ID"],
    ["new", "bus"],
    ["phy", "config:"],
)


class Garbled(Exception):
    """A field of an event is missing or malformed."""


def number(text):
    if not re.fullmatch("[0-9]{1,10}|0[xX][0-9a-fA-F]{1,8}", text or ""):
        raise Garbled
    value = int(text, 16 if text[:2] in ("0x", "0X") else 10)
    if value > 0xFFFFFFFF:
        raise Garbled
    return value


def field(words, name):
    """The words of a field's value, up to the next word with '=' in it; None if the field isn't there."""
    for at, said in enumerate(words):
        if said.startswith(name + "="):
            after = [place for place, other in enumerate(words) if place > at and "=" in other]
            return [said[len(name) + 1 :]] + words[at + 1 : after[0] if after else None]
    return None


def one_number(words, name):
    value = field(words, name)
    return number(value[0] if value else None)


def numbers(words, name):
    """A list: within braces with commas between its numbers, or with blanks between them."""
    value = field(words, name)
    if value is None:
        raise Garbled
    text = " ".join(value)
    if text.startswith("{"):
        if not text.endswith("}"):
            raise Garbled
        inner = text[1:-1]
        return [number(part.lstrip(" ")) for part in inner.split(",")] if inner else []
    return [number(part) for part in text.split()]


def local_of(value):
    """The ID in the last six bits of a node's ID, unless it is 63."""
    return None if value & 63 == 63 else value & 63


def seconds(text):
    """The microseconds of digits, a point and six digits, or nine; None if the text is something else."""
    found = re.fullmatch("([0-9]{1,10})[.]([0-9]{6})([0-9]{3})?", text)
    if found is None or int(found.group(1)) > 0xFFFFFFFF:
        return None
    return int(found.group(1)) * 1000000 + int(found.group(2))


DATE = "([0-9]{4})-([0-9]{2})-([0-9]{2})[Tt]([0-9]{2}):([0-9]{2}):([0-9]{2})([.,][0-9]{1,9})?"
ZONE = "(?:[Zz]|([+-])([0-9]{2}):?([0-9]{2})?)"


def date(text):
    """The microseconds since 1970 of a date and a time of day with its zone; None if the text is something else."""
    found = re.fullmatch(DATE + ZONE, text)
    if found is None:
        return None
    year, month, day, hour, minute, second = (int(part) for part in found.groups()[:6])
    fraction, sign, hours, minutes = found.groups()[6:]
    try:
        moment = datetime(year, month, day, hour, minute, min(second, 59) if second == 60 else second)
    except ValueError:
        return None
    ahead = timedelta(hours=int(hours or 0), minutes=int(minutes or 0))
    past = (moment - datetime(1970, 1, 1) + (ahead if sign == "-" else -ahead)) // timedelta(microseconds=1)
    past += int((fraction or ".0")[1:].ljust(9, "0")) // 1000
    return past if past >= 0 and int(minutes or 0) < 60 and int(hours or 0) < 26 else None


def front_time(before, name):
    """When a driver's line was: by the words before the driver's name, or by the fields before it in its word."""
    time = None
    for word in before:
        inner = word[:-1].removeprefix("[") if word.endswith("]") else word
        found = seconds(inner)
        found = date(word) if found is None else found
        time = time if found is None else found
    fields = name.split(",")
    if ";" in name and len(fields) > 2 and re.fullmatch("[0-9]{1,16}", fields[2]):
        micros = int(fields[2])
        time = micros if micros < 2**32 * 1000000 else time
    return time


class Card:
    def __init__(self):
        self.event = None  # the generation and the source of the last event that was shown or not judged
        self.was_shown = False  # whether it was shown as a bus
        self.time = None
        self.last = None  # the nodes of the last bus
        self.apart = False  # whether resets are missing since then


class Resets:
    def __init__(self, standard, as_json, short):
        self.standard = standard
        self.log = Log(as_json, short)
        self.cards = {}
        self.open = {}  # by card, the reset of the driver's log whose packets come now
        self.counted = []  # of each reset that was counted its line, its capture if it was judged, and what it lacks

    def take(self, number, text):
        """Takes a line of the log."""
        words = re.split("[ \t\r]+", text.strip(" \t\r"))
        event = next((place for place, said in enumerate(words) if said in EVENTS), None)
        drivers = [said.removeprefix("MESSAGE=") for said in words]
        driver = next((place for place, said in enumerate(drivers) if said.split(";")[-1] in DRIVERS), None)
        if event is not None:
            try:
                self.event(number, EVENTS[words[event]], words[:event], words[event + 1 :])
            except Garbled:
                reached["garbled event"] += 1
                self.log.status = 1
                self.log.write(f"line {number} garbled", {"line": number, "garbled": True})
        elif words[0].startswith("CPU:") and ("EVENTS]" in words or "DROPPED]" in words):
            for card in self.cards.values():
                card.apart = True
            self.log.write(f"line {number} events are lost", {"line": number, "lost": True})
        elif driver is not None:
            self.driver(number, front_time(words[:driver], words[driver]), words[driver + 1 :])

    def event(self, number, source, before, words):
        times = [seconds(said[:-1]) for said in before if said.endswith(":")]
        times = [time for time in times if time is not None]
        reset = {"line": number, "card": one_number(words, "card_index"), "source": source, "local": None}
        reset["time"] = times[-1] if times else None
        if source == "kernel":
            reset["generation"] = one_number(words, "generation")
            data = write_pairs(numbers(words, "self_ids"))
            try:
                reset["local"] = local_of(one_number(words, "node_id"))
            except Garbled:
                pass
        else:
            reset["generation"] = one_number(words, "generation_at_completion")
            failed = (field(words, "is_error") or [""])[0]
            if failed not in ("true", "false"):
                raise Garbled
            data = b"".join(quad.to_bytes(4, "big") for quad in numbers(words, "packet_data"))
            data = None if failed == "true" else data
        self.reset(reset, data)

    def reset(self, reset, data, lacks=0):
        """A reset of a card, of which the log lacks so many packets; without data its controller failed."""
        card = self.cards.setdefault(reset["card"], Card())
        event = reset["generation"], reset["source"]
        time = reset["time"]
        booted = time is not None and card.time is not None and time + 1000000 <= card.time
        second = card.event is not None and card.event[0] == event[0] and card.event[1] != event[1] and not booted
        if second and card.was_shown:
            reached["second event passed over"] += 1
            return
        missing = 0
        if card.event is not None and card.event[0] != event[0] and not booted:
            missing = (event[0] - card.event[0] - 1) % 256
        if booted:
            reached["booted in between"] += 1
        card.apart = card.apart or missing > 0 or booted
        after = None
        if time is not None and card.time is not None and card.time <= time and not second:
            after = time - card.time
        words, members = head(reset, time, after, missing)
        self.log.resets += not second
        if not second:
            self.counted.append((reset["line"], data, lacks))
        nodes = None
        old = None if card.apart else card.last
        if old is None:
            self.log.forget(reset["card"])
        if data is None:
            self.log.write(f"{words} is_error, not judged", dict(members, is_error=True))
        elif lacks:
            reached["packets missing from the log"] += 1
            said = f"{words} not judged, packets missing from the log: {lacks}"
            self.log.write(said, dict(members, lacks=lacks))
        else:
            nodes = self.log.show(words, members, data, self.standard, old, reset["card"], time)
        card.event, card.time, card.was_shown = event, time, nodes is not None
        if nodes is not None:
            card.last, card.apart = nodes, False

    def driver(self, number, time, words):
        """A line of a driver: the first of a reset, a packet of the reset that is open, or a message."""
        said = " ".join(words)
        first, packet = re.match(FIRST, said), re.match(PACKET, said)
        if first and max(int(first.group(2)), int(first.group(3))) <= 0xFFFFFFFF:
            device, count, generation, local = first.groups()
            device = device.lower()
            self.close(device)
            reset = {"line": number, "card": device, "source": "driver", "generation": int(generation)}
            reset["time"] = time
            reset["local"] = local_of(int(local, 16)) if local else None
            reset.update(count=int(count), list=[])
            self.open[device] = reset
            if reset["count"] == 0:
                self.close(device)
        elif packet:
            device = packet.group(1).lower()
            if device in self.open:
                reset = self.open[device]
                reset["list"].append(int(packet.group(2), 16))
                if len(reset["list"]) >= reset["count"]:
                    self.close(device)
        elif words[1:3] in MESSAGES:
            plain = "".join(char if ord(char) < 128 else "?" for char in said)
            when = "" if time is None else f" time {time // 1000000}.{time % 1000000:06d}"
            members = {"line": number} if time is None else {"line": number, "time": time}
            self.log.write(f"line {number}{when} {said}", dict(members, kernel=plain))

    def close(self, device):
        """Shows the open reset of a card, if it has all its packets; else says how many are missing."""
        reset = self.open.pop(device, None)
        if reset:
            self.reset(reset, write_pairs(reset["list"]), reset["count"] - len(reset["list"]))

    def end(self):
        self.log.losses()
        for _, reset in sorted(self.open.items()):
            lacks = reset["count"] - len(reset["list"])
            words = " ".join(f"{key} {reset[key]}" for key in ("line", "card", "generation"))
            members = {key: reset[key] for key in ("line", "card", "generation")}
            self.log.write(f"{words} ends without its last packets, {lacks}", dict(members, lacks=lacks))
        return self.log.total(len(self.cards))


def head(reset, time, after, missing):
    """What stands before a reset's list, as words and as members."""
    members = {key: reset[key] for key in ("line", "card", "generation")}
    words = " ".join(f"{key} {value}" for key, value in members.items())
    for key, value in (("time", time), ("after", after)):
        if value is not None:
            words += f" {key} {value // 1000000}.{value % 1000000:06d}"
            members[key] = value
    words += f" missing {missing}" if missing else ""
    members["missing"] = missing
    if reset["local"] is not None:
        words += f" local {reset['local']}"
        members["local"] = reset["local"]
    return words, members


def taken(data, standard, as_json, short=False):
    """All lines of a log, taken."""
    shown = Resets(standard, as_json, short)
    lines = data.split(b"\n")
    for number, line in enumerate(lines[:-1] if lines[-1] == b"" else lines, 1):
        shown.take(number, line[:LONGEST_LINE].decode("latin-1"))
    return shown


def resets(data, standard, as_json, short=False):
    status, text = taken(data, standard, as_json, short).end()
    return status, text.encode("latin-1")


def import_reset(data, wanted):
    """The capture of the reset with this number, or the status and the line of its refusal."""
    counted = taken(data, 2000, False).counted
    if wanted > len(counted):
        reached["import of a reset past the last"] += 1
        return 1, f"refused reset {wanted} TooFew found {len(counted)}\n"
    line, capture, lacks = counted[wanted - 1]
    if capture is None or lacks:
        reached["import of a reset that isn't judged"] += 1
        return 1, f"refused line {line} " + (f"PacketsMissing {lacks}\n" if lacks else "IsError\n")
    reached["import of a reset"] += 1
    return capture
