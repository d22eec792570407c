"""The lines of a script, and the faults that lie in a line's own words: docs/SCRIPTS.md, 'Lines', 'Nodes', 'Faults'."""

import re

from .reach import reached
from .world import Fault

MAX_NUMBER = 4294967295

# Words in capitals stand for a name or a number; all others stand for themselves.
LINES = (
    "delay D",
    "times 1394a NS",
    "times 1394-1995 NS",
    "node NAME PORTS",  # and pairs of a key and a value
    "clock NAME PPM",
    "clock NAME PPM TURN",
    "plug NAME PORT NAME PORT",
    "pull NAME PORT",
    "reset NAME",
    "turn COUNT",
    "hold NAME PORT TURNS",
    "settle",
    "config NAME ROOT GAP",
    "csr NAME read OFFSET",
    "csr NAME write OFFSET VALUE",
    "csr NAME lock OFFSET KIND ARG VALUE",
    "look NAME",
    "allocate NAME CHANNEL UNITS",
    "release NAME CHANNEL UNITS",
    "manager NAME",
    "plan NAME",
    "maps NAME",
)

RANGES = {
    "D": (1, 16),
    "NS": (1, MAX_NUMBER),
    "PORTS": (1, 16),
    "PORT": (0, MAX_NUMBER),
    "PPM": (1, 1000000),
    "TURN": (1, 2000000),
    "COUNT": (1, 2000000),
    "TURNS": (1, 65535),
    "ROOT": (0, 62),
    "GAP": (0, 63),
    "OFFSET": (0, MAX_NUMBER),
    "VALUE": (0, MAX_NUMBER),
    "KIND": (0, 255),
    "ARG": (0, MAX_NUMBER),
    "CHANNEL": (0, 63),
    "UNITS": (0, 4915),
}

KEYS = {
    "speed": (0, 2),
    "link": (0, 1),
    "contender": (0, 1),
    "force": (0, 1),
    "power": (0, 7),
    "gap": (0, 63),
    "gapreset": (0, 1),
    "seed": (0, MAX_NUMBER),
    "hold": None,  # the ranges of these three depend on the lines `delay` and `times`
    "short": None,
    "long": None,
    "coins": None,
    "kind": None,
}


def lines_of(data):
    """The lines of a script, each of which a line feed ends; after the last one there may be a line without one."""
    lines = data.split(b"\n")
    return lines[:-1] if lines[-1] == b"" else lines


def words_of(line):
    """The words of a line, none for a remark. What isn't permitted is `Word`."""
    if line.endswith(b"\r"):
        line = line[:-1]
    words = line.replace(b"\t", b" ").split(b" ")
    words = [word for word in words if word]
    if not words or words[0].startswith(b"#"):
        return []
    if any(not 0x20 < byte < 0x7F for word in words for byte in word):
        raise Fault("Word")
    return [word.decode() for word in words]


def form_of(words):
    """The form that the words of a line have, or `Word`."""
    form = next((form.split() for form in LINES if fits(words, form.split())), None)
    if form is None or form[0] == "config" and words[2:] == ["-", "-"]:
        raise Fault("Word")
    if form[0] == "node":
        for key, value in zip(words[3::2], words[4::2]):
            if key not in KEYS or key == "kind" and value not in ("field", "packed"):
                raise Fault("Word")
    return form


def fits(words, form):
    if form[0] == "node":
        if len(words) < 3 or len(words) % 2 == 0:
            return False
    elif len(words) != len(form):
        return False
    return all(part.isupper() or part == word for part, word in zip(form, words))


def number(word, low=0, high=MAX_NUMBER):
    if re.fullmatch("[0-9]{1,10}", word):
        value = int(word)
    elif re.fullmatch("0x[0-9a-fA-F]{1,8}", word):
        value = int(word, 16)
    else:
        raise Fault("Number")
    if value > MAX_NUMBER:
        raise Fault("Number")
    if not low <= value <= high:
        raise Fault("Range")
    return value


def name(word):
    if not re.fullmatch("[a-z][a-z0-9_]{0,15}", word):
        raise Fault("Name")
    return word


def parse(words, times):
    """The form of a line as one word, such as 'csr read', and its values. `times` are the ranges of the script."""
    form = form_of(words)
    values = []
    for part, word in zip(form, words):
        if part == "NAME":
            values.append(name(word))
        elif part in ("ROOT", "GAP") and word == "-":
            values.append(None)
        elif part in RANGES:
            values.append(number(word, *RANGES[part]))
    if form[0] == "node":
        values.append(parse_keys(words[3::2], words[4::2], times))
    return " ".join(part for part in form if not part.isupper()), values


def parse_keys(keys, values, times):
    parsed = {}
    for key, value in zip(keys, values):
        if key in parsed or key == "seed" and "coins" in parsed or key == "coins" and "seed" in parsed:
            raise Fault("Twice")
        if key == "coins":
            if not re.fullmatch("[01]{1,64}", value):
                raise Fault("Number")
            parsed[key] = value
        elif key == "kind":
            parsed[key] = value
        else:
            parsed[key] = number(value, *(KEYS[key] or times[key]))
        reached[f"key {key}"] += 1
    return parsed
