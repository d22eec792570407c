"""The forms and the statuses: README.md, 'The forms', docs/STATUSES.md and docs/VIEW.md.

Files behind the words aren't read here: all input is on standard input. Two kinds of lines aren't modelled: the
sentence below the line that refuses a script, and what the bytes of a refused capture look like.
"""

import re

from .advice import advice
from .captures import MAX_NODES, read
from .dot import dot, dot_run
from .imports import ImportFault, import_capture
from .json_lines import json_capture, json_run
from .make import make, made_script
from .maps import maps
from .nosy import nosy
from .packets import ListFault
from .reach import reached
from .resets import import_reset, resets
from .rom import RomFault, rom
from .run import ScriptFault, run
from .scripts import name, number
from .shown import packets
from .trace import trace
from .view import capture, tree
from .waves import waves
from .world import Fault

MAX_INPUT = 1048576
REFUSALS = (ImportFault, ListFault, RomFault, ScriptFault)


class NotModelled(Exception):
    """A form of the programs, or a file's name behind a form, that isn't modelled."""


# The forms by their first word. Each takes the bytes of the input, and gives its text or bytes, or a pair of the status
# and the text if it doesn't refuse by the line alone.
READERS = {
    "run": run,
    "advice": advice,
    "read": lambda data: read(data, 2000),
    "read95": lambda data: read(data, 1995),
    "maps": maps,
    "rom": rom,
    "dot-run": dot_run,
    "json-run": json_run,
    "trace": trace,
    "waves": waves,
    "import": import_capture,
}
READERS_BY_STANDARD = {"packets": packets, "tree": tree, "dot": dot, "json": json_capture}
LOGS = {"resets": resets, "nosy": nosy}
MAKERS = {"make": make, "script": made_script}
OTHERS = ("explain", "flawed", "diff")
# Below the line that refuses a script these write a sentence on the fault.
WITH_SENTENCE = ("trace", "waves", "dot-run")
OF_BUSCONF = ("run", "advice", "read", "read95", "maps", "rom", "make")
FORMS = (*READERS, *READERS_BY_STANDARD, "capture", *LOGS, *MAKERS)


def form_of(words):
    """What answers these words, as a call that takes the input; None if they are no form."""
    first, rest = words[0], words[1:]
    if words in (["--help"], ["-h"], ["--version"]) or first in OTHERS or first in FORMS and rest == ["--help"]:
        raise NotModelled(words[-1])
    if first in MAKERS:
        numbers = made_numbers(rest)
        return numbers and (lambda data: MAKERS[first](*numbers))
    if first == "capture":
        if not rest or word_is(name, rest[0]) is None:
            return None
        return without_files(rest[1:], lambda data: capture(data, rest[0]))
    standard = 1995 if rest[:1] == ["--1995"] else 2000
    files = rest[1:] if standard == 1995 else rest
    if first in LOGS:
        as_json = files[:1] == ["--json"]
        short = files[:1] == ["--short"]
        return without_files(files[as_json or short :], lambda data: LOGS[first](data, standard, as_json, short))
    option = rest[0] if rest else ""
    if first == "import" and option.startswith("--reset="):
        wanted = option.removeprefix("--reset=")
        if not re.fullmatch("[0-9]{1,10}", wanted) or not 1 <= int(wanted) < 1 << 32:
            return None
        return without_files(rest[1:], lambda data: import_reset(data, int(wanted)))
    if first in READERS_BY_STANDARD:
        return without_files(files, lambda data: READERS_BY_STANDARD[first](data, standard))
    return without_files(rest, READERS[first]) if first in READERS else None


def word_is(kind, word, *limits):
    """What a word of this kind says, or None if it isn't one."""
    try:
        return kind(word, *limits)
    except Fault:
        return None


def made_numbers(words):
    if len(words) != 2:
        return None
    nodes, seed = word_is(number, words[0], 1, MAX_NODES), word_is(number, words[1])
    return None if nodes is None or seed is None else (nodes, seed)


def without_files(files, form):
    """The form, if no word names a file but `-`."""
    if any(word.startswith("-") and word != "-" for word in files):
        return None
    if files not in ([], ["-"]):
        raise NotModelled("a file behind the words")
    return form


def compared(words, status, output):
    """An output without the lines that aren't modelled."""
    if status == 1 and words[0] in WITH_SENTENCE:
        return output.split(b"\n")[0]
    if status == 1 and words[0] == "packets":
        return b"\n".join(line for line in output.split(b"\n") if not line.startswith(b"This looks like "))
    return output


def answer(words, data, program=None):
    """The status and the output for these words and this input: bytes, or a call that reads them.

    The forms of both programs have different words, so `program` matters only if the words may be a form of the other.
    """
    other_program = {"busconf": set(FORMS) - set(OF_BUSCONF), "busview": OF_BUSCONF}.get(program, ())
    form = form_of(words) if words and words[0] not in other_program else None
    if form is None:
        reached["words that are no form"] += 1
        return 2, b""
    reached[f"form {words[0]}"] += 1
    if words[0] in MAKERS:
        data = b""
    elif callable(data):
        data = data()
    of_log = words[0] in LOGS or words[0] == "import" and len(words) > 1 and words[1].startswith("--reset=")
    if len(data) > MAX_INPUT and not of_log:
        return 6, b""
    try:
        output = form(data)
    except REFUSALS as refusal:
        output = 1, refusal.line()
    status, output = output if isinstance(output, tuple) else (0, output)
    return status, output if isinstance(output, bytes) else output.encode()
