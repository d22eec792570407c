"""The inputs of tools/compare, by number, and what differs where the programs answer them otherwise than the model."""
import collections
import os
import random
import re
import signal
import tempfile

from . import captures, dumps, imports, logs, roms, scripts, waves

# The words of a call and its input; `diff` has two, of which files get the names `old` and `new`.
Trial = collections.namedtuple("Trial", "words inputs")
# How long the model may take for an input before it is passed over.
MODEL_SECONDS = 20
# How often each form of a script is taken, and the forms of a capture.
OF_SCRIPTS = {"run": 46, "advice": 8, "trace": 15, "waves": 13, "json-run": 8, "capture": 8, "dot-run": 5}
OF_CAPTURES = [[form, *more] for form in ("packets", "tree", "dot", "json") for more in ([], ["--1995"])] + [
    ["read"], ["read"], ["read"], ["read95"], ["read95"], ["read95"], ["maps"], ["maps"]]
FORMS = {*OF_SCRIPTS, *(words[0] for words in OF_CAPTURES), "rom", "nosy", "resets", "diff", "import", "make", "script"}
READING = {2000: "read", 1995: "read95"}
KINDS = {"script": 50, "capture": 24, "rom": 8, "dump": 5, "log": 6, "diff": 7, "import": 6, "words": 4}


class TooSlow(Exception):
    """The model takes too long."""


def trial(seed, number, kinds):
    """The input of this number, which depends on nothing but the seed, the number and the kinds."""
    words = random.Random(f"{seed}/{number}")
    kind = words.choices(list(kinds), [KINDS[kind] for kind in kinds])[0]
    if kind == "script":
        form = words.choices(list(OF_SCRIPTS), list(OF_SCRIPTS.values()))[0]
        more = [words.choice(scripts.NAMES)] if form == "capture" else []
        return Trial([form, *more], [scripts.script(words, 0.5) if form == "waves" else scripts.script(words)])
    if kind == "capture":
        return Trial(words.choice(OF_CAPTURES), [captures.any_capture(words)])
    if kind == "import":
        return Trial(["import"], [imports.any_import(words)])
    if kind == "rom":
        return Trial(["rom"], [roms.rom(words)])
    if kind in ("dump", "log"):
        form, data = ("nosy", dumps.dump(words)) if kind == "dump" else ("resets", logs.log(words))
        return Trial([form] + words.choice([[], ["--1995"]]) + words.choice([[], [], ["--json"]]), [data])
    if kind == "diff":
        pair, standard = captures.two_captures(words)
        names = words.choice([["old", "new"], ["-", "new"], ["old", "-"]])
        return Trial(["diff"] + (["--1995"] if standard == "1995" else []) + words.choice([[], ["--json"]]) + names, pair)
    if words.random() < 0.03:
        # As long as an input may be, or a byte longer.
        return Trial([words.choice(["run", "trace", "read", "maps", "json", "rom"])], [b"#" * words.choice([1048576, 1048577])])
    return Trial(made_words(words), [b""])


def made_words(words):
    """Words of the forms that read nothing, and words that are none."""
    nodes = words.choice([1, 2, 3, 4, 5, 6])
    number = words.choice([0, 1, 7, 4294967295, words.randrange(1 << 32)])
    form = words.choice(["make", "make", "script"])
    if form == "script":
        nodes = words.choice([nodes, words.randint(1, 63), 63])
    told = [form, words.choice([str(nodes)] * 6 + [hex(nodes), f"00{nodes}"]), words.choice([str(number)] * 5 + [hex(number)])]
    if words.random() < 0.2:
        at = words.randint(1, 2)
        told[at] = words.choice(["", "0", "64", "-1", "4294967296", "0x", "a", "+1", " 1", "1 "])
    if words.random() < 0.1:
        told = words.choice([told[:2], told + ["1"], told[1:], ["capture", "9a"], ["capture"]])
    return told


# ---- what the model says

def stop_model(*_):
    raise TooSlow


def model_answer(model, words, data):
    """What the model answers, or None for a form that it doesn't have."""
    before = signal.signal(signal.SIGALRM, stop_model)
    signal.alarm(MODEL_SECONDS)
    try:
        return model.answer(list(words), data)
    except model.NotModelled:
        return None
    finally:
        signal.alarm(0)
        signal.signal(signal.SIGALRM, before)


# ---- what differs

def first_line_of(text):
    return text[:text.find(b"\n") + 1]


def places(wanted, found):
    """The first line in which two texts differ, of each."""
    one, other = wanted.split(b"\n"), found.split(b"\n")
    at = next((k for k, (a, b) in enumerate(zip(one, other)) if a != b), min(len(one), len(other)))
    lines = [(text[at] if at < len(text) else b"nothing more").decode(errors="backslashreplace")[:300] for text in (one, other)]
    return f"line {at + 1} of the answer:\n  wanted {lines[0]}\n  found  {lines[1]}"


def of_answers(model, words, wanted, found):
    """How an answer differs from the model's, or None."""
    if found is None:
        return "no answer in time"
    status, output = wanted
    if status != found.status:
        shown = [first_line_of(text).decode(errors="backslashreplace")[:200].strip() for text in (output, found.output)]
        return f"status {found.status}, wanted {status}:\n  wanted {shown[0]}\n  found  {shown[1]}"
    if status == 0 and words[0] == "waves":
        return waves.difference(output.decode(), found.output.decode(errors="replace"))
    one, other = (model.compared(list(words), status, text) for text in (output, found.output))
    return None if one == other else places(one, other)


def of_diff(model, programs, words, inputs):
    """What isn't so in `busview diff`, or None."""
    standard = 1995 if "--1995" in words else 2000
    files = list(zip(words[-2:], inputs))
    with tempfile.TemporaryDirectory() as room:
        for name, data in files:
            if name != "-":
                with open(os.path.join(room, name), "wb") as file:
                    file.write(data)
        found = programs.answer(words, next((data for name, data in files if name == "-"), b""), room)
    if found is None:
        return "no answer in time"
    as_json = "--json" in words
    if not model.diffs.agrees(files, standard, found.status, found.output.decode(errors="replace"), as_json):
        return f"status {found.status}, and this isn't so of both:\n{found.output.decode(errors='replace')}"
    # Which node initiated isn't compared.
    trees = [re.sub(rb"initiated \d", b"", model_answer(model, [READING[standard]], data)[1]) for data in inputs]
    return "a bus and itself differ" if found.status and trees[0] == trees[1] and not trees[0].startswith(b"refused") else None


def difference(model, programs, one):
    """How the programs answer an input otherwise than the model, as text, or None."""
    words, inputs = one
    try:
        if words[0] == "diff":
            return of_diff(model, programs, words, inputs)
        wanted = model_answer(model, words, inputs[0])
        if wanted is None:
            model.reached["inputs of forms without a model"] += 1
            return None
    except TooSlow:
        model.reached["inputs that the model is too slow for"] += 1
        return None
    except Exception as fault:  # whatever it is, it is shown with the input
        return f"the model fails: {type(fault).__name__}: {fault}"
    told = of_answers(model, words, wanted, programs.answer(words, inputs[0]))
    if told is None and words == ["run"] and wanted[0] == 0:
        for name, found in programs.simulations(inputs[0]).items():
            other = of_answers(model, words, wanted, found)
            told = told or (other and f"the simulation {name}: {other}")
    return told
