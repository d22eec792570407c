"""Makes an input smaller while its answers differ: lines, pairs of quadlets or quadlets are left out."""
import time

from .trials import OF_SCRIPTS

# How long an input is made smaller.
SECONDS = 40


def pieces(words, data):
    """The parts of an input that can be left out."""
    if words[0] in OF_SCRIPTS or words[0] == "resets":
        return data.splitlines(keepends=True)
    size = 4 if words[0] in ("rom", "nosy") else 8
    return [data[at:at + size] for at in range(0, len(data), size)]


def smaller(parts, differs):
    """The parts without those that can be left out, in larger lots first, within some time."""
    end = time.monotonic() + SECONDS
    size = max(len(parts) // 2, 1)
    while parts and time.monotonic() < end:
        at, found = 0, False
        while at < len(parts) and time.monotonic() < end:
            fewer = parts[:at] + parts[at + size:]
            if differs(fewer):
                parts, found = fewer, True
            else:
                at += size
        if size == 1 and not found:
            break
        size = max(size // 2, 1)
    return parts


def made_smaller(trial, difference):
    """A trial that still differs, with inputs that are as small as could be found, and how it differs."""
    inputs = list(trial.inputs)
    for at, data in enumerate(inputs):
        def differs(parts, at=at):
            return difference(trial._replace(inputs=inputs[:at] + [b"".join(parts)] + inputs[at + 1:])) is not None
        inputs[at] = b"".join(smaller(pieces(trial.words, data), differs))
    made = trial._replace(inputs=inputs)
    how = difference(made)
    return (made, how) if how else (trial, difference(trial))
