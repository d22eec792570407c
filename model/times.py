"""The times of nodes: docs/SCRIPTS.md, 'Nodes', 'Real times', 'Slow clocks' and 'Reports'. A time is a range of turns, of which both
ends are part."""

from .reach import reached

# In nanoseconds, from memory.
STANDARDS = {
    "1394a": {
        "hold": (166600, 166700),
        "force": (83300, 166600),
        "timeout": (166600, 166700),
        "short": (760, 850),
        "long": (1590, 1670),
    },
    "1394-1995": {
        "hold": (166600, 166700),
        "force": (83300, 166600),
        "timeout": (166600, 166700),
        "short": (240, 260),
        "long": (570, 600),
    },
}


def profile(delay):
    """The times of a script without a line `times`."""
    return {
        "hold": (64 * delay, 80 * delay),
        "force": (256 * delay, 256 * delay),
        "timeout": (512 * delay, 512 * delay),
        "short": (3 * delay, 4 * delay),
        "long": (8 * delay, 10 * delay),
    }


def real_times(standard, nanoseconds, delay):
    """The times of a standard in turns, if `delay` turns are so many nanoseconds, rounded outwards."""
    return {
        time: (low * delay // nanoseconds, -(-high * delay // nanoseconds))
        for time, (low, high) in STANDARDS[standard].items()
    }


def widened(times, own):
    """The ranges, wide enough for a node that has these times and misses turns."""
    taken = {time: own[time] + own[time] // own["long"] + 1 for time in ("hold", "force", "timeout")}
    taken.update((time, own[time] + 1) for time in ("short", "long"))
    return {time: (low, max(high, taken[time])) for time, (low, high) in times.items()}


def suit(times, delay, slow=False):
    """Whether all times in these ranges suit the cables; `slow` if a clock misses turns."""
    conditions = {
        "a node counts so far": max(high for _, high in times.values()) <= 65535,
        "a hold goes round a ring": 64 * delay <= times["hold"][0],
        "a short wait goes there and back": 2 * delay < times["short"][0],
        "a long wait is that much longer": times["short"][1] + 2 * delay <= times["long"][0],
        "a forced node waits": times["hold"][1] + 127 * (delay + slow) < times["hold"][0] + times["force"][0],
    }
    for condition, holds in conditions.items():
        reached[f"times where {condition}: {holds}"] += 1
    return all(conditions.values())


def turns_to_settle(times, delay, nodes, slow):
    """How many turns `settle` lets pass; `slow` if a clock misses turns."""
    hold, force, timeout, long = (times[time][1] for time in ("hold", "force", "timeout", "long"))
    return max(
        delay * (2000 + 4 * nodes * nodes + 8 * nodes),
        delay * (nodes + 1) + hold + timeout + 1 + (2 if slow else 0),
        delay * (14 * nodes + 384) + hold + force + 35 * long + 1 + (13 * nodes + 385 if slow else 0),
    )
