"""tools/compare --bites: whether a difference is found where the model has one rule wrong.

Each mutation is a text of one of the model's files and another text in its place, in a copy of the model. The text has to stand
there exactly once. `tools/compare` then runs on the copy until it finds a difference, and fails if it finds none in time."""
import os
import re
import shutil
import subprocess
import sys
import tempfile
import time

MUTATIONS = [
    ("a reset is held a turn longer", "machine.py", 'self.timer >= self.times["hold"]', 'self.timer > self.times["hold"]'),
    ("a forced node waits a turn longer", "machine.py", 'self.timer >= self.times["force"]',
     'self.timer > self.times["force"]'),
    ("a loop is found a turn later", "machine.py", 'self.timer >= self.times["timeout"]', 'self.timer > self.times["timeout"]'),
    ("the waits of the coins are changed", "machine.py", '"long" if coin else "short"', '"short" if coin else "long"'),
    ("the highest port is granted first", "machine.py", "unnamed[0], GRANT", "unnamed[-1], GRANT"),
    ("a node in R1 passes over a reset", "machine.py", 'if signal == RESET and self.phase != "R0":',
     'if signal == RESET and self.phase not in ("R0", "R1"):'),
    ("a held signal is a turn later", "world.py", "wire[0][0] >= self.delay", "wire[0][0] > self.delay"),
    ("a cable that was pulled keeps its hold", "world.py", "self.held.pop(end, None)", "pass"),
    ("the least settling is shorter", "times.py", "2000 + 4 * nodes", "2000 + 3 * nodes"),
    ("a short wait may be two delays", "times.py", '2 * delay < times["short"][0]', '2 * delay <= times["short"][0]'),
    ("a packet n = 1 has eight ports in 1394a-2000", "packets.py", "2000: (3, 8, 5)", "2000: (3, 8, 8)"),
    ("a root may come while trees wait", "captures.py", "if is_root and children < len(waiting):", "if False:"),
    ("a node may have two parents", "packets.py", "ports.count(PARENT) > 1", "ports.count(PARENT) > 2"),
    ("the speed code 3 is more than S400", "maps.py", 'min(nodes[on]["speed"], 2)', 'nodes[on]["speed"]'),
    ("all units but one may be taken", "registers.py", "bandwidth < units", "bandwidth <= units"),
    ("of equals the lowest ID becomes root", "plans.py", "-node))", "node))"),
    ("the gap count of four hops", "plans.py", "7, 8, 10, 13", "7, 8, 11, 13"),
    ("an act keeps what a node looked at", "run.py", "        self.looks = {}\n        if", "        if"),
    ("a name may have 17 characters", "scripts.py", "{0,15}", "{0,16}"),
    ("the last hexadecimal digit of eight", "scripts.py", "{1,8}", "{1,7}"),
    ("a block may end a quadlet late", "rom.py", "16, 16) <= len(quads)", "16, 16) <= len(quads) + 1"),
    ("each cable past a loop is advised", "advice.py", "cables[:place]", "cables[:place + 1]"),
    ("the 33rd coin is traced", "trace.py", 'after["draws"] <= 32', 'after["draws"] <= 33'),
    ("picoseconds are rounded up", "waves.py", "1000 * turn * self.script.nanoseconds // self.script.delay",
     "-(-1000 * turn * self.script.nanoseconds // self.script.delay)"),
    ("a made script waits a turn less", "make.py", "1 + generator.word() % 300", "generator.word() % 300 or 1"),
]


def mutate(model, room, file, old, new):
    """Puts a copy of the model into a room, in which a text is another."""
    shutil.copytree(os.path.join(model, "model"), os.path.join(room, "model"), ignore=shutil.ignore_patterns("__pycache__"))
    path = os.path.join(room, "model", file)
    with open(path, encoding="utf-8") as source:
        text = source.read()
    if text.count(old) != 1:
        raise SystemExit(f"compare: model/{file} has the text {old!r} {text.count(old)} times, and not once")
    with open(path, "w", encoding="utf-8") as source:
        source.write(text.replace(old, new))


def main(asked, compare_words):
    """Tries each mutation for the seconds asked for, and prints which were found."""
    missed = 0
    print("| rule that was changed | file | found after | by |\n|---|---|---|---|", flush=True)
    for rule, file, old, new in MUTATIONS:
        with tempfile.TemporaryDirectory() as room:
            mutate(asked.model, room, file, old, new)
            began = time.monotonic()
            words = [str(asked.seconds), asked.seed, "--first", "--whole", "--model", room, "--jobs", str(asked.jobs),
                     "--busconf", asked.busconf, "--busview", asked.busview]
            done = subprocess.run([sys.executable, *compare_words, *words], stdout=subprocess.PIPE, check=False)
        found = re.search(rb"^input (\d+) of seed \S+: (.*?):", done.stdout, re.M)
        if done.returncode != 1 or not found:
            missed += 1
            print(f"| {rule} | {file} | not found | |", flush=True)
            continue
        number, how = found.group(1).decode(), found.group(2).decode()
        print(f"| {rule} | {file} | input {number}, {time.monotonic() - began:.0f} s | {how} |", flush=True)
    print(f"compare: {len(MUTATIONS) - missed} of {len(MUTATIONS)} mutations found, seed {asked.seed}")
    return 1 if missed else 0
