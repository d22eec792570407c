"""Made scripts: docs/SCRIPTS.md, 'Made scripts'."""

from .coins import Generator
from .run import run


def made_script(nodes, seed):
    lines = [f"node n{node} 3 contender 1 seed {(seed + node) % 2 ** 32}" for node in range(nodes)]
    generator = Generator(seed)
    free = [(0, 0), (0, 1), (0, 2)]
    plugs = {}
    for node in range(1, nodes):
        parent, port = free.pop(generator.word() % len(free))
        plugs[node] = f"plug n{parent} {port} n{node} 0"
        free += [(node, 1), (node, 2)]
    lines += plugs.values()
    lines.append("settle")
    for node in range(1, nodes):
        lines += [f"pull n{node} 0", f"turn {1 + generator.word() % 300}", plugs[node]]
    return "".join(line + "\n" for line in lines)


def make(nodes, seed):
    """The last report of a made script without the lines of the nodes."""
    lines = run(made_script(nodes, seed).encode()).splitlines(True)
    last = max(at for at, line in enumerate(lines) if line.startswith("report "))
    return "".join(line for line in lines[last:] if not line.startswith("node "))
