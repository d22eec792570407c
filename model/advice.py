"""Which cables to pull: docs/SCRIPTS.md, 'Advice'."""

from .outcomes import names
from .reach import reached
from .run import Script


def joined(cables, start):
    """The nodes that these cables join to this one."""
    nodes = {start}
    while True:
        more = {b for a, b in cables if a in nodes} | {a for a, b in cables if b in nodes}
        if more <= nodes:
            return nodes
        nodes |= more


def choose(cables):
    """The cables to pull, of those of a component in their order."""
    pulled = []
    for place, (end, far) in enumerate(cables):
        earlier = [(a, b) for (a, _), (b, _) in cables[:place]]
        if far[0] in joined(earlier, end[0]):
            pulled.append((end, far))
    return pulled


def advice(data):
    script = Script().run(data)
    world = script.world
    lines, pulls = [], []
    for part in script.report["parts"]:
        if part["kind"] == "loop":
            cables = sorted((end, far) for end, far in world.far.items() if end < far and end[0] in part["nodes"])
            chosen = choose(cables)
            pulls += chosen
            lines.append("advice " + " ".join(names(world, part["nodes"])))
            for (node, port), (far, far_port) in chosen:
                lines.append(f"pull {world.nodes[node].name} {port} {world.nodes[far].name} {far_port}")
                reached["advice to pull"] += 1
            lines.append(f"left {len(cables) - len(chosen)}")
    for end, _ in pulls:
        world.pull(end)
    script.out = [line + "\n" for line in lines or ["advice none"]]
    script.last_settle()
    return script.text()
