"""To which end a component came, and reports: docs/MODEL.md, 'Where it ends', and docs/SCRIPTS.md, 'Reports'."""

from .captures import read_tree, tree_text
from .reach import reached


def core(world, component):
    """The nodes of loops and of paths between loops: those that are left if nodes of one cable are taken away again and
    again."""
    left = set(component)
    while True:
        cables = {node: sum(a == node and b in left for (a, _), (b, _) in world.far.items()) for node in left}
        ends = {node for node in left if cables[node] < 2}
        if not ends:
            return sorted(left)
        left -= ends


def walk(world, node, came_by=None):
    """The nodes of a tree of cables: those below each port by rising port, and then the node."""
    nodes = []
    for port in world.nodes[node].connected():
        if port != came_by:
            nodes += walk(world, *world.far[node, port])
    return nodes + [node]


def tree_of(world, component):
    """The nodes by ID if the component has come to its tree, else None."""
    roots = [node for node in component if world.nodes[node].parent is None]
    if len(roots) != 1 or any(world.nodes[node].phase != "A0" for node in component):
        return None
    order = walk(world, roots[0])
    emitted = [quad for node in order for quad in world.nodes[node].group()]
    for place, node in enumerate(order):
        if world.nodes[node].id != place or world.nodes[node].packets != emitted:
            return None
    return order


def contenders(world, component):
    """The two ends of a cable that drew the same 32 coins, or None."""
    for (a, _), (b, _) in sorted(world.far.items()):
        coins = world.nodes[a].first_draws
        if a in component and len(coins) == 32 and coins == world.nodes[b].first_draws:
            return [a, b]
    return None


def outcome(world, component):
    """The kind of end, and its nodes: a loop's core, a tree's nodes by ID, the two that contend."""
    loop = core(world, component)
    if loop:
        return "loop", loop
    order = tree_of(world, component)
    if order:
        return "tree", order
    pair = contenders(world, component)
    assert pair, "each component has come to one of three ends"
    return "contention", pair


def take_report(world, number):
    """What a report says: its number, the turns done, and each component with its end."""
    parts = []
    for component in world.components():
        kind, nodes = outcome(world, component)
        reached[f"report {kind}"] += 1
        parts.append(
            {
                "nodes": component,
                "rounds": max(world.nodes[node].draws for node in component),
                "changed": max(world.changed[node] for node in component),
                "kind": kind,
                "end": nodes,
                "tree": read_tree(world.nodes[nodes[0]].packets, 2000) if kind == "tree" else None,
            }
        )
    return {"number": number, "turn": world.turns, "parts": parts}


def names(world, nodes):
    return [world.nodes[node].name for node in nodes]


def report_text(world, report):
    text = f"report {report['number']} turn {report['turn']}\n"
    for part in report["parts"]:
        listed = " ".join(names(world, part["nodes"]))
        text += f"component rounds {part['rounds']} changed {part['changed']} nodes {listed}\n"
        by_end = names(world, part["end"])
        if part["kind"] == "tree":
            text += f"tree root {by_end[-1]}\n" + tree_text(part["tree"], by_end)
        else:
            text += f"{part['kind']} {' '.join(by_end)}\n"
    return text
