"""What busview shows of a capture, and captures of scripts: docs/VIEW-CAPTURES.md, 'tree', and docs/VIEW-SCRIPTS.md, 'capture'."""

from .captures import manager_of, read_capture, write_pairs
from .packets import CHILD, PARENT
from .plans import gap_for, hops
from .run import Script, ScriptFault

SPEEDS = ("S100", "S200", "S400", "S400")


def tree(data, standard):
    return tree_text(read_capture(data, standard)[1])


def tree_text(nodes):
    lines = draw(nodes, len(nodes) - 1, "", "")
    return "".join(line + "\n" for line in lines + gap_lines(nodes))


def draw(nodes, at, before, below):
    """The lines of a node and of all below it. `before` stands before the node, `below` before the lines after it."""
    node = nodes[at]
    marks = " root" * (at == len(nodes) - 1) + " irm" * (at == manager_of(nodes))
    fields = " ".join(f"{key} {node[key]}" for key in ("link", "contender", "power", "initiated", "speed", "gap"))
    lines = [f"{before}node {at}{marks} {fields}"]
    ports = [port for port, status in enumerate(node["ports"]) if status == CHILD]
    for port in ports:
        child = nodes[node["far"][port]]
        speed = SPEEDS[min(node["speed"], child["speed"])]
        is_last = port == ports[-1]
        cable = f"{'`' if is_last else '+'}--[{port}]--{speed}--[{child['ports'].index(PARENT)}] "
        lines += draw(nodes, child["id"], below + cable, below + ("   " if is_last else "|  "))
    return lines


def gap_lines(nodes):
    longest, root = hops(nodes), nodes[-1]["gap"]
    if longest == 0:
        first = "hops 0, any gap count will do"
    elif longest > 15:
        first = f"hops {longest}, more than the 15 of the table"
    else:
        first = f"hops {longest}, gap count {gap_for(longest)} by the table"
    others = [node for node in nodes if node["gap"] != root]
    if others:
        said = "".join(f", {node['gap']} at node {node['id']}" for node in others)
        return [first, f"gap counts differ: {root} at the root{said}"]
    return [first, f"gap counts agree: {root}{compared(root, longest)}"]


def compared(gap, longest):
    """How a gap count compares with that of the table for so many hops."""
    if longest == 0:
        return ""
    if longest > 15 and gap >= 40:
        return ", the greatest there is" if gap == 63 else ", less than 63, the greatest: may be too small"
    wanted = gap_for(min(longest, 15))
    if gap > wanted:
        return f", more than the table's {wanted}: safe, only slower"
    if gap == wanted:
        return ", as by the table"
    return f", less than the table's {wanted}{' for 15 hops' * (longest > 15)}: too small"


def capture(data, name):
    """The list of the node with this name after the last settling, as a capture."""
    script = Script().run(data)
    if name not in script.node_of:
        raise ScriptFault(script.lines + 1, "NoNode")
    node = script.node_of[name]
    if not any(node in part["nodes"] and part["kind"] == "tree" for part in script.report["parts"]):
        raise ScriptFault(script.lines + 1, "NotSettled")
    return write_pairs(script.world.nodes[node].packets)
