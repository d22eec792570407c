"""What `busview diff` says: docs/VIEW-CAPTURES.md, 'diff'.

Which node is which is a guess there, so there is no answer here to compare with. But once it is known which nodes of
both buses are one, the lines follow: `tell` writes them. `check` looks for the guess to which an answer belongs. If
there is one, each change is so of both buses, and nothing that differs is left out.
"""

import json
import re

from .captures import manager_of, read_capture
from .packets import PARENT, ListFault
from .reach import reached

VALUES = ("link", "gap", "speed", "contender", "power")


def far_end(nodes, node, port):
    """The other end of the cable at a port, or None."""
    far = nodes[node]["far"][port] if port < len(nodes[node]["far"]) else None
    return None if far is None else (far, nodes[far]["far"].index(node))


def parent_cable(nodes, node):
    """The ends of the cable to the parent, its own end first; None for the root."""
    ports = nodes[node]["ports"]
    if PARENT not in ports:
        return None
    port = ports.index(PARENT)
    return (node, port), far_end(nodes, node, port)


def place(cable):
    (_, port), (far, far_port) = cable
    return f"port {far_port} of node {far} on its port {port}"


def is_in(cable, nodes, now):
    """Whether another bus has the same cable, if `now` gives for each node that is in both its ID there."""
    (node, port), (far, far_port) = cable
    return node in now and far in now and far_end(nodes, now[node], port) == (now[far], far_port)


def tell(old, new, now, by_new=False):
    """The lines, if `now` has for each node of the old bus that is in the new one its ID there. Those of nodes that are
    in both stand by their IDs in the old bus, or in the new one.
    """
    was = {there: here for here, there in now.items()}
    lines = []
    for node in range(len(old)):
        if node not in now:
            cable = parent_cable(old, node)
            lines.append(f"node {node} went" + (f" from {place(cable)}" if cable else ""))
    for node in range(len(new)):
        if node not in was:
            cable = parent_cable(new, node)
            lines.append(f"node {node} came" + (f" to {place(cable)}" if cable else ""))
    both = sorted(now, key=now.get if by_new else None)
    for node in both:
        lines += moved(node, now[node], parent_cable(old, node), parent_cable(new, now[node]), old, new, now, was)
    for node in both:
        for key in VALUES:
            if old[node][key] != new[now[node]][key]:
                lines.append(f"{pair(node, now[node])} {key} {old[node][key]} now {new[now[node]][key]}")
    roots = len(old) - 1, len(new) - 1
    managers = manager_of(old), manager_of(new)
    for word, (one, other) in (("root", roots), ("irm", managers)):
        if (one is None) != (other is None) or one is not None and now.get(one) != other:
            lines.append(another(word, one, other))
    return "".join(line + "\n" for line in lines)


def pair(old, new):
    """A node by its IDs in the old bus and the new one; the second is left out if it is the same."""
    return f"node {old}" if old == new else f"node {old} now {new}"


def another(word, old, new):
    """That another node is the root or the manager."""
    if old == new:
        return f"{word} is another node, again {old}"
    return f"{word} old {'none' if old is None else old} new {'none' if new is None else new}"


def moved(node, there, before, after, old, new, now, was):
    """The line on the cable to a node's parent, if it is another."""
    gone = before is not None and not is_in(before, new, now)
    fresh = after is not None and not is_in(after, old, was)
    start = pair(node, there)
    if gone and fresh:
        return [f"{start} moved from {place(before)} to {place(after)}"]
    if gone:
        return [f"{start} left {place(before)}"]
    return [f"{start} joined {place(after)}"] if fresh else []


def hangs(word, at):
    """Where a node hangs, as a line says it behind a word; nothing for the root."""
    return f" {word} port {at['port']} of node {at['parent']} on its port {at['on']}" if at else ""


def change_line(change):
    """The line of a change that is told as JSON."""
    kind, old, new = change["change"], change.get("old"), change.get("new")
    if kind == "went":
        return f"node {old} went" + hangs("from", change["from"])
    if kind == "came":
        return f"node {new} came" + hangs("to", change["to"])
    if kind == "moved":
        word = "moved from" if change["to"] and change["from"] else "left" if change["from"] else "joined"
        both = change["from"] and change["to"]
        return pair(old, new) + hangs(word, change["from"] or change["to"]) + (hangs("to", change["to"]) if both else "")
    if kind in VALUES:
        return f"{pair(old, new)} {kind} {int(change['from'])} now {int(change['to'])}"
    word = {"root": "root", "manager": "irm"}[kind]
    return another(word, old, new)


def refused_line(capture):
    """The line of a capture that is told to be refused as JSON."""
    refused = capture["refused"]
    counts = "".join(f" {key} {refused[key]}" for key in ("found", "wanted") if key in refused)
    return f"{capture['file']}: refused pair {refused['pair']} {refused['kind']}{counts}"


def text_of(output):
    """The lines of an answer as JSON; None if it isn't one line of the schema."""
    value = json.loads(output)
    if json.dumps(value, separators=(",", ":"), ensure_ascii=False) + "\n" != output or value.pop("schema") != 1:
        return None
    (kind, items), = value.items()
    line_of = {"changes": change_line, "captures": refused_line}[kind]
    return "".join(line_of(item) + "\n" for item in items)


def status_of(output):
    """The status that goes with an answer."""
    if not output or output == '{"schema":1,"changes":[]}\n':
        return 0
    return 2 if ": refused pair " in output or output.startswith('{"schema":1,"captures":') else 1


def agrees(files, standard, status, output, as_json=False):
    """Whether `diff` may answer so to two captures, each of which is a pair of a name and its bytes."""
    if as_json:
        output = text_of(output)
        if output is None:
            return False
    trees, refusals = [], ""
    for name, data in files:
        try:
            trees.append(read_capture(data, standard)[1])
        except ListFault as fault:
            refusals += f"{name}: {fault.line()}"
    if refusals:
        return (status, output) == (2, refusals)
    return status == (1 if output else 0) and check(*trees, output)


def check(old, new, text):
    """Whether some choice of nodes that are one in both buses has these lines."""
    went = {int(node) for node in re.findall(r"^node (\d+) went", text, re.M)}
    came = {int(node) for node in re.findall(r"^node (\d+) came", text, re.M)}
    stays = r"^node (\d+)(?: now (\d+))? (?:moved|left|joined|" + "|".join(VALUES) + ")"
    known = {int(node): int(there or node) for node, there in re.findall(stays, text, re.M)}
    gone = {int(node) for node in re.findall(r"^node (\d+)(?: now \d+)? (?:moved|left)", text, re.M)} | went
    root = len(old) - 1
    if "\nroot " not in "\n" + text:
        known[root] = len(new) - 1
    if root in went or root in known:
        choices = [known]
    else:
        choices = [dict(known) for _ in new]
        for there, choice in enumerate(choices):
            choice[root] = there
    found = any(tell(old, new, spread(old, new, choice, went, came, gone)) == text for choice in choices)
    for word in re.findall(r"^root|^irm|went|came|moved|left|joined|gap|link|speed|contender|power", text, re.M):
        reached[f"diff {word}"] += found
    return found


def spread(old, new, now, went, came, gone):
    """From nodes that are known to be one, the others: cables that stayed lead from one such node to the next."""
    todo = list(now.items())
    while todo:
        node, there = todo.pop()
        for port in range(len(old[node]["ports"])):
            end, new_end = far_end(old, node, port), far_end(new, there, port)
            if end is None or new_end is None or end[1] != new_end[1] or end[0] in now or end[0] in went:
                continue
            child = node if old[node]["ports"][port] == PARENT else end[0]
            if child not in gone and new_end[0] not in came and new_end[0] not in now.values():
                now[end[0]] = new_end[0]
                todo.append((end[0], new_end[0]))
    return now
