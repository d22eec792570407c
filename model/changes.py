"""Resets one after the other, and what changed from one to the next: docs/VIEW-LOGS.md, 'resets'."""

import re

from .captures import manager_of, quadlets, read_capture
from .diffs import far_end, tell
from .json_lines import bus, line, refusal
from .packets import ABSENT, ListFault
from .reach import reached
from .shown import sentence
from .view import tree_text


def ports_of(node):
    return len(node["ports"]) - node["ports"].count(ABSENT)


def walk(old, new, start, new_start):
    """The nodes of both buses that are one if these two are, reached along ports of the same numbers."""
    now = {start: new_start}
    todo = [(start, new_start)]
    while todo:
        node, there = todo.pop()
        for port in range(len(old[node]["ports"])):
            end, new_end = far_end(old, node, port), far_end(new, there, port)
            if end and new_end and end[1] == new_end[1] and end[0] not in now and new_end[0] not in now.values():
                if ports_of(old[end[0]]) == ports_of(new[new_end[0]]):
                    now[end[0]] = new_end[0]
                    todo.append((end[0], new_end[0]))
    return now


def same_nodes(old, new):
    """The walk that takes the most nodes of both buses for one; of equals the first by both IDs."""
    best = {}
    for start in range(len(old)):
        for new_start in range(len(new)):
            if ports_of(old[start]) == ports_of(new[new_start]):
                now = walk(old, new, start, new_start)
                best = now if len(now) > len(best) else best
    return best


def compared(old, nodes):
    """The drawing of a bus, and what changed since the one before, if that is given."""
    text = tree_text(nodes)
    if old is None:
        return text
    if tree_text(old) == text:
        reached["reset as before"] += 1
        return "as before\n"
    if len(nodes) != len(old):
        text += f"nodes {len(nodes)}, were {len(old)}\n"
    if manager_of(nodes) != manager_of(old):
        text += f"irm {word(manager_of(nodes))}, was {word(manager_of(old))}\n"
    if len({node["gap"] for node in old}) == 1 and len({node["gap"] for node in nodes}) > 1:
        text += "gap counts came to differ\n"
    return text + tell(old, nodes, same_nodes(old, nodes), by_new=True)


def word(manager):
    return "none" if manager is None else manager


class Log:
    """What was written of resets so far, and how many of them each node began."""

    def __init__(self, as_json, short=False):
        self.as_json = as_json
        self.short = short  # one line for each reset, and which ports lost the node that hung on them
        self.lost = {}
        self.without = {}  # when each of these ports that has no node since lost its last one
        self.shortest = {}  # the shortest time for which each had none
        self.out = []
        self.status = self.resets = self.refused = 0
        self.began = {}

    def write(self, text, members):
        self.out.append(line(members) if self.as_json else text + "\n")

    def show(self, words, members, data, standard, old, card=None, time=None):
        """A reset: its first words and members, and its list as a capture. The nodes of the bus, or None."""
        try:
            nodes = read_capture(data, standard)[1]
        except ListFault as fault:
            self.refused += 1
            self.status = 1
            text = f"{words}\n{fault.line()}Found {sentence(fault, quadlets(data))}"
            if self.short:
                text = f"{words}\n{fault.line()}"[:-1]
            self.write(text, dict(members, refused=refusal(fault)))
            return None
        starters = [node["id"] for node in nodes if node["initiated"]]
        for node in starters:
            self.began[card, node] = self.began.get((card, node), 0) + 1
        text = f"{words} nodes {len(nodes)} root {len(nodes) - 1} irm {word(manager_of(nodes))}\n"
        if self.short:
            self.lose(old, nodes, card, time)
        elif not self.as_json:
            text += compared(old, nodes) + "".join(f"node {node} initiated\n" for node in starters)
        self.write(text[:-1], dict(members, **bus(nodes)))
        return nodes

    def lose(self, old, nodes, card, time):
        """Counts the ports that lost the node which hung on them, by the words of what changed, once those that have a
        node again are known to.
        """
        changes = "" if old is None else tell(old, nodes, same_nodes(old, nodes), by_new=True)
        for port, node in re.findall(r"(?:to|joined) port (\d+) of node (\d+) on", changes):
            since = self.without.pop((card, port, node), None)
            if since is not None and time is not None and since <= time:
                shortest = self.shortest.get((card, port, node), time - since)
                self.shortest[card, port, node] = min(shortest, time - since)
        for port, node in re.findall(r"(?:went from|left|moved from) port (\d+) of node (\d+) on", changes):
            self.lost[card, port, node] = self.lost.get((card, port, node), 0) + 1
            self.without[card, port, node] = time

    def forget(self, card):
        """Nothing is known of the card's bus before this reset, so neither since when a port has no node."""
        self.without = {port: time for port, time in self.without.items() if port[0] != card}

    def losses(self):
        """A line for each port that lost the node which hung on it, in the order of the first losses."""
        for (card, port, node), count in self.lost.items():
            reached["port lost its child"] += 1
            text = f"card {card} port {port} of node {node} lost its child: {count} times"
            if (card, port, node) in self.shortest:
                reached["port had a child again"] += 1
                shortest = self.shortest[card, port, node]
                text += f", the shortest for {shortest // 1000000}.{shortest % 1000000:06d} s"
            self.write(text, {})

    def total(self, cards=None):
        """The last line, with a number of cards if there are any."""
        text = f"resets {self.resets} refused {self.refused}"
        members = {"resets": self.resets, "refused": self.refused}
        if cards is not None:
            text += f" cards {cards}"
            members["cards"] = cards
        if self.began:
            card, node = most = max(self.began, key=lambda starter: self.began[starter])
            of_card = {} if card is None else {"card": card}
            text += f", most begun by {'' if card is None else f'card {card} '}node {node}: {self.began[most]}"
            members["most"] = dict(of_card, node=node, count=self.began[most])
        self.write(text, {"totals": members})
        return self.status, "".join(self.out)
