"""Hops, gap counts and the plan of a bus manager: docs/SCRIPTS.md, 'Plans'."""

from .maps import path
from .reach import reached

GAPS = (63, 5, 7, 8, 10, 13, 16, 18, 21, 24, 26, 29, 32, 35, 37, 40)  # for 0 to 15 hops


def distance(tree, one, other):
    return len(path(tree, one, other)) - 1


def reach(tree, node):
    return max(distance(tree, node, other) for other in range(len(tree)))


def hops(tree):
    return max(reach(tree, node) for node in range(len(tree)))


def gap_for(count):
    reached[f"gap count for {count if count < len(GAPS) else 'more'} hops"] += 1
    return GAPS[count] if count < len(GAPS) else 63


def choose_root(tree):
    """The ID of the contender of least reach, and of equals the highest."""
    able = [node["id"] for node in tree if node["link"] and node["contender"]]
    return min(able, key=lambda node: (reach(tree, node), -node))
