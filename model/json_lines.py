"""Buses and reports as JSON: docs/VIEW-CAPTURES.md, 'json', and docs/VIEW-SCRIPTS.md, 'json-run'."""

import json

from .captures import manager_of, read_capture
from .outcomes import names
from .packets import ListFault
from .run import Script, ScriptFault

STATUSES = ("absent", "inactive", "parent", "child")


def line(members):
    return json.dumps(dict({"schema": 1}, **members), separators=(",", ":")) + "\n"


def bus(nodes, by_id=None):
    """The members of a tree, with the names of its nodes by ID if they have any."""
    listed = []
    for node in nodes:
        ports = [
            dict({"status": STATUSES[status]}, **({} if far is None else {"far": far}))
            for status, far in zip(node["ports"], node["far"])
        ]
        member = {"id": node["id"]}
        if by_id:
            member["name"] = by_id[node["id"]]
        member.update(
            link=bool(node["link"]),
            gap=node["gap"],
            speed=node["speed"],
            contender=bool(node["contender"]),
            power=node["power"],
            initiated=bool(node["initiated"]),
            ports=ports,
        )
        listed.append(member)
    return {"nodes": listed, "root": len(nodes) - 1, "manager": manager_of(nodes)}


def json_capture(data, standard):
    try:
        return 0, line(bus(read_capture(data, standard)[1]))
    except ListFault as fault:
        return 1, line({"refused": refusal(fault)})


def refusal(fault):
    members = {"pair": fault.place, "kind": fault.kind}
    if fault.found is not None:
        members.update(found=fault.found, wanted=fault.wanted)
    return members


def component(world, part):
    members = {"rounds": part["rounds"], "changed": part["changed"], "names": names(world, part["nodes"])}
    by_end = names(world, part["end"])
    members[part["kind"]] = bus(part["tree"], by_end) if part["kind"] == "tree" else by_end
    return members


def json_run(data):
    try:
        script = Script().run(data)
    except ScriptFault as fault:
        return 1, line({"refused": {"line": fault.place, "kind": fault.kind}})
    lines = []
    for report in script.reports:
        parts = [component(script.world, part) for part in report["parts"]]
        lines.append(line({"report": report["number"], "turn": report["turn"], "components": parts}))
    return 0, "".join(lines)
