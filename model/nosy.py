"""Recordings of `nosy-dump`: docs/VIEW-LOGS.md, 'nosy'. docs/CAPTURES.md has the records, in 'From a recording of a TI
PCILynx'.
"""

from .captures import write_pairs
from .changes import Log
from .packets import is_self_id
from .reach import reached

LONGEST = 65536


class DumpFault(Exception):
    def __init__(self, place, kind, length=None):
        super().__init__(kind)
        self.place, self.kind, self.length = place, kind, length
        reached[f"fault {kind} of a dump"] += 1


def records(data):
    """Where each record begins, and its quadlets."""
    at = 0
    while at < len(data):
        if at + 4 > len(data):
            raise DumpFault(at, "Cut")
        length = int.from_bytes(data[at : at + 4], "little")
        if length == 0 or length % 4 or length > LONGEST:
            raise DumpFault(at, "BadLength", length)
        if at + 4 + length > len(data):
            raise DumpFault(at, "Cut")
        body = data[at + 4 : at + 4 + length]
        yield at, [int.from_bytes(body[place : place + 4], "little") for place in range(0, length, 4)]
        at += 4 + length


def resets(data):
    """The resets of a dump, each with its byte, time and list, and the fault at which it ends, or None."""
    found = []
    try:
        for at, quads in records(data):
            if len(quads) == 1:
                found.append((at, quads[0], []))
            elif found and len(quads) == 4 and quads[1] ^ quads[2] == 0xFFFFFFFF and is_self_id(quads[1]):
                found[-1][2].append(quads[1])
    except DumpFault as fault:
        return found, fault
    return found, None


def nosy(data, standard, as_json, short=False):
    log = Log(as_json, short)
    found, fault = resets(data)
    last = None
    for at, time, quads in found:
        log.resets += 1
        words = f"reset {log.resets} byte {at} time {time}"
        members = {"reset": log.resets, "byte": at, "time": time}
        last = log.show(words, members, write_pairs(quads), standard, last) or last
    if fault:
        log.status = 1
        members = {"byte": fault.place, "kind": fault.kind}
        said = "the end of the input inside this record, wanted its length and its bytes."
        if fault.length is not None:
            members["found"] = fault.length
            said = f"a record of length {fault.length}, wanted 4 to 65536 bytes and a multiple of 4."
        log.write(f"refused byte {fault.place} {fault.kind}\nFound {said}", {"refused": members})
    return log.total()
