"""Reads a capture from standard input through libbusconf.so, and writes what `busconf read` writes for a bus.

The shared object is the first argument; `1995` behind it reads by IEEE Std 1394-1995.
"""
import ctypes
import struct
import sys

U8, U32 = ctypes.c_uint8, ctypes.c_uint32
VALID, REFUSED, NO_NODE = 0, 1, 63


class Slot(ctypes.Structure):
    _fields_ = [("status", U8), ("peer", U8)]


class Node(ctypes.Structure):
    words = ["id", "link", "gap", "speed", "contender", "power", "initiated"]
    _fields_ = [(it, U8) for it in [*words, "slot_count"]] + [("slots", Slot * 27)]


class Bus(ctypes.Structure):
    _fields_ = [(it, U8) for it in ("nodes", "root", "manager")]


class Fault(ctypes.Structure):
    _fields_ = [("at", ctypes.c_size_t), ("kind", U8), ("found", U8), ("wanted", U8)]


def line(node):
    said = "node " + " ".join(f"{it} {getattr(node, it)}" for it in Node.words)[3:]
    signs = [(" -", " .", f" ^{it.peer}", f" v{it.peer}")[it.status] for it in node.slots[: node.slot_count]]
    return said + " ports" + "".join(signs)


def main():
    library = ctypes.CDLL(sys.argv[1])
    standard = int(sys.argv[2]) if len(sys.argv) > 2 else 2000
    data = sys.stdin.buffer.read()
    found = struct.unpack(f">{len(data) // 8 * 2}I", data[: len(data) // 8 * 8])[::2]
    quads = (U32 * max(1, len(found)))(*found)
    nodes, bus, fault = (Node * 63)(), Bus(), Fault()
    room = (ctypes.c_size_t(len(found)), U32(standard), nodes, ctypes.c_size_t(63))
    status = library.busconf_read(quads, *room, ctypes.byref(bus), ctypes.byref(fault))
    if status != VALID:
        print(f"status {status} kind {fault.kind} at {fault.at} found {fault.found} wanted {fault.wanted}")
        return 1
    for node in nodes[: bus.nodes]:
        print(line(node))
    print(f"nodes {bus.nodes} root {bus.root} irm {'none' if bus.manager == NO_NODE else bus.manager}")
    return 0


sys.exit(main())
