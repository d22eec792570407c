"""Accepts exactly the captures on standard input that a bus of IEEE 1394a-2000 can send: status 0, else 1."""
import struct
import sys


def is_bus(data):
    if len(data) % 8:
        return False
    quads = struct.unpack(f">{len(data) // 4}I", data)
    if any(first ^ second != 0xffffffff for first, second in zip(quads[::2], quads[1::2])):
        return False
    quads, waiting = quads[::2], 0
    for node in range(63):
        if not quads or quads[0] >> 23 != 0x100 | node << 1:
            return False
        ports, n = [quads[0] >> shift & 3 for shift in (6, 4, 2)], 1
        while quads[n - 1] & 1 and n < 3:
            if len(quads) == n or quads[n] >> 20 != 0x808 | node << 4 | n - 1:
                return False
            ports += [quads[n] >> shift & 3 for shift in range(16, 0 if n == 1 else 6, -2)]
            n += 1
        up, down = ports.count(2), ports.count(3)
        if up > 1 or down > waiting or (up == 0 and down < waiting):
            return False
        quads, waiting = quads[n:], waiting - down + 1
        if up == 0:
            return not quads
    return False


sys.exit(0 if is_bus(sys.stdin.buffer.read()) else 1)
