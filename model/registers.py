"""The registers of the isochronous resource manager: docs/SCRIPTS.md, 'Registers'. They are a dictionary by offset."""

from .reach import reached

BUS_MANAGER_ID, BANDWIDTH, CHANNELS_LOW, CHANNELS_HIGH = 0x21C, 0x220, 0x224, 0x228
WIDTHS = {BUS_MANAGER_ID: 6, BANDWIDTH: 13, CHANNELS_LOW: 32, CHANNELS_HIGH: 32}
NOBODY = 63
ALL_UNITS = 4915
COMPARE_SWAP = 2
COMPLETE, TYPE_ERROR, ADDRESS_ERROR = 0, 6, 7


def initial():
    return {BUS_MANAGER_ID: NOBODY, BANDWIDTH: ALL_UNITS, CHANNELS_LOW: 0xFFFFFFFF, CHANNELS_HIGH: 0xFFFFFFFF}


def access(registers, kind, offset, lock_kind=None, arg=None, value=None):
    """A read, a write or a lock: the response code and the value of the answer."""
    if offset not in registers:
        reply = ADDRESS_ERROR, 0
    elif kind == "read":
        reply = COMPLETE, registers[offset]
    elif kind == "write" or lock_kind != COMPARE_SWAP:
        reply = TYPE_ERROR, 0
    else:
        held = registers[offset]
        if held == arg:
            registers[offset] = value & (1 << WIDTHS[offset]) - 1
            reached["lock stores"] += 1
        reply = COMPLETE, held
    reached[f"{kind} answered {reply[0]}"] += 1
    return reply


def grant(registers, seen, allocates, channel, units):
    """What `allocate` or `release` answers, relying on the values that were seen."""
    offset = CHANNELS_LOW if channel < 32 else CHANNELS_HIGH
    bit = 1 << 31 - channel % 32
    bandwidth = seen[BANDWIDTH]
    if bool(seen[offset] & bit) != allocates:
        return "no_channel"
    if allocates and bandwidth < units or not allocates and bandwidth + units > ALL_UNITS:
        return f"no_bandwidth {bandwidth}"
    for needed in (BANDWIDTH, offset):
        if registers[needed] != seen[needed]:
            return f"changed {needed:#x} {registers[needed]}"
    registers[BANDWIDTH] += -units if allocates else units
    registers[offset] ^= bit
    return "done"


def become_manager(registers, node_id):
    """What `manager` answers."""
    if registers[BUS_MANAGER_ID] != NOBODY:
        return f"lost {registers[BUS_MANAGER_ID]}"
    registers[BUS_MANAGER_ID] = node_id
    return "won"
