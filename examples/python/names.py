#!/usr/bin/env python3
"""examples/python/names.py [CARD]: a file of names for `busview tree --names`, with a line `ID VENDOR MODEL GUID` for each
device of the bus on a card (0 if none is given), as Linux knows them. Each /dev/fwN is asked for its node ID, so one has
to be allowed to read them. The request is tried against the kernel's header alone: we had no bus."""
import ctypes
import fcntl
import glob
import os
import struct
import sys

GET_INFO = 0xC0282300  # FW_CDEV_IOC_GET_INFO of <linux/firewire-cdev.h>


def card_and_node(device):
    event = ctypes.create_string_buffer(40)
    info = bytearray(struct.pack("=IIQQQI4x", 4, 0, 0, ctypes.addressof(event), 0, 0))
    with open(device, "rb") as file:
        fcntl.ioctl(file, GET_INFO, info)
    return struct.unpack_from("=I", info, 32)[0], struct.unpack_from("=I", event, 12)[0] & 63


def attribute(name, word):
    try:
        with open(f"/sys/bus/firewire/devices/{name}/{word}", encoding="ascii", errors="replace") as file:
            return "".join(c for c in file.read().strip() if " " <= c <= "~" and c not in '"\\')
    except OSError:
        return ""


wanted = int(sys.argv[1]) if len(sys.argv) > 1 else 0
for device in sorted(glob.glob("/dev/fw*")):
    card, node = card_and_node(device)
    if card == wanted and node < 63:
        words = [attribute(os.path.basename(device), word) for word in ("vendor_name", "model_name", "guid")]
        print(node, " ".join(word for word in words if word)[:64])
