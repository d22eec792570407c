"""Inputs of `import`: lists of captures in the forms of other tools, and some that are damaged."""
from . import captures

ORDERS = ((0, 1, 2, 3), (3, 2, 1, 0), (2, 3, 0, 1), (1, 0, 3, 2))


def turned(data, order):
    """Bytes whose quadlets have their bytes in another order."""
    return b"".join(bytes(data[at + place] for place in order) for at in range(0, len(data) - 3, 4))


def binary(words, data):
    """A capture's bytes in a form that isn't text."""
    firsts = b"".join(data[at:at + 4] for at in range(0, len(data), 8))
    data = words.choice([data, data, firsts])
    kind = words.randrange(6)
    if kind == 0:
        # A controller's buffer, perhaps whole, with zeros or an earlier list at its end.
        buffer = bytes(words.randrange(256) for _ in range(4)) + turned(data, words.choice(ORDERS[:2]))
        return buffer + words.choice([b"", bytes(words.randrange(0, 64)), turned(captures.any_capture(words), ORDERS[1])])
    return turned(data, words.choice(ORDERS)) + words.choice([b"", b"", b"", b"\n", b"\r\n", b"\x00"])


def dump(words, data):
    """A dump with offsets."""
    colon, wide, group = words.choice([(":", 8, 2), ("", 8, 1), ("", 7, 2), ("", 7, 4), ("", 6, 1), ("", 4, 1)])
    lines = []
    for at in range(0, len(data), 16):
        row = data[at:at + 16]
        shown = "".join(chr(byte) if 32 <= byte < 127 else "." for byte in row)
        items = " ".join(row[place:place + group].hex() for place in range(0, len(row), group))
        gap = " " if wide in (6, 7) or colon else "  "
        behind = "" if wide in (6, 7) else f"  |{shown}|" if wide == 8 and not colon else f"  {shown}"
        lines.append(f"{at:0{wide}x}{colon}{gap}{items}{behind}")
    return "\n".join(lines) + "\n"


def listed(words, data):
    """Words of a list."""
    size = words.choice([1, 2, 4, 4, 4])
    items = [data[at:at + size] for at in range(0, len(data), size)]
    before, behind = words.choice([("", ""), ("0x", ""), ("", "h"), ("0X", "U")])
    if size == 4 and words.random() < 0.3:
        spelled = [str(int.from_bytes(item, "big")) for item in items]
    else:
        spelled = [before + words.choice([item.hex(), item.hex().upper()]) + behind for item in items]
    if spelled and words.random() < 0.1:
        spelled[words.randrange(len(spelled))] = words.choice(["", "0", "0x", "h", "xyz", "4294967296", "0000000000", "12345678901"])
    text = words.choice([" ", ", ", ",\n", ":", "\r\n"]).join(spelled)
    text = words.choice(["%s", "%s\n", "ids={%s}", "{%s};", "# a list\n%s", "%s // a bus\n", "{%s}{%s}", "[%s]"]).replace("%s", text)
    return text


def any_import(words):
    """An input of `import`."""
    data = binary(words, captures.any_capture(words))
    kind = words.randrange(3)
    if kind == 0:
        return data
    return (dump if kind == 1 else listed)(words, data).encode()
