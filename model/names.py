"""`busview tree` and `dot` with `--names`: the names of a file, put before each mention of a node."""

import re


def names_of(file):
    """The names by ID, or None if a line is refused."""
    names = {}
    for line in file.split(b"\n"):
        said = line.removesuffix(b"\r").lstrip(b" \t")
        if not said or said.startswith(b"#"):
            continue
        found = re.fullmatch(rb'([0-9]{1,2})[ \t]+([!#-\[\]-~][ !#-\[\]-~]{0,63})', said)
        if not found or int(found[1]) > 62 or int(found[1]) in names:
            return None
        names[int(found[1])] = found[2]
    return names


def named(file, status, text):
    """The status and the text of a bus with the names of a file, by those without."""
    names = names_of(file)
    if names is None:
        return 2, b""

    def mention(found):
        name = names.get(int(found[1]))
        return name + b": " + found[0] if name else found[0]

    return status, re.sub(rb"node ([0-9]{1,2})(?![0-9])", mention, text)
