#!/usr/bin/env python3
"""tools/library/manual.py FOLDER: writes a manual page of section 3 for each call of c/include/busconf.h into a folder.

A page has the call's declaration, what the header says of it and of its part of the header, the records and numbers that
its declaration or its text names, and what holds for every call. What isn't in the header isn't in a page."""
import os
import re
import sys

TOP = os.path.dirname(os.path.dirname(os.path.dirname(os.path.realpath(__file__))))
BULLET = re.compile(r"^[-*] ")


class Call:
    """A declaration of the header, with the text above it and its part of the header."""

    def __init__(self, name, declaration, text, part):
        self.name, self.declaration, self.text, self.part = name, declaration, text, part


def plain(comment):
    """The text of a comment, without its stars."""
    inner = comment.strip()[2:-2].strip("\n")
    return "\n".join(re.sub(r"^ ?\* ?", "", line.strip() if line.strip() == "*" else line).rstrip()
                     for line in ("* " + inner.lstrip()).split("\n")).strip()


def pieces(header):
    """The comments and declarations of the header, in their order: pairs of a comment and what follows it."""
    inner = header[header.index('extern "C" {'):header.index("/* ---- Names that changed")]
    return re.findall(r"(?:^(/\*.*?\*/)\n)?((?:^(?!/\*|\n)[^\n]*\n(?:^(?!/\*|\n)[^\n]*\n)*)?)", inner, re.M | re.S)


def read(header):
    """The calls, and the records, numbers and types by their names, of a header."""
    calls, named, part = [], {}, ("", "")
    for comment, said in pieces(header):
        text = plain(comment) if comment else ""
        if text.startswith("---- "):
            title, _, rest = text[5:].partition("\n")
            part = (title.strip(), rest.strip())
            text = ""
        call = re.match(r"[^;{]*?\b(busconf_\w+)\(", said)
        if call and not said.startswith("typedef"):
            calls.append(Call(call.group(1), said.strip(), text, part))
        elif said.strip():
            for name in re.findall(r"^(?:#define (\w+)|(?:struct|enum) (\w+) \{|typedef .*\(\*(\w+)\))", said, re.M):
                named["".join(name)] = (f"/* {text} */\n" if text and not text.startswith("---- ") else "") + said.rstrip()
    return calls, named


def escaped(text):
    """A text as groff takes it."""
    text = text.replace("\\", "\\e").replace("-", "\\-").replace("`", "")
    return re.sub(r"^([.'])", r"\\&\1", text, flags=re.M)


def prose(text):
    """Paragraphs and lists of a comment."""
    lines, out = text.split("\n"), []
    for line in lines:
        if not line.strip():
            out.append(".PP")
        elif BULLET.match(line):
            out += [".IP \\(bu 2", escaped(line[2:].strip())]
        elif re.match(r"^BUSCONF_\w+:|^`", line) and out and out[-1] not in (".PP",):
            out += [".br", escaped(line.strip())]
        else:
            out.append(escaped(line.strip()))
    return "\n".join(out).strip()


def names_in(text):
    return set(re.findall(r"\b(busconf_\w+|BUSCONF_\w+)\b", text))


def needed(call, named):
    """What the header declares that a call's declaration needs, and what those need, in the header's order."""
    wanted, todo = set(), names_in(call.declaration)
    while todo:
        name = todo.pop()
        if name in named and name not in wanted:
            wanted.add(name)
            todo |= names_in(named[name])
    of_kinds = {name for name, said in named.items() if names_in(said) & {it for it in names_in(call.text) if it.isupper()}
                and said.split("\n")[-1] == "};" and name != "busconf_status"}
    return [name for name in named if name in wanted | of_kinds]


def declared(text):
    return ".nf\n" + escaped(text) + "\n.fi"


def name_line(text):
    """The first sentence of a call's text, for the section NAME."""
    first = re.split(r"\.(?:\s|$)|: (?=[a-z])", " ".join(text.split()), maxsplit=1)[0]
    return re.sub(r"^(?:The|Tells|Makes|Gives|Reads|Takes|Looks|Locks|Refuses|Calls)", lambda it: it.group(0).lower(), first).rstrip(",")


def page(call, calls, named, every, version):
    """The manual page of a call."""
    title, about = call.part
    others = [it.name for it in calls if it.part == call.part and it is not call]
    blocks = [
        f'.TH {call.name} 3 "" "busconf {version}" "busconf"',
        ".SH NAME", f"{call.name} \\- {escaped(name_line(call.text))}",
        ".SH SYNOPSIS", ".nf", ".B #include <busconf.h>", ".PP", escaped(call.declaration), ".fi", ".PP", "Link with",
        ".BR \\-lbusconf .",
        ".SH DESCRIPTION", prose(call.text)]
    if about:
        blocks += [".SS " + escaped(re.sub(r" \(docs/.*", "", title)), prose(about)]
    blocks += [".SH EVERY CALL", prose(every)]
    declarations = needed(call, named)
    if declarations:
        blocks += [".SH DECLARATIONS"] + "\n.PP\n".join(declared(named[name]) for name in dict.fromkeys(declarations)).split("\n")
    blocks += [".SH SEE ALSO", ", ".join([f"{name}(3)" for name in others] + ["busconf(1)", "busview(1)"])]
    return "\n".join(blocks) + "\n"


def manual(header):
    """The manual pages of a header, by the names of their calls."""
    version = re.search(r"#define BUSCONF_VERSION \d+ /\* ([\d.]+) \*/", header).group(1)
    every = plain(re.match(r"/\*.*?\*/", header, re.S).group(0))
    every = every[every.index("For every call:") + len("For every call:"):].strip()
    calls, named = read(header)
    return {call.name: page(call, calls, named, every, version) for call in calls}


def main(folder):
    with open(os.path.join(TOP, "c", "include", "busconf.h"), encoding="utf-8") as file:
        pages = manual(file.read())
    os.makedirs(folder, exist_ok=True)
    for name, text in pages.items():
        with open(os.path.join(folder, name + ".3"), "w", encoding="utf-8") as file:
            file.write(text)
        print(os.path.join(folder, name + ".3"))


if __name__ == "__main__":
    if len(sys.argv) != 2:
        sys.exit(__doc__.split("\n", maxsplit=1)[0])
    main(sys.argv[1])
