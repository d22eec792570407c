"""The Debian packages: their files, and what the package manager is told of each."""
import email.utils
import hashlib
import os
import textwrap
from dataclasses import dataclass, field

from contents import (PROGRAMS, SONAME, TOP, Entry, completion, copyright_of, data_of, manual_of, pages_of, pc_of,
                      readers_of, sums_of, vectors_of, vectors_tool, with_sums, zipped)

ABOUT = """busconf configures FireWire cable buses (IEEE Std 1394-1995 and 1394a-2000) as their nodes do. It runs a bus
from a script, and reads the self-ID packets of a real one. Every function of it is proved to meet its contract."""


@dataclass
class Package:
    """A Debian package: its fields as its control file has them, its files below /, and its further control files."""
    name: str
    fields: dict
    about: str
    short: str
    files: dict = field(default_factory=dict)
    control: dict = field(default_factory=dict)
    architecture: str = "amd64"

    def file_name(self, built):
        return f"{self.name}_{revision_of(built)}_{self.architecture}.deb"

    def control_files(self, built):
        """The control file, the checksums of the package, and what else the package manager reads."""
        size = sum(1 if entry.link else -(-len(entry.data) // 1024) for entry in self.files.values())
        folders = {os.path.dirname(path)[:k] for path in self.files for k in ends_of(os.path.dirname(path))}
        fields = {
            "Package": self.name,
            "Source": "busconf",
            "Version": revision_of(built),
            "Architecture": self.architecture,
            "Maintainer": built.owner,
            "Installed-Size": str(size + len(folders)),
            **self.fields,
            "Priority": "optional",
        }
        if self.name == "busconf":
            del fields["Source"]
        lines = [line for part in (self.about, ".", ABOUT) for line in textwrap.wrap(part, 78)]
        control = [f"{key}: {value}\n" for key, value in fields.items()]
        control += [f"Description: {self.short}\n", *(f" {line}\n" for line in lines)]
        sums = sums_of(self.files, hashlib.md5)
        return {"control": "".join(control).encode(), "md5sums": sums.encode(), **self.control}


def ends_of(path):
    """Where each folder on a path ends."""
    return [k for k, letter in enumerate(path) if letter == "/"] + [len(path)]


def revision_of(built):
    return f"{built.version}-1"


def doc_of(name, built):
    """What stands in each package's folder of pages."""
    changes = f"""busconf ({revision_of(built)}) unstable; urgency=medium

  * What changed in this version stands in changelog.gz beside this file.

 -- {built.owner}  {email.utils.formatdate(built.epoch)}
"""
    return {
        f"usr/share/doc/{name}/PROVED": Entry(built.proved),
        f"usr/share/doc/{name}/changelog.Debian.gz": Entry(zipped(changes.encode())),
        f"usr/share/doc/{name}/changelog.gz": Entry(zipped(data_of("CHANGELOG.md"))),
        f"usr/share/doc/{name}/copyright": copyright_of(built),
    }


def programs_of(built):
    """The package of the programs."""
    doc = "usr/share/doc/busconf"
    files = {**pages_of(doc), **{f"usr/{path}".replace("zsh/site-functions", "zsh/vendor-completions"): entry for path, entry in completion().items()}}
    for name in PROGRAMS:
        files[f"usr/bin/{name}"] = Entry(built.programs[name], 0o755)
        files[f"usr/share/man/man1/{name}.1.gz"] = Entry(zipped(data_of(f"share/man/{name}.1")))
    return Package(
        "busconf",
        {"Depends": libc_of(built.needs), "Suggests": "busconf-vectors, libbusconf-dev", "Section": "utils"},
        "The programs busconf, which runs and reads buses, and busview, which shows them; with their manual pages, "
        "the pages of the repository and examples.",
        "FireWire cable buses, run from scripts and read from captures",
        files)


def library_of(built, library):
    """The package of the shared library for a machine."""
    symbols = f"{SONAME} libbusconf0 #MINVER#\n" + "".join(f" {call}@Base {built.version}\n" for call in library.calls)
    return Package(
        "libbusconf0",
        {"Depends": libc_of(library.needs), "Section": "libs", "Multi-Arch": "same"},
        "The shared library of the proved calls for C, C++ and Python.",
        "FireWire cable buses, read, planned and run: the shared library",
        {f"usr/{library.machine.multiarch}/{SONAME}": Entry(library.shared)},
        {
            "shlibs": f"libbusconf 0 libbusconf0 (>= {built.version})\n".encode(),
            "symbols": symbols.encode(),
            "triggers": b"activate-noawait ldconfig\n",
        },
        library.machine.debian)


def header_of(built, library):
    """The package for who compiles against the library for a machine."""
    doc = "usr/share/doc/libbusconf-dev"
    below = library.machine.multiarch
    files = {
        "usr/include/busconf.h": Entry(data_of("c/include/busconf.h")),
        f"usr/{below}/libbusconf.a": Entry(library.archive),
        f"usr/{below}/libbusconf.so": Entry(link=SONAME),
        f"usr/{below}/pkgconfig/busconf.pc": pc_of("/usr", below),
        f"{doc}/LIBRARY.md": Entry(data_of("docs/LIBRARY.md")),
        **{f"usr/share/man/man3/{name}.gz": Entry(zipped(page)) for name, page in manual_of(library).items()},
    }
    examples = pages_of(doc)
    files.update({path: entry for path, entry in examples.items() if path.startswith(f"{doc}/examples/")})
    return Package(
        "libbusconf-dev",
        {
            "Depends": f"libbusconf0 (= {revision_of(built)})",
            "Suggests": "gcc | c-compiler, pkg-config",
            "Section": "libdevel",
            "Multi-Arch": "same",
        },
        "The header, the static library and the file for pkg-config, with the page on the calls and examples in C and "
        "Python.",
        "FireWire cable buses, read, planned and run: for who compiles",
        files, architecture=library.machine.debian)


def next_minor(version):
    """The next version of which the module for Python takes no library."""
    major, minor = version.split(".")[:2]
    return f"{major}.{int(minor) + 1}"


def python_of(built):
    """The package of the module for Python, which loads the shared library."""
    return Package(
        "python3-busconf",
        {
            "Depends": f"python3 (>= 3.9), libbusconf0 (>= {built.version}), libbusconf0 (<< {next_minor(built.version)}~)",
            "Section": "python",
        },
        "The module busconf for Python, over the shared library of the proved calls.",
        "FireWire cable buses, read, planned and run: the module for Python",
        {"usr/lib/python3/dist-packages/busconf.py": Entry(data_of("c/python/busconf.py"))},
        architecture="all")


def page_package_of(built):
    """The package of the page."""
    doc = "usr/share/doc/busconf-web"
    files = {f"usr/share/busconf/web/{name}": entry for name, entry in built.page.items()}
    files[f"{doc}/WEB.md"] = Entry(data_of("docs/WEB.md"))
    files[f"{doc}/web.png"] = Entry(data_of("docs/web.png"))
    return Package(
        "busconf-web",
        {"Suggests": "chromium | firefox-esr (>= 134)", "Section": "web", "Multi-Arch": "foreign"},
        "A page for a browser, which shows self-ID packets field by field and the tree that they tell, with the proved "
        "calls as a module of WebAssembly.",
        "FireWire cable buses: a page that reads self-ID packets",
        files, architecture="all")


def vectors_package_of(built):
    """The package of the vectors."""
    files = {f"usr/share/busconf/vectors/{path}": entry for path, entry in vectors_of(built).items()}
    fields = {"Suggests": "busconf", "Section": "misc", "Multi-Arch": "foreign"}
    tool = vectors_tool()
    if tool:
        files["usr/bin/busconf-vectors"] = tool
        if b"python3" in tool.data.split(b"\n", 1)[0]:
            fields = {"Depends": "python3", **fields}
    if os.path.exists(os.path.join(TOP, "docs", "VECTORS.md")):
        files["usr/share/doc/busconf-vectors/VECTORS.md"] = Entry(data_of("docs/VECTORS.md"))
        files.update(readers_of("usr/share/doc/busconf-vectors/"))
    return Package(
        "busconf-vectors", fields,
        "Valid and refused captures, ROMs and scripts with the answers of the proved programs, to try other readers "
        "on.",
        "FireWire cable buses: inputs with proved answers", files, architecture="all")


def libc_of(needs):
    major, minor = needs
    return f"libc6 (>= {major}.{minor})"


def packages_of(built):
    """All Debian packages, each with its pages and checksums."""
    found = [programs_of(built), python_of(built)]
    for library in built.libraries:
        found += [library_of(built, library), header_of(built, library)]
    if built.page:
        found.append(page_package_of(built))
    if built.vectors:
        found.append(vectors_package_of(built))
    for package in found:
        files = {**package.files, **doc_of(package.name, built)}
        package.files = with_sums(files, f"usr/share/doc/{package.name}/SHA256SUMS")
    return found
