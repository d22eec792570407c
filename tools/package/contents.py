"""What the packages hold: which built file, page or example stands where in each of them."""
import base64
import hashlib
import os
import re
import subprocess
import sys
from dataclasses import dataclass

TOP = os.path.dirname(os.path.dirname(os.path.dirname(os.path.realpath(__file__))))
sys.path.append(os.path.join(TOP, "tools", "library"))

import manual  # noqa: E402

PROGRAMS = ("busconf", "busview")
# Where ./build puts the page with its module, and the files of the module. A browser reads the second.
PAGE = "crates/heapless_c/out/web"
MODULE = ("busconf.wasm", "busconf-wasm.js")
SONAME = "libbusconf.so.0"
# Where Debian has the libraries of x86-64, below /usr.
MULTIARCH = "lib/x86_64-linux-gnu"
NO_LICENCE = "No licence was chosen for busconf yet; it is the owner's to choose."
COLUMNS = 110


class Fault(Exception):
    """Why there is no package, or what is wrong with one."""


@dataclass(frozen=True)
class Machine:
    """A kind of processor: its name in the names of archives, Debian's name of it, where ./build puts the library for it,
    and what the names of its binary tools begin with."""
    name: str
    debian: str
    folder: str
    tool: str = ""

    @property
    def multiarch(self):
        """Where Debian has the libraries of this machine, below /usr."""
        return f"lib/{self.name}-linux-gnu"


X86_64 = Machine("x86_64", "amd64", "crates/busconf_c/out/lib")
AARCH64 = Machine("aarch64", "arm64", "crates/busconf_c/out/lib-aarch64", "aarch64-linux-gnu-")


@dataclass
class Entry:
    """A file of a package, or a symbolic link."""
    data: bytes = b""
    mode: int = 0o644
    link: str = ""


def run(*words, **how):
    """What a command writes; a fault where it fails."""
    done = subprocess.run(words, capture_output=True, check=False, **how)
    if done.returncode != 0:
        said = (done.stderr or done.stdout).decode(errors="replace").strip()
        raise Fault(f"{' '.join(map(str, words))}: status {done.returncode}: {said[-1500:]}")
    return done.stdout


def text_of(*words):
    return run(*words, cwd=TOP).decode().strip()


def data_of(path):
    with open(os.path.join(TOP, path), "rb") as file:
        return file.read()


def is_built(path):
    """Whether a file or a folder is what ./build or .ci/run has built of these sources."""
    said = ["bash", "-c", 'top=$PWD; . tools/lib/sources.sh; is_built "$1"', "package", path]
    return subprocess.run(said, cwd=TOP, check=False).returncode == 0


def wants_built(*paths):
    for path in paths:
        if not is_built(path):
            raise Fault(f"{path} isn't built from these sources; run ./build first, which proves and builds it")


def files_below(folder):
    """The files below a folder, in order, by their paths in it."""
    for at, folders, names in os.walk(folder):
        folders[:] = sorted(it for it in folders if it != "__pycache__")
        for name in sorted(names):
            yield os.path.relpath(os.path.join(at, name), folder)


def committed(*parts):
    """The files that git has in these folders, with their bytes, which have to be those of the last commit."""
    found = {}
    for line in text_of("git", "ls-tree", "-r", "HEAD", "--", *parts).splitlines():
        about, path = line.split("\t", 1)
        data = data_of(path) if os.path.isfile(os.path.join(TOP, path)) else None
        if data is None or hashlib.sha1(b"blob %d\0" % len(data) + data).hexdigest() != about.split()[2]:
            raise Fault(f"{path} isn't as the last commit has it")
        found[path] = data
    return found


class Built:
    """What ./build has proved and built, and what there is to say of it."""

    def __init__(self, vectors=None):
        self.version = text_of("tools/version")
        self.vectors = vectors
        self.sources = text_of("bash", "-c", "top=$PWD; . tools/lib/sources.sh; sources_sum")
        self.kit = self.kit_now()
        self.revision, self.epoch, self.owner = self.commit()
        wants_built(*(f"crates/{name}/out/{name}" for name in PROGRAMS))
        self.programs = {name: self.stripped(f"crates/{name}/out/{name}", "--strip-all") for name in PROGRAMS}
        machines = [X86_64, *([AARCH64] if os.path.isdir(os.path.join(TOP, AARCH64.folder)) else [])]
        self.libraries = [Library(self, machine) for machine in machines]
        self.page = self.page_now() if os.path.isdir(os.path.join(TOP, PAGE)) else {}
        self.needs = max(map(glibc_of, [*self.programs.values(), self.libraries[0].shared]))
        self.proved = self.tell()

    def kit_now(self):
        """The kit, which is the one that the programs name."""
        kit = text_of("rt", "version")
        named = re.search(r'KIT: &str = "(.*)"', data_of("crates/about/src/lib.rt").decode()).group(1)
        if kit != named:
            raise Fault(f"the kit here is {kit}, and the programs say that {named} proved them")
        return kit

    @staticmethod
    def commit():
        """The revision, its time and its owner. SOURCE_DATE_EPOCH stands for the time where it is set."""
        revision = text_of("git", "rev-parse", "HEAD")
        epoch, owner = text_of("git", "log", "-1", "--format=%ct %an <%ae>").split(" ", 1)
        if text_of("git", "status", "--porcelain"):
            revision += ", with changes that no commit has"
        return revision, int(os.environ.get("SOURCE_DATE_EPOCH", epoch)), owner

    def stripped(self, path, how, tool=""):
        """The bytes of a built file without its symbols, once it is sure that it names the logic of the kit."""
        place = os.path.join(TOP, path)
        logic = logic_of(place)
        if not logic.startswith(self.kit.split()[-1]):
            raise Fault(f"{path} says that it was proved in the logic '{logic}', and the kit is {self.kit}")
        return changed(place, f"{tool}strip", "--enable-deterministic-archives", how)

    def page_now(self):
        """The files of the page, once it is sure that they were built from these sources, that the script which a browser
        reads has the very module, and that all else is what is committed in web/."""
        wants_built(PAGE)
        files = {name: Entry(data_of(f"{PAGE}/{name}")) for name in files_below(os.path.join(TOP, PAGE))}
        judge_page({name: entry.data for name, entry in files.items()}, self.kit)
        return files

    def tell(self):
        """The file that says what proved the package, and which clauses hold."""
        packed = dict(self.programs)
        for library in self.libraries:
            packed[f"{SONAME} for {library.machine.name}"] = library.shared
            packed[f"libbusconf.a for {library.machine.name}"] = library.archive
        if self.page:
            packed["busconf.wasm"] = self.page["busconf.wasm"].data
        sums = "\n".join(f"    {hashlib.sha256(data).hexdigest()}  {name}" for name, data in packed.items())
        logic = logic_of(os.path.join(TOP, "crates/busconf/out/busconf"))
        return f"""What proved busconf {self.version}, and what is proved of it

version   {self.version}
revision  {self.revision}
kit       {self.kit}
logic     {logic}
sources   {self.sources}

The kit proved every function that these programs and libraries stand on, and then built them of what was proved.
`logic` stands in the programs themselves (readelf -p .comment busconf). `sources` is the checksum that
tools/lib/sources.sh makes of the sources and proofs of the revision. The files are as they were built, without their
symbols:

{sums}

To prove it again, take that revision and that kit, and run ./build, or .ci/run for all of its proofs and tests.
docs/GUARANTEES.md says what isn't promised, what is trusted, and in words what is proved. These are the clauses that
hold, crate by crate: the public functions, methods and laws, and behind each the names of its clauses.

{clauses()}
""".encode()


def judge_page(files, kit):
    """Raises a fault where files, with their bytes, aren't the page that is committed and a module that this kit proved."""
    ours = {os.path.basename(path): data for path, data in committed("web").items()}
    if {**files, **ours} != files:
        raise Fault(f"{PAGE} isn't made from these sources; run ./build first")
    strange = sorted(set(files) - set(ours) - set(MODULE))
    if strange:
        raise Fault(f"{PAGE}/{strange[0]} is no file of the page; remove it, or run ./build")
    script = re.fullmatch(rb'"use strict";\n// .*\nconst BUSCONF_WASM = "([\w+/=]*)";\n', files["busconf-wasm.js"])
    if not script or base64.b64decode(script.group(1)) != files["busconf.wasm"]:
        raise Fault(f"{PAGE}/busconf-wasm.js hasn't the bytes of busconf.wasm; run ./build")
    logic = re.search(rb"rattle logic=([0-9a-f]+)", files["busconf.wasm"])
    if not logic or not logic.group(1).decode().startswith(kit.split()[-1]):
        raise Fault(f"{PAGE}/busconf.wasm doesn't say that it was proved in the logic of {kit}")


class Library:
    """The library for a machine."""

    def __init__(self, built, machine):
        self.machine = machine
        wants_built(machine.folder)
        self.shared = built.stripped(f"{machine.folder}/{SONAME}", "--strip-unneeded", machine.tool)
        self.archive = built.stripped(f"{machine.folder}/libbusconf.a", "--strip-debug", machine.tool)
        self.needs = glibc_of(self.shared)
        self.calls = calls_of(self.shared, machine.tool)


def clauses():
    """The clauses of the crates that the programs and the library stand on, which `tools/clauses` lists."""
    below = {}
    for line in data_of("crates.txt").decode().splitlines():
        if ":" in line and not line.startswith("#"):
            name, libraries = line.split(":")
            below[name.split()[0]] = libraries.split()
    found, left = set(), [*PROGRAMS, "heapless_c", "busconf_c", "script_c"]
    while left:
        crate = left.pop()
        if crate in below and crate not in found:
            found.add(crate)
            left += below[crate]
    return "\n\n".join(it for it in text_of("tools/clauses").split("\n\n") if it.split("\n", 1)[0] in found)


def changed(path, *words):
    """The bytes of a file behind a command that changes it in place."""
    copy = run("mktemp").decode().strip()
    try:
        run("cp", path, copy)
        run(*words, copy)
        with open(copy, "rb") as file:
            return file.read()
    finally:
        os.remove(copy)


def logic_of(path):
    """The logic in which an object, or each object of an archive, says that it was proved, or nothing."""
    said = run("readelf", "-p", ".comment", path).decode()
    found = re.findall(r"rattle logic=([0-9a-f]+)", said)
    is_whole = len(found) == max(1, said.count("\nFile: ")) and len(set(found)) == 1
    return found[0] if is_whole else ""


def read_by(command, data):
    """What a command writes of a file with these bytes."""
    copy = run("mktemp").decode().strip()
    try:
        with open(copy, "wb") as file:
            file.write(data)
        return run(*command, copy).decode()
    finally:
        os.remove(copy)


def glibc_of(data):
    """The least version of glibc that has what an object calls of it."""
    found = re.findall(r"GLIBC_(\d+)\.(\d+)", read_by(["readelf", "-VW"], data))
    return max((int(major), int(minor)) for major, minor in found)


def calls_of(data, tool):
    """The calls that a shared object exports."""
    return sorted(line.split()[-1] for line in read_by([f"{tool}nm", "-D", "--defined-only"], data).splitlines())


def zipped(data):
    return run("gzip", "-9n", input=data)


def pages_of(prefix):
    """The pages and examples below a folder, in the places that their links lead to."""
    parts = ("README.md", "CHANGELOG.md", "CONTRIBUTING.md", "docs", "examples")
    return {f"{prefix}/{path}": Entry(data) for path, data in committed(*parts).items()}


def pc_of(prefix, folder):
    return Entry(run(os.path.join(TOP, "tools/library/run"), "pc", prefix, folder))


def completion():
    folder = "share/bash-completion/completions"
    files = {f"{folder}/busconf": Entry(data_of("share/completion/busconf.bash")), f"{folder}/busview": Entry(link="busconf")}
    files["share/zsh/site-functions/_busconf"] = Entry(data_of("share/completion/_busconf"))
    for program in PROGRAMS:
        files[f"share/fish/vendor_completions.d/{program}.fish"] = Entry(data_of(f"share/completion/{program}.fish"))
    return files


def sums_of(files, kind):
    """The checksums of files, a line each."""
    return "".join(f"{kind(entry.data).hexdigest()}  {path}\n" for path, entry in sorted(files.items()) if not entry.link)


def with_sums(files, to):
    """The files with one more, which has the checksums of all others."""
    return {**files, to: Entry(sums_of(files, hashlib.sha256).encode())}


def copyright_of(built):
    said = f"busconf {built.version}, revision {built.revision}\n\nCopyright: the owner of the repository busconf."
    return Entry(f"{said}\n\n{NO_LICENCE}\n".encode())


def tarball_of(built):
    """The files of the archive for every Linux on x86-64, by their paths in its folder."""
    doc = "share/doc/busconf"
    files = {**pages_of(doc), **completion()}
    for name in PROGRAMS:
        files[f"bin/{name}"] = Entry(built.programs[name], 0o755)
        files[f"share/man/man1/{name}.1"] = Entry(data_of(f"share/man/{name}.1"))
    files.update(library_tarball_of(built.libraries[0]))
    files[f"{doc}/PROVED"] = Entry(built.proved)
    files[f"{doc}/copyright"] = copyright_of(built)
    return with_sums(files, "SHA256SUMS")


def manual_of(library):
    """The manual pages of a library's calls, by their names."""
    pages = manual.manual(data_of("c/include/busconf.h").decode())
    other = set(pages) ^ set(library.calls)
    if other:
        raise Fault(f"a call without a manual page, or a page without its call: {' '.join(sorted(other))}")
    return {f"{call}.3": text.encode() for call, text in pages.items()}


def library_tarball_of(library):
    """The files of the library, by their paths in an archive."""
    return {
        **{f"share/man/man3/{name}": Entry(page) for name, page in manual_of(library).items()},
        "include/busconf.h": Entry(data_of("c/include/busconf.h")),
        "lib/libbusconf.a": Entry(library.archive),
        f"lib/{SONAME}": Entry(library.shared),
        "lib/libbusconf.so": Entry(link=SONAME),
        "lib/pkgconfig/busconf.pc": pc_of("${pcfiledir}/../..", "lib"),
        "lib/python/busconf.py": Entry(data_of("c/python/busconf.py")),
    }


def machine_tarball_of(built, library):
    """The files of the archive that has the library alone, for a machine that has no programs."""
    doc = "share/doc/busconf"
    files = {**pages_of(doc), **library_tarball_of(library)}
    files[f"{doc}/PROVED"] = Entry(built.proved)
    files[f"{doc}/copyright"] = copyright_of(built)
    return with_sums(files, "SHA256SUMS")


def page_tarball_of(built):
    """The files of the archive that has the page, for any system."""
    files = {f"web/{name}": entry for name, entry in built.page.items()}
    files["WEB.md"] = Entry(data_of("docs/WEB.md"))
    files["web.png"] = Entry(data_of("docs/web.png"))
    files["PROVED"] = Entry(built.proved)
    files["copyright"] = copyright_of(built)
    return with_sums(files, "SHA256SUMS")


def vectors_of(built):
    """The files of a set of vectors, by their paths in it, and the tool that tries a reader over it."""
    return {path: Entry(data_of(os.path.join(built.vectors, path))) for path in files_below(built.vectors)}


def vectors_tool():
    """The tool that makes and tries sets of vectors, where the repository has it."""
    path = os.path.join(TOP, "tools", "vectors")
    return Entry(data_of(path), 0o755) if os.path.exists(path) else None


def readers_of(prefix):
    """The two small readers that docs/VECTORS.md names, below a folder."""
    folder = "examples/readers"
    return {f"{prefix}{folder}/{path}": Entry(data_of(f"{folder}/{path}")) for path in files_below(os.path.join(TOP, folder))}


def vectors_tarball_of(built):
    files = {f"vectors/{path}": entry for path, entry in vectors_of(built).items()}
    if vectors_tool():
        files["bin/busconf-vectors"] = vectors_tool()
    if os.path.exists(os.path.join(TOP, "docs", "VECTORS.md")):
        files["VECTORS.md"] = Entry(data_of("docs/VECTORS.md"))
        files.update(readers_of(""))
    files["PROVED"] = Entry(built.proved)
    files["copyright"] = copyright_of(built)
    return with_sums(files, "SHA256SUMS")
