"""Tries packages as they are handed out: made twice, unpacked into empty roots, run, read, and compiled against."""
import glob
import os
import re
import shutil
import subprocess
import sys
import tempfile

from archives import make, sum_of
from contents import AARCH64, MULTIARCH, SONAME, TOP, X86_64, Fault, data_of, files_below, judge_page, run

# The commands that the checks call, and Debian's package that has each.
TOOLS = {
    "lintian": "lintian", "pkg-config": "pkg-config", "man": "man-db", "groff": "groff-base", "cc": "gcc",
    "dpkg": "dpkg", "dpkg-deb": "dpkg", "xz": "xz-utils", "strip": "binutils",
    "aarch64-linux-gnu-gcc": "gcc-aarch64-linux-gnu libc6-dev-arm64-cross", "qemu-aarch64": "qemu-user",
    "chromium": "chromium", "valgrind": "valgrind", "clang": "clang",
}
# Those without which the rest can be tried.
SPARED = ("lintian", "aarch64-linux-gnu-gcc", "qemu-aarch64", "chromium")
# Where Debian has glibc for AArch64 on other machines.
CROSS = "/usr/aarch64-linux-gnu/lib"
# The cases without an answer whose words are a form, with their statuses: a word that names no file, a script without a
# node, and buses that don't differ.
SILENT = {
    "busview/capture/two-names": 3, "busview/trace/no-nodes": 0, "busview/diff/same-bus": 0,
    "busview/diff/initiator-is-no-change": 0, "busview/explain/no-fault-json": 0,
}


def is_here(command):
    return shutil.which(command, path=f"{os.environ['PATH']}:/usr/sbin:/sbin") is not None


class Root:
    """An empty root: a folder with glibc's loader and libc.so.6 of this machine, and then what is unpacked into it."""
    machine = X86_64
    cc = "cc"

    def __init__(self, folder):
        self.folder = folder
        self.as_root = [] if os.geteuid() == 0 else ["unshare", "--user", "--map-root-user"]
        for path in ("usr/bin", "usr/lib64", f"usr/{self.machine.multiarch}", "tmp"):
            os.makedirs(os.path.join(folder, path), exist_ok=True)
        for name in ("bin", "lib", "lib64"):
            os.symlink(f"usr/{name}", os.path.join(folder, name))
        self.lay_libc()

    def lay_libc(self):
        libc = re.search(r"libc\.so\.6 => (\S+)", run("ldd", shutil.which("xz")).decode()).group(1)
        shutil.copy("/lib64/ld-linux-x86-64.so.2", os.path.join(self.folder, "usr/lib64"))
        shutil.copy(libc, os.path.join(self.folder, f"usr/{MULTIARCH}"))

    def knows(self, *packages):
        """Lets dpkg take packages of this machine for installed in the root."""
        state = os.path.join(self.folder, "var/lib/dpkg")
        for part in ("info", "updates", "triggers"):
            os.makedirs(os.path.join(state, part))
        known = b"\n".join(run("dpkg-query", "--status", it) for it in packages)
        known = known.replace(b"\nArchitecture: amd64\n", f"\nArchitecture: {self.machine.debian}\n".encode())
        with open(os.path.join(state, "status"), "wb") as file:
            file.write(known)

    def call(self, *words, data=b"", env=None):
        """Runs a program of the root in it, with these bytes on its standard input."""
        path = {"PATH": os.environ["PATH"] + ":/usr/sbin:/sbin", **(env or {})}
        into = [*self.as_root, "chroot", self.folder]
        return subprocess.run([*into, *words], input=data, capture_output=True, check=False, env=path)

    def dpkg(self, *words):
        """Lets this machine's dpkg work on the root."""
        how = {**os.environ, "PATH": f"{os.environ['PATH']}:/usr/sbin:/sbin", "LC_ALL": "C.UTF-8"}
        run(*self.as_root, "dpkg", f"--root={self.folder}", *words, env=how)

    def wants(self, wanted, *words, data=b"", env=None):
        """Runs a program that has to write just this and end with status 0."""
        done = self.call(*words, data=data, env=env)
        if done.returncode != 0 or done.stdout != wanted:
            raise Fault(f"{' '.join(words)}: status {done.returncode}, and it wrote {(done.stdout + done.stderr)[:300]!r}")


class ForeignRoot(Root):
    """The same with glibc for AArch64, in which qemu runs the programs."""
    machine = AARCH64
    cc = "aarch64-linux-gnu-gcc"

    def lay_libc(self):
        shutil.copy(f"{CROSS}/ld-linux-aarch64.so.1", os.path.join(self.folder, "usr/lib"))
        shutil.copy(f"{CROSS}/libc.so.6", os.path.join(self.folder, f"usr/{AARCH64.multiarch}"))

    def call(self, *words, data=b"", env=None):
        inside = [self.folder + it if it.startswith("/") else it for it in words]
        how = {**os.environ, **{name: self.folder + path for name, path in (env or {}).items()}}
        into = ["qemu-aarch64", "-L", self.folder]
        return subprocess.run([*into, *inside], input=data, capture_output=True, check=False, env=how)


def words_of(case):
    """The words of a case, which are the name of its folder where no file has them."""
    if os.path.exists(os.path.join(TOP, case + ".args")):
        return data_of(case + ".args").decode().splitlines()
    return [os.path.basename(os.path.dirname(case))]


def cases_of(folder):
    """The inputs of a folder of cases."""
    return sorted(it[: -len(".stdout")] for it in glob.glob(os.path.join(TOP, "cases", folder, "*.stdout")))


def status_of(case, answer):
    """The status of a case, which its answer tells: none where the words are no form, something refused or garbled, or
    else all is well. With `diff`, any answer says that something differs, or that a capture is refused."""
    path = os.path.relpath(case, os.path.join(TOP, "cases"))
    if not answer:
        return SILENT.get(path, 2)
    if path.startswith("busview/diff/"):
        if b": refused pair " in answer or answer.startswith(b'{"schema":1,"captures":'):
            return 2
        return 0 if answer == b'{"schema":1,"changes":[]}\n' else 1
    refused = rb'^refused |^line \d+ garbled|"refused":[{1-9]|"garbled":true'
    return 1 if re.search(refused, answer, re.M) else 0


def run_cases(root, folder):
    """Runs the packaged programs over the cases of the repository."""
    count = 0
    for case in cases_of("*/*"):
        program = os.path.relpath(case, TOP).split(os.sep)[1]
        asked = words_of(case)
        # A second file of a case lies where the program runs.
        other = os.path.join(TOP, case + ".old")
        laid = os.path.exists(other) and shutil.copy(other, root.folder)
        done = root.call(f"{folder}/{program}", *asked, data=data_of(case))
        if laid:
            os.remove(laid)
        wanted = data_of(case + ".stdout")
        if done.stdout != wanted or done.returncode != status_of(case, wanted):
            raise Fault(f"{program} on {os.path.relpath(case, TOP)}: status {done.returncode}, not what is wanted")
        count += 1
    return count


def read_pages(paths):
    """Reads manual pages, and finds no warning in them."""
    for path in paths:
        how = {**os.environ, "MANROFFSEQ": "", "MANWIDTH": "80", "LC_ALL": "C.UTF-8"}
        words = ["man", "--warnings", "-E", "UTF-8", "-l", path]
        done = subprocess.run(words, capture_output=True, check=False, env=how)
        if done.returncode != 0 or done.stderr or b"SYNOPSIS" not in done.stdout:
            raise Fault(f"man {path}: status {done.returncode}: {done.stderr.decode(errors='replace')[:500]}")


def check_sums(folder, sums):
    run("sha256sum", "--check", "--quiet", sums, cwd=folder)


def first_program():
    """The first program of docs/LIBRARY.md, and what it writes there."""
    page = data_of("docs/LIBRARY.md").decode()
    found = re.search(r"\n((?:    /\* first\.c.*\n)(?:(?:    .*)?\n)+?)\n?(?=\S)", page)
    said = re.search(r"    \$ \./first < \S*/(two-nodes\.capture)\n    (.*)\n", page)
    if not found or not said:
        raise Fault("docs/LIBRARY.md: no first program, or not what it writes")
    return re.sub(r"^    ", "", found.group(1), flags=re.M), said.group(1), said.group(2) + "\n"


def compile_examples(root, room, config, prefix, way):
    """Compiles the C examples and the first program of the page against a packaged header, as pkg-config says, with the
    shared library and with the static one, and runs them in the root."""
    flags = run("pkg-config", "--cflags", "busconf", env=config).decode().split()
    shared = run("pkg-config", "--libs", "busconf", env=config).decode().split()
    folder = next(it[2:] for it in shared if it.startswith("-L"))
    source, capture, said = first_program()
    with open(os.path.join(room, "first.c"), "w", encoding="utf-8") as file:
        file.write(source)
    capture = data_of(f"examples/{capture}")
    for name, libraries in (("shared", shared), ("static", [f"{folder}/libbusconf.a"])):
        to = os.path.join(root.folder, "tmp", f"{way}-{name}")
        os.makedirs(to)
        for path in [os.path.join(room, "first.c"), *glob.glob(os.path.join(TOP, "examples", "c", "*.c"))]:
            program = os.path.join(to, os.path.basename(path)[:-2])
            run(root.cc, "-std=c99", "-Wall", "-Wextra", "-Werror", "-pedantic", *flags, path, *libraries, "-o", program)
        shutil.copy(os.path.join(TOP, "examples", "hub.script"), to)
        at, env = f"/tmp/{way}-{name}", {"LD_LIBRARY_PATH": prefix} if prefix else {}
        root.wants(said.encode(), f"{at}/first", data=capture, env=env)
        hub = data_of("examples/hub.capture")
        root.wants(data_of("examples/c/bench.stdout"), f"{at}/bench", f"{at}/hub.script", data=hub, env=env)
        for case in cases_of("busconf/read"):
            done = root.call(f"{at}/recorder", data=data_of(case), env=env)
            if done.stdout != data_of(case + ".stdout") or done.returncode not in (0, 1):
                raise Fault(f"recorder with the {name} library, on {os.path.relpath(case, TOP)}: not what is wanted")


def read_in_python(library):
    """The example in Python reads the buses of the cases by a packaged library."""
    for case in cases_of("busconf/read"):
        wanted = data_of(case + ".stdout")
        if wanted.startswith(b"node "):
            reader = os.path.join(TOP, "examples", "python", "read.py")
            said = run(sys.executable, reader, library, "2000", input=data_of(case))
            if said != wanted:
                raise Fault(f"examples/python/read.py on {os.path.relpath(case, TOP)}: not what is wanted")


def try_module(folder, library):
    """The packaged module for Python reads an example by the packaged library."""
    program = ("import sys, busconf; bus = busconf.read_capture(sys.stdin.buffer.read()); "
               "print(busconf.__file__, len(bus.nodes), bus.root)")
    env = {**os.environ, "PYTHONPATH": folder, "PYTHONDONTWRITEBYTECODE": "1", "BUSCONF_LIBRARY": library}
    said = run(sys.executable, "-c", program, input=data_of("examples/two-nodes.capture"), env=env).decode()
    if said != f"{folder}/busconf.py 2 1\n":
        raise Fault(f"the module busconf: not what is wanted: {said}")


def small_set(folder):
    """A set of some vectors, where the repository can make one and none was given."""
    tool = os.path.join(TOP, "tools", "vectors")
    if not os.path.exists(tool):
        return None
    run(tool, folder, "40", "1")
    return folder


class Trial:
    """One run over all packages, in a folder of its own."""

    def __init__(self, room, vectors):
        self.room = room
        self.to = os.path.join(room, "dist")
        self.built, self.made = make(self.to, vectors)
        self.debs = [os.path.join(self.to, name) for name in self.made if name.endswith(".deb")]

    def twice(self):
        """A second making, with another umask, zone and language, in another folder, has the same bytes."""
        again = os.path.join(self.room, "again")
        was = os.umask(0o077), dict(os.environ)
        os.environ.update(TZ="Asia/Tokyo", LC_ALL="C", TMPDIR=self.room)
        try:
            _, made = make(again, self.built.vectors, backwards=True)
        finally:
            os.umask(was[0])
            os.environ.clear()
            os.environ.update(was[1])
        differing = differing_files(again, self.to, {*made, *self.made})
        if differing:
            raise Fault(f"made twice, these aren't the same bytes: {' '.join(differing)}")
        check_sums(self.to, "SHA256SUMS")
        return f"{len(made)} files are the same bytes when they are made twice, and have the checksums of SHA256SUMS"

    def tarball(self):
        """The archive for every Linux, unpacked into an empty root."""
        root = Root(tempfile.mkdtemp(dir=self.room))
        name = next(it for it in self.made if it.endswith("-x86_64-linux.tar.xz"))[: -len(".tar.xz")]
        run("tar", "-xf", os.path.join(self.to, f"{name}.tar.xz"), "-C", os.path.join(root.folder, "tmp"))
        folder = os.path.join(root.folder, "tmp", name)
        check_sums(folder, "SHA256SUMS")
        count = run_cases(root, f"/tmp/{name}/bin")
        read_pages(glob.glob(f"{folder}/share/man/man[13]/*"))
        config = {**os.environ, "PKG_CONFIG_PATH": f"{folder}/lib/pkgconfig"}
        compile_examples(root, self.room, config, f"/tmp/{name}/lib", "archive")
        try_module(f"{folder}/lib/python", f"{folder}/lib/{SONAME}")
        read_in_python(f"{folder}/lib/{SONAME}")
        return f"the archive: {count} cases in an empty root, its pages, the examples in C and Python, and the module"

    def packages(self):
        """The Debian packages, installed by dpkg into an empty root that has nothing but this machine's libc6, and of
        python3 the name."""
        root = Root(tempfile.mkdtemp(dir=self.room))
        root.knows("libc6", "python3")
        debs = [it for it in self.debs if not it.endswith(f"_{AARCH64.debian}.deb")]
        root.dpkg("--install", *debs)
        for sums in glob.glob(f"{root.folder}/usr/share/doc/*/SHA256SUMS"):
            check_sums(root.folder, sums)
        count = run_cases(root, "/usr/bin")
        read_pages(glob.glob(f"{root.folder}/usr/share/man/man[13]/*.gz"))
        compile_examples(root, self.room, config_of(root), "", "packages")
        read_in_python(f"{root.folder}/usr/{MULTIARCH}/{SONAME}")
        try_module(f"{root.folder}/usr/lib/python3/dist-packages", f"{root.folder}/usr/{MULTIARCH}/{SONAME}")
        names = [os.path.basename(it).split("_")[0] for it in debs]
        purge(root, names)
        said = f"{count} cases, their pages, the examples in C and Python, and the module"
        return f"{' '.join(names)}: installed by dpkg into an empty root, {said}"

    def foreign(self, has_to):
        """The archive and the packages for AArch64, each in an empty root that has glibc for AArch64."""
        if AARCH64 not in [it.machine for it in self.built.libraries]:
            if has_to:
                raise Fault("no library for AArch64 is built")
            return "no library for AArch64 is built, so none is packed"
        root = ForeignRoot(tempfile.mkdtemp(dir=self.room))
        name = next(it for it in self.made if it.endswith("-aarch64-linux.tar.xz"))[: -len(".tar.xz")]
        run("tar", "-xf", os.path.join(self.to, f"{name}.tar.xz"), "-C", os.path.join(root.folder, "tmp"))
        folder = os.path.join(root.folder, "tmp", name)
        check_sums(folder, "SHA256SUMS")
        config = {**os.environ, "PKG_CONFIG_PATH": f"{folder}/lib/pkgconfig"}
        compile_examples(root, self.room, config, f"/tmp/{name}/lib", "archive")

        root = ForeignRoot(tempfile.mkdtemp(dir=self.room))
        root.knows("libc6")
        debs = [it for it in self.debs if it.endswith(f"_{AARCH64.debian}.deb")]
        root.dpkg("--add-architecture", AARCH64.debian)
        root.dpkg("--install", *debs)
        for sums in glob.glob(f"{root.folder}/usr/share/doc/*/SHA256SUMS"):
            check_sums(root.folder, sums)
        compile_examples(root, self.room, config_of(root), "", "packages")
        names = [os.path.basename(it).split("_")[0] for it in debs]
        purge(root, [f"{it}:{AARCH64.debian}" for it in names])
        return f"the archive and the packages {' '.join(names)} for AArch64: the examples in C, run by qemu in empty roots"

    def page(self, has_to):
        """The page is whole in its archive and in its package."""
        if not self.built.page:
            if has_to:
                raise Fault("the page isn't made")
            return "the page isn't made, so it isn't packed"
        folder = tempfile.mkdtemp(dir=self.room)
        run("dpkg-deb", "-x", next(it for it in self.debs if "busconf-web_" in it), folder)
        name = f"busconf-web-{self.built.version}"
        run("tar", "-xf", os.path.join(self.to, f"{name}.tar.xz"), "-C", folder)
        check_sums(os.path.join(folder, name), "SHA256SUMS")
        wanted = {path: entry.data for path, entry in self.built.page.items()}
        for place in (os.path.join(folder, "usr/share/busconf/web"), os.path.join(folder, name, "web")):
            if {path: data_of(os.path.join(place, path)) for path in files_below(place)} != wanted:
                raise Fault("a package doesn't hold the files of the page")
        self.page_is_ours()
        return f"busconf-web has the {len(self.built.page)} files of the page, and nothing else can get into it"

    def page_is_ours(self):
        """A page with another module, another file or another script is refused."""
        files = {name: entry.data for name, entry in self.built.page.items()}
        module = files["busconf-wasm.js"]
        for wrong in ({"busconf-wasm.js": module.replace(b"AGFzbQ", b"AGFzbR", 1)}, {"extra.js": b"1;\n"},
                      {"busconf-wasm.js": module + b"1;\n"}, {"page.js": files["page.js"] + b"1;\n"}):
            try:
                judge_page({**files, **wrong}, self.built.kit)
            except Fault:
                continue
            raise Fault(f"a page with a changed {next(iter(wrong))} would be packed")

    def vectors(self):
        """The set of vectors is whole in its package."""
        if not self.built.vectors:
            return "no set of vectors was given, so none is packed"
        folder = tempfile.mkdtemp(dir=self.room)
        run("dpkg-deb", "-x", next(it for it in self.debs if "busconf-vectors" in it), folder)
        wanted = list(files_below(self.built.vectors))
        found = os.path.join(folder, "usr/share/busconf/vectors")
        if list(files_below(found)) != wanted or differing_files(found, self.built.vectors, wanted):
            raise Fault("busconf-vectors doesn't hold the files of the set")
        return f"busconf-vectors has the {len(wanted)} files of the set"

    def lintian(self, has_to):
        """lintian has no error."""
        if not is_here("lintian"):
            if has_to:
                raise Fault("no lintian here; tools/package/run prepare installs it")
            return "no lintian here, so the packages aren't held to Debian's rules (apt-get install lintian)"
        words = ["lintian", "--fail-on", "error", "--allow-root", *self.debs]
        done = subprocess.run(words, stdout=subprocess.PIPE, stderr=subprocess.STDOUT, check=False)
        said = done.stdout.decode(errors="replace")
        if done.returncode != 0:
            raise Fault(f"lintian: {said}")
        return f"lintian: no error and {len(re.findall('^W:', said, re.M))} warnings\n{said.rstrip()}".rstrip()


def config_of(root):
    """What pkg-config is told of the packages that are installed in a root."""
    return {**os.environ, "PKG_CONFIG_LIBDIR": f"{root.folder}/usr/{root.machine.multiarch}/pkgconfig",
            "PKG_CONFIG_SYSROOT_DIR": root.folder, "PKG_CONFIG_ALLOW_SYSTEM_CFLAGS": "1",
            "PKG_CONFIG_ALLOW_SYSTEM_LIBS": "1"}


def purge(root, packages):
    """Removes packages from a root, and finds nothing of them left."""
    root.dpkg("--purge", *packages)
    left = [it for it in files_below(os.path.join(root.folder, "usr")) if "busconf" in it or "busview" in it]
    if left:
        raise Fault(f"dpkg --purge left {left[0]}")


def differing_files(one, other, names):
    """The names of the files that two folders don't both have with the same bytes."""
    def is_same(name):
        places = [os.path.join(folder, name) for folder in (one, other)]
        return all(map(os.path.isfile, places)) and sum_of(places[0]) == sum_of(places[1])
    return sorted(name for name in names if not is_same(name))


def test(vectors, has_to):
    """Tries everything, says of each part what was seen, and answers whether all is well."""
    wanted = [it for it in TOOLS if it not in SPARED and not is_here(it)]
    if wanted:
        raise Fault(f"not on the PATH: {' '.join(wanted)}; tools/package/run prepare installs what it needs on Debian")
    well = True
    with tempfile.TemporaryDirectory(prefix="busconf-package-") as room:
        os.chmod(room, 0o755)
        trial = Trial(room, vectors or small_set(os.path.join(room, "vectors")))
        for check in (trial.twice, trial.tarball, trial.packages, lambda: trial.foreign(has_to), lambda: trial.page(has_to),
                      trial.vectors, lambda: trial.lintian(has_to)):
            try:
                print(f"package: {check()}", flush=True)
            except Fault as fault:
                print(f"package: FAILED: {fault}", flush=True)
                well = False
    return well
