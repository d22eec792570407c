"""Writes packages so that the same build gives the same bytes: sorted entries, one time, owner 0, one thread."""
import hashlib
import io
import os
import re
import subprocess
import tarfile
import tempfile

import answers
from contents import (Built, Fault, machine_tarball_of, page_tarball_of, run, tarball_of,
                      vectors_tarball_of)
from debian import packages_of


def folders_of(paths):
    """All folders above these paths."""
    found = set()
    for path in paths:
        while os.path.dirname(path):
            path = os.path.dirname(path)
            found.add(path)
    return found


def write_tar(files, folder, epoch, to):
    """A tar archive of the files below one folder, packed by xz."""
    made = io.BytesIO()
    with tarfile.open(fileobj=made, mode="w", format=tarfile.USTAR_FORMAT) as tar:
        for path in ["", *sorted([*files, *folders_of(files)])]:
            info = tarfile.TarInfo(f"{folder}/{path}" if path else folder)
            info.mtime = epoch
            entry = files.get(path)
            if entry is None:
                info.type, info.mode = tarfile.DIRTYPE, 0o755
            elif entry.link:
                info.type, info.mode, info.linkname = tarfile.SYMTYPE, 0o777, entry.link
            else:
                info.size, info.mode = len(entry.data), entry.mode
            tar.addfile(info, io.BytesIO(entry.data) if entry and not entry.link else None)
    with open(to, "wb") as file:
        file.write(run("xz", "-T1", "-9", input=made.getvalue()))


def write_deb(package, built, to, backwards=False):
    """A Debian package, by dpkg-deb. The order in which its files are laid down doesn't show in it."""
    with tempfile.TemporaryDirectory(prefix="busconf-deb-") as room:
        files = {**{path: (entry.data, entry.mode, entry.link) for path, entry in package.files.items()},
                 **{f"DEBIAN/{name}": (data, 0o644, "") for name, data in package.control_files(built).items()}}
        for path, (data, mode, link) in sorted(files.items(), reverse=backwards):
            place = os.path.join(room, path)
            os.makedirs(os.path.dirname(place), exist_ok=True)
            if link:
                os.symlink(link, place)
            else:
                with open(place, "wb") as file:
                    file.write(data)
                os.chmod(place, mode)
        for path in [*files, *folders_of(files), "."]:
            place = os.path.join(room, path)
            if os.path.isdir(place):
                os.chmod(place, 0o755)
            os.utime(place, (built.epoch, built.epoch), follow_symlinks=False)
        how = {**os.environ, "SOURCE_DATE_EPOCH": str(built.epoch), "DPKG_DEB_THREADS_MAX": "1"}
        run("dpkg-deb", "--root-owner-group", "-Zxz", "-z6", "--build", room, to, env=how)


def tarballs_of(built):
    """The archives: the name of each and its files."""
    yield f"busconf-{built.version}-x86_64-linux", tarball_of(built)
    for library in built.libraries[1:]:
        yield f"libbusconf-{built.version}-{library.machine.name}-linux", machine_tarball_of(built, library)
    if built.page:
        yield f"busconf-web-{built.version}", page_tarball_of(built)
    if built.vectors:
        yield f"busconf-vectors-{built.version}", vectors_tarball_of(built)


# The names of the files that make leaves.
OURS = re.compile(r"((lib)?busconf(-web|-vectors)?-[\d.]+(-\w+-linux)?\.tar\.xz"
                  r"|(busconf|busconf-web|busconf-vectors|python3-busconf|libbusconf0|libbusconf-dev)_[\w.-]+\.deb"
                  r"|SHA256SUMS|PROVED)")


def make(to, vectors=None, backwards=False):
    """Makes all packages in a folder, with their checksums, and answers what they were made of. Earlier packages of ours
    that are there are removed, and nothing else. Each file comes into the folder whole."""
    built = Built(vectors)
    answers.check(built)
    os.makedirs(to, exist_ok=True)
    with tempfile.TemporaryDirectory(prefix=".making-", dir=to) as room:
        made = make_all(built, room, backwards)
        for name in filter(OURS.fullmatch, os.listdir(to)):
            os.remove(os.path.join(to, name))
        for name in made:
            os.rename(os.path.join(room, name), os.path.join(to, name))
    return built, sorted(made)


def make_all(built, to, backwards):
    """Makes all packages in an empty folder, and answers their names, SHA256SUMS last."""
    made = []
    for name, files in tarballs_of(built):
        made.append(f"{name}.tar.xz")
        write_tar(files, name, built.epoch, os.path.join(to, made[-1]))
    for package in packages_of(built):
        made.append(package.file_name(built))
        write_deb(package, built, os.path.join(to, made[-1]), backwards)
    made.append("PROVED")
    with open(os.path.join(to, "PROVED"), "wb") as file:
        file.write(built.proved)
    sums = "".join(f"{sum_of(os.path.join(to, name))}  {name}\n" for name in sorted(made))
    with open(os.path.join(to, "SHA256SUMS"), "w", encoding="utf-8") as file:
        file.write(sums)
    return [*made, "SHA256SUMS"]


def sum_of(path):
    with open(path, "rb") as file:
        return hashlib.sha256(file.read()).hexdigest()


def lacks(commands):
    """Says which of the commands that packing needs aren't here."""
    for command in commands:
        if subprocess.run(["sh", "-c", f"command -v {command}"], capture_output=True, check=False).returncode != 0:
            raise Fault(f"the command {command} isn't on the PATH")
