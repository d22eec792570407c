"""Answers a set of vectors anew by the programs that are packed with it: no answer goes out that they don't give."""
import csv
import glob
import os
import subprocess
import tempfile

from contents import Fault


def data_of(path):
    with open(path, "rb") as file:
        return file.read()


def inputs_of(folder):
    """The inputs of a set, and the words by which each is answered."""
    with open(os.path.join(folder, "index.tsv"), encoding="utf-8", newline="") as file:
        rows = list(csv.DictReader(file, delimiter="\t"))
    for row in rows:
        form = {"2000": "read", "1995": "read95"}[row["standard"]]
        yield os.path.join(folder, "captures", row["name"] + ".capture"), form
    for part, end, form in (("roms", "rom", "rom"), ("scripts", "script", "run")):
        for path in sorted(glob.glob(os.path.join(folder, part, f"*.{end}"))):
            yield path, form


def check(built):
    """Raises a fault where a set isn't one, or where an answer isn't what the packed program gives."""
    folder = built.vectors
    if not folder:
        return
    try:
        inputs = list(inputs_of(folder))
    except (OSError, KeyError) as error:
        raise Fault(f"{folder} is no set of vectors: {error}") from error
    with tempfile.NamedTemporaryFile(prefix="busconf-", delete=False) as file:
        file.write(built.programs["busconf"])
    try:
        os.chmod(file.name, 0o755)
        for path, form in inputs:
            wanted = data_of(os.path.splitext(path)[0] + ".answer")
            done = subprocess.run([file.name, form], input=data_of(path), capture_output=True, check=False)
            if done.returncode not in (0, 1) or done.stdout != wanted:
                raise Fault(f"{path}: its answer isn't what the packed busconf gives; make the set anew by tools/vectors")
    except FileNotFoundError as error:
        raise Fault(f"{folder} is no set of vectors: {error}") from error
    finally:
        os.remove(file.name)
