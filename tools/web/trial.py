#!/usr/bin/env python3
"""trial.py test FOLDER: opens the page of a folder in chromium, without a window, and compares what it shows of the
repository's cases with their answers. trial.py picture FILE FOLDER: takes a picture of it."""
import functools
import glob
import http.server
import json
import os
import re
import shutil
import subprocess
import sys
import tempfile
import threading

TOP = os.path.dirname(os.path.dirname(os.path.dirname(os.path.realpath(__file__))))
SECONDS = 120
# What a picture shows: the page's first example.
SIZE = (1000, 1180)


def chromium(*words):
    """What chromium writes, with a profile of its own."""
    with tempfile.TemporaryDirectory(prefix="busconf-chromium-") as profile:
        how = ["chromium", "--headless", "--no-sandbox", "--disable-gpu", "--disable-dev-shm-usage", "--no-first-run",
               "--hide-scrollbars", f"--user-data-dir={profile}"]
        done = subprocess.run([*how, *words], capture_output=True, text=True, check=False, timeout=SECONDS)
    if done.returncode != 0:
        sys.exit(f"web: chromium: status {done.returncode}: {done.stderr[-1500:]}")
    return done.stdout


def data_of(path):
    with open(path, "rb") as file:
        return file.read()


def cases_of(folder):
    """The inputs of a folder of cases, in hexadecimal digits, with the answers and the words."""
    for answer in sorted(glob.glob(os.path.join(TOP, "cases", folder, "*.stdout"))):
        path = answer[: -len(".stdout")]
        words = data_of(path + ".args").decode().split() if os.path.exists(path + ".args") else []
        if "--names" in words:
            continue
        year = 1995 if folder.endswith("95") or "--1995" in words else 2000
        name, wanted = os.path.relpath(path, TOP), data_of(answer).decode()
        yield {"name": name, "hex": data_of(path).hex(), "year": year, "wanted": wanted}


def imports():
    """What `import` reads, in hexadecimal digits, with the captures that it writes."""
    for answer in sorted(glob.glob(os.path.join(TOP, "cases", "busview", "import", "*.stdout"))):
        path, wanted = answer[: -len(".stdout")], data_of(answer)
        if not os.path.exists(path + ".args") and not wanted.startswith(b"refused "):
            yield {"name": os.path.relpath(path, TOP), "hex": data_of(path).hex(), "wanted": wanted.hex()}


def texts():
    """The traces and logs that the page reads, whose answers stand in trial.js."""
    paths = [f"examples/traces/{name}.txt" for name in ("bus_reset_handle", "self_id_sequence")]
    names = ("drivers-own-log", "straight-from-the-controller", "lists-as-other-tools-print-them")
    paths += [f"cases/busview/resets/{name}" for name in names]
    return {path: data_of(os.path.join(TOP, path)).decode() for path in paths}


def lay_trial(folder):
    """Lays a copy of the page beside it that runs trial.js over the cases."""
    read = [*cases_of("busconf/read"), *cases_of("busconf/read95")]
    made = {"READ": read, "PACKETS": list(cases_of("busview/packets")), "TREES": list(cases_of("busview/tree"))}
    made |= {"IMPORTS": list(imports()), "TEXTS": texts()}
    with open(os.path.join(folder, "trial-cases.js"), "w", encoding="utf-8") as file:
        file.writelines(f"const {name} = {json.dumps(value)};\n" for name, value in made.items())
    shutil.copy(os.path.join(TOP, "tools", "web", "trial.js"), folder)
    page = data_of(os.path.join(folder, "index.html")).decode()
    more = '<script src="trial-cases.js"></script>\n<script src="trial.js"></script>\n</body>'
    with open(os.path.join(folder, "trial.html"), "w", encoding="utf-8") as file:
        file.write(page.replace("</body>", more))


def test(folder):
    lay_trial(folder)
    shown = chromium("--virtual-time-budget=60000", "--dump-dom", f"file://{folder}/trial.html")
    found = re.search(r'<pre id="trial">(.*?)</pre>', shown, re.S)
    said = found.group(1).strip() if found else "the page didn't come to the end of its trial"
    print("\n".join(f"web: {line}" for line in said.split("\n")))
    if not said.startswith("passed"):
        return 1
    served(folder)
    without_its_module(folder)
    picture(os.path.join(folder, "picture.png"), folder)
    return 0


class Quiet(http.server.SimpleHTTPRequestHandler):
    """A web server that writes nothing."""

    def log_message(self, *_):
        pass


def served(folder):
    """A web server shows the page, too, and its first example."""
    server = http.server.ThreadingHTTPServer(("127.0.0.1", 0), functools.partial(Quiet, directory=folder))
    threading.Thread(target=server.serve_forever, daemon=True).start()
    shown = chromium("--dump-dom", f"http://127.0.0.1:{server.server_address[1]}/")
    server.shutdown()
    if '<p>nodes 5 root 4 irm none</p>' not in shown:
        sys.exit("web: a web server doesn't show the page as it is")
    print("web: a web server shows the page")


def without_its_module(folder):
    """Beside no module, or one of another version, the page says so."""
    other = os.path.join(folder, "other")
    shutil.copytree(folder, other)
    page = os.path.join(other, "page.js")
    script = data_of(page).decode()
    with open(page, "w", encoding="utf-8") as file:
        file.write(re.sub(r'VERSION = ".*?"', 'VERSION = "0.0.1"', script))
    shown = chromium("--dump-dom", f"file://{other}/index.html")
    if "and the page of 0.0.1: take both from one package." not in shown:
        sys.exit("web: the page doesn't say that its module is of another version")
    os.remove(os.path.join(other, "busconf-wasm.js"))
    if "<p>The module busconf-wasm.js isn't beside this page" not in chromium("--dump-dom", f"file://{other}/index.html"):
        sys.exit("web: the page doesn't say that its module isn't there")
    shutil.rmtree(other)
    print("web: the page says where its module isn't there, or is of another version")


def picture(to, folder):
    """Takes a picture of the page, which has to be one of the whole size."""
    chromium(f"--screenshot={to}", f"--window-size={SIZE[0]},{SIZE[1]}", f"file://{folder}/index.html")
    data = data_of(to)
    if data[:8] != b"\x89PNG\r\n\x1a\n" or data[16:24] != b"".join(side.to_bytes(4, "big") for side in SIZE):
        sys.exit("web: chromium took no picture of the page")
    print(f"web: a picture of {SIZE[0]} by {SIZE[1]} points")


if __name__ == "__main__":
    if sys.argv[1] == "test":
        sys.exit(test(os.path.realpath(sys.argv[2])))
    picture(os.path.realpath(sys.argv[2]), os.path.realpath(sys.argv[3]))
