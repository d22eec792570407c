#!/usr/bin/env bash
# What a stranger does on a Debian that has no kit, within that system: installs the packages of a folder, runs the
# programs, and goes through docs/LIBRARY.md to its first program and the examples, and through
# docs/VECTORS.md to its reader in C. It says how long each step takes.
set -euo pipefail
export DEBIAN_FRONTEND=noninteractive
cd "$1"
doc=/usr/share/doc
begun=$SECONDS

# Runs a step, says how long it took, and shows what it wrote where it fails.
step() {
  local from=$SECONDS log
  log=$(mktemp)
  ("${@:2}") >"$log" 2>&1 </dev/null || { cat "$log" >&2; echo "FAILED: $1" >&2; exit 1; }
  echo "$((SECONDS - from)) s: $1"
  rm -f "$log"
}

runs() {
  busconf read <$doc/busconf/examples/two-nodes.capture | grep -x 'nodes 2 root 1 irm 1'
  busview tree <$doc/busconf/examples/two-nodes.capture
  busconf run <$doc/busconf/examples/two-nodes.script | grep -x 'tree root b'
  test -s $doc/busconf/docs/PACKAGE.md
}

first() {
  cd "$(mktemp -d)"
  sed -n '/^    \/\* first\.c/,/^    }/p' $doc/libbusconf-dev/LIBRARY.md | sed 's/^    //' >first.c
  cc first.c $(pkg-config --cflags --libs busconf) -o first
  ./first <$doc/busconf/examples/two-nodes.capture | grep -x 'nodes 2, root 1'
}

examples() {
  local at=$doc/libbusconf-dev/examples
  cd "$(mktemp -d)"
  cc $at/c/recorder.c $(pkg-config --cflags --libs busconf) -o recorder
  cc $at/c/bench.c $(pkg-config --cflags --libs busconf) -o bench
  busconf read <$at/hub.capture >wanted
  ./recorder <$at/hub.capture | diff wanted -
  ./bench $at/hub.script <$at/hub.capture | diff $at/c/bench.stdout -
}

module() {
  cd "$(mktemp -d)"
  sed -n 's/^    >>> //p' $doc/libbusconf-dev/LIBRARY.md >first.py
  cp $doc/busconf/examples/two-nodes.capture .
  python3 -i <first.py 2>/dev/null | grep -x '(1, \[0, 1\])'
}

vectors() {
  cd "$(mktemp -d)"
  cc $doc/busconf-vectors/examples/readers/is_bus.c -o reader
  busconf-vectors --try ./reader /usr/share/busconf/vectors
}

step "the checksums" sha256sum --check SHA256SUMS
step "apt install ./busconf_*.deb" apt-get install -y ./busconf_*.deb
step "the programs, as README.md and docs/PACKAGE.md say" runs
step "apt update" apt-get update
step "apt install gcc libc6-dev pkg-config" apt-get install -y gcc libc6-dev pkg-config
step "apt install the library" apt-get install -y ./libbusconf0_*.deb ./libbusconf-dev_*.deb
step "the first program of docs/LIBRARY.md" first
step "the examples in C" examples
step "apt install ./python3-busconf_*.deb" apt-get install -y ./python3-busconf_*.deb
step "the module for Python" module
if compgen -G "busconf-vectors_*.deb" >/dev/null; then
  step "apt install ./busconf-vectors_*.deb" apt-get install -y ./busconf-vectors_*.deb
  step "the reader in C over the vectors" vectors
fi
echo "$((SECONDS - begun)) s in all"
