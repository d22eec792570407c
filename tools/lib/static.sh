# shellcheck shell=bash disable=SC2154
# Sourced by tools that set top: makes the static library of a crate of calls for C, for a machine. Each is
# proved anew by the kit's compiler, over the libraries below it that are proved; what the proof for one machine has checked
# isn't checked again for the next.
. "$top/tools/lib/sources.sh"

# All that is made on the way is in one folder, which is removed at the end, whatever the end.
scratch=$(mktemp -d)
trap 'rm -rf "$scratch"' EXIT

# The kit's name of each machine.
target_of() {
  case $1 in
    x86_64 | aarch64) echo "$1-unknown-linux-gnu" ;;
    wasm64) echo wasm64-unknown-unknown ;;
    *) echo "no library is made for the machine $1" >&2; return 2 ;;
  esac
}

# Finds the kit that makes the libraries.
find_kit() {
  command -v rt >/dev/null || { echo "the Rattle kit's command rt isn't on the PATH" >&2; exit 127; }
  kit=$(cd "$(dirname "$(readlink -f "$(command -v rt)")")/.." && pwd)
}

# The libraries that a crate stands on, from crates.txt.
below() { sed -n "s/^$1\( staticlib\)\?: *//p" "$top/crates.txt"; }

# Whether the libraries that a crate stands on are those that the gate left of these sources. The gate names them in a
# file. What rt made by itself later has a stamp.
are_of_gate() {
  local name
  is_built "$top/crates/busconf_c/out/gate" || return 1
  for name in $(below "$1"); do
    [ ! -d "$top/crates/$name" ] && continue
    grep -qx "crates/$name/out/rlib/$name.rlib" "$top/crates/busconf_c/out/gate" || return 1
    [ -d "$top/crates/$name/out/rlib/$name.rlib" ] && [ ! -f "$top/crates/$name/out/rlib/stamp" ] || return 1
  done
}

# Where the archive of a crate for a machine stands, as rt lib names it for x86-64.
archive_of() {
  if [ "$2" = x86_64 ]; then echo "$top/crates/$1/out/lib$1.a"; else echo "$top/crates/$1/out/lib$1-$2.a"; fi
}

# Makes a crate's archive for a machine, unless it is there from the same sources and kit.
archive() {
  local to
  to=$(archive_of "$1" "$2")
  if ! is_built "$to"; then
    begin_build "$to"
    prove "$1" "$2" "$to"
    end_build "$to"
  fi
}

# Proves a crate and makes its archive for a machine: by rt, which first proves what the crate stands on, or over the
# libraries that the gate has left.
prove() {
  local checked=out/incremental words
  cd "$top/crates/$1"
  if are_of_gate "$1"; then
    checked=$(checked_anew)
  elif [ "$2" = x86_64 ]; then
    quietly rt lib ${JOBS:+--jobs "$JOBS"}
    return
  else
    (archive "$1" x86_64)
  fi
  mapfile -t words < <(libraries "$1")
  quietly "$kit/bin/rattle" build --crate-name "$1" src/lib.rt "${words[@]}" \
    --antt-project "$kit/rattle/logic/antt-project.json" --logic-built "$kit/logic_built" --toolchain "$kit/toolchain" \
    --incremental "$checked" --crate-type staticlib --target "$(target_of "$2")" -o "$3"
}

# Runs a command, and shows what it wrote where it fails.
quietly() {
  local log
  log=$(mktemp -p "$scratch")
  "$@" >"$log" 2>&1 || { cat "$log" >&2; rm -f "$log"; exit 1; }
  rm -f "$log"
}

# The folder, in a crate's, of what was checked there since the sources and the kit are these.
checked_anew() {
  local of
  of=$(sources_sum) && of="$of $(kit_now)" || return 1
  if [ "$(cat out/machines.sources 2>/dev/null)" != "$of" ]; then
    rm -rf out/machines
    mkdir -p out/machines
    printf '%s\n' "$of" >out/machines.sources
  fi
  echo out/machines
}

# The words that name the libraries below a crate to the compiler, a line each.
libraries() {
  local name
  for name in std $(below "$1"); do
    if [ -d "$top/crates/$name" ]; then
      printf '%s\n' --extern "$name=$top/crates/$name/out/rlib/$name.rlib"
    else
      printf '%s\n' --extern "$name=$kit/rlibs/$name.rlib"
    fi
  done
  for name in "$top"/crates/*/out/rlib "$kit/rlibs"; do printf '%s\n' -L "dependency=$name"; done
}
