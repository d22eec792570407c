# shellcheck shell=bash disable=SC2034,SC2154
# Sourced by the tests of the commands at the top, which set top: a folder $work with a copy of the commands and the tools in
# $work/top, and with a stand-in for rt in $work/bin, which is first on the PATH.
work=$(mktemp -d)
trap 'rm -rf "$work"' EXIT
mkdir -p "$work/top/crates/busconf/src" "$work/top/crates/busview/src" "$work/bin" "$work/elsewhere"
cp "$top"/{busconf,busview,build,check,install,package,crates.txt} "$work/top"
cp -r "$top/tools" "$work/top"
export PATH="$work/bin:$PATH"
failed=0

# Runs a command, whose output is then in $work/out and $work/err, and its status in $status.
try() {
  status=0
  "$@" >"$work/out" 2>"$work/err" || status=$?
}

# comes COMMAND..: waits until a command succeeds, a minute at most.
comes() {
  local turn
  for turn in {1..1200}; do
    ! "$@" || return 0
    sleep 0.05
  done
  return 1
}

# fails NAME WHAT: says that a trial of this name failed, and why.
fails() {
  echo "FAILED: $1: $2"
  failed=1
}

# expect NAME STATUS PATTERN [OUTPUT]: the status of the last run, what standard error has, and what standard output is.
expect() {
  if [ "$status" != "$2" ] || ! { [ -z "$3" ] || grep -q -- "$3" "$work/err"; }; then
    fails "$1" "status $status, wanted $2, with '$3' on standard error:"
    cat "$work/err"
  elif [ $# -gt 3 ] && [ "$(cat "$work/out")" != "$4" ]; then
    fails "$1" "its output, where '$4' is wanted:"
    cat "$work/out"
  else
    echo "passed: $1"
  fi
}
