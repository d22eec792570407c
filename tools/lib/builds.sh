# shellcheck shell=bash
# Sourced by what builds programs without proving them: how many builds there are processors and memory for, 1.8 GB each.
builds_at_once() {
  local most memory
  most=$(nproc) && memory=$(sed -n 's/^MemAvailable: *\([0-9]*\) kB$/\1/p' /proc/meminfo) || return 1
  memory=$((memory / 1800000))
  [ "$most" -le "$memory" ] || most=$memory
  [ "$most" -gt 0 ] || most=1
  echo "$most"
}
