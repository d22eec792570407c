# shellcheck shell=bash disable=SC2154
# Sourced by what builds, runs, installs or packs, which set top: whether something was built of the sources as they are now.
# What is built, a file or a folder of files, has a mark beside it, PLACE.sources: the checksum of the sources, the kit, and
# the checksums of all its files. Only is_built reads a mark, and what it can't find out isn't built.
unset CDPATH

# The files that programs, libraries and the page are made of, and what makes them, each ended by a null byte; with words
# behind it those of which find takes these words. There is nothing beside files and folders among them.
source_files() (
  set -o pipefail
  cd "$top" || exit 1
  local from=(crates.txt HANDLES c web build tools/library/run tools/web/run tools/lib/sources.sh tools/lib/static.sh crates)
  local unread='crates/[^/]*/\(out\|must-fail\)' other
  other=$(find "${from[@]}" -regex "$unread" -prune -o ! -type f ! -type d -print -quit) || exit 1
  [ -z "$other" ] || { echo "$other is neither a file nor a folder, so it can't be told what is built of it" >&2; exit 1; }
  find "${from[@]}" -regex "$unread" -prune -o -type f "$@" -print0 | LC_ALL=C sort -z
)

# A checksum of these files, with words behind it of those of which find takes these words.
sources_sum() (
  set -o pipefail
  cd "$top" && source_files "$@" | xargs -0 -r sha256sum | sha256sum | cut -d' ' -f1
)

# The kit whose rt is on the PATH. It is what `rt version` says, and where the kit has it in a file, that takes less time.
kit_now() (
  rt=$(command -v rt) && rt=$(readlink -f "$rt") || exit 1
  id=$(dirname "$rt")/../KIT-ID
  if [ -f "$id" ]; then cat "$id"; else rt version; fi
)

# The checksums of a file, or of all files below a folder.
files_sum() (
  set -o pipefail
  cd "$(dirname "$1")" && find "$(basename "$1")" -type f -print0 | LC_ALL=C sort -z | xargs -0 -r sha256sum
)

# Whether a file or a folder is what was built of these sources, by the kit whose rt is on the PATH, if one is.
is_built() {
  local said=() sum kit files
  { mapfile -t said <"$1.sources"; } 2>/dev/null || return 1
  sum=$(sources_sum) && [ ${#sum} = 64 ] && [ "${said[0]-}" = "sources $sum" ] || return 1
  if command -v rt >/dev/null; then
    kit=$(kit_now) && [ "${said[1]-}" = "kit $kit" ] || return 1
  fi
  files=$(files_sum "$1") && [ -n "$files" ] && [ "$(printf '%s\n' "${said[@]:2}")" = "$files" ]
}

# Begins to build these places: takes their marks away, and keeps what end_build asks for. It fails where that can't be known.
begin_build() {
  local place
  for place; do rm -f "$place.sources" || return 1; done
  begun_at=$(date +%s.%N) && begun_sum=$(sources_sum) && [ ${#begun_sum} = 64 ] && begun_kit=$(kit_now)
}

# Marks a place that is built now, unless a source has changed since, and be it that it was changed back.
end_build() {
  local sum changed files
  sum=$(sources_sum) && changed=$(source_files -newermt "@$begun_at" | tr '\0' ' ') || return 1
  if [ "$sum" != "$begun_sum" ] || [ -n "$changed" ]; then
    echo "the sources changed while they were proved, so $1 counts as not built: ${changed:-some are gone}" >&2
    return 1
  fi
  files=$(files_sum "$1") && [ -n "$files" ] || return 1
  printf '%s\n' "sources $sum" "kit $begun_kit" "$files" >"$1.sources.new" && mv -f "$1.sources.new" "$1.sources"
}
