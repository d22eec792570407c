# shellcheck shell=bash
# Sourced by the commands at the top. `answers_help "$@"` writes the comment with which a command begins, and ends it, if its
# first word asks for that. `takes_words MOST "$@"` refuses an option, and more words than so many.
answers_help() {
  case "${1-}" in
  -h | --help)
    sed -n '2,/^[^#]/s/^#\( \|$\)//p' "$0"
    exit 0
    ;;
  esac
}

takes_words() {
  local most=$1 name=${0##*/}
  shift
  case "${1-}" in
  -*) echo "$name: there is no option $1; ./$name --help says what there is" >&2; exit 2 ;;
  esac
  [ $# -le "$most" ] || { echo "$name: too many words; ./$name --help says which there are" >&2; exit 2; }
}
