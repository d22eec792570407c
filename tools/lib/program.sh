# Sourced by the wrappers at the top, which set top.
# shellcheck shell=bash disable=SC2154
. "$top/tools/lib/sources.sh"

# The status of a wrapper that has no answer of the program to give. No program of this repository ends with it.
NO_ANSWER=125
# The status of a program whose output can't be written.
WRITE_FAULT=4

# Says on standard error why there is no answer of the program, and ends with that status.
no_answer() {
  echo "$name: no answer: $1" >&2
  exit "$NO_ANSWER"
}

# Runs the program of this name with the words behind it: the proved one where ./build has built it from the
# sources as they are now, else the same sources unproved.
run_program() {
  name=$1
  local program="$top/crates/$1/out/$1"
  shift
  if [ -x "$program" ] && is_built "$program"; then exec "$program" "$@"; fi
  command -v rt >/dev/null || no_answer "neither a built program nor the Rattle kit's command rt is here"
  echo "$name: not built from these sources by this kit, so this run is unproved; ./build proves and builds it" >&2
  work=$(mktemp -d) || no_answer "no room for the files of an unproved run"
  running=
  trap end_run EXIT
  trap 'exit 129' HUP
  trap 'exit 130' INT
  trap 'exit 143' TERM
  run_unproved "$@"
}

# Ends what an unproved run has started, and removes its files.
end_run() {
  [ -z "$running" ] || { kill "$running"; wait "$running"; } 2>/dev/null
  rm -rf "$work"
}

# Waits for what was started last, and answers its status. A signal ends the wait.
await() {
  local status=0
  running=$!
  wait "$running" || status=$?
  running=
  return "$status"
}

# Copies an input. A log or a dump may have any length. Of all else one byte more than a form takes is enough.
take() {
  local reader=(head -c 1048577)
  case $form in resets | nosy) reader=(cat) ;; esac
  "${reader[@]}" <&0 2>/dev/null &
  await
}

# Gives the words to rt, with files in the place of streams, so that what is wrong with a stream is told from what the
# program answers. The program runs elsewhere, so a file is named by its whole path.
run_unproved() {
  local form=${1-} words=("$@") files=() reads=no place word status reason
  judge_words "$@"
  : >"$work/input"
  if [ "$reads" = yes ] && ! { take >"$work/input"; } 2>/dev/null; then
    printf '%9999s' '' 2>/dev/null >"$work/room" || no_answer "no room for the files of an unproved run"
    no_answer "standard input can't be read"
  fi
  for place in "${files[@]}"; do
    word=${words[place]}
    [ "${word:0:1}" = / ] || word=$PWD/$word
    words[place]=$word
    # The program hasn't what the system hands to this process, and a pipe is read only once.
    if [[ $word == /dev/* || $word == /proc/* || -p $word ]]; then
      { take <"$word" >"$work/$place"; } 2>/dev/null && words[place]=$work/$place
    fi
  done
  if [ -t 2 ]; then
    echo "$name: reads and compiles the sources first, which takes half a minute to a minute, each time" >&2
  fi
  (cd "$top/crates/$name" && exec rt try -- "${words[@]}") <"$work/input" >"$work/output" 2>"$work/notes" &
  await
  status=$?
  if ! grep -qE "^run=ended status=$status " "$work/notes"; then
    reason=$(sed -n 's/^checked: //p' "$work/notes" | tail -n 1)
    [ -n "$reason" ] || tail -n 5 "$work/notes" >&2
    no_answer "rt gave none of this unproved run (${reason:-its last lines stand above}); ./build builds a program that has no limits of rt"
  fi
  # What rt says of its own run is no line of the program.
  grep -vE '^(checked: |interpreter: |run=|rt: )' "$work/notes" >&2
  write_output
  exit "$status"
}

# Writes the program's output. Where nobody reads any more, it ends as the program does.
write_output() {
  local status=0
  LC_ALL=C cat "$work/output" 2>"$work/said" || status=$?
  if [ "$status" = 141 ] || grep -qs 'Broken pipe' "$work/said"; then exit "$WRITE_FAULT"; fi
  [ "$status" = 0 ] || no_answer "standard output can't be written"
}

# Looks at the words of a call by the list of forms: `files` gets the places of the words that name files, and `reads`
# becomes `yes` where standard input is read. Words that are no form get neither.
judge_words() {
  local program word_of_form wants=() options='' ended=no own=0 pair=no optional=no input=no place=-1 word
  while read -r program word_of_form word; do
    [ "$program" = "$name" ] && [ "$word_of_form" = "${1-}" ] && read -r -a wants <<<"$word" && break
  done <"$top/tools/lib/forms"
  for word in "${wants[@]}"; do
    case $word in
    '[--'*) options="$options ${word:1:-1} " ;;
    '['* | '..]') optional=yes ;;
    OLD | NEW) pair=yes ;;
    *) own=$((own + 1)) ;;
    esac
  done
  for word; do
    place=$((place + 1))
    if [ "$place" = 0 ]; then
      continue
    elif [ "$ended$word" = no-- ]; then
      ended=yes
    elif [ "$ended" = no ] && [ "${word:0:1}" = - ] && [ "$word" != - ]; then
      # An option with a value stands in the list with K.
      [[ $options == *" ${word/=*/=K} "* ]] || { files=(); return; }
    elif [ "$own" -gt 0 ]; then
      own=$((own - 1))
    elif [ "$word" = - ]; then
      input=yes
    elif [ "$optional" = yes ] || [ "$pair" = yes ]; then
      files+=("$place")
    fi
  done
  [ "$optional" = no ] || [ ${#files[@]} -gt 0 ] || input=yes
  [ "$own" -gt 0 ] || reads=$input
}
