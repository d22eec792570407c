# Completion of the words of busconf and busview for bash. Source it, or put it where bash-completion looks.
_busconf() {
  local IFS=' ' word=${COMP_WORDS[COMP_CWORD]} words='' files=no given
  case ${1##*/}:${COMP_WORDS[*]:1:COMP_CWORD-1} in
  busconf:) words="run advice read read95 maps rom make --help --version" ;;
  busview:) words="packets tree dot json trace waves dot-run json-run explain capture script flawed resets nosy diff import --help --version" ;;
  busview:flawed)
    words="BadLength BadInverse NotSelfId WrongId BadOrder Cut TwoParents Empty TooFewChildren TreesLeft AfterRoot NoRoot TooMany"
    ;;
  busview:flawed\ *\ *\ *) words="--1995" ;;
  busconf:make* | busview:script* | busview:flawed* | busview:capture) ;;
  busview:tree* | busview:dot | busview:dot\ *) words="--1995 --names" files=yes ;;
  busview:packets* | busview:json | busview:json\ *) words="--1995" files=yes ;;
  busview:explain | busview:explain\ *) words="--json" files=yes ;;
  busview:resets* | busview:nosy*) words="--1995 --short --json" files=yes ;;
  busview:diff*) words="--1995 --json" files=yes ;;
  busview:import) words="--reset=" files=yes ;;
  *) files=yes ;;
  esac
  # An option that is given isn't offered again.
  for given in "${COMP_WORDS[@]:1:COMP_CWORD-1}"; do
    words=" $words "
    words=${words/ "$given" / }
  done
  COMPREPLY=()
  if [ "$files" = no ] || [ "${word:0:1}" = - ]; then
    mapfile -t COMPREPLY < <(compgen -W "$words" -- "$word")
    # A number comes right behind it.
    if [[ ${COMPREPLY[0]-} == *= ]]; then compopt -o nospace; fi
  else
    # Names of files as bash completes them where nothing else is known.
    compopt -o default
  fi
}
complete -F _busconf busconf busview
