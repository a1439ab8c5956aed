# Completions for bash: source tools/completions.bash
# The names are those of `press tables`, as tools/asked/tables.json has them, a row in a line.
_press_tables="$(cd "$(dirname "${BASH_SOURCE[0]}")" && pwd)/asked/tables.json"
# the rows of a table, and of these that of a name
_press_rows() {
  sed -n "/^\"$1\":/,/^]/p" "$_press_tables" | grep "^{\"name\":\"$2"
}
_press_subcommands() {
  _press_rows subcommands | cut -d '"' -f 4 | tr '\n' ' '
}
_press_switches() {
  _press_rows subcommands "$1\"" | sed 's/.*"flags":\[\(.*\)\],"options":\[\(.*\)\],"about".*/\1 \2/' | tr '",' '  '
}
# NAME=VALUE of each value of a variable, but those at power on
_press_defaults() {
  echo COPIES=2
  _press_rows variables | sed -n 's/^{"name":"\(.*\)","default":"\(.*\)","values":\[\(.*\)\]}.*/\1 \2 \3/p' | tr '",' '  ' | while read -r name factory values; do
    for value in $values; do
      [ "$value" = "$factory" ] || echo "$name=$value"
    done
  done
}
_press() {
  local word="${COMP_WORDS[COMP_CWORD]}" first="${COMP_WORDS[1]}" place="$COMP_CWORD"
  if [ "$first" = --prove ] || [ "$first" = --proved ]; then
    first="${COMP_WORDS[2]}"
    place=$((place - 1))
  fi
  if [ "$place" -eq 1 ]; then
    mapfile -t COMPREPLY < <(compgen -W "--prove --proved $(_press_subcommands) help --help --version" -- "$word")
  elif [ "${COMP_WORDS[COMP_CWORD-1]}" = --default ]; then
    mapfile -t COMPREPLY < <(compgen -W "$(_press_defaults)" -- "$word")
  elif [ "$first" = press ] && [ "${COMP_WORDS[COMP_CWORD-1]}" = --engines ]; then
    mapfile -t COMPREPLY < <(compgen -W "1 2 3 4" -- "$word")
  elif [[ "$word" == -* ]]; then
    mapfile -t COMPREPLY < <(compgen -W "$(_press_switches "$first")" -- "$word")
  elif [[ "$first" != @(press|tables) ]]; then
    mapfile -t COMPREPLY < <(compgen -f -- "$word")
  fi
}
# `tools/why` takes the words of `press`, behind --json or not
_why() {
  if [ "$COMP_CWORD" -eq 1 ] && [[ "${COMP_WORDS[1]}" == --j* ]]; then
    COMPREPLY=(--json)
    return
  fi
  if [ "${COMP_WORDS[1]}" = --json ]; then
    COMP_WORDS=("${COMP_WORDS[0]}" "${COMP_WORDS[@]:2}")
    COMP_CWORD=$((COMP_CWORD - 1))
  fi
  _press
}
complete -o filenames -F _press press ./press
complete -o filenames -F _why tools/why
# the tools that take streams, and those at a network
_streams() {
  local word="${COMP_WORDS[COMP_CWORD]}"
  if [ "${COMP_WORDS[COMP_CWORD-1]}" = --default ]; then
    mapfile -t COMPREPLY < <(compgen -W "$(_press_defaults)" -- "$word")
  elif [ "${COMP_WORDS[0]}" = tools/regress ] && [ "$COMP_CWORD" -eq 1 ]; then
    mapfile -t COMPREPLY < <(compgen -W "record check" -- "$word")
  elif [[ "$word" == -* ]]; then
    mapfile -t COMPREPLY < <(compgen -W "$("${COMP_WORDS[0]}" --help 2>/dev/null | grep -o -e '--[a-z][a-z-]*' | sort -u)" -- "$word")
  else
    mapfile -t COMPREPLY < <(compgen -f -- "$word")
  fi
}
complete -o filenames -F _streams tools/explain tools/show tools/step tools/pictures tools/differ tools/matches tools/shrink tools/regress
complete -o filenames -F _streams tools/printer tools/scrub tools/jmf
