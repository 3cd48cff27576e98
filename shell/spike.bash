# Completion for Bash: the commands of spike and spike-show, their options, goals and files.

# The goals of a file. Only letters, digits and _ are taken, since the shell expands each word once more.
_spike_goals() {
  sed -n 's/^[[:blank:]]*goal[[:blank:]][[:blank:]]*\([[:alnum:]_]*\).*/\1/p' -- "$1" 2> /dev/null
}

_spike() {
  local current=${COMP_WORDS[COMP_CWORD]} previous=${COMP_WORDS[COMP_CWORD - 1]} options=
  COMPREPLY=()
  local name=${COMP_WORDS[0]##*/} commands=
  case $name in
    spike) commands='check eval prove refute replay load upgrade trim session' ;;
    spike-show) commands='page text open' ;;
  esac
  if [ -n "$commands" ] && [ "$COMP_CWORD" -eq 1 ]; then
    mapfile -t COMPREPLY < <(compgen -W "$commands" -- "$current")
    return
  fi
  case $name:${COMP_WORDS[1]} in
    spike:check) options='--print' ;;
    spike:eval) options='--steps' ;;
    spike:prove) options='--depth --tries --steps --plain --nodes' ;;
    spike:refute) options='--depth --tries --steps' ;;
    spike-show:page | spike-show:text) options='--goal' ;;
    spike-show:open) options='--goal --depth --tries --steps --plain --nodes' ;;
    spike-expect:*) options='--depth --tries --steps --plain --nodes --json' ;;
    spike-where:*) options='--warn' ;;
  esac
  case $previous in
    --depth) mapfile -t COMPREPLY < <(compgen -W '0 1 2 3 4 5 6 7 8' -- "$current") ;;
    --goal) mapfile -t COMPREPLY < <(compgen -W "$(_spike_goals "${COMP_WORDS[2]}")" -- "$current") ;;
    --tries | --steps | --plain | --nodes) ;;
    *)
      case $current in
        -*) mapfile -t COMPREPLY < <(compgen -W "$options" -- "$current") ;;
        *) mapfile -t COMPREPLY < <(compgen -f -- "$current") ;;
      esac
      ;;
  esac
}
complete -o filenames -F _spike spike spike-show spike-where spike-order spike-expect
