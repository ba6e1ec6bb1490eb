# Completion of pathd for bash. `tools/pathd-tools help-texts` compares it with the program's help.

_pathd() {
  local current=${COMP_WORDS[COMP_CWORD]} previous=${COMP_WORDS[COMP_CWORD - 1]} words
  COMPREPLY=()
  if ((COMP_CWORD == 1)); then
    words="once format copy show status upgrade run ask help -h --help -V --version"
  else
    case $previous in
      --cores | --now | --key | --checkpoint | --journal | --rows | --listen | --status | --lookups | --lookup-seats | --sessions | --peer-sessions | --idle | --leave | --future | --spare | --purge | --purge-grace | --grace | --final-status | --timeout | --wait) return ;;
    esac
    case ${COMP_WORDS[1]} in
      once) words="--cores --now --key --hex -h --help" ;;
      format) words="--checkpoint --journal --rows --new --force --reserve -h --help" ;;
      copy) words="--checkpoint --journal --rows --reserve -h --help" ;;
      show) words="--layout --json -h --help" ;;
      status) words="-h --help" ;;
      upgrade) words="-h --help" ;;
      run) words="--new --rows --listen --status --cores --key --lookups --lookup-seats --sessions --peer-sessions --idle --leave --future --spare --lists --purge --purge-grace --stop-on-end-of-input --grace --quiet --log-priority --final-status -h --help" ;;
      ask) words="--json --at-once --timeout --wait -h --help" ;;
      help) words="once format copy show status upgrade run ask help" ;;
      *) return ;;
    esac
  fi
  mapfile -t COMPREPLY < <(compgen -W "$words" -- "$current")
  case ${COMP_WORDS[1]}:$current in
    *:-*) ;;
    ask:*)
      if ((COMP_CWORD == 3)); then
        mapfile -t COMPREPLY < <(compgen -W "lookup list register purge remove" -- "$current")
      elif ((COMP_CWORD != 1)); then
        mapfile -t COMPREPLY < <(compgen -f -- "$current")
      fi
      ;;
    format:* | copy:* | show:* | status:* | upgrade:* | run:*)
      ((COMP_CWORD == 1)) || mapfile -t COMPREPLY < <(compgen -f -- "$current")
      ;;
  esac
}

complete -o filenames -F _pathd pathd
