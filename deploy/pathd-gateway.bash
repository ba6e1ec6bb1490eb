# Completion of pathd-gateway for bash. `tools/pathd-tools gateway` compares it with the program's help.

_pathd_gateway() {
  local current=${COMP_WORDS[COMP_CWORD]} previous=${COMP_WORDS[COMP_CWORD - 1]} words
  COMPREPLY=()
  case $previous in
    --cert | --key | --client-ca | --roles) mapfile -t COMPREPLY < <(compgen -f -- "$current"); return ;;
    --log) mapfile -t COMPREPLY < <(compgen -W 'text json' -- "$current"); return ;;
    --trust) mapfile -t COMPREPLY < <(compgen -d -- "$current"); return ;;
    --listen | --pathd | --lookups | --registrations | --most-segments | --deadline | --idle | --streams | --calls | --connections | --peer-connections | --trust-server | --status) return ;;
  esac
  words="--listen --pathd --lookups --registrations --most-segments --deadline --idle --streams --calls --connections --peer-connections --cert --key --client-ca --roles --log --trust --trust-server --status --version --help"
  mapfile -t COMPREPLY < <(compgen -W "$words" -- "$current")
}

complete -o filenames -F _pathd_gateway pathd-gateway
