#compdef pathd
# Completion of pathd for zsh. `tools/pathd-tools help-texts` compares it with the program's help.

_pathd() {
  local -a commands
  local -a help=('(- *)'{-h,--help}'[print help]')
  commands=(
    'once:Answers one session from standard input to standard output'
    'format:Makes a file of 1 + 2 * (C + 1 + J) sectors with an empty store; one that is there is lost'
    'copy:Makes a store with the rows and the place of another, of other sizes where these are given'
    'show:Opens a store, and prints its rows and its place'
    'status:Prints the numbers of a store, a line each, and changes nothing'
    'upgrade:Opens a store, and writes it in version 2 where it is of version 1'
    'run:Opens a store, and serves sessions over TCP'
    'ask:Asks a server, and prints what it answers'
    'help:print help'
  )
  if ((CURRENT == 2)); then
    _describe command commands
    _arguments $help '(- *)'{-V,--version}'[print the version]'
    return
  fi
  local command=$words[2]
  shift words
  ((CURRENT--))
  case $command in
    once)
      _arguments $help \
        '--cores[The core ASes, as ISD-AS texts joined by commas; without it no AS is core]:LIST:' \
        '--now[The moment, in half seconds since 1970 \[default: 0\]]:T:' \
        '--key[Check signatures by this key of a test profile; without it all are trusted]:HEX:' \
        '--hex[Read hexadecimal text, and print each reply as a line of it]'
      ;;
    format)
      _arguments $help \
        '--checkpoint[The sectors of a checkpoint area, 2 to 1048576]:C:' \
        '--journal[The sectors of a journal, 516 to 1048576]:J:' \
        '--rows[Reserve a sector of a checkpoint area for each of this number of rows, and a journal to match]:N:' \
        '--new[Refuse where a store is]' \
        '--force[Lose a store that is there, without asking]' \
        '--reserve[Write zeros over the whole file, so that the disk gives it all its room]' \
        '1:DEV:_files'
      ;;
    copy)
      _arguments $help \
        '--checkpoint[The sectors of a checkpoint area, 2 to 1048576]:C:' \
        '--journal[The sectors of a journal, 516 to 1048576]:J:' \
        '--rows[Reserve a sector of a checkpoint area for each of this number of rows, and a journal to match]:N:' \
        '--reserve[Write zeros over the whole file, so that the disk gives it all its room]' \
        '1:OLD:_files' \
        '2:NEW:_files'
      ;;
    show)
      _arguments $help \
        '--layout[Draw what stands where instead, and change nothing]' \
        '--json[Print lines of JSON, which have all of a segment]' \
        '1:DEV:_files'
      ;;
    status)
      _arguments $help \
        '1:DEV:_files'
      ;;
    upgrade)
      _arguments $help \
        '1:DEV:_files'
      ;;
    run)
      _arguments $help \
        '--new[Make a store of --rows first where DEV is no file, or one without bytes]' \
        '--rows[The rows for which a store that is made has room]:N:' \
        '--listen[The address to listen at, as 127.0.0.1:30252; port 0 is any free one]:ADDR:' \
        '--status[The address to answer GET /metrics at, with the server'\''s numbers, and GET / with plots]:ADDR:' \
        '--cores[The core ASes, as ISD-AS texts joined by commas; without it no AS is core]:LIST:' \
        '--key[Check signatures by this key of a test profile; without it all are trusted]:HEX:' \
        '--lookups[A further address to listen at, for sessions whose commands are refused]:ADDR:' \
        '--lookup-seats[The number of the 64 seats that are for these sessions, 1 to 56 \[default: 16\]]:SEATS:' \
        '--sessions[End after this number of sessions; 0 is no end \[default: 0\]]:N:' \
        '--peer-sessions[Refuse a session of an address that has this number open; 0 is no bound \[default: 0\]]:N:' \
        '--idle[End a session whose peer is silent for this number of seconds; 0 is no end \[default: 300\]]:SECONDS:' \
        '--leave[Await commits for this number of seconds once the peer has ended its side; 0 is no end \[default: 0\]]:SECONDS:' \
        '--future[Refuse a time more than this number of seconds after now; 0 is no bound \[default: 0\]]:SECONDS:' \
        '--spare[Keep this number of the 64 seats for sessions without commands under way, 0 to 56 \[default: 0\]]:SEATS:' \
        '--lists[Answer lists of segments; without it a list ends its session]' \
        '--purge[Drop expired segments each time after this number of seconds; 0 is never \[default: 0\]]:SECONDS:' \
        '--purge-grace[Keep segments for this number of seconds past their expiry in these purges \[default: 0\]]:SECONDS:' \
        '--stop-on-end-of-input[End once standard input has ended: no new session, and --grace for the open ones]' \
        '--grace[The seconds that open sessions have at such an end \[default: 10\]]:SECONDS:' \
        '--quiet[Print nothing on standard error but why the program ends]' \
        '--log-priority[Begin each line on standard error with its priority, as <3>, for a journal]' \
        '--final-status[The status of a failure that a restart would not mend, 1 to 255 \[default: 1\]]:N:' \
        '1:DEV:_files'
      ;;
    ask)
      _arguments $help \
        '--json[Print lines of JSON, which have all of a segment]' \
        '--at-once[Purge by one command, and not in steps; others wait until it is done]' \
        '--timeout[The seconds that the connection and each reply may take, at least 1 \[default: 10\]]:SECONDS:' \
        '--wait[Try again for this number of seconds until the server answers \[default: 0\]]:SECONDS:' \
        '1:ADDR:' \
        '2:REQUEST:(lookup list register purge remove)' \
        '*:WORD:_files'
      ;;
    help)
      _describe command commands
      ;;
  esac
}

_pathd "$@"
