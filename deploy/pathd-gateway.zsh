#compdef pathd-gateway
# Completion of pathd-gateway for zsh. `tools/pathd-tools gateway` compares it with the program's help.

_arguments \
  '--listen[the address to listen at]:ADDR:' \
  '--pathd[the address of pathd, or of several]:ADDR,..:' \
  '--lookups[sessions with pathd for lookups]:N:' \
  '--registrations[sessions with pathd for registrations]:N:' \
  '--most-segments[segments that a lookup is answered with]:N:' \
  '--deadline[the longest that a call may take]:SECONDS:' \
  '--idle[the longest that a connection may have no call]:SECONDS:' \
  '--streams[calls under way in a connection]:N:' \
  '--calls[calls under way in all]:N:' \
  '--connections[open connections]:N:' \
  '--peer-connections[open connections of one peer]:N:' \
  '--cert[a certificate and its chain]:FILE:_files' \
  '--key[the key of the certificate]:FILE:_files' \
  '--client-ca[authorities of clients]:FILE:_files' \
  '--roles[which client certificates may look up, register and remove]:FILE:_files' \
  '--log[a line for each registration, removal and refusal]:FORMAT:(text json)' \
  '--trust[TRCs and chains]:FOLDER:_files -/' \
  '--trust-server[a control service with chains and TRCs]:ADDR:' \
  '--status[the address of the numbers]:ADDR:' \
  '(- *)--version[print the version]' \
  '(- *)--help[print help]'
