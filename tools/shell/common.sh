# What the scripts share that try the built program. `begin PROGRAM THING ..` wants these things of
# tools/pathd_tools/need.py. It sets `program`, the whole path of PROGRAM, or of crates/pathd/out/pathd
# where that is empty, and `work`, a folder that is removed at the end. `top` is the top of the repository.
set -euo pipefail
top=$(cd "$(dirname "${BASH_SOURCE[0]}")/../.." && pwd)

begin() {
  "$top/tools/pathd-tools" need "${@:2}" || exit
  program=$(realpath -m "${1:-$top/crates/pathd/out/pathd}")
  [ -x "$program" ] || { echo "no program: $program" >&2; exit 2; }
  work=$(mktemp -d)
  trap 'rm -rf "$work"' EXIT
}
