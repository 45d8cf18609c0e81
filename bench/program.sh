#!/usr/bin/env bash
# Prints the command that calls the program: SKIPGUARD where that is set, else the program of this repository, which
# it proves and builds first.
set -eu
if [ -n "${SKIPGUARD:-}" ]; then
  command -v "${SKIPGUARD%% *}" > /dev/null || { echo "$SKIPGUARD is not there" >&2; exit 1; }
  echo "$SKIPGUARD"
  exit 0
fi
crate=$(cd "$(dirname "$0")/../crates/skipguard" && pwd)
log=$(mktemp)
if ! (cd "$crate" && rt run -- run --base 0x8000 --room 64 --entry f --steps 10 data/a.o) > "$log" 2>&1; then
  tail -5 "$log" >&2
  exit 1
fi
rm "$log"
echo "$crate/out/skipguard"
