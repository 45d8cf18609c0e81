#!/usr/bin/env bash
# Changes bytes of compiled objects at random, runs `list` and `harden` on each, and counts how these end. Outside of the
# gate. It needs arm-none-eabi-gcc, arm-none-eabi-readelf and python3.
#
#   bench/mutations.sh [COUNT [SEED]]
#
# COUNT is 2000 if it is left out; 100000 takes some six minutes of a processor. The same seed gives the same changes.
# SKIPGUARD=COMMAND takes the place of the program that is built from this repository. The status is 0 only where no run
# was ended by a signal or by the clock, each ended with a status and a text that docs/REFUSALS.md has for it, and readelf
# complains of no hardened file unless it complains of the input too. Files that break this stay in the folder that is
# named then.
set -eu
bench=$(cd "$(dirname "$0")" && pwd)
for tool in arm-none-eabi-gcc arm-none-eabi-readelf python3; do
  command -v "$tool" > /dev/null || { echo "$tool is not installed" >&2; exit 1; }
done
program=$("$bench/program.sh")
work=${MUTATIONS_FOLDER:-$(mktemp -d)}
mkdir -p "$work"
SKIPGUARD=$program python3 "$bench/mutations.py" "$work" "${1:-2000}" "${2:-1}"
