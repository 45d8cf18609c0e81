#!/usr/bin/env bash
# Runs `harden`, `list` and `link` on files made to hurt, and says how many seconds and how much memory each takes.
# Outside of the gate. It needs python3 and /usr/bin/time.
#
#   bench/hostile.sh [PROGRAM]
#
# PROGRAM, or SKIPGUARD=COMMAND, takes the place of the program that is built from this repository. The seconds are those
# of the processor, the least of three runs; the memory is the most of one, without that of a file with nothing in it. The
# status is 0 only where each command ends as it should, takes at most 4 times the seconds of a file of half the size, or
# 20 ms more, and at most 40 times the file in memory, or what hostile.py says of files of which more is known.
set -eu
bench=$(cd "$(dirname "$0")" && pwd)
program=$(SKIPGUARD=${1:-${SKIPGUARD:-}} "$bench/program.sh")
[ -x /usr/bin/time ] || { echo "/usr/bin/time is not installed" >&2; exit 1; }
work=${HOSTILE_FOLDER:-$(mktemp -d)}
mkdir -p "$work"
SKIPGUARD=$program python3 "$bench/hostile.py" "$work"
