#!/usr/bin/env bash
# Runs each command as often as it asks for memory, and refuses it each time one request more: the first, the second, up to
# a run that asks for fewer. Outside of the gate. It needs gcc and python3.
#
#   bench/allocations.sh
#
# SKIPGUARD=COMMAND takes the place of the program that is built from this repository; its requests are those that it makes
# of the C library. The status is 0 only where each run ends as the one that nothing is refused, with the same text and
# files, or with status 4 and `no memory`, and files that are as they were or, the first ones, as they are to be.
set -eu
bench=$(cd "$(dirname "$0")" && pwd)
command -v gcc > /dev/null || { echo "gcc is not installed" >&2; exit 1; }
program=$("$bench/program.sh")
work=${ALLOCATIONS_FOLDER:-$(mktemp -d)}
mkdir -p "$work"
gcc -O1 -shared -fPIC -o "$work/failing_allocation.so" "$bench/failing_allocation.c"
python3 "$bench/calling_object.py" 3 "$work/calls.o"
python3 "$bench/looping_object.py" 24 "$work/loop.o"
SKIPGUARD=$program python3 "$bench/allocations.py" "$work"
