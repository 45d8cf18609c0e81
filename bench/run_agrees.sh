#!/usr/bin/env bash
# Compiles small C functions, runs each under `skipguard run` and under QEMU, and says whether both give the same.
# Outside of the gate. It needs arm-none-eabi-gcc, its binutils, qemu-system-arm and python3.
#
#   bench/run_agrees.sh [FUNCTION ..]
#
# The functions are those of functions.c, or the named ones of them. SKIPGUARD=COMMAND takes the place of the program
# that is built from this repository. The status is 0 only where everything agrees.
set -eu
bench=$(cd "$(dirname "$0")" && pwd)
for tool in arm-none-eabi-gcc arm-none-eabi-ld arm-none-eabi-readelf qemu-system-arm python3; do
  command -v "$tool" > /dev/null || { echo "$tool is not installed" >&2; exit 1; }
done
program=$("$bench/program.sh")
work=${RUN_AGREES_FOLDER:-$(mktemp -d)}
SKIPGUARD=$program python3 "$bench/run_agrees.py" "$work" "$@"
