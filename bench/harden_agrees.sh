#!/usr/bin/env bash
# Compiles small C functions at -O0, -O2 and -Os, hardens them, has the binutils look at the hardened objects, and runs
# these without skips and under 50 drawn schedules, against what QEMU gives for the plain functions. Outside of the gate.
# It needs arm-none-eabi-gcc, its binutils, qemu-system-arm and python3.
#
#   bench/harden_agrees.sh [FUNCTION ..]
#
# The functions are those of functions.c, or the named ones of them. SKIPGUARD=COMMAND takes the place of the program
# that is built from this repository. The status is 0 only where all runs agree and no tool complains.
set -eu
bench=$(cd "$(dirname "$0")" && pwd)
for tool in arm-none-eabi-gcc arm-none-eabi-ld arm-none-eabi-readelf arm-none-eabi-objdump qemu-system-arm python3; do
  command -v "$tool" > /dev/null || { echo "$tool is not installed" >&2; exit 1; }
done
program=$("$bench/program.sh")
work=${HARDEN_AGREES_FOLDER:-$(mktemp -d)}
SKIPGUARD=$program python3 "$bench/harden_agrees.py" "$work" "$@"
