#!/usr/bin/env bash
# Lists random halfwords with `skipguard list` and with `arm-none-eabi-objdump -d`, and says where the instructions
# that skipguard accepts differ once both are spelled alike. Outside of the gate. It needs arm-none-eabi-objdump and
# python3.
#
#   bench/list_agrees.sh [SEED [BYTES]]
#
# SKIPGUARD=COMMAND takes the place of the program that is built from this repository. The status is 0 only where
# nothing differs.
set -eu
bench=$(cd "$(dirname "$0")" && pwd)
command -v arm-none-eabi-objdump > /dev/null || { echo "arm-none-eabi-objdump is not installed" >&2; exit 1; }
program=$("$bench/program.sh")
work=${LIST_AGREES_FOLDER:-$(mktemp -d)}
mkdir -p "$work"
python3 "$bench/looping_object.py" "${2:-262144}" "$work/code.o"
python3 "$bench/list_agrees.py" scramble "${1:-1}" "${2:-262144}" "$work/code.o"
# SKIPGUARD may be of several words
$program list "$work/code.o" > "$work/own"
arm-none-eabi-objdump -d "$work/code.o" > "$work/other"
python3 "$bench/list_agrees.py" compare "$work/own" "$work/other"
