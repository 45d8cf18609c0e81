#!/usr/bin/env bash
# Says how long `harden`, `list`, `link` and `run` take beside `objcopy`, `objdump -d`, `ld` and QEMU's user mode on the
# same files, and how much memory. Outside of the gate. It needs the arm-none-eabi binutils, qemu-arm, python3 and
# /usr/bin/time.
#
#   bench/side_by_side.sh
#
# SKIPGUARD=COMMAND takes the place of the program that is built from this repository. The seconds are those of the
# processor, the least of five runs; the memory is the most of the last one.
set -eu
bench=$(cd "$(dirname "$0")" && pwd)
for tool in arm-none-eabi-as arm-none-eabi-ld arm-none-eabi-objcopy arm-none-eabi-objdump qemu-arm python3; do
  command -v "$tool" > /dev/null || { echo "$tool is not installed" >&2; exit 1; }
done
program=$("$bench/program.sh")
work=${SIDE_BY_SIDE_FOLDER:-$(mktemp -d)}
mkdir -p "$work"
python3 "$bench/calling_object.py" 4000 "$work/calls.o"
python3 "$bench/looping_object.py" 24 "$work/loop.o"

# The loop of loop.o as a program of its own under Linux: f of 999,999, and an exit with status 0.
arm-none-eabi-as -mcpu=cortex-a8 -mthumb -o "$work/start.o" - << 'ASSEMBLER'
  .syntax unified
  .thumb
  .global _start
  .thumb_func
_start:
  movw r0, #0x423f
  movt r0, #0xf
  bl f
  movs r0, #0
  movs r7, #1
  svc 0
ASSEMBLER
arm-none-eabi-ld -Ttext=0x10000 -e _start -o "$work/loop.elf" "$work/start.o" "$work/loop.o"

# seconds and KiB of a command, as a row of the table
row() {
  what=$1
  shift
  for _ in 1 2 3 4 5; do
    /usr/bin/time -f '%U %S %M' "$@" 2>&1 > "$work/text" | tail -1
  done | awk -v what="$what" '{ sum = $1 + $2 } NR == 1 || sum < least { least = sum } { most = $3 } END { printf "| %s | %.2f s | %d KiB |\n", what, least, most }'
}

echo "| On $(stat -c %s "$work/calls.o") bytes with 4,000 functions | seconds | memory |"
echo "|---|---|---|"
# SKIPGUARD may be of several words
row "\`skipguard harden\`" $program harden "$work/calls.o" "$work/out.o"
row "\`arm-none-eabi-objcopy\`" arm-none-eabi-objcopy "$work/calls.o" "$work/copy.o"
row "\`skipguard list\`" $program list "$work/calls.o"
row "\`arm-none-eabi-objdump -d\`" arm-none-eabi-objdump -d "$work/calls.o"
row "\`skipguard link\`" $program link --base 0x8000 --room 524288 "$work/image" "$work/calls.o"
row "\`arm-none-eabi-ld\`" arm-none-eabi-ld -Ttext=0x8000 -e f0 -o "$work/other.elf" "$work/calls.o"
echo
echo "| 9,999,992 steps of a loop | seconds | memory |"
echo "|---|---|---|"
row "\`skipguard run\`" $program run --base 0x8000 --room 4096 --entry f --arg 999999 --steps 10000000 "$work/loop.o"
row "\`qemu-arm\`" qemu-arm "$work/loop.elf"
