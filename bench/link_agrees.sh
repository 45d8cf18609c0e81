#!/usr/bin/env bash
# Links a C program of several files by `skipguard link` and by `arm-none-eabi-ld`, compares the images byte for byte,
# and runs it by `skipguard run`, which has to give what the same files give when they are compiled for this machine.
# Outside of the gate. It needs arm-none-eabi-gcc, its binutils, gcc and python3.
#
#   bench/link_agrees.sh
#
# SKIPGUARD=COMMAND takes the place of the program that is built from this repository. The status is 0 only where
# everything agrees.
set -eu
bench=$(cd "$(dirname "$0")" && pwd)
for tool in arm-none-eabi-gcc arm-none-eabi-ld arm-none-eabi-objcopy gcc; do
  command -v "$tool" > /dev/null || { echo "$tool is not installed" >&2; exit 1; }
done
program=$("$bench/program.sh")
work=${LINK_AGREES_FOLDER:-$(mktemp -d)}
mkdir -p "$work"
files='entry steps texts'
status=0

# (the host's sections are not looked at: it only says what the program returns)
gcc -w -O1 -o "$work/host" $(for file in $files host; do echo "$bench/several/$file.c"; done)

for level in -O0 -O1 -O2 -Os; do
  objects=
  for file in $files; do
    arm-none-eabi-gcc -mcpu=cortex-m3 -mthumb -ffreestanding -fno-jump-tables -fno-pic -falign-functions=4 $level \
      -c "$bench/several/$file.c" -o "$work/$file$level.o"
    objects="$objects $work/$file$level.o"
  done
  # SKIPGUARD may be of several words
  $program link --base 0x8000 --room 65536 "$work/own$level" $objects
  arm-none-eabi-ld -T "$bench/several/placed.ld" -e f -o "$work/other$level.elf" $objects
  arm-none-eabi-objcopy -O binary "$work/other$level.elf" "$work/other$level"
  if cmp "$work/own$level" "$work/other$level"; then
    echo "$level: $(stat -c %s "$work/own$level") bytes, the same as ld's"
  else
    status=1
  fi
  for argument in 0 1 2 7 100 65535 0x12345678 0x80000000 0xdeadbeef; do
    line=$($program run --base 0x8000 --room 65536 --entry f --arg "$argument" --steps 100000 $objects) || status=1
    wanted=$("$work/host" "$argument")
    case $line in
      "returned after "*", r0 $wanted, ordinary yes") ;;
      *) echo "$level: f of $argument: $line, and $wanted is due"; status=1 ;;
    esac
  done
done
[ $status = 0 ] && echo "all agree"
exit $status
