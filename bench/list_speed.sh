#!/usr/bin/env bash
# Says how long `skipguard list` takes on 1 MiB of code, and how long `arm-none-eabi-objdump -d` does in the same run.
# Outside of the gate. It needs arm-none-eabi-objdump and python3.
#
#   bench/list_speed.sh
#
# SKIPGUARD=COMMAND takes the place of the program that is built from this repository. The seconds are those of the
# processor, the least of three runs. The status is 0 only where skipguard takes no longer.
set -eu
bench=$(cd "$(dirname "$0")" && pwd)
command -v arm-none-eabi-objdump > /dev/null || { echo "arm-none-eabi-objdump is not installed" >&2; exit 1; }
program=$("$bench/program.sh")
work=${LIST_SPEED_FOLDER:-$(mktemp -d)}
mkdir -p "$work"
python3 "$bench/looping_object.py" 1048576 "$work/code.o"

seconds() {
  for _ in 1 2 3; do
    (
      TIMEFORMAT='%U %S'
      time "$@" > "$work/text"
    ) 2>&1
  done | awk '{ sum = $1 + $2 } NR == 1 || sum < least { least = sum } END { print least }'
}

# SKIPGUARD may be of several words
own=$(seconds $program list "$work/code.o")
lines=$(wc -l < "$work/text")
other=$(seconds arm-none-eabi-objdump -d "$work/code.o")
echo "skipguard list: $own s, $lines lines; arm-none-eabi-objdump -d: $other s"
awk -v a="$own" -v b="$other" 'BEGIN { exit !(a <= b) }'
