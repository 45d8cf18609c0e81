#!/usr/bin/env bash
# Says how long `skipguard link` takes on an object of 175 KB with 4,000 functions that call each other, and how long
# `arm-none-eabi-ld` does in the same run; then on one to sixteen objects of 1 MiB. Outside of the gate. It needs
# arm-none-eabi-ld and python3.
#
#   bench/link_speed.sh
#
# SKIPGUARD=COMMAND takes the place of the program that is built from this repository. The seconds are those of the
# processor, the least of five runs. The status is 0 only where skipguard takes at most 1.5 times those of ld, and
# sixteen objects at most 2.2 times those of eight.
set -eu
bench=$(cd "$(dirname "$0")" && pwd)
command -v arm-none-eabi-ld > /dev/null || { echo "arm-none-eabi-ld is not installed" >&2; exit 1; }
program=$("$bench/program.sh")
work=${LINK_SPEED_FOLDER:-$(mktemp -d)}
mkdir -p "$work"
python3 "$bench/calling_object.py" 4000 "$work/calls.o"

seconds() {
  for _ in 1 2 3 4 5; do
    (
      TIMEFORMAT='%U %S'
      time "$@" > "$work/text"
    ) 2>&1
  done | awk '{ sum = $1 + $2 } NR == 1 || sum < least { least = sum } END { print least }'
}

# SKIPGUARD may be of several words
own=$(seconds $program link --base 0x8000 --room 524288 "$work/image" "$work/calls.o")
other=$(seconds arm-none-eabi-ld -Ttext=0x8000 -e f0 -o "$work/other.elf" "$work/calls.o")
echo "$(stat -c %s "$work/calls.o") bytes, $(cat "$work/text")4000 functions: skipguard link $own s, arm-none-eabi-ld $other s"
status=0
awk -v a="$own" -v b="$other" 'BEGIN { exit !(a <= 1.5 * b + 0.005) }' || status=1

# data, since the code of an image is at most 524,288 bytes
for k in 1 2 3 4 5 6 7 8 9 10 11 12 13 14 15 16; do
  python3 "$bench/large_object.py" 1048576 "$work/data$k.o" "g${k}_"
done
before=
for count in 1 2 4 8 16; do
  objects=$(for k in $(seq "$count"); do echo "$work/data$k.o"; done)
  took=$(seconds $program link --base 0x8000 --room 8 "$work/image" $objects)
  echo "$count objects of 1 MiB: $took s"
  [ "$count" = 16 ] && { awk -v a="$before" -v b="$took" 'BEGIN { exit !(b <= 2.2 * a + 0.01) }' || status=1; }
  before=$took
done
exit $status
