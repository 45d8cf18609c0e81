#!/usr/bin/env bash
# Says how long `skipguard harden` takes: on an object of 175 KB with 4,000 functions that call each other, beside
# `arm-none-eabi-objcopy` in the same run; on 40 KB and on 64 KB of code in one section; and on 64 KB of code with 60,000
# relocations. Outside of the gate. It needs arm-none-eabi-objcopy, python3 and /usr/bin/time.
#
#   bench/harden_speed.sh
#
# SKIPGUARD=COMMAND takes the place of the program that is built from this repository. The seconds are those of the
# processor, the least of five runs. The status is 0 only where harden takes at most 3 times those of objcopy, or 60 ms;
# 64 KB of code take at most twice 64/40 of the seconds of 40 KB; 60,000 relocations take less than a second; and the
# memory is at most 40 times the file.
set -eu
bench=$(cd "$(dirname "$0")" && pwd)
command -v arm-none-eabi-objcopy > /dev/null || { echo "arm-none-eabi-objcopy is not installed" >&2; exit 1; }
program=$("$bench/program.sh")
work=${HARDEN_SPEED_FOLDER:-$(mktemp -d)}
mkdir -p "$work"
python3 "$bench/calling_object.py" 4000 "$work/calls.o"
python3 "$bench/calling_object.py" 2857 "$work/small.o"
python3 "$bench/calling_object.py" 4681 "$work/large.o"
python3 "$bench/calling_object.py" 4681 "$work/relocs.o" f 14 55320

seconds() {
  for _ in 1 2 3 4 5; do
    (
      TIMEFORMAT='%U %S'
      time "$@" > "$work/text"
    ) 2>&1
  done | awk '{ sum = $1 + $2 } NR == 1 || sum < least { least = sum } END { print least }'
}

# SKIPGUARD may be of several words
own=$(seconds $program harden "$work/calls.o" "$work/out.o")
other=$(seconds arm-none-eabi-objcopy "$work/calls.o" "$work/copy.o")
size=$(stat -c %s "$work/calls.o")
memory=$(/usr/bin/time -f %M $program harden "$work/calls.o" "$work/out.o" 2>&1 > /dev/null | tail -1)
small=$(seconds $program harden "$work/small.o" "$work/out.o")
large=$(seconds $program harden "$work/large.o" "$work/out.o")
relocs=$(seconds $program harden "$work/relocs.o" "$work/out.o")
echo "$size bytes, 4000 functions: skipguard harden $own s, $memory KiB; arm-none-eabi-objcopy $other s"
echo "40 KB of code: $small s; 64 KB: $large s; 64 KB and 60,000 relocations: $relocs s"
status=0
awk -v a="$own" -v b="$other" 'BEGIN { exit !(a <= 3 * b || a <= 0.06) }' || status=1
awk -v a="$memory" -v b="$size" 'BEGIN { exit !(a * 1024 <= 40 * b) }' || status=1
awk -v a="$small" -v b="$large" 'BEGIN { exit !(b <= 2 * 1.6 * a + 0.01) }' || status=1
awk -v a="$relocs" 'BEGIN { exit !(a < 1) }' || status=1
exit $status
