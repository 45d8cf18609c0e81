#!/usr/bin/env bash
# Says how many steps a second `skipguard run` takes on a loop of ten plain instructions, where that loop is all the
# code and where 512 KiB of code are in memory. Outside of the gate. It needs python3.
#
#   bench/machine_speed.sh
#
# SKIPGUARD=COMMAND takes the place of the program that is built from this repository, ROUNDS=N that of 999,999.
# The seconds are those of the processor, and those of a run of one round, which are told too, are taken off.
set -eu
bench=$(cd "$(dirname "$0")" && pwd)
program=$("$bench/program.sh")
work=${MACHINE_SPEED_FOLDER:-$(mktemp -d)}
rounds=${ROUNDS:-999999}
mkdir -p "$work"

# The processor's seconds of so many rounds, the least of three runs; the line that is printed goes to the file `line`.
seconds() {
  for _ in 1 2 3; do
    (
      TIMEFORMAT='%U %S'
      # SKIPGUARD may be of several words
      time $program run --base 0x8000 --room 524288 --entry f --arg "$1" --steps 10000000 "$2" > "$work/line" 2>&1
    ) 2>&1
  done | awk '{ sum = $1 + $2 } NR == 1 || sum < least { least = sum } END { print least }'
}

before=
for size in 24 524288; do
  object=$work/loop_$size.o
  python3 "$bench/looping_object.py" "$size" "$object"
  start=$(seconds 1 "$object")
  all=$(seconds "$rounds" "$object")
  line=$(cat "$work/line")
  steps=$((10 * rounds + 2))
  case $line in
    "returned after $steps steps, r0 0x"*", ordinary yes") ;;
    *) echo "$size bytes of code: $line, where $steps steps and a return are due"; exit 1 ;;
  esac
  [ "${before:-$line}" = "$line" ] || { echo "$size bytes of code: $line, and without more code $before"; exit 1; }
  before=$line
  python3 - "$size" "$steps" "$start" "$all" << 'PYTHON'
import sys
size, steps, start, whole = int(sys.argv[1]), int(sys.argv[2]), float(sys.argv[3]), float(sys.argv[4])
took = whole - start
speed = "%s steps a second" % format(round(steps / took), ",") if took >= 0.05 else "too short to tell"
print("%d bytes of code: %d steps in %.3f s, %s; a run of one round takes %.3f s" % (size, steps, took, speed, start))
PYTHON
done
