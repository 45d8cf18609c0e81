#!/usr/bin/env bash
# Reads an object and writes it back, outside of the gate. With no argument it also makes objects to try: one
# that a compiler makes, where arm-none-eabi-gcc is installed, and files of 64 KiB to 1 MiB, whose times it prints.
#
#   bench/round_trip.sh [FILE.o ..]
#
# It builds a small program over elf_read and elf_write in a folder of its own, and leaves this repository as it is.
set -eu
top=$(cd "$(dirname "$0")/.." && pwd)
work=${ROUND_TRIP_FOLDER:-$(mktemp -d)}
mkdir -p "$work/crates/round_trip/src"
for crate in elf_model elf_read elf_write; do
  rm -rf "$work/crates/$crate"
  cp -r "$top/crates/$crate" "$work/crates/"
done
{
  grep -E '^(elf_model|elf_read|elf_write):' "$top/crates.txt"
  echo 'round_trip: elf_model elf_read elf_write anyhow'
} > "$work/crates.txt"
cat > "$work/crates/round_trip/src/main.rt" <<'RT'
//! Reads an object and writes it back.
#![tactic(auto)]

use anyhow::{Result, bail};
use elf_model::{Deny, Limit};
use elf_read::read_object;
use elf_write::{has_room, write_object};
use std::fs;
use std::rt::Files;

fn copy<R: Files + Print + AllocGlobal>(rt: &R, from: &str, to: &str) -> Result<()> {
    let bytes = fs::read(rt, from)?;
    if bytes.len() > Limit::ANY.file as usize {
        bail!("too long");
    }
    match read_object(rt.alloc(), &bytes, &Limit::ANY) {
        Ok(read) => {
            if !has_room(&read.object) {
                bail!("no room");
            }
            let file = write_object(rt.alloc(), &read.object)?;
            fs::write(rt, to, file.as_slice())?;
            let sections = read.object.sections().len();
            let symbols = read.object.symbols().len();
            let relocs = read.object.relocs().len();
            println!(rt; "{from}: {sections} sections, {symbols} symbols, {relocs} relocations, {} dropped", read.dropped)?;
            Ok(())
        }
        Err(Deny::NoMemory) => bail!("no memory"),
        Err(Deny::Refused(spot)) => {
            println!(rt; "{from}: refused {} {} section {} offset {}", spot.refusal.number(), spot.refusal.name(), spot.section, spot.offset)?;
            Ok(())
        }
    }
}

fn main(rt: HostRuntime) -> Result<()> {
    let mut args = std::env::args(&rt)?;
    let _program = args.next();
    let from = args.next();
    let to = args.next();
    match (from, to) {
        (Some(from), Some(to)) => copy(&rt, from.as_str(), to.as_str()),
        _ => bail!("usage: round_trip IN OUT"),
    }
}
RT
(cd "$work" && git init -q 2>/dev/null || true)
(cd "$work/crates/round_trip" && rt run -- /dev/null /dev/null > "$work/build.log" 2>&1 || true)
program=$work/crates/round_trip/out/round_trip
[ -x "$program" ] || { tail -5 "$work/build.log"; exit 1; }

try() {
  "$program" "$1" "$2"
  if command -v arm-none-eabi-readelf > /dev/null && [ -f "$2" ]; then
    complaints=$(arm-none-eabi-readelf -a "$2" 2>&1 > /dev/null)
    linked=$(arm-none-eabi-ld -r "$2" -o "$2.linked" 2>&1)
    [ -z "$complaints$linked" ] && echo "  readelf -a and ld -r take what was written" || { echo "$complaints$linked"; exit 1; }
  fi
}

if [ $# -gt 0 ]; then
  for file in "$@"; do try "$file" "$work/$(basename "$file").written"; done
  exit 0
fi
if command -v arm-none-eabi-gcc > /dev/null; then
  cat > "$work/sample.c" <<'C'
static int calls;
int table[4] = {1, 2, 3, 4};
extern int outside(int);
const char *names[] = {"one", "two"};
int sum(int n) { int s = 0; for (int i = 0; i < n; i++) s += table[i & 3]; calls++; return s + outside(n); }
C
  arm-none-eabi-gcc -c -g -O2 -mcpu=cortex-m3 -mthumb "$work/sample.c" -o "$work/sample.o"
  try "$work/sample.o" "$work/sample.written"
fi
for size in 65536 131072 262144 524288 1048576; do
  python3 "$top/bench/large_object.py" "$size" "$work/large.o"
  start=$(date +%s.%N)
  "$program" "$work/large.o" "$work/large.written"
  end=$(date +%s.%N)
  cmp -s "$work/large.o" "$work/large.written" && same=yes || same=no
  peak=$( { /usr/bin/time -f %M "$program" "$work/large.o" "$work/large.written" > /dev/null; } 2>&1 || echo '?')
  echo "  $(stat -c %s "$work/large.o") bytes: $(python3 -c "print(round(1000 * ($end - $start)))") ms, $peak KiB at most, same file: $same"
done
