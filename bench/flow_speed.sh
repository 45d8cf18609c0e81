#!/usr/bin/env bash
# Says how long the flow of growing code takes to recover and its live members to find, also of a chain that leads back
# to its start, and how many turns a point the latter takes on compiled C functions. Outside of the gate. It needs
# python3, and for the last part arm-none-eabi-gcc.
#
#   bench/flow_speed.sh [FILE.o ..]
#
# With files it only tells of these. It builds a small program over elf_read, flow_recover and liveness in a folder of
# its own, FLOW_SPEED_FOLDER or a new one, and leaves this repository as it is. FLOW_SPEED=COMMAND takes the place of
# that program. The seconds are those of the processor, the least of three runs.
set -eu
top=$(cd "$(dirname "$0")/.." && pwd)
work=${FLOW_SPEED_FOLDER:-$(mktemp -d)}
crates='elf_model elf_read index_links code_ranges mark_word thumb_instr thumb_decode reloc_places flow_recover liveness'
mkdir -p "$work"

build() {
  mkdir -p "$work/crates/flow_speed/src"
  for crate in $crates; do
    rm -rf "$work/crates/$crate"
    cp -r "$top/crates/$crate" "$work/crates/"
  done
  {
    grep -E "^(${crates// /|}):" "$top/crates.txt"
    echo 'flow_speed: elf_model elf_read thumb_instr flow_recover liveness bitflags anyhow'
  } > "$work/crates.txt"
  cat > "$work/crates/flow_speed/src/main.rt" <<'RT'
//! Recovers the flow of an object, and finds what is live in it.
#![tactic(auto)]

ghost use Rattle.liveness.specs.Paths.{NamesPoints};

use anyhow::{Result, bail};
use bitflags::Flags;
use elf_model::{Deny, Limit, Object, within};
use elf_read::read_object;
use flow_recover::{Flow, recover};
use liveness::{Boundary, live, recovered_flows_name_points};
use std::alloc::Global;
use std::fs;
use std::rt::Files;
use thumb_instr::RegSet;

fn set(bits: u32) -> RegSet {
    RegSet::from_bits_retain(bits)
}

// What a caller and a called function agree on: r0 to r11 and sp, at a transfer lr too.
fn usual() -> Boundary {
    Boundary {
        call: set(0x2fff),
        transfer: set(0x6fff),
        ret: set(0x2fff),
    }
}

fn refused<R: Print>(rt: &R, why: Deny) -> Result<()> {
    match why {
        Deny::NoMemory => bail!("no memory"),
        Deny::Refused(spot) => {
            println!(rt;
                "refused {} section {} offset {}",
                spot.refusal.name(),
                spot.section,
                spot.offset
            )?;
            Ok(())
        }
    }
}

fn find_live<R: Print>(rt: &R, alloc: Global, f: &Flow) -> Result<()>
    requires { NamesPoints f.now }
{
    match live(alloc, f, &usual()) {
        Err(why) => refused(rt, why),
        Ok(sets) => {
            println!(rt; "points {} turns {}", f.points().len(), sets.turns())?;
            Ok(())
        }
    }
}

fn follow<R: Print>(rt: &R, alloc: Global, o: &Object, stage: &str) -> Result<()> {
    if !within(o, &Limit::ANY) {
        bail!("too large");
    }
    match recover(alloc, o) {
        Err(why) => refused(rt, why),
        Ok(f) => {
            recovered_flows_name_points();
            if stage == "live" {
                find_live(rt, alloc, &f)
            } else {
                println!(rt; "points {}", f.points().len())?;
                Ok(())
            }
        }
    }
}

fn told<R: Files + Print + AllocGlobal>(rt: &R, stage: &str, from: &str) -> Result<()> {
    let alloc = rt.alloc();
    let bytes = fs::read(rt, from)?;
    if bytes.len() > Limit::ANY.file as usize {
        bail!("too long");
    }
    match read_object(alloc, &bytes, &Limit::ANY) {
        Err(why) => refused(rt, why),
        Ok(read) => {
            if stage == "read" {
                println!(rt; "sections {}", read.object.sections().len())?;
                Ok(())
            } else {
                follow(rt, alloc, &read.object, stage)
            }
        }
    }
}

fn main(rt: HostRuntime) -> Result<()> {
    let mut args = std::env::args(&rt)?;
    let _program = args.next();
    let stage = args.next();
    let from = args.next();
    match (stage, from) {
        (Some(stage), Some(from)) => told(&rt, stage.as_str(), from.as_str()),
        _ => bail!("usage: flow_speed read|recover|live FILE"),
    }
}
RT
  (cd "$work" && git init -q 2> /dev/null || true)
  (cd "$work/crates/flow_speed" && rt run -- read /dev/null > "$work/build.log" 2>&1 || true)
  program=$work/crates/flow_speed/out/flow_speed
  [ -x "$program" ] || { tail -5 "$work/build.log"; exit 1; }
}

program=${FLOW_SPEED:-}
[ -n "$program" ] || build

# The processor's seconds of a stage, the least of three runs; what is printed goes to the file `line`.
seconds() {
  for _ in 1 2 3; do
    (
      TIMEFORMAT='%U %S'
      # FLOW_SPEED may be of several words
      time $program "$1" "$2" > "$work/line" 2>&1
    ) 2>&1
  done | awk '{ sum = $1 + $2 } NR == 1 || sum < least { least = sum } END { print least }'
}

tell() {
  local read recover live
  read=$(seconds read "$1")
  recover=$(seconds recover "$1")
  live=$(seconds live "$1")
  python3 - "$2" "$read" "$recover" "$live" "$(cat "$work/line")" << 'PYTHON'
import sys
name, (read, recover, live), line = sys.argv[1], map(float, sys.argv[2:5]), sys.argv[5].split()
if line[0] == "points" and len(line) == 4:
    points, turns = int(line[1]), int(line[3])
    print("%s: %d points; recovery %.2f s, liveness %.2f s, %.1f turns a point"
          % (name, points, max(0, recover - read), max(0, live - recover), turns / max(1, points)))
else:
    print("%s: %s" % (name, " ".join(line)))
PYTHON
}

if [ $# -gt 0 ]; then
  for file in "$@"; do tell "$file" "$(basename "$file")"; done
  exit 0
fi

for size in 16384 65536 262144 1048576; do
  python3 "$top/bench/branching_object.py" "$size" "$work/code.o"
  tell "$work/code.o" "$size bytes of code"
done
for count in 30000 60000; do
  python3 "$top/bench/chain_object.py" "$count" "$work/chain.o"
  tell "$work/chain.o" "a chain of $count"
done

command -v arm-none-eabi-gcc > /dev/null || { echo 'arm-none-eabi-gcc is not installed' >&2; exit 0; }
for level in -O2 -Os; do
  for name in $(sed -n 's/^#ifdef FUNCTION_//p' "$top/bench/functions.c"); do
    arm-none-eabi-gcc -c -mcpu=cortex-m3 -mthumb "$level" -fno-jump-tables "-DFUNCTION_$name" \
      "$top/bench/functions.c" -o "$work/function.o"
    $program live "$work/function.o"
  done | python3 -c '
import sys
lines = [line.split() for line in sys.stdin]
flows = sorted((int(turns) / int(points), int(points)) for kind, points, _, turns in
               (line for line in lines if line[0] == "points"))
turns = [n for n, _ in flows]
print("%s: %d of %d functions have a flow, of %d to %d points; %.1f to %.1f turns a point, in the middle %.1f"
      % (sys.argv[1], len(flows), len(lines), min(p for _, p in flows), max(p for _, p in flows), turns[0], turns[-1],
         turns[len(turns) // 2]))' "$level"
done
