"""Hardens each function of functions.c, looks at the hardened objects with the binutils, and runs them with and without
skips against what QEMU gives for the plain ones. Usage: harden_agrees.py FOLDER [FUNCTION ..]"""
import os
import re
import shlex
import sys

from run_agrees import ARGUMENTS, RETURNED, call, emulated, made, named, objects_at

LEVELS = ["-O0", "-O2", "-Os"]
FLAGS = ["-ffixed-r12", "-fno-ipa-ra", "-mslow-flash-data"]
SEEDS = range(50)
FACTOR = re.compile(r"factor (\d+)\n\Z")


def run(program, path, name, argument, more=()):
    """What r0 is at the end of a run, or the line that says why there is none."""
    done = call(program + ["run", "--base", "0x8000", "--room", "16384", "--entry", name, "--arg", "%#x" % argument,
                           "--steps", "1000000", *more, path])
    found = RETURNED.fullmatch(done.stdout)
    return int(found[2], 16) if done.returncode == 0 and found else done.stdout.strip()


def complaints(path):
    """What the binutils say of an object that is not what they print of every one."""
    said = []
    for words in (["arm-none-eabi-readelf", "-a", "-W", path], ["arm-none-eabi-objdump", "-d", path],
                  ["arm-none-eabi-ld", "-e", "0", "-o", path + ".elf", path], ["arm-none-eabi-ld", "-r", "-o", path + ".r", path]):
        done = call(words)
        lines = done.stdout.splitlines()
        wrong = lines if words[0].endswith("-ld") else [line for line in lines if re.search("[Ww]arning|[Ee]rror|corrupt|<unknown>", line)]
        if done.returncode != 0 or wrong:
            said.append("%s: status %d, %s" % (words[0], done.returncode, "; ".join(wrong[:3])))
    return said


def main():
    folder, names = sys.argv[1], named(sys.argv[2:])
    program = shlex.split(os.environ["SKIPGUARD"])
    os.makedirs(folder, exist_ok=True)
    agree = runs = hardened = refused = wrong = 0
    for level in LEVELS:
        objects = objects_at(folder, level, names, FLAGS)
        given = emulated(folder, level, objects)
        for name in names:
            path = os.path.join(folder, name + level + ".hard.o")
            done = call(program + ["harden", objects[name], path])
            if done.returncode != 0 or not FACTOR.search(done.stdout):
                refused += 1
                print("%s %s: %s" % (name, level, done.stdout.strip().replace(objects[name], "")), flush=True)
                continue
            hardened += 1
            for line in complaints(path):
                wrong += 1
                print("%s %s: %s" % (name, level, line), flush=True)
            for place, argument in enumerate(ARGUMENTS):
                # every argument without skips, and all seeds over the arguments in turn
                skips = [()] + [("--seed", str(seed)) for seed in SEEDS if seed % len(ARGUMENTS) == place]
                for more in skips:
                    runs += 1
                    result = run(program, path, name, argument, more)
                    if result == given[name, argument]:
                        agree += 1
                    else:
                        print("%s %s of 0x%08x %s: %s, QEMU gives 0x%08x" % (
                            name, level, argument, " ".join(more), result if isinstance(result, str) else "r0 is 0x%08x" % result,
                            given[name, argument]), flush=True)
    print("%d objects hardened, %d refused, %d complaints; %d of %d runs agree" % (hardened, refused, wrong, agree, runs))
    sys.exit(0 if agree == runs and wrong == 0 and hardened > 0 else 1)


if __name__ == "__main__":
    main()
