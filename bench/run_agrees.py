"""Runs each function of functions.c under `skipguard run` and under QEMU. Usage: run_agrees.py FOLDER [FUNCTION ..]"""
import os
import re
import shlex
import subprocess
import sys

BENCH = os.path.dirname(os.path.abspath(__file__))
SOURCE = os.path.join(BENCH, "functions.c")
LEVELS = ["-O2", "-Os"]
COMPILE = ["arm-none-eabi-gcc", "-mcpu=cortex-m3", "-mthumb", "-ffreestanding", "-fno-jump-tables", "-fno-pic"]
ARGUMENTS = [0, 1, 2, 7, 100, 0x80, 0xffff, 0x12345678, 0x7fffffff, 0x80000000, 0xdeadbeef, 0xffffffff]
RETURNED = re.compile(r"returned after (\d+) steps, r0 0x([0-9a-f]{8}), ordinary (yes|no)\n")


def call(words, **options):
    return subprocess.run(words, stdout=subprocess.PIPE, stderr=subprocess.STDOUT, stdin=subprocess.DEVNULL, text=True,
                          timeout=300, **options)


def made(words):
    done = call(words)
    if done.returncode != 0:
        sys.exit(" ".join(words) + "\n" + done.stdout)
    return done.stdout


def objects_at(folder, level, names, flags=()):
    """An object for each function, without relocations."""
    objects = {}
    for name in names:
        objects[name] = os.path.join(folder, name + level + ".o")
        made(COMPILE + [level, *flags, "-c", "-DFUNCTION_" + name, SOURCE, "-o", objects[name]])
        if "There are no relocations" not in made(["arm-none-eabi-readelf", "-r", objects[name]]):
            sys.exit(objects[name] + " has relocations")
    return objects


def emulated(folder, level, objects):
    """What QEMU gives for each function and argument, all in one run of these same objects."""
    harness, image, results = (os.path.join(folder, n + level) for n in ("harness.o", "image.elf", "results.txt"))
    calls = " ".join("CALL(%s)" % name for name in objects)
    numbers = ", ".join("%#xu" % argument for argument in ARGUMENTS)
    made(COMPILE + ["-O1", "-c", "-DCALLS=" + calls, "-DARGUMENTS=" + numbers, os.path.join(BENCH, "harness.c"),
                    "-o", harness])
    made(["arm-none-eabi-ld", "--section-start=.vectors=0", "-Ttext=0x1000", "-e", "0x1000", harness,
          *objects.values(), "-o", image])
    if os.path.exists(results):
        os.remove(results)
    made(["qemu-system-arm", "-M", "mps2-an385", "-cpu", "cortex-m3", "-nographic", "-kernel", image,
          "-chardev", "file,id=results,path=" + results,
          "-semihosting-config", "enable=on,target=native,chardev=results"])
    given = {}
    with open(results) as lines:
        for line in lines:
            name, argument, result = line.split()
            given[name, int(argument, 16)] = int(result, 16)
    return given


def run(program, path, name, argument):
    """What is wrong with a run or None, its result, and its steps."""
    done = call(program + ["run", "--base", "0x8000", "--room", "4096", "--entry", name, "--arg", "%#x" % argument,
                           "--steps", "100000", path])
    found = RETURNED.fullmatch(done.stdout)
    if done.returncode != 0 or not found:
        return "status %d, %s" % (done.returncode, done.stdout.strip()), None, None
    if found[3] != "yes":
        return done.stdout.strip(), None, None
    return None, int(found[2], 16), int(found[1])


def compared(program, name, level, path, given):
    """Prints each disagreement; the number of runs that agree, and the words for the line of the function."""
    agree, steps = 0, []
    for argument in ARGUMENTS:
        wrong, result, count = run(program, path, name, argument)
        if wrong is None and result != given.get((name, argument)):
            wrong = "r0 is 0x%08x" % result
        if wrong is None:
            agree += 1
            steps.append(count)
        else:
            wanted = given.get((name, argument))
            print("%s %s of 0x%08x: %s, QEMU gives %s" % (
                name, level, argument, wrong, "nothing" if wanted is None else "0x%08x" % wanted))
    span = ", %d to %d steps" % (min(steps), max(steps)) if steps else ""
    return agree, "%s %d of %d%s" % (level, agree, len(ARGUMENTS), span)


def named(names):
    """These functions, or all of them where there are none."""
    with open(SOURCE) as source:
        known = re.findall(r"^#ifdef FUNCTION_(\w+)$", source.read(), re.M)
    for name in names:
        if name not in known:
            sys.exit(name + " is no function of functions.c")
    return names or known


def main():
    folder = sys.argv[1]
    program = shlex.split(os.environ["SKIPGUARD"])
    names = named(sys.argv[2:])
    os.makedirs(folder, exist_ok=True)
    objects = {level: objects_at(folder, level, names) for level in LEVELS}
    given = {level: emulated(folder, level, objects[level]) for level in LEVELS}
    total = whole = 0
    for name in names:
        parts = [compared(program, name, level, objects[level][name], given[level]) for level in LEVELS]
        agree = sum(count for count, _ in parts)
        total += agree
        whole += agree == len(LEVELS) * len(ARGUMENTS)
        print("%s: %s" % (name, "; ".join(text for _, text in parts)), flush=True)
    runs = len(names) * len(LEVELS) * len(ARGUMENTS)
    print("%d of %d functions agree, %d of %d runs" % (whole, len(names), total, runs))
    sys.exit(0 if total == runs else 1)


if __name__ == "__main__":
    main()
