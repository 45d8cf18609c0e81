"""Changes bytes of compiled objects at random, and counts how `list` and `harden` end on them. Usage: mutations.py FOLDER
COUNT SEED, with the program in SKIPGUARD."""
import collections
import concurrent.futures
import os
import random
import re
import shlex
import shutil
import struct
import subprocess
import sys

from run_agrees import COMPILE, SOURCE, made, named

BATCH, SECONDS = 500, 20
LEVELS = ["-O0", "-O2", "-Os"]
FLAGS = ["-ffixed-r12", "-fno-ipa-ra", "-mslow-flash-data", "-g0"]
# what docs/REFUSALS.md and docs/LISTING.md have
REFUSED = re.compile(r"(\S+): refused (\d+) ([A-Z]\w+) section \d+ offset \d+"
                     r"( register \d+| need \d+ have \d+ flags (yes|no)| distance \d+)?\n")
REPORT = re.compile(r"(\S+): \d+ functions, \d+ -> \d+ instructions, \d+ -> \d+ bytes, \d+ dropped, factor (\d+)\nfactor \2\n")
LISTING = re.compile(r"(section \d+ .*\n)?", re.DOTALL)
EDGES = [0, 1, 2, 3, 4, 7, 40, 0x7F, 0x80, 0xFF, 0x100, 0xFFF1, 0xFFFF, 0x10000, 0x7FFFFFFF, 0x80000000, 0xFFFFFFFC, 0xFFFFFFFF]


def objects(folder):
    """The bytes of small objects: each function of functions.c alone, and the files of a program, with calls and data."""
    several = os.path.join(os.path.dirname(SOURCE), "several")
    sources = [["-DFUNCTION_" + name, SOURCE] for name in named([])]
    sources += [[os.path.join(several, name + ".c")] for name in ("entry", "steps", "texts")]
    found, path = [], os.path.join(folder, "plain.o")
    for level in LEVELS:
        for source in sources:
            made(COMPILE + [level, *FLAGS, "-c", *source, "-o", path])
            with open(path, "rb") as compiled:
                found.append(compiled.read())
    return found


def tables(data):
    """Where the section headers and the contents of sections that are no code stand: fields are more often hit there."""
    start, count = struct.unpack_from("<I", data, 32)[0], struct.unpack_from("<H", data, 48)[0]
    places = [(0, 52), (start, 40 * count)]
    for k in range(1, count):
        _, kind, _, _, offset, size = struct.unpack_from("<6I", data, start + 40 * k)
        if size and kind != 8:
            places.append((offset, size))
    return places


def changed(draw, data):
    """The bytes with one to four changes: another byte, another bit, a number at an edge, or a cut."""
    data, places = bytearray(data), tables(data)
    for _ in range(draw.choice([1, 1, 1, 2, 3, 4])):
        start, size = draw.choice(places)
        at = min(start + draw.randrange(size), len(data) - 4)
        way = draw.randrange(40)
        if way == 0:
            return bytes(data[:draw.randrange(len(data))])
        if way < 14:
            data[at] = draw.randrange(256)
        elif way < 27:
            data[at] ^= 1 << draw.randrange(8)
        else:
            width = draw.choice([1, 2, 4])
            at -= (at - start) % width
            number = draw.choice(EDGES) & (1 << 8 * width) - 1
            data[at:at + width] = number.to_bytes(width, "little")
    return bytes(data)


def run(words):
    """The status, None where the clock ended it, and what was printed."""
    try:
        done = subprocess.run(words, stdout=subprocess.PIPE, stderr=subprocess.STDOUT, stdin=subprocess.DEVNULL,
                              timeout=SECONDS)
    except subprocess.TimeoutExpired:
        return None, ""
    return done.returncode, done.stdout.decode("utf-8", "surrogateescape")


def ending(command, path, out, status, text):
    """How a run ended, in a word or two."""
    if status is None:
        return "time-out"
    if status < 0 or status >= 128:
        return "signal"
    if status == 1:
        found = REFUSED.fullmatch(text)
        saved = command == "harden" and os.path.exists(out)
        return "refused %s %s" % (found[2], found[3]) if found and found[1] == path and not saved else "wrong text"
    if status != 0:
        return "status %d" % status
    right = REPORT.fullmatch(text) and os.path.exists(out) if command == "harden" else LISTING.fullmatch(text)
    return "accepted" if right else "wrong text"


def complaints(path):
    """Whether readelf complains of a file."""
    status, text = run(["arm-none-eabi-readelf", "-a", "-W", path])
    return status != 0 or re.search("readelf: (Error|Warning)", text) is not None


def tried(program, folder, number, data):
    """How each command ends on a file, and what readelf says of the hardened one."""
    path, out = (os.path.join(folder, "%s%d.o" % (n, number)) for n in ("in", "out"))
    with open(path, "wb") as file:
        file.write(data)
    ends = {}
    for command, words in (("list", ["list", path]), ("harden", ["harden", path, out])):
        ends[command] = ending(command, path, out, *run(program + words))
    ends["readelf"] = "not run"
    if ends["harden"] == "accepted":
        ends["readelf"] = "no complaint"
        if complaints(out):
            ends["readelf"] = "complains of the input too" if complaints(path) else "complaint"
    return path, out, ends


def is_bad(ends):
    return ends["readelf"] == "complaint" or any(
        word in ends[command] for command in ("list", "harden") for word in ("time-out", "signal", "status", "wrong"))


def counted(program, folder, files, counts):
    """Tries a batch, adds to the counts, and says how many files are kept because of how a command ended."""
    bad = 0
    with concurrent.futures.ThreadPoolExecutor(os.cpu_count()) as pool:
        for path, out, ends in pool.map(lambda pair: tried(program, folder, *pair), files):
            for command, end in ends.items():
                counts[command][end] += 1
            if is_bad(ends):
                bad += 1
                shutil.copy(path, os.path.join(folder, "kept-" + os.path.basename(path)))
                print("kept-%s: %s" % (os.path.basename(path), ends))
            for name in (path, out):
                if os.path.exists(name):
                    os.remove(name)
    return bad


def main():
    folder, count, draw = sys.argv[1], int(sys.argv[2]), random.Random(int(sys.argv[3]))
    program, plain, bad = shlex.split(os.environ["SKIPGUARD"]), objects(folder), 0
    counts = collections.defaultdict(collections.Counter)
    for first in range(0, count, BATCH):
        numbers = range(first, min(first + BATCH, count))
        bad += counted(program, folder, [(number, changed(draw, draw.choice(plain))) for number in numbers], counts)
    print("%d changed objects of %d" % (count, len(plain)))
    for command in ("list", "harden", "readelf"):
        print("%s: %s" % (command, ", ".join("%d %s" % (number, end) for end, number in counts[command].most_common())))
    print("%d runs ended otherwise than they may" % bad + (", their files are in " + folder if bad else ""))
    sys.exit(bad > 0)


if __name__ == "__main__":
    main()
