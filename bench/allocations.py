"""Refuses the requests for memory of each command one by one. Usage: allocations.py FOLDER, with the program in SKIPGUARD and
calls.o, loop.o and failing_allocation.so in the folder."""
import collections
import os
import shlex
import subprocess
import sys

OUTPUTS = ["one", "two"]  # in the order in which harden saves them
OLD = b"what was there before"
RUNS = [
    "harden calls.o one loop.o two",
    "list calls.o",
    "link --base 0x8000 --room 4096 one calls.o loop.o",
    "run --base 0x8000 --room 4096 --entry f --arg 9 --steps 1000 loop.o",
    "run --base 0x8000 --room 4096 --entry f --arg 9 --steps 1000 --seed 7 loop.o",
    "run --base 0x8000 --room 4096 --entry f --arg 9 --steps 10 --skip 1,3 loop.o",
    "harden calls.o one failing_allocation.so two",
    "list missing.o",
    "run --base 0x8000 --room 4096 --entry g --steps 10 loop.o",
    "harden calls.o",
]
NO_MEMORY = (4, b"no memory\n")
NO_WORDS = (4, b"")  # there is no memory for the words of the command line, so no command to carry out


def read(folder, name):
    with open(os.path.join(folder, name), "rb") as file:
        return file.read()


def run(program, folder, words, number):
    """The status and the text, the outputs, and whether so many requests came."""
    for name in OUTPUTS:
        with open(os.path.join(folder, name), "wb") as file:
            file.write(OLD)
    seen = os.path.join(folder, "seen")
    if os.path.exists(seen):
        os.remove(seen)
    settings = dict(os.environ, LD_PRELOAD=os.path.join(folder, "failing_allocation.so"), FAIL_ALLOCATION=str(number),
                    FAIL_ALLOCATION_SEEN=seen)
    done = subprocess.run(program + words, stdout=subprocess.PIPE, stdin=subprocess.DEVNULL, timeout=60, cwd=folder,
                          env=settings)
    return (done.returncode, done.stdout), [read(folder, name) for name in OUTPUTS], os.path.exists(seen)


def may_be_left(files, whole):
    """Whether the first outputs are whole and the others as they were."""
    return any(files == whole[:k] + [OLD] * (len(files) - k) for k in range(len(files) + 1))


def tried(program, folder, line):
    """Prints how the runs of one command ended; whether each ended as it may."""
    words = line.split()
    whole, saved, _ = run(program, folder, words, 0)
    ends, number, asked = collections.Counter(), 0, True
    while asked:
        number += 1
        end, files, asked = run(program, folder, words, number)
        if (end, files) == (whole, saved):
            ends["as the whole one"] += asked
        elif end == NO_WORDS and number - 1 == ends["no memory for words"] and files == [OLD] * len(files):
            ends["no memory for words"] += 1
        elif end == NO_MEMORY and may_be_left(files, saved):
            ends["no memory"] += 1
        else:
            ends["wrong"] += 1
            print("request %d: status %d, %r" % (number, *end))
    print("%s: status %d; %d requests, %s" % (line, whole[0], number - 1, ", ".join(
        "%d %s" % (count, end) for end, count in ends.items() if count)), flush=True)
    return number > 1 and not ends["wrong"]


def main():
    folder = os.path.abspath(sys.argv[1])
    program = shlex.split(os.environ["SKIPGUARD"])
    right = [tried(program, folder, line) for line in RUNS]
    print("%d of %d commands end as they may" % (sum(right), len(right)))
    sys.exit(not all(right))


if __name__ == "__main__":
    main()
