"""Writes files made to hurt, runs `harden`, `list` and `link` on each and on one of half its size, and prints what that
takes as a table. Usage: hostile.py FOLDER, with the program in SKIPGUARD."""
import os
import resource
import shlex
import struct
import subprocess
import sys

from object_file import table, write

RETURN, NOP = 0x4770, 0xBF00
ABSOLUTE, LOCAL, FUNCTION = 2, 0, 1 << 4 | 2  # a kind of relocation; two of symbols
LONG_NAME = b"n" * 4095
RUNS, SECONDS, BYTES = 3, 120, 8 << 30  # of a run at most


def code(halves):
    return struct.pack("<%dH" % len(halves), *halves)


def symbol_table(symbols):
    """The string table, the symbol table and how many of its symbols are local, the first one included. The symbols are
    (name, value, kind, section), the local ones first."""
    strtab, at = table([name for name, _, _, _ in symbols])
    rows = [struct.pack("<IIIBBH", at[name], value, 0, kind, 0, section) for name, value, kind, section in symbols]
    return strtab, bytes(16) + b"".join(rows), 1 + sum(kind < 16 for _, _, kind, _ in symbols)


def save(path, sections, symbols, relocated=None):
    """Writes a file of these sections, each (name, flags, content), of these symbols, and of the relocations of the last
    section, each (place, symbol)."""
    strtab, symtab, locals_ = symbol_table(symbols)
    heads = [(name, 1, flags, content, 0, 0, 4, 0) for name, flags, content in sections]
    tables = len(heads) + 1
    heads += [(b".symtab", 2, 0, symtab, tables + 1, locals_, 4, 16), (b".strtab", 3, 0, strtab, 0, 0, 1, 0)]
    if relocated:
        rows = b"".join(struct.pack("<II", place, symbol << 8 | ABSOLUTE) for place, symbol in relocated)
        heads.append((b".rel", 9, 0, rows, tables, tables - 1, 4, 8))
    write(heads, path)


def save_code(path, halves, starts=((b"$t", 0),), functions=((b"f", 0),)):
    """Writes a file with one section of code, with mapping symbols and functions, each (name, value)."""
    symbols = [(name, value, LOCAL, 1) for name, value in starts]
    symbols += [(name, value + 1, FUNCTION, 1) for name, value in functions]
    save(path, [(b".text", 6, code(halves))], symbols)


def one_name(path, count):
    """Local symbols that share one name of the greatest length."""
    save(path, [(b".text", 6, code([RETURN, NOP]))], [(b"$t", 0, LOCAL, 1)] + [(LONG_NAME, 0, LOCAL, 1)] * (count - 2) +
         [(b"f", 1, FUNCTION, 1)])


def with_words(path, places, words):
    """Code, and words with relocations at these places, in this order."""
    save(path, [(b".text", 6, code([RETURN, NOP])), (b".data", 3, bytes(4 * words))],
         [(b"$t", 0, LOCAL, 1), (b"d", 0, LOCAL, 2), (b"f", 1, FUNCTION, 1)], [(place, 2) for place in places])


def one_place(path, count):
    """Relocations at one place."""
    with_words(path, [0] * count, 1)


def places_backwards(path, count):
    """Relocations of the words of a section, from its end to its start."""
    with_words(path, range(4 * count - 4, -1, -4), count)


def many_sections(path, count):
    """Sections of code, with 64 symbols each, in no order of sections."""
    symbols = [(b"$t", 0, LOCAL, k + 1) for k in range(count)] + [
        (b"x%d" % k, 0, LOCAL, 1 + k * 7 % count) for k in range(62 * count)]
    save(path, [(b".text.%d" % k, 6, code([0x2000, RETURN])) for k in range(count)],
         symbols + [(b"f%d" % k, 1, FUNCTION, k + 1) for k in range(count)])


def it_blocks(path, count):
    """Blocks of IT, each with four instructions, behind a comparison."""
    save_code(path, [0x2800] + [0xBF01, 0x2101, 0x2202, 0x2303, 0x2101] * count + [RETURN])


def branches_back(path, count):
    """A branch to the end, and from there back to the start, branch by branch, each to the one before it."""
    ahead = 2 * count
    save_code(path, [0xF000 | ahead >> 12 & 0x3FF, 0xB800 | ahead >> 1 & 0x7FF, RETURN] + [0xE7FD] * count)


def branches_that_grow(path, count):
    """Conditional branches forwards. With each instruction twice, each reaches its goal in two bytes unless all branches
    in between need four, and the last one does: a layout that widens in rounds has as many rounds as branches."""
    ahead = [max(33, 65 - k) for k in range(count)]
    save_code(path, [0x2800] + [0xD000 | k - 2 for k in reversed(ahead)] + [NOP] * 70 + [RETURN])


def pools(path, count):
    """Functions with words at both ends, of which each loads words of both 230 times, from as far as they reach."""
    words, loads = 16, 230
    size = 8 * words + 8 * loads + 4
    block = [0x1111] * (2 * words)
    for k in range(2 * loads):
        goal = 4 * (k % words) + (0 if k % 2 else size - 4 * words)
        offset = goal - (4 * words + 4 * k + 4)
        block += [0xF8DF if offset >= 0 else 0xF85F, abs(offset)]
    block += [RETURN, NOP] + [0x2222] * (2 * words)
    starts = [pair for k in range(count) for pair in (
        (b"$d", size * k), (b"$t", size * k + 4 * words), (b"$d", size * k + size - 4 * words))]
    save_code(path, block * count, starts, [(b"f%d" % k, size * k + 4 * words) for k in range(count)])


def mapping_symbols(path, count):
    """Branches over a word each, so that code and data change as often as symbols may."""
    starts = [pair for k in range(count // 2) for pair in ((b"$t", 8 * k), (b"$d", 8 * k + 4))]
    save_code(path, [0xE002, NOP, 0, 0] * (count // 2) + [RETURN], starts + [(b"$t", 8 * (count // 2))])


# Files that are nearly all code: `harden` keeps a sequence for each instruction, of some 650 bytes.
DENSE = [it_blocks, branches_back, branches_that_grow, pools]

# A file, how large one each command is given, and how a command ends that does not take it.
FILES = [
    (one_name, {"harden": 16000, "list": 32768, "link": 32768}, None),
    (one_place, {"harden": 65536, "list": 65536, "link": 65536}, "refused 6 BadReloc"),
    (places_backwards, {"harden": 65536, "list": 65536, "link": 65536}, None),
    (many_sections, {"harden": 250, "list": 1020, "link": 1020}, None),
    (it_blocks, {"harden": 6552, "list": 52000, "link": 52000}, None),
    (branches_back, {"harden": 32000, "list": 260000, "link": 260000}, None),
    (branches_that_grow, {"harden": 32000, "list": 260000, "link": 260000}, None),
    (pools, {"harden": 33, "list": 260, "link": 260}, None),
    (mapping_symbols, {"harden": 16000, "list": 131000, "link": 131000}, None),
]


def command(program, name, path, out):
    return program + {"harden": ["harden", path, out], "list": ["list", path],
                      "link": ["link", "--base", "0x8000", "--room", "524288", out, path]}[name]


def limit():
    resource.setrlimit(resource.RLIMIT_CPU, (SECONDS, SECONDS))
    resource.setrlimit(resource.RLIMIT_AS, (BYTES, BYTES))


def measured(words, text):
    """The status, the seconds of the processor, and the bytes of memory of one run. What starts it is small, since the
    system counts the memory of that too."""
    words = ["/usr/bin/time", "-q", "-f", "%M", "-o", text + ".memory"] + words
    with open(text, "wb") as out:
        done = subprocess.Popen(words, stdout=out, stdin=subprocess.DEVNULL, preexec_fn=limit)
    _, status, used = os.wait4(done.pid, 0)
    done.returncode = os.waitstatus_to_exitcode(status)
    with open(text + ".memory") as memory:
        return done.returncode, used.ru_utime + used.ru_stime, 1024 * int(memory.read())


def least(words, text):
    """The status, the least seconds and the most memory of some runs."""
    runs = [measured(words, text) for _ in range(RUNS)]
    return runs[0][0], min(run[1] for run in runs), max(run[2] for run in runs)


def ends(status, text, refusal):
    with open(text, "rb") as out:
        start = out.read(400)
    return status == 0 if refusal is None else status == 1 and refusal.encode() in start


def known_of(kind, name, count, size):
    """What is known to take more than 40 times the file, if anything, and how much that may be."""
    if kind is one_name:
        return "a name for each symbol", size + 3 * len(LONG_NAME) * count
    if kind in DENSE and name == "harden":
        return "a sequence for each instruction", 360 * size
    return "", 40 * size


def row(program, folder, kind, name, count, refusal, idle):
    """Prints the line of a file and a command; whether it kept its bounds."""
    path, out, text = (os.path.join(folder, n) for n in ("in.o", "out", "text"))
    kind(path, count // 2)
    _, half, _ = least(command(program, name, path, out), text)
    kind(path, count)
    size = os.path.getsize(path)
    status, seconds, memory = least(command(program, name, path, out), text)
    memory = max(0, memory - idle)
    known, bound = known_of(kind, name, count, size)
    wrong = [what for what, holds in (
        ("status %d" % status, ends(status, text, refusal)),
        ("seconds", seconds <= 4 * half + 0.02),
        ("memory", memory <= bound),
        (known, memory <= 40 * size)) if what and not holds]
    print("| %s | %s | %d | %.3f | %.3f | %.1f | %.1f | %s |" % (
        kind.__name__.replace("_", " "), name, size, seconds, half, memory / 1e6, memory / size, ", ".join(wrong)), flush=True)
    return not wrong or wrong == [known]


def main():
    folder = sys.argv[1]
    program = shlex.split(os.environ["SKIPGUARD"])
    empty = os.path.join(folder, "empty.o")
    write([], empty)
    _, _, idle = least(command(program, "list", empty, ""), os.path.join(folder, "text"))
    print("| File | Command | bytes | seconds | of half the size | MB | times the file | over its bound |")
    print("|---|---|---|---|---|---|---|---|")
    kept = [row(program, folder, kind, name, count, refusal, idle)
            for kind, counts, refusal in FILES for name, count in counts.items()]
    print("%d of %d within their bounds" % (sum(kept), len(kept)))
    sys.exit(not all(kept))


if __name__ == "__main__":
    main()
