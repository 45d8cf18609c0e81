"""Writes an object with functions of 32 bytes, up to so many bytes of code. Each has a loop that loads a literal and
calls the next function by a relocation, and an IT block; the last calls itself. Usage: branching_object.py BYTES FILE"""
import struct
import sys

from object_file import table, write

FUNCTION = [
    0xB510,  # push {r4, lr}
    0x2400,  # movs r4, #0
    0x4805,  # ldr r0, the word at 28
    0xF7FF, 0xFFFE,  # bl, by a relocation
    0x1824,  # adds r4, r4, r0
    0x2C0A,  # cmp r4, #10
    0xDBF9,  # blt to the load
    0xBFD8,  # it le
    0x2401,  # movle r4, #1
    0x4620,  # mov r0, r4
    0xBD10,  # pop {r4, pc}
    0xBF00, 0x46C0,  # two that do nothing
    0x0000, 0x0001,  # the word
]


def main():
    size = 2 * len(FUNCTION)
    count = max(1, int(sys.argv[1]) // size)
    text = struct.pack("<%dH" % len(FUNCTION), *FUNCTION) * count
    names = [b"f%d" % k for k in range(count)]
    strtab, at = table([b"$t", b"$d"] + names)
    marks = [(at[name], size * k + place) for k in range(count) for name, place in ((b"$t", 0), (b"$d", 28))]
    symtab = bytes(16) + b"".join(struct.pack("<IIIBBH", name, place, 0, 0, 0, 1) for name, place in marks) + b"".join(
        struct.pack("<IIIBBH", at[name], size * k + 1, 28, 1 << 4 | 2, 0, 1) for k, name in enumerate(names))
    first = 1 + len(marks)
    rel = b"".join(
        struct.pack("<II", size * k + 6, first + min(k + 1, count - 1) << 8 | 10) for k in range(count))
    heads = [(b".text", 1, 6, text, 0, 0, 4, 0), (b".rel.text", 9, 0, rel, 3, 1, 4, 8),
             (b".symtab", 2, 0, symtab, 4, first, 4, 16), (b".strtab", 3, 0, strtab, 0, 0, 1, 0)]
    write(heads, sys.argv[2])


main()
