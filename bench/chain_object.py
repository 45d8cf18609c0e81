"""Writes an object whose function f goes back from its end to its start: so many branches, each to the one before it,
the first to a return. Usage: chain_object.py BRANCHES FILE"""
import struct
import sys

from object_file import table, write

RETURN = 0x4770  # bx lr
BACK = 0xE7FD  # b to the halfword before


def far(offset):
    """b.w over an offset from its own place, forwards."""
    ahead = offset - 4
    return [0xF000 | ahead >> 12 & 0x3FF, 0xB800 | ahead >> 1 & 0x7FF]


def main():
    count = int(sys.argv[1])
    halves = far(4 + 2 * count) + [RETURN] + [BACK] * count
    text = struct.pack("<%dH" % len(halves), *halves)
    strtab, at = table([b"$t", b"f"])
    symtab = bytes(16) + struct.pack("<IIIBBH", at[b"$t"], 0, 0, 0, 0, 1) + struct.pack(
        "<IIIBBH", at[b"f"], 1, len(text), 1 << 4 | 2, 0, 1)
    heads = [(b".text", 1, 6, text, 0, 0, 4, 0), (b".symtab", 2, 0, symtab, 3, 2, 4, 16),
             (b".strtab", 3, 0, strtab, 0, 0, 1, 0)]
    write(heads, sys.argv[2])


main()
