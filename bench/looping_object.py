"""Writes an object whose function f goes round a loop of ten plain instructions as often as its argument says, and
behind it functions of 1 KiB that nothing calls, up to so many bytes of code. Usage: looping_object.py BYTES FILE"""
import struct
import sys

from object_file import table, write

LOOP = [
    0x3103,  # adds r1, #3
    0x460A,  # mov r2, r1
    0x4053,  # eors r3, r2
    0x005C,  # lsls r4, r3, #1
    0x1909,  # adds r1, r1, r4
    0x0A0D,  # lsrs r5, r1, #8
    0x434D,  # muls r5, r1, r5
    0x195B,  # adds r3, r3, r5
    0x3801,  # subs r0, #1
    0xD1F5,  # bne to the first
]
LEAVE = [0x4608, 0x4770]  # mov r0, r1; bx lr
MORE = [0x1840, 0x4048] * 255 + [0x46C0, 0x4770]  # adds r0, r0, r1; eors r0, r1; ..; nop; bx lr


def main():
    halves, functions = LOOP + LEAVE, [(b"f", 0, 2 * len(LOOP + LEAVE))]
    while 2 * len(halves) < int(sys.argv[1]):
        more = MORE[-min(len(MORE), int(sys.argv[1]) // 2 - len(halves)):]
        functions.append((b"g%d" % len(functions), 2 * len(halves), 2 * len(more)))
        halves += more
    text = struct.pack("<%dH" % len(halves), *halves)
    strtab, at = table([b"$t"] + [name for name, _, _ in functions])
    symtab = bytes(16) + struct.pack("<IIIBBH", at[b"$t"], 0, 0, 0, 0, 1) + b"".join(
        struct.pack("<IIIBBH", at[name], start + 1, size, 1 << 4 | 2, 0, 1) for name, start, size in functions)
    heads = [(b".text", 1, 6, text, 0, 0, 4, 0), (b".symtab", 2, 0, symtab, 3, 2, 4, 16),
             (b".strtab", 3, 0, strtab, 0, 0, 1, 0)]
    write(heads, sys.argv[2])


main()
