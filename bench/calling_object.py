"""Writes an object with so many functions, each of which calls the next by a relocation. Usage: calling_object.py COUNT FILE
[PREFIX [BYTES [WORDS]]]. The names begin with PREFIX, f if it is left out; each function has BYTES, 14 if they are left out. With
WORDS there are so many words of data that each have the address of a function."""
import struct
import sys

from object_file import table, write

FUNCTION = [
    0xB510,  # push {r4, lr}
    0x3001, 0x00C2, 0x1880,  # adds r0, #1; lsls r2, r0, #3; adds r0, r0, r2
    0xF7FF, 0xFFFE,  # bl, by a relocation
    0xBD10,  # pop {r4, pc}
]
LAST = FUNCTION[:4] + FUNCTION[6:]
PAD = 0xBF00  # nop, behind the return


def main():
    count, path = int(sys.argv[1]), sys.argv[2]
    prefix = sys.argv[3].encode() if len(sys.argv) > 3 else b"f"
    size = int(sys.argv[4]) if len(sys.argv) > 4 else 2 * len(FUNCTION)
    pads = [PAD] * (size // 2 - len(FUNCTION))
    halves = (FUNCTION + pads) * (count - 1) + LAST
    text = struct.pack("<%dH" % len(halves), *halves)
    names = [prefix + b"%d" % k for k in range(count)]
    strtab, at = table([b"$t"] + names)
    symtab = bytes(16) + struct.pack("<IIIBBH", at[b"$t"], 0, 0, 0, 0, 1) + b"".join(
        struct.pack("<IIIBBH", at[name], size * k + 1, size if k < count - 1 else 2 * len(LAST), 1 << 4 | 2, 0, 1)
        for k, name in enumerate(names))
    rel = b"".join(struct.pack("<II", size * k + 8, k + 3 << 8 | 10) for k in range(count - 1))
    heads = [(b".text", 1, 6, text, 0, 0, 4, 0), (b".rel.text", 9, 0, rel, 3, 1, 4, 8),
             (b".symtab", 2, 0, symtab, 4, 2, 4, 16), (b".strtab", 3, 0, strtab, 0, 0, 1, 0)]
    words = int(sys.argv[5]) if len(sys.argv) > 5 else 0
    if words:
        addresses = b"".join(struct.pack("<II", 4 * k, k % count + 2 << 8 | 2) for k in range(words))
        heads += [(b".data", 1, 3, bytes(4 * words), 0, 0, 4, 0), (b".rel.data", 9, 0, addresses, 3, 5, 4, 8)]
    write(heads, path)


main()
