"""Writes a relocatable file of about so many bytes, laid out as the canonical file of its object: data with a
relocation for each word and a symbol for each four. Usage: large_object.py BYTES FILE [PREFIX]. The names begin with
PREFIX, s if it is left out."""
import struct
import sys

from object_file import table, write


def main():
    # a word of data costs 4 bytes, 8 of a relocation and a quarter of a symbol and its name
    words = int(sys.argv[1]) // 18
    count = max(1, words // 4)
    data = bytes(4 * words)
    prefix = sys.argv[3].encode() if len(sys.argv) > 3 else b"s"
    names = [prefix + b"%d" % k for k in range(count)]
    strtab, at = table(names)
    symtab = bytes(16) + b"".join(
        struct.pack("<IIIBBH", at[n], 4 * k, 4, 1 << 4 | 1, 0, 1) for k, n in enumerate(names))
    rel = b"".join(struct.pack("<II", 4 * k, (k % count + 1) << 8 | 2) for k in range(words))
    heads = [(b".data", 1, 3, data, 0, 0, 4, 0), (b".rel.data", 9, 0, rel, 3, 1, 4, 8),
             (b".symtab", 2, 0, symtab, 4, 1, 4, 16), (b".strtab", 3, 0, strtab, 0, 0, 1, 0)]
    write(heads, sys.argv[2])


main()
