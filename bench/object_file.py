"""The tables of a relocatable file for Arm, for the scripts that write objects."""
import struct


def table(names):
    """A string table with each name once, and where each stands in it."""
    text, places = b"\0", {}
    for name in names:
        if name and name not in places:
            places[name] = len(text)
            text += name + b"\0"
    return text, places


def write(heads, path):
    """Writes a file of these headers, each (name, type, flags, content, link, info, alignment, entry size)."""
    shstrtab, places = table([h[0] for h in heads] + [b".shstrtab"])
    heads = heads + [(b".shstrtab", 3, 0, shstrtab, 0, 0, 1, 0)]
    body, rows = b"", bytes(40)
    for name, kind, flags, content, link, info, align, entry in heads:
        body += bytes(-(52 + len(body)) % align)
        rows += struct.pack("<10I", places[name], kind, flags, 0, 52 + len(body), len(content), link, info, align, entry)
        body += content
    body += bytes(-(52 + len(body)) % 4)
    header = b"\x7fELF\x01\x01\x01" + bytes(9) + struct.pack(
        "<HHIIIIIHHHHHH", 1, 40, 1, 0, 0, 52 + len(body), 0x05000000, 52, 0, 0, 40, len(heads) + 1, len(heads))
    with open(path, "wb") as out:
        out.write(header + body + rows)
