"""Scrambles the code of an object, and compares two listings of it. Usage: list_agrees.py scramble SEED BYTES FILE, or
list_agrees.py compare OWN OTHER, OTHER being the text of arm-none-eabi-objdump -d."""
import random
import re
import sys

REGISTERS = {"sb": "r9", "sl": "r10", "fp": "r11", "ip": "r12"}
SHIFTS = ("lsl", "lsr", "asr", "ror")
ALU = ("and", "bic", "orr", "orn", "eor", "add", "adc", "sbc", "sub", "rsb")


def scramble(seed, size, path):
    # no IT, whose block would reach over the next instructions
    draw = random.Random(seed)
    code = bytearray()
    while len(code) < size:
        half = draw.randrange(65536)
        if half >> 8 != 0xBF:
            code += half.to_bytes(2, "little")
    with open(path, "r+b") as file:
        file.seek(52)
        file.write(code[:size])


def operands(text):
    # commas inside brackets and braces part nothing
    parts, depth, part = [], 0, ""
    for c in text:
        depth += (c in "[{") - (c in "]}")
        if c == "," and depth == 0:
            parts.append(part.strip())
            part = ""
        else:
            part += c
    return parts + [part.strip()] if part.strip() else parts


def target(text):
    return "0x%08x" % (int(text.split()[0], 16) & 0xFFFFFFFF)


def memory(text):
    inner = re.fullmatch(r"\[([^\]]*)\](!?)", text)
    if not inner:
        return text
    parts = operands(inner.group(1))
    if len(parts) == 1:
        parts.append("#0")
    elif len(parts) == 2 and not parts[1].startswith("#"):
        parts.append("lsl #0")
    return "[" + ", ".join(parts) + "]" + inner.group(2)


def alike(at, name, text, note):
    """The line of objdump in the other's spelling."""
    text = re.sub(r"<[^>]*>", "", text)
    text = re.sub(r"\b(sb|sl|fp|ip)\b", lambda m: REGISTERS[m.group(1)], text)
    name = re.sub(r"\.[nw]$", "", name)
    if name == "nop" and "mov r8, r8" in note + text:
        return "mov r8, r8"
    ops = operands(text)
    if name in ("push", "pop"):
        return ("stmdb" if name == "push" else "ldmia") + " sp!, " + ops[0].replace(", ", ",")
    if re.fullmatch(r"(ldm|stm)(ia|db)?", name):
        return (name if len(name) > 3 else name + "ia") + " " + ops[0] + ", " + ops[1].replace(", ", ",")
    if name in ("b", "bl") or re.fullmatch(r"b(eq|ne|cs|cc|mi|pl|vs|vc|hi|ls|ge|lt|gt|le)", name):
        return name + " " + target(ops[0])
    if name in ("cbz", "cbnz"):
        return name + " " + ops[0] + ", " + target(ops[1])
    if name in ("dmb", "dsb", "isb"):
        names = {"sy": 15, "st": 14, "ish": 11, "ishst": 10, "un": 7, "unst": 6, "osh": 3, "oshst": 2}
        option = names.get(ops[0]) if ops else 15
        return name + " #" + str(int(ops[0][1:], 0) if option is None else option)
    if name == "ldr" and len(ops) == 2 and re.match(r"\[pc", ops[1]):
        offset = re.search(r"#(-?\d+)", ops[1])
        value = int(offset.group(1)) if offset else 0
        return "ldr " + ops[0] + ", 0x%08x" % (((at + 4) // 4 * 4 + value) & 0xFFFFFFFF)
    if name in ("addw", "subw", "add", "sub") and len(ops) == 3 and ops[1] == "pc":
        value = int(ops[2][1:], 0) * (1 if name.startswith("add") else -1)
        return "adr " + ops[0] + ", 0x%08x" % (((at + 4) // 4 * 4 + value) & 0xFFFFFFFF)
    stem, s = (name[:-1], "s") if name.endswith("s") and name[:-1] in ALU + SHIFTS + ("mov", "mvn", "mul", "neg", "rrx") else (name, "")
    if stem == "neg":
        return "rsb" + s + " " + ops[0] + ", " + ops[1] + ", #0"
    if stem == "rrx":
        return "mov" + s + " " + ops[0] + ", " + ops[1] + ", rrx"
    if stem in SHIFTS:
        if len(ops) == 2:
            ops = [ops[0]] + ops
        if ops[2].startswith("#"):
            return "mov" + s + " " + ops[0] + ", " + ops[1] + ", " + stem + " " + ops[2]
        return name + " " + ", ".join(ops)
    if stem == "mul" and len(ops) == 2:
        ops = [ops[0], ops[1], ops[0]]
    if stem in ALU and len(ops) == 2:
        ops = [ops[0]] + ops
    if not (len(ops) > 2 and ops[-1].startswith("#") and ops[-2].endswith("]")):
        ops = [memory(o) for o in ops]
    ops = ["#%d" % (int(o[1:], 0) & 0xFFFFFFFF if int(o[1:], 0) < 0 and not name.startswith(("ldr", "str")) else int(o[1:], 0))
           if re.fullmatch(r"#-?(0x[0-9a-f]+|\d+)", o) and o != "#-0" else o for o in ops]
    return (name + " " + ", ".join(ops)).strip()


def own_lines(path):
    lines = {}
    for line in open(path):
        found = re.match(r"([0-9a-f]{8})  (\S.*)$", line)
        if found and not found.group(2).startswith("."):
            lines[int(found.group(1), 16)] = found.group(2).rstrip("\n")
    return lines


def other_lines(path):
    lines = {}
    for line in open(path):
        found = re.match(r"\s*([0-9a-f]+):\t[0-9a-f ]+\t(\S+)(?:\t([^;@]*))?(?:[;@]\s*(.*))?", line)
        if found:
            at = int(found.group(1), 16)
            lines[at] = (found.group(2), (found.group(3) or "").strip(), found.group(4) or "")
    return lines


def compare(own, other):
    own, other = own_lines(own), other_lines(other)
    shown = differ = crossing = 0
    for at in sorted(own):
        if at not in other:
            # objdump begins anew at each symbol, and shows nothing of an instruction that crosses one
            crossing += 1
            continue
        else:
            try:
                text = alike(at, *other[at])
            except (ValueError, IndexError):
                text = " ".join(other[at])
        # objdump shows the sign of a downward 0 at some places only
        if text.replace("#-0", "#0") != own[at].replace("#-0", "#0"):
            differ += 1
            if shown < 40:
                shown += 1
                print("%08x: %s | %s | %s" % (at, own[at], text, " ".join(other.get(at, ()))))
    print("%d instructions, %d differ; %d more cross a symbol" % (len(own) - crossing, differ, crossing))
    sys.exit(0 if len(own) > crossing and differ == 0 else 1)


if sys.argv[1] == "scramble":
    scramble(int(sys.argv[2]), int(sys.argv[3]), sys.argv[4])
else:
    compare(sys.argv[2], sys.argv[3])
