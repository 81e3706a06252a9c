#!/usr/bin/env python3
"""destinations.py BINARY: for each instruction of the binary what it writes, one a line, for table.c. A line has the address, the length, the flow
(- none, j jump, c jump on a condition, l call, i jump and k call by a word, r return, s repeated string, ? not known), the offset of an
address that is relative to the instruction (0: none) and the number of places; then for each place its kind (r register, x vector register, m
memory, R and M the same for the word that a jump, call or return goes by), bytes, register, base, index, scale and displacement. An instruction
that is not in the lists below gets ?, and the test fails where one is executed. Flags are left out, and so are the stack pointer's own moves."""
import re, struct, subprocess, sys

NAMES = ["rax", "rcx", "rdx", "rbx", "rsp", "rbp", "rsi", "rdi"] + [f"r{i}" for i in range(8, 16)]
LOW = ["al", "cl", "dl", "bl", "spl", "bpl", "sil", "dil"]
REGISTER = {name: (i, 8) for i, name in enumerate(NAMES)}
for i in range(8):
    REGISTER |= {"e" + NAMES[i][1:]: (i, 4), NAMES[i][1:]: (i, 2), LOW[i]: (i, 1)}
    REGISTER |= {f"r{i + 8}d": (i + 8, 4), f"r{i + 8}w": (i + 8, 2), f"r{i + 8}b": (i + 8, 1)}
REGISTER |= {name: (i, 1) for i, name in enumerate(["ah", "ch", "dh", "bh"])}
SUFFIX = {"b": 1, "w": 2, "l": 4, "q": 8}

NOTHING = re.compile(r"(cmp[bwlq]?|test[bwlq]?|bt[wlq]?|u?comis[sd]|ptest|nop[wl]?|endbr64|ud2|prefetch\w+)$")
WHOLE = re.compile(r"(mov|movabs|movs[bwl][wlq]|movz[bw][wlq]|lea|bsr|bsf|popcnt|[tl]zcnt|bswap|imul|cmov\w+|shld|shrd)$")
CHANGED = re.compile(r"(add|sub|and|or|xor|adc|sbb|inc|dec|neg|not|sh[lr]|sa[lr]|ro[lr]|mov)([bwlq]?)$")
VECTOR = re.compile(r"(mov([au]p[sd]|dq[au]|[dq]|s[sd]|[lh]p[sd]|hlps|lhps|mskp[sd])|padd\w|psub\w|pandn?|por|pxor|psll\w+|psrl\w+|psra\w|pshuf\w+|"
                    r"punpck\w+|pcmp(eq|gt)\w|pmul\w+|pack\w+|pinsr\w|pextr\w|pmovmskb|pm(in|ax)\w+|palignr|(xor|and|andn|or|shuf|unpck[lh])p[sd])$")
STORED = {"movaps": 16, "movups": 16, "movapd": 16, "movupd": 16, "movdqa": 16, "movdqu": 16, "movq": 8, "movd": 4, "movss": 4, "movsd": 8,
          "movlps": 8, "movhps": 8, "movlpd": 8, "movhpd": 8}
MEMORY = re.compile(r"(-?0x[0-9a-f]+)?\((?:%(\w+))?(?:,%(\w+)(?:,(\d))?)?\)$")


def split_operands(operands):
    parts, depth = [""], 0
    for letter in operands:
        depth += (letter == "(") - (letter == ")")
        if letter == "," and depth == 0:
            parts.append("")
        else:
            parts[-1] += letter
    return [part.strip() for part in parts if part.strip()]


def place(operand, size, after):
    """The place that an operand names, `size` bytes if in memory; None if it is not understood. `after` is the next instruction's address."""
    name = operand[1:]
    if operand.startswith("%xmm"):
        return ("x", 16, int(operand[4:]), -1, -1, 1, 0)
    if operand[:1] == "%":
        return ("r", 8, REGISTER[name][0], -1, -1, 1, 0) if name in REGISTER else None
    if re.match(r"0x[0-9a-f]+$", operand):
        return ("m", size, -1, -1, -1, 1, int(operand, 16)) if size else None
    found = MEMORY.match(operand)
    if not found or not size:
        return None
    disp = int(found[1] or "0", 16)
    if found[2] == "rip":
        return ("m", size, -1, -1, -1, 1, after + disp)
    if any(part and REGISTER.get(part, (0, 0))[1] != 8 for part in (found[2], found[3])):
        return None
    base, index = (REGISTER[part][0] if part else -1 for part in (found[2], found[3]))
    return ("m", size, -1, base, index, int(found[4] or 1), disp)


def register(number):
    return ("r", 8, number, -1, -1, 1, 0)


def by_word(operand, after):
    """The place of the word that an indirect jump or call goes by."""
    found = place(operand.lstrip("*"), 8, after)
    return found and (found[0].upper(),) + found[1:]


def size_of(name, operands):
    """Bytes that an integer instruction writes to memory: by its suffix, else by the register that it is written from."""
    if found := CHANGED.match(name):
        if found[2]:
            return SUFFIX[found[2]]
    first = operands[0][1:] if len(operands) == 2 and operands[0][:1] == "%" else ""
    return 0 if re.match(r"(sh|sa|ro)", name) else REGISTER.get(first, (0, 0))[1]


def string(name, operands):
    """A repeated string instruction: memory at rdi, and the registers that move."""
    source = re.match(r"%(al|ax|eax|rax)$", operands[0])
    size = REGISTER[source[1]][1] if source else SUFFIX.get(name[-1], 0)
    if not size or not re.match(r"(stos|movs)[bwlq]?$", name):
        return None
    return [("m", size, -1, 7, -1, 1, 0), register(7), register(1)] + ([register(6)] if name.startswith("movs") else [])


def flow(name, operands, after):
    """(flow, places) of an instruction that leads elsewhere; None for the others."""
    pushed = ("m", 8, -1, 4, -1, 1, -8)
    if name in ("ret", "retq"):
        return ("?", []) if operands else ("r", [("M", 8, -1, 4, -1, 1, 0)])
    if name in ("jmp", "jmpq", "call", "callq"):
        direct = not operands[0].startswith("*")
        places = [] if direct else [by_word(operands[0], after)]
        return ("jl" if direct else "ik")[name.startswith("call")], places + ([pushed] if name.startswith("call") else [])
    if re.match(r"j(?!r?e?cxz)", name):
        return "c", []
    return None


def written(name, operands, after):
    """The places that an ordinary instruction writes; None if the instruction is not known."""
    last = operands[-1] if operands else ""
    if re.search(r"%mm\d", " ".join(operands)):
        return None  # the replay's own
    if NOTHING.match(name) or (name, operands) == ("xchg", ["%ax", "%ax"]):
        return []
    if name in ("push", "pushq", "pop", "popq") and len(operands) == 1:
        return [("m", 8, -1, 4, -1, 1, -8)] if name.startswith("push") else [place(last, 0, after)]
    if re.match(r"i?(mul|div)[bwlq]?$", name) and len(operands) == 1:
        return [register(0), register(2)]
    if name in ("cqto", "cltd", "cwtd", "cltq", "cwtl", "cbtw"):
        return [register(2 if name in ("cqto", "cltd", "cwtd") else 0)]
    if re.match(r"xchg[bwlq]?$", name):
        width = max(REGISTER.get(part[1:], (0, 0))[1] for part in operands)
        return [place(part, width, after) for part in operands]
    if re.match(r"set\w+$", name):
        return [place(last, 1, after)]
    if re.match(r"bt[crs][wlq]?$", name):
        fixed = operands[0][:1] == "$" or last[:1] == "%"  # a bit of memory by a register's number may stand anywhere
        return [place(last, SUFFIX.get(name[-1], 0), after)] if fixed else None
    if "%xmm" in "".join(operands):
        return [place(last, STORED.get(name, 0), after)] if VECTOR.match(name) else None
    if WHOLE.match(name) or CHANGED.match(name):
        return [place(last, size_of(name, operands), after)]
    return None


def relative(code, operands, after):
    """The offset in the instruction of an address relative to it; 0 if it has none, None if the offset is not clear."""
    found = re.search(r"(-?0x[0-9a-f]+)?\(%rip\)", ",".join(operands))
    if not found:
        return 0
    wanted = struct.pack("<i", int(found[1] or "0", 16))
    offset = code.find(wanted, 1)
    return offset if offset > 0 and code.find(wanted, offset + 1) < 0 else None


def row(address, code, text):
    after = address + len(code)
    words = re.split(r"[#<]", text)[0].split(None)
    repeated = words[0] == "rep"
    while words[0] in ("rep", "data16", "cs", "ds", "notrack", "bnd"):
        words = words[1:] or ["?"]
    name, operands = words[0], split_operands(" ".join(words[1:]))
    at = relative(code, operands, after)
    led = ("s", string(name, operands)) if repeated else flow(name, operands, after)
    kind, places = led if led else ("-", written(name, operands, after))
    if places is None or None in places or at is None:
        kind, places, at = "?", [], 0
    return " ".join(str(part) for part in (f"{address:x}", len(code), kind, at, len(places), *(part for one in places for part in one)))


def main():
    text = subprocess.run(["objdump", "-d", "-w", sys.argv[1]], capture_output=True, text=True, check=True).stdout
    for line in text.splitlines():
        if found := re.match(r"\s*([0-9a-f]+):\t([0-9a-f ]+?)\s*\t(.*)$", line):
            print(row(int(found[1], 16), bytes.fromhex(found[2]), found[3]))


if __name__ == "__main__":
    main()
