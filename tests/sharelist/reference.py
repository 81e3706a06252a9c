"""The documents' listing of an input, written anew: step words taken apart, the translation for n shares behind its head, the lines."""

CONST, XOR, AND, NOT, SHL, SHR, SPREAD, ADD, RAND, HEAD = range(1, 11)
H, G, P, T = range(32, 36)


def word(kind, d, a=0, b=0):
    return kind << 28 | d << 18 | a << 9 | b


def is_bad(w):
    kind, d, a, b = w >> 28, w >> 18 & 511, w >> 9 & 511, w & 511
    if w >> 27 & 1 or not CONST <= kind <= ADD or d > 31:
        return True
    if kind == CONST:
        return False
    if a > 31:
        return True
    if kind in (NOT, SPREAD):
        return b != 0
    return b > (63 if kind in (SHL, SHR) else 31)


def cell(i, r):
    return 32 * i + r if r < 32 else 288 + 8 * i + r - 32


def and_block(n, d, a, b):
    y, z, t, u = (lambda i: 256 + i), (lambda i: 264 + i), 272, 273
    pairs = [(i, j) for i in range(n) for j in range(i + 1, n)]
    out = [word(SHL, y(i), cell(i, b)) for i in range(n)]
    for i, j in pairs:
        out += [word(RAND, t), word(XOR, y(i), y(i), t), word(XOR, y(j), y(j), t)]
    out += [word(AND, z(i), cell(i, a), y(i)) for i in range(n)]
    for i, j in pairs:
        out += [word(RAND, t), word(XOR, z(i), z(i), t)]
        out += [word(AND, u, cell(i, a), y(j)), word(XOR, t, t, u), word(AND, u, cell(j, a), y(i)), word(XOR, t, t, u)]
        out += [word(XOR, z(j), z(j), t)]
    out += [word(SHL, cell(i, d), z(i)) for i in range(n)]
    return out + [word(CONST, c) for c in [y(i) for i in range(n)] + [z(i) for i in range(n)] + [t, u]]


def steps(kind, d, a, b):
    """A plan's step as steps on registers: ADD is 33 of them."""
    if kind != ADD:
        return [(kind, d, a, b)]
    out = [(XOR, H, a, b), (AND, G, a, b), (SHL, P, H, 0)]
    for k in (1, 2, 4, 8, 16, 32):
        out += [(SHL, T, G, k), (AND, T, P, T), (XOR, G, G, T)]
        if k < 32:
            out += [(SHL, T, P, k), (AND, P, P, T)]
    return out + [(SHL, T, G, 1), (XOR, d, H, T)]


def share(kind, d, a, b, i):
    if kind == CONST:
        return word(CONST, cell(i, d), a, b) if i == 0 else word(CONST, cell(i, d))
    if kind == NOT and i > 0:
        return word(SHL, cell(i, d), cell(i, a))
    return word(kind, cell(i, d), cell(i, a), cell(i, b) if kind == XOR else b)


def translated(n, w):
    out = []
    for kind, d, a, b in steps(w >> 28, w >> 18 & 511, w >> 9 & 511, w & 511):
        out += and_block(n, d, a, b) if kind == AND else [share(kind, d, a, b, i) for i in range(n)]
    return out


def listing(data):
    if not data or not 2 <= data[0] <= 8:
        return b"refused 1\n"
    if len(data) > 8193 or len(data) % 4 != 1:
        return b"refused 2\n"
    n, plan = data[0], [int.from_bytes(data[k : k + 4], "little") for k in range(1, len(data), 4)]
    if any(map(is_bad, plan)):
        return b"refused 3\n"
    blocks = {w: translated(n, w) for w in set(plan)}
    lines = {w: b"".join(b"%08X\n" % s for s in blocks[w]) for w in blocks}
    words = 1 + sum(len(blocks[w]) for w in plan)
    tape = sum(s >> 28 == RAND for w in plan for s in blocks[w])
    return b"shares %d words %d tape %d\n%08X\n" % (n, words, tape, word(HEAD, n)) + b"".join(lines[w] for w in plan)
