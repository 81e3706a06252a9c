#!/usr/bin/env python3
"""Straight-line C for the operations on shares, from the plans' own words: the share steps of document 01's translation, each an assignment
to a fresh local.

usage: straight.py OUT [PLANS]

PLANS (or stdin) has a line for each operation: its name, how many operands it has, its words in hexadecimal digits. For each operation and
n = 2..8 the file OUT/NAME_N.c gets one function, straight_NAME_N, of the type in straight.h. What a compiler must not look through, the
masked sums, is marked BAR. Copies (SHL 0) need no assignment, and wiped scratch none either: locals have no cells."""
import pathlib
import sys

CONST, XOR, AND, NOT, SHL, SHR, SPREAD, ADD = range(1, 9)


def pairs(n):
    return [(i, j) for i in range(n) for j in range(i + 1, n)]


class Body:
    """A function's lines; registers map to the names of their shares, zeros where nothing has been set."""

    def __init__(self, n, operands):
        self.n, self.lines, self.locals, self.tape = n, [], 0, 0
        self.registers = [["zero"] * n for _ in range(32)]
        for r, operand in enumerate("xy"[:operands]):
            self.registers[r] = [self.assign(f"{operand}[{i}]") for i in range(n)]

    def assign(self, expression):
        name = f"v{self.locals}"
        self.locals += 1
        self.lines.append(f"uint64_t {name} = {expression};")
        return name

    def masked(self, expression):
        name = self.assign(expression)
        self.lines.append(f"BAR({name});")
        return name

    def rand(self):
        self.tape += 1
        return self.assign(f"tape[{self.tape - 1}]")

    def each(self, form, *operands):
        return [self.assign(form.format(*shares)) for shares in zip(*operands)]

    def xor(self, a, b):
        return self.each("{} ^ {}", a, b)

    def shifted(self, a, sign, k):
        return self.each("{} " + f"{sign} {k}", a) if k else a

    def conjunction(self, a, b):
        """AND: b refreshed, the products of equal shares, then those across."""
        y = list(b)
        for i, j in pairs(self.n):
            r = self.rand()
            y[i] = self.masked(f"{y[i]} ^ {r}")
            y[j] = self.masked(f"{y[j]} ^ {r}")
        z = self.each("{} & {}", a, y)
        for i, j in pairs(self.n):
            t = self.rand()
            z[i] = self.masked(f"{z[i]} ^ {t}")
            u = self.assign(f"{a[i]} & {y[j]}")
            t = self.masked(f"{t} ^ {u}")
            u = self.assign(f"{a[j]} & {y[i]}")
            t = self.masked(f"{t} ^ {u}")
            z[j] = self.masked(f"{z[j]} ^ {t}")
        return z

    def total(self, a, b):
        """ADD: the Kogge-Stone adder, H the half sum, G generate, P propagate."""
        h = self.xor(a, b)
        g = self.conjunction(a, b)
        p = h
        for k in (1, 2, 4, 8, 16, 32):
            g = self.xor(g, self.conjunction(p, self.shifted(g, "<<", k)))
            if k < 32:
                p = self.conjunction(p, self.shifted(p, "<<", k))
        return self.xor(h, self.shifted(g, "<<", 1))

    def step(self, word):
        kind, d, a, b = word >> 28, word >> 18 & 511, word >> 9 & 511, word & 511
        if kind == CONST:
            self.registers[d] = [self.assign(f"{word & 0x3FFFF}")] + ["zero"] * (self.n - 1)
            return
        x = self.registers[a]
        if kind == NOT:
            self.registers[d] = [self.assign(f"~{x[0]}")] + x[1:]
        elif kind == SPREAD:
            self.registers[d] = self.each("-({} & 1)", x)
        elif kind in (SHL, SHR):
            self.registers[d] = self.shifted(x, "<<" if kind == SHL else ">>", b)
        else:
            self.registers[d] = {XOR: self.xor, AND: self.conjunction, ADD: self.total}[kind](x, self.registers[b])


def function(name, n, operands, words):
    body = Body(n, operands)
    for word in words:
        body.step(word)
    lines = [
        '#include "straight.h"',
        "",
        f"size_t straight_{name}_{n}(const uint64_t *x, const uint64_t *y, uint64_t *result, const uint64_t *tape) {{",
        "    const uint64_t zero = 0;",
        "    (void)y, (void)zero;",
    ]
    lines += [f"    {line}" for line in body.lines]
    lines += [f"    result[{i}] = {share};" for i, share in enumerate(body.registers[2])]
    lines += [f"    return {body.tape};", "}", ""]
    return "\n".join(lines)


def main(out, plans):
    for line in plans:
        name, operands, *words = line.split()
        for n in range(2, 9):
            text = function(name, n, int(operands), [int(word, 16) for word in words])
            pathlib.Path(out, f"{name}_{n}.c").write_text(text)


if __name__ == "__main__":
    main(sys.argv[1], open(sys.argv[2]) if len(sys.argv) > 2 else sys.stdin)
