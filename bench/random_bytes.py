#!/usr/bin/env python3
"""What the calls on shares ask of the random source.

usage: random_bytes.py [FILE]

Reads the LUBEWON_*_TAPE macros of include/lubewon.h and, from FILE or stdin, what bench/run prints. Prints two Markdown tables, random bytes per call
and random bytes per second, and writes docs/random.svg: random bytes and instructions of a call against n, with document 000's figures."""
import math
import pathlib
import re
import sys

ROOT = pathlib.Path(__file__).resolve().parent.parent
SHARES = range(2, 9)
WORD = 8  # bytes of a tape word
COLOUR = {"product": "#1f5fbf", "sum": "#e07b00", "floor": "#2a8a4a", "truncate": "#777777", "nearest": "#a03fb0"}
LAYERS = {"layer of FALCON-512": 256, "layer of FALCON-1024": 512}  # complex numbers of a transform: half as many as coefficients
# Document 000, Table 2, SecFprMul and SecFprAdd on 2 and 3 shares. Document 001 has no such figures.
PAPER_BYTES = {"product": {2: 333, 3: 2005}, "sum": {2: 849, 3: 2691}}
PAPER_CYCLES = {"product": {2: 7134, 3: 36388}, "sum": {2: 17154, 3: 48291}}
WIDE, HIGH, LEFT, TOP, GAP_X, GAP_Y = 380, 380, 62, 112, 76, 52


def macros(text):
    """Each LUBEWON_NAME_TAPE as a function of n and count."""
    found = dict(re.findall(r"^#define LUBEWON_(\w+)_TAPE\([\w, ]+\) (.+)$", text, re.M))
    for name, body in found.items():
        # The body is evaluated, so it may hold nothing but arithmetic.
        if not re.fullmatch(r"(?:\bn\b|\bcount\b|\d+|[-+*/() ])+", body):
            sys.exit(f"random_bytes: cannot read LUBEWON_{name}_TAPE")
    return {name: eval("lambda n, count=0: " + body.replace("/", "//")) for name, body in found.items()}


def per_call(tape):
    """Random bytes of each call, as functions of n."""
    names = {"product": "PRODUCT", "sum": "SUM", "floor": "FLOOR", "truncate": "TRUNCATE", "nearest": "NEAREST", "complex product": "COMPLEX"}
    if missing := (set(names.values()) | {"LAYER"}) - set(tape):
        sys.exit(f"random_bytes: the header has no LUBEWON_{min(missing)}_TAPE")
    calls = {name: lambda n, macro=macro: WORD * tape[macro](n) for name, macro in names.items()}
    for name, count in LAYERS.items():
        calls[name] = lambda n, count=count: WORD * tape["LAYER"](n, count)
    calls["layer pair"] = lambda n: WORD * tape["LAYER"](n, 2)
    return calls


def column(text, first, wanted):
    """Of the table whose heading begins with the cells `first`: (name, n) to the figure in the column named `wanted`."""
    figures, place = {}, None
    for line in text.splitlines():
        cells = [cell.strip() for cell in line.strip().strip("|").split("|")] if line.startswith("|") else []
        if cells[:len(first)] == first:
            place = cells.index(wanted)
        elif not cells:
            place = None
        elif place is not None and cells[1].isdigit():
            figures[cells[0].removesuffix(" on shares"), int(cells[1])] = float(cells[place])
    return figures


def measured(text, names):
    """Instructions, nanoseconds and tape bytes by (name, n), all of bench/run's build."""
    kinds = ((["case", "n"], "library, instructions"), (["case", "n"], "library, ns"), (["operation", "n"], "tape bytes"))
    figures = [column(text, first, wanted) for first, wanted in kinds]
    for name in names:
        for n in SHARES:
            if any((name, n) not in kind for kind in figures):
                sys.exit(f"random_bytes: bench/run's output is not whole: {name} on {n} shares is missing")
    return figures


def others(calls, ran):
    """The calls for which bench/run counted other tape bytes than the header says: its figures are then of another build."""
    return [name for name in dict.fromkeys(name for name, _ in ran) if any(ran[name, n] != calls[name](n) for n in SHARES)]


def table(title, names, cell):
    lines = [f"| {title} | " + " | ".join(f"n = {n}" for n in SHARES) + " |", "|---|" + "---|" * len(SHARES)]
    return "\n".join(lines + [f"| {name} | " + " | ".join(cell(name, n) for n in SHARES) + " |" for name in names])


def three_digits(value):
    digits = 2 - math.floor(math.log10(value))
    return f"{round(value, digits):,.{max(digits, 0)}f}"


def rates(names, times, ran):
    """Bytes and times of the same build, so that a header that is newer than the bench's output makes no rate that nothing ever had."""
    return table("random bytes per second, MB/s", names, lambda name, n: three_digits(1000 * ran[name, n] / times[name, n]))


def hang_on(other):
    lines = ["The rates are a call's tape bytes over its time, as `bench/run` measures it: one call after another on one core, over the same tape words each time,",
             "most likely in the cache. They hang on the processor, its load and the build. MB is 10^6 bytes. A layer draws as its pairs do."]
    if other:
        lines.append(f"**Times and instructions are of another build than the header, with other tape words, for: {', '.join(other)}. Run `bench/run` anew.**")
    return "\n".join(lines)


class Scale:
    """A logarithmic axis from one step of 1, 2, 5, 10 .. to another, with all values between them."""

    def __init__(self, values):
        steps = [lead * 10**power for power in range(9) for lead in (1, 2, 5)]
        first = max(step for step in steps if step <= min(values))
        last = min(step for step in steps if step >= max(values))
        self.ticks = [step for step in steps if first <= step <= last]

    def y(self, value):
        first, last = self.ticks[0], self.ticks[-1]
        return HIGH * (1 - math.log(value / first) / math.log(last / first))


def across(n):
    return WIDE * (n - SHARES[0] + 0.5) / len(SHARES)


def diamond(x, y, colour):
    return f'<path d="M{x:.1f} {y - 5:.1f}l5 5l-5 5l-5 -5z" fill="#fff" stroke="{colour}" stroke-width="1.6"/>'


def axes(scale):
    parts = []
    for tick in scale.ticks:
        y = scale.y(tick)
        parts.append(f'<text x="-6" y="{y + 4:.0f}" text-anchor="end">{tick:,}</text><path d="M0 {y:.1f}h{WIDE}" stroke="#ddd"/>')
    for n in SHARES:
        parts.append(f'<path d="M{across(n):.1f} {HIGH}v4" stroke="#444"/><text x="{across(n):.1f}" y="{HIGH + 17}" text-anchor="middle">{n}</text>')
    parts.append(f'<text x="{WIDE / 2}" y="{HIGH + 36}" text-anchor="middle">n, the number of shares</text>')
    return "".join(parts) + f'<rect width="{WIDE}" height="{HIGH}" fill="none" stroke="#444"/>'


def curve(name, value, scale):
    spots = [(across(n), scale.y(value(name, n))) for n in SHARES]
    line = " ".join(f"{x:.1f},{y:.1f}" for x, y in spots)
    dots = "".join(f'<circle cx="{x:.1f}" cy="{y:.1f}" r="2.8" fill="{COLOUR[name]}"/>' for x, y in spots)
    return f'<polyline points="{line}" fill="none" stroke="{COLOUR[name]}" stroke-width="1.4"/>{dots}'


def panel(place, title, value, paper):
    scale = Scale([value(name, n) for name in COLOUR for n in SHARES] + [figure for by_n in paper.values() for figure in by_n.values()])
    curves = "".join(curve(name, value, scale) for name in COLOUR)
    # A little to the right of n: some of these figures are as high as ours.
    theirs = "".join(diamond(across(n) + 11, scale.y(figure), COLOUR[name]) for name, by_n in paper.items() for n, figure in by_n.items())
    return (f'<g transform="translate({LEFT + place * (WIDE + GAP_X)} {TOP})">'
            f'<text x="{WIDE / 2}" y="-10" text-anchor="middle" font-size="13">{title}</text>{axes(scale)}{curves}{theirs}</g>')


def legend():
    parts, x = [f'<text x="{LEFT}" y="22" font-size="15">Random bytes and instructions of one call on n shares</text>'], LEFT
    for name, colour in COLOUR.items():
        parts.append(f'<path d="M{x} 42h22" stroke="{colour}" stroke-width="1.4"/><circle cx="{x + 11}" cy="42" r="2.8" fill="{colour}"/>'
                     f'<text x="{x + 28}" y="46">{name}</text>')
        x += 100
    theirs = "document 000, product and sum on 2 and 3 shares (drawn beside n): random bytes; at right cycles on a Cortex-M4, not instructions"
    marks = diamond(LEFT + 5, 66, COLOUR["product"]) + diamond(LEFT + 18, 66, COLOUR["sum"])
    return "".join(parts) + f'{marks}<text x="{LEFT + 30}" y="70">{theirs}</text>'


def plot(calls, instructions, other):
    width, height = LEFT + 2 * WIDE + GAP_X + 22, TOP + HIGH + GAP_Y
    mixed = " (of another build)" if any(name in COLOUR for name in other) else ""
    panels = [panel(0, "random bytes", lambda name, n: calls[name](n), PAPER_BYTES),
              panel(1, "x86-64 instructions" + mixed, lambda name, n: instructions[name, n], PAPER_CYCLES)]
    return (f'<svg xmlns="http://www.w3.org/2000/svg" viewBox="0 0 {width} {height}" width="{width}" height="{height}" '
            f'font-family="sans-serif" font-size="11"><rect width="100%" height="100%" fill="#fff"/>{legend()}\n' + "\n".join(panels) + "\n</svg>\n")


def main():
    text = pathlib.Path(sys.argv[1]).read_text() if len(sys.argv) > 1 else sys.stdin.read()
    calls = per_call(macros((ROOT / "include/lubewon.h").read_text()))
    timed = [name for name in calls if name not in LAYERS]
    instructions, times, ran = measured(text, timed)
    other = others(calls, ran)
    if other:
        print(f"random_bytes: bench/run's output is of another build than the header: {', '.join(other)}", file=sys.stderr)
    print(table("random bytes per call", [name for name in calls if name != "layer pair"], lambda name, n: f"{calls[name](n):,}"))
    print("\n" + rates(timed, times, ran) + "\n\n" + hang_on(other))
    (ROOT / "docs/random.svg").write_text(plot(calls, instructions, other))


if __name__ == "__main__":
    main()
