#!/usr/bin/env python3
"""report.py BINARY DOCUMENT PLOT FILE..: from leak's files of one build the tables of DOCUMENT, between its marker comments, and PLOT, an SVG with a
panel for each file: the largest |t| of each instruction, thinned to the largest in each column of pixels."""
import collections, math, re, subprocess, sys

KINDS = ("words", "transitions")
COLOUR = {"words": "#1f5fbf", "transitions": "#e07b00"}
WIDE, HIGH, LEFT, TOP, GAP_X, GAP_Y = 300, 150, 62, 74, 66, 58
MOST = 5  # the plot ends at t = 10^MOST; what is above is drawn at its edge


class Run:
    """One file of leak's: operation, shares, runs, threshold, and for each step its address and its t by kind."""

    def __init__(self, name):
        with open(name) as file:
            head = file.readline().split()
            rows = [line.split() for line in file]
        if len(head) != 5 or len(rows) != int(head[2]):
            sys.exit(f"report: {name} is not whole")
        self.operation, self.shares, self.runs, self.threshold = head[0].replace("_", " "), int(head[1]), int(head[3]), float(head[4])
        self.address = [int(row[0], 16) for row in rows]
        self.t = {kind: [float(row[1 + k]) for row in rows] for k, kind in enumerate(KINDS)}

    def found(self, kind):
        return [at for at, t in zip(self.address, self.t[kind]) if t > self.threshold]


def largest(values):
    top = max(values)
    return "unbounded" if math.isinf(top) else f"{top:,.1f}"


def run_counts(runs):
    return " or ".join(f"{count:,}" for count in sorted({run.runs for run in runs}))


def table(runs):
    lines = ["| operation | n | runs | instructions | by words | largest t | by transitions | largest t | threshold |", "|---|---|---|---|---|---|---|---|---|"]
    for run in runs:
        cells = [run.operation, run.shares, f"{run.runs:,}", f"{len(run.address):,}"]
        for kind in KINDS:
            cells += [len(run.found(kind)) or "none", largest(run.t[kind])]
        lines.append("| " + " | ".join(str(cell) for cell in cells + [f"{run.threshold:.2f}"]) + " |")
    return "\n".join([f"{run_counts(runs)} runs of each call, every one fixed or random by the toss of a coin.", ""] + lines)


def code(binary):
    """Address to (function, offset, instruction)."""
    text = subprocess.run(["objdump", "-d", "-C", "--no-show-raw-insn", "-w", binary], capture_output=True, text=True, check=True).stdout
    where, function, start = {}, "", 0
    for line in text.splitlines():
        if head := re.match(r"([0-9a-f]+) <(.*)>:$", line):
            start, function = int(head[1], 16), head[2]
        elif found := re.match(r"\s*([0-9a-f]+):\t(.*)$", line):
            where[int(found[1], 16)] = (function, int(found[1], 16) - start, " ".join(found[2].split()))
    return where


def places(runs, binary):
    """Where transitions depend on the operands, for the least number of shares: instruction by instruction, with counts for each operation."""
    least = [run for run in runs if run.shares == min(run.shares for run in runs)]
    where, counts = code(binary), {run.operation: collections.Counter(run.found("transitions")) for run in least}
    functions = {run.operation: collections.Counter(where[at][0] for at in run.found("transitions")) for run in least}
    names = [run.operation for run in least]
    lines = ["| instruction | " + " | ".join(names) + " |", "|---|" + "---|" * len(names)]
    for function in sorted({name for counter in functions.values() for name in counter}):
        lines.append(f"| **`{function}`** | " + " | ".join(f"**{functions[name][function]}**" for name in names) + " |")
        for at in sorted({at for counter in counts.values() for at in counter if where[at][0] == function}):
            lines.append(f"| +{where[at][1]:#x} `{where[at][2]}` | " + " | ".join(str(counts[name][at] or "") for name in names) + " |")
    return "\n".join(lines)


def height(t):
    return HIGH * (1 - math.log10(min(max(t, 1), 10**MOST)) / MOST)


def points(run, kind):
    """One mark for each column of pixels that has a t of 1 or more: the largest."""
    columns = [0] * WIDE
    for step, t in enumerate(run.t[kind]):
        column = step * WIDE // len(run.address)
        columns[column] = max(columns[column], t)
    marks = "".join(f"M{x} {height(t):.1f}h1.6" for x, t in enumerate(columns) if t > 1)
    return f'<path d="{marks}" stroke="{COLOUR[kind]}" stroke-width="{2.6 if kind == "transitions" else 1.4}" fill="none"/>'


def axes(run):
    parts = [f'<rect width="{WIDE}" height="{HIGH}" fill="none" stroke="#444"/>']
    for power in range(MOST + 1):
        y = height(10**power)
        parts.append(f'<text x="-6" y="{y + 4:.0f}" text-anchor="end">{10**power:,}</text><path d="M0 {y:.0f}h{WIDE}" stroke="#ddd"/>')
    unit = next(size for power in range(9) for size in (10**power, 2 * 10**power, 5 * 10**power) if size * 6 > len(run.address))
    for step in range(0, len(run.address), unit):
        x = step * WIDE / len(run.address)
        parts.append(f'<path d="M{x:.1f} {HIGH}v4" stroke="#444"/><text x="{x:.1f}" y="{HIGH + 17}" text-anchor="middle">{step:,}</text>')
    return "".join(parts)


def panel(run, column, row):
    x, y = LEFT + column * (WIDE + GAP_X), TOP + row * (HIGH + GAP_Y)
    bound = height(run.threshold)
    return (f'<g transform="translate({x} {y})">'
            f'<text x="{WIDE / 2}" y="-8" text-anchor="middle" font-size="13">{run.operation}, n = {run.shares}</text>'
            f'{axes(run)}{points(run, "transitions")}{points(run, "words")}'
            f'<path d="M0 {bound:.1f}h{WIDE}" stroke="#c00" stroke-dasharray="5 3"/></g>')


def legend(runs, width):
    title = f"Largest |t| of each instruction, fixed against random operands, {run_counts(runs)} runs"
    parts, x = [f'<text x="{LEFT}" y="22" font-size="15">{title}</text>'], LEFT
    for text, colour, dash in (("words", COLOUR["words"], ""), ("transitions", COLOUR["transitions"], ""), ("threshold", "#c00", "5 3")):
        line = f'<path d="M{x} 40h22" stroke="{colour}" stroke-width="2.6" stroke-dasharray="{dash or "none"}"/>'
        parts.append(f'{line}<text x="{x + 28}" y="44">{text}</text>')
        x += 120
    axes_are = "across: number of the instruction; up: |t|, the largest in each column of pixels"
    parts.append(f'<text x="{width - GAP_X}" y="44" text-anchor="end">{axes_are}</text>')
    return "".join(parts)


def plot(runs):
    operations, shares = list(dict.fromkeys(run.operation for run in runs)), sorted({run.shares for run in runs})
    width, height_all = LEFT + len(shares) * (WIDE + GAP_X), TOP + len(operations) * (HIGH + GAP_Y)
    panels = (panel(run, shares.index(run.shares), operations.index(run.operation)) for run in runs)
    return (f'<svg xmlns="http://www.w3.org/2000/svg" viewBox="0 0 {width} {height_all}" width="{width}" height="{height_all}" '
            f'font-family="sans-serif" font-size="11"><rect width="100%" height="100%" fill="#fff"/>{legend(runs, width)}\n' + "\n".join(panels) + "\n</svg>\n")


def put(text, marker, part):
    pattern = re.compile(rf"(<!-- {marker}: .*?-->\n).*?(\n<!-- end of {marker} -->)", re.S)
    if len(pattern.findall(text)) != 1:
        sys.exit(f"report: the document does not have the markers of {marker} once")
    return pattern.sub(lambda found: found[1] + "\n" + part + "\n" + found[2], text)


def main():
    binary, document, picture, *files = sys.argv[1:]
    runs = [Run(name) for name in files]
    with open(document) as file:
        text = file.read()
    text = put(put(text, "table", table(runs)), "places", places(runs, binary))
    with open(document, "w") as file:
        file.write(text)
    with open(picture, "w") as file:
        file.write(plot(runs))


main()
