"""How many lines of definitions a reader has to believe: what contracts and claims reach in crates/*/specs.

It prints the lines that demands 1 to 3 reach (Demand3Holds, TranslateTied, the contracts of the calls in DEMANDS);
those that all claims reach (the record Claims, every contract in crates/lubewon/src); and both file by file.

Lines are those of definitions, without comments and imports. Two folders need no belief: specs/inner has names that
only inner contracts and proofs cite; specs/words has the plans' words, of which only what is proved matters. The exit
status is 1 if something in specs/inner is reached, or if a file outside both is reached by nothing. What the library
itself does not cite has starts of its own, OTHERS. References go by name: a variable named as a definition counts.
"""
import re
import sys
from pathlib import Path

CRATES = Path(__file__).resolve().parent.parent / "crates"
DEMANDS = ["measure", "translate", "plain_run", "share_run", "one_share_step"]
OTHERS = ["sharelist/src/main.rt", "checks/src/reader.rt", "compiled_order/src/lib.rt", "masked_plan/src/calls.rt", "masked_plan/src/in_place.rt"]
USE = re.compile(r"^(?:ghost )?use Rattle\.(\w+)\.specs\.([\w.]+?)(?:\.\{(.*)\}| as (\S+?));?$", re.M)
DEFINED = re.compile(r"(?:(?:abbrev|unfoldable|pub) )+(?:record |data )?([^\s:]+)")
sections, lines_of, scopes = {}, {}, {}  # by crate, file and name; scopes by crate and file


def imported(text):
    """The names that a text brings in, each as crate, file and name; an alias is of a file, with no name."""
    uses = [(crate, file, n.strip(), alias) for crate, file, ns, alias in USE.findall(text) for n in ns.split(",")]
    return {alias or name: (crate, file, name) for crate, file, name, alias in uses}


def cited(text, scope):
    """The definitions that a text names, by themselves or behind the alias of a file."""
    for head, _, tail in (word.partition(".") for word in re.findall(r"[^\s(){}\[\];,]+", text)):
        if head in scope: yield scope[head] if scope[head][2] else scope[head][:2] + (tail,)


def parsed(text, here):
    """The definitions of a file with their lines. A section's head is one too, and goes with those inside it."""
    found, heads = {}, []
    for line in (line.split("--")[0].rstrip() for line in text.split("\n")):
        deep = len(line) - len(line.lstrip())
        if not line or re.match(r"use |pub mod ", line): continue
        heads = [h for h in heads if h[0] < deep]
        if line.strip().startswith("module _"):
            heads.append((deep, here + (line.strip(),)))
            found[heads[-1][1]] = [line]
        elif (m := DEFINED.match(line.strip())) and deep == (heads[-1][0] + 2 if heads else 0):
            key = here + (m[1],)
            found[key], sections[key] = [line], [h[1] for h in heads]
        else: found[key].append(line)
    return found


def reached(starts):
    """All that these definitions rest on, and they themselves."""
    seen, todo = set(), list(starts)
    while todo:
        if (key := todo.pop()) in seen or key not in lines_of: continue
        seen.add(key)
        todo += [*cited("\n".join(lines_of[key]), scopes[key[:2]]), *sections.get(key, [])]
    return seen


def contracts(paths, names=None):
    """What the contracts in these files cite: of all functions, with the plan of an impl, or of those with these names."""
    for text in map(Path.read_text, paths):
        plans = [("", plan) for plan in re.findall(r"ghost plan = \{(.*?)\}", text)]
        for name, contract in re.findall(r"\bfn (\w+)(.*?)^\{", text, re.M | re.S) + plans:
            if not names or name.removeprefix("lubewon_") in names: yield from cited(contract, imported(text))


for path in sorted(CRATES.glob("*/specs/**/*.antt")):
    crate, _, *inside = path.relative_to(CRATES).with_suffix("").parts
    here, text = (crate, ".".join(inside)), path.read_text()
    found = parsed(text, here)
    lines_of, scopes[here] = lines_of | found, {k[2]: k for k in found} | imported(text)

calls = sorted(CRATES.glob("lubewon/src/*.rt"))
theorems = [("masking", "Demand3", "Demand3Holds"), ("translation", "Tied", "TranslateTied")]
demands = reached([*theorems, *contracts(calls, DEMANDS)])
claims = reached([("lubewon", "Claims", "Claims"), *contracts(calls)])
known = claims | reached(contracts(CRATES / p for p in OTHERS))
words = {k for k in lines_of if k[1].startswith("words.")}
size = lambda keys: sum(len(lines_of[k]) for k in keys)
print(f"demands 1 to 3: {size(demands - words)} lines")
print(f"all claims: {size(claims - words)} lines, and {size(claims & words)} of plans' words\n")
failed = [f"{'/'.join(k)} is reached" for k in sorted(known | demands) if k[1].startswith("inner.")]
for here in (h for h in scopes if not h[1].startswith("inner.")):
    keys = {k for k in lines_of if k[:2] == here}
    if keys: print(f"{'/'.join(here):28}{size(keys & known):4} of {size(keys):4} ", *sorted(k[2] for k in keys - known))
    if keys - words and not keys & known: failed.append(f"{'/'.join(here)} is reached by nothing")
print("", *failed, f"{len(failed)} files or names in the wrong place", sep="\n")
sys.exit(bool(failed))
