#!/usr/bin/env python3
"""Spells this repository's own definitions, lemmas and local names in snake case, after the toolchain's script has run.

usage: respell.py [--check] [--map]       at the top of the repository

A word of a definition or lemma is snake case; a type or a module stays in camel case. The names that change are those that a file of
crates/*/specs or crates/*/proofs declares. A name stays in a file that imports it from a library, and where it follows a step of a
function's proof, whose names the check makes. --check writes nothing and lists names that would fall together; --map prints old and new.
"""

import collections
import os
import re
import sys

NAME = r'[^\s(){}.;,@"«»]+'
TOKEN = re.compile(rf'--[^\n]*|"(?:[^"\\\n]|\\.)*"|{NAME}|\.|[^\S\n]+|.|\n')
TOP = re.compile(rf"^(?:(?:pub|abbrev|unfoldable|data|record|ruleset|syntax) +)*({NAME})(?= .*:|$| *=)", re.M)
SIGNED = re.compile(rf"^ *(?:(?:pub|abbrev|unfoldable|let) +)*({NAME})(?: \{{[^{{}}\n]*\}}| \([^()\n]*\))* :(?= |$)", re.M)
LETS = re.compile(rf"(?:\blet|\bin let|;) +({NAME})(?= [^\n]*?[:=])")
BOUND = re.compile(r"(?:λ|[({]) *((?:" + NAME + r" +)*" + NAME + r") +:")
LAMBDA = re.compile(r"λ ((?:" + NAME + r" *)+)\.")
ARM = re.compile(r"[\[|] *((?:" + NAME + r" +)+)↦")
USE = re.compile(r"^ *(?:ghost )?(?:pub )?use ([^\s;{]+?)(?:\.?\{([^;{}]*)\})?(?: as ([^\s;]+))?;?$", re.M)
OWN = re.compile(r"(Rattle\.(\w+)\.|package\.)")
FUNCTION = re.compile(r"/proofs/(?:[^/]+/)+(Proof|Answers|Invariants)\.antt$")
MADE = re.compile(r"^(\S+) : (?:tie|goal|need)\.", re.M)
# A lemma or local name that would be spelled as a definition that it speaks of, with the files that have it.
SPEAKS = {
    "toward_zero": ("binary64/proofs/IeeeWhole", "binary64/proofs/WholeMeaning"),
    "whole_run": ("plans/proofs/AddWithRun", "plans/proofs/sum/Around", "plans/proofs/product/Tail", "masked_call/proofs/Plans"),
    "high_part": ("plans/proofs/decoder/Decoded", "plans/proofs/decoder/Zero"),
    "low_part": ("plans/proofs/decoder/Decoded", "plans/proofs/decoder/Zero"),
    "is_free": ("plans/proofs/decoder/Words", "plans/proofs/decoder/Zero"),
    "and_block": ("gates/proofs/Named",),
}
# Names of a step's facts that the check makes: the heads of paths in a function's proof.
HEADS = {"c", "l", "w", "g", "tie", "goal", "need", "given", "gen"}


def crates():
    return sorted(c for c in os.listdir("crates") if os.path.isdir(f"crates/{c}/src"))


def files(*ends):
    for c in crates():
        for folder, below, names in os.walk(f"crates/{c}"):
            below[:] = sorted(b for b in below if b != "out")
            for n in sorted(names):
                if n.endswith(ends):
                    yield os.path.join(folder, n)


def snake(name):
    if "-" not in name[1:] and not re.search(r"[a-z0-9][A-Z]", name):
        return name
    # A type keeps its capitals: no dash, and a capital first.
    if "-" not in name[1:] and name[0].isupper():
        return name
    new = re.sub(r"(?<=[a-z0-9])[A-Z]", lambda m: "_" + m[0].lower(), name)
    new = re.sub(r"(?<=_[a-z])[A-Z]+", lambda m: m[0].lower(), new)
    return new[0] + new[1:].replace("-", "_")


def old_names(text):
    """The names that a file declares or binds."""
    code = re.sub(r"(?m)--.*$", " ", text)
    found = set(SIGNED.findall(code)) | set(TOP.findall(code)) | set(LETS.findall(code))
    for how in (BOUND, LAMBDA, ARM):
        for names in how.findall(code):
            found.update(names.split())
    return {n for n in found if snake(n) != n}


def imported(text, own):
    """The names of libraries that a file brings in, and the aliases of modules."""
    theirs, mine = set(), set()
    for path, items, alias in USE.findall(text):
        names = re.findall(NAME, items.replace(" as ", " ")) if items else [alias or path.split(".")[-1]]
        m = OWN.match(path + ".")
        (mine if m and (m[2] is None or m[2] in own) else theirs).update(names)
    return theirs - mine


def turned(text, change, function, fields):
    """The text with its names changed; in a function's proof, steps and their facts keep theirs."""
    made = set(MADE.findall(text)) if function else set()
    out, head, before = [], None, ""
    for t in TOKEN.findall(text):
        if t.startswith("--"):
            t = re.sub(r"`([^`\n]+)`", lambda m: "`" + re.sub(NAME, lambda n: change.get(n[0], n[0]), m[1]) + "`", t)
        elif re.fullmatch(NAME, t) and not t.startswith('"'):
            dotted = before == "."
            if not dotted:
                head = t
            new = change.get(t, t)
            if t in made or (function and dotted and head in HEADS and not (t in fields and not t.endswith("-is"))):
                new = t
            t = new
        out.append(t)
        before = t
    return "".join(out)


def main(argv):
    own = set(crates())
    texts = {p: open(p, encoding="utf-8").read() for p in files(".antt", ".rt")}
    change, fields = {}, set()
    for p, text in texts.items():
        if not p.endswith(".antt"):
            continue
        made = set(MADE.findall(text)) if FUNCTION.search(p) else set()
        for n in old_names(text) - made:
            change[n] = snake(n)
        record = False
        for line in text.split("\n"):
            record = bool(re.match(r"(pub )?(abbrev )?(record|data)\b", line)) or record and not re.match(r"\S", line)
            m = re.match(rf"  (?:pub )?({NAME})(?: .*)? :", line)
            if record and m:
                fields.add(m[1])
    # A lemma whose name would fall together with a definition's says that it speaks of it.
    tokens_of = {p: set(re.findall(NAME, re.sub(r"(?m)--.*$", " ", text))) for p, text in texts.items() if p.endswith(".antt")}
    meet = set()
    for tokens in tokens_of.values():
        spelled = collections.defaultdict(set)
        for t in tokens:
            spelled[change.get(t, t)].add(t)
        meet.update(*(olds for olds in spelled.values() if len(olds) > 1))
    for n in meet:
        if "-" in n and n in change:
            change[n] += "_is"
    if "--map" in argv:
        print("\n".join(f"{a}\t{b}" for a, b in sorted(change.items())))
        return 0
    meets = 0
    for p, text in sorted(texts.items()):
        theirs = imported(text, own)
        mine = {a: b for a, b in change.items() if a not in theirs}
        mine |= {a: a + "_is" for a, where in SPEAKS.items() if p[7:-5] in where}
        code = re.sub(r"(?m)--.*$" if p.endswith(".antt") else r"(?m)//.*$", " ", text)
        tokens = set(re.findall(NAME, code))
        spelled = collections.defaultdict(set)
        for t in tokens:
            spelled[mine.get(t, t)].add(t)
        for new, olds in sorted(spelled.items()):
            if len(olds) > 1:
                meets += 1
                print(f"{p}: {' '.join(sorted(olds))} fall together as {new}")
        if p.endswith(".rt"):
            new = re.sub(r"(?<![\w'])[a-z]\w*[A-Z]\w*(?![\w'])", lambda m: mine.get(m[0], m[0]), text)
        else:
            new = turned(text, mine, bool(FUNCTION.search(p)), fields)
        if new != text and "--check" not in argv:
            with open(p, "w", encoding="utf-8") as f:
                f.write(new)
    print(f"{len(change)} names, {meets} places where names fall together")
    return 0


if __name__ == "__main__":
    raise SystemExit(main(sys.argv[1:]))
