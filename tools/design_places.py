#!/usr/bin/env python3
"""Counts the places in src/ of each form that docs/DESIGN-PASS.md speaks of, point by point; with --list it says where they are.

    python3 tools/design_places.py [--list] [POINT ..]
"""
import collections
import pathlib
import re
import sys

ROOT = pathlib.Path(__file__).resolve().parent.parent
FILES = sorted(ROOT.glob("crates/*/src/**/*.rt"))
NAME = re.compile(r"[A-Za-z_]\w*")
KEYWORDS = set("fn pub let mut if else match for while loop in return break as const use crate self Self struct enum impl trait usize u64 u32 u16 u8 bool true false".split())


def code_of(line):
    """A line without its comment."""
    return line.split("//")[0]


def lines(pattern, skip=None):
    """(file, line number, text) of each line of code where the pattern is found."""
    found = re.compile(pattern)
    for path in FILES:
        for number, line in enumerate(path.read_text().splitlines(), 1):
            code = code_of(line)
            if found.search(code) and not (skip and re.search(skip, str(path) + " " + code)):
                yield path, number, code.strip()


def functions():
    """(file, line number, name, signature, contract, body) of each function."""
    for path in FILES:
        text = "\n".join(code_of(line) for line in path.read_text().splitlines())
        for match in re.finditer(r"\bfn (\w+)", text):
            brace = body_start(text, match.end())
            if brace is None:
                continue
            end = closing(text, brace)
            head = text[match.start():brace]
            cut = re.search(r"\n\s*(requires|ensures)\b", head)
            signature, contract = (head[:cut.start()], head[cut.start():]) if cut else (head, "")
            yield path, text.count("\n", 0, match.start()) + 1, match.group(1), signature, contract, text[brace + 1:end]


def body_start(text, at):
    """Where a function's body begins: the first brace that is not a clause's."""
    while True:
        brace, stop = text.find("{", at), text.find(";", at)
        if brace < 0 or 0 <= stop < brace and "{" not in text[at:stop]:
            return None
        before = text[text.rfind("\n", 0, brace) + 1:brace].strip()
        if not re.match(r"(requires|ensures|ghost)\b", before):
            return brace
        at = closing(text, brace) + 1


def closing(text, brace):
    depth = 0
    for i in range(brace, len(text)):
        depth += {"{": 1, "}": -1}.get(text[i], 0)
        if depth == 0:
            return i
    return len(text)


def shape(text):
    """A body with every name and number given by its first use, so that bodies which differ in names and numbers alone are equal."""
    seen = {}

    def word(match):
        w = match.group(0)
        return w if w in KEYWORDS else seen.setdefault(w, "n%d" % len(seen))

    return re.sub(r"\s+|,(?=\s*[)}\]])", "", re.sub(r"[A-Za-z_][\w:]*|\b\d\w*", word, text))


def twins():
    groups = collections.defaultdict(list)
    for path, number, name, signature, _, body in functions():
        if "lubewon/src" in str(path) or body.count("(") + body.count("=") < 2:
            continue
        groups[shape(signature.split("(", 1)[-1] + "|" + body)].append((path, number, name))
    for group in groups.values():
        if len(group) > 1:
            for path, number, name in group:
                yield path, number, "%s (one of %d)" % (name, len(group))


def by_function(places):
    """One place for each function, with what it shares with two or more others."""
    shared = collections.defaultdict(list)
    for what, found in places.items():
        if len(set(found)) > 2:
            for place in sorted(set(found)):
                shared[place].append(what)
    for (path, number, name), what in sorted(shared.items()):
        yield path, number, "%s: %s" % (name, "; ".join(what))


def shared_facts():
    """Functions with a fact in their requires that stands in three or more."""
    places = collections.defaultdict(list)
    for path, number, name, _, contract, _ in functions():
        for clause in re.findall(r"requires[^{\n]*\{ (.*) \}", contract):
            for fact in re.split(r" × ", clause):
                places[fact.strip("() ")].append((path, number, name))
    return by_function(places)


def together():
    """Functions, but exports for C, with two parameters side by side that stand so in three or more."""
    places = collections.defaultdict(list)
    for path, number, name, signature, _, _ in functions():
        if "lubewon/src" in str(path):
            continue
        params = re.findall(r"(\w+: [^,()]+)", signature.split("->")[0])
        for first, second in zip(params, params[1:]):
            places[first.strip() + ", " + second.strip()].append((path, number, name))
    return by_function(places)


def answers():
    for path in sorted(ROOT.glob("crates/*/proofs/**/Answers.antt")):
        yield path, len(path.read_text().splitlines()), "lines of answers"


POINTS = {
    "1 enums like Option": lambda: lines(r"enum (Decoded|Read)\b|\b(Decoded|Read)::"),
    "1 numbers of refusals": lambda: lines(r"number (==|!=) \d|Answer::(refused|bad_at|done)\("),
    "1 numbers of kinds": lambda: lines(r"StepWord::(CONST|XOR|AND|NOT|SHL|SHR|SPREAD|ADD|RAND|HEAD)\b"),
    "1 numbers of kinds in tests": lambda: lines(r"\b(op|outcome|of|way): u64|^(pub )?const \w+: u64 = \d;"),
    "1 flags": lambda: lines(r"^ +(pub )?\w+: bool,|fn .*&mut .*-> bool"),
    "2 twins": twins,
    "3 loops": lambda: lines(r"\bwhile |\bloop \{|\bfor \w+ in .*\.\."),
    "4 by hand": lambda: lines(r"fn (smaller|at_most_eight|left_from|of|word_of|hex_digit|digits|compared|more|below|clear_by_parts|zeros|append)\b|std::num::\w+\(|\) as u64\b"),
    "5 facts": shared_facts,
    "5 parameters": together,
    "6 lengths beside": lambda: lines(r"\[\.\.\w+\]|counts: &\[usize\]"),
    "7 switches": lambda: lines(r"\bmatch (k|j|op|n|i|way)\b"),
    "8 answers": answers,
}


def main():
    listed = "--list" in sys.argv
    wanted = [a for a in sys.argv[1:] if not a.startswith("--")]
    for point, find in POINTS.items():
        if wanted and not any(point.startswith(w) for w in wanted):
            continue
        found = list(find())
        print("%-30s %4d" % (point, len(found)))
        if listed:
            for path, number, text in found:
                print("    %s:%d: %s" % (path.relative_to(ROOT), number, text))


if __name__ == "__main__":
    main()
