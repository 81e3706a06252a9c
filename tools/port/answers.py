#!/usr/bin/env python3
"""Turns a function's Proof.antt of the older form into Answers.antt and Invariants.antt.

usage: answers.py NAMES CRATE [FUNCTION..]

NAMES is the names.json that `rt check --generated FOLDER --old-names` writes in the crate's folder CRATE. A Proof.antt that hands its answers
to `tie.close (tie.spec ..)` is turned: each answer gets the goal's new name, a path through `.before` becomes the step's new name, and an
answer `search rules` is left to the check. Loop invariants become Invariants.antt. FUNCTION is a folder below proofs/; none: all.
"""

import json
import os
import re
import sys

NAME = r'[^\s(){}.;,@"«»]+'
PRE = re.compile(r"^(overflow|nonzero|bounds|slice|offset|range)-")


def alike(name):
    return name.replace("-", "").replace("_", "").lower()


def blocks(text):
    """The top declarations of a file: comment and blank lines before go with each."""
    out, now = [], []
    for line in text.split("\n"):
        starts = line[:1] not in ("", " ", "\t", ")", "]", "}")
        if starts and now and not all(l.startswith("--") or not l.strip() for l in now):
            prior = [l for l in now if l.strip() and not l.startswith("--")]
            head = re.match(rf"(?:(?:pub|abbrev|unfoldable) +)*({NAME})", line)
            first = re.match(rf"(?:(?:pub|abbrev|unfoldable) +)*({NAME})", prior[0])
            same = head and first and head[1] == first[1] and not line.startswith("--") and not re.match(r"(use|pub record|record|module|data)\b", line)
            if not (same or line.startswith("unfolding")):
                trailing = []
                while now and (not now[-1].strip() or now[-1].startswith("--")):
                    trailing.insert(0, now.pop())
                out.append(now)
                now = trailing
        now.append(line)
    if now:
        out.append(now)
    return [[l for l in b] for b in out]


def args_of(text):
    """The arguments of a call, split at the top."""
    out, depth, now = [], 0, ""
    for ch in text:
        if ch in "([{":
            depth += 1
        if ch in ")]}":
            depth -= 1
        if depth == 0 and ch.isspace():
            if now.strip():
                out.append(now.strip())
            now = ""
        else:
            now += ch
    if now.strip():
        out.append(now.strip())
    return out


def clauses_below(root):
    """For each function of the repository, by crate and name, the names of its clauses."""
    out = {}
    for c in os.listdir(root):
        for folder, _, files in os.walk(os.path.join(root, c, "src")):
            for n in files:
                if n.endswith(".rt"):
                    text = re.sub(r"//[^\n]*", "", open(os.path.join(folder, n), encoding="utf-8").read())
                    for m in re.finditer(r"\bfn (\w+)(?:<[^(]*>)?\s*\((.*?)\n?\{\n", text, re.S):
                        names = lambda kind: re.findall(rf"(?m)^ *{kind}\*? (\w+)? ?\{{", m[2])
                        out[c, m[1]] = {"requires": names("requires"), "ensures": names("ensures")}
    return out


class Function:
    def __init__(self, data, crate, name, clauses):
        self.data = data
        self.clauses = clauses
        self.crate = crate
        self.own = (crate, name.split(".")[-1])
        self.places = {p[0]: p for p in data["places"]}
        self.arms = {}
        for p, arm in zip(data["places"], data["arms"]):
            if arm:
                self.arms.setdefault(p[0], []).append(arm)
        self.loops = data["loops"]

    def chain(self, place, befores):
        for _ in range(befores):
            p = self.places.get(place)
            if not p or p[1] is None:
                return None
            place = p[1]
        return place

    def facts(self, p, rest):
        """The fields below a step: a branch's fact, a clause by its name, what a call keeps of a lent slice."""
        if p[1] is None and len(rest) > 1 and rest[0] in ("args", "ranges"):
            return [rest[0], "res" if rest[1] == "result" else rest[1].replace("-", "_"), *rest[2:]]
        loop = loop_of(self.data, p[2][0])
        if loop and rest[:1] == ["result"] and "res" in loop[1]:
            return ["res", *rest[1:]]
        if loop and rest and "-" in rest[0]:
            rest = [next((v for v in loop[1] if alike(v) == alike(rest[0])), rest[0]), *rest[1:]]
        for old, new in p[4]:
            if rest[:1] == [old]:
                return [new, *rest[1:]]
        name = self.own if p[1] is None else p[3] and (p[3].split("::")[0], p[3].split("::")[-1])
        if name and len(rest) > 1 and rest[0] in ("requires", "ensures") and rest[1].isdigit():
            names = self.clauses.get(name, {}).get(rest[0], [])
            if len(names) > 1:
                # the clauses were nested pairs: 1.1.0 is the third of four
                k = 0
                while k < len(names) - 1 and rest[1 + k : 2 + k] == ["1"]:
                    k += 1
                more = rest[1 + k :]
                if k < len(names) - 1:
                    if more[:1] != ["0"]:
                        return [*rest, "-?-"]
                    more = more[1:]
                return [rest[0], names[k], *more]
        if name and rest[:1] == ["ensures"] and not (len(rest) > 1 and not rest[1].isdigit()):
            names = self.clauses.get(name, {}).get("ensures", [])
            if len(names) == 1 and names[0]:
                return ["ensures", names[0], *rest[1:]]
        if p[3] and len(rest) > 1 and rest[0] in ("auto", "new") and rest[1].isdigit():
            k = 1
            while rest[k : k + 1] == ["1"]:
                k += 1
            return [rest[0], self.data["params"][p[3]][k - 1], *rest[k + 1 :]]
        return rest

    def typed(self, place):
        return next((t for p, t in zip(self.data["places"], self.data["typed"]) if p[0] == place), [])

    def meant(self, place, befores, first):
        """The step that a path means: the one so far back, or where the steps are counted otherwise today, the nearest so named."""
        fits = lambda q: (
            first in ("args", "requires", "pre", "ranges", "well-formed", "lifetimes")
            if self.places[q][1] is None
            else alike(self.places[q][2][0]) == alike(first) or any(alike(e[1]) == alike(first) for a in self.arms.get(q, []) for e in a[2])
        )
        at = self.chain(place, befores)
        if at is not None and fits(at):
            return at
        line, q = [], place
        while q is not None:
            line.append(q)
            q = self.places[q][1] if q in self.places else None
        near = sorted((abs(n - befores), n) for n, q in enumerate(line) if fits(q))
        return line[near[0][1]] if near else at

    def path(self, place, tokens):
        """c.TOKENS of an answer at the place, in today's names."""
        k = 0
        while k < len(tokens) and tokens[k] == "before":
            k += 1
        rest = tokens[k:]
        if not rest:
            return None
        at = self.meant(place, k, rest[0])
        if at is None:
            return None
        p = self.places[at]
        old, new = p[2]
        best = None
        for arm in self.arms.get(at, []):
            for field, step, olds in arm[2]:
                if alike(step) == alike(rest[0]) and rest[1 : 1 + len(olds)] == olds and (best is None or len(olds) > best[0]):
                    best = (len(olds), [arm[0], field, *rest[1 + len(olds) :]])
        if best:
            return best[1]
        if alike(rest[0]) == alike(old):
            known = "slice_known" in rest[0].replace("-", "_") and next((v for v, step in self.typed(place) if alike(step) == alike(rest[0])), None)
            if known and rest[1:2] == ["given"]:
                return ["type_inv", known, *rest[2:]]
            return [new, *self.facts(p, rest[1:])]
        if p[1] is None:
            return self.facts(p, [{"well-formed": "well_formed", "pre": "requires"}.get(rest[0], rest[0]), *rest[1:]])
        return rest

    def turned(self, place, text, var="c"):
        # a local that stands for a path from an earlier step: today all steps are fields of one record
        names = {var: (place, [])}
        while True:
            heads = "|".join(re.escape(n) for n in names)
            lets = re.finditer(rf"\blet ({NAME}) = ({heads})((?:\.{NAME})*) in(?=\s|$)\s*", text)
            m = next((m for m in lets if m[1] not in names), None)
            if not m:
                break
            at, before = names[m[2]]
            names[m[1]] = (at, before + [t for t in m[3].split(".") if t])
            text = text[: m.start()] + text[m.end() :]

        def one(m):
            at, before = names[m[1]]
            tokens = before + [t for t in m[2].split(".") if t]
            if not tokens or bound_at(m.string, m.start(), m[1]):
                return m[0]
            new = self.path(at, tokens)
            if new is None:
                return m[0] + "{-?-}"
            return var + "." + ".".join(new)

        heads = "|".join(re.escape(n) for n in sorted(names, key=len, reverse=True))
        return re.sub(rf"(?<![^\s(){{}};,])({heads})((?:\.{NAME})*)(?![^\s(){{}};,])", one, text)


def split_signature(lines):
    """(comment lines, name, type, 'unfolding' line, clauses) of a declaration."""
    i = 0
    while i < len(lines) and (lines[i].startswith("--") or not lines[i].strip()):
        i += 1
    m = re.match(rf"((?:(?:pub|abbrev|unfoldable) +)*)({NAME}) : (.*)$", lines[i]) if i < len(lines) else None
    if not m:
        return None
    j = i + 1
    unfolding = ""
    if j < len(lines) and lines[j].startswith("unfolding"):
        unfolding = lines[j]
        j += 1
    return lines[:i], m[2], m[3], unfolding, lines[j:], m[1]


def goal_of(type_, needs):
    m = re.match(rf"tie\.Need-({NAME})", type_)
    if not m:
        return None
    old = m[1]
    for k, (a, b) in enumerate(needs):
        if alike(a) in (alike(old), alike(PRE.sub("", old))) or alike(b) == alike(old):
            return k
    return -1


def loop_of(data, label):
    """The new label of a loop, its variables and which of them change."""
    for ((old, new), names), changed in zip(data["loops"], data["changed"]):
        if alike(old) == alike(label):
            return new, names, changed
    return None


def invariant(data, s):
    """An invariant or measure over the record of today, from one over separate variables."""
    comments, n, type_, unfolding, clauses, marks = s
    kind, label = re.match(r"tie\.(invariant|decreases)-?(\S*)", type_).groups()
    found = loop_of(data, label)
    if not found:
        return None
    new, names, changed = found
    body = "\n".join(clauses).rstrip()
    m = re.match(rf"{re.escape(n)} ((?:{NAME} )*)=(.*)$", body, re.S)
    if not m:
        return None
    params = m[1].split()
    to = {}
    paths = [f"l.initial.{v}" if c else f"l.{v}" for v, c in zip(names, changed)] + [f"l.{v}" for v, c in zip(names, changed) if c]
    if len(paths) != len(params):
        return None
    for p, q in zip(params, paths):
        to[p] = q
    text = re.sub(rf"(?<![^\s(){{}};,])({NAME})", lambda t: to.get(t[1], t[1]), m[2])
    at = {a: b for (a, b) in [(n, f"{kind}-{new}")]}
    return comments + [f"abbrev pub {kind}-{new} : goal.{kind}-{new}"] + ([unfolding] if unfolding else []) + [f"{kind}-{new} l ={text}", ""]


def helper_of(b):
    """A lemma of the file over an earlier step: (name, its variable, the step, its type, its body), or None."""
    text = "\n".join(l for l in b if l.strip() and not l.startswith("--"))
    m = re.match(rf"(?:abbrev )?({NAME}) : \(({NAME}) : tie\.({NAME})\)\s*→\s*(.*?)\n(?:unfolding [^\n]*\n)?\1 ({NAME}) =\s*(.*)$", text, re.S)
    return m.groups() if m else None


def with_helpers(f, helpers, body, var):
    """The body of an answer with each lemma over an earlier step as a local of its own."""
    lets, done = "", set()
    for name, v, step, kind, w, text in helpers:
        place = next((p[0] for p in f.data["places"] if alike(p[0]) == alike(step)), None)
        call = re.compile(rf"(?<![^\s(){{}};,]){re.escape(name)} (?:[^\W\d]{NAME}|[^\W\d])(?:\.before)*(?![^\s(){{}};,])")
        rest = body + lets
        if place is None or not any(re.search(rf"(?<![^\s(){{}};,]){re.escape(n)}(?![^\s(){{}};,])", body) for n, *_ in helpers):
            continue
        local = lambda t: re.sub(rf"(?<![^\s(){{}};,])({'|'.join(re.escape(n[0]) for n in helpers)}) (?:[^\W\d]{NAME}|[^\W\d])(?:\.before)*(?![^\s(){{}};,.])", r"\1", t)
        turned = lambda t, x: re.sub(rf"(?<![^\s(){{}};,]){re.escape(x)}(?=\.)", var, f.turned(place, local(t), x))
        lets += f"    let {name} : {turned(kind, v)} = {turned(text, w)} in\n"
        done.add(name)
    if not done:
        return body, ""
    body = re.sub(rf"(?<![^\s(){{}};,])({'|'.join(re.escape(n) for n in done)}) (?:[^\W\d]{NAME}|[^\W\d])(?:\.before)*(?![^\s(){{}};,.])", r"\1", body)
    return body, lets


def bound_at(text, at, name):
    """Whether a λ around a place binds the name there."""
    depth = 0
    for i in range(at - 1, -1, -1):
        if text[i] in ")]}":
            depth += 1
        elif text[i] in "([{":
            depth -= 1
            if depth < 0:
                depth = 0
                m = re.match(r"\(λ ([^.]*)\.(?=\s)", text[i:at])
                if m and name in re.findall(NAME, m[1]):
                    return True
                # the binders of a λ themselves
                if re.search(r"λ $", text[:i]):
                    return True
    m = re.search(r"λ ([^.()]*)$", text[:at])
    return bool(m)


def tuple_at_end(body):
    """The text before a tuple that ends it, and the tuple's parts."""
    body = body.rstrip()
    if not body.endswith(")"):
        return body, []
    depth = 0
    for i in range(len(body) - 1, -1, -1):
        depth += (body[i] in ")]}") - (body[i] in "([{")
        if depth == 0:
            break
    inside, parts, now, depth = body[i + 1 : -1], [], "", 0
    for ch in inside:
        depth += (ch in "([{") - (ch in ")]}")
        if ch == "," and depth == 0:
            parts.append(now.strip())
            now = ""
        else:
            now += ch
    if now.strip():
        parts.append(now.strip())
    return body[:i].rstrip(), parts


def by_clause(body, names):
    """An answer that is a tuple of several clauses' proofs, as a record of them by name."""
    before, parts = tuple_at_end(body)
    while 1 < len(parts) < len(names):
        start, more = tuple_at_end(parts[-1])
        if start or len(more) < 2:
            return None
        parts = parts[:-1] + more
    # `rw e (a, b)` rewrites in each part
    m = re.search(r"(?:(?<=in)|(?<==))\s+(rw (?:\((?:[^()]|\([^()]*\)|\((?:[^()]|\([^()]*\))*\))*\)|\S+))$", before)
    if m and len(parts) == len(names):
        before, parts = before[: m.start()], [f"{m[1]} ({p})" for p in parts]
    # a lemma that proves all clauses at once
    whole = re.match(rf"((?:{NAME} (?:{NAME} )*)?=\s*)((?:let .*? in\s+)*)({NAME}(?: (?:{NAME}(?:\.{NAME})*|\([^()]*\)))+)$", body.strip(), re.S)
    if len(parts) != len(names) and whole and not whole[3].startswith(("rw ", "simp ", "record ")):
        before = whole[1].rstrip() + "\n    " + whole[2] + f"let all = {whole[3]} in"
        parts = ["all" + ".1" * k + (".0" if k < len(names) - 1 else "") for k in range(len(names))]
    if len(parts) != len(names) or not re.search(r"(=|\bin)$", before):
        return None
    return before + " record { " + " ".join(f"{n} = {p.strip()};" for n, p in zip(names, parts)) + " }"


def in_order(out):
    """The lines of the answers, each behind those that it cites."""
    named = {a[1]: a for a in out if isinstance(a, tuple)}
    cited = lambda a: [n for n in named if n != a[1] and re.search(rf"(?<=[ (]){re.escape(n)}(?= c\b)", "\n".join(a[3]))]
    lines, done = [], set()

    def put(a):
        if a[1] in done:
            return
        done.add(a[1])
        for n in cited(a):
            put(named[n])
        text = "\n".join(a[3])
        for n in cited(a):
            text = re.sub(rf"(?<=[ (]){re.escape(n)}(?= c\b)", named[n][2], text)
        lines.extend(text.split("\n"))

    for a in out:
        if isinstance(a, tuple):
            put(a)
        else:
            lines.append(a)
    return lines


def turn(path, name, data, crate, table):
    f = Function(data, crate, name, table)
    text = open(path, encoding="utf-8").read()
    if "tie.close" not in text:
        return f"{path}: walks by hand"
    bs = blocks(text)
    needs = data["needs"]
    at = [a[0] for a in data["asked_at"]]
    uses, helpers, answers, invariants, said = [], [], {}, [], []
    spec, over_steps = None, []
    for b in bs:
        first = next((l for l in b if l.strip() and not l.startswith("--")), "")
        if first.startswith("use "):
            uses += b
            continue
        s = split_signature(b)
        if s and re.match(r"tie\.(invariant|decreases)", s[2]):
            invariants.append(s)
            continue
        if s and s[2].startswith("tie.Need-"):
            k = goal_of(s[2], needs)
            answers[s[1]] = (k, s)
            continue
        if s and s[1].endswith("_spec") and "statement" in s[2]:
            body = "\n".join(s[4])
            m = re.search(r"\(tie\.spec(.*)\)\s*$", body, re.S)
            spec = args_of(m[1]) if m else []
            continue
        h = helper_of(b)
        if h:
            over_steps.append(h)
            continue
        helpers += b
    loops = [a for a in (spec or []) if any(a == i[1] for i in invariants)]
    given = [a for a in (spec or []) if a not in loops]
    out, order = [], {}
    if len(given) != len(needs):
        said.append(f"{len(given)} answers for {len(needs)} goals")
    used = set()
    for n, (k, s) in answers.items():
        if k is None or k < 0:
            if n in given and len(given) == len(needs):
                k = given.index(n)
            else:
                said.append(f"no goal for {n} : {s[2]}")
                continue
        order[k] = (n, s)
        used.add(k)
    for k, (old, new) in enumerate(needs):
        if k in order:
            n, s = order[k]
            comments, name_, type_, unfolding, clauses, _ = s
            body = "\n".join(clauses).rstrip()
            body = re.sub(rf"^{re.escape(name_)}(?= )", lambda m: new, body, flags=re.M)
            # the loans of a call are no argument of its goal today
            body = re.sub(rf"^({re.escape(new)}(?: {NAME})*) κs =", r"\1 =", body, flags=re.M)
            m = re.match(rf"{re.escape(new)} ((?:{NAME} )*)=", body)
            var = m[1].split() if m else []
            v = var[-1] if var and var[-1].startswith("c") else "c"
            body, lets = with_helpers(f, over_steps, body, v)
            body = f.turned(at[k], body, v)
            if lets:
                head, _, tail = body.partition("=")
                body = head + "=\n" + lets + "    " + tail.strip()
            # an answer cited by another
            if old in data["asked"]:
                recorded = by_clause(body, data["asked"][old])
                if recorded is None:
                    said.append(f"{new} asks {data['asked'][old]}")
                    out += ["-- LEFT " + l for l in body.split("\n")] + [""]
                    continue
                body = recorded
            out += [("answer", name_, new, [l for l in comments if l.strip()] + [f"pub {new} : goal.{new}"] + ([unfolding] if unfolding else []) + [body, ""])]
        elif len(given) == len(needs):
            a = given[k]
            m = re.match(r"\(λ ([^.]*)\. (.*)\)$", a, re.S)
            if not m or re.fullmatch(r"search rules", m[2].strip()):
                continue
            body = f.turned(at[k], m[2], m[1].split()[0])
            if old in data["asked"]:
                recorded = by_clause("= " + body, data["asked"][old])
                if recorded is None:
                    said.append(f"{new} asks {data['asked'][old]}")
                    out += ["-- LEFT " + l for l in body.split("\n")] + [""]
                    continue
                body = recorded[2:]
            out += [f"pub {new} : goal.{new}", f"{new} {m[1].replace(' κs', '')} = {body}", ""]
    out = in_order(out)
    folder = os.path.dirname(path)
    module = re.search(r"use (Rattle\.\S+)\.Tie as tie", text)[1]
    uses = [u for u in uses if not re.search(r"\.(Tie as tie|Statement\.\{statement\})", u)]
    head = [u for u in uses if u.startswith("--")]
    uses = [u for u in uses if u.startswith("use ")]
    # what an invariant cites stands beside it
    moved, names = [], []
    if invariants:
        cited = "\n".join("\n".join(s[4]) for s in invariants)
        parts = blocks("\n".join(helpers)) if helpers else []
        heads = [next((m[1] for l in b for m in [re.match(rf"(?:(?:pub|abbrev|unfoldable|record) +)*({NAME})", l)] if m and not l.startswith("--")), None) for b in parts]
        uses_ = lambda n, t: re.search(rf"(?<![^\s(){{}};,]){re.escape(n)}(?![^\s(){{}};,.])", t)
        take = [bool(n and uses_(n, cited)) for n in heads]
        for k in reversed(range(len(parts))):
            later = "\n".join("\n".join(parts[j]) for j in range(k + 1, len(parts)) if take[j])
            take[k] = take[k] or bool(heads[k] and uses_(heads[k], later))
        helpers = [l for k, b in enumerate(parts) if not take[k] for l in b]
        for k, b in enumerate(parts):
            if take[k]:
                names.append(heads[k])
                for l in b:
                    if l.startswith(heads[k] + " :") or l.startswith("record "):
                        l = "pub " + l
                    l = re.sub(r"^abbrev (?!pub)", "abbrev pub ", l)
                    moved.append(l)
    if invariants:
        inv = [f"-- The invariants and measures of the loops of `{name}`."] + uses + [f"use {module}.Given as goal", ""] + moved
        for s in invariants:
            lines = invariant(data, s)
            if lines is None:
                said.append(f"no loop for {s[1]} : {s[2]}")
                lines = [f"-- {l}" for l in [s[2], *s[4]]]
            inv += lines
        with open(os.path.join(folder, "Invariants.antt"), "w", encoding="utf-8") as it:
            it.write("\n".join(inv))
    if out:
        with open(os.path.join(folder, "Answers.antt"), "w", encoding="utf-8") as it:
            it.write("\n".join(head + uses + ([f"use {module}.Invariants.{{{', '.join(names)}}}"] if names else []) + [f"use {module}.Goals as goal", ""] + helpers + out).rstrip() + "\n")
    if not said:
        os.remove(path)
    else:
        os.rename(path, path + ".old")
    return f"{path}: turned" + ("; " + "; ".join(said) if said else "")


def main(argv):
    names, crate, only = argv[0], argv[1], argv[2:]
    data = json.load(open(names, encoding="utf-8"))
    by = {k.split("-proofs.", 1)[1].rsplit(".Lts", 1)[0]: v for k, v in data.items() if "-proofs." in k and k.endswith(".Lts")}
    table = clauses_below(os.path.join(crate, ".."))
    kit = os.path.join(os.path.dirname(os.popen("rt doc").read().strip()), "rattle")
    table |= {("core" if c.startswith("core") else c, n): v for (c, n), v in clauses_below(kit).items() if c in ("core", "std", "std_alloc", "std_io", "io", "libc")}
    for folder, _, files in sorted(os.walk(os.path.join(crate, "proofs"))):
        if "Proof.antt" not in files:
            continue
        name = os.path.relpath(folder, os.path.join(crate, "proofs")).replace(os.sep, ".")
        if only and name not in only:
            continue
        if name not in by:
            print(f"{folder}: no names")
            continue
        print(turn(os.path.join(folder, "Proof.antt"), name, by[name], os.path.basename(os.path.abspath(crate)), table))


if __name__ == "__main__":
    main(sys.argv[1:])
