"""Which parts of the claims have no restatement in crates/lubewon/proofs/stated; the exit status is 1 if there are any.

From the record Claims it goes by names through the types of fields and through `abbrev` types, in crates/*/specs. Records that hold data alone are left
out. It asks for
- each field: a definition `name : TYPE`, `name = h.field`, in a section over `(h : RECORD ..)`. The prover holds TYPE to the field's own type.
- each record that stands left of an arrow, as a condition: a definition whose type ends in `→ RECORD ..` and whose value is `record { .. }`.
- each `abbrev` type: not cited there, and so written out; of one with several clauses the left side of each clause.
"""
import re
import sys
from pathlib import Path

CRATES = Path(__file__).resolve().parent.parent / "crates"
USE = re.compile(r"^use Rattle\.(\w+)\.specs\.(\w+)\.\{(.*)\}", re.M)


def parsed(path):
    """The names that a file uses, by crate and file; and its lines with their indents, each joined with the lines that go on four deeper."""
    text, lines = re.sub(r"--.*", "", path.read_text()), []
    for line in filter(str.strip, text.split("\n")):
        deep = len(line) - len(line.lstrip())
        if lines and deep >= lines[-1][0] + 4: lines[-1][1] += " " + line.strip()
        else: lines.append([deep, line.strip()])
    return {name.strip(): (crate, file) for crate, file, names in USE.findall(text) for name in names.split(",")}, lines


# records and types by crate, file and name: the fields, or the clauses, with their types
records, types, scopes = {}, {}, {}
for path in CRATES.glob("*/specs/*.antt"):
    here, record = (path.parts[-3], path.stem), None
    scopes[here], lines = parsed(path)
    for deep, line in lines:
        if m := re.match(r"pub record (\S+)", line): record, inside = records.setdefault(here + (m[1],), {}), deep
        elif record is not None and deep > inside: record.update([re.match(r"pub (\S+) : (.*)", line).groups()])
        elif m := re.match(r"abbrev pub (\S+) : .*Type 0$", line): record, types[here + (m[1],)] = None, {}
        elif (m := re.match(r"(\S+)(.*?) = (.*)", line)) and here + (m[1],) in types: types[here + (m[1],)][m[1] + m[2]] = m[3]
        else: record = None
parts = records | types


def cited(text, here):
    """The records and types that a text names; one that is not brought in by name is any of that name."""
    words = re.findall(r"[^\s(){}.;,@]+", text)
    near = {w: scopes[here].get(w, here) + (w,) for w in words}
    return {k for w in words for k in ([near[w]] if near[w] in parts else [k for k in parts if k[2] == w])}


reached, todo, conditions = [], [("lubewon", "Claims", "Claims")], set()
for key in todo:
    if key in reached: continue
    reached.append(key)
    for text in parts[key].values():
        todo += cited(text, key[:2])
        for left in text.split("→")[:-1]: conditions |= cited(left, key[:2])


def data(key):
    return key in records and not any(re.search(r"[≡≤<⊥⊎]|\bT ", t) or any(not data(k) for k in cited(t, key[:2])) for t in records[key].values())


shown, made, named, whole = set(), set(), set(), ""
for path in CRATES.glob("lubewon/proofs/stated/*.antt"):
    (scope, lines), over, sort = parsed(path), [], ("", "")
    named |= {scope[n] + (n,) for n in scope}
    for deep, line in lines:
        whole, over = whole + line + "\n", [o for o in over if o[0] < deep]
        if m := re.match(r"module _ .*\((\S+) : (\S+)[^()]*\) where", line): over.append((deep, m[1], scope.get(m[2], ("", "")) + (m[2],)))
        elif m := re.match(r"(\S+) : (.*)", line): sort = m.groups()
        elif m := re.match(r"(\S+) = ([^\s.]+)\.([^\s.]+)$", line): shown |= {o[2] + (m[3],) for o in over if o[1] == m[2] and sort[0] == m[1]}
        elif line.startswith(sort[0] + " ") and "= record {" in line: made |= {scope.get(w, ("", "")) + (w,) for w in sort[1].split("→")[-1].split()[:1]}

kept = [k for k in reached if k in records and not data(k)]
lost = [f"{k[2]}.{f} is not restated" for k in kept for f in records[k] if k + (f,) not in shown]
lost += [f"{k[2]}, a condition, is not made" for k in kept if k in conditions and k not in made]
lost += [f"{k[2]} is cited, not written out" for k in reached if k in types and k in named and len(types[k]) == 1]
lost += [f"{c} has no restatement" for k in reached if k in types and len(types[k]) > 1 for c in types[k] if c not in whole]
print("".join(l + "\n" for l in lost) + f"{len(kept)} records, {sum(len(records[k]) for k in kept)} fields, {len(set(kept) & conditions)} conditions, "
      f"{len(set(reached) & set(types))} abbrev types: {len(lost)} not restated")
sys.exit(bool(lost))
