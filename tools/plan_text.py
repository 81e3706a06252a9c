"""The parts of a compiled plan's crate that depend on its words, for the texts in tools/compiled: lists, arms of matches, and what the proof of a match
says arm by arm."""
import re

WRITTEN = "Written by tools/compile_plan.py: change the plan or the compiler, not this file."
WIDTH = 100  # of a line of code, as rt fmt breaks it
DONE = "        and_done(w, n, tape, t, cells)"
DONE_BY_KIND = """        if w >> StepWord::KIND_AT == StepWord::AND {
            return and_done(w, n, tape, t, cells);
        }
        add_done(w, n, tape, t, cells)"""
REST = "c.in_default.in_default-own.rest"  # that k is none of a match's keys
CITED = {  # what answers may cite, by module
    "mathlib.Core.Path": "◌≡◌ refl ap ◌∙◌",
    "mathlib.Core.List": "List [] ◌∷◌",
    "Prim.Native.Nat": "ℕ ◌+◌ ◌-◌ ◌≤◌ ◌<◌",
    "native.Mathlib.Omega": "arith",
    "lib.ListN": "get_or",
    "borrow.Author.Rules": "rules",
    "Rattle.compiled.proofs.Reorder": "at in_order reorders",
    "Rattle.compiled.proofs.Rest": "between equal numbered only past past_from reached",
    "@RUNS_SPEC@": "after first last_run row runs",
}


def parts(plan):
    rows = plan.rows
    return {
        "WRITTEN": WRITTEN, "CRATE": plan.crate, "TITLE": plan.title, "NAME": plan.name, "MODULE": plan.module,
        "PLAN": plan.plan, "UNFOLD": "".join(" " + name for name in plan.unfold), "UNFOLD_NAMES": "".join(", " + name for name in plan.unfold),
        "GATES": str(len(plan.gates)), "UNITS": str(plan.units), "WORDS": listed(plan.words),
        "RUNS_SPEC": f"Rattle.{plan.pieces[-1].crate}.specs.inner.Runs",  # where the definition of the runs is: in the crate of the last piece
        "BELOW": f"(k < {len(plan.runs)}) × " if rows else "",
    } | runs_at(plan) | gate_kind(plan) | lists(plan) | gate_code(plan) | gate_proof(plan)


def runs_at(plan):
    """the runs of a long plan are in crates of their own"""
    if not plan.long:
        return {"RUNS": "runs", "RUNS_FOR": "pub(crate)", "RUNS_MOD": "mod runs;\n\n", "RUNS_USE": ""}
    return {"RUNS": plan.pieces[0].crate, "RUNS_FOR": "pub", "RUNS_MOD": "", "RUNS_USE": f"use {plan.pieces[0].crate}::runs;\n"}


def piece_parts(plan, piece):
    """the parts of a function that does runs, and of its proof"""
    return {"FUNCTION": piece.place[-1], "PLACE": "::".join(piece.place), "PLACE_IN_PROOFS": ".".join(piece.place),
            "AT": str(piece.at)} | code(plan, piece) | on_share_proof(plan, piece)


def inner(files):
    """what the file of a crate's inner names says, by the files that it has"""
    names = {"Runs": "the plan cut at its ANDs and ADDs", "Laws": "that the plan is these parts, and the laws that masked_plan asks for"}
    found = {name: text for name, text in names.items() if f"specs/inner/{name}.antt" in files}
    head = "; ".join(f"{text} ({name})" for name, text in found.items())
    return {"INNER": f"-- {head[:1].upper()}{head[1:]}.\n" + "".join(f"pub mod {name}\n" for name in found)}


def gate_kind(plan):
    """a plan without ADD links none"""
    if not plan.adds():
        return {"GATE_KIND": "(λ k. eqb k 3)", "KIND_GHOST": "ghost use Rattle.std.specs.Prelude.{eqb};", "KIND_USE": "", "KIND_EQB": "eqb, ", "WORD_USE": "",
                "DONE_USE": "and_done", "DONE_CODE": DONE, "GATE_DONE": "and_done", "SHOW_USE": "use lib.Dec.{eqb→eq}\n", "SHOW_KIND": "eqb→eq _ 3 c.requires.good_plan_word.4"}
    return {"GATE_KIND": "is_gate", "KIND_GHOST": "ghost use Rattle.gates.specs.inner.PlanWords.{is_gate};",
            "KIND_USE": "use Rattle.gates.specs.inner.PlanWords.{is_gate}\n", "KIND_EQB": "", "WORD_USE": "use word::step_word::StepWord;\n",
            "DONE_USE": "{add_done, and_done}", "DONE_CODE": DONE_BY_KIND, "GATE_DONE": "add_done",
            "SHOW_USE": "use Rattle.gates.proofs.ByField.{not_and}\n", "SHOW_KIND": "not_and _ c.requires.good_plan_word.4 c.if-w-eq-AND.false"}


def listed(words):
    return "".join("%d ∷ " % word for word in words) + "[]"


def by_number(base, words):
    """a list of words by a number q, that stands in the word which is None"""
    return "".join("(%d + q) ∷ " % base if word is None else "%d ∷ " % word for word in words) + "[]"


def hexed(word):
    return "0x%08X" % word


# ---- definitions

def lists(plan):
    rows = plan.rows
    runs = "".join("(%s) ∷\n    " % listed(run) for run in plan.runs[rows.last + 1 if rows else 0:-1]) + "[]"
    if not rows:
        return {"SPEC_USES": "use Rattle.std.specs.Prelude.{List, [], ◌∷◌, ℕ}", "ROW": "", "RUN_LISTS": runs,
                "LAST_RUN": listed(plan.runs[-1]), "GATE_LIST": listed(plan.gates)}
    return {
        "SPEC_USES": "use Rattle.std.specs.Prelude.{List, [], ◌∷◌, ◌++◌, map, ℕ, ◌+◌, replicate}\nuse Rattle.masking.specs.Translation.{up_from}",
        "ROW": row_lists(plan, runs),
        "RUN_LISTS": "first ++ (map row (up_from %d %d) ++ after)" % (rows.number(), rows.last - rows.first + 1),
        "LAST_RUN": listed(plan.runs[-1]),
        "GATE_LIST": "replicate %d %d ++ (%s)" % (plan.alike, plan.gates[0], listed(plan.gates[plan.alike:])),
    }


def row_lists(plan, after):
    rows = plan.rows
    words = by_number(rows.base(), rows.words[:rows.place] + [None] + rows.words[rows.place + 1:])
    first = "".join("(%s) ∷ " % listed(run) for run in plan.runs[:rows.first])
    return f"""
-- the runs that differ in a shift number, by that number
abbrev pub row : ℕ → List ℕ
row q = {words}

-- the runs before them
abbrev pub first : List (List ℕ)
first = {first}[]

-- and after them
abbrev pub after : List (List ℕ)
after =
    {after}
"""


# ---- code

def code(plan, piece):
    used = sorted({name for arm in piece.arms for name, _ in plan.calls(arm)})
    arms, uses = [line for arm in piece.arms for line in arm_lines(plan, arm)], [f"use compiled::linear::{braced(used)};\n"] if used else []
    if piece.next:
        arms.append(f"        _ => {piece.next.place[-1]}(k, i, cells),")
        uses.append(f"use {piece.next.crate}::{piece.next.place[-1]};\n")
    return {"USES": "\n" + "".join(uses) if uses else "", "ARMS": "\n".join(arms)}


def braced(names):
    return names[0] if len(names) == 1 else "{" + ", ".join(names) + "}"


def gate_code(plan):
    keyed = range(plan.alike, len(plan.gates)) if plan.rows else range(len(plan.gates) - 1)
    rest = plan.gates[0] if plan.rows else plan.gates[-1]
    if not keyed:
        return {"GATE_CODE": f"    {hexed(rest)}"}
    gates = [f"        {k} => {hexed(plan.gates[k])}," for k in keyed] + [f"        _ => {hexed(rest)},"]
    return {"GATE_CODE": "\n".join(["    match k {"] + gates + ["    }"])}


def arm_lines(plan, arm):
    lines = []
    for name, words in plan.calls(arm):
        given = [hexed(arm.base()), f"(k - {arm.offset()}) as u32"] if words is None else list(map(hexed, words))
        lines += call_lines(name, given + ["i", "cells"])
    if not lines:
        return [f"        {plan.key(arm)} => {{}}"]
    return [f"        {plan.key(arm)} => {{"] + lines + ["        }"]


def call_lines(name, given):
    line = f"            {name}({', '.join(given)});"
    if len(line) <= WIDTH:
        return [line]
    return [f"            {name}("] + ["                " + line for line in wrapped([word + "," for word in given], WIDTH - 16)] + ["            );"]


def wrapped(items, width):
    """the items in lines that each have as many as go in"""
    lines = []
    for item in items:
        if lines and len(lines[-1]) + 1 + len(item) <= width:
            lines[-1] += " " + item
        else:
            lines.append(item)
    return lines


# ---- proofs: what the check asks for and does not find by itself. It names a call after its function; where that name is given away the arm joins it, and
# after that a count.

def answer(goal, text):
    return f"pub {goal} : goal.{goal}\n{goal} c = {text}"


def cited(proof):
    """the imports of what a proof cites"""
    words = set(re.findall(r"[^\s(),]+", proof))
    found = {module: [name for name in names.split() if name.strip("◌") in words] for module, names in CITED.items()}
    return "\n".join(f"use {module}.{{{', '.join(names)}}}" for module, names in found.items() if names)


def rewritten(facts):
    return f"rw {facts[0]}" if len(facts) == 1 and " " not in facts[0] else f"rw ({', '.join(facts)})"


def in_arm(plan, arm):
    return "in_default" if plan.key(arm) == "_" else f"in-{plan.key(arm)}"


def ending(name, place, given):
    """what the check puts behind the name of the next call of a function, in the arm `place`"""
    endings = ["", "-" + place] + [f"-{place}-{count}" for count in range(2, len(given) + 2)]
    return next(end for end in endings if name + end not in given)


def on_share_proof(plan, piece):
    given, needs, returns = set(), [], []
    for number, arm in enumerate(piece.arms):
        place, calls = in_arm(plan, arm), []
        for name, words in plan.calls(arm):
            end = ending(name, place, given)
            needs += asked(plan, piece, arm, words, f"{name}-requires{end}", not calls)
            calls.insert(0, name + end)
            given.add(name + end)
        returns.append(answer(f"returns-{place}", shown(plan, arm, run_fact(plan, piece, arm, number), [f"c.{call}.ensures" for call in calls])))
    if piece.next:
        not_below = "c.requires.0" if piece.at else "(omega arith)"
        needs.append(answer(f"{piece.next.place[-1]}-requires", f"(reached {piece.at} {len(piece.arms)} _ {REST} {not_below}, {sizes(piece)})"))
    proof = numbered_run(plan) + "\n\n".join(needs + returns)
    return {"ON_SHARE_USES": cited(proof), "ON_SHARE_PROOF": proof}


def shown(plan, arm, run, calls):
    """that an arm's calls do its run"""
    if not arm.order:
        return rewritten([run] + calls)
    on, done = "c.args.i c.args.cells.now", rewritten(calls)
    if arm.place is None:
        us, is_run = ("last_run", run) if plan.key(arm) == "_" else (f"(get_or runs {arm.first} last_run)", f"ap (λ (k : ℕ). get_or runs k last_run) {run}")
        return f"in_order ({listed(arm.done())}) {us} {on} ({done}) ({is_run}) tt"
    q = f"(c.args.k - {arm.offset()})"
    test = f"at {arm.number() + arm.last - arm.first + 1} (λ q. reorders (row q) (row_done q)) {q} tt (omega (arith, {stands(plan, arm)}))"
    return f"in_order (row_done {q}) (row {q}) {on} ({done}) ({run}) ({test})"


def sizes(piece):
    """what each call asks of i and the cells"""
    return ", ".join(f"c.requires.{place + (1 if piece.at else 0)}" for place in (0, 1))


def numbered_run(plan):
    """the law by which the run of the arm over a number is found"""
    rows = plan.rows
    if not rows:
        return ""
    low, high = rows.first, rows.last + 1
    done = f"""-- its words in the order in which they are done
abbrev row_done : ℕ → List ℕ
row_done q = {by_number(rows.base(), rows.done())}

""" if rows.order else ""
    return done + f"""numbered_run : (k : ℕ) → ({low} ≤ k) × (k < {high}) → get_or runs k last_run ≡ row (k - {rows.offset()})
numbered_run k h = numbered row after last_run first {rows.number()} {high - low} k h.0 h.1 ∙ ap row (omega (arith, h.0))

"""


def stands(plan, arm):
    """between which keys k stands in the arm without one"""
    return f"between {arm.first} {arm.last + 1} {len(plan.runs) - arm.last - 1} _ {REST} c.requires.0"


def asked(plan, piece, arm, words, goal, first):
    """the answers that a call wants: the first of an arm, and the one with the number"""
    if words is None:
        small = f"omega (arith, {stands(plan, arm)})"
        return [answer("overflow_sub-k", small), answer("overflow_cast-k", small), answer(goal, f"(refl, refl, {small}, search rules, search rules)")]
    if plan.rows or not first:
        return []
    return [answer(goal, f"({sizes(piece)})" if piece.at else "c.requires")]


def run_fact(plan, piece, arm, number):
    """that run k of the plan is the arm's"""
    if plan.key(arm) != "_":
        return f"c.{in_arm(plan, arm)}.is"
    if plan.rows:
        return f"numbered_run _ ({stands(plan, arm)})"
    return f"past_from runs last_run {piece.at} {number} _ refl {REST} c.requires.0" if piece.at else f"past runs last_run _ {REST}"


def gate_proof(plan):
    keyed = len(plan.gates) - (plan.alike if plan.rows else 1)
    goal, rest = ("returns-in_default", REST) if keyed else ("returns", "tt")  # without a key there is no match
    law = f"only {keyed} _ {rest} c.requires"
    if plan.rows:
        law = f"equal _ _ {plan.alike} _ " + (f"(between 0 {plan.alike} {keyed} _ {rest} c.requires).1" if keyed else "c.requires")
    proof = answer(goal, f"rw ({law})")
    return {"GATE_USES": cited(proof), "GATE_PROOF": proof}
