#!/usr/bin/env python3
"""The plan compiler: from a plan's words a Rattle crate that does them on n shares, 2 to 8, with its proofs. docs/PLANS.md shows its use.

usage: compile_plan.py [--check] [NAME..]

NAME is a section of tools/plans.ini, by default each; its crate, crates/compiled_NAME, is written from the texts in tools/compiled, or with --check
compared with what would be written. Each run of linear words between ANDs and ADDs becomes straight code on one share, an arm of a
match on the run's number (plan_cut.py). A plan of more than 27 arms has them in crates of their own, compiled_NAME_runs and, for those from number K on,
compiled_NAME_from_K. The prover checks all of it, so that nothing here has to be trusted."""
import configparser
import os
import shutil
import sys

from plan_cut import ROOT, Plan, refuse
from plan_text import inner, parts, piece_parts

TEXTS = os.path.join(ROOT, "tools", "compiled")


def texts(folder):
    """the texts below a folder, by the path of the file that they become"""
    found = {}
    for place, _, names in os.walk(folder):
        for name in names:
            path = os.path.join(place, name)
            if name.endswith(".in"):
                found[os.path.relpath(path, folder)[:-len(".in")]] = open(path, encoding="utf-8").read()
    return found


def crates_of(plan):
    """the files of the plan's crate, and of those of its runs where it is long: the texts with the plan's parts put in"""
    first, *later = plan.pieces
    common = {path: text for path, text in texts(TEXTS).items() if path.split(os.sep)[0] in ("src", "specs", "proofs")}
    cut_up = {"specs/inner/Runs.antt": common.pop("specs/inner/Runs.antt")} | {path: common[path] for path in ("specs/Lib.antt", "specs/inner.antt")}
    runs = {path: common.pop(path) for path in list(common) if path.startswith(("src/runs", "proofs/runs/"))}
    own = texts(os.path.join(TEXTS, "own")) if plan.own else {}
    calls, runs = common | own, filled(runs, piece_parts(plan, first)) | piece_files(plan, first)
    if plan.long:
        crates = {piece.crate: piece_files(plan, piece) for piece in reversed(later)} | {first.crate: runs | texts(os.path.join(TEXTS, "long")), plan.crate: calls}
        crates[later[-1].crate] |= cut_up
    else:
        crates = {plan.crate: cut_up | runs | calls}
    return {crate: finished(files, parts(plan) | inner(files) | {"CRATE": crate}) for crate, files in crates.items()}


def piece_files(plan, piece):
    """the proof of a function that does runs; the first stands in the file runs, another in a crate of its own"""
    given = texts(os.path.join(TEXTS, "piece"))
    files = {"/".join(["proofs"] + piece.place + ["Answers.antt"]): given["proofs/on_share.antt"]} | ({"src/lib.rt": given["src/lib.rt"]} if piece.at else {})
    return filled(files, piece_parts(plan, piece))


def filled(files, put_in):
    for name, part in put_in.items():
        files = {path.replace(f"@{name}@", part): text.replace(f"@{name}@", part) for path, text in files.items()}
    return files


def finished(files, put_in):
    in_parts = {name: put_in[name] for name in ("WRITTEN", "PLAN", "RUNS_SPEC", "CRATE", "TITLE", "MODULE")}  # what stands in the parts too
    return filled(filled(files, put_in), in_parts)


def present(folder):
    """the files of a crate but its must-fail edits, which are written by hand"""
    found = {}
    for part in ("src", "specs", "proofs"):
        for place, _, names in os.walk(os.path.join(folder, part)):
            for name in names:
                path = os.path.join(place, name)
                found[os.path.relpath(path, folder)] = open(path, encoding="utf-8").read()
    return found


def write(folder, files):
    for part in ("src", "specs", "proofs"):
        shutil.rmtree(os.path.join(folder, part), ignore_errors=True)
    for path, text in files.items():
        path = os.path.join(folder, path)
        os.makedirs(os.path.dirname(path), exist_ok=True)
        with open(path, "w", encoding="utf-8") as file:
            file.write(text)


def sections():
    config = configparser.ConfigParser(interpolation=None)
    try:
        with open(os.path.join(ROOT, "tools", "plans.ini"), encoding="utf-8") as file:
            config.read_file(file)
    except configparser.Error as error:
        refuse(str(error))
    return config


def left_over(config):
    """crates that the compiler wrote for sections that are gone, or for runs of a plan that was longer"""
    written = {crate for name in config.sections() for crate in crates_of(Plan(name, config[name]))}
    return [name for name in sorted(os.listdir(os.path.join(ROOT, "crates"))) if name.startswith("compiled_") and name not in written]


def main(arguments):
    config, check = sections(), "--check" in arguments
    names = [name for name in arguments if name != "--check"]
    for name in names:
        if name not in config:
            refuse(f"tools/plans.ini has no section {name}; usage: compile_plan.py [--check] [NAME..]")
    wrong = [f"crates/{name} is of no section in tools/plans.ini" for name in left_over(config)] if check and not names else []
    for name in names or config.sections():
        plan = Plan(name, config[name])
        for crate, files in crates_of(plan).items():
            folder = os.path.join(ROOT, "crates", crate)
            if not check:
                write(folder, files)
                print(f"crates/{crate}: {plan.figures()}")
            elif present(folder) != files:
                wrong.append(f"crates/{crate} is not what the compiler writes")
    for text in wrong:
        print(f"compile_plan: {text}", file=sys.stderr)
    return 1 if wrong else 0


sys.exit(main(sys.argv[1:]))
