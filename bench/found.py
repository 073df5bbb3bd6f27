#!/usr/bin/env python3
"""Times `milkhour find` over the claims of cases-milkhour/find-*, and prints a table.

    python3 bench/found.py [--runs N] [--untimed] [--only WORD..] [--] [PROGRAM]

PROGRAM is another executable than the built one; with `--untimed` the table has no times, and each search is done once. Of each claim the table has the answer, the questions that were asked, the least clock time and the least time of the
processors of N runs (3 if it isn't said), and how long what is found is: its lemmas, and its letters without blanks. Beside it stands
what the example of that name has by hand for the claims of the same kinds and names: the lemmas that they cite, and those that these cite.
"""
import argparse
import json
import os
import re
import subprocess
import sys
import time
from pathlib import Path

TOP = Path(__file__).resolve().parent.parent
ANSWERS = {0: "proved", 1: "nothing"}


def steps(text):
    """The steps of a proof by their names, without comments and blanks in front."""
    bare = re.sub(r"%[^\n]*", "", text)
    found = [it.strip() for it in re.findall(r"(?:\[[^\]]*\]|[^;\[])*;", bare)]
    return {it.split()[1].rstrip(":"): it for it in found if len(it.split()) > 1}


def cited(step, names):
    using = re.search(r"\busing\b(.*);", step, re.S)
    return [it for it in re.findall(r"\w+", using[1]) if it in names] if using else []


def size(of, names):
    """How many lemmas the named steps rest on, and the letters of all of them."""
    wanted, left = set(), list(names)
    while left:
        name = left.pop()
        if name not in wanted:
            wanted.add(name)
            left += cited(of[name], of)
    letters = sum(len("".join(of[it].split())) for it in wanted)
    return f"{len(wanted) - len(names)}, {letters}" if wanted else ""


def measured(program, folder, runs):
    """The status, the text and the least clock time and processors' time of a search."""
    words = [program, *(folder / "args").read_text().split("\n")[:-1]]
    best = [float("inf"), float("inf")]
    for _ in range(max(1, runs)):
        begin = time.perf_counter()
        it = subprocess.Popen(words, cwd=folder, stdin=subprocess.DEVNULL, stdout=subprocess.PIPE, stderr=subprocess.DEVNULL, text=True)
        text = it.stdout.read()
        _, status, usage = os.wait4(it.pid, 0)
        it.returncode = os.waitstatus_to_exitcode(status)
        best = [min(a, b) for a, b in zip(best, (time.perf_counter() - begin, usage.ru_utime + usage.ru_stime))]
    return it.returncode, text, *best


def questions(program, folder):
    """How many questions a search asks."""
    words = [program, *(folder / "args").read_text().split("\n")[:-1], "--format", "json"]
    it = subprocess.run(words, cwd=folder, stdin=subprocess.DEVNULL, capture_output=True, text=True)
    return f"{json.loads(it.stdout)['queries']:,}" if it.returncode in ANSWERS else ""


def row(program, folder, runs):
    status, text, clock, processors = measured(program, folder, runs)
    name = folder.name.removeprefix("find-")
    claims = steps((folder / "proof").read_text())
    answer = "a run" if status == 1 and text.startswith("false") else ANSWERS.get(status, f"status {status}")
    own = size(steps(text), claims) if status == 0 else ""
    example = TOP / "examples" / name / "proof"
    by_hand = steps(example.read_text()) if example.is_file() else {}
    shared = [it for it in claims if it in by_hand and by_hand[it].split()[0] == claims[it].split()[0]]
    times = [f"{clock * 1e3:,.0f} ms", f"{processors * 1e3:,.0f} ms"] if runs else []
    return [name, answer, questions(program, folder), *times, own, size(by_hand, shared) if len(shared) == len(claims) else ""]


def main():
    parser = argparse.ArgumentParser()
    parser.add_argument("--runs", type=int, default=3)
    parser.add_argument("--untimed", action="store_true")
    parser.add_argument("--only", nargs="*", default=[])
    parser.add_argument("program", nargs="?", type=Path, default=TOP / "crates/milkhour/out/milkhour")
    asked = parser.parse_args()
    if not os.access(asked.program, os.X_OK):
        sys.exit(f"found: {asked.program} isn't there")
    runs = 0 if asked.untimed else asked.runs
    heads = ["Claims", "answer", "questions", *([] if asked.untimed else ["clock", "processors"]), "found: lemmas, letters", "by hand"]
    print(f"| {' | '.join(heads)} |\n{'|---' * len(heads)}|")
    for args in sorted(TOP.glob("cases-milkhour/find-*/args")):
        answered = (args.parent / "status").read_text().strip() in ("0", "1")
        if answered and args.read_text().split() == ["find", "program", "proof"] and (not asked.only or any(it in args.parent.name for it in asked.only)):
            print(f"| {' | '.join(row(asked.program.resolve(), args.parent, runs))} |", flush=True)


main()
