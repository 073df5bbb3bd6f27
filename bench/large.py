#!/usr/bin/env python3
"""The semaphore of `workload`, shared by more processes than that command takes.

    python3 bench/large.py PROGRAM [COUNT ..]       times `milkhour verify` for each COUNT, and for 7, 10 and 16 where none is named
    python3 bench/large.py --write FOLDER COUNT     writes its program and its proof

PROGRAM is a built `milkhour`. Times are those of the processors, the least of RUNS, start included; where z3 is installed, it is timed on
what `conditions --smt` prints of the same texts.
"""
import os
import resource
import shutil
import subprocess
import sys
import tempfile
from pathlib import Path

RUNS = 12


def program(count):
    parts = [
        f"P{i} :: [ p{i}_0: loop forever do [ p{i}_1: noncritical; p{i}_2: request y; p{i}_3: critical; p{i}_4: release y ] ]"
        for i in range(1, count + 1)
    ]
    return "local y: integer where y = 1; " + " || ".join(parts) + "\n"


def is_free(count, but=0):
    return " /\\ ".join(f"~at p{i}_3 /\\ ~at p{i}_4" for i in range(1, count + 1) if i != but)


def proof(count):
    """That one process is inside at most, and that the first comes in."""
    cases = [f"(y = 1 /\\ {is_free(count)})"]
    cases += [f"(y = 0 /\\ (at p{i}_3 \\/ at p{i}_4) /\\ {is_free(count, i)})" for i in range(1, count + 1)]
    ranks = [f"at p1_2 /\\ y = 0 /\\ at p{i}_{place} helper p{i}_{place}" for i in range(2, count + 1) for place in (3, 4)]
    ranks.append("at p1_2 /\\ y >= 1")
    mux = " \\/ ".join(cases)
    enter = f"at p1_2 leads at p1_3 within {2 * count - 1} by fair p1_2 [ {'; '.join(ranks)} ]"
    return f"invariant mux: {mux}; response enter: {enter} using mux;\n"


def write(folder, count):
    folder.mkdir(parents=True, exist_ok=True)
    (folder / "program").write_text(program(count))
    (folder / "proof").write_text(proof(count))
    return [folder / "program", folder / "proof"]


def used():
    """Of the processors by ended children, in seconds."""
    children = resource.getrusage(resource.RUSAGE_CHILDREN)
    return children.ru_utime + children.ru_stime


def seconds(words):
    least = None
    for _ in range(RUNS):
        began = used()
        subprocess.run(words, stdin=subprocess.DEVNULL, stdout=subprocess.DEVNULL, check=True)
        least = min(it for it in (least, used() - began) if it is not None)
    return f"{least:.3f} s" if least < 0.2 else f"{least:.2f} s" if least < 10 else f"{least:.0f} s"


def of_z3(milkhour, texts, scratch):
    if shutil.which("z3") is None:
        return ""
    questions = scratch / "questions.smt2"
    with open(questions, "wb") as out:
        subprocess.run([milkhour, "conditions", *texts, "--smt"], stdout=out, check=True)
    return seconds(["z3", questions])


def main(milkhour, counts):
    print(f"    {len(os.sched_getaffinity(0))} processors, load {os.getloadavg()[0]:.1f}, least of {RUNS} runs\n")
    print("| processes | milkhour verify | z3 |\n|---|---|---|")
    with tempfile.TemporaryDirectory() as room:
        for count in counts:
            texts = write(Path(room), count)
            print(f"| {count} | {seconds([milkhour, 'verify', *texts])} | {of_z3(milkhour, texts, Path(room))} |", flush=True)


if len(sys.argv) == 4 and sys.argv[1] == "--write":
    write(Path(sys.argv[2]), int(sys.argv[3]))
elif len(sys.argv) > 1 and not sys.argv[1].startswith("-"):
    main(sys.argv[1], [int(it) for it in sys.argv[2:]] or [7, 10, 16])
else:
    sys.exit(__doc__)
