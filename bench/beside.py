#!/usr/bin/env python3
"""What `milkhour verify` takes beside `step verify`, on the proofs of examples/ and bench/ that hold: `python3 bench/beside.py [PROGRAM]`

The program, the built `milkhour` where none is named, is run as `PROGRAM verify`, as `PROGRAM verify --format plain`, which says what `step`
says and nothing beside, and as `PROGRAM step verify`, in turns, RUNS times each. It prints the least time of each by the clock, start
included, and how many times the last the two others are."""
import os
import subprocess
import sys
import time
from pathlib import Path

TOP = Path(__file__).resolve().parent.parent
RUNS = 40


def timed(words):
    """Seconds by the clock that a command takes, if it ends with status 0."""
    began = time.perf_counter()
    ran = subprocess.run(words, stdout=subprocess.DEVNULL, stderr=subprocess.DEVNULL, stdin=subprocess.DEVNULL)
    if ran.returncode:
        sys.exit(f"{' '.join(map(str, words))}: status {ran.returncode}")
    return time.perf_counter() - began


def least(program, texts):
    """The least times of `milkhour verify`, of the same in plain form, and of `step verify`."""
    calls = [[program, "verify", *texts], [program, "verify", *texts, "--format", "plain"], [program, "step", "verify", *texts]]
    taken = [[timed(call) for call in calls] for _ in range(RUNS)]
    return [min(times) for times in zip(*taken)]


program = sys.argv[1] if len(sys.argv) > 1 else str(TOP / "crates/milkhour/out/milkhour")
print(f"    {len(os.sched_getaffinity(0))} processors, load {os.getloadavg()[0]:.1f}, least of {RUNS} runs\n")
print("| proof | milkhour verify | in plain form | step verify | times | plain |\n|---|---|---|---|---|---|")
for folder in sorted(it.parent for at in ("examples", "bench") for it in TOP.glob(f"{at}/*/program")):
    people, plain, exact = least(program, [folder / "program", folder / "proof"])
    print(f"| {folder.name} | {people * 1000:.1f} ms | {plain * 1000:.1f} ms | {exact * 1000:.1f} ms | {people / exact:.2f} | {plain / exact:.2f} |")
