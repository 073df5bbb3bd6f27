#!/usr/bin/env python3
"""How many systems of linear lines without a whole solution are seen to have none: by `step`'s search, and by `milkhour`'s beside z3.

    python3 bench/strength.py [--count N] [PROGRAM]

Of each kind N systems are made (300), with coefficients from -9 to 9 and constants from -20 to 20, the same each time. z3 tells which
have no whole solution. Of these the claim that the system has none is verified, by `PROGRAM step verify` and by `PROGRAM verify`.
"""
import random
import subprocess
import sys
import tempfile
import time
from pathlib import Path

TOP = Path(__file__).resolve().parent.parent
ARGUMENTS = sys.argv[1:]
COUNT = int(ARGUMENTS.pop(ARGUMENTS.index("--count") + 1)) if "--count" in ARGUMENTS else 300
WORDS = [it for it in ARGUMENTS if it != "--count"]
PROGRAM = Path(WORDS[0] if WORDS else TOP / "crates/milkhour/out/milkhour").resolve()
KINDS = ((2, 3, 1), (3, 4, 1), (3, 3, 2), (4, 4, 2), (2, 4, 0), (3, 6, 0), (4, 6, 1))  # variables, rows, equations


def system(rng, variables, rows, equations):
    """Lines as whether each is an equation, its coefficients and its constant."""
    lines = []
    for k in range(rows + equations):
        while not any(numbers := [rng.randint(-9, 9) for _ in range(variables)]):
            pass
        lines.append((k >= rows, numbers, rng.randint(-20, 20)))
    return lines


def claim(lines):
    """The step that claims that no state meets the lines."""
    parts = []
    both = " /\\ "
    for equal, numbers, constant in lines:
        total = "".join(f" {'-' if a < 0 else '+'} {abs(a)}*x{i}" for i, a in enumerate(numbers) if a)
        parts.append(f"{constant}{total} {'=' if equal else '>='} 0")
    return f"invariant empty: ~({both.join(parts)}) by true;\n"


def query(lines):
    """The same lines for z3."""
    number = lambda a: str(a) if a >= 0 else f"(- {-a})"
    text = "(push)\n"
    for equal, numbers, constant in lines:
        products = " ".join(f"(* {number(a)} x{i})" for i, a in enumerate(numbers))
        text += f"(assert ({'=' if equal else '>='} (+ {products} {number(constant)}) 0))\n"
    return text + "(check-sat)\n(pop)\n"


def judged(variables, systems):
    """What z3 says of each system, within two seconds, and the seconds that it took for all."""
    text = "(set-option :timeout 2000)\n" + "".join(f"(declare-const x{i} Int)\n" for i in range(variables))
    start = time.time()
    said = subprocess.run(["z3", "-in"], input=text + "".join(map(query, systems)), capture_output=True, text=True).stdout
    return said.split(), time.time() - start


def is_proved(folder, *words):
    return subprocess.run([PROGRAM, *words, "program", "proof"], cwd=folder, capture_output=True).returncode == 0


def row(folder, kind):
    """A row of the table."""
    rng = random.Random(kind[0] * 100 + kind[1] * 10 + kind[2])
    systems = [system(rng, *kind) for _ in range(COUNT)]
    said, seconds = judged(kind[0], systems)
    (folder / "program").write_text(f"local {', '.join(f'x{i}' for i in range(kind[0]))}: integer; P :: [ l0: skip ]\n")
    by_step = by_milkhour = unknown = 0
    for lines, answer in zip(systems, said):
        (folder / "proof").write_text(claim(lines))
        if answer == "unsat":
            by_step += is_proved(folder, "step", "verify")
            by_milkhour += is_proved(folder, "verify")
        elif answer == "unknown":
            unknown += 1
        elif is_proved(folder, "verify"):
            sys.exit(f"proved, and z3 has a solution: {claim(lines)}")
    return f"| {', '.join(map(str, kind))} | {said.count('unsat')} | {by_step} | {by_milkhour} | {unknown} | {seconds:.1f} s |"


def main():
    print("| variables, rows, equations | no whole solution | step | milkhour | not told by z3 | z3 |\n|---|---|---|---|---|---|")
    with tempfile.TemporaryDirectory() as folder:
        for kind in KINDS:
            print(row(Path(folder), kind), flush=True)


main()
