#!/usr/bin/env python3
"""Counts the instructions of the built program, command by command: `python3 bench/instructions.py [PROGRAM [OTHER]] [--only NAME ..]`

Instructions are callgrind's, which says the same whatever else the machine does; valgrind has to be installed. PROGRAM is another executable
than the built `step`, and OTHER one to stand beside it, as that of an earlier commit: then the last column has the ratio of both, and a line
below says where they print different texts. A program whose name begins with `milkhour` is asked as `milkhour step`. One of `.ci/unproved`
takes twice the instructions of one that is proved, so only two of a kind are to be compared. Rows are the proofs in bench/ by `conditions`,
`verify`, `prove` and `check` with one worker; `invariants` of programs with four variables for each process; `trace` of a run of 1,000 moves
of 16 processes with 369 names, without goals, with 4 invariances, and with 12 responses beside them; `verify` of one process with many
statements; and a program and a proof of a million bytes, which are refused for what stands in them last. NAME is the beginning of a row's
name.
"""
import argparse
import collections
import os
import re
import shutil
import subprocess
import sys
import tempfile
from pathlib import Path

HERE = Path(__file__).resolve().parent
PROOFS = ["semaphore2", "semaphore4", "semaphore6", "children5", "filter3", "dekker"]

Row = collections.namedtuple("Row", "name words status")


def counters(count):
    """Processes that each add to four variables of their own, so that two equations hold for each."""
    names = [f"{name}{it}" for it in range(1, count + 1) for name in "abcd"]
    process = "P# :: [ p#_0: loop forever do [ p#_1: a# := a# + 1; p#_2: b# := b# + 1; p#_3: c# := c# + 2; p#_4: d# := d# + c# - a# - b# + 1 ] ]"
    start = " /\\ ".join(f"{it} = 0" for it in names)
    return f"local {', '.join(names)}: integer where {start}; " + " || ".join(process.replace("#", str(it)) for it in range(1, count + 1))


def turns(count, places):
    """Processes of so many statements, each of which counts once in a turn and otherwise skips."""
    skips = "; ".join(f"a#_{place}: skip" for place in range(1, places - 1))
    process = f"P# :: [ a#_0: loop forever do [ {skips}; a#_{places - 1}: x# := x# + 1 ] ]"
    variables = ", ".join(f"x{it}" for it in range(count))
    return f"local {variables}: integer; " + " || ".join(process.replace("#", str(it)) for it in range(count))


def moves(count, places, most):
    """They go in turns, so that each round has as many moves as there are processes."""
    values = " ".join(f"x{it} = 0;" for it in range(count))
    return values + " :: " + " ".join(f"a{it % count}_{it // count % places};" for it in range(most))


def goals(invariances, responses):
    claims = [f"invariant i{it}: x{it} >= 0 /\\ ~(at a{it}_0 /\\ at a{it}_1);" for it in range(invariances)]
    claims += [f"response r{it}: at a{it}_1 leads at a{it}_5 within 30 by just true helper a{it}_1;" for it in range(responses)]
    return " ".join(claims)


def statements(count):
    """A process of so many statements, its loop counted."""
    body = "; ".join(f"l{it}: x := x + 1" for it in range(1, count))
    return f"local x: integer where x = 0; P :: [ l0: loop forever do [ {body} ] ]"


def long_program(size):
    clause = " /\\ (x3 + 2 * x11 - 7 * x30 <= 17 /\\ ~b5 \\/ x3 = 4 -> b29)"
    truths = ", ".join(f"b{it}" for it in range(32))
    numbers = ", ".join(f"x{it}" for it in range(32))
    test = "b0" + clause * (size // len(clause) // 100)
    body = ";\n".join(f"b1 := {test}" for _ in range(100))
    return f"local {numbers}: integer where x0 = 0;\nlocal {truths}: boolean where ~b0;\nP :: [\n{body}\n]"


def long_proof(size):
    claim = "x + 2 * x - 7 * x <= 17 /\\ x = 4 -> x >= 3 \\/ x = 4 /\\ x <= 3"
    return "\n".join(f"invariant pos{it}: {claim};" for it in range(size // (len(claim) + 18))) + " none"


def write(path, text):
    path.write_text(text)
    return path


def proof_rows(scratch):
    for name in PROOFS:
        texts = [HERE / name / "program", HERE / name / "proof"]
        yield Row(f"{name}: conditions", ["check", *texts, os.devnull, "--workers", "1"], 1)
        yield Row(f"{name}: verify", ["verify", *texts, "--workers", "1"], 0)
        yield Row(f"{name}: prove", ["prove", *texts], 0)
        yield Row(f"{name}: check", ["check", *texts, "certificates", "--workers", "1"], 0)


def other_rows(scratch):
    for count in (4, 8, 15):
        program = write(scratch / f"counters{count}", counters(count))
        yield Row(f"invariants: {count} processes", ["invariants", program], 0)
    program = write(scratch / "turns", turns(16, 23))
    schedule = write(scratch / "schedule", moves(16, 23, 1000))
    for claims in ((0, 0), (4, 0), (4, 12)):
        text = write(scratch / f"goals{sum(claims)}", goals(*claims))
        yield Row(f"trace: 1,000 moves, {sum(claims)} goals", ["trace", program, text, schedule], 0)
    claim = write(scratch / "claim", "invariant pos: x >= 0;")
    for count in (100, 200, 399):
        program = write(scratch / f"statements{count}", statements(count))
        yield Row(f"verify: {count} statements", ["verify", program, claim, "--workers", "1"], 0)
    small = write(scratch / "small", "local x: integer where x = 0; P :: [ l0: loop forever do l1: x := x + 1 ]")
    none = write(scratch / "none", "none")
    yield Row("reading: a program of 1 MB", ["verify", write(scratch / "long-program", long_program(1_000_000)), none], 4)
    yield Row("reading: a proof of 1 MB", ["verify", small, write(scratch / "long-proof", long_proof(1_000_000))], 4)


def call(program):
    """The words that ask a program as `step`."""
    return [program, "step"] if program.name.startswith("milkhour") else [program]


def plain(words, output):
    with open(output, "wb") as out:
        return subprocess.run(words, stdin=subprocess.DEVNULL, stdout=out, stderr=subprocess.DEVNULL).returncode


def counted(words, scratch):
    """The instructions of a call, in millions."""
    told = ["valgrind", "--tool=callgrind", f"--callgrind-out-file={scratch / 'callgrind'}"]
    ran = subprocess.run([*told, *map(str, words)], stdin=subprocess.DEVNULL, stdout=subprocess.DEVNULL, stderr=subprocess.PIPE, text=True)
    return int(re.search(r"Collected : (\d+)", ran.stderr)[1]) / 1e6


def cells(program, row, scratch, number):
    """What a program takes for a row, or its status where that isn't the wanted one, and what it prints."""
    certificates = scratch / f"certificates{number}"
    if "certificates" in row.words:
        plain([*call(program), "prove", *row.words[1:3]], certificates)
    words = [*call(program), *(certificates if it == "certificates" else it for it in row.words)]
    output = scratch / f"output{number}"
    status = plain(words, output)
    return (counted(words, scratch) if status == row.status else None), status, output.read_bytes()


def told(taken, status):
    return f"status {status}" if taken is None else f"{taken:,.1f}"


def main():
    parser = argparse.ArgumentParser(description="Counts the instructions of the built program.")
    parser.add_argument("--only", nargs="+", default=[""], metavar="NAME")
    parser.add_argument("program", nargs="?", default=HERE.parent / "crates/step_main/out/step_main")
    parser.add_argument("other", nargs="?")
    given = parser.parse_args()
    if shutil.which("valgrind") is None:
        sys.exit("instructions: valgrind isn't installed")
    programs = [Path(it).resolve() for it in (given.program, given.other) if it]
    heads = [f"[{number}]" for number in range(1, len(programs) + 1)] if len(programs) > 1 else ["millions"]
    print("| call | " + " | ".join(heads + (["[2] / [1]"] if len(programs) > 1 else [])) + " |")
    print("|---" * (len(heads) + 1 + (len(programs) > 1)) + "|")
    differing = []
    with tempfile.TemporaryDirectory() as room:
        scratch = Path(room)
        for row in (*proof_rows(scratch), *other_rows(scratch)):
            if not row.name.startswith(tuple(given.only)):
                continue
            found = [cells(it, row, scratch, number) for number, it in enumerate(programs)]
            takes = [it[0] for it in found]
            ratio = [f"{takes[1] / takes[0]:.2f}"] if len(takes) > 1 and None not in takes else [""] * (len(takes) - 1)
            print("| " + " | ".join([row.name, *(told(*it[:2]) for it in found), *ratio]) + " |", flush=True)
            if len({it[1:] for it in found}) > 1:
                differing.append(row.name)
    for name in differing:
        print(f"{name}: the two don't answer the same")


main()
