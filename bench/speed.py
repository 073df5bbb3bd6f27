#!/usr/bin/env python3
"""Times the built program over the proofs beside this file, and prints a table.

    python3 bench/speed.py [--runs N] [--only NAME..] [--] [PROGRAM [OTHER]]

PROGRAM is another executable than the built one, and OTHER one to stand beside it, as that of an earlier commit. Of each call the table
has the least clock time and the least time of the processors of N runs (5 if it isn't said), in which the two programs take turns, and
the peak of memory of one run more. Start, texts and report are in each; "conditions" ends where the first block is missing, so what
`verify` takes beyond it is search. Where z3 is installed it is timed on the same conditions, as far as they stand here in SMT-LIB. The
last row is 100 MB of certificates, nearly all blanks. NAMEs are folders here, and `blanks`. Where a call doesn't end as it has to, the table has its status and no times, and
where OTHER prints another text, a line below says so.
"""
import argparse
import collections
import gzip
import os
import shutil
import subprocess
import sys
import tempfile
import time
from pathlib import Path

HERE = Path(__file__).resolve().parent
PROOFS = ["semaphore2", "semaphore4", "semaphore6", "children5", "filter3", "dekker"]
TREES = [
    "case 1 { linear [1*1, 2*1] absurd absurd }",
    "linear [1*1, 2*1]",
    "case 1 { linear [1*1, 2*1] absurd absurd }",
    "absurd",
    "case 1 { absurd linear [1*1, 2*1] absurd }",
]

Call = collections.namedtuple("Call", "name words status")
Sample = collections.namedtuple("Sample", "status clock processors")
Figures = collections.namedtuple("Figures", "status clock processors peak")


def sample(words, output):
    begin = time.perf_counter()
    with open(output, "wb") as out:
        it = subprocess.Popen(words, stdin=subprocess.DEVNULL, stdout=out, stderr=subprocess.DEVNULL)
        _, status, usage = os.wait4(it.pid, 0)
    clock = time.perf_counter() - begin
    it.returncode = os.waitstatus_to_exitcode(status)
    return Sample(it.returncode, clock, usage.ru_utime + usage.ru_stime)


def peak(words, scratch):
    """In kilobytes. GNU time starts the program from a small process, whose own peak doesn't count."""
    timer = shutil.which("time")
    if timer is None:
        return None
    subprocess.run([timer, "-o", scratch / "peak", "-f", "%M", *words], stdin=subprocess.DEVNULL, stdout=subprocess.DEVNULL, stderr=subprocess.DEVNULL)
    return int((scratch / "peak").read_text().split()[-1])


def measure(commands, runs, scratch):
    """The figures of each command, and whether all of them printed the same."""
    outputs = [scratch / f"output{number}" for number in range(len(commands))]
    samples = [[sample(words, out) for words, out in zip(commands, outputs)] for _ in range(runs)]
    figures = [
        Figures(mine[-1].status, min(it.clock for it in mine), min(it.processors for it in mine), peak(words, scratch))
        for words, mine in zip(commands, zip(*samples))
    ]
    return figures, len({out.read_bytes() for out in outputs}) == 1


def milliseconds(seconds):
    return f"{seconds * 1e3:,.1f} ms" if seconds < 0.1 else f"{seconds * 1e3:,.0f} ms"


def cells(call, figures):
    if figures.status != call.status:
        return [f"status {figures.status}", "", ""]
    memory = "" if figures.peak is None else f"{figures.peak / 1024:.0f} MB"
    return [milliseconds(figures.clock), milliseconds(figures.processors), memory]


def ratio(call, figures):
    if len(figures) < 2 or any(it.status != call.status for it in figures):
        return []
    return [f"{figures[1].processors / figures[0].processors:.2f}"]


def print_row(row):
    print(f"| {' | '.join(row)} |", flush=True)


class Bench:
    def __init__(self, steps, runs, scratch):
        self.steps, self.runs, self.scratch, self.differing = steps, runs, scratch, []

    def row(self, call):
        """In the words `certs` stands for the certificates that the same program wrote."""
        commands = [[step, *(self.certs(number) if word == "certs" else word for word in call.words)] for number, step in enumerate(self.steps)]
        figures, is_same = measure(commands, self.runs, self.scratch)
        print_row([call.name, *(cell for it in figures for cell in cells(call, it)), *ratio(call, figures)])
        if not is_same:
            self.differing.append(call.name)

    def certs(self, number):
        return self.scratch / f"certs{number}"

    def proof(self, name):
        texts = [HERE / name / "program", HERE / name / "proof"]
        for number, step in enumerate(self.steps):
            sample([step, "prove", *texts], self.certs(number))
        self.row(Call(f"{name}: conditions", ["check", *texts, os.devnull], 1))
        for workers in (1, 4):
            self.row(Call(f"{name}: verify, workers {workers}", ["verify", *texts, "--workers", str(workers)], 0))
        self.row(Call(f"{name}: prove", ["prove", *texts], 0))
        for workers in (1, 4):
            self.row(Call(f"{name}: check, workers {workers}", ["check", *texts, "certs", "--workers", str(workers)], 0))
        self.other_solver(name)

    def other_solver(self, name):
        packed = HERE / name / "conditions.smt2.gz"
        if packed.exists() and shutil.which("z3"):
            (self.scratch / "conditions.smt2").write_bytes(gzip.decompress(packed.read_bytes()))
            figures, _ = measure([["z3", self.scratch / "conditions.smt2"]], self.runs, self.scratch)
            call = Call(f"{name}: z3", [], 0)
            print_row([call.name, *cells(call, figures[0])])

    def blanks(self):
        """20,000 blocks with 5,000 blanks in each, over 4,000 invariants."""
        proof, certs = self.scratch / "proof", self.scratch / "blanks"
        proof.write_text("".join(f"invariant pos{number}: x >= 0;\n" for number in range(1, 4001)))
        with open(certs, "w") as out:
            out.write("version 2;\n")
            for number in range(20000):
                out.write(f"cert {number + 1}{' ' * 5000}{TREES[number % 5]};\n")
        self.row(Call("100 MB of blanks: check", ["check", HERE.parent / "examples/count/program", proof, certs], 0))


def print_head(steps, runs):
    names = [f"[{number}]" for number in range(1, len(steps) + 1)] if len(steps) > 1 else [""]
    for name, step in zip(names, steps):
        print(f"{name} {step}".strip())
    print(f"{os.cpu_count()} processors, load {os.getloadavg()[0]:.1f}, least of {runs} runs\n")
    columns = [f"{column} {name}".strip() for name in names for column in ("clock", "processors", "memory")]
    print_row(["", *columns, *["processors [2] / [1]"] * (len(steps) - 1)])
    print_row(["---"] * (4 if len(steps) == 1 else 8))


def main():
    parser = argparse.ArgumentParser(description="Times the built program over the proofs in bench/.")
    parser.add_argument("--runs", type=int, default=5)
    parser.add_argument("--only", nargs="+", choices=[*PROOFS, "blanks"], default=[*PROOFS, "blanks"], metavar="NAME")
    parser.add_argument("program", nargs="?", default=HERE.parent / "crates/step_main/out/step_main")
    parser.add_argument("other", nargs="?")
    given = parser.parse_args()
    steps = [Path(it).resolve() for it in (given.program, given.other) if it]
    for step in steps:
        if not os.access(step, os.X_OK):
            sys.exit(f"speed: {step} isn't there: (cd crates/step_main && rt run -- check data/program data/proof data/certs) builds it")
    print_head(steps, given.runs)
    with tempfile.TemporaryDirectory() as scratch:
        bench = Bench(steps, given.runs, Path(scratch))
        for name in given.only:
            bench.blanks() if name == "blanks" else bench.proof(name)
    print(f"\nload {os.getloadavg()[0]:.1f} at the end")
    for name in bench.differing:
        print(f"{name}: the two print different texts")


main()
