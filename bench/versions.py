#!/usr/bin/env python3
"""What `milkhour check` takes of certificates of version 2 and of version 3, beside `verify`: `python3 bench/versions.py [PROGRAM [FOLDER ..]]`

The program is the built `milkhour` where none is named. FOLDERs hold a program and a proof each, and are the semaphores of bench/ where none is
named. Where `prove` writes no certificates, as they are too large, a row is left out. Times are those of the processors, start included, the
least of RUNS, as the clock says little beside other work; memory is the peak of one run more, where GNU time is installed."""
import os
import resource
import shutil
import subprocess
import sys
import tempfile
from pathlib import Path

TOP = Path(__file__).resolve().parent.parent
RUNS = 20
QUIET = {"stdin": subprocess.DEVNULL, "stdout": subprocess.DEVNULL, "stderr": subprocess.DEVNULL}


def ends(words):
    """Whether a command ends with status 0."""
    return subprocess.run(words, **QUIET).returncode == 0


def used():
    """Of the processors by ended children, in seconds."""
    children = resource.getrusage(resource.RUSAGE_CHILDREN)
    return children.ru_utime + children.ru_stime


def timed(words):
    began = used()
    if not ends(words):
        sys.exit(f"{' '.join(map(str, words))}: no status 0")
    return used() - began


def peak(words, scratch):
    """In megabytes, or None where nothing measures it."""
    timer = shutil.which("time")
    if timer is None:
        return None
    subprocess.run([timer, "-o", scratch / "peak", "-f", "%M", *words], **QUIET)
    return int((scratch / "peak").read_text().split()[-1]) / 1024


def figures(memory, seconds):
    return f"{seconds * 1000:.1f} ms" + (f", {memory:.0f} MB" if memory is not None else "")


def rows(program, folder, scratch):
    """The calls on a proof, by name, and the size of the certificates that they read."""
    texts = [folder / "program", folder / "proof"]
    calls = {"verify": ([program, "verify", *texts], None)}
    for version, words in (("2", []), ("3", ["--version", "3"])):
        text = scratch / f"{folder.name}-{version}"
        if ends([program, "prove", *texts, *words, "-o", text]):
            calls[f"check of version {version}"] = ([program, "check", *texts, text], text.stat().st_size)
    return calls


def main():
    program = sys.argv[1] if len(sys.argv) > 1 else str(TOP / "crates/milkhour/out/milkhour")
    folders = [Path(it) for it in sys.argv[2:]] or sorted(TOP.glob("bench/semaphore*"))
    print(f"    {len(os.sched_getaffinity(0))} processors, load {os.getloadavg()[0]:.1f}, least of {RUNS} runs\n")
    print("| proof | call | certificates | processors and memory |\n|---|---|---|---|")
    with tempfile.TemporaryDirectory() as room:
        scratch = Path(room)
        for folder in folders:
            calls = rows(program, folder, scratch)
            least = {name: min(timed(words) for _ in range(RUNS)) for name, (words, _) in calls.items()}
            for name, (words, size) in calls.items():
                text = "" if size is None else f"{size / 1000:,.1f} kB"
                print(f"| {folder.name} | {name} | {text} | {figures(peak(words, scratch), least[name])} |")


main()
