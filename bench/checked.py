#!/usr/bin/env python3
"""Times a model checker, SPIN, over the claims of cases-milkhour/find-*, and prints a table beside `milkhour find`.

    python3 bench/checked.py [--seconds N] [--untimed] [--only WORD..] [--] [PROGRAM]

Each program is written in Promela, a statement for a statement, and each invariance as a formula of linear time. SPIN generates a checker,
the C compiler makes it, and it runs at most N seconds (60 if it isn't said). It enumerates states, so of a program whose numbers grow
without a bound it ends only where it finds a run. PROGRAM is another executable than the built one; with `--untimed` the table has no
times of it. All times are seconds of a processor, so that other work on the machine counts little. Programs with forms that aren't
written in Promela here are left out.
"""
import argparse
import json
import os
import re
import resource
import signal
import subprocess
import sys
import tempfile
from pathlib import Path

TOP = Path(__file__).resolve().parent.parent
TOKEN = re.compile(r"\s*(%[^\n]*|<<|>>|::|:=|\|\||/\\|\\/|->|!=|<=|>=|\w+|.)", re.S)
ANSWERS = {"proved": "proved", "false": "a run", "not-found": "nothing"}
SIGNS = {"=": "==", "/\\": "&&", "\\/": "||", "~": "!", "true": "true", "false": "false"}


class Unwritten(Exception):
    """A form that has no Promela here."""


class Reader:
    """Reads a program, and writes it in Promela on the way."""

    def __init__(self, text):
        found = (part.group(1) for part in TOKEN.finditer(text))
        self.tokens = [part for part in found if part.strip() and not part.startswith("%")] + ["end"]
        self.at = 0

    def look(self, ahead=0):
        return self.tokens[min(self.at + ahead, len(self.tokens) - 1)]

    def take(self, wanted=None):
        token = self.look()
        if wanted not in (None, token):
            raise Unwritten(f"{token} for {wanted}")
        self.at += 1
        return token

    def expression(self, ends):
        depth, said = 0, []
        while depth or self.look() not in ends:
            token = self.take()
            if token in ("end", "->"):
                raise Unwritten(token)
            depth += (token == "(") - (token == ")")
            said.append(SIGNS.get(token, token))
        return " ".join(said)

    def declarations(self):
        said, starts = [], []
        while self.look() in ("local", "in", "out"):
            if self.take() == "in":
                raise Unwritten("a value that isn't known")
            names = [self.take()]
            while self.look() == ",":
                self.take()
                names.append(self.take())
            self.take(":")
            kind = {"boolean": "bool", "integer": "int"}[self.take()]
            said.append(f"{kind} {', '.join(names)};")
            if self.look() == "where":
                self.take()
                starts += self.started(self.expression((";",)))
            self.take(";")
        return said, starts

    @staticmethod
    def started(test):
        for part in test.split(" && "):
            equal = re.fullmatch(r"(\w+) == (-? ?\w+)", part)
            truth = re.fullmatch(r"(! )?(\w+)", part)
            if equal:
                yield f"{equal[1]} = {equal[2]};"
            elif truth:
                yield f"{truth[2]} = {'false' if truth[1] else 'true'};"
            else:
                raise Unwritten(part)

    def statements(self, ends):
        said = [self.statement()]
        while self.look() == ";" and self.look(1) not in ends:
            self.take()
            said.append(self.statement())
        return ";\n".join(said)

    def statement(self):
        label = ""
        if self.look(1) == ":" and self.look() != "[":
            label = self.take() + ": "
            self.take()
        return label + self.action()

    def action(self):
        token = self.take()
        by_word = {"loop": self.endless, "while": self.repeated, "if": self.conditional, "[": self.block, "<<": self.group}
        if token in by_word:
            return by_word[token]()
        if token in ("skip", "critical", "noncritical"):
            return "skip"
        if token == "await":
            return f"({self.expression((';', ']', '>>', 'fi', 'else', 'or'))})"
        if token == "request":
            name = self.take()
            return f"atomic {{ {name} > 0 -> {name}-- }}"
        if token == "release":
            return f"{self.take()}++"
        return self.assignment(token)

    def assignment(self, token):
        ends = (";", "]", ">>", "fi", "else", "end", "||")
        if token == "(":
            names = self.expression((")",)).split(" , ")
            self.take(")")
            self.take(":=")
            values = self.expression(ends).strip("() ").split(" , ")
            if any(name in value.split() for name in names for value in values):
                raise Unwritten("values that are exchanged")
            return "d_step { " + "; ".join(f"{name} = {value}" for name, value in zip(names, values)) + " }"
        if not token.isidentifier() or self.look() != ":=":
            raise Unwritten(token)
        self.take(":=")
        return f"{token} = {self.expression(ends)}"

    def endless(self):
        self.take("forever")
        self.take("do")
        return f"do :: {self.statement()} od"

    def repeated(self):
        test = self.expression(("do",))
        self.take("do")
        return f"do :: ({test}) -> {self.statement()} :: else -> break od"

    def conditional(self):
        test = self.expression(("then",))
        self.take("then")
        yes, no = self.statement(), "skip"
        if self.look() == "else":
            self.take()
            no = self.statement()
        self.take("fi")
        return f"if :: ({test}) -> {yes} :: else -> {no} fi"

    def block(self):
        said, starts = self.declarations()
        if said:
            raise Unwritten("a variable of a block")
        return self.closed(self.statements(("]",)), "]")

    def group(self):
        return "atomic { " + self.closed(self.statements((">>",)), ">>") + " }"

    def closed(self, said, sign):
        self.take(sign)
        return said

    def process(self):
        name = self.take()
        self.take("::")
        self.take("[")
        said, starts = self.declarations()
        body = self.statements(("]",))
        self.take("]")
        return said, starts, f"active proctype {name}() {{\n{body}\n}}", name

    def program(self):
        said, starts = self.declarations()
        parts, owners = [], {}
        while True:
            more, begun, text, name = self.process()
            said, starts = said + more, starts + begun
            parts.append(text)
            owners.update({label: name for label in re.findall(r"(\w+): ", text)})
            if self.look() != "||":
                return said, starts, parts, owners
            self.take()


def promela(program, proof):
    """The program and its claims in Promela."""
    said, starts, parts, owners = Reader(program).program()
    values = dict(re.fullmatch(r"(\w+) = (.*);", start).groups() for start in starts)
    if not all(name in values for line in said for name in re.findall(r"\w+(?=[,;])", line)):
        raise Unwritten("a variable that starts with any value")
    declared = [re.sub(r"\b(\w+)\b(?=[,;])", lambda it: f"{it[1]} = {values[it[1]]}" if it[1] in values else it[1], line) for line in said]
    claims = []
    for name, claim in re.findall(r"invariant (\w+):([^;]*);", re.sub(r"%[^\n]*", "", proof)):
        if "->" in claim or " by " in claim:
            raise Unwritten("a claim with an arrow")
        if not all(label in owners for label in re.findall(r"\bat (\w+)", claim)):
            raise Unwritten("a location inside another statement")
        text = re.sub(r"\bat (\w+)", lambda it: f"{owners[it[1]]}@{it[1]}", claim)
        claims.append("(" + text.replace("/\\", "&&").replace("\\/", "||").replace("~", "!").replace(" = ", " == ") + ")")
    if not claims:
        raise Unwritten("no invariance")
    return "\n".join(declared + parts + [f"ltl claims {{ [] ({' && '.join(claims)}) }}", ""])


def timed(words, folder, seconds):
    """The processor's seconds that a command takes, none where they are too many, and what it writes."""
    limit = lambda: resource.setrlimit(resource.RLIMIT_CPU, (seconds, seconds + 1))
    with tempfile.TemporaryFile() as written:
        it = subprocess.Popen(words, cwd=folder, stdin=subprocess.DEVNULL, stdout=written, stderr=subprocess.STDOUT, preexec_fn=limit)
        _, status, usage = os.wait4(it.pid, 0)
        it.returncode = os.waitstatus_to_exitcode(status)
        written.seek(0)
        if it.returncode in (-signal.SIGXCPU, -signal.SIGKILL):
            return None, ""
        return usage.ru_utime + usage.ru_stime, written.read().decode(errors="replace")


def checked(text, seconds):
    """What the model checker says, its times for making and running, and how many states it met."""
    with tempfile.TemporaryDirectory() as folder:
        (Path(folder) / "model.pml").write_text(text)
        making, said = timed(["sh", "-c", "spin -a model.pml && cc -O2 -DNOREDUCE -o pan pan.c"], folder, seconds)
        if not (Path(folder) / "pan").exists():
            raise Unwritten(said.strip().split("\n")[0])
        running, said = timed(["./pan", "-a", "-n", "-m1000000"], folder, seconds)
    if running is None or "max search depth too small" in said and "errors: 0" in said:
        return "no end", making, running, ""
    states = re.search(r"(\d+) states, stored", said)
    return ("a run" if "errors: 1" in said else "holds"), making, running, states[1] if states else ""


def found(program, folder):
    """What a search answers, how many questions it asks, and its time."""
    words = [program, *(folder / "args").read_text().split("\n")[:-1], "--format", "json"]
    clock, said = timed(words, folder, 600)
    report = json.loads(said)
    return ANSWERS[report["verdict"]], f"{report['queries']:,}", f"{clock:.3f}"


def is_played(folder, only):
    name = folder.name.removeprefix("find-")
    texts = all((folder / it).exists() for it in ("args", "program", "proof"))
    return texts and not re.search("-as-|budget|into-|refused|fault", name) and (not only or name in only)


def main():
    parser = argparse.ArgumentParser(add_help=False)
    parser.add_argument("--seconds", type=int, default=60)
    parser.add_argument("--untimed", action="store_true")
    parser.add_argument("--only", nargs="*")
    parser.add_argument("program", nargs="?", default=str(TOP / "crates/milkhour/out/milkhour"))
    words = parser.parse_args()
    heads = ["Claims", "`find`", "questions", *([] if words.untimed else ["seconds"]), "SPIN", "made", "run", "states"]
    print(f"| {' | '.join(heads)} |\n{'|---' * len(heads)}|", flush=True)
    for folder in sorted((TOP / "cases-milkhour").glob("find-*")):
        if not is_played(folder, words.only):
            continue
        name = folder.name.removeprefix("find-")
        try:
            text = promela((folder / "program").read_text(), (folder / "proof").read_text())
            answer, making, running, states = checked(text, words.seconds)
        except Unwritten as why:
            print(f"{name}: {why}", file=sys.stderr)
            continue
        kind, questions, clock = found(words.program, folder)
        cells = [name, kind, questions, *([] if words.untimed else [clock]), answer, f"{making:.2f}", f"{running or words.seconds:.2f}", states]
        print(f"| {' | '.join(cells)} |", flush=True)


main()
