#!/usr/bin/env python3
"""Runs and analyses the programs of examples/programs: program_runs.py [--cases N] [--transfers] PROGRAM [NAME..]

The run of each from its entry has to end in its state, byte for byte. Prints a row for each, as the table of docs/PERFORMANCE.md: the steps of the
run, and what comes of its analysis over each base. The status is 1 where a run ends otherwise, or a table is not accepted by `check`.

    python3 examples/program_runs.py crates/tsl_cli/out/tsl_cli

| cell | says |
|---|---|
| `N` | there is a table, of N blocks |
| `N w` | there is one with `--widen 64`, and none without it |
| `k of N` | there is none: with `--open` it has N blocks, and k of them are left open |
| `k of N, j of M w` | the second is that with `--widen 64` and `--open`, where it is another |

With --cases N elements are split (`--cases` of `analyse` and `check`), and each table has behind it, in brackets, how many of its blocks differ
from those without. With --transfers each table has behind it, in parentheses, how many transfers its analysis makes. gdb counts the calls of TRANSFER.
"""
import glob
import os
import re
import subprocess
import sys
import tempfile

HERE = os.path.dirname(os.path.abspath(__file__))
BASES = ("kset", "interval", "kset+affine", "interval+affine", "strides", "strides+affine")
WIDE = ("--widen", "64")
REFUSED = (9, 10)
TRANSFER = "^analysis_transfer::analysis::ImageAnalysisAnalyser::transfer::"
COUNTED = ("[setattr(it, 'ignore_count', 1 << 30) for it in gdb.breakpoints()]", "print('calls', sum(it.hit_count for it in gdb.breakpoints()))")


class Example:
    """A program with its entry, and what the command line says of it."""

    def __init__(self, path):
        self.path, self.name = path, os.path.basename(path)
        isa = path.rpartition("_")[2]
        self.words = ["@" + isa, path + ".code", path + ".entry"]
        self.options = ["--at", "1000", *(["--order", "little"] if isa == "rv" else [])]

    def state(self):
        with open(self.path + ".state", "rb") as it:
            return it.read()


def blocks_of(text):
    """The blocks of a table by their addresses, each with its lines."""
    return {it.split(b"\n")[0]: it for it in text.split(b"\nat ")[1:]}


class Runs:
    """Runs of the program, with how many went wrong."""

    def __init__(self, program, folder, cases, is_counting):
        self.program, self.table, self.is_counting = os.path.abspath(program), f"{folder}/table", is_counting
        self.split = ("--cases", cases) if cases else ()
        self.wrong = 0

    def answer(self, command, example, *options, table=()):
        words = [self.program, command, *example.words, *table, *example.options, *options]
        ended = subprocess.run(words, stdout=subprocess.PIPE, stderr=subprocess.DEVNULL, check=False)
        return ended.returncode, ended.stdout

    def goes_wrong(self, example, what):
        self.wrong += 1
        print(f"{example.name}: {what}", flush=True)

    def check(self, example, text, options):
        """Has the table checked that is the answer of an analysis."""
        with open(self.table, "wb") as it:
            it.write(text)
        given = [it for it in options if it not in WIDE]
        if self.answer("check", example, *given, table=[self.table]) != (0, b"accepted\n"):
            self.goes_wrong(example, f"its table with {' '.join(options)} is not accepted")

    def transfers(self, example, options):
        """How many transfers an analysis makes up to its table, in parentheses."""
        words = " ".join(["run analyse", *example.words, *example.options, *options, "> /dev/null"])
        orders = [f"rbreak {TRANSFER}", f"python {COUNTED[0]}", words, f"python {COUNTED[1]}"]
        ended = subprocess.run(["gdb", "-nx", "-batch", *(it for order in orders for it in ("-ex", order)), self.program], capture_output=True, text=True, check=False)
        return f" ({re.search('^calls (.*)', ended.stdout, re.MULTILINE)[1]})"

    def steps(self, example):
        """The steps of the run, whose state has to be the one that is kept."""
        status, text = self.answer("emulate", example)
        if (status, text) != (0, example.state()):
            self.goes_wrong(example, f"its run ends with status {status}, and in another state")
        return text.split(b"\n")[0].split()[-1].decode()

    def changed(self, example, text, options):
        """How many blocks of a table differ from those of the table without cases, in brackets."""
        without = [it for it in options if it not in self.split]
        plain = blocks_of(self.answer("analyse", example, *without)[1])
        return f" [{sum(plain.get(at) != lines for at, lines in blocks_of(text).items())}]"

    def table_of(self, example, *options):
        """What a cell says of the table of an analysis; nothing, where there is no table."""
        status, text = self.answer("analyse", example, *options)
        if status in REFUSED:
            return ""
        if status:
            self.goes_wrong(example, f"its analysis with {' '.join(options)} ends with status {status}")
            return ""
        self.check(example, text, options)
        lines = text.split(b"\n")
        blocks, left_open = (sum(line.startswith(marks) for line in lines) for marks in ((b"at ",), (b"open ", b"undecodable ")))
        told = f"{left_open} of {blocks}" if left_open else str(blocks)
        told += " w" if "--widen" in options else ""
        told += self.changed(example, text, options) if self.split else ""
        return told + (self.transfers(example, options) if self.is_counting else "")

    def cell(self, example, base):
        options = ("--base", base, *self.split)
        told = self.table_of(example, *options) or self.table_of(example, *options, *WIDE)
        if told:
            return told
        first, second = self.table_of(example, *options, "--open"), self.table_of(example, *options, *WIDE, "--open")
        counts = [re.sub(" [(\\[].*", "", it) for it in (first, second)]
        return first if counts[0] + " w" == counts[1] else f"{first}, {second}"


def main(words):
    cases, words = (words[1], words[2:]) if words[0] == "--cases" else ("", words)
    is_counting = words[0] == "--transfers"
    program, *names = words[1:] if is_counting else words
    paths = sorted(it[: -len(".code")] for it in glob.glob(f"{HERE}/programs/*.code"))
    with tempfile.TemporaryDirectory() as folder:
        runs = Runs(program, folder, cases, is_counting)
        for example in map(Example, paths):
            if not names or example.name in names:
                steps = runs.steps(example)
                print(f"| `{example.name}` | {steps} | {' | '.join(runs.cell(example, base) for base in BASES)} |", flush=True)
        return int(runs.wrong > 0)


if __name__ == "__main__":
    if len(sys.argv) < 2:
        raise SystemExit(__doc__)
    sys.exit(main(sys.argv[1:]))
