#!/usr/bin/env python3
"""Analyses the programs of examples/ and each stored case of the shipped texts with `--open`: open_runs.py PROGRAM [BASE..]

The programs are analysed over all bases, and the cases of cases/ppc.txt and cases/rv.txt, each one word with its entry, over each BASE (`kset+interval`
where none is named). With `--open` each has to give a table, which `check --open` accepts. Where there is a table without it, it has to be the same.
The table of a case goes to the address that the case says, and that of a word that is no instruction ends in `undecodable`. Prints how many tables
there were and how many of them have open blocks, and each answer that is another; the status is 1 where there is one. Some minutes:

    python3 examples/open_runs.py crates/tsl_cli/out/tsl_cli
"""
import glob
import os
import subprocess
import sys
import tempfile

HERE = os.path.dirname(os.path.abspath(__file__))
BASES = ("const", "kset", "interval", "affine", "defuse", "const+interval", "kset+interval", "kset+affine", "kset+defuse", "interval+affine",
         "interval+defuse", "affine+defuse", "bits", "kset+bits", "interval+bits", "bits+defuse", "strides", "strides+affine", "strides+defuse")
# (the call of `keep` in examples/c, with any text)
ANY_TEXT = "pc 1068\nspr[LR] fffffffc\ngpr[1] 8000\ngpr[3] any\ngpr[4] any\nmem[*] any\n"


def held(name):
    with open(f"{HERE}/{name}", "rb") as it:
        return it.read()


def programs():
    """Gives the programs: a name, the specification, the code, the entry, and the words of the order and the address."""
    little = ("--order", "little")
    for path in sorted(glob.glob(f"{HERE}/programs/*.code")):
        name = "programs/" + os.path.basename(path)[: -len(".code")]
        isa = name.rpartition("_")[2]
        yield name, "@" + isa, held(name + ".code"), held(name + ".entry"), "1000", little if isa == "rv" else ()
    yield "c/adler32_rv", "@rv", held("c/adler32_rv.code"), held("c/any_text_rv.entry"), "1000", little
    yield "c/adler32_ppc", "@ppc", held("c/adler32_ppc.code"), ANY_TEXT.encode(), "1000", ()


def cases(name):
    """Gives the cases of a shipped text: a name, the code word, the lines of the entry, and the address behind it, or none of a refused word."""
    for block in held(f"cases/{name}.txt").decode().split("\n\n"):
        lines = [line for line in block.splitlines() if not line.startswith("#")]
        if not lines:
            continue
        word, is_refused = lines[1].split()[1], lines[0].startswith("refused ")
        entry = ["pc 00001000"] if is_refused else lines[2 : lines.index("gives")]
        yield f"{name}: {lines[0]}", word, entry, None if is_refused else lines[lines.index("gives") + 1].split()[1]


class Runs:
    """Runs of the program in a folder, with what was found."""

    def __init__(self, program, folder):
        self.program, self.folder = os.path.abspath(program), folder
        self.tables, self.open, self.different = 0, 0, 0

    def put(self, name, content):
        with open(f"{self.folder}/{name}", "wb") as it:
            it.write(content)

    def answer(self, *words):
        ended = subprocess.run([self.program, *words], cwd=self.folder, stdout=subprocess.PIPE, stderr=subprocess.DEVNULL, check=False)
        return ended.returncode, ended.stdout

    def differs(self, name, base, what):
        self.different += 1
        print(f"{name} over {base}: {what}", flush=True)

    def table(self, name, spec, code, entry, at, base, order=()):
        """Analyses, and gives the lines of the table that is left open, or none."""
        self.put("c", code)
        self.put("e", entry)
        words = ("--at", at, "--base", base, *order)
        (status, text), closed = self.answer("analyse", spec, "c", "e", *words, "--open"), self.answer("analyse", spec, "c", "e", *words)
        self.put("t", text)
        lines = text.decode().splitlines()
        is_open = closed[0] in (9, 10)
        if status != 0:
            return self.differs(name, base, f"status {status}, {text[:80]}")
        if not is_open and closed != (0, text):
            self.differs(name, base, f"without --open it ends with status {closed[0]}, and not with the same table")
        accepted = self.answer("check", spec, "c", "e", "t", *words, "--open")
        if accepted != (0, b"accepted\n"):
            self.differs(name, base, f"`check --open` answers {accepted}")
        self.tables, self.open = self.tables + 1, self.open + is_open
        return lines

    def case(self, spec, name, word, entry, goes_to, base):
        at = entry[0].split()[1]
        lines = self.table(name, spec, bytes.fromhex(word), "\n".join([*entry, ""]).encode(), at, base)
        if lines is None:
            return
        end = [line.split() for line in lines if line.split()[0] in ("next", "exit", "undecodable")]
        told = ["undecodable", word] if goes_to is None else ["next" if goes_to == at else "exit", goes_to]
        if not any(line[0] == told[0] and told[1] in line[1:] for line in end):
            self.differs(name, base, f"its block ends with {end}, and not with {told}")


def main(program, *bases):
    with tempfile.TemporaryDirectory() as folder:
        runs = Runs(program, folder)
        for name, spec, code, entry, at, order in programs():
            for base in BASES:
                runs.table(name, spec, code, entry, at, base, order)
        for base in bases or ("kset+interval",):
            for text in ("ppc", "rv"):
                for case in cases(text):
                    runs.case(f"@{text}", *case, base)
        print(f"{runs.tables} tables, {runs.open} of them with open blocks, {runs.different} answers differ")
        return int(runs.different > 0)


if __name__ == "__main__":
    sys.exit(main(*sys.argv[1:]))
