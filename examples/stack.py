#!/usr/bin/env python3
"""Measures how much stack runs take: stack.py PROGRAM [BASE..]

For each run below it finds the least `ulimit -s`, in KiB, with which the answer is that of a run without a limit:

- a source of 255 levels, 254 matches within one another, and a value of 250 types within one another;
- evaluations as deep as the program lets them go, in functions of which each calls the one before: over single numbers (`call`), and
  over each BASE (`analyse`), `kset+interval`, `kset+defuse` and `strides+defuse` where none is named;
- tables of 16,384 blocks, analysed, checked and written again.

The status is 1 where a run takes more than the 8 MiB that systems give.
"""
import os
import subprocess
import sys
import tempfile

GIVEN = 8192
MINI = os.path.join(os.path.dirname(os.path.abspath(__file__)), "mini.tsl")
AT = ["--at", "1000"]

# How the body of each function of a chain stands around a call of the one before.
CHAINS = {
    "prefix operators": lambda call: "~" * 119 + call,
    "matches": lambda call: "match x with { 7:32 => " * 60 + call + "; _ => x; }" * 60,
    "calls alone": lambda call: call,
    "values of branches": lambda call: "~(if x == 7:32 then x else " * 60 + call + ")" * 60,
    "branches with a call": lambda call: f"if x == 8:32 then x else ~{call}",
}

NESTED = {
    "255 parentheses": "fun f(x: INT32) -> INT32 = " + "(" * 255 + "x" + ")" * 255 + ";",
    "255 calls": "fun g(x: INT32) -> INT32 = x; fun f(x: INT32) -> INT32 = " + "g(" * 255 + "x" + ")" * 255 + ";",
    "254 matches": "fun f(x: INT32) -> INT32 = " + "match x with { 7:32 => x; _ => " * 254 + "x" + "; }" * 254 + ";",
    "250 types": "type T0 = C0(a: INT32);"
    + "".join(f"type T{n} = C{n}(a: T{n - 1});" for n in range(1, 250))
    + "fun f(x: INT32) -> INT32 = match "
    + "".join(f"C{n}(" for n in range(249, -1, -1))
    + "x"
    + ")" * 250
    + " with { y => x; };",
}


class Runs:
    """Runs of the program in a folder."""

    def __init__(self, program, folder):
        self.program, self.folder, self.most = program, folder, 0

    def put(self, name, text):
        with open(f"{self.folder}/{name}", "wb") as it:
            it.write(text if isinstance(text, bytes) else text.encode())

    def answer(self, words, limit):
        command = ["bash", "-c", f'ulimit -s {limit} && exec "$@" 2> /dev/null', "bash", self.program, *words]
        return subprocess.run(command, cwd=self.folder, stdout=subprocess.PIPE, stderr=subprocess.DEVNULL, check=False)

    def is_answered(self, words, limit="unlimited"):
        return self.answer(words, limit).returncode == 0

    def tell(self, name, words):
        """Prints the least limit with which these words are answered."""
        low, high = 8, 65536
        while high - low > 16:
            middle = (low + high) // 2
            low, high = (low, middle) if self.is_answered(words, middle) else (middle, high)
        self.most = max(self.most, high)
        print(f"{name}: {high} KiB", flush=True)

    def tell_deepest(self, name, write, words):
        """Prints it for the longest chain that is answered."""
        low, high = 1, 1020
        while low < high:
            middle = (low + high + 1) // 2
            write(middle)
            low, high = (middle, high) if self.is_answered(words(middle)) else (low, middle - 1)
        write(low)
        self.tell(f"{name}, {low} functions", words(low))


def chain(count, body):
    return "".join(f"fun g{n}(x: INT32) -> INT32 = {body(f'g{n - 1}(x)' if n else 'x')};\n" for n in range(count))


def tell_evaluations(runs, bases):
    with open(MINI, encoding="utf-8") as it:
        mini = it.read()
    runs.put("add.code", bytes.fromhex("02000025"))
    runs.put("any.entry", "pc 1000\nr[1] any\n")
    for name, body in CHAINS.items():
        runs.tell_deepest(f"{name}, call", lambda n: runs.put("s", chain(n, body)), lambda n: ["call", "s", f"g{n - 1}", "7"])
        machine = lambda n: mini.replace("r[a] + r[b]", f"g{n - 1}(r[a])").replace("fun interpInstr", chain(n, body) + "fun interpInstr")
        for base in bases:
            words = ["analyse", "s", "add.code", "any.entry", *AT, "--base", base]
            runs.tell_deepest(f"{name}, {base}", lambda n: runs.put("s", machine(n)), lambda n: words)


def tell_tables(runs):
    runs.put("long.code", bytes.fromhex("01010005") * 16383 + bytes.fromhex("02000025"))
    words = [*AT, "--base", "kset"]
    runs.put("t", runs.answer(["analyse", MINI, "long.code", "any.entry", *words], "unlimited").stdout)
    runs.tell("16,384 blocks, analyse", ["analyse", MINI, "long.code", "any.entry", *words])
    runs.tell("16,384 blocks, check", ["check", MINI, "long.code", "any.entry", "t", *words])
    runs.tell("16,384 blocks, convert", ["convert", MINI, "long.code", "t", *words])


def main(program, *bases):
    with tempfile.TemporaryDirectory() as folder:
        runs = Runs(os.path.abspath(program), folder)
        for name, source in NESTED.items():
            runs.put("s", source)
            runs.tell(name, ["call", "s", "f", "7"])
        tell_evaluations(runs, bases or ("kset+interval", "kset+defuse", "strides+defuse"))
        tell_tables(runs)
        return int(runs.most > GIVEN)


if __name__ == "__main__":
    sys.exit(main(*sys.argv[1:]))
