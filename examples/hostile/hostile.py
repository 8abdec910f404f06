#!/usr/bin/env python3
"""Runs the program where files, standard output and memory fail: hostile.py [--most N] PROGRAM [NAME..]

`hostile.c` beside this is built by gcc and loaded before the C library (Linux). For each of the runs below, or those that are named:

- `input`: each call that opens a file, asks for its length or reads of it fails in turn. Before anything is written the answer is then `cannot read NAME`
  with status 3, of the file whose call it was; behind that the answer is the run's, since only what standard error says is read then.
- `output`: each write to standard output fails in turn, where it takes all and where it takes one byte at a time. Then the status is 4, and what was taken
  before is a front of the text. Where nothing fails the text is whole.
- `pieces`: files give and standard output takes one byte at a time, and standard error fails: the answer is the run's.
- `system`: standard output is full (/dev/full), closed, or a pipe that nobody reads: the status is 4.
- `memory`: each call that asks for memory is refused in turn, alone and with all behind it. Then nothing is written with status 13, or the run's answer.
  Where a run asks more than N times, 2,000 where nothing is said, so many calls are taken at equal distances.

Prints what was tried and each answer that is none of these; the status is 1 where there is one.
"""
import collections
import os
import subprocess
import sys
import tempfile

HERE = os.path.dirname(os.path.abspath(__file__))
LEAST = b"fun f(x: INT32) -> INT32 = x + 1:32;"
# (li r3,5; blr)
RETURN = bytes.fromhex("386000054e800020")
# (mtctr r3; addi r4,r4,1; bdnz; blr)
LOOP = bytes.fromhex("7c6903a6388400014200fffc4e800020")
AT = ["--at", "00001000"]
USES = [*AT, "--base", "kset+defuse"]

FILES = {
    "s": LEAST,
    "refused": b"fun f(x: INT32) -> INT32 = x + 1:8;",
    "c": RETURN,
    "e": b"pc 00001000\nspr[LR] fffffffc\n",
    "loop": LOOP,
    "any": b"pc 00001000\ngpr[3] any\nspr[LR] fffffffc\n",
    "nowhere": b"pc 00001000\ngpr[3] any\nspr[LR] any\n",
    "three": LOOP[:12],
    "claims": b"1004 gpr[3] in 0..ffffffff\n1008 spr[LR] in fffffffc..fffffffc\n100c never\n",
}

RUNS = {
    "call": ["call", "s", "f", "ffffffff"],
    "few": ["call", "s", "f"],
    "wide": ["call", "s", "f", "100000000"],
    "refused": ["call", "refused", "f", "0"],
    "list": ["list", "@ppc", "c", *AT],
    "emulate": ["emulate", "@ppc", "c", "e", *AT, "--steps", "10"],
    "analyse": ["analyse", "@ppc", "loop", "any", *USES],
    "check": ["check", "@ppc", "loop", "any", "t", *USES],
    "rejected": ["check", "@ppc", "loop", "any", "short", *USES],
    "cut": ["check", "@ppc", "loop", "any", "cut", *USES],
    "base": ["check", "@ppc", "loop", "any", "t", *AT, "--base", "kset"],
    "code": ["check", "@ppc", "three", "any", "t", *USES],
    "open": ["analyse", "@ppc", "loop", "nowhere", *USES, "--open"],
    "convert": ["convert", "@ppc", "loop", "t", *USES],
    "slice": ["slice", "@ppc", "loop", "any", "t", "1008", "spr[CTR]", *USES],
    "claims": ["claims", "@ppc", "loop", "any", "t", "claims", *USES],
    "stress": ["stress", "7", "2"],
}

Answer = collections.namedtuple("Answer", "status text")


class Trial:
    """One run of the program in a folder that has its files, with what the library is told in its environment."""

    def __init__(self, program, library, folder, most, name):
        self.program, self.library, self.folder, self.most, self.name = program, library, folder, most, name
        self.different, self.tried = 0, 0
        self.right = self.answer()

    def answer(self, to=subprocess.PIPE, **told):
        environment = {f"HOSTILE_{name.upper()}": str(value) for name, value in told.items()}
        environment["LD_PRELOAD"] = self.library
        words = [self.program, *RUNS[self.name]]
        ended = subprocess.run(words, cwd=self.folder, env=environment, stdin=subprocess.DEVNULL, stdout=to, stderr=subprocess.DEVNULL, check=False)
        return Answer(ended.returncode, ended.stdout)

    def log(self, **told):
        place = f"{self.folder}/.log"
        self.answer(log=place, **told)
        with open(place, encoding="utf-8") as it:
            return [line.split() for line in it]

    def expect(self, what, found, *wanted):
        self.tried += 1
        if found not in wanted:
            self.different += 1
            print(f"{self.name}: {what}: {found}, wanted {wanted}", flush=True)

    def inputs(self):
        is_written, place = False, 0
        for what, name in self.log():
            is_written = is_written or what == "write"
            if what in ("open", "stat", "read"):
                unread = Answer(3, f"cannot read {name}\n".encode())
                self.expect(f"the call {place} of its inputs, {what} {name}", self.answer(input=place), self.right if is_written else unread)
                place += 1

    def outputs(self):
        text = self.right.text
        for most in (max(len(text), 1), 1):
            writes = [int(count) for what, count in self.log(most=most) if what == "write"]
            self.expect(f"with {most} bytes a write", self.answer(most=most), self.right)
            for place in range(len(writes)):
                front = text[: place * most]
                self.expect(f"the write {place} of {most} bytes", self.answer(most=most, output=place), Answer(4, front))

    def system(self):
        with open("/dev/full", "wb") as full:
            self.expect("/dev/full", self.answer(full).status, 4)
        reader, writer = os.pipe()
        os.close(reader)
        self.expect("a pipe that nobody reads", self.answer(writer).status, 4)
        os.close(writer)
        words = ["sh", "-c", 'exec "$@" >&-', "sh", self.program, *RUNS[self.name]]
        self.expect("closed", subprocess.run(words, cwd=self.folder, stderr=subprocess.DEVNULL, check=False).returncode, 4)

    def memory(self):
        place, text = f"{self.folder}/.memory", f"{self.folder}/.text"
        with open(text, "wb") as it:
            it.write(self.right.text)
        asked = next(int(count) for what, count in self.log() if what == "asked")
        each = -(-asked // self.most)
        for together in (0, 1):
            self.expect("where the other process goes on", self.answer(memory=place, text=text, each=each, all=together), self.right)
            with open(place, encoding="utf-8") as it:
                for call, signal, status, size, *same in map(str.split, it):
                    ended = (int(signal), int(status), int(size), bool(same))
                    refused, answered = (0, 13, 0, not self.right.text), (0, self.right.status, len(self.right.text), True)
                    self.expect(f"memory refused at call {call} of {asked}{', and at all behind it' * together}", ended, refused, answered)

    def all(self):
        self.inputs()
        self.expect("one byte at a time", self.answer(most=1, error=1), self.right)
        self.outputs()
        self.system()
        self.memory()
        print(f"{self.name}: status {self.right.status}, {len(self.right.text)} bytes: {self.tried} answers, {self.different} differ", flush=True)
        return self.different


def main(words):
    most = 2000
    if words[:1] == ["--most"]:
        most, words = int(words[1]), words[2:]
    program, names = os.path.abspath(words[0]), words[1:]
    with tempfile.TemporaryDirectory() as folder:
        library = f"{folder}/hostile.so"
        subprocess.run(["gcc", "-O2", "-shared", "-fPIC", "-o", library, f"{HERE}/hostile.c"], check=True)
        for name, bytes_ in FILES.items():
            with open(f"{folder}/{name}", "wb") as it:
                it.write(bytes_)
        table = subprocess.run([program, *RUNS["analyse"]], cwd=folder, stdout=subprocess.PIPE, check=True).stdout
        for name, bytes_ in {"t": table, "short": table[: table.rindex(b"at ")], "cut": b"\n".join(table.split(b"\n")[:5])[:-3]}.items():
            with open(f"{folder}/{name}", "wb") as it:
                it.write(bytes_)
        return int(any([Trial(program, library, folder, most, name).all() for name in names or RUNS]))


if __name__ == "__main__":
    sys.exit(main(sys.argv[1:]))
