#!/usr/bin/env python3
"""Writes crates/test_program/data/open_checks.cases: tables that are left open, read back by `check`, `slice`, `claims` and `convert`.

What is wanted comes from the model in mini_checks.py; of texts that are no tables, and over affine relations, it is written here by hand.

usage: open_checks.py > crates/test_program/data/open_checks.cases
"""
import os

from mini_checks import Checked, until_open
from open_blocks import START, UNDECODABLE, add, arrivals, jump, put

DATA = os.path.join(os.path.dirname(os.path.abspath(__file__)), "../../crates/test_program/data/open_tables.cases")

# a register is put, a branch, and two ways that read it, of which one comes to a word without decoding
FLOW = [put(1, 5), jump(0, 0x1010), add(2, 1, 1), UNDECODABLE, add(3, 1, 0), add(3, 3, 3)]
# the same without a sum of an unknown register
PUTS = [put(1, 5), jump(0, 0x1010), put(2, 7), UNDECODABLE, add(3, 1, 1), add(3, 3, 3)]
# two open blocks of which one is before the other
TWO = [jump(0, 0x1010), jump(1, 0x1018), UNDECODABLE, put(3, 1), put(1, 7), jump(1, 0x1008), UNDECODABLE]
# no word without decoding
CLOSED = [put(1, 5), jump(0, 0x1010), add(2, 1, 1), put(3, 1), add(3, 1, 1)]
ANY = [(0, "any")]


class Subject:
    """A code with an entry over a base, and its table as an analysis that is left open writes it."""

    # the name of the text of the machine
    machine = "MINI"

    def __init__(self, name, code, cells, base, limit=64, pc=START, widen=4):
        self.name = f"{name}_over_{base.replace('+', '_and_')}"
        self.code, self.cells, self.base, self.limit, self.pc = code, cells, base, limit, pc
        self.model = Checked(code, START, base, limit, widen - 1)
        self.head = ["tsl-table 2", f"base {base}", "order big", f"code {START:08x} {4 * len(code)}"]
        status, self.lines = self.model.analyse(pc, self.model.entry(cells), True)
        assert status == 0

    def words(self, command, is_open, limit=None):
        limit = limit or self.limit
        return f"{command} --at {START:08x} --base {self.base}" + (f" --limit {limit}" if limit != 64 else "") + (" --open" if is_open else "")

    def case(self, name, words, status, wanted, lines=None, claims=None, entry=True, head=None):
        print(f"\ncase {name}_{self.name}\nwords {words}\ninput s\nuse {self.machine}\ninput c\nhex " + "".join(f"{word:08x}" for word in self.code))
        if entry:
            print("input e\n" + "\n".join([f"| pc {self.pc:x}", *(f"| r[{key}] {text}" for key, text in self.cells)]))
        print("input t\n" + "\n".join("| " + line for line in (head or self.head) + (self.lines if lines is None else lines)))
        if claims is not None:
            print("input k\n" + "\n".join("| " + line for line in claims))
        print(f"status {status}\n" + "\n".join("| " + line for line in wanted))

    def verdict(self, lines, is_open, limit=None):
        model = self.model if limit is None else Checked(self.code, START, self.base, limit, 3)
        return model.verdict(model.table(lines), self.pc, model.entry(self.cells), is_open)

    # ---- what a case says, of its own table or of another text
    def check(self, name, is_open, lines=None, limit=None):
        lines = self.lines if lines is None else lines
        status, line = self.verdict(lines, is_open, limit)
        self.case(name, self.words("check s c e t", is_open, limit), status, [line], lines)

    def both(self, name, lines=None):
        self.check(f"{name}_left_open", True, lines)
        self.check(name, False, lines)

    def slice(self, name, at, key, is_open, lines=None):
        lines = self.lines if lines is None else lines
        status, line = self.verdict(lines, is_open)
        blocks = self.model.table(lines)
        wanted = until_open(blocks, self.model.slice(blocks, at, key)) if status == 0 else [line]
        self.case(name, self.words(f"slice s c e t {at:08x} r[{'*' if key is None else key}]", is_open), status, wanted, lines)

    def claims(self, name, claims, is_open, lines=None):
        lines = self.lines if lines is None else lines
        status, line = self.verdict(lines, is_open)
        blocks = self.model.table(lines)
        wanted = until_open(blocks, [self.model.answer(blocks, claim) for claim in claims]) if status == 0 else [line]
        self.case(name, self.words("claims s c e t k", is_open), status, wanted, lines, claims)

    def convert(self, name):
        words = f"convert s c t --at {START:08x} --base {self.base}"
        first = ["tsl-table 1", self.head[1], self.head[3]]
        for number, head in ((1, first), (2, self.head)):
            self.case(f"{name}_of_format_{number}", words, 0, self.head + self.lines, head=head, entry=False)

    # ---- changed texts
    def without(self, start):
        return [line for line in self.lines if not line.startswith(start)]

    def instead(self, old, new):
        assert old in self.lines, old
        at = self.lines.index(old)
        return self.lines[:at] + new + self.lines[at + 1:]

    def block(self, at):
        """Returns where the block of an address begins and ends."""
        first = self.lines.index(f"at {at:08x}")
        return first, next((i for i in range(first + 1, len(self.lines)) if self.lines[i].startswith("at ")), len(self.lines))

    def without_block(self, at):
        first, end = self.block(at)
        return self.lines[:first] + self.lines[end:]

    def open_any(self):
        return "open " + self.model.text([part.any for part in self.model.parts])

    def narrowed(self, at, key):
        """Returns the lines in which the element of a block says that a register is 0."""
        first, end = self.block(at)
        lines, place = list(self.lines), -1
        for i in range(first, end):
            place += lines[i].startswith("part ")
            if lines[i].startswith(f"r[{key}] "):
                part = self.model.parts[place]
                lines[i] = f"r[{key}] {part.text(part.of([0]))}" + (" from" + lines[i].partition(" from")[2] if " from" in lines[i] else "")
        assert lines != self.lines
        return lines

    def no_table(self, name, lines, number):
        """The cases of a text whose line of this number in `lines` is the first faulty one."""
        for is_open in (True, False) if self.base == "kset" else (True,):
            self.case(name + ("_left_open" if is_open else ""), self.words("check s c e t", is_open), 8, [f"table {number + 5} X1"], lines)


CLAIMS = ["00001004 r[1] in 5..5", "1004 r[0] != 0", "1008 r[1] in 0..4", "1010 never", "1014 r[3] in 0..ffffffff", "100c r[2] != 63", "1000 never"]


def told(base):
    """The cases of a table that is left open, over a base."""
    # register 0 of bits is unknown, and so is a sum with it
    it = Subject("flow", PUTS if "bits" in base else FLOW, ANY, base)
    it.both("a_check")
    it.claims("claims_left_open", CLAIMS, True)
    it.claims("claims", CLAIMS, False)
    if "defuse" in base:
        for name, at, key in (("a_slice", 0x1014, 3), ("a_slice_behind_the_branch", 0x1008, 1), ("a_slice_at_an_open_block", 0x100C, None), ("a_slice_of_the_branch", 0x1004, 0)):
            it.slice(f"{name}_left_open", at, key, True)
        it.slice("a_slice", 0x1014, 3, False)
    it.convert("a_conversion")


def closed(base):
    """Nothing is open: the answers are those without the flag."""
    it = Subject("a_closed_table", CLOSED, [(0, "0")] if base == "defuse" else ANY, base)
    for is_open in (True, False):
        more = "_left_open" if is_open else ""
        it.check(f"a_check_of{more}", is_open)
        it.claims(f"claims_on{more}", ["1000 r[1] in 0..0", "1010 r[1] in 5..5", "1008 never"], is_open)
        if "defuse" in base:
            it.slice(f"a_slice_of{more}", 0x1010, 1, is_open)


def widened(base):
    """A check does not know when elements of a table were widened."""
    for widen in (1, 6):
        it = Subject(f"widened_from_change_{widen}", arrivals(5), [*ANY, (3, "0")], base, widen=widen)
        it.check("a_table", False)
        it.check("a_table_left_open", True)


def changed(base):
    """Other texts than an analysis writes."""
    one = Subject("a_branch", FLOW, ANY, base, limit=1)
    shown = next(line for line in one.lines if line.startswith("open "))
    one.both("a_word_of_the_counter")
    one.check("a_limit_that_closes_it_left_open", True, limit=4096)
    one.check("another_word_left_open", True, one.instead(shown, [one.open_any()]))
    one.check("a_word_that_has_a_decoding_left_open", True, one.instead(shown, [f"undecodable {FLOW[1]:08x}"]))
    one.both("no_ending", one.without("open "))
    word = f"undecodable {UNDECODABLE:08x}"
    two = Subject("two_open_blocks", TWO, [(0, "any"), (1, "any")], base)
    two.both("a_check")
    two.both("no_endings", two.without("undecodable"))
    two.check("the_last_ending_alone_left_open", True, two.instead(word, []))
    two.check("the_last_ending_alone", False, two.instead(word, []))
    two.check("another_code_word_left_open", True, two.instead(word, ["undecodable 00000000"]))
    two.check("open_for_undecodable_left_open", True, two.instead(word, [two.open_any()]))
    first, end = two.block(START)
    inside = [line for line in two.lines[first:end] if not line.startswith(("next ", "exit "))]
    two.check("an_ending_in_place_of_targets_left_open", True, two.lines[:first] + inside + [two.open_any()] + two.lines[end:])
    two.check("a_block_that_is_not_there_left_open", True, two.without_block(0x1018))
    two.both("no_block_of_the_entry", two.without_block(0x1000))
    # a fault before a wrong ending, at it, and behind it
    for at in (0x1004, 0x1008, 0x1018):
        narrow = two.narrowed(at, 1)
        two.check(f"a_cell_less_at_{at:x}_left_open", True, narrow)
        two.check(f"a_cell_less_at_{at:x}_and_no_ending_left_open", True, [line for line in narrow if not line.startswith("undecodable")])
    if "defuse" in base:
        use = next(line for line in two.lines if line.startswith("use r[0]"))
        two.check("no_use_left_open", True, two.instead(use, []))
        one.check("no_use_at_an_open_block_left_open", True, one.without("use r[0]"))
        one.check("no_use_and_no_ending_left_open", True, [line for line in one.lines if not line.startswith(("use r[0]", "open "))])
    # a block that no run reaches, and is open
    alone = Subject("a_block_that_is_not_reached", [put(1, 5), UNDECODABLE], [], base, pc=START)
    first, end = alone.block(START + 4)
    open_block = alone.lines[first:end]
    alone = Subject("a_block_that_is_not_reached", [jump(0, 0x2000), UNDECODABLE], [], base, pc=START)
    alone.both("a_check_of", alone.lines + open_block)


def no_tables(base):
    """Texts that are no tables."""
    it = Subject("no_table", FLOW, ANY, base)
    word = f"undecodable {UNDECODABLE:08x}"
    number = it.lines.index(word)
    first, end = it.block(0x1008)
    it.no_table("an_ending_behind_targets", it.lines[:end] + ["open any"] + it.lines[end:], end)
    it.no_table("targets_behind_an_ending", it.instead(word, [word, "next 00001010"]), number + 1)
    it.no_table("an_exit_behind_an_ending", it.instead(word, [word, "exit 00002000"]), number + 1)
    it.no_table("a_use_behind_an_ending", it.instead(word, [word, "use r[1] from entry"]), number + 1)
    it.no_table("two_endings", it.instead(word, [word, word]), number + 1)
    it.no_table("an_ending_before_an_element", it.lines[:1] + [word] + it.lines[1:], 1)
    it.no_table("seven_digits", it.instead(word, ["undecodable fffffff"]), number)
    it.no_table("nine_digits", it.instead(word, ["undecodable 0ffffffff"]), number)
    it.no_table("great_digits", it.instead(word, ["undecodable FFFFFFFF"]), number)
    it.no_table("no_word", it.instead(word, ["open"]), number)
    it.no_table("an_empty_word", it.instead(word, ["open "]), number)
    it.no_table("a_word_behind_two_spaces", it.instead(word, ["open  any"]), number)
    other = {"kset": "{" + ",".join(f"{0x1000 + 4 * i:08x}" for i in range(17)) + "}", "interval": "00001008..00001004", "kset+defuse": "{00001004,00001008}"}[base]
    it.no_table("a_word_of_no_base", it.instead(word, [f"open {other}"]), number)
    # the first faulty line is answered, also before an open block
    it.no_table("a_fault_before_an_open_block", ["at 00001001", *it.lines[1:]], 0)
    # claims that are none: the table is answered first, where it may not be left open
    for is_open in (True, False):
        it.case("claims_that_are_none" + ("_left_open" if is_open else ""), it.words("claims s c e t k", is_open), 14 if is_open else 1, ["claims 2 K1" if is_open else "rejected targets 0000100c"],
                claims=["1004 never", "1004 r[1] in 5..4"])


def relations():
    """Over affine relations, by hand: register 0 is any number, the others are 0."""
    code = [jump(0, 0x1010), put(1, 1)]
    rows = ["row 00000001 00000000 00000000 00000000 00000000", "row 00000000 00000001 00000000 00000000 00000000"]
    for base, part, shown, limit in (("affine", [], "any", 64), ("kset+affine", ["part kset", "r[*] {00000000}", "r[0] any"], "{00001004,00001010} any", 1)):
        it = Subject.__new__(Subject)
        it.name, it.code, it.cells, it.base, it.limit, it.pc = f"relations_over_{base.replace('+', '_and_')}", code, ANY, base, limit, START
        it.head = ["tsl-table 2", f"base {base}", "order big", f"code {START:08x} 8"]
        it.lines = [f"at {START:08x}", *part, "part affine", *rows, f"open {shown}"]
        others = [f"at {START:08x}", *part, "part affine", rows[0], rows[1].replace("00000000 00000001", "00000005 00000001"), f"open {shown}"]
        for is_open in (True, False):
            more = "_left_open" if is_open else ""
            refused = [f"rejected targets {START:08x}"]
            it.case(f"a_check{more}", it.words("check s c e t", is_open), *((0, ["accepted"]) if is_open else (1, refused)))
            it.case(f"other_rows{more}", it.words("check s c e t", is_open), *((0, ["accepted"]) if is_open else (1, refused)), lines=others)
            it.case(f"sums{more}", it.words("claims s c e t k", is_open), *((0, ["until open", "yes", "open", "yes"]) if is_open else (1, refused)), claims=["1000 eq 1*r[1] 1*r[2]", "1000 eq 1*r[0]", "1004 never"])
        it.case("another_word_left_open", it.words("check s c e t", True), 1, [f"rejected targets {START:08x}"], lines=[*it.lines[:-1], "undecodable 03001010"])


def main():
    text = open(DATA, encoding="utf-8").read()
    print("# Tables that are left open, read back by the other commands. Made by examples/cases/open_checks.py.\n")
    print(text[text.index("given MINI"):].split("\n\n")[0])
    for base in ("const+interval", "kset", "interval", "bits", "defuse", "kset+interval", "kset+defuse", "interval+defuse", "kset+bits", "bits+defuse"):
        told(base)
    for base in ("kset", "kset+defuse", "defuse"):
        closed(base)
    for base in ("kset", "interval", "kset+defuse"):
        widened(base)
    for base in ("kset", "interval", "kset+defuse"):
        changed(base)
    for base in ("kset", "interval", "kset+defuse"):
        no_tables(base)
    relations()


if __name__ == "__main__":
    main()
