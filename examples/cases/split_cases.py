#!/usr/bin/env python3
"""Writes crates/test_program/data/cases.cases: what the commands give with `--cases`.

What is wanted comes from the model here, over those of mini_model.py and mini_checks.py. It was written from docs/FORMATS.md, "Cases". The machine
`MINI` compares a register with 0 in Jz, and compares nothing else: so there the register is cut at 1, into what is 0 and what is greater. `TESTS` is `MINI`
with other comparisons; what is wanted over @ppc and @rv is worked out here by hand.

usage: split_cases.py > crates/test_program/data/cases.cases
"""
from mini_checks import Bits, Checked, Definitions
from mini_model import MODULUS, Intervals, Sets, cell
from open_blocks import START, UNDECODABLE, add, jump, put
from open_checks import DATA, Subject

GREATEST = 2**64 - 1
# a register counts down to 0 by register 2, and the way out tells that it is 0
COUNT_DOWN = [put(2, 0xFFFF), jump(1, 0x1010), add(3, 1, 1), jump(0, 0x1004), add(2, 1, 1)]
# behind a branch both ways put what they know of the register into another
BOTH_WAYS = [jump(1, 0x100C), add(2, 1, 1), jump(0, 0x1010), add(2, 1, 1), add(3, 2, 2)]
# two branches on two registers
TWO_BRANCHES = [jump(1, 0x1008), put(3, 1), jump(2, 0x1010), put(3, 2), add(3, 1, 2)]
# both ways of a branch lead to one address
ONE_WAY = [jump(1, 0x1004), add(2, 1, 1)]
# a branch on a register that was compared before
TWICE = [jump(1, 0x1008), jump(1, 0x1010), jump(1, 0x1010), put(3, 3), add(3, 1, 1)]
# no sum, for known bits
PUTS = [jump(1, 0x1008), put(3, 1), put(2, 1)]
# a branch out of the code, and a word without decoding behind another
OUT = [jump(1, 0x2000), add(2, 1, 1)]
HALF = [jump(1, 0x1008), UNDECODABLE, put(2, 1)]
# a loop in which the register that is compared is the one that grows
GROWS = [add(1, 1, 2), jump(1, 0x100C), jump(0, START), put(3, 1)]


class Split(Checked):
    """The same, where an element is split before a comparison."""

    def __init__(self, code, start, base, limit, joins, cases=0):
        super().__init__(code, start, base, limit, joins)
        self.cases = cases

    def choices(self, at):
        """The registers that an instruction compares, each with the numbers at which it is cut."""
        word = self.words[at]
        return [((word >> 16) & 3, [1])] if word >> 24 == 3 and not (word >> 18) & 63 else []

    def left(self, part, x, low, high):
        """What is left of a word between two numbers, or none."""
        high = min(high, MODULUS - 1)
        if isinstance(part, Definitions):
            word = self.left(part.words, x[0], low, high)
            return word and ((word[0], x[1]),)
        if isinstance(part, Bits):
            return (x,)
        if isinstance(part, Sets):
            if x is None:
                return (part.between(low, high),) if low <= high else None
            word = frozenset(number for number in x if low <= number <= high)
            return (word,) if word else None
        if isinstance(part, Intervals):
            low, high = max(x[0], low), min(x[1], high)
            return ((low, high),) if low <= high else None
        if isinstance(x, frozenset):
            word = frozenset(number for number in x if low <= number <= high)
            return (word,) if word else None
        first, step, last = x
        low = first + max(0, -(-(low - first) // step)) * step
        high = min(last, high)
        return (part.stretch(low, step, high),) if low <= high else None

    def pieces(self, at, element):
        """The pieces of an element before an instruction, by the first comparison that narrows it; or none where it is not split."""
        for key, cuts in self.choices(at):
            found = []
            for low, high in zip([0, *cuts], [*(cut - 1 for cut in cuts), GREATEST]):
                lefts = [self.left(part, x, low, high) for part, x in zip(self.parts, cell(element, key))]
                if all(lefts):
                    found.append({**element, key: [left[0] for left in lefts]})
            if not any(self.absorbs(piece, element) for piece in found):
                return found
        return None

    def leaves(self, at, element, depth):
        """The cases of an element that is split so many times over."""
        pieces = self.pieces(at, element) if depth else None
        return [element] if pieces is None else [leaf for piece in pieces for leaf in self.leaves(at, piece, depth - 1)]

    def once(self, at, element):
        """The transfer of an element that is not split: the addresses with what arrives there."""
        targets, behind = super().transfer(at, element)
        return (targets, {to: behind for to in targets}) if isinstance(targets, list) else (targets, behind)

    def transfer(self, at, element):
        if not self.cases or self.pieces(at, element) is None:
            return self.once(at, element)
        made = [self.once(at, leaf) for leaf in self.leaves(at, element, self.cases)]
        kinds = [targets for targets, _ in made]
        if "undecodable" in kinds:
            return made[kinds.index("undecodable")]
        if "open" in kinds:
            return self.once(at, element)
        arrivals = {}
        for _, sent in made:
            for to, behind in sent.items():
                arrivals[to] = self.join(arrivals[to], behind) if to in arrivals else behind
        return sorted(arrivals), arrivals

    def uses_once(self, at, element):
        return super().uses(at, element)

    def uses(self, at, element):
        found = {}
        for leaf in self.leaves(at, element, self.cases):
            for key, stamps in self.uses_once(at, leaf).items():
                found[key] = found.get(key, frozenset()) | stamps
        return dict(sorted(found.items()))

    def arriving(self, behind, to):
        return behind[to]


# the comparisons of `TESTS` by their kinds: whether they hold of a number, and the numbers at which that changes
TESTS = {
    5: (lambda number, n: number < n, lambda n: [n]),
    6: (lambda number, n: n <= number, lambda n: [n]),
    7: (lambda number, n: number >> 31 == 1, lambda n: [2**31]),
    8: (lambda number, n: (number + 1) % MODULUS == n, lambda n: sorted({(n - 1) % MODULUS, n, MODULUS - 1})),
    9: (lambda number, n: number != n, lambda n: [n, n + 1]),
}


class Tests(Split):
    """The same of `TESTS`."""

    def fields(self, at):
        """The kind of an instruction, its first register, its other field, and where it goes."""
        word = self.words[at]
        return word >> 24, (word >> 22) & 3, (word >> 16) & 63, word & 0xFFFF

    def choices(self, at):
        kind, key, other, _ = self.fields(at)
        if kind == 4:
            return [(key, [1]), (other, [1])]
        if kind in TESTS:
            return [(key, [cut for cut in TESTS[kind][1](other) if cut])]
        return [(key, [1])] if kind in (10, 11) else super().choices(at)

    def truths(self, part, x, holds, cuts):
        """The truth values of a comparison that a word of one base may have."""
        if isinstance(part, Definitions):
            part, x = part.words, x[0]
        if isinstance(part, Sets):
            return {True, False} if x is None else {holds(number) for number in x}
        assert isinstance(part, Intervals)
        return {holds(number) for number in (*x, *(at for cut in cuts for at in (cut - 1, cut) if x[0] <= at <= x[1]))}

    def may(self, element, key, holds, cuts):
        return set.intersection(*(self.truths(part, x, holds, cuts) for part, x in zip(self.parts, cell(element, key))))

    def once(self, at, element):
        kind, key, other, to = self.fields(at)
        behind, there = self.of((at + 4) % MODULUS), self.of(to)
        if kind == 4:
            first = self.may(element, key, lambda number: number == 0, [1])
            may = first - {True} | (self.may(element, other, lambda number: number == 0, [1]) if True in first else set())
        elif kind in TESTS:
            holds, cuts = TESTS[kind]
            may = self.may(element, key, lambda number: holds(number, other), cuts(other))
        elif kind in (10, 11):
            may = self.may(element, key, lambda number: number == 0, [1])
            there, behind = cell(element, 3), self.of(to) if kind == 10 else cell(element, 2)
        else:
            return super().once(at, element)
        counter = there if may == {True} else behind if may == {False} else self.both("join", there, behind)
        targets, element = self.goes(counter, element)
        return (targets, {to: element for to in targets}) if isinstance(targets, list) else (targets, element)

    def uses_once(self, at, element):
        kind, key, other, _ = self.fields(at)
        if kind != 4 or "defuse" not in self.names:
            return super().uses_once(at, element)
        place = self.names.index("defuse")
        first = self.may(element, key, lambda number: number == 0, [1])
        return {k: cell(element, k)[place][1] for k in ([key, other] if True in first else [key])}


class Case(Subject):
    """A code with an entry over a base and a number of cases, and its table."""

    def __init__(self, name, code, cells, base, cases, limit=64, is_open=False, machine="MINI"):
        self.machine, self.kind = machine, Tests if machine == "TESTS" else Split
        self.name = f"{name}_over_{base.replace('+', '_and_')}_by_{cases}"
        self.code, self.cells, self.base, self.limit, self.pc, self.cases = code, cells, base, limit, START, cases
        self.model = self.kind(code, START, base, limit, 3, cases)
        self.head = ["tsl-table 2", f"base {base}", "order big", f"code {START:08x} {4 * len(code)}"]
        self.status, self.lines = self.model.analyse(START, self.model.entry(cells), is_open)

    def words(self, command, is_open, limit=None, cases=None):
        words = super().words(command, False, limit)
        cases = self.cases if cases is None else cases
        return words + (f" --cases {cases}" if cases else "") + (" --open" if is_open else "")

    def analysis(self, is_open=False):
        print(f"\ncase an_analysis_{self.name}{'_left_open' if is_open else ''}\nwords {self.words('analyse s c e', is_open)}")
        print(f"input s\nuse {self.machine}\ninput c\nhex " + "".join(f"{word:08x}" for word in self.code))
        print("input e\n" + "\n".join([f"| pc {self.pc:x}", *(f"| r[{key}] {text}" for key, text in self.cells)]))
        print(f"status {self.status}\n" + "\n".join("| " + line for line in (self.head if self.status == 0 else []) + self.lines))

    def check_by(self, name, cases, lines=None):
        """The check of a table with another number of cases."""
        lines = self.lines if lines is None else lines
        model = self.kind(self.code, START, self.base, self.limit, 3, cases)
        status, line = model.verdict(model.table(lines), self.pc, model.entry(self.cells), False)
        self.case(name, self.words("check s c e t", False, cases=cases), status, [line], lines)


FEW = [(1, "0..9"), (2, "0..3")]
ANY = [(1, "any"), (2, "any")]
CODES = [("both_ways", BOTH_WAYS, FEW), ("both_ways_of_any", BOTH_WAYS, ANY), ("two_branches", TWO_BRANCHES, FEW), ("one_way", ONE_WAY, FEW), ("twice", TWICE, FEW), ("out", OUT, FEW), ("counts", COUNT_DOWN, [(1, "1..3")]),
         ("grows", GROWS, [(1, "0"), (2, "4")])]
BASES = ("const", "strides", "kset+interval", "const+interval", "kset+defuse", "defuse", "strides+defuse")


def analyses():
    for name, code, cells in CODES:
        for base in ("kset", "interval"):
            for cases in (0, 1, 2):
                Case(name, code, cells, base, cases).analysis()
    for base in BASES:
        Case("both_ways", BOTH_WAYS, ANY, base, 1).analysis()
        Case("two_branches", TWO_BRANCHES, ANY, base, 8).analysis()
    # known bits are never cut
    for base in ("bits", "interval+bits", "bits+defuse"):
        for cases in (1, 8):
            Case("puts", PUTS, [(1, "any")], base, cases).analysis()
    Case("puts_of_few", PUTS, [(1, "0..3")], "kset", 1).analysis()
    # a register that is not listed
    for base in ("kset", "interval", "kset+defuse"):
        Case("unlisted", BOTH_WAYS, [("*", "0..5")], base, 1).analysis()
        Case("unlisted_0", BOTH_WAYS, [], base, 1).analysis()
    # what the cases of a word without decoding or of too many targets give
    for cases in (0, 1):
        Case("half", HALF, FEW, "kset", cases).analysis()
        Case("half", HALF, FEW, "kset", cases, is_open=True).analysis(True)
        Case("half_of_0", HALF, [(1, "0")], "kset", cases).analysis()
        Case("many", BOTH_WAYS, FEW, "kset", cases, limit=1).analysis()
        Case("many", BOTH_WAYS, FEW, "const", cases).analysis()


def test(kind, key, other, to):
    return kind << 24 | key << 22 | other << 16 | to


# a branch to an end of its own, and what comes else
ENDS = [put(3, 1), add(2, 1, 1)]
NESTED = [test(4, 1, 2, 0x100C), add(3, 1, 2), jump(0, 0x1010), add(3, 1, 2), add(3, 3, 3)]
TWICE_BOTH = [test(4, 1, 2, 0x1008), test(4, 1, 2, 0x100C), add(3, 1, 2), add(3, 3, 3)]


def comparisons():
    """Other comparisons, by the cells that they have."""
    def each(name, code, cells, bases=("kset", "interval"), many=(0, 1, 2), **more):
        for base in bases:
            for cases in many:
                Case(name, code, cells, base, cases, machine="TESTS", **more).analysis()

    # two comparisons of one instruction: the second is cut by the second split
    each("two_registers", NESTED, FEW, many=(0, 1, 2, 8))
    each("two_registers", NESTED, FEW, bases=("kset+defuse", "const+interval"), many=(1, 2))
    each("two_registers_twice", TWICE_BOTH, FEW)
    each("the_second_register_is_open", NESTED, [(1, "0"), (2, "0..3")], many=(0, 1))
    each("the_first_register_is_open", NESTED, [(1, "0..3"), (2, "0")], many=(0, 1, 2))
    each("the_first_register_is_not_0", NESTED, [(1, "1..3"), (2, "0..3")], many=(0, 1))
    each("one_register_on_both_sides", [test(4, 1, 1, 0x1008), *ENDS], FEW, many=(0, 1, 2))
    # the other comparisons
    for name, kind, n, cells in (("below", 5, 4, "0..9"), ("below_1", 5, 1, "0..9"), ("from", 6, 4, "0..9"), ("negative", 7, 0, "7ffffffe..80000001"), ("behind_one", 8, 5, "0..9"),
                                 ("behind_one_1", 8, 1, "0..9"), ("behind_one_0", 8, 0, "fffffffc..ffffffff"), ("another", 9, 4, "0..9"), ("another_than_0", 9, 0, "0..9")):
        each(name, [test(kind, 1, n, 0x1008), *ENDS], [(1, cells)], many=(0, 1))
    for name, kind, n in (("below", 5, 4), ("from", 6, 4), ("negative", 7, 0), ("behind_one", 8, 5), ("another", 9, 4)):
        each(name + "_of_any", [test(kind, 1, n, 0x1008), *ENDS], [(1, "any")], many=(1,))
    # what a case shows that has too many targets: the whole counter
    far = [(1, "0..3"), (2, "2000..2fff"), (3, "4000..5000")]
    for name, code in (("many_beside_one", [test(10, 1, 0, 0x1008), *ENDS]), ("many_beside_many", [test(11, 1, 0, 0), *ENDS])):
        each(name, code, far, bases=("interval", "kset"))
        Case(name, code, far, "interval", 1, is_open=True, machine="TESTS").analysis(True)
    each("many_on_the_way_that_is_not_gone", [test(10, 1, 0, 0x1008), *ENDS], [(1, "1..3"), (3, "4000..5000")])


POWER_PC = ["| gpr[*] 00000000..00000000", "| cr[*] 0..0", "| xer[*] 0..0", "| spr[*] 00000000..00000000", "| spr[LR] fffffffc..fffffffc", "| mem[*] 00..00"]


def relations():
    """Over affine relations, which are never cut, by hand. Both ways of the branch go to one address, since two numbers join to any."""
    rows = ["| row 00000000 00000000 00000001 00000000 00000000", "| row 00000001 00000000 00000000 00000000 00000000"]
    for cases in (1, 8):
        print(f"\ncase an_analysis_with_relations_by_{cases}\nwords analyse s c e --at 00001000 --base affine --cases {cases}\ninput s\nuse MINI\ninput c\nhex {jump(1, 0x1004):08x}{put(3, 1):08x}")
        print("input e\n| pc 1000\n| r[1] any\nstatus 0\n| tsl-table 2\n| base affine\n| order big\n| code 00001000 8")
        print("\n".join(["| at 00001000", "| part affine", *rows, "| next 00001004", "| at 00001004", "| part affine", *rows, "| exit 00001008"]))


def power_pc():
    """Over intervals, of @ppc, by hand."""
    def each(name, cases, at, code, cells, status, lines):
        print(f"\ncase {name}_by_{cases}\nwords analyse @ppc c e --at {at:08x} --base interval" + (f" --cases {cases}" if cases else ""))
        print("\n".join(["input c", "hex " + code, "input e", f"| pc {at:08x}", *("| " + line for line in cells), f"status {status}"]))
        print("\n".join(lines))

    def block(at, cells, ways):
        """The block of an address with these cells beside those that are 0."""
        lines = [f"| at {at:08x}", "| part interval"]
        for line in POWER_PC:
            lines.append(line)
            name = line[2:line.index("[")]
            if line != "| spr[*] 00000000..00000000":
                lines += ["| " + other for other in cells if other.startswith(name)]
        return lines + ["| " + way for way in ways]

    def head(size):
        return ["| tsl-table 2", "| base interval", "| order big", f"| code 00001000 {size}"]

    # bdnzlr: of one case the counter is 8004, of the other too many addresses; a branch to none of them is shown where the counter may be
    for cases in (0, 1, 2):
        each("a_counted_return_to_many_addresses", cases, 0x8000, "4e000020", ["spr[LR] 2000..3000", "spr[CTR] 1..9"], 10, ["| targets 00008000 00000000..00008004"])
    # a loop by bdnz ends with 0
    loop = ["gpr[3] any", "gpr[4] any", "spr[CTR] any"]
    each("a_counted_loop", 1, 0x1000, "7c6903a6388400014200fffc4e800020", ["gpr[3] any", "spr[LR] fffffffc"], 0, [
        *head(16), *block(0x1000, ["gpr[3] any"], ["next 00001004"]), *block(0x1004, loop, ["next 00001008"]), *block(0x1008, loop, ["next 00001004 0000100c"]),
        *block(0x100C, [*loop[:2], "spr[CTR] 00000000..00000000"], ["exit fffffffc"])])
    # bdnzt: the first split tells the count, the second the condition bit
    for cases, bit, ways in ((1, "any", ["next 00001004 00001008", "exit 00001005 00001006 00001007"]), (2, "1..1", ["next 00001004 00001008"])):
        each("a_count_and_a_condition_bit", cases, 0x1000, "410200084e8000204e800020", ["cr[2] any", "spr[LR] fffffffc", "spr[CTR] 1..9"], 0, [
            *head(12), *block(0x1000, ["cr[2] any", "spr[CTR] 00000001..00000009"], ways), *block(0x1004, ["cr[2] any", "spr[CTR] 00000000..00000008"], ["exit fffffffc"]),
            *block(0x1008, [f"cr[2] {bit}", "spr[CTR] 00000001..00000008"], ["exit fffffffc"])])


def signed(number):
    return number - MODULUS if number >> 31 else number


# branches of @rv on x10 and x0 to the second word behind them: the code word, when it is taken, and where x10 is cut
BRANCHES = [
    ("beq", 0x00050463, lambda n: n == 0, [1]), ("beq_turned", 0x00A00463, lambda n: n == 0, [1]), ("bne", 0x00051463, lambda n: n != 0, [1]),
    ("blt", 0x00054463, lambda n: signed(n) < 0, [2**31]), ("blt_turned", 0x00A04463, lambda n: 0 < signed(n), [1, 2**31]), ("bge", 0x00055463, lambda n: signed(n) >= 0, [2**31]),
    ("bge_turned", 0x00A05463, lambda n: 0 >= signed(n), [1, 2**31]), ("bltu_turned", 0x00A06463, lambda n: 0 < n, [1]), ("bgeu_turned", 0x00A07463, lambda n: 0 >= n, [1]),
]


def risc_v():
    """Over intervals, of @rv: a branch, and behind both ways a return. It was worked out from the specification that is shipped."""
    def block(at, x, ways):
        text = "any" if x == (0, MODULUS - 1) else f"{x[0]:08x}..{x[1]:08x}"
        return [f"at {at:08x}", "part interval", "x[*] 00000000..00000000", "x[1] fffffffc..fffffffc", f"x[10] {text}", "mem[*] 00..00", *ways]

    for name, word, taken, cuts in BRANCHES:
        for low, high in ((0, MODULUS - 1), (0x7FFFFFFE, 0x80000003) if 2**31 in cuts else (0, 5)):
            ways = {0x1004: [], 0x1008: []}
            for first, last in zip([0, *cuts], [*(cut - 1 for cut in cuts), GREATEST]):
                first, last = max(low, first), min(high, last)
                if first <= last:
                    assert taken(first) == taken(last)
                    ways[0x1008 if taken(first) else 0x1004].append((first, last))
            code = b"".join(word.to_bytes(4, "little") for word in (word, 0x8067, 0x8067)).hex()
            print(f"\ncase a_branch_{name}_from_{low:x}_to_{high:x}_by_1\nwords analyse @rv c e --at 00001000 --order little --base interval --cases 1\ninput c\nhex {code}")
            print(f"input e\n| pc 1000\n| x[1] fffffffc\n| x[10] {low:x}..{high:x}\nstatus 0")
            lines = ["tsl-table 2", "base interval", "order little", "code 00001000 12", *block(0x1000, (low, high), ["next " + " ".join(f"{to:08x}" for to in ways if ways[to])])]
            for to, found in ways.items():
                if found:
                    lines += block(to, (min(x[0] for x in found), max(x[1] for x in found)), ["exit fffffffc"])
            print("\n".join("| " + line for line in lines))


def tables():
    for base in ("kset", "interval", "kset+defuse"):
        split = Case("both_ways", BOTH_WAYS, FEW, base, 1)
        whole = Case("both_ways", BOTH_WAYS, FEW, base, 0)
        split.check("a_check", False)
        split.check_by("a_check_without_cases", 0)
        split.check_by("a_check_by_8", 8)
        whole.check_by("a_check_of_a_whole_table", 1)
        split.claims("claims", ["100c r[1] in 0..0", "1004 r[1] != 0", "1004 r[1] in 1..9", "100c r[2] in 0..0", "1010 r[1] in 1..9"], False)
        split.convert("a_conversion")
        if "defuse" in base:
            split.slice("a_slice", 0x100C, 1, False)
            split.slice("a_slice_behind_both", 0x1010, 2, False)
    it = Case("half", HALF, FEW, "kset", 1, is_open=True)
    it.both("a_check")
    it.claims("claims", ["1008 r[1] in 0..0", "1004 r[1] != 0"], True)


def words():
    print("\n# The words of the commands. Where they have their form, the first input is missing: nothing is held.")

    def raw(name, words, is_good):
        status, line = (3, "cannot read s") if is_good else (2, "bad words")
        print(f"\ncase {name}\nwords {words}\nstatus {status}\n| {line}")

    for command, names in (("analyse", "s c e"), ("check", "s c e t"), ("slice", "s c e t 1000 r[1] --base defuse"), ("claims", "s c e t k")):
        raw(f"{command}_by_2", f"{command} {names} --cases 2", True)
    for value, is_good in (("0", True), ("8", True), ("9", False), ("10", False), ("00", False), ("-1", False), ("a", False), ("1 --cases 1", False)):
        raw("analyse_by_" + value.replace(" ", "_").replace("-", "m"), f"analyse s c e --cases {value}", is_good)
    raw("analyse_by_nothing", "analyse s c e --cases", False)
    raw("analyse_by_2_left_open", "analyse s c e --cases 2 --open", True)
    for command in ("convert s c t", "list s c", "emulate s c e", "call s f", "stress 1 8"):
        raw(command.partition(" ")[0] + "_by_1", f"{command} --cases 1", False)


def main():
    text = open(DATA, encoding="utf-8").read()
    print("# Cases: elements that are split before a comparison. Made by examples/cases/split_cases.py.\n")
    print(text[text.index("given MINI"):].split("\n\n")[0])
    print(text[text.index("given MINI"):].split("\n\n")[0].replace("given MINI", "\ngiven TESTS")
          .replace("t: INT16);", "t: INT16)\n|   | Both(a: INT2, b: INT2, t: INT16) | Below(a: INT2, n: INT6, t: INT16) | From(a: INT2, n: INT6, t: INT16)\n"
                   "|   | Negative(a: INT2, t: INT16) | Behind(a: INT2, n: INT6, t: INT16) | Another(a: INT2, n: INT6, t: INT16)\n"
                   "|   | Beside(a: INT2, t: INT16) | Either(a: INT2);")
          .replace("|     Jz(a, t)", "".join(f"|     {form} => State(if {test} then {there} else {behind}, r);\n" for form, test, there, behind in (
              ("Both(a, b, t)", "r[a] == 0:32 && r[b] == 0:32", "zext(t, 32)", "pc + 4:32"), ("Below(a, n, t)", "ltu(r[a], zext(n, 32))", "zext(t, 32)", "pc + 4:32"),
              ("From(a, n, t)", "leu(zext(n, 32), r[a])", "zext(t, 32)", "pc + 4:32"), ("Negative(a, t)", "lts(r[a], 0:32)", "zext(t, 32)", "pc + 4:32"),
              ("Behind(a, n, t)", "r[a] + 1:32 == zext(n, 32)", "zext(t, 32)", "pc + 4:32"), ("Another(a, n, t)", "r[a] != zext(n, 32)", "zext(t, 32)", "pc + 4:32"),
              ("Beside(a, t)", "r[a] == 0:32", "r[3:2]", "zext(t, 32)"), ("Either(a)", "r[a] == 0:32", "r[3:2]", "r[2:2]"))) + "|     Jz(a, t)")
          .replace("|   [3:8 0:6 a:2 t:16] => Jz(a, t);", "|   [3:8 0:6 a:2 t:16] => Jz(a, t);\n" + "".join(f"|   [{kind}:8 a:2 {rest}] => {form};\n" for kind, rest, form in (
              (4, "0:4 b:2 t:16", "Both(a, b, t)"), (5, "n:6 t:16", "Below(a, n, t)"), (6, "n:6 t:16", "From(a, n, t)"), (7, "0:6 t:16", "Negative(a, t)"),
              (8, "n:6 t:16", "Behind(a, n, t)"), (9, "n:6 t:16", "Another(a, n, t)"), (10, "0:6 t:16", "Beside(a, t)"), (11, "0:22", "Either(a)"))).rstrip()))
    analyses()
    comparisons()
    relations()
    power_pc()
    risc_v()
    tables()
    words()


if __name__ == "__main__":
    main()
