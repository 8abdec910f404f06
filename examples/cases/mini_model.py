"""A model of analyses of the machine `MINI` of the cases, over sets, intervals, strided intervals and pairs of them, left open or not.

It was written from docs/FORMATS.md alone, and shares nothing with the program. The machine has words of 32 bits, a counter and four registers:
Set(d, v) puts a number, Add(d, a, b) a sum, and Jz(a, t) goes to t where a register is 0. An element is a table of cells, with the cell `*` for the
registers without one of their own; a cell has one word for each part of the base.
"""
from math import gcd

MODULUS = 2**32


class Sets:
    """Sets of at most so many numbers; None is any number."""

    any = None

    def __init__(self, most):
        self.most = most

    def of(self, numbers):
        numbers = frozenset(numbers)
        return numbers if len(numbers) <= self.most else None

    def between(self, low, high):
        return self.of(range(low, high + 1)) if high - low < self.most else None

    def sum(self, x, y):
        return None if x is None or y is None else self.of({(a + b) % MODULUS for a in x for b in y})

    def join(self, x, y):
        return None if x is None or y is None else self.of(x | y)

    def absorbs(self, x, y):
        return x is None or (y is not None and y <= x)

    def widen(self, x, y):
        return x if self.absorbs(x, y) else None

    def may_be_zero(self, x):
        return {True, False} if x is None else {a == 0 for a in x}

    def members(self, x):
        return None if x is None else sorted(x)

    def has(self, x, number):
        return x is None or number in x

    def text(self, x):
        return "any" if x is None else "{" + ",".join(f"{number:08x}" for number in sorted(x)) + "}"


class Intervals:
    """A least and a greatest number."""

    any = (0, MODULUS - 1)

    def of(self, numbers):
        return min(numbers), max(numbers)

    def between(self, low, high):
        return low, high

    def sum(self, x, y):
        low, high = x[0] + y[0], x[1] + y[1]
        if high < MODULUS:
            return low, high
        return (low - MODULUS, high - MODULUS) if low >= MODULUS else self.any

    def join(self, x, y):
        return min(x[0], y[0]), max(x[1], y[1])

    def absorbs(self, x, y):
        return x[0] <= y[0] and y[1] <= x[1]

    def widen(self, x, y):
        return x[0] if x[0] <= y[0] else 0, x[1] if y[1] <= x[1] else MODULUS - 1

    def may_be_zero(self, x):
        return ({True} if x[0] == 0 else set()) | ({False} if x[1] > 0 else set())

    def members(self, x):
        return range(x[0], x[1] + 1)

    def has(self, x, number):
        return x[0] <= number <= x[1]

    def text(self, x):
        return "any" if x == self.any else f"{x[0]:08x}..{x[1]:08x}"


class Strides:
    """Sets of at most 16 numbers, and strided intervals of more, as a least number, a step and a greatest number."""

    any = (0, 1, MODULUS - 1)
    most = 16

    def of(self, numbers):
        numbers = frozenset(numbers)
        return numbers if len(numbers) <= self.most else self.stretch(*self.span(numbers))

    def between(self, low, high):
        return self.stretch(low, 1, high)

    def stretch(self, low, step, high):
        """The word of the numbers low, low + step, .. that are at most high."""
        high = low + (high - low) // step * step if step else low
        return (low, step, high) if step and (high - low) // step >= self.most else frozenset(range(low, high + 1, step or 1))

    def span(self, x):
        """The least number, the step and the greatest number of the least strided interval around a word."""
        return (min(x), gcd(*(n - min(x) for n in x)), max(x)) if isinstance(x, frozenset) else x

    def hull(self, x, y):
        (a, s, b), (c, t, d) = self.span(x), self.span(y)
        return min(a, c), gcd(s, t, abs(a - c)), max(b, d)

    def are_sets(self, x, y):
        return isinstance(x, frozenset) and isinstance(y, frozenset)

    def sum(self, x, y):
        if self.are_sets(x, y):
            return self.of({(a + b) % MODULUS for a in x for b in y})
        (a, s, b), (c, t, d) = self.span(x), self.span(y)
        low, step, high = a + c, gcd(s, t), b + d
        if low // MODULUS == high // MODULUS:
            return self.stretch(low % MODULUS, step, high % MODULUS)
        step = gcd(step, MODULUS)
        return self.stretch(low % step, step, MODULUS - 1)

    def join(self, x, y):
        return self.of(x | y) if self.are_sets(x, y) else self.stretch(*self.hull(x, y))

    def absorbs(self, x, y):
        if self.are_sets(x, y):
            return y <= x
        if isinstance(x, frozenset):
            return False
        (a, s, b), (c, t, d) = x, self.span(y)
        return a <= c and d <= b and t % s == 0 and (c - a) % s == 0

    def widen(self, x, y):
        if self.absorbs(x, y):
            return x
        if self.are_sets(x, y) and len(x | y) <= self.most:
            return x | y
        (a, _, b), (c, _, d), (_, step, _) = self.span(x), self.span(y), self.hull(x, y)
        low, high = a if a <= c else c % step, b if d <= b else MODULUS - 1
        return low, step, low + (high - low) // step * step

    def may_be_zero(self, x):
        if isinstance(x, frozenset):
            return {a == 0 for a in x}
        return {True, False} if x[0] == 0 else {False}

    def members(self, x):
        return sorted(x) if isinstance(x, frozenset) else range(x[0], x[2] + 1, x[1])

    def has(self, x, number):
        return number in self.members(x)

    def text(self, x):
        if isinstance(x, frozenset):
            return "{" + ",".join(f"{number:08x}" for number in sorted(x)) + "}"
        return "any" if x == self.any else f"{x[0]:08x}..{x[2]:08x}" + (f"+{x[1]:08x}" if x[1] != 1 else "")


BASES = {"const": Sets(1), "kset": Sets(16), "interval": Intervals(), "strides": Strides()}


class Model:
    """The analysis of a list of code words from an address, over a base, under a limit of targets and a number of joins."""

    def __init__(self, code, start, base, limit, joins):
        self.names = base.split("+")
        self.parts = [BASES[name] for name in self.names]
        self.words = {start + 4 * i: word for i, word in enumerate(code)}
        self.limit, self.joins = limit, joins

    # ---- words, a part at a time
    def of(self, number):
        return [part.of([number]) for part in self.parts]

    def read(self, text):
        if text == "any":
            return [part.any for part in self.parts]
        if ".." in text:
            low, high = (int(end, 16) for end in text.split(".."))
            return [part.between(low, high) for part in self.parts]
        return self.of(int(text, 16))

    def both(self, call, x, y):
        return [getattr(part, call)(a, b) for part, a, b in zip(self.parts, x, y)]

    # ---- elements
    def join(self, x, y):
        return {key: self.both("join", cell(x, key), cell(y, key)) for key in {**x, **y}}

    def widen(self, x, y):
        new = {key: self.both("widen", x[key], cell(y, key)) for key in x}
        for key in y:
            if key not in x:
                new["*"] = self.both("widen", new["*"], y[key])
        return new

    def absorbs(self, x, y):
        return all(all(self.both("absorbs", cell(x, key), cell(y, key))) for key in {**x, **y})

    # ---- transfers
    def transfer(self, at, element):
        """Returns the targets and the element behind; or why there are none: the word without decoding, or the word of the counter."""
        word, behind = self.words[at], self.of((at + 4) % MODULUS)
        kind, none_between = word >> 24, (word >> 18) & 63 == 0
        if kind == 1 and none_between:
            return self.goes(behind, {**element, (word >> 16) & 3: self.of(word & 0xFFFF)})
        if kind == 2 and (word >> 6) & 0x3FFFF == 0:
            total = self.both("sum", cell(element, (word >> 2) & 3), cell(element, word & 3))
            return self.goes(behind, {**element, (word >> 4) & 3: total})
        if kind == 3 and none_between:
            tested = cell(element, (word >> 16) & 3)
            may = set.intersection(*(part.may_be_zero(x) for part, x in zip(self.parts, tested)))
            there = self.of(word & 0xFFFF)
            return self.goes(there if may == {True} else behind if may == {False} else self.both("join", there, behind), element)
        return "undecodable", word

    def goes(self, counter, element):
        lists = [part.members(x) for part, x in zip(self.parts, counter) if part.members(x) is not None]
        shortest = min(lists, key=len) if lists else range(MODULUS)
        if len(shortest) > 100000:
            return "open", counter
        targets = [at for at in shortest if all(part.has(x, at) for part, x in zip(self.parts, counter))]
        return (targets, element) if len(targets) <= self.limit else ("open", counter)

    def arriving(self, behind, to):
        """What comes to a target of what a transfer gives behind the instruction."""
        return behind

    # ---- the whole
    def analyse(self, entry_at, entry, is_open):
        """Returns the status and the lines behind the head of a table, or of the refusal."""
        found = {}

        def comes(at, element):
            if at not in self.words:
                return
            if at not in found:
                found[at] = [element, 1, True]
            elif not self.absorbs(found[at][0], element):
                old, changes, _ = found[at]
                found[at] = [(self.join if changes < self.joins else self.widen)(old, element), changes + 1, True]

        comes(entry_at, entry)
        while any(pending for _, _, pending in found.values()):
            at = min(a for a in found if found[a][2])
            found[at][2] = False
            targets, behind = self.transfer(at, found[at][0])
            if targets == "undecodable" and not is_open:
                return 9, [f"undecodable {at:08x} {behind:08x}"]
            if targets == "open" and not is_open:
                return 10, [f"targets {at:08x} {self.text(behind)}"]
            for to in targets if isinstance(targets, list) else []:
                comes(to, self.arriving(behind, to))
        return 0, [line for at in sorted(found) for line in self.block(at, found[at][0])]

    def text(self, x):
        return " ".join(part.text(it) for part, it in zip(self.parts, x))

    def block(self, at, element):
        lines = [f"at {at:08x}"]
        for i, name in enumerate(self.names):
            lines += [f"part {name}", f"r[*] {self.parts[i].text(element['*'][i])}"]
            lines += [f"r[{key}] {self.parts[i].text(element[key][i])}" for key in sorted(key for key in element if key != "*")]
        targets, behind = self.transfer(at, element)
        if targets == "undecodable":
            return [*lines, f"undecodable {behind:08x}"]
        if targets == "open":
            return [*lines, f"open {self.text(behind)}"]
        for name, some in (("next", [t for t in targets if t in self.words]), ("exit", [t for t in targets if t not in self.words])):
            if some:
                lines.append(" ".join([name, *(f"{t:08x}" for t in some)]))
        return lines


def cell(element, key):
    return element.get(key, element["*"])
