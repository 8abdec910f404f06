"""A model of tables of the machine `MINI` that are read back: the verdict on one, its slices, and its answers to claims; left open or not.

It was written from docs/FORMATS.md alone, and shares nothing with the program. Beside the bases of mini_model.py it has `defuse`, whose cells are sets
of at most one number with the places that may have written them, and `bits`, of which it adds only single numbers.
"""
import re

from mini_model import BASES, MODULUS, Model, Sets, Strides, cell


class Definitions:
    """A set of at most one number, and the places that wrote it; a counter has none."""

    words = Sets(1)
    any = (None, frozenset())

    def of(self, numbers):
        return self.words.of(numbers), frozenset()

    def between(self, low, high):
        return self.words.between(low, high), frozenset()

    def sum(self, x, y):
        return self.words.sum(x[0], y[0]), x[1] | y[1]

    def join(self, x, y):
        return self.words.join(x[0], y[0]), x[1] | y[1]

    def absorbs(self, x, y):
        return self.words.absorbs(x[0], y[0]) and x[1] >= y[1]

    def widen(self, x, y):
        return self.words.widen(x[0], y[0]), x[1] | y[1]

    def may_be_zero(self, x):
        return self.words.may_be_zero(x[0])

    def members(self, x):
        return self.words.members(x[0])

    def has(self, x, number):
        return self.words.has(x[0], number)

    def text(self, x):
        return self.words.text(x[0]) + (" from " + stamps_text(x[1]) if x[1] else "")


class Bits:
    """The bits that are 1, and those that are unknown."""

    any = (0, MODULUS - 1)

    def of(self, numbers):
        numbers = list(numbers)
        unknown = 0
        for number in numbers:
            unknown |= number ^ numbers[0]
        return numbers[0] & ~unknown, unknown

    def sum(self, x, y):
        assert x[1] == y[1] == 0
        return (x[0] + y[0]) % MODULUS, 0

    def join(self, x, y):
        unknown = x[1] | y[1] | (x[0] ^ y[0])
        return x[0] & ~unknown, unknown

    widen = join

    def absorbs(self, x, y):
        return self.join(x, y) == x

    def may_be_zero(self, x):
        return {False} if x[0] else {True} if not x[1] else {True, False}

    def members(self, x):
        found = [x[0]]
        for bit in (1 << i for i in range(32) if x[1] >> i & 1):
            if len(found) > 4096:
                return None
            found += [number | bit for number in found]
        return sorted(found)

    def has(self, x, number):
        return number & ~x[1] == x[0]

    def text(self, x):
        return "any" if x == self.any else f"{x[0]:08x}/{x[1]:08x}"


BASES.update({"defuse": Definitions(), "bits": Bits()})


def stamps_text(stamps):
    return ",".join((["entry"] if "entry" in stamps else []) + [f"{at:08x}" for at in sorted(stamps - {"entry"})])


class Checked(Model):
    """The analysis and the check of code, with uses."""

    def stamped(self, value, stamps):
        return [(x[0], frozenset(stamps)) if isinstance(part, Definitions) else x for part, x in zip(self.parts, value)]

    def entry(self, cells):
        """Returns the element of an entry from the texts of its cells."""
        element = {"*": self.stamped(self.of(0), {"entry"})}
        for key, text in cells:
            element[key] = self.stamped(self.read(text), {"entry"})
        return element

    def transfer(self, at, element):
        targets, behind = super().transfer(at, element)
        word = self.words[at]
        kind = word >> 24
        if isinstance(targets, list) and kind in (1, 2):
            key = (word >> 16 if kind == 1 else word >> 4) & 3
            behind = {**behind, key: self.stamped(behind[key], {at})}
        return targets, behind

    def goes(self, counter, element):
        return super().goes(self.stamped(counter, ()), element)

    def uses(self, at, element):
        """Returns what the instruction reads: each key with the places that may have written it."""
        word = self.words[at]
        kind, clear = word >> 24, (word >> 18) & 63 == 0
        keys = {(word >> 2) & 3, word & 3} if kind == 2 and (word >> 6) & 0x3FFFF == 0 else {(word >> 16) & 3} if kind == 3 and clear else set()
        if "defuse" not in self.names:
            return {}
        place = self.names.index("defuse")
        return {key: cell(element, key)[place][1] for key in sorted(keys)}

    def block(self, at, element):
        lines = super().block(at, element)
        last = next(i for i in range(len(lines), 0, -1) if i == 1 or lines[i - 1].startswith(("r[", "part ")))
        return lines[:last] + [f"use r[{key}] from {stamps_text(stamps)}" for key, stamps in self.uses(at, element).items()] + lines[last:]

    # ---- tables read back

    def word_of(self, part, text, stamps):
        """Returns the word that a text is, over one base."""
        if text == "any":
            word = part.any
        elif text.startswith("{"):
            word = frozenset(int(number, 16) for number in text[1:-1].split(",") if number)
        elif isinstance(part, Strides):
            low, high, step = re.fullmatch(r"(\w+)\.\.(\w+)(?:\+(\w+))?", text).groups()
            word = (int(low, 16), int(step or "1", 16), int(high, 16))
        elif ".." in text:
            word = tuple(int(end, 16) for end in text.split(".."))
        else:
            word = tuple(int(bits, 16) for bits in text.split("/"))
        return (None if text == "any" else word, frozenset(stamps)) if isinstance(part, Definitions) else word

    def table(self, lines):
        """Returns the blocks of the lines of a table behind its head, by their addresses."""
        blocks, part = {}, None
        for line in lines:
            kind, _, rest = line.partition(" ")
            if kind == "at":
                block = blocks[int(rest, 16)] = {"cells": [{} for _ in self.parts], "next": [], "exit": [], "uses": {}, "ending": None}
            elif kind == "part":
                part = self.names.index(rest)
            elif kind in ("next", "exit"):
                block[kind] = [int(to, 16) for to in rest.split(" ")]
            elif kind in ("open", "undecodable"):
                block["ending"] = (kind, rest)
            elif kind == "use":
                key, stamps = re.fullmatch(r"r\[(.)\] from (.*)", rest).groups()
                block["uses"][key if key == "*" else int(key)] = frozenset(stamp if stamp == "entry" else int(stamp, 16) for stamp in stamps.split(","))
            else:
                key = kind[2:-1]
                word, _, stamps = rest.partition(" from ")
                stamps = [stamp if stamp == "entry" else int(stamp, 16) for stamp in stamps.split(",")] if stamps else []
                block["cells"][part][key if key == "*" else int(key)] = self.word_of(self.parts[part], word, stamps)
        for block in blocks.values():
            block["cells"] = {key: [cells.get(key, cells["*"]) for cells in block["cells"]] for key in set().union(*block["cells"])}
        return blocks

    def says(self, at, element):
        """Returns the addresses inside and outside, and the ending, that the instruction gives; and the element behind with all of its targets."""
        targets, behind = self.transfer(at, element)
        if targets == "undecodable":
            return [], [], ("undecodable", f"{behind:08x}"), [], None
        if targets == "open":
            return [], [], ("open", self.text(behind)), [], None
        return [to for to in targets if to in self.words], [to for to in targets if to not in self.words], None, targets, behind

    def verdict(self, blocks, entry_at, entry, is_open):
        """Returns the status and the line of a check."""
        left_open = [at for at in sorted(blocks) if blocks[at]["ending"]]
        if left_open and not is_open:
            return 1, f"rejected targets {left_open[0]:08x}"
        if entry_at in self.words and not (entry_at in blocks and self.absorbs(blocks[entry_at]["cells"], entry)):
            return 1, "rejected entry"
        for at in sorted(blocks):
            block = blocks[at]
            element = block["cells"]
            inside, outside, ending, targets, behind = self.says(at, element)
            if ending and not is_open:
                return (9, f"undecodable {at:08x} {ending[1]}") if ending[0] == "undecodable" else (10, f"targets {at:08x} {ending[1]}")
            if (block["next"], block["exit"], block["ending"]) != (inside, outside, ending):
                return 1, f"rejected targets {at:08x}"
            if block["uses"] != ({} if ending and ending[0] == "undecodable" else self.uses(at, element)):
                return 1, f"rejected use {at:08x}"
            for to in inside:
                if to not in blocks or not self.absorbs(blocks[to]["cells"], self.arriving(behind, to)):
                    return 1, f"rejected open {at:08x} {to:08x}"
        return 0, "accepted"

    def slice(self, blocks, at, key):
        """Returns the lines of a slice of a table that is accepted; a key None is any."""
        asked = [stamps for k, stamps in blocks.get(at, {"uses": {}})["uses"].items() if key is None or k == key]
        found, left, told = set(), [stamp for stamps in asked for stamp in stamps], False
        while left:
            stamp = left.pop()
            if stamp == "entry":
                told = True
            elif stamp not in found:
                found.add(stamp)
                left += [s for stamps in blocks.get(stamp, {"uses": {}})["uses"].values() for s in stamps]
        return [f"slice {at:08x} r[{'*' if key is None else key}]"] + (["entry"] if told else []) + [f"{a:08x}" for a in sorted(found)]

    def shows(self, word, part, low, high):
        """Whether a word of one base says that a number is between these."""
        if isinstance(part, Definitions):
            part, word = part.words, word[0]
        if isinstance(part, Sets):
            return word is not None and all(low <= number <= high for number in word)
        if isinstance(part, Strides):
            numbers = part.members(word)
            return low <= numbers[0] and numbers[-1] <= high
        if isinstance(part, Bits):
            return low <= word[0] and word[0] | word[1] <= high
        return low <= word[0] and word[1] <= high

    def answer(self, blocks, line):
        """Returns the answer to a claim: `AT never`, `AT r[K] in LO..HI` or `AT r[K] != HEX`."""
        words = line.split(" ")
        at = int(words[0], 16)
        if at not in blocks:
            return "yes"
        if words[1] == "never":
            return "open"
        told = cell(blocks[at]["cells"], int(words[1][2:-1]))
        if words[2] == "in":
            low, high = (int(end, 16) for end in words[3].split(".."))
            return "yes" if any(self.shows(word, part, low, high) for part, word in zip(self.parts, told)) else "open"
        return "yes" if any(not part.has(word, int(words[3], 16)) for part, word in zip(self.parts, told)) else "open"


def until_open(blocks, lines):
    """Returns an answer that is good until an address is open, as its first line says."""
    return (["until open"] if any(block["ending"] for block in blocks.values()) else []) + lines
