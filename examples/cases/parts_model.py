#!/usr/bin/env python3
"""What the lines of crates/test_parts/stdin are to give, computed from the rules of specs/Machine.antt and of fixpoint_parts' specs/, and from nothing that runs.

parts_model.py < stdin > stdout     answers each line
parts_model.py N SEED               draws N programs, each on a line that asks for its analysis

An interval is a pair; none of what follows is the program's own code. A table is a list of blocks an address: (interval, next, exits, uses),
where uses is whether the number is read. A part is a list: context, case or None, interval, changes, pending.
"""
import random
import sys

CAP, MOST, JOINS, TOP, REST = 3, 2, 3, 99, 100


# ---- text
def addresses(text):
    return [] if text == "-" else [int(it) for it in text.split("+")]


def read(line):
    code, _, listed = line.partition(";")
    head, _, body = code.partition(":")
    start, _, numbers = head.partition(" ")
    low, high = numbers.split("..")
    words = []
    if body != " -":
        for word in body.split(","):
            at, name, *operand = word.split()
            words.append((int(at), name, int(operand[0]) if operand else None))
    return words, int(start), (int(low), int(high)), listed.strip()


def table_of(listed):
    table = {}
    for part in listed.split(","):
        if part.strip() == "-":
            continue
        at, numbers, nexts, exits, uses = part.split()
        low, high = numbers.split("..")
        table.setdefault(int(at), []).append(((int(low), int(high)), addresses(nexts), addresses(exits), uses == "x"))
    return table


def shown(items):
    return "+".join(map(str, items)) or "-"


def table_text(table):
    lines = [f"{at} {x[0]}..{x[1]} {shown(nexts)} {shown(exits)} {'x' if uses else '-'}" for at in sorted(table) for x, nexts, exits, uses in table[at]]
    return ", ".join(lines) or "-"


# ---- intervals, and what an instruction makes of one
def join(x, y):
    return min(x[0], y[0]), max(x[1], y[1])


def widen(old, new):
    return (0 if new[0] < old[0] else old[0]), (TOP if old[1] < new[1] else old[1])


def absorbs(old, new):
    return old[0] <= new[0] and new[1] <= old[1]


def transfer(words, at, x):
    """("undecodable", word), ("many", interval, uses), or ("leaves", [(targets, interval)], uses)"""
    found = [it for it in words if it[0] == at]
    behind = (at + 4) % 2**32
    if not found or found[0][1] == "bad":
        return ("undecodable", 0)
    _, name, operand = found[0]
    if name == "set":
        n = min(operand, TOP)
        return ("leaves", [([behind], (n, n))], False)
    if name == "add":
        n = min(operand, TOP)
        return ("leaves", [([behind], (min(min(x[0], TOP) + n, TOP), min(x[1] + n, TOP)))], True)
    if name == "goto":
        return ("leaves", [([operand], x)], False)
    if name == "fork":
        return ("leaves", [([operand], (x[0], min(x[1], 49))), ([behind], (max(x[0], 50), x[1]))], True)
    if name == "either":
        return ("leaves", [(sorted({behind, operand}), x)], True)
    if name == "wild":
        return ("many", x, True)
    return ("leaves", [], False)


# ---- the checker
def targets_of(leaves):
    return sorted({to for targets, _ in leaves for to in targets})


def verdict(words, start, entry, table):
    code = {it[0] for it in words}

    def absorbed(x, at):
        return any(absorbs(b[0], x) for b in table.get(at, []))

    if start in code and not absorbed(entry, start):
        return "entry"
    for at in sorted(table):
        for x, nexts, exits, uses in table[at]:
            given = transfer(words, at, x)
            if given[0] == "undecodable":
                return f"undecodable {at} {given[1]}"
            if given[0] == "many":
                return f"too many {at} {given[1][0]}..{given[1][1]}"
            targets = targets_of(given[1])
            if nexts != [to for to in targets if to in code] or exits != [to for to in targets if to not in code]:
                return f"targets {at}"
            if uses != given[2]:
                return f"use {at}"
            for leaf_targets, post in given[1]:
                for to in leaf_targets:
                    if to in code and not absorbed(post, to):
                        return f"open {at} to {to}"
    return "accepted"


# ---- the worklist
def number_of(x):
    return x[0] if x[0] == x[1] else REST


def key_order(part):
    # parts of one context: by case, and the part of all cases last
    return part[0], (1, 0) if part[1] is None else (0, part[1])


class Worklist:
    def __init__(self, words):
        self.words = words
        self.code = {it[0] for it in words}
        self.parts = {}
        self.known = [REST]

    def arrive(self, to, context, case, x):
        if to not in self.code:
            return
        here = self.parts.setdefault(to, [])
        if any(absorbs(part[2], x) for part in here):
            return
        if context not in self.known:
            if len(self.known) <= CAP:
                self.known.append(context)
            else:
                context = REST
        mine = [part for part in here if part[0] == context]
        takers = [part for part in mine if part[1] is None or part[1] == case]
        if takers:
            for part in takers:
                self.grow(part, x)
            return
        if len(mine) < MOST:
            here.append([context, case, x, 1, True])
        else:
            first = mine[0]
            for other in mine[1:]:
                first[2] = join(first[2], other[2])
                here.remove(other)
            first[1] = None
            self.grow(first, x)
        here.sort(key=key_order)

    def grow(self, part, x):
        part[2] = join(part[2], x) if part[3] < JOINS else widen(part[2], x)
        part[3] += 1
        part[4] = True


def analysis(words, start, entry):
    work = Worklist(words)
    work.arrive(start, number_of(entry), 0, entry)
    trace = []
    while True:
        pending = [at for at in sorted(work.parts) if any(part[4] for part in work.parts[at])]
        if not pending:
            break
        at = pending[0]
        part = next(part for part in work.parts[at] if part[4])
        given = transfer(words, at, part[2])
        after = " after " + " ".join(map(str, trace)) if trace else ""
        if given[0] == "undecodable":
            return f"undecodable {at} {given[1]}{after}"
        if given[0] == "many":
            return f"too many {at} {given[1][0]}..{given[1][1]}{after}"
        trace.append(at)
        part[4] = False
        for number, (targets, post) in enumerate(given[1]):
            for to in targets:
                work.arrive(to, number_of(post), at if number == 0 else 1, post)
    table = {}
    for at, parts in work.parts.items():
        for _, _, x, _, _ in parts:
            given = transfer(words, at, x)
            targets = targets_of(given[1])
            table.setdefault(at, []).append((x, [to for to in targets if to in work.code], [to for to in targets if to not in work.code], given[2]))
    assert verdict(words, start, entry, table) == "accepted"
    return f"{' '.join(map(str, trace)) or '-'}: {table_text(table)}"


def answer(line):
    words, start, entry, listed = read(line)
    if [it[0] for it in words] != sorted({it[0] for it in words}) or entry[1] > TOP:
        return "no program"
    if listed == "analyse":
        return analysis(words, start, entry)
    table = table_of(listed)
    if any(at not in {it[0] for it in words} or b[0][1] > TOP for at in table for b in table[at]):
        return "no table"
    return verdict(words, start, entry, table)


def drawn(draw):
    """A program of a few words, most of whose jumps stay inside it."""
    at = [4096 + 4 * i for i in range(draw.randint(1, 7))]
    words = []
    for here in at:
        name = draw.choice(["set", "add", "add", "goto", "fork", "fork", "fork", "either", "either", "spin", "set", "wild", "bad"])
        if name in ("wild", "bad") and draw.random() < 0.7:
            name = "either"
        operand = draw.choice([*at, *at, *at, at[-1] + 4]) if name in ("goto", "fork", "either") else draw.randint(0, 60)
        words.append(f"{here} {name}" + ("" if name in ("wild", "bad", "spin") else f" {operand}"))
    low = draw.randint(0, TOP)
    high = low if draw.random() < 0.4 else draw.randint(low, TOP)
    return f"{draw.choice([4096, 4096, 4096, at[-1]])} {low}..{high}: {', '.join(words)}; analyse"


if __name__ == "__main__":
    if len(sys.argv) == 3:
        draw = random.Random(int(sys.argv[2]))
        for _ in range(int(sys.argv[1])):
            print(drawn(draw))
    else:
        for line in sys.stdin:
            line = line.rstrip("\n")
            print(f"{line} is {answer(line)}")
