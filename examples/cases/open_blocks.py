#!/usr/bin/env python3
"""Writes crates/test_program/data/open_blocks.cases: tables with open blocks between others, and changes of an element up to the widened one.

What is wanted comes from the model in mini_model.py.

usage: open_blocks.py > crates/test_program/data/open_blocks.cases
"""
import os

from mini_model import Model

DATA = os.path.join(os.path.dirname(os.path.abspath(__file__)), "../../crates/test_program/data/open_tables.cases")
UNDECODABLE = 0xFFFFFFFF
START = 0x1000


def put(register, number):
    return 0x01000000 | register << 16 | number


def add(register, left, right):
    return 0x02000000 | register << 4 | left << 2 | right


def jump(register, to):
    return 0x03000000 | register << 16 | to


def case(name, code, entry, base, limit=64, widen=4, is_open=True):
    model = Model(code, START, base, limit, widen - 1)
    element = {"*": model.of(0)}
    for key, text in entry[1:]:
        element[key] = model.read(text)
    status, lines = model.analyse(entry[0], element, is_open)
    words = f"analyse s c e --at {START:08x} --base {base}"
    words += (f" --limit {limit}" if limit != 64 else "") + (f" --widen {widen}" if widen != 4 else "") + (" --open" if is_open else "")
    head = ["tsl-table 2", f"base {base}", "order big", f"code {START:08x} {4 * len(code)}"] if status == 0 else []
    print(f"\ncase {name}_over_{base.replace('+', '_and_')}\nwords {words}")
    print("input s\nuse MINI\ninput c\nhex " + "".join(f"{word:08x}" for word in code) + "\ninput e")
    print(f"| pc {entry[0]:x}")
    for key, text in entry[1:]:
        print(f"| r[{key}] {text}")
    print(f"status {status}")
    for line in head + lines:
        print(f"| {line}")


def arrivals(count):
    """A code in which so many elements come to one address, one after another, each with a greater r[1]."""
    last = START + 12 * (count - 1) + 8
    code = [word for i in range(1, count) for word in (jump(0, START + 12 * i), put(1, i), jump(3, last))]
    return [*code, put(1, count), add(3, 3, 3), add(2, 1, 1)]


def main():
    text = open(DATA, encoding="utf-8").read()
    print("# Open blocks between others, two of them, and changes of an element. Made by examples/cases/open_blocks.py.\n")
    print(text[text.index("given MINI"):].split("\n\n")[0])
    between = [jump(0, 0x100C), UNDECODABLE, put(3, 1), put(1, 5), add(2, 1, 1)]
    two = [jump(0, 0x1010), jump(1, 0x1018), UNDECODABLE, put(3, 1), put(1, 7), jump(1, 0x1008), UNDECODABLE]
    before = [put(1, 1), UNDECODABLE, jump(0, 0x1004), jump(1, 0x1004), add(1, 1, 1)]
    for base in ("kset", "interval", "kset+interval", "const+interval"):
        case("open_between_others", between, [0x1000, (0, "any")], base)
        case("two_open_blocks", two, [0x1000, (0, "any"), (1, "any")], base)
        case("an_open_block_before_the_entry", before, [0x1008, (0, "any"), (1, "any")], base)
    both = [jump(0, 0x1008), jump(1, 0x1010), put(2, 1), jump(3, 0x1014), UNDECODABLE, UNDECODABLE]
    for base in ("interval", "const+interval"):
        case("both_endings", both, [0x1000, (0, "any"), (1, "any")], base, limit=5)
    for base in ("kset", "interval", "kset+interval"):
        for count in range(2, 7):
            for widen in ([1] if count == 2 else []) + [count, count + 1]:
                case(f"{count}_arrivals_widened_from_change_{widen}", arrivals(count), [0x1000, (0, "any"), (3, "0")], base, widen=widen, is_open=False)


if __name__ == "__main__":
    main()
