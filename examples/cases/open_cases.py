#!/usr/bin/env python3
"""Writes crates/test_program/data/open_tables.cases: tables that are left open, and the words that ask for them.

What is wanted is made from the stored cases of closed analyses, and not by the program. Where the last instruction of a way leads out of the
code alone, its word is replaced by one without decoding. Nothing before it changes, since an element is the state before its instruction. So
the table is the stored one but for this block, which loses its uses and its exits and ends in `undecodable`. A return to any address is the
one instruction of its code. So its table is one block with the element of the entry, and ends in the word that the stored refusal names. Over
affine relations the one instruction is a branch that is not decided, and its table is written here by hand.

usage: open_cases.py > crates/test_program/data/open_tables.cases
"""
import os
import re

DATA = os.path.join(os.path.dirname(os.path.abspath(__file__)), "../../crates/test_program/data/analyses.cases")
UNDECODABLE = "ffffffff"


def read():
    """Returns the given texts and the cases, each as its lines."""
    given, cases, block = [], [], None
    for line in open(DATA, encoding="utf-8"):
        line = line.rstrip("\n")
        if line.startswith(("given ", "case ")):
            block = [line]
            (given if line.startswith("given ") else cases).append(block)
        elif line and not line.startswith("#") and block is not None:
            block.append(line)
    return given, cases


def parts(case):
    """Returns the name, the words, the inputs and the answer of a case."""
    name, words, inputs, status, wanted, at = case[0][5:], None, {}, None, [], None
    for line in case[1:]:
        if line.startswith("words "):
            words = line[6:].split(" ")
        elif line.startswith("input "):
            at = inputs.setdefault(line[6:], [])
        elif line.startswith("status "):
            status, at = int(line[7:]), wanted
        elif at is not None:
            at.append(line)
        else:
            return None
    return name, words, inputs, status, wanted


def blocks_of(lines):
    """Returns the head of a table and its blocks."""
    head, blocks = [], []
    for line in lines:
        if line.startswith("| at "):
            blocks.append([])
        (blocks[-1] if blocks else head).append(line)
    return head, blocks


def case(name, words, inputs, status, wanted):
    lines = [f"case {name}", "words " + " ".join(words)]
    for key, held in inputs.items():
        lines += [f"input {key}", *held]
    print("\n".join([*lines, f"status {status}", *wanted]) + "\n")


def with_word(held, index, word):
    """Returns the lines of an input of hex digits with another code word."""
    digits = "".join(line[4:] for line in held)
    return ["hex " + digits[:8 * index] + word + digits[8 * index + 8:]]


def without_decoding(name, words, inputs, wanted):
    """Writes the case in which the last block that leads out of the code alone has a word without decoding."""
    head, blocks = blocks_of(wanted)
    code = [line for line in head if line.startswith("| code ")]
    if len(code) != 1 or not all(line.startswith("hex ") for line in inputs["c"]):
        return False
    base = int(code[0].split()[2], 16)
    for block in reversed(blocks):
        if any(line.startswith("| exit ") for line in block) and not any(line.startswith("| next ") for line in block):
            at = int(block[0].split()[2], 16)
            element = [line for line in block if not line.startswith(("| use ", "| exit "))]
            others = [element + [f"| undecodable {UNDECODABLE}"] if other is block else other for other in blocks]
            new = {**inputs, "c": with_word(inputs["c"], (at - base) // 4, UNDECODABLE)}
            case(f"open_at_a_word_without_decoding_{name}", [*words, "--open"], new, 0, head + [line for other in others for line in other])
            return True
    return False


CELLS = {
    "const": ("{00000000}", "{0}", "{00}", "any", ""), "kset": ("{00000000}", "{0}", "{00}", "any", ""),
    "interval": ("00000000..00000000", "0..0", "00..00", "any", ""), "bits": ("00000000/00000000", "0/0", "00/00", "any", ""),
    "defuse": ("{00000000}", "{0}", "{00}", "any", " from entry"),
}


def entry_of(part):
    """Returns the lines of the entry's element over a base, where the link register is any number."""
    word, bit, byte, any_word, stamp = CELLS[part]
    cells = [f"gpr[*] {word}", f"cr[*] {bit}", f"xer[*] {bit}", f"spr[*] {word}", f"spr[LR] {any_word}", f"mem[*] {byte}"]
    return [f"| part {part}"] + [f"| {cell}{stamp}" for cell in cells]


def any_return(words, inputs, wanted):
    """Writes the case of a return to any address, over a base whose elements are cells."""
    base = words[words.index("--base") + 1]
    if "affine" in base:
        return
    shown = wanted[0].split(" ", 3)[3]
    element = [line for part in base.split("+") for line in entry_of(part)]
    uses = ["| use spr[LR] from entry"] if "defuse" in base else []
    table = ["| tsl-table 2", f"| base {base}", "| order big", "| code 00001000 4", "| at 00001000", *element, *uses, f"| open {shown}"]
    case(f"open_at_any_return_address_over_{base.replace('+', '_and_')}", [*words, "--open"], inputs, 0, table)


# What the parts beside relations say of the entry's registers, of which 0 is any number.
BESIDE = {"kset": ["r[*] {00000000}", "r[0] any"], "interval": ["r[*] 00000000..00000000", "r[0] any"], "defuse": ["r[*] {00000000} from entry", "r[0] any from entry"]}
ROWS = ["row 00000000 00000001 00000000 00000000 00000000", "row 00000001 00000000 00000000 00000000 00000000"]


def any_branch(base, shown, limit=()):
    """Writes the case of a branch to 2000 or 1004 over a base with relations, where register 0 is any number."""
    element = [line for part in base.split("+") for line in [f"part {part}", *(ROWS if part == "affine" else BESIDE[part])]]
    uses = ["use r[0] from entry"] if "defuse" in base else []
    table = ["tsl-table 2", f"base {base}", "order big", "code 00001000 4", "at 00001000", *element, *uses, f"open {shown}"]
    words = ["analyse", "s", "c", "e", "--at", "00001000", "--base", base, *limit, "--open"]
    inputs = {"s": ["use MINI"], "c": ["hex 03002000"], "e": ["| pc 00001000", "| r[0] any"]}
    case(f"open_at_a_branch_over_{base.replace('+', '_and_')}", words, inputs, 0, [f"| {line}" for line in table])


def main():
    given, cases = read()
    print("# Tables that are left open, and the words that ask for them. Made by examples/cases/open_cases.py.\n")
    for text in given:
        if text[0] in ("given MINI", "given WAYS"):
            print("\n".join(text) + "\n")
    closed = {}
    for it in map(parts, cases):
        if it is None or it[1][0] != "analyse" or set(it[2]) - {"s", "c", "e"}:
            continue
        name, words, inputs, status, wanted = it
        base = words[words.index("--base") + 1] if "--base" in words else "kset+interval"
        if status == 0 and inputs.get("s") in (["use MINI"], ["use WAYS"]) and re.match(r"\| tsl-table 2$", wanted[0]):
            if without_decoding(name, words, inputs, wanted) and base not in closed:
                closed[base] = it
        if status == 10 and name.startswith("any_return_address_over_") and "--base" in words:
            any_return(words, inputs, wanted)
    any_branch("affine", "any")
    any_branch("kset+affine", "{00001004,00002000} any", ["--limit", "1"])
    any_branch("interval+affine", "00001004..00002000 any")
    any_branch("affine+defuse", "any any")
    for base, (name, words, inputs, status, wanted) in closed.items():
        case(f"nothing_is_open_{name}", [*words, "--open"], inputs, 0, wanted)
        case(f"as_without_widen_{name}", [*words, "--widen", "4"], inputs, 0, wanted)
        case(f"as_with_the_greatest_widen_{name}", [*words, "--widen", "64"], inputs, 0, wanted)
    name, words, inputs, status, wanted = next(iter(closed.values()))
    for number, more in enumerate((["--open=x"], ["--open", "x"], ["--open", "--open"], ["--widen", "0"], ["--widen", "65"], ["--widen", "064"], ["--widen", "4", "--widen", "5"])):
        case(f"no_words_of_an_open_analysis_{number}", [*words, *more], inputs, 2, ["| bad words"])
    of_tables = ("check s c e t", "slice s c e t 1000 r[1] --base defuse", "claims s c e t k")
    for command in (*of_tables, "convert s c t", "emulate s c e", "list s c", "call s f"):
        for option in (["--open"], ["--widen", "4"]):
            if command in of_tables and option == ["--open"]:
                case(f"{command.split()[0]}_takes_open", [*command.split(), *option], {}, 3, ["| cannot read s"])
            else:
                case(f"{command.split()[0]}_takes_no_{option[0][2:]}", [*command.split(), *option], {}, 2, ["| bad words"])
    for command in of_tables:
        for number, more in enumerate((["--open=x"], ["--open", "x"], ["--open", "--open"], ["--open", "--widen", "4"])):
            case(f"no_words_of_an_open_{command.split()[0]}_{number}", [*command.split(), *more], {}, 2, ["| bad words"])


main()
