#!/usr/bin/env python3
"""Writes crates/test_program/data/strided.cases: what the commands give over `strides`, alone, with `affine` and with `defuse`.

What is wanted comes from the models in mini_model.py and mini_checks.py; over affine relations the rows are written here by hand, and so are tables of
words of other widths.

usage: strided_cases.py > crates/test_program/data/strided.cases
"""
from open_blocks import START, add, jump, put
from open_checks import ANY, DATA, Subject, changed, closed, told, widened
from stress_cases import outcome

NAMES = ("strides", "strides+affine", "strides+defuse")
# register 1 counts by register 2, from itself, to the end of the code or round again
BY_FOUR = [put(2, 4), add(1, 1, 2), jump(0, 0x1004)]
BY_SIX = [put(1, 1), put(2, 6), add(1, 1, 2), jump(0, 0x1008)]
BY_FOUR_OR_SIX = [put(2, 4), put(3, 6), jump(0, 0x1010), add(1, 1, 2), add(1, 1, 3), jump(0, 0x1008)]
SUMS = [add(2, 0, 1), add(3, 2, 2), jump(1, START)]
TESTS = [jump(1, 0x1008), put(2, 1), put(3, 1)]


def arrivals(numbers):
    """A code in which an element comes to one address for each of these numbers, one after another, with the number in register 1."""
    last = START + 12 * (len(numbers) - 1) + 4
    code = [word for i, number in enumerate(numbers[:-1]) for word in (put(1, number), jump(0, START + 12 * (i + 1)), jump(3, last))]
    return [*code, put(1, numbers[-1]), add(2, 1, 1)]


def raw(name, words, inputs, status, wanted):
    print(f"\ncase {name}\nwords {words}")
    for key, lines in inputs:
        print(f"input {key}\n" + "\n".join(lines))
    print(f"status {status}\n" + "\n".join("| " + line for line in wanted))


def analysis(name, code, cells, base="strides", limit=64, widen=4):
    """The case of an analysis, and its subject."""
    it = Subject(name, code, cells, base, limit, widen=widen)
    status, lines = it.model.analyse(START, it.model.entry(cells), False)
    words = f"analyse s c e --at {START:08x} --base {base}" + (f" --limit {limit}" if limit != 64 else "") + (f" --widen {widen}" if widen != 4 else "")
    entry = [f"| pc {START:x}", *(f"| r[{key}] {text}" for key, text in cells)]
    inputs = [("s", ["use MINI"]), ("c", ["hex " + "".join(f"{word:08x}" for word in code)]), ("e", entry)]
    raw(f"an_analysis_{it.name}", words, inputs, status, (it.head if status == 0 else []) + lines)
    return it


def analyses():
    for base in ("strides", "strides+defuse"):
        analysis("counts_by_four", BY_FOUR, ANY, base)
        analysis("counts_by_six", BY_SIX, ANY, base)
        analysis("sums_of_ranges", SUMS, [(0, "4..40"), (1, "10")], base)
    analysis("counts_by_four_or_six", BY_FOUR_OR_SIX, ANY)
    analysis("counts_down_from_many", [add(1, 1, 0), jump(3, START)], [(0, "fffffffc"), (1, "100..140"), (3, "0")])
    analysis("sums_that_both_pass_the_greatest_word", SUMS, [(0, "ffffffc0..ffffffff"), (1, "ffffffc0..ffffffff")])
    analysis("sums_of_which_some_pass_the_greatest_word", SUMS, [(0, "ffffffc0..ffffffff"), (1, "0..ff")])
    analysis("a_range_of_16_numbers", SUMS, [(0, "4..13"), (1, "1")])
    analysis("a_range_of_17_numbers", SUMS, [(0, "4..14"), (1, "1")])
    analysis("all_others_in_a_range", [add(0, 1, 2), jump(0, START)], [("*", "1..20"), (2, "10")])
    analysis("many_numbers_without_0", TESTS, [(1, "1..100")])
    analysis("many_numbers_with_0", TESTS, [(1, "0..100")])
    analysis("too_many_targets", TESTS, [(1, "0..100")], limit=1)
    for count, step in ((15, 4), (16, 4), (17, 4), (17, 1)):
        numbers = [4 + step * i for i in range(count)]
        for widen in (4, 64):
            analysis(f"{count}_arrivals_by_{step}_widened_from_change_{widen}", arrivals(numbers), [*ANY, (3, "0")], widen=widen)
    analysis("arrivals_that_break_the_step", arrivals([8 * i for i in range(17)] + [12, 13]), [*ANY, (3, "0")], widen=64)
    analysis("arrivals_below", arrivals([0x100 + 8 * i for i in range(17)] + [0x80]), [*ANY, (3, "0")])


def tables():
    """Checks, slices, claims and conversions of tables with strided intervals."""
    for base in ("strides", "strides+defuse"):
        it = Subject("counts", BY_FOUR, ANY, base)
        it.check("a_check", False)
        shown = next(line for line in it.lines if "+00000004" in line)
        cell = shown.partition(" ")[0]
        origin = shown.partition(" from")[2]
        for name, word in (("a_step_that_divides", "00000000..fffffffe+00000002"), ("a_step_that_does_not", "00000000..fffffff8+00000008"), ("an_end_less", "00000000..fffffff8+00000004"),
                           ("an_interval", "00000000..fffffffc"), ("any_number", "any"), ("a_set", "{00000000,00000004}")):
            lines = [f"{cell} {word}" + (f" from{origin}" if origin else "") if line == shown else line for line in it.lines]
            it.check(name, False, lines)
        it.claims("claims", [f"1008 r[1] {claim}" for claim in ("in 0..fffffffc", "in 0..fffffffb", "in 4..ffffffff", "!= 2", "!= 8", "!= ffffffff")] + ["1004 r[2] in 4..4", "1000 never"], False)
        it.convert("a_conversion")
        if "defuse" in base:
            it.slice("a_slice", 0x1004, 1, False)
            it.slice("a_slice_of_all", 0x1004, None, False)
    many = Subject("arrivals", arrivals([4 * i for i in range(17)]), [*ANY, (3, "0")], "strides", widen=64)
    many.check("a_check", False)
    last = START + 12 * 16 + 4
    many.claims("claims", [f"{last:x} r[1] {claim}" for claim in ("in 0..40", "in 0..3f", "in 1..40", "!= 3", "!= 40", "!= 44")], False)


def no_words():
    """Texts that are no words of strides."""
    it = Subject("no_word", BY_FOUR, ANY, "strides")
    number = next(i for i, line in enumerate(it.lines) if "+00000004" in line)
    cell = it.lines[number].partition(" ")[0]
    seventeen = "{" + ",".join(f"{4 * i:08x}" for i in range(17)) + "}"
    for name, word in (("a_step_of_1", "00000000..00000040+00000001"), ("a_step_of_0", "00000000..00000040+00000000"), ("16_numbers", "00000000..0000003c+00000004"), ("16_numbers_of_step_1", "00000000..0000000f"),
                       ("an_end_of_another_class", "00000000..00000041+00000004"), ("all_numbers", "00000000..ffffffff"), ("ends_out_of_order", "00000040..00000000+00000004"), ("a_short_step", "00000000..00000040+4"),
                       ("a_long_step", "00000000..00000040+000000004"), ("no_step", "00000000..00000040+"), ("two_steps", "00000000..00000040+00000004+00000004"), ("great_letters", "00000000..0000004C+00000004"),
                       ("a_short_end", "00000000..40+00000004"), ("seventeen_numbers", seventeen), ("no_numbers", "{}"), ("known_bits", "00000000/00000040"), ("another_mark", "00000000..00000040-00000004")):
        it.case(name, it.words("check s c e t", False), 8, [f"table {number + 5} X1"], it.lines[:number] + [f"{cell} {word}"] + it.lines[number + 1:])
    it.case("a_note", it.words("check s c e t", False), 8, [f"table {number + 5} X1"], it.lines[:number] + [it.lines[number] + " from entry"] + it.lines[number + 1:])


def relations():
    """With affine relations: register 0 is one of many numbers, register 1 is 16, and two sums of them."""
    code = [add(2, 0, 1), add(3, 2, 2), jump(1, START)]
    head = ["tsl-table 2", "base strides+affine", "order big", "code 00001000 12"]
    cells = [["r[*] {00000000}", "r[0] 00000004..00000040", "r[1] {00000010}"]]
    cells.append([*cells[0], "r[2] 00000014..00000050", "r[3] {00000000}"])
    cells.append([*cells[1][:-1], "r[3] 00000028..000000a0"])
    rows = [["row 00000000 00000001 00000000 00000000 00000000", "row 00000001 00000000 00000010 00000000 00000000"],
            ["row 00000000 00000001 00000000 00000001 00000000", "row 00000001 00000000 00000010 00000010 00000000"],
            ["row 00000000 00000001 00000000 00000001 00000002", "row 00000001 00000000 00000010 00000010 00000020"]]
    ways = ["next 00001004", "next 00001008", "exit 0000100c"]
    table = [line for i in range(3) for line in (f"at {START + 4 * i:08x}", "part strides", *cells[i], "part affine", *rows[i], ways[i])]
    texts = [("s", ["use MINI"]), ("c", ["hex " + "".join(f"{word:08x}" for word in code)]), ("e", ["| pc 1000", "| r[0] 4..40", "| r[1] 10"])]
    shown = ("t", ["| " + line for line in head + table])
    words = f"--at {START:08x} --base strides+affine"
    raw("an_analysis_with_relations", f"analyse s c e {words}", texts, 0, head + table)
    raw("a_check_with_relations", f"check s c e t {words}", [*texts, shown], 0, ["accepted"])
    other = [line.replace("row 00000000 00000001 00000000 00000001 00000002", "row 00000005 00000001 00000050 00000051 000000a2") for line in table]
    raw("other_rows", f"check s c e t {words}", [*texts, ("t", ["| " + line for line in head + other])], 0, ["accepted"])
    less = [line.replace("r[2] 00000014..00000050", "r[2] 00000014..0000004f") for line in table]
    raw("a_number_less_with_relations", f"check s c e t {words}", [*texts, ("t", ["| " + line for line in head + less])], 1, ["rejected open 00001000 00001004"])
    raw("a_conversion_with_relations", f"convert s c t {words}", [*texts[:2], shown], 0, head + table)
    claims = [("1008 eq 1*r[2] ffffffff*r[0] ffffffff*r[1]", "yes"), ("1008 eq 1*r[3] fffffffe*r[2]", "yes"), ("1008 eq 1*r[2] ffffffff*r[0]", "open"), ("1008 r[3] in 28..a0", "yes"), ("1008 r[3] in 28..9f", "open"),
              ("1008 r[2] != 51", "yes"), ("1008 r[2] != 50", "open")]
    raw("claims_with_relations", f"claims s c e t k {words}", [*texts, shown, ("k", ["| " + line for line, _ in claims])], 0, [answer for _, answer in claims])


def widths():
    """Words of 1 and of 4 bits: all of their numbers are a set; and 17 numbers of 5 bits are none."""
    machine = ["| type State = State(pc: INT32, a: INT1, b: INT4, c: INT5, d: INT64);", "| type Instr = Go(t: INT32);",
               "| fun interpInstr(i: Instr, s: State) -> State = match s with { State(pc, a, b, c, d) => match i with { Go(t) => State(t, a, b, c, d); }; };", "| decode { [t:32] => Go(t); }"]
    of_four = "{" + ",".join(f"{i:x}" for i in range(16)) + "}"
    for name, cells, shown in (("any_numbers", ["a any", "b any", "c any", "d any"], ["a {0,1}", f"b {of_four}", "c any", "d any"]),
                               ("ranges", ["a 0..1", "b 1..f", "c 1..11", "d 0..10"], ["a {0,1}", "b " + of_four.replace("0,", "", 1), "c 01..11", "d 0000000000000000..0000000000000010"])):
        head = ["tsl-table 2", "base strides", "order big", "code 00000000 4"]
        table = ["at 00000000", "part strides", *shown, "exit 00000004"]
        texts = [("s", machine), ("c", ["hex 00000004"]), ("e", ["| pc 0", *("| " + line for line in cells)])]
        raw(f"{name}_of_other_widths", "analyse s c e --base strides", texts, 0, head + table)
        raw(f"{name}_of_other_widths_back", "check s c e t --base strides", [*texts, ("t", ["| " + line for line in head + table])], 0, ["accepted"])
    for name, old, new in (("any_of_4_bits", f"b {of_four}", "b any"), ("a_set_of_5_bits_with_a_stretch", "c any", "c 00..1f"), ("digits_of_5_bits", "c any", "c 1..11")):
        table = ["at 00000000", "part strides", "a {0,1}", f"b {of_four}", "c any", "d any", "exit 00000004"]
        number = table.index(old)
        texts = [("s", machine), ("c", ["hex 00000004"]), ("e", ["| pc 0", "| a any", "| b any", "| c any", "| d any"])]
        lines = ["tsl-table 2", "base strides", "order big", "code 00000000 4", *table[:number], new, *table[number + 1:]]
        raw(f"{name}_is_no_word", "check s c e t --base strides", [*texts, ("t", ["| " + line for line in lines])], 8, [f"table {number + 5} X1"])


def words():
    """The words of the commands."""
    print("\n# The words of the commands. Where they have their form, the first input is missing: nothing is held.")
    for base in NAMES:
        told_as = base.replace("+", "_and_")
        for command, names in (("analyse", "s c e"), ("check", "s c e t"), ("convert", "s c t"), ("claims", "s c e t k"), ("slice", "s c e t 1000 r[1]")):
            bad = command == "slice" and "defuse" not in base
            raw(f"{command}_with_the_base_{told_as}", f"{command} {names} --base {base}", [], *((2, ["bad words"]) if bad else (3, ["cannot read s"])))
    for base in ("strides+interval", "strides+kset", "strides+bits", "kset+strides", "affine+strides", "defuse+strides", "strides+strides", "STRIDES", "stride"):
        raw("no_base_" + base.replace("+", "_and_"), f"analyse s c e --base {base}", [], 2, ["bad words"])
    for base in NAMES:
        for number, count in ((7, 1), (12345, 60)):
            raw(f"stress_of_{count}_words_over_{base.replace('+', '_and_')}", f"stress {number} {count} --base {base}", [], *outcome(number, count, base.replace("strides", "kset")))


def main():
    text = open(DATA, encoding="utf-8").read()
    print("# Sets and strided intervals, alone, with affine relations and with definitions. Made by examples/cases/strided_cases.py.\n")
    print(text[text.index("given MINI"):].split("\n\n")[0])
    analyses()
    tables()
    no_words()
    relations()
    widths()
    for base in ("strides", "strides+defuse"):
        told(base)
        closed(base)
    widened("strides")
    changed("strides")
    words()


if __name__ == "__main__":
    main()
