#!/usr/bin/env python3
"""Writes NAME.state of a program from NAME.code and NAME.entry, by the models of the instructions: program_states.py NAME_rv NAME_ppc ..

A code word is the instruction that the model assembles to just this word. The run begins with the entry at 00001000, and ends where the counter
leaves the code.

    python3 examples/cases/program_states.py examples/programs/adler32_rv examples/programs/crc32_ppc
"""
import re
import sys

sys.dont_write_bytecode = True

import make_cases
import ppc_model
import rv_model

START = 0x1000
MOST = 1000000


def bits(word, first, last, is_signed=False):
    """The field of a word from one bit to another; bit 0 is the most significant."""
    width = last - first + 1
    value = word >> (31 - last) & ((1 << width) - 1)
    return value - (1 << width) if is_signed and value >> (width - 1) else value


def ppc_forms(word):
    """Gives each mnemonic with what its operands would be in a word."""
    low = word & 0xffff
    operands = {"si": low, "ui": low, "d": low, "li": bits(word, 6, 29), "bd": bits(word, 16, 29), "aa": bits(word, 30, 30), "lk": bits(word, 31, 31),
                "mb": bits(word, 21, 25), "me": bits(word, 26, 30), "bf": bits(word, 6, 8), "bfa": bits(word, 11, 13), "fxm": bits(word, 12, 19)}
    operands.update({name: bits(word, 6, 10) for name in ("rt", "rs", "bo", "bt")})
    operands.update({name: bits(word, 11, 15) for name in ("ra", "bi", "ba")})
    operands.update({name: bits(word, 16, 20) for name in ("rb", "sh", "bb")})
    model = ppc_model
    names = [*model.D_FORMS, *model.X_FORMS, *model.CR_FORMS, "cmpi", "cmpli", "cmp", "cmpl", "b", "bc", "bclr", "bcctr", "mcrf", "mtcrf", "mfcr"]
    names += [way + name for way in ("mt", "mf") for name in model.SPR_NUMBERS]
    names += [name + rc for name in (*model.X_RC_FORMS, *model.XO_WITHOUT_OE, *model.M_FORMS) for rc in ("", ".")]
    names += [name + oe + rc for name in model.XO_FORMS for oe in ("", "o") for rc in ("", ".")]
    return [(name, operands) for name in names]


def rv_forms(word):
    """The same of RV32I."""
    registers = {"rd": bits(word, 20, 24), "rs1": bits(word, 12, 16), "rs2": bits(word, 7, 11), "sh": bits(word, 7, 11)}
    sign = bits(word, 0, 0, True)
    upper = bits(word, 0, 19)
    jump = sign << 20 | bits(word, 12, 19) << 12 | bits(word, 11, 11) << 11 | bits(word, 1, 10) << 1
    branch = sign << 12 | bits(word, 24, 24) << 11 | bits(word, 1, 6) << 5 | bits(word, 20, 23) << 1
    store = bits(word, 0, 6, True) << 5 | bits(word, 20, 24)
    of = {**{name: upper for name in ("lui", "auipc")}, "jal": jump, **{name: branch for name in rv_model.BRANCHES}, **{name: store for name in rv_model.STORES}}
    names = ["lui", "auipc", "jal", "jalr", *rv_model.BRANCHES, *rv_model.LOADS, *rv_model.STORES, *rv_model.IMMEDIATES, *rv_model.SHIFTS, *rv_model.REGISTERS]
    return [(name, {**registers, "imm": of.get(name, bits(word, 0, 11, True))}) for name in names]


MACHINES = {"ppc": (ppc_model, ppc_forms, "big"), "rv": (rv_model, rv_forms, "little")}


def instruction(isa, word):
    model, forms, _ = MACHINES[isa]
    found = [(name, operands) for name, operands in forms(word) if model.assemble(name, operands) == word]
    if len(found) != 1:
        raise SystemExit(f"{word:08x} is {[name for name, _ in found] or 'no instruction'}")
    return found[0]


def code_of(path, isa):
    with open(f"{path}.code", "rb") as it:
        held = it.read()
    order = MACHINES[isa][2]
    return {START + at: instruction(isa, int.from_bytes(held[at : at + 4], order)) for at in range(0, len(held), 4)}


def begun(path, isa):
    """The state of an entry."""
    state = MACHINES[isa][0].State()
    with open(f"{path}.entry", encoding="utf-8") as it:
        lines = [line.split() for line in it if line.strip() and not line.startswith("#")]
    for cell, value in lines:
        field, key, run = re.fullmatch(r"(\w+)(?:\[(\w+)(\.\.)?\])?", cell).groups()
        if field == "pc":
            state.pc = int(value, 16)
        elif run:
            for i, byte in enumerate(bytes.fromhex(value)):
                state.write(field, int(key, 16) + i, byte)
        else:
            state.write(field, int(key) if key.isdigit() and field != "mem" else int(key, 16) if field == "mem" else key, int(value, 16))
    return state


def final(path, isa):
    """The lines of the state in which the run ends."""
    model, code, state, steps = MACHINES[isa][0], code_of(path, isa), begun(path, isa), 0
    while state.pc in code and steps < MOST:
        model.execute(*code[state.pc], state)
        steps += 1
    return [f"# stop {'bound' if state.pc in code else 'left'} steps {steps}", *make_cases.state_lines(isa, state.pc, state.cells, False)]


def main(paths):
    for path in paths:
        lines = final(path, path.rpartition("_")[2])
        with open(f"{path}.state", "w", encoding="utf-8") as it:
            it.write("".join(line + "\n" for line in lines))


if __name__ == "__main__":
    main(sys.argv[1:])
