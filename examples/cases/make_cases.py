"""Writes the cases of both instruction sets.

usage: python3 make_cases.py [--check]

Writes, from `ppc_cases.py` and `rv_cases.py` with the expected states of `ppc_model.py` and `rv_model.py`:

- ppc.txt, rv.txt here and in data/ of the crate test_instructions: all cases and all words that are refused, a paragraph each;
- src/cases/ of the crates program_spec_powerpc and program_spec_riscv: up to four cases of each mnemonic as arrays, and the refused words.

With --check nothing is written, and the exit status is 1 where a file is not what would be written.

A paragraph is separated by an empty line and has one of two forms. `before` is an entry, `after` the state that one step
makes of it. Lines that begin with `#` stand before the first paragraph alone.

    case MNEMONIC OPERANDS          refused MNEMONIC: REASON
    word HEX                        word HEX
    the lines of `before`
    gives
    the lines of `after`
"""

import os
import sys

sys.dont_write_bytecode = True

import ppc_cases
import ppc_model
import rv_cases
import rv_model

HERE = os.path.dirname(os.path.abspath(__file__))
CRATES = os.path.join(HERE, '..', '..', 'crates')

# The fields of the state in order, with the hex digits of a value and the names of an enumeration's keys.
FIELDS = {
    'ppc': (('gpr', 8, None), ('cr', 1, None), ('xer', 1, ('SO', 'OV', 'CA')), ('spr', 8, ('LR', 'CTR', 'XCOUNT')), ('mem', 2, None)),
    'rv': (('x', 8, None), ('mem', 2, None)),
}

TITLES = {'ppc': 'the PowerPC specification', 'rv': 'the RV32I specification'}

# The modules of the arrays: a name, what it has, and its mnemonics.
PPC_GROUPS = (
    ('branches', 'Branches.', 'b bc bclr bcctr'),
    ('condition', 'The condition register, and comparisons.',
     'crand cror crxor crnand crnor creqv crandc crorc mcrf cmpi cmp cmpli cmpl mtcrf mfcr'),
    ('loads', 'Loads.',
     'lbz lbzx lbzu lbzux lhz lhzx lhzu lhzux lha lhax lhau lhaux lwz lwzx lwzu lwzux lhbrx lwbrx lmw'),
    ('stores', 'Stores.', 'stb stbx stbu stbux sth sthx sthu sthux stw stwx stwu stwux sthbrx stwbrx stmw'),
    ('sums', 'Sums and differences without a carry in.', 'addi addis addic addic. subfic '
     + ' '.join(n + e for n in ('add', 'subf', 'addc', 'subfc', 'neg') for e in ('', '.', 'o', 'o.'))),
    ('extended', 'Sums and differences with a carry in.',
     ' '.join(n + e for n in ('adde', 'subfe', 'addme', 'subfme', 'addze', 'subfze') for e in ('', '.', 'o', 'o.'))),
    ('products', 'Products and quotients.', 'mulli mulhw mulhw. mulhwu mulhwu. '
     + ' '.join(n + e for n in ('mullw', 'divw', 'divwu') for e in ('', '.', 'o', 'o.'))),
    ('logical', 'Logical operations.', 'andi. andis. ori oris xori xoris ' + ' '.join(
        n + e for n in ('and', 'or', 'xor', 'nand', 'nor', 'eqv', 'andc', 'orc', 'extsb', 'extsh', 'cntlzw') for e in ('', '.'))),
    ('shifts', 'Rotations and shifts.',
     ' '.join(n + e for n in ('rlwinm', 'rlwnm', 'rlwimi', 'slw', 'srw', 'srawi', 'sraw') for e in ('', '.'))),
    ('registers', 'Moves to and from special purpose registers.', 'mtxer mtlr mtctr mfxer mflr mfctr'),
)
RV_GROUPS = (
    ('jumps', 'Upper immediates, jumps and branches.', 'lui auipc jal jalr beq bne blt bge bltu bgeu'),
    ('memory', 'Loads and stores.', 'lb lh lw lbu lhu sb sh sw'),
    ('immediates', 'Arithmetic on a register and an immediate.', 'addi slti sltiu xori ori andi slli srli srai'),
    ('registers', 'Arithmetic on two registers.', 'add sub sll slt sltu xor srl sra or and'),
)

# How many cases of a mnemonic stand in its array; 4 where nothing is said.
MOST = {'bc': 24, 'bclr': 12, 'bcctr': 6, 'mtcrf': 10, 'sraw': 6, 'b': 6}


def state_lines(isa, pc, cells, zeros):
    """An entry, with the cells that are 0, or a state, without them."""
    lines = ['pc %08x' % pc]
    for field, digits, names in FIELDS[isa]:
        keys = sorted((k for n, k in cells if n == field), key=names.index if names else None)
        for key in keys:
            value = cells[(field, key)]
            if value or zeros:
                shown = '%08x' % key if field == 'mem' else str(key)
                lines.append('%s[%s] %0*x' % (field, shown, digits, value))
    return lines


def worked(isa, model, mnemonic, item):
    """Title, word, entry and state of a case."""
    operands, cells, pc = item
    state = model.State(pc)
    state.cells = dict(cells)
    model.execute(mnemonic, operands, state)
    title = ' '.join([mnemonic] + ['%s=%d' % pair for pair in operands.items()])
    return title, model.assemble(mnemonic, operands), state_lines(isa, pc, cells, True), state_lines(isa, state.pc, state.cells, False)


def text_of(isa, model, cases):
    out = ['# The cases of %s, written by make_cases.py.' % TITLES[isa]]
    for mnemonic, items in cases.CASES.items():
        for item in items:
            title, word, before, after = worked(isa, model, mnemonic, item)
            out += ['', 'case ' + title, 'word %08x' % word] + before + ['gives'] + after
    for word, why in cases.REFUSED:
        out += ['', 'refused ' + why, 'word %08x' % word]
    return '\n'.join(out) + '\n'


def array_name(mnemonic):
    plain, oe, _ = ppc_model.plain(mnemonic)
    return plain.rstrip('.').upper() + ('_OE' if oe else '') + ('_RC' if mnemonic.endswith('.') else '')


def chosen(mnemonic, items):
    """At most as many as its array takes, evenly from the first to the last."""
    most = MOST.get(mnemonic, 4)
    if len(items) <= most:
        return items
    return [items[i * (len(items) - 1) // (most - 1)] for i in range(most)]


def literal(lines):
    return '"' + ''.join(line + '\\n' for line in lines) + '"'


def array_module(isa, model, cases, title, mnemonics):
    out = ['//! %s' % title, '', 'use crate::Case;']
    for mnemonic in mnemonics:
        items = chosen(mnemonic, cases.CASES[mnemonic])
        out += ['', '/// Cases of `%s`.' % mnemonic, 'pub const %s: [Case; %d] = [' % (array_name(mnemonic), len(items))]
        for item in items:
            _, word, before, after = worked(isa, model, mnemonic, item)
            out += ['    Case {', '        word: 0x%04x_%04x,' % (word >> 16, word & 0xffff),
                    '        before: %s,' % literal(before), '        after: %s,' % literal(after), '    },']
        out.append('];')
    return '\n'.join(out) + '\n'


def refused_module(cases):
    out = ['//! Words that are no instruction.', '',
           '/// For each guard and each reserved bit a word that it refuses, and words of instructions that are left out.',
           'pub const REFUSED: [u32; %d] = [' % len(cases.REFUSED)]
    for word, why in cases.REFUSED:
        out.append('    0x%04x_%04x, // %s' % (word >> 16, word & 0xffff, why))
    out.append('];')
    return '\n'.join(out) + '\n'


def files():
    """All files that are written, by path."""
    made = {}
    for isa, model, cases, groups in (('ppc', ppc_model, ppc_cases, PPC_GROUPS), ('rv', rv_model, rv_cases, RV_GROUPS)):
        for folder in (HERE, os.path.join(CRATES, 'test_instructions', 'data')):
            made[os.path.join(folder, isa + '.txt')] = text_of(isa, model, cases)
        folder = os.path.join(CRATES, isa + '_spec', 'src', 'cases')
        named = [n for _, _, mnemonics in groups for n in mnemonics.split()]
        assert sorted(named) == sorted(cases.CASES), set(named) ^ set(cases.CASES)
        for name, title, mnemonics in groups:
            made[os.path.join(folder, name + '.rt')] = array_module(isa, model, cases, title, mnemonics.split())
        made[os.path.join(folder, 'refused.rt')] = refused_module(cases)
    return made


def main():
    stale = []
    for path, text in files().items():
        if '--check' in sys.argv:
            with open(path) as f:
                if f.read() != text:
                    stale.append(path)
        else:
            os.makedirs(os.path.dirname(path), exist_ok=True)
            with open(path, 'w') as f:
                f.write(text)
    for path in stale:
        print('not as written: ' + os.path.relpath(path))
    return 1 if stale else 0


if __name__ == '__main__':
    sys.exit(main())
