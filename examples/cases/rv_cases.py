"""The cases of the RV32I specification: instructions, and the cells that are given before them.

Each is one instruction at address 00001000. The corners are chosen by hand; expected states come from `rv_model.py`.
`CASES` has a list for each mnemonic, `REFUSED` words that are no instruction, with the reason.
"""

from rv_model import BRANCHES, REGISTERS, assemble

CASES = {}


def case(mnemonic, operands, x=None, mem=None, pc=0x1000):
    """x: numbers by register; mem: bytes by first address."""
    cells = {}
    for r, v in (x or {}).items():
        cells[('x', r)] = v
    for at, run in (mem or {}).items():
        for i, v in enumerate(bytes.fromhex(run)):
            cells[('mem', (at + i) & 0xffffffff)] = v
    CASES.setdefault(mnemonic, []).append((operands, cells, pc))


def o(**operands):
    return operands


for name in ('lui', 'auipc'):
    case(name, o(rd=5, imm=0x12345))
    case(name, o(rd=31, imm=0xfffff), x={31: 7})
    case(name, o(rd=1, imm=0x80000), pc=0x80000ffc)
    case(name, o(rd=0, imm=0x12345), x={1: 1})
    case(name, o(rd=6, imm=0))

for imm in (8, -4, 0x800, -0x800, 0x7fe, 0xff000, -0x100000, 0xffffe):
    case('jal', o(rd=1, imm=imm), x={1: 9})
case('jal', o(rd=0, imm=2), x={1: 9})
case('jal', o(rd=31, imm=4), pc=0xfffffffc)
for rd, rs1, imm, a in ((1, 5, 0, 0x2000), (1, 5, 1, 0x2000), (5, 5, -4, 0x2003), (0, 1, 0, 0x44), (1, 0, 0x7ff, 0), (1, 0, -0x800, 0),
                        (31, 31, 2047, 0xffffffff)):
    case('jalr', o(rd=rd, rs1=rs1, imm=imm), x={rs1: a} if rs1 else {})
case('jalr', o(rd=1, rs1=2, imm=0), x={2: 0x3001}, pc=0xfffffffc)

# Register 0 is the number 0, also where the entry gives its cell another number.
ZERO = {0: 0x5a5a5a5a}
PAIRS = ((5, 5), (1, 2), (2, 1), (0xffffffff, 0), (0x7fffffff, 0x80000000), (0x80000000, 0x7fffffff), (0xffffffff, 0xffffffff))
TAKEN = {'beq': (7, 7), 'bne': (7, 8), 'blt': (0xffffffff, 1), 'bge': (1, 0xffffffff), 'bltu': (1, 0xffffffff), 'bgeu': (0xffffffff, 1)}
for name in BRANCHES:
    for i, (a, b) in enumerate(PAIRS):
        rs1 = (3, 31)[i % 2]
        case(name, o(rs1=rs1, rs2=4, imm=(16, -16)[i % 2]), x={rs1: a, 4: b})
    for imm in (2, 0x1e, 0x20, 0x400, 0x7e0, 0x800, 0xffe, -2, -0x800, -0x1000):
        a, b = TAKEN[name]
        case(name, o(rs1=3, rs2=4, imm=imm), x={3: a, 4: b})
    for rs1, rs2, cells in ((0, 1, {1: 1}), (0, 1, {1: 0}), (1, 0, {1: 0}), (1, 0, {1: 0xffffffff}), (1, 0, {1: 5}), (0, 0, {})):
        case(name, o(rs1=rs1, rs2=rs2, imm=0x400), x={**ZERO, **cells})
    case(name, o(rs1=3, rs2=3, imm=-8), x={3: 7}, pc=0)

for name in ('lb', 'lh', 'lw', 'lbu', 'lhu'):
    case(name, o(rd=5, rs1=6, imm=4), x={6: 0x2000}, mem={0x2004: '7f80818203'})
    case(name, o(rd=6, rs1=6, imm=-0x800), x={6: 0x2800}, mem={0x2000: '80ff7e01'})
    case(name, o(rd=31, rs1=0, imm=0x7ff), x={**ZERO, 31: 5}, mem={0x7ff: 'fe7f8081'})
    case(name, o(rd=1, rs1=1, imm=-1), x={1: 0}, mem={0xffffffff: '81', 0: '028384'})
    case(name, o(rd=0, rs1=6, imm=0), x={**ZERO, 6: 0x2000}, mem={0x2000: '01020304'})

for name in ('sb', 'sh', 'sw'):
    case(name, o(rs1=6, rs2=5, imm=4), x={6: 0x2000, 5: 0x12345678}, mem={0x2003: 'ffffffffffff'})
    case(name, o(rs1=6, rs2=6, imm=-0x800), x={6: 0x2800})
    case(name, o(rs1=0, rs2=31, imm=0x7ff), x={**ZERO, 31: 0xfedcba98})
    case(name, o(rs1=1, rs2=0, imm=-1), x={**ZERO, 1: 0}, mem={0xffffffff: '11', 0: '22334455'})
    case(name, o(rs1=5, rs2=1, imm=31), x={5: 0xffffffe0, 1: 0xa1b2c3d4})
    case(name, o(rs1=1, rs2=2, imm=0x20), x={1: 0x3000, 2: 0xfafbfcfd})

for name in ('addi', 'slti', 'sltiu', 'xori', 'ori', 'andi'):
    for i, (a, imm) in enumerate(((5, 7), (0xffffffff, 1), (0x7fffffff, -1), (0x80000000, 0x7ff), (0xfffff800, -0x800), (7, 7))):
        case(name, o(rd=(5, 6, 31)[i % 3], rs1=6, imm=imm), x={6: a, 5: 9})
    case(name, o(rd=5, rs1=0, imm=-1), x={**ZERO, 5: 3})
    case(name, o(rd=5, rs1=0, imm=1), x={**ZERO, 5: 3})
    case(name, o(rd=5, rs1=0, imm=0), x={**ZERO, 5: 3})
    case(name, o(rd=1, rs1=1, imm=3), x={1: 2})
    case(name, o(rd=0, rs1=6, imm=5), x={6: 3})
for name in ('slli', 'srli', 'srai'):
    for i, sh in enumerate((0, 1, 4, 16, 31)):
        case(name, o(rd=(5, 6)[i % 2], rs1=6, sh=sh), x={6: 0x89abcdef, 5: 9})
    case(name, o(rd=5, rs1=6, sh=30), x={6: 0x7fffffff})
    case(name, o(rd=5, rs1=0, sh=0), x={**ZERO, 5: 3})
    case(name, o(rd=1, rs1=1, sh=3), x={1: 0xff})
    case(name, o(rd=0, rs1=6, sh=3), x={6: 0x37})

for name in REGISTERS:
    if name in ('sll', 'srl', 'sra'):
        for i, n in enumerate((0, 1, 31, 32, 63, 0xffffffe4)):
            case(name, o(rd=(5, 6, 7)[i % 3], rs1=6, rs2=7), x={6: 0x89abcdef, 7: n, 5: 9})
        case(name, o(rd=5, rs1=6, rs2=7), x={6: 0x7fffffff, 7: 30})
    else:
        for i, (a, b) in enumerate(PAIRS + ((0x0ff0cc33, 0x3c5aaa55),)):
            case(name, o(rd=(5, 6, 7)[i % 3], rs1=6, rs2=7), x={6: a, 7: b, 5: 9})
    case(name, o(rd=5, rs1=0, rs2=1), x={**ZERO, 1: 3, 5: 9})
    case(name, o(rd=5, rs1=0, rs2=1), x={**ZERO, 1: 1, 5: 9})
    case(name, o(rd=5, rs1=0, rs2=1), x={**ZERO, 1: 0, 5: 9})
    case(name, o(rd=5, rs1=1, rs2=0), x={**ZERO, 1: 0xf0000013, 5: 9})
    case(name, o(rd=5, rs1=1, rs2=0), x={**ZERO, 1: 0, 5: 9})
    case(name, o(rd=1, rs1=1, rs2=1), x={1: 0x31})
    case(name, o(rd=0, rs1=6, rs2=7), x={6: 0x80000003, 7: 2})
    case(name, o(rd=0, rs1=6, rs2=7), x={6: 3, 7: 0x87})
    case(name, o(rd=31, rs1=31, rs2=31), x={31: 0xfffffffe})

REFUSED = []


def refuse(word, why):
    REFUSED.append((word, why))


def refuse_bits(name, operands, bits):
    """Each of these bits of the form, which are 0, set alone; bits are counted from the least significant, as the manual does."""
    for bit in bits:
        refuse(assemble(name, operands) | 1 << bit, '%s: bit %d' % (name, bit))


for funct3 in range(1, 8):
    refuse(assemble('jalr', o(rd=1, rs1=5, imm=0)) | funct3 << 12, 'jalr: funct3 %d' % funct3)
for funct3 in (2, 3):
    refuse(assemble('beq', o(rs1=1, rs2=2, imm=8)) | funct3 << 12, 'branch: funct3 %d' % funct3)
for funct3 in (3, 6, 7):
    refuse(assemble('lb', o(rd=1, rs1=2, imm=8)) | funct3 << 12, 'load: funct3 %d' % funct3)
for funct3 in (3, 4, 5, 6, 7):
    refuse(assemble('sb', o(rs1=1, rs2=2, imm=8)) | funct3 << 12, 'store: funct3 %d' % funct3)
refuse_bits('slli', o(rd=1, rs1=2, sh=3), (25, 26, 27, 28, 29, 30, 31))
refuse_bits('srli', o(rd=1, rs1=2, sh=3), (25, 26, 27, 28, 29, 31))
refuse_bits('srai', o(rd=1, rs1=2, sh=3), (25, 26, 27, 28, 29, 31))
for name in REGISTERS:
    # Bit 30 of add and srl makes sub and sra; bit 25 makes multiplications and divisions, which are left out.
    refuse_bits(name, o(rd=1, rs1=2, rs2=3), [i for i in (25, 26, 27, 28, 29, 30, 31) if i != 30 or name not in ('add', 'sub', 'srl', 'sra')])
for word, why in ((0x00000000, 'no opcode'), (0xffffffff, 'no opcode'), (0x0ff0000f, 'fence'), (0x0000100f, 'fence.i'), (0x00000073, 'ecall'),
                  (0x00100073, 'ebreak'), (0xc0002573, 'csrrs'), (0x30200073, 'mret'), (0x00052087, 'flw'), (0x0000003b, 'addw'),
                  (0x00500290, 'no 32-bit instruction'), (0x00500292, 'no 32-bit instruction'), (0x00500291, 'no 32-bit instruction')):
    refuse(word, why)
