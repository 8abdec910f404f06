"""The cases of the PowerPC specification: instructions, and the cells that are given before them.

Each is one instruction at address 00001000. The corners are chosen by hand; expected states come from `ppc_model.py`.
`CASES` has a list for each mnemonic, `REFUSED` words that are no instruction, with the reason.
"""

from ppc_model import D_FORMS, X_FORMS, X_RC_FORMS, XO_FORMS, XO_WITHOUT_OE, assemble, place

CASES = {}


def case(mnemonic, operands, gpr=None, cr=(), xer=None, spr=None, mem=None, pc=0x1000):
    """gpr: numbers by register; cr: the bits that are 1; xer, spr: by name; mem: bytes by first address."""
    cells = {}
    for r, v in (gpr or {}).items():
        cells[('gpr', r)] = v
    for i in cr:
        cells[('cr', i)] = 1
    for name, v in (xer or {}).items():
        cells[('xer', name)] = v
    for name, v in (spr or {}).items():
        cells[('spr', name)] = v
    for at, run in (mem or {}).items():
        for i, v in enumerate(bytes.fromhex(run)):
            cells[('mem', (at + i) & 0xffffffff)] = v
    CASES.setdefault(mnemonic, []).append((operands, cells, pc))


def o(**operands):
    return operands


# ---------------------------------------------------------------- branches

for li, aa, lk, pc in ((2, 0, 0, 0x1000), (-4, 0, 0, 0x1000), (-1, 0, 1, 0), (0x7fffff, 0, 1, 0x1000), (-0x800000, 0, 0, 0x1000),
                       (0x400, 1, 0, 0x1000), (-1, 1, 0, 0x1000), (0, 1, 1, 0x1000), (1, 0, 1, 0xfffffffc)):
    case('b', o(li=li, aa=aa, lk=lk), pc=pc, spr={'LR': 0x44})

# All values of BO with CTR at 0, 1 and 2, and both values of the bit where it is tested.
for bo in range(32):
    for ctr in (0, 1, 2):
        for bit in ((0, 1) if not bo & 16 else (bo & 1,)):
            case('bc', o(bo=bo, bi=2, bd=4, aa=0, lk=0), cr=(2,) if bit else (), spr={'CTR': ctr})
for bi, bd, aa, lk in ((0, -1, 0, 0), (31, -1, 0, 1), (0, 0x1fff, 0, 0), (31, -0x2000, 0, 0), (31, 3, 1, 1), (0, -2, 1, 0)):
    case('bc', o(bo=12, bi=bi, bd=bd, aa=aa, lk=lk), cr=(bi,), spr={'CTR': 7})
    case('bc', o(bo=12, bi=bi, bd=bd, aa=aa, lk=lk), cr=tuple(i for i in (0, 30, 31) if i != bi))
case('bc', o(bo=16, bi=0, bd=-1, aa=0, lk=1), spr={'CTR': 0x80000000, 'LR': 4})
case('bc', o(bo=18, bi=0, bd=-1, aa=0, lk=1), spr={'CTR': 0x80000000, 'LR': 4})
case('bc', o(bo=16, bi=0, bd=0x1fff, aa=1, lk=1), spr={'CTR': 2})
case('bc', o(bo=8, bi=31, bd=-3, aa=1, lk=0), cr=(31,), spr={'CTR': 3})
case('bc', o(bo=0, bi=30, bd=-3, aa=0, lk=0), cr=(31,), spr={'CTR': 3})

for bo in range(0, 32, 2):
    for ctr in (0, 1, 2):
        case('bclr', o(bo=bo, bi=31, lk=0), cr=(31,) if (bo >> 3 ^ ctr) & 1 else (), spr={'CTR': ctr, 'LR': 0x2003})
for bo in (0, 1, 2, 3, 8, 9, 10, 11):
    case('bclr', o(bo=bo, bi=0, lk=1), cr=(0,) if bo & 8 else (), spr={'CTR': 1 if bo & 2 else 5, 'LR': 0x3001})
for bo, bit in ((20, 0), (21, 1), (4, 0), (4, 1), (12, 0), (12, 1), (31, 0)):
    case('bclr', o(bo=bo, bi=0, lk=1), cr=(0,) if bit else (), spr={'LR': 0xfffffffe, 'CTR': 9})

for bo in (4, 5, 6, 7, 12, 13, 14, 15, 20, 21, 22, 23, 28, 29, 30, 31):
    for bit in (0, 1):
        case('bcctr', o(bo=bo, bi=31, lk=bit), cr=(31,) if bit else (), spr={'CTR': 0x2003, 'LR': 0x44})
case('bcctr', o(bo=12, bi=0, lk=1), cr=(0,), spr={'CTR': 0xffffffff})
case('bcctr', o(bo=4, bi=0, lk=1), cr=(0,), spr={'CTR': 0xffffffff})

# ---------------------------------------------------------------- condition register

for name in ('crand', 'cror', 'crxor', 'crnand', 'crnor', 'creqv', 'crandc', 'crorc'):
    for a in (0, 1):
        for b in (0, 1):
            ones = [i for i, bit in ((30, a), (31, b)) if bit] + [29]
            case(name, o(bt=0, ba=30, bb=31), cr=ones)
    case(name, o(bt=31, ba=31, bb=0), cr=(31, 1))
    case(name, o(bt=5, ba=5, bb=5), cr=(5,))
case('mcrf', o(bf=0, bfa=7), cr=(28, 30, 31, 1))
case('mcrf', o(bf=7, bfa=0), cr=(0, 3, 29))
case('mcrf', o(bf=3, bfa=3), cr=(12, 15))
case('mcrf', o(bf=1, bfa=2), cr=(4, 5, 6, 7))

# ---------------------------------------------------------------- loads and stores

BYTES = '80f17e0102030405'
for name in ('lbz', 'lhz', 'lha', 'lwz'):
    case(name, o(rt=3, ra=4, d=4), gpr={4: 0x2000, 3: 7}, mem={0x2004: BYTES})
    case(name, o(rt=4, ra=4, d=-2), gpr={4: 0x2000}, mem={0x1ffe: BYTES})
    case(name, o(rt=0, ra=0, d=0x7fff), gpr={0: 0x2000}, mem={0x7fff: '7ffe0180'})
    case(name, o(rt=31, ra=0, d=-0x8000), mem={0xffff8000: '7f818283'})
    case(name, o(rt=5, ra=31, d=-1), gpr={31: 0}, mem={0xffffffff: '81', 0: '828384'})
    case(name, o(rt=0, ra=1, d=8), gpr={1: 0x2000}, mem={0x2008: 'ff7e0180'})
for name in ('lbzu', 'lhzu', 'lhau', 'lwzu'):
    case(name, o(rt=3, ra=31, d=4), gpr={31: 0x2000}, mem={0x2004: BYTES})
    case(name, o(rt=31, ra=1, d=-0x8000), gpr={1: 0x9000}, mem={0x1000: '7f818283'})
    case(name, o(rt=0, ra=4, d=2), gpr={4: 0xfffffffe}, mem={0: BYTES})
for name in ('lbzx', 'lhzx', 'lhax', 'lwzx', 'lhbrx', 'lwbrx'):
    case(name, o(rt=3, ra=4, rb=5), gpr={4: 0x2000, 5: 0xfffffffe}, mem={0x1ffe: BYTES})
    case(name, o(rt=5, ra=0, rb=5), gpr={0: 0x100, 5: 0x3000}, mem={0x3000: '7f828384'})
    case(name, o(rt=0, ra=31, rb=0), gpr={0: 3, 31: 0xfffffffe}, mem={1: '8180ff7e'})
    case(name, o(rt=31, ra=30, rb=30), gpr={30: 0x7fffffff}, mem={0xfffffffe: 'fffe', 0: '0180'})
for name in ('lbzux', 'lhzux', 'lhaux', 'lwzux'):
    case(name, o(rt=3, ra=31, rb=5), gpr={31: 0x2000, 5: 0x10}, mem={0x2010: BYTES})
    case(name, o(rt=5, ra=4, rb=5), gpr={4: 0x2000, 5: 0xfffffff0}, mem={0x1ff0: '7f828384'})
    case(name, o(rt=0, ra=1, rb=1), gpr={1: 0x80000001}, mem={2: '8180ff7e'})
for name in ('stb', 'sth', 'stw'):
    case(name, o(rs=3, ra=4, d=4), gpr={3: 0x12345678, 4: 0x2000}, mem={0x2003: 'ffffffffffff'})
    case(name, o(rs=4, ra=4, d=-2), gpr={4: 0x2000})
    case(name, o(rs=0, ra=0, d=0x7fff), gpr={0: 0x8899aabb})
    case(name, o(rs=31, ra=0, d=-1), gpr={31: 0xfedcba98})
    case(name, o(rs=0, ra=1, d=8), gpr={0: 0xc3d2e1f0, 1: 0x2000})
for name in ('stbu', 'sthu', 'stwu'):
    case(name, o(rs=3, ra=31, d=4), gpr={3: 0x12345678, 31: 0x2000})
    case(name, o(rs=1, ra=1, d=-16), gpr={1: 0x2010})
    case(name, o(rs=0, ra=4, d=-0x8000), gpr={0: 0xa1b2c3d4, 4: 0x7ffe})
for name in ('stbx', 'sthx', 'stwx', 'sthbrx', 'stwbrx'):
    case(name, o(rs=3, ra=4, rb=5), gpr={3: 0x12345678, 4: 0x2000, 5: 0xfffffffe})
    case(name, o(rs=5, ra=0, rb=5), gpr={0: 0x100, 5: 0x3004})
    case(name, o(rs=0, ra=31, rb=30), gpr={0: 0xa1b2c3d4, 31: 0xffffffff, 30: 0xffffffff})
for name in ('stbux', 'sthux', 'stwux'):
    case(name, o(rs=3, ra=31, rb=5), gpr={3: 0x12345678, 31: 0x2000, 5: 0x10})
    case(name, o(rs=4, ra=4, rb=5), gpr={4: 0x2000, 5: 0xfffffff0})
    case(name, o(rs=5, ra=4, rb=5), gpr={4: 0xfffffff0, 5: 0xe})
case('lmw', o(rt=29, ra=1, d=0), gpr={1: 0x2000}, mem={0x2000: '0102030405060708090a0b0c'})
case('lmw', o(rt=31, ra=30, d=-4), gpr={30: 0x2000, 31: 5}, mem={0x1ffc: '81020304'})
case('lmw', o(rt=31, ra=0, d=8), gpr={0: 0x2000}, mem={8: '81020304'})
case('lmw', o(rt=30, ra=29, d=2), gpr={29: 0xfffffffc}, mem={0xfffffffe: 'a1a2', 0: 'a3a4b1b2b3b4'})
case('lmw', o(rt=1, ra=0, d=0x100), gpr={r: 0xdead0000 + r for r in range(32)},
     mem={0x100: ''.join('%08x' % (0x10000 * r + 0x80000000 + r) for r in range(1, 32))})
case('stmw', o(rs=29, ra=1, d=-4), gpr={1: 0x2004, 29: 0x01020304, 30: 0x05060708, 31: 0x090a0b0c})
case('stmw', o(rs=31, ra=31, d=0), gpr={31: 0x2000})
case('stmw', o(rs=30, ra=0, d=-6), gpr={0: 0x2000, 30: 0xa1a2a3a4, 31: 0xb1b2b3b4})
case('stmw', o(rs=0, ra=2, d=0), gpr={**{r: 0x10203040 + 0x1010101 * r for r in range(32)}, 2: 0xffffffc0})

# ---------------------------------------------------------------- arithmetic

case('addi', o(rt=3, ra=0, si=5), gpr={0: 0x7777})
case('addi', o(rt=0, ra=31, si=-0x8000), gpr={31: 0x7fff})
case('addi', o(rt=4, ra=4, si=1), gpr={4: 0xffffffff}, xer={'CA': 0})
case('addi', o(rt=31, ra=0, si=-1))
case('addi', o(rt=5, ra=6, si=0x7fff), gpr={6: 0x7fffffff})
case('addis', o(rt=3, ra=0, si=-0x8000), gpr={0: 1})
case('addis', o(rt=4, ra=4, si=1), gpr={4: 0xffff8000})
case('addis', o(rt=31, ra=30, si=0x7fff), gpr={30: 0x12345678})
for name in ('addic', 'addic.'):
    case(name, o(rt=3, ra=4, si=1), gpr={4: 0xffffffff})
    case(name, o(rt=0, ra=0, si=-1), gpr={0: 0}, xer={'CA': 1, 'SO': 1})
    case(name, o(rt=3, ra=3, si=-1), gpr={3: 0x80000000}, cr=(0, 1, 2, 3))
    case(name, o(rt=3, ra=4, si=0x7fff), gpr={4: 0x7fff8001}, xer={'OV': 1})
    case(name, o(rt=3, ra=4, si=-0x8000), gpr={4: 0x8000})
case('subfic', o(rt=3, ra=4, si=5), gpr={4: 5})
case('subfic', o(rt=3, ra=4, si=5), gpr={4: 6}, xer={'CA': 1})
case('subfic', o(rt=0, ra=0, si=-1), gpr={0: 0xffffffff})
case('subfic', o(rt=31, ra=31, si=-0x8000), gpr={31: 0})
case('subfic', o(rt=3, ra=4, si=0), gpr={4: 0x80000000}, xer={'CA': 1, 'OV': 1})

# Pairs of summands: no carry; carry; overflow from above; overflow from below, with a carry; a zero; signs that differ; the
# greatest sum that fits.
PAIRS = ((0x12345678, 0x0fedcba8), (0xffffffff, 1), (0x7fffffff, 1), (0x80000000, 0x80000000), (0, 0), (0x80000000, 0x7fffffff),
         (0x7ffffffe, 1))
THREE_OPERANDS = ('add', 'subf', 'addc', 'subfc', 'adde', 'subfe', 'mullw', 'divw', 'divwu')
# What XER holds before.
BEFORE = ({}, {'SO': 1}, {'OV': 1, 'CA': 1}, {'SO': 1, 'OV': 1, 'CA': 1})


def xo(name, pairs, carries=(None,)):
    """The pairs in each of the four forms, by turns with other registers and another XER before."""
    for oe in ('', 'o'):
        for rc in ('', '.'):
            for i, (a, b) in enumerate(pairs):
                for c in carries:
                    before = dict(BEFORE[(i + len(rc) + len(oe)) % 4])
                    if c is not None:
                        before['CA'] = c
                    if name in THREE_OPERANDS:
                        rt, ra, rb = ((3, 4, 5), (0, 31, 30), (4, 4, 5), (5, 4, 5), (31, 0, 1))[i % 5]
                        if a == b and i % 2:
                            rt, ra, rb = 3, 4, 4
                        case(name + oe + rc, o(rt=rt, ra=ra, rb=rb), gpr={ra: a, rb: b}, xer=before)
                    else:
                        rt, ra = ((3, 4), (0, 31), (4, 4), (31, 0))[i % 4]
                        case(name + oe + rc, o(rt=rt, ra=ra), gpr={ra: a}, xer=before)


xo('add', PAIRS)
xo('addc', PAIRS)
DIFFERENCES = ((5, 7), (7, 5), (1, 0x80000000), (0xffffffff, 0x7fffffff), (0, 0), (0x80000000, 0x80000000), (0x80000000, 0))
xo('subf', DIFFERENCES)
xo('subfc', DIFFERENCES)
xo('adde', ((0xffffffff, 0), (0x7fffffff, 0), (0x80000000, 0xffffffff), (0xffffffff, 0xffffffff)), (0, 1))
xo('subfe', ((5, 5), (0, 0x80000000), (0x80000000, 0x7fffffff), (0xffffffff, 0)), (0, 1))
ONE = ((0, None), (0xffffffff, None), (0x80000000, None), (0x7fffffff, None))
for name in ('addme', 'subfme', 'addze', 'subfze'):
    xo(name, ONE, (0, 1))
xo('neg', ((0, None), (1, None), (0x80000000, None), (0xffffffff, None)))
xo('mullw', ((7, 0xfffffffd), (0x10000, 0x8000), (0x10000, 0xffff8000), (0x80000000, 0xffffffff), (0xffffffff, 0xffffffff),
             (0x12345678, 0x9abcdef0), (0x7fffffff, 1)))
xo('divw', ((7, 2), (0xfffffff9, 2), (7, 0xfffffffe), (0x80000000, 0xffffffff), (5, 0), (0x80000000, 1), (5, 0xffffffff), (0, 0),
            (0x80000000, 0)))
xo('divwu', ((7, 2), (0xfffffff9, 2), (0x80000000, 0xffffffff), (5, 0), (0xffffffff, 1), (0xffffffff, 0xffffffff)))
for name in ('mulhw', 'mulhwu'):
    for rc in ('', '.'):
        for i, (a, b) in enumerate(((0x80000000, 0x80000000), (0xffffffff, 0xffffffff), (0x7fffffff, 0xffffffff), (0x12345678, 0x9abcdef0),
                                    (0, 5))):
            case(name + rc, o(rt=(3, 4, 0)[i % 3], ra=4, rb=5), gpr={4: a, 5: b}, xer=BEFORE[i % 4])
case('mulli', o(rt=3, ra=4, si=-3), gpr={4: 7})
case('mulli', o(rt=4, ra=4, si=0x7fff), gpr={4: 0x12345678})
case('mulli', o(rt=0, ra=0, si=-0x8000), gpr={0: 0x80000001})

# ---------------------------------------------------------------- comparisons

for name in ('cmp', 'cmpl'):
    for i, (a, b) in enumerate(((1, 2), (2, 1), (5, 5), (0xffffffff, 0), (0x7fffffff, 0x80000000), (0x80000000, 0x80000000))):
        case(name, o(bf=(0, 7, 3)[i % 3], ra=4, rb=5), gpr={4: a, 5: b}, xer={'SO': i % 2}, cr=range(28, 32) if i < 3 else ())
    case(name, o(bf=2, ra=0, rb=0), gpr={0: 9})
for i, (a, si) in enumerate(((1, 2), (2, 1), (0xffff8000, -0x8000), (0xffffffff, 0), (0x7fff, 0x7fff), (0, -1), (0x80000000, -1))):
    case('cmpi', o(bf=(0, 7, 3)[i % 3], ra=(4, 0, 31)[i % 3], si=si), gpr={(4, 0, 31)[i % 3]: a}, xer={'SO': i % 2})
for i, (a, ui) in enumerate(((1, 2), (2, 1), (0xffff8000, 0x8000), (0xffffffff, 0xffff), (0xffff, 0xffff), (0, 0), (0x7fff, 0x8000))):
    case('cmpli', o(bf=(0, 7, 3)[i % 3], ra=(4, 0, 31)[i % 3], ui=ui), gpr={(4, 0, 31)[i % 3]: a}, xer={'SO': i % 2})

# ---------------------------------------------------------------- logical

for name in ('ori', 'oris', 'xori', 'xoris', 'andi.', 'andis.'):
    case(name, o(rs=3, ra=4, ui=0xf0f0), gpr={3: 0x1234ff00})
    case(name, o(rs=0, ra=0, ui=0), gpr={0: 0x80000001}, cr=(0, 1))
    case(name, o(rs=31, ra=31, ui=0xffff), gpr={31: 0xffffffff}, xer={'SO': 1})
    case(name, o(rs=3, ra=0, ui=0x8000), gpr={3: 0x80008000})
for name in ('and', 'or', 'xor', 'nand', 'nor', 'eqv', 'andc', 'orc'):
    for rc in ('', '.'):
        case(name + rc, o(rs=3, ra=4, rb=5), gpr={3: 0x0ff0cc33, 5: 0x3c5aaa55})
        case(name + rc, o(rs=3, ra=3, rb=3), gpr={3: 0x80000000}, xer={'SO': 1})
        case(name + rc, o(rs=0, ra=31, rb=30), gpr={0: 0xffffffff, 30: 0}, cr=(0, 1, 2, 3))
for rc in ('', '.'):
    for i, x in enumerate((0x7f, 0x80, 0xffffff00, 0x12345681)):
        case('extsb' + rc, o(rs=3, ra=(4, 3, 0)[i % 3]), gpr={3: x}, xer={'SO': i % 2})
    for i, x in enumerate((0x7fff, 0x8000, 0xffff0000, 0x12348001)):
        case('extsh' + rc, o(rs=3, ra=(4, 3, 0)[i % 3]), gpr={3: x}, xer={'SO': i % 2})
    for i, x in enumerate((0, 1, 0x80000000, 0x0000ffff, 0x40000000)):
        case('cntlzw' + rc, o(rs=3, ra=(4, 3, 0)[i % 3]), gpr={3: x}, xer={'SO': i % 2})

# ---------------------------------------------------------------- rotations and shifts

# Whole word, one bit, MB = ME + 1, masks that wrap, both ends.
MASKS = ((0, 31), (31, 31), (0, 0), (16, 15), (30, 1), (8, 23), (31, 0), (1, 0))
for rc in ('', '.'):
    for i, (mb, me) in enumerate(MASKS):
        sh = (0, 31, 1, 16, 4, 8, 5, 27)[i]
        case('rlwinm' + rc, o(rs=3, ra=(4, 3)[i % 2], sh=sh, mb=mb, me=me), gpr={3: 0x89abcdef}, xer={'SO': i % 2})
        case('rlwimi' + rc, o(rs=3, ra=(4, 3)[i == 3], sh=sh, mb=mb, me=me), gpr={4: 0x13579bdf, 3: 0x89abcdef}, xer={'SO': i % 2})
        case('rlwnm' + rc, o(rs=3, ra=(4, 5)[i % 2], rb=5, mb=mb, me=me), gpr={3: 0x89abcdef, 5: 32 * i + sh}, xer={'SO': i % 2})
    for i, n in enumerate((0, 1, 31, 32, 33, 63, 64, 0xffffffe0, 0xffffffc4)):
        for name in ('slw', 'srw', 'sraw'):
            case(name + rc, o(rs=3, ra=(4, 3, 5)[i % 3], rb=5), gpr={3: 0x89abcdef, 5: n}, xer={'CA': i % 2, 'SO': i // 2 % 2})
    for x, n in ((0x7fffffff, 4), (0xfffffff0, 4), (0xfffffff0, 5), (0x80000000, 31), (0x80000000, 32), (0, 63), (0x7fffffff, 32)):
        case('sraw' + rc, o(rs=3, ra=4, rb=5), gpr={3: x, 5: n}, xer={'CA': 1})
    for i, (x, n) in enumerate(((0x89abcdef, 0), (0x89abcdef, 1), (0x89abcdef, 31), (0x7fffffff, 4), (0xfffffff0, 4), (0xfffffff0, 5),
                                (0x80000000, 31), (0, 31), (15, 4))):
        case('srawi' + rc, o(rs=3, ra=(4, 3, 0)[i % 3], sh=n), gpr={3: x}, xer={'CA': 1 - i % 2, 'SO': i // 2 % 2})

# ---------------------------------------------------------------- system registers

for v in (0, 0xffffffff, 0x80000000, 0x40000000, 0x20000000, 0x7f, 0x1fffff80):
    case('mtxer', o(rs=3), gpr={3: v}, xer={'SO': 1, 'CA': 1} if v < 0x100 else {}, spr={'XCOUNT': 0x55})
case('mtlr', o(rs=31), gpr={31: 0xffffffff}, spr={'CTR': 3})
case('mtlr', o(rs=0), gpr={0: 0}, spr={'LR': 8})
case('mtctr', o(rs=31), gpr={31: 0x80000003}, spr={'LR': 3})
case('mtctr', o(rs=0), gpr={0: 0}, spr={'CTR': 8})
for xer, count in (({'SO': 1}, 0), ({'OV': 1}, 1), ({'CA': 1}, 0x7f), ({'SO': 1, 'OV': 1, 'CA': 1}, 0x40), ({}, 0xffffffaa)):
    case('mfxer', o(rt=3), gpr={3: 9}, xer=xer, spr={'XCOUNT': count})
case('mflr', o(rt=31), spr={'LR': 0xfffffffc, 'CTR': 1})
case('mflr', o(rt=0), gpr={0: 9}, spr={'CTR': 1})
case('mfctr', o(rt=31), spr={'LR': 1, 'CTR': 0xfffffffc})
case('mfctr', o(rt=0), gpr={0: 9}, spr={'LR': 1})
for i in range(8):
    case('mtcrf', o(rs=3, fxm=1 << i), gpr={3: 0x9d6b5a3c}, cr=range(28, 32))
for fxm, v, ones in ((0xff, 0x80000001, ()), (0, 0xffffffff, (5,)), (0xff, 0, range(32)), (0x81, 0x6789abcd, (0, 31, 15))):
    case('mtcrf', o(rs=31, fxm=fxm), gpr={31: v}, cr=ones)
case('mfcr', o(rt=3), gpr={3: 9}, cr=(0, 31))
case('mfcr', o(rt=31), cr=range(32))
case('mfcr', o(rt=0), cr=(1, 6, 11, 16, 21, 26))
case('mfcr', o(rt=0), gpr={0: 1})
for k in range(5):  # so that every two bits differ in one case
    case('mfcr', o(rt=4), cr=tuple(i for i in range(32) if i >> k & 1))

# ---------------------------------------------------------------- words that are refused

REFUSED = []


def refuse(word, why):
    REFUSED.append((word, why))


# Guards.
for name in ('lbzu', 'lhzu', 'lhau', 'lwzu'):
    refuse(assemble(name, o(rt=3, ra=0, d=4)), '%s: RA is 0' % name)
    refuse(assemble(name, o(rt=3, ra=3, d=4)), '%s: RA is RT' % name)
for name in ('lbzux', 'lhzux', 'lhaux', 'lwzux'):
    refuse(assemble(name, o(rt=3, ra=0, rb=5)), '%s: RA is 0' % name)
    refuse(assemble(name, o(rt=31, ra=31, rb=5)), '%s: RA is RT' % name)
for name in ('stbu', 'sthu', 'stwu'):
    refuse(assemble(name, o(rs=3, ra=0, d=4)), '%s: RA is 0' % name)
for name in ('stbux', 'sthux', 'stwux'):
    refuse(assemble(name, o(rs=3, ra=0, rb=5)), '%s: RA is 0' % name)
for rt, ra in ((0, 0), (3, 3), (3, 4), (31, 31), (30, 31)):
    refuse(assemble('lmw', o(rt=rt, ra=ra, d=0)), 'lmw: RA is not below RT')

# Each reserved bit of each form, set alone. Bits are counted from 0.


def refuse_bits(name, operands, bits):
    for bit in bits:
        refuse(assemble(name, operands) | place((1, bit, bit)), '%s: bit %d' % (name, bit))


for name in ('cmpi', 'cmpli'):
    refuse_bits(name, o(bf=1, ra=4, si=5, ui=5), (9, 10))
for name in ('cmp', 'cmpl'):
    refuse_bits(name, o(bf=1, ra=4, rb=5), (9, 10, 31))
refuse_bits('mcrf', o(bf=1, bfa=2), (9, 10, 14, 15, 16, 17, 18, 19, 20, 31))
for name in ('crand', 'cror', 'crxor', 'crnand', 'crnor', 'creqv', 'crandc', 'crorc'):
    refuse_bits(name, o(bt=1, ba=2, bb=3), (31,))
for name in ('bclr', 'bcctr'):
    refuse_bits(name, o(bo=20, bi=0, lk=0), (16, 17, 18, 19, 20))
refuse_bits('bclr', o(bo=16, bi=0, lk=1), (16, 17, 18, 19, 20))
for bo in (0, 2, 8, 10, 16, 18, 24, 26):
    refuse(assemble('bcctr', o(bo=bo, bi=0, lk=0)), 'bcctr: BO %d decrements CTR' % bo)
for name in X_FORMS:
    refuse_bits(name, o(rt=3, rs=3, ra=4, rb=5), (31,))
for name in ('neg', 'addme', 'subfme', 'addze', 'subfze'):
    refuse_bits(name, o(rt=3, ra=4), (16, 17, 18, 19, 20))
for name in XO_WITHOUT_OE:
    refuse_bits(name, o(rt=3, ra=4, rb=5), (21,))
for name in ('extsb', 'extsh', 'cntlzw'):
    refuse_bits(name, o(rs=3, ra=4), (16, 17, 18, 19, 20))
for name in ('mtxer', 'mtlr', 'mtctr', 'mfxer', 'mflr', 'mfctr'):
    refuse_bits(name, o(rs=3, rt=3), (16, 17, 18, 19, 20, 31))
refuse_bits('mtcrf', o(rs=3, fxm=0x80), (11, 20, 31))
refuse_bits('mfcr', o(rt=3), (11, 12, 13, 14, 15, 16, 17, 18, 19, 20, 31))

# Other special purpose registers, and instructions that are left out.
for name, extended in (('mtspr', 467), ('mfspr', 339)):
    for number in (0, 2, 10, 26, 31):
        refuse(place((31, 0, 5), (3, 6, 10), (number, 11, 15), (extended, 21, 30)), '%s %d' % (name, number))
for word, why in (
        (0x00000000, 'no opcode'), (0x44000002, 'sc'), (0x0c830000, 'twi'), (0x7c832808, 'tw'), (0x7c642828, 'lwarx'),
        (0x7c64292d, 'stwcx.'), (0x7c64042a, 'lswx'), (0x7c6424aa, 'lswi'), (0x7c64052a, 'stswx'), (0x7c6425aa, 'stswi'),
        (0x7c0004ac, 'sync'), (0x7c0006ac, 'eieio'), (0x4c00012c, 'isync'), (0x7c0028ac, 'dcbf'), (0x7c00286c, 'dcbst'),
        (0x7c00222c, 'dcbt'), (0x7c0027ec, 'dcbz'), (0x7c0027ac, 'icbi'), (0x7c6c42e6, 'mftb'), (0x7c800400, 'mcrxr'),
        (0x7c6000a6, 'mfmsr'), (0x7c600124, 'mtmsr'), (0x4c000064, 'rfi'), (0xc0640000, 'lfs'), (0xd0640000, 'stfs'),
        (0xfc64282a, 'fadd'), (0x10642a80, 'a vector instruction'), (0xe8640000, 'ld'), (0xf8640000, 'std'), (0x78640000, 'rldicl'),
        (0x7c6403fe, 'no extended opcode'), (0x4c000002, 'no extended opcode'), (0xffffffff, 'no opcode')):
    refuse(word, why)
