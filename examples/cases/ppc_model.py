"""PowerPC's 32-bit integer instructions, worked on Python's whole numbers.

This is what the cases of `program_spec_powerpc` are compared with. It was written from the instruction descriptions of Book I and not
from the specification text: words are put together from the instruction formats, sums and products are exact whole
numbers, masks and leading zeros are counted bit by bit, and the condition register is one number of 32 bits.

`assemble(mnemonic, operands)` gives the code word. `execute(mnemonic, operands, state)` changes the state and notes
which cells were read. Operands have the names of Book I in lower case; `bo` is the whole field.
"""

M32 = 0xffffffff


def signed(x, bits=32):
    """The two's complement number of the low `bits` bits of x."""
    x &= (1 << bits) - 1
    return x - (1 << bits) if x >> (bits - 1) else x


class State:
    """Registers and memory. Cells that were never written are 0."""

    def __init__(self, pc=0x1000):
        self.pc = pc
        self.cells = {}
        self.reads = []

    def read(self, name, key):
        self.reads.append((name, key))
        return self.cells.get((name, key), 0)

    def write(self, name, key, value):
        self.cells[(name, key)] = value

    def gpr(self, r):
        return self.read('gpr', r)

    def base(self, ra):
        """(RA|0)"""
        return self.gpr(ra) if ra else 0

    def load(self, address, count):
        """The number of `count` bytes, the first byte the most significant; addresses wrap at 2^32."""
        number = 0
        for i in range(count):
            number = number * 256 + self.read('mem', (address + i) & M32)
        return number

    def store(self, address, count, number):
        for i in range(count):
            self.write('mem', (address + i) & M32, (number >> 8 * (count - 1 - i)) & 0xff)

    def compare(self, field, a, b):
        """Condition register field: less, greater, equal and a copy of SO."""
        so = self.read('xer', 'SO')
        for i, bit in enumerate((a < b, a > b, a == b, so)):
            self.write('cr', 4 * field + i, int(bit))


# ---------------------------------------------------------------- code words

# Primary opcodes of the forms with a 16-bit immediate: first operand, base, immediate.
D_FORMS = {
    'mulli': (7, 'rt', 'si'), 'subfic': (8, 'rt', 'si'), 'addic': (12, 'rt', 'si'), 'addic.': (13, 'rt', 'si'),
    'addi': (14, 'rt', 'si'), 'addis': (15, 'rt', 'si'), 'ori': (24, 'rs', 'ui'), 'oris': (25, 'rs', 'ui'),
    'xori': (26, 'rs', 'ui'), 'xoris': (27, 'rs', 'ui'), 'andi.': (28, 'rs', 'ui'), 'andis.': (29, 'rs', 'ui'),
    'lwz': (32, 'rt', 'd'), 'lwzu': (33, 'rt', 'd'), 'lbz': (34, 'rt', 'd'), 'lbzu': (35, 'rt', 'd'),
    'stw': (36, 'rs', 'd'), 'stwu': (37, 'rs', 'd'), 'stb': (38, 'rs', 'd'), 'stbu': (39, 'rs', 'd'),
    'lhz': (40, 'rt', 'd'), 'lhzu': (41, 'rt', 'd'), 'lha': (42, 'rt', 'd'), 'lhau': (43, 'rt', 'd'),
    'sth': (44, 'rs', 'd'), 'sthu': (45, 'rs', 'd'), 'lmw': (46, 'rt', 'd'), 'stmw': (47, 'rs', 'd'),
}

# Extended opcodes of ten bits under primary opcode 31, with three registers and no Rc.
X_FORMS = {
    'lwzx': (23, 'rt'), 'lwzux': (55, 'rt'), 'lbzx': (87, 'rt'), 'lbzux': (119, 'rt'), 'stwx': (151, 'rs'),
    'stwux': (183, 'rs'), 'stbx': (215, 'rs'), 'stbux': (247, 'rs'), 'lhzx': (279, 'rt'), 'lhzux': (311, 'rt'),
    'lhax': (343, 'rt'), 'lhaux': (375, 'rt'), 'sthx': (407, 'rs'), 'sthux': (439, 'rs'), 'lwbrx': (534, 'rt'),
    'stwbrx': (662, 'rs'), 'lhbrx': (790, 'rt'), 'sthbrx': (918, 'rs'),
}

# The same with Rc; the target is RA.
X_RC_FORMS = {
    'slw': 24, 'and': 28, 'andc': 60, 'nor': 124, 'eqv': 284, 'xor': 316, 'orc': 412, 'or': 444, 'nand': 476, 'srw': 536,
    'sraw': 792, 'srawi': 824, 'cntlzw': 26, 'extsh': 922, 'extsb': 954,
}

# Extended opcodes of nine bits, with OE and Rc.
XO_FORMS = {
    'subfc': 8, 'addc': 10, 'subf': 40, 'neg': 104, 'subfe': 136, 'adde': 138, 'subfze': 200, 'addze': 202, 'subfme': 232,
    'addme': 234, 'mullw': 235, 'add': 266, 'divwu': 459, 'divw': 491,
}

XO_WITHOUT_OE = {'mulhwu': 11, 'mulhw': 75}

M_FORMS = {'rlwimi': (20, 'sh'), 'rlwinm': (21, 'sh'), 'rlwnm': (23, 'rb')}

CR_FORMS = {
    'crnor': 33, 'crandc': 129, 'crxor': 193, 'crnand': 225, 'crand': 257, 'creqv': 289, 'crorc': 417, 'cror': 449,
}

SPR_NUMBERS = {'xer': 1, 'lr': 8, 'ctr': 9}


def place(*fields):
    """A word of fields (value, first bit, last bit); bit 0 is the most significant."""
    word = 0
    for value, first, last in fields:
        width = last - first + 1
        assert 0 <= value < 1 << width, (value, first, last)
        word |= value << (31 - last)
    return word


def plain(mnemonic):
    """The mnemonic without its suffixes, and the values of OE and Rc."""
    rc = int(mnemonic.endswith('.'))
    name = mnemonic[:-1] if rc else mnemonic
    if name in XO_FORMS or name in XO_WITHOUT_OE or name in X_RC_FORMS or name in M_FORMS:
        return name, 0, rc
    if name.endswith('o') and name[:-1] in XO_FORMS:
        return name[:-1], 1, rc
    return mnemonic, 0, 0


def assemble(mnemonic, o):
    """The code word of an instruction."""
    name, oe, rc = plain(mnemonic)
    if name in D_FORMS:
        opcode, first, immediate = D_FORMS[name]
        return place((opcode, 0, 5), (o[first], 6, 10), (o['ra'], 11, 15), (o[immediate] & 0xffff, 16, 31))
    if name in ('cmpi', 'cmpli'):
        immediate = o['si'] if name == 'cmpi' else o['ui']
        return place((11 if name == 'cmpi' else 10, 0, 5), (o['bf'], 6, 8), (o['ra'], 11, 15), (immediate & 0xffff, 16, 31))
    if name in ('cmp', 'cmpl'):
        return place((31, 0, 5), (o['bf'], 6, 8), (o['ra'], 11, 15), (o['rb'], 16, 20), (0 if name == 'cmp' else 32, 21, 30))
    if name in X_FORMS:
        extended, first = X_FORMS[name]
        return place((31, 0, 5), (o[first], 6, 10), (o['ra'], 11, 15), (o['rb'], 16, 20), (extended, 21, 30))
    if name in X_RC_FORMS:
        third = o['sh'] if name == 'srawi' else o.get('rb', 0)
        return place((31, 0, 5), (o['rs'], 6, 10), (o['ra'], 11, 15), (third, 16, 20), (X_RC_FORMS[name], 21, 30), (rc, 31, 31))
    if name in XO_FORMS or name in XO_WITHOUT_OE:
        extended = XO_FORMS.get(name, XO_WITHOUT_OE.get(name))
        return place((31, 0, 5), (o['rt'], 6, 10), (o['ra'], 11, 15), (o.get('rb', 0), 16, 20), (oe, 21, 21),
                     (extended, 22, 30), (rc, 31, 31))
    if name in M_FORMS:
        opcode, third = M_FORMS[name]
        return place((opcode, 0, 5), (o['rs'], 6, 10), (o['ra'], 11, 15), (o[third], 16, 20), (o['mb'], 21, 25),
                     (o['me'], 26, 30), (rc, 31, 31))
    if name == 'b':
        return place((18, 0, 5), (o['li'] & 0xffffff, 6, 29), (o['aa'], 30, 30), (o['lk'], 31, 31))
    if name == 'bc':
        return place((16, 0, 5), (o['bo'], 6, 10), (o['bi'], 11, 15), (o['bd'] & 0x3fff, 16, 29), (o['aa'], 30, 30),
                     (o['lk'], 31, 31))
    if name in ('bclr', 'bcctr'):
        return place((19, 0, 5), (o['bo'], 6, 10), (o['bi'], 11, 15), (16 if name == 'bclr' else 528, 21, 30), (o['lk'], 31, 31))
    if name in CR_FORMS:
        return place((19, 0, 5), (o['bt'], 6, 10), (o['ba'], 11, 15), (o['bb'], 16, 20), (CR_FORMS[name], 21, 30))
    if name == 'mcrf':
        return place((19, 0, 5), (o['bf'], 6, 8), (o['bfa'], 11, 13))
    if name[:2] in ('mt', 'mf') and name[2:] in SPR_NUMBERS:
        register = o['rs'] if name[:2] == 'mt' else o['rt']
        return place((31, 0, 5), (register, 6, 10), (SPR_NUMBERS[name[2:]], 11, 15), (467 if name[:2] == 'mt' else 339, 21, 30))
    if name == 'mtcrf':
        return place((31, 0, 5), (o['rs'], 6, 10), (o['fxm'], 12, 19), (144, 21, 30))
    if name == 'mfcr':
        return place((31, 0, 5), (o['rt'], 6, 10), (19, 21, 30))
    raise ValueError(mnemonic)


# ---------------------------------------------------------------- effects

def set_overflow(s, overflowed):
    s.write('xer', 'OV', int(overflowed))
    if overflowed:
        s.write('xer', 'SO', 1)


def record(s, result):
    """Rc: condition register field 0 from the result as a signed number."""
    s.compare(0, signed(result), 0)


def arithmetic(name, oe, rc, o, s):
    """The forms with OE and Rc. Carries and overflows are read off exact whole numbers."""
    carries = {'addc', 'subfc', 'adde', 'subfe', 'addme', 'subfme', 'addze', 'subfze'}
    a = s.gpr(o['ra'])
    if name in ('add', 'addc', 'adde', 'subf', 'subfc', 'subfe', 'mullw', 'divw', 'divwu', 'mulhw', 'mulhwu'):
        b = s.gpr(o['rb'])
    if name in ('mulhw', 'mulhwu'):
        product = signed(a) * signed(b) if name == 'mulhw' else a * b
        result, overflowed = (product >> 32) & M32, False
    elif name == 'mullw':
        product = signed(a) * signed(b)
        result, overflowed = product & M32, not -2 ** 31 <= product < 2 ** 31
    elif name == 'divwu':
        result, overflowed = (a // b, False) if b else (0, True)
    elif name == 'divw':
        x, y = signed(a), signed(b)
        if y == 0 or (x == -2 ** 31 and y == -1):
            result, overflowed = 0, True
        else:
            result, overflowed = (abs(x) // abs(y) * (1 if (x < 0) == (y < 0) else -1)) & M32, False
    else:
        # A sum of three: RA or its complement, RB or a constant, and 0, 1 or CA.
        first = M32 - a if name.startswith('subf') or name == 'neg' else a
        if name in ('add', 'addc', 'adde', 'subf', 'subfc', 'subfe'):
            second = b
        else:
            second = M32 if name.endswith('me') else 0
        if name in ('adde', 'subfe', 'addme', 'subfme', 'addze', 'subfze'):
            third = s.read('xer', 'CA')
        else:
            third = 1 if name in ('subf', 'subfc', 'neg') else 0
        total = first + second + third
        result = total % 2 ** 32
        if name in carries:
            s.write('xer', 'CA', total // 2 ** 32)
        overflowed = not -2 ** 31 <= signed(first) + signed(second) + third < 2 ** 31
    if oe:
        set_overflow(s, overflowed)
    s.write('gpr', o['rt'], result)
    if rc:
        record(s, result)


def mask_bits(mb, me):
    """Ones from bit mb on, around the end of the word, to bit me."""
    number, bit = 0, mb
    while True:
        number |= 1 << (31 - bit)
        if bit == me:
            return number
        bit = (bit + 1) % 32


def rotated(x, n):
    """x turned left by n places, by its binary digits."""
    digits = format(x, '032b')
    return int(digits[n:] + digits[:n], 2)


def logical(name, rc, o, s):
    """Logical operations, rotations and shifts; the target is RA."""
    x = s.gpr(o['rs'])
    if name in ('and', 'or', 'xor', 'nand', 'nor', 'eqv', 'andc', 'orc', 'slw', 'srw', 'sraw', 'rlwnm'):
        y = s.gpr(o['rb'])
    if name in ('and', 'or', 'xor', 'nand', 'nor', 'eqv', 'andc', 'orc'):
        table = {  # what the bit is for the bits (0,0), (0,1), (1,0), (1,1)
            'and': '0001', 'or': '0111', 'xor': '0110', 'nand': '1110', 'nor': '1000', 'eqv': '1001', 'andc': '0010', 'orc': '1011',
        }[name]
        result = sum(int(table[2 * (x >> i & 1) + (y >> i & 1)]) << i for i in range(32))
    elif name == 'extsb':
        result = signed(x, 8) & M32
    elif name == 'extsh':
        result = signed(x, 16) & M32
    elif name == 'cntlzw':
        result = len(format(x, '032b').split('1')[0])
    elif name in M_FORMS:
        turned = rotated(x, y % 32 if name == 'rlwnm' else o['sh'])
        bits = mask_bits(o['mb'], o['me'])
        result = turned & bits
        if name == 'rlwimi':
            result |= s.gpr(o['ra']) & ~bits & M32
    else:
        n = o['sh'] if name == 'srawi' else y % 64
        if name == 'slw':
            result = x * 2 ** n % 2 ** 32
        elif name == 'srw':
            result = x // 2 ** n
        else:
            value = signed(x)
            result = (value // 2 ** n) & M32
            s.write('xer', 'CA', int(value < 0 and value % 2 ** n != 0))
    s.write('gpr', o['ra'], result)
    if rc:
        record(s, result)


ACCESS = {'b': 1, 'h': 2, 'w': 4}


def memory(name, o, s):
    """Loads and stores of a byte, half-word or word."""
    update = 'u' in name[2:]
    indexed, backwards = name.endswith('x'), 'br' in name
    base = s.gpr(o['ra']) if update else s.base(o['ra'])
    address = (base + (s.gpr(o['rb']) if indexed else signed(o['d'], 16))) & M32
    size = ACCESS[name[1] if name[0] == 'l' else name[2]]
    if name[0] == 'l':
        number = s.load(address, size)
        if backwards:
            number = int.from_bytes(number.to_bytes(size, 'big'), 'little')
        if name.startswith('lha'):
            number = signed(number, 16) & M32
        s.write('gpr', o['rt'], number)
    else:
        number = s.gpr(o['rs']) % 256 ** size
        if backwards:
            number = int.from_bytes(number.to_bytes(size, 'big'), 'little')
        s.store(address, size, number)
    if update:
        s.write('gpr', o['ra'], address)


def branch(name, o, s):
    """Branches: BO and BI decide, the target is relative, absolute or in LR or CTR."""
    here = s.pc
    taken = True
    if name != 'b':
        bo = [o['bo'] >> (4 - i) & 1 for i in range(5)]
        counted = True
        if not bo[2]:
            count = (s.read('spr', 'CTR') - 1) % 2 ** 32
            s.write('spr', 'CTR', count)
            counted = (count == 0) if bo[3] else (count != 0)
        taken = counted and (bool(bo[0]) or s.read('cr', o['bi']) == bo[1])
    if not taken:
        target = here + 4
    elif name == 'b':
        target = 4 * signed(o['li'], 24) + (0 if o['aa'] else here)
    elif name == 'bc':
        target = 4 * signed(o['bd'], 14) + (0 if o['aa'] else here)
    else:
        target = s.read('spr', 'LR' if name == 'bclr' else 'CTR') // 4 * 4
    if o['lk']:
        s.write('spr', 'LR', (here + 4) & M32)
    s.pc = target & M32


def system(name, o, s):
    """Moves to and from XER, LR, CTR and the condition register."""
    if name in ('mtlr', 'mtctr'):
        s.write('spr', name[2:].upper(), s.gpr(o['rs']))
    elif name in ('mflr', 'mfctr'):
        s.write('gpr', o['rt'], s.read('spr', name[2:].upper()))
    elif name == 'mtxer':
        v = s.gpr(o['rs'])
        for i, flag in enumerate(('SO', 'OV', 'CA')):
            s.write('xer', flag, v >> (31 - i) & 1)
        s.write('spr', 'XCOUNT', v % 128)
    elif name == 'mfxer':
        flags = sum(s.read('xer', flag) << (31 - i) for i, flag in enumerate(('SO', 'OV', 'CA')))
        s.write('gpr', o['rt'], flags + s.read('spr', 'XCOUNT') % 128)
    elif name == 'mfcr':
        s.write('gpr', o['rt'], int(''.join(str(s.read('cr', i)) for i in range(32)), 2))
    else:  # mtcrf: the fields whose bit of FXM is 1
        for field in range(8):
            if o['fxm'] >> (7 - field) & 1:
                v = s.gpr(o['rs'])
                for i in range(4 * field, 4 * field + 4):
                    s.write('cr', i, v >> (31 - i) & 1)


def immediate(name, o, s):
    """Arithmetic and logic with an immediate."""
    if name in ('addi', 'addis'):
        value = signed(o['si'], 16) * (65536 if name == 'addis' else 1)
        s.write('gpr', o['rt'], (s.base(o['ra']) + value) & M32)
    elif name == 'mulli':
        s.write('gpr', o['rt'], signed(s.gpr(o['ra'])) * signed(o['si'], 16) & M32)
    elif name in ('addic', 'addic.', 'subfic'):
        a, value = s.gpr(o['ra']), signed(o['si'], 16) & M32
        total = (M32 - a) + value + 1 if name == 'subfic' else a + value
        s.write('gpr', o['rt'], total % 2 ** 32)
        s.write('xer', 'CA', total // 2 ** 32)
        if name == 'addic.':
            record(s, total % 2 ** 32)
    else:
        value = o['ui'] * (65536 if name in ('oris', 'xoris', 'andis.') else 1)
        x = s.gpr(o['rs'])
        result = x | value if name in ('ori', 'oris') else x ^ value if name in ('xori', 'xoris') else x & value
        s.write('gpr', o['ra'], result)
        if name.endswith('.'):
            record(s, result)


def execute(mnemonic, o, s):
    """The instruction at s.pc."""
    name, oe, rc = plain(mnemonic)
    if name in ('b', 'bc', 'bclr', 'bcctr'):
        branch(name, o, s)
        return
    if name in XO_FORMS or name in XO_WITHOUT_OE:
        arithmetic(name, oe, rc, o, s)
    elif name in X_RC_FORMS or name in M_FORMS:
        logical(name, rc, o, s)
    elif name in ('lmw', 'stmw'):
        address = s.base(o['ra']) + signed(o['d'], 16)
        for r in range(o['rt' if name == 'lmw' else 'rs'], 32):
            if name == 'lmw':
                s.write('gpr', r, s.load(address & M32, 4))
            else:
                s.store(address & M32, 4, s.gpr(r))
            address += 4
    elif name in X_FORMS or (name in D_FORMS and name[0] in 'ls' and name != 'subfic'):
        memory(name, o, s)
    elif name in D_FORMS:
        immediate(name, o, s)
    elif name in ('cmp', 'cmpi', 'cmpl', 'cmpli'):
        a = s.gpr(o['ra'])
        if name == 'cmpi':
            b = signed(o['si'], 16) & M32
        elif name == 'cmpli':
            b = o['ui']
        else:
            b = s.gpr(o['rb'])
        if name in ('cmp', 'cmpi'):
            a, b = signed(a), signed(b)
        s.compare(o['bf'], a, b)
    elif name in CR_FORMS:
        a, b = s.read('cr', o['ba']), s.read('cr', o['bb'])
        s.write('cr', o['bt'], {
            'crand': a * b, 'cror': max(a, b), 'crxor': (a + b) % 2, 'crnand': 1 - a * b, 'crnor': 1 - max(a, b),
            'creqv': int(a == b), 'crandc': a * (1 - b), 'crorc': max(a, 1 - b),
        }[name])
    elif name == 'mcrf':
        bits = [s.read('cr', 4 * o['bfa'] + i) for i in range(4)]
        for i, bit in enumerate(bits):
            s.write('cr', 4 * o['bf'] + i, bit)
    else:
        system(name, o, s)
    s.pc = (s.pc + 4) & M32
