"""RV32I, worked on Python's whole numbers.

This is what the cases of `program_spec_riscv` are compared with. It was written from the unprivileged manual and not from the
specification text: words are put together from the instruction formats, and immediates are plain signed numbers.

`assemble(mnemonic, operands)` gives the code word. `execute(mnemonic, operands, state)` changes the state and notes
which cells were read, in order. Operands are `rd`, `rs1`, `rs2`, `imm` (a number, the offset of a jump or branch in
bytes, for lui and auipc the upper 20 bits) and `sh`.
"""

M32 = 0xffffffff


def signed(x, bits=32):
    """The two's complement number of the low `bits` bits of x."""
    x &= (1 << bits) - 1
    return x - (1 << bits) if x >> (bits - 1) else x


class State:
    """Registers and memory. Cells that were never written are 0."""

    def __init__(self, pc=0x1000):
        self.pc = pc
        self.cells = {}
        self.reads = []

    def read(self, name, key):
        self.reads.append((name, key))
        return self.cells.get((name, key), 0)

    def write(self, name, key, value):
        self.cells[(name, key)] = value

    def x(self, r):
        return self.read('x', r) if r else 0

    def set_x(self, r, value):
        if r:
            self.write('x', r, value & M32)

    def load(self, address, count):
        """The number of `count` bytes, the first byte the least significant; addresses wrap at 2^32."""
        return sum(self.read('mem', (address + i) & M32) << 8 * i for i in range(count))

    def store(self, address, count, number):
        for i in range(count):
            self.write('mem', (address + i) & M32, number >> 8 * i & 0xff)


BRANCHES = {'beq': 0, 'bne': 1, 'blt': 4, 'bge': 5, 'bltu': 6, 'bgeu': 7}
LOADS = {'lb': 0, 'lh': 1, 'lw': 2, 'lbu': 4, 'lhu': 5}
STORES = {'sb': 0, 'sh': 1, 'sw': 2}
IMMEDIATES = {'addi': 0, 'slti': 2, 'sltiu': 3, 'xori': 4, 'ori': 6, 'andi': 7}
SHIFTS = {'slli': (1, 0), 'srli': (5, 0), 'srai': (5, 0x20)}
REGISTERS = {
    'add': (0, 0), 'sub': (0, 0x20), 'sll': (1, 0), 'slt': (2, 0), 'sltu': (3, 0), 'xor': (4, 0), 'srl': (5, 0),
    'sra': (5, 0x20), 'or': (6, 0), 'and': (7, 0),
}


def r_type(funct7, rs2, rs1, funct3, rd, opcode):
    return funct7 << 25 | rs2 << 20 | rs1 << 15 | funct3 << 12 | rd << 7 | opcode


def i_type(imm, rs1, funct3, rd, opcode):
    assert -2048 <= imm < 2048
    return (imm & 0xfff) << 20 | rs1 << 15 | funct3 << 12 | rd << 7 | opcode


def assemble(name, o):
    """The code word of an instruction."""
    if name in ('lui', 'auipc'):
        return o['imm'] << 12 | o['rd'] << 7 | (0x37 if name == 'lui' else 0x17)
    if name == 'jal':
        imm = o['imm']
        assert -2 ** 20 <= imm < 2 ** 20 and imm % 2 == 0
        bit = lambda hi, lo: imm >> lo & ((1 << (hi - lo + 1)) - 1)
        return bit(20, 20) << 31 | bit(10, 1) << 21 | bit(11, 11) << 20 | bit(19, 12) << 12 | o['rd'] << 7 | 0x6f
    if name == 'jalr':
        return i_type(o['imm'], o['rs1'], 0, o['rd'], 0x67)
    if name in BRANCHES:
        imm = o['imm']
        assert -4096 <= imm < 4096 and imm % 2 == 0
        bit = lambda hi, lo: imm >> lo & ((1 << (hi - lo + 1)) - 1)
        return r_type(bit(12, 12) << 6 | bit(10, 5), o['rs2'], o['rs1'], BRANCHES[name], bit(4, 1) << 1 | bit(11, 11), 0x63)
    if name in LOADS:
        return i_type(o['imm'], o['rs1'], LOADS[name], o['rd'], 0x03)
    if name in STORES:
        assert -2048 <= o['imm'] < 2048
        imm = o['imm'] & 0xfff
        return r_type(imm >> 5, o['rs2'], o['rs1'], STORES[name], imm & 0x1f, 0x23)
    if name in IMMEDIATES:
        return i_type(o['imm'], o['rs1'], IMMEDIATES[name], o['rd'], 0x13)
    if name in SHIFTS:
        funct3, funct7 = SHIFTS[name]
        return r_type(funct7, o['sh'], o['rs1'], funct3, o['rd'], 0x13)
    funct3, funct7 = REGISTERS[name]
    return r_type(funct7, o['rs2'], o['rs1'], funct3, o['rd'], 0x33)


def computed(name, a, b):
    """The result of an operation on two numbers below 2^32."""
    if name in ('add', 'addi'):
        return a + b
    if name == 'sub':
        return a - b
    if name in ('slt', 'slti'):
        return int(signed(a) < signed(b))
    if name in ('sltu', 'sltiu'):
        return int(a < b)
    if name in ('xor', 'xori'):
        return a ^ b
    if name in ('or', 'ori'):
        return a | b
    if name in ('and', 'andi'):
        return a & b
    n = b % 32
    if name in ('sll', 'slli'):
        return a * 2 ** n
    if name in ('srl', 'srli'):
        return a // 2 ** n
    return signed(a) // 2 ** n


def execute(name, o, s):
    """The instruction at s.pc."""
    here, following = s.pc, (s.pc + 4) & M32
    s.pc = following
    if name == 'lui':
        s.set_x(o['rd'], o['imm'] * 4096)
    elif name == 'auipc':
        s.set_x(o['rd'], here + o['imm'] * 4096)
    elif name == 'jal':
        s.set_x(o['rd'], following)
        s.pc = (here + o['imm']) & M32
    elif name == 'jalr':
        target = (s.x(o['rs1']) + o['imm']) & M32
        s.set_x(o['rd'], following)
        s.pc = target - target % 2
    elif name in BRANCHES:
        a = s.x(o['rs1'])
        b = s.x(o['rs2'])
        holds = {
            'beq': a == b, 'bne': a != b, 'blt': signed(a) < signed(b), 'bge': signed(a) >= signed(b), 'bltu': a < b, 'bgeu': a >= b,
        }[name]
        if holds:
            s.pc = (here + o['imm']) & M32
    elif name in LOADS:
        address = s.x(o['rs1']) + o['imm']
        size = {'b': 1, 'h': 2, 'w': 4}[name[1]]
        number = s.load(address, size)
        s.set_x(o['rd'], number if name.endswith('u') else signed(number, 8 * size))
    elif name in STORES:
        address = s.x(o['rs1']) + o['imm']
        s.store(address, {'b': 1, 'h': 2, 'w': 4}[name[1]], s.x(o['rs2']))
    elif name in IMMEDIATES:
        s.set_x(o['rd'], computed(name, s.x(o['rs1']), o['imm'] & M32))
    elif name in SHIFTS:
        s.set_x(o['rd'], computed(name, s.x(o['rs1']), o['sh']))
    else:
        a = s.x(o['rs1'])
        b = s.x(o['rs2'])
        s.set_x(o['rd'], computed(name, a, b))
