"""One instruction at a time on the emulator Unicorn, with names, lengths and operands by the disassembler capstone."""
from capstone import CS_ARCH_X86, CS_MODE_32, CS_OP_IMM, CS_OP_MEM, Cs
from unicorn import UC_ARCH_X86, UC_MODE_32, Uc
from unicorn import x86_const as registers

from pagefile import VALID, ZERO

# 004's 47 headings and the 19 instructions of 000's headings, four of which are prefetches. Which bytes they have is capstone's knowledge.
HEADINGS = set('''
    EMMS MOVD MOVQ PACKSSDW PACKSSWB PACKUSWB PADDB PADDD PADDSB PADDSW PADDUSB PADDUSW PADDW PAND PANDN PCMPEQB PCMPEQD PCMPEQW
    PCMPGTB PCMPGTD PCMPGTW PMADDWD PMULHW PMULLW POR PSLLD PSLLQ PSLLW PSRAD PSRAW PSRLD PSRLQ PSRLW PSUBB PSUBD PSUBSB PSUBSW
    PSUBUSB PSUBUSW PSUBW PUNPCKHBW PUNPCKHDQ PUNPCKHWD PUNPCKLBW PUNPCKLDQ PUNPCKLWD PXOR
    MASKMOVQ MOVNTQ PAVGB PAVGW PEXTRW PINSRW PMAXSW PMAXUB PMINSW PMINUB PMOVMSKB PMULHUW PREFETCHNTA PREFETCHT0 PREFETCHT1 PREFETCHT2
    PSADBW PSHUFW SFENCE'''.lower().split())
assert len(HEADINGS) == 47 + 19

# Req 10's six, coded 0F 0F. The suffix, their last byte, is no operand to capstone.
SIBLINGS = set('PI2FW PF2IW PFMAX PFCMPGT PSWAPD PAVGUSB'.lower().split())

# Req 07's four, by capstone's names, and the first bytes that they are bought with; of ADD's forms the one of a register.
LOOPS = {'mov': range(0xB8, 0xC0), 'add': (0x83,), 'dec': range(0x48, 0x50), 'jne': (0x75,)}

INTEGERS = 'eax ecx edx ebx esp ebp esi edi'.split()
MMX = [f'mm{k}' for k in range(8)]
INTEGER_NUMBERS = [getattr(registers, 'UC_X86_REG_' + name.upper()) for name in INTEGERS]

# The lent memory is at 0, the code and a place for LEA far above it. Unicorn reads eight bytes for an operand of four, so there is
# room behind the memory, filled with what no result may show. A jump may lead before the code and behind it.
ROOM, FILL = 0x9000, b'\xA5'
CODE, LEA, BESIDE = 0x40000000, 0x50000000, 0x1000
ZERO_FLAG, ALWAYS_SET = 0x40, 0x02

LONGEST_INSTRUCTION = 15

disassembler = Cs(CS_ARCH_X86, CS_MODE_32)
disassembler.detail = True


def instruction_at(code):
    """The instruction that these bytes start with, or None where they start with none of the manuals', the loops' and the siblings'."""
    found = next(disassembler.disasm(bytes(code[:LONGEST_INSTRUCTION]), 0, 1), None)
    if found is None:
        return None
    if code[0] == 0x0F:
        return found if found.mnemonic in HEADINGS or found.mnemonic in SIBLINGS else None
    return found if code[0] in LOOPS.get(found.mnemonic, ()) and memory_operand(found) is None else None


def memory_operand(instruction):
    return next((operand.mem for operand in instruction.operands if operand.type == CS_OP_MEM), None)


def ends(at, instruction):
    """Where the run may go on after the instruction at a position: behind it, and at a jump's target, which may lie before 0."""
    behind = at + instruction.size
    if instruction.mnemonic != 'jne':
        return {behind}
    target = instruction.operands[0].imm  # of the same jump at 0, modulo 2^32
    return {behind, at + (target ^ 2 ** 31) - 2 ** 31}


def immediate_size(instruction):
    """How many bytes stand behind the operand bytes: an immediate, or a suffix, or none."""
    return sum(operand.type == CS_OP_IMM for operand in instruction.operands) + (instruction.mnemonic in SIBLINGS)


class Emulator:
    def __init__(self, page):
        self.length = len(page.memory)
        self.uc = Uc(UC_ARCH_X86, UC_MODE_32)
        self.uc.ctl_set_cpu_model(registers.UC_CPU_X86_ATHLON)  # which has the siblings
        self.uc.mem_map(0, ROOM)
        self.uc.mem_map(CODE - BESIDE, 0x3000)
        self.uc.mem_map(LEA, 0x1000)
        self.uc.mem_write(0, page.memory + FILL * (ROOM - self.length))
        self.uc.mem_write(CODE, page.code)
        for k in range(8):
            self.put(k, page.mmx[k])
            self.uc.reg_write(INTEGER_NUMBERS[k], page.integers[k])
        self.uc.reg_write(registers.UC_X86_REG_FPTAG, 0 if page.marks & VALID else 0xFFFF)
        self.uc.reg_write(registers.UC_X86_REG_EFLAGS, ALWAYS_SET | (ZERO_FLAG if page.marks & ZERO else 0))

    def put(self, k, number):
        self.uc.reg_write(registers.UC_X86_REG_FP0 + k, (number, 0xFFFF))  # MMk is the low part of the register FPk

    def mmx(self):
        return tuple(self.uc.reg_read(registers.UC_X86_REG_FP0 + k)[0] for k in range(8))

    def integers(self):
        return tuple(self.uc.reg_read(number) for number in INTEGER_NUMBERS)

    def memory(self):
        return bytes(self.uc.mem_read(0, self.length))

    def place(self, instruction, operand):
        """Where an operand of eight bytes is: the name of its register, or its address."""
        return self.address(instruction) if operand.type == CS_OP_MEM else instruction.reg_name(operand.reg)

    def number_at(self, place):
        return self.mmx()[MMX.index(place)] if place in MMX else int.from_bytes(self.uc.mem_read(place, 8), 'little')

    def put_at(self, place, number):
        if place in MMX:
            self.put(MMX.index(place), number)
        else:
            self.uc.mem_write(place, number.to_bytes(8, 'little'))

    def is_valid(self):
        tags = {self.uc.reg_read(registers.UC_X86_REG_FPTAG) >> 2 * k & 3 for k in range(8)}
        assert tags == {3} or 3 not in tags, 'the eight tags differ'
        return tags != {3}

    def is_zero(self):
        return bool(self.uc.reg_read(registers.UC_X86_REG_EFLAGS) & ZERO_FLAG)

    def perform(self, place, length):
        """Runs the one instruction at a place, and hands back where the next one is."""
        self.uc.emu_start(place, place + length, count=1)
        return self.uc.reg_read(registers.UC_X86_REG_EIP)

    def step(self, at, instruction):
        """Runs the code's instruction at a position, and hands back the next position."""
        end = self.perform(CODE + at, instruction.size) - CODE
        assert end in ends(at, instruction), 'Unicorn and capstone differ in a length or a target'
        return end

    def address(self, instruction):
        """The address of an instruction's memory operand, by a LEA EAX with the same operand bytes."""
        lea = bytes([0x8D, instruction.bytes[2] & 0xC7]) + instruction.bytes[3:instruction.size - immediate_size(instruction)]
        before = self.integers()
        self.uc.mem_write(LEA, lea)
        self.uc.ctl_remove_cache(LEA, LEA + LONGEST_INSTRUCTION)
        self.perform(LEA, len(lea))
        address = self.uc.reg_read(INTEGER_NUMBERS[0])
        self.uc.reg_write(INTEGER_NUMBERS[0], before[0])
        named = dict(zip(INTEGERS, before))
        operand = memory_operand(instruction)
        base, index = (named.get(instruction.reg_name(part), 0) if part else 0 for part in (operand.base, operand.index))
        assert address == (base + index * operand.scale + operand.disp) % 2 ** 32, 'Unicorn and capstone differ in an address'
        return address
