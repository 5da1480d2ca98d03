"""Blocks of any instructions. Each instruction is run on the emulator as it is added, so that a block goes on to its end."""
import pagefile
from edges import EDGES
from emulator import CODE, Emulator, instruction_at
from opcodes import (EMMS, MODRMS, MOVD_STORE, PEXTRW, PMOVMSKB, PREFETCH, SECOND_BYTES, SECOND_BYTES_004, SHIFTS, SIBLING, SUFFIXES, WITH_IMMEDIATE,
                     shift)
from pagefile import Page
from rules import LONGEST_CODE, memory_refusal, step

WILD = [1, 8, 0x7FFFFFFF, 0x80000000, 0x40000000, 0xFFFF8000, 0xFFFFFFF8, 0xFFFFFFFC, 0xFFFFFFFF]
SIZES = [8, 9, 15, 16, 17, 31, 64, 100, 256, 300]
COUNTS = [1, 2, 3, 5, 8, 12, 20, 60]
RANDOM_BLOCKS, LONG_BLOCKS = 24, 3
ESI = 6


def operand(dice, modrm, integers, target, sib=None):
    """What follows a ModRM byte: an SIB byte, and a displacement that leads to the target where there is one and it can."""
    mod, base, start, between = modrm >> 6, modrm & 7, 0, b''
    if mod == 3:
        return b''
    if base == 4:
        sib = dice.roll(256) if sib is None else sib
        between, base = bytes([sib]), sib & 7
        if sib >> 3 & 7 != 4:
            start = integers[sib >> 3 & 7] << (sib >> 6)
    if mod == 0 and base == 5:
        return between + (target - start & 0xFFFFFFFF).to_bytes(4, 'little')
    displacement = (target - start - integers[base] & 0xFFFFFFFF).to_bytes(4, 'little')
    return between + displacement[:(0, 1, 4)[mod]]


def quadword(dice):
    """A register's number: mostly edges of some width, each lane its own."""
    width = dice.choice((1, 1, 2, 2, 4, 8))
    lanes = (dice.choice(EDGES[width]) if dice.roll(4) else dice.roll(2 ** (8 * width)) for _ in range(8 // width))
    return sum(lane << 8 * width * k for k, lane in enumerate(lanes))


def some_memory(dice, length):
    return b''.join(quadword(dice).to_bytes(8, 'little') for _ in range(length // 8 + 1))[:length]


def some_state(dice, length):
    """A page without code: integer registers mostly point into the memory."""
    integers = tuple(dice.choice(WILD) if dice.one_in(4) else dice.roll(max(1, length - 7)) for _ in range(8))
    return Page(b'', some_memory(dice, length), tuple(quadword(dice) for _ in range(8)), integers, dice.choice((0, pagefile.VALID)))


def some_instruction(dice, integers, length, seconds):
    """Any instruction of these second bytes; a memory operand mostly lies in the memory, a prefetch's anywhere."""
    second = dice.choice(seconds)
    if second == EMMS:
        return bytes([0x0F, EMMS])
    if second in (0x71, 0x72, 0x73):
        name = dice.choice([name for name in SHIFTS if SHIFTS[name][0] == second])
        return shift(name, dice.roll(8), dice.roll(70) if dice.roll(4) else dice.roll(256))
    modrm = dice.choice(MODRMS[second])
    if second == MOVD_STORE and dice.roll(4):
        modrm &= 0x3F  # an integer register that points nowhere is of little use
    if second in (PEXTRW, PMOVMSKB) and dice.roll(4):
        modrm = 0xC0 | ESI << 3 | modrm & 7
    target = dice.roll(2 ** 32 if second == PREFETCH else max(1, length - 7))
    last = bytes([dice.choice(list(SUFFIXES.values()))]) if second == SIBLING else dice.some_bytes(second in WITH_IMMEDIATE)
    return bytes([0x0F, second, modrm]) + operand(dice, modrm, integers, target) + last


class Block:
    """A page whose code grows."""

    def __init__(self, page):
        self.page, self.emulator, self.count = page, Emulator(page), 0

    def add(self, code):
        """Adds an instruction and says so, or leaves it out where its operands would be refused."""
        instruction = instruction_at(code)
        if memory_refusal(self.emulator, instruction):
            return False
        at = len(self.page.code)
        self.emulator.uc.mem_write(CODE + at, code)
        step(self.emulator, at, instruction)
        self.page.code += code
        self.count += 1
        return True

    def add_any(self, dice, room=LONGEST_CODE, seconds=SECOND_BYTES_004):
        """Adds some instruction of these second bytes, of no more bytes than there is room for."""
        while True:
            code = some_instruction(dice, self.emulator.integers(), self.emulator.length, seconds)
            if len(code) <= room and room - len(code) != 1 and self.add(code):
                return


def some_block(dice, length, count, seconds=SECOND_BYTES_004):
    block = Block(some_state(dice, length))
    while block.count < count:
        block.add_any(dice, seconds=seconds)
    return block


def blocks(dice, seconds):
    for number in range(RANDOM_BLOCKS):
        yield some_block(dice, dice.choice(SIZES) if dice.roll(6) else dice.roll(8), COUNTS[number % len(COUNTS)], seconds)
    for number in range(LONG_BLOCKS):
        block = Block(some_state(dice, 128))
        while len(block.page.code) < LONGEST_CODE - number:
            block.add_any(dice, LONGEST_CODE - number - len(block.page.code), seconds)
        yield block


def files(dice, later_dice):
    """Blocks of 004's instructions alone, and then of all."""
    for number, block in enumerate((*blocks(dice, SECOND_BYTES_004), *blocks(later_dice, SECOND_BYTES))):
        yield f'blocks/{number:02}', pagefile.write(block.page)
