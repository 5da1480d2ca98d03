"""Blocks that stop: some instructions that complete, then one that is refused, then more. The names say what is tried; which number it gets is not
said here, but of what the requests' text itself gives a number."""
import pagefile
import rules
from blocks import operand, some_block
from opcodes import (MOVD_LOAD, MOVD_STORE, MOVNTQ, MOVQ_LOAD, MOVQ_STORE, PINSRW, PSHUFW, SECOND_BYTE, SECOND_BYTES, SECOND_BYTES_004, SHIFTS,
                     WITH_IMMEDIATE)
from rules import PREFIXES

BEFORE = 4  # fewer than so many instructions come first
AFTER = bytes.fromhex('0F 6F FE 0F EF DB')

FIRST_BYTES = bytes.fromhex('00 0E 10 FF')
SECOND_UNLISTED = bytes.fromhex('0B 0F 5F 6C C6 78 7D 80 D0 D4 F0 FF')

# An instruction without its last part: second byte, ModRM byte, SIB byte, displacement (whole or in part), immediate.
CUT = ['0F', '0F FC', '0F 71', '0F FC 04', '0F 6F 44', '0F FC 40', '0F FC 44 24', '0F 7F 80', '0F 60 05 00 00', '0F FC 04 25 01 02 03',
       '0F 6E 84 24 01', '0F 71 D0', '0F 72 E1', '0F 73 F7']

# Marks and code: reading's refusals come before the marks, and the marks before the operand. No code is done at any marks.
MARKED = [(1, '26'), (2, '90'), (3, '0F 0B'), (4, '0F 71 C0'), (5, '0F 73 00'), (6, '0F'), (7, '0F FC'), (4, '0F 6F 05 FF FF FF FF'), (2, '0F 77'),
          (7, '')] + [(marks, '0F FC C1') for marks in range(1, 8)]

# The same of 000's. Its forms that are not listed are refused at the ModRM byte, with no look at what follows: so each ends the code there too.
LATER_UNLISTED = bytes.fromhex('0D 17 19 1F AC AF C3 C7 D6 E6')
NO_FORM = ['0F C5 00', '0F C5 04', '0F C5 47', '0F C5 85', '0F D7 00', '0F D7 7C', '0F D7 BF', '0F F7 00', '0F F7 0F', '0F F7 84', '0F E7 C0',
           '0F E7 FF', '0F 18 C0', '0F 18 D9', '0F 18 20', '0F 18 24', '0F 18 6D', '0F 18 BC', '0F 18 E4', '0F AE E8', '0F AE F0', '0F AE F9',
           '0F AE FF', '0F AE 38', '0F AE 3C', '0F AE 00', '0F AE B8']
LATER_CUT = ['0F E0', '0F F6 04', '0F C5', '0F C5 C0', '0F C5 FF', '0F 18', '0F 18 04', '0F 18 15 00', '0F 18 44 24', '0F 18 98 01 02 03', '0F AE',
             '0F 70', '0F 70 C1', '0F 70 04', '0F 70 05 00 00 00 00', '0F C4', '0F C4 C1', '0F C4 44 24 01', '0F C4 84 25 01 02', '0F E7', '0F E7 80',
             '0F F7', '0F D7']
LATER_MARKED = [(1, '0F C5 00'), (2, '0F 18 C0'), (3, '0F AE E8'), (4, '0F 18 20'), (5, '0F F7 07'), (6, '0F D7 00'), (7, '0F E7 C0'),
                (7, '0F 18 04'), (1, '0F C5 C0'), (2, '0F 70 C1'), (7, '0F AE'), (4, '0F E7 05 FF FF FF FF'), (2, '0F C4 05 FF FF FF FF 03'),
                (1, '0F F7 C1'), (2, '0F F7 C1'), (4, '0F F7 C1'), (1, '0F E0 C1'), (2, '0F C5 C1 02'), (4, '0F D7 C1'), (3, '0F 70 C1 1B'),
                (6, '0F C4 C1 01'), (5, '0F E7 05 00 00 00 00')]

# The numbers that stand in the requests, or follow from their words alone.
NUMBERS = {'0F C5 00': 6, '0F C5 C0': 3, '0F 18 C0': 6, '0F 18 20': 6, '0F 18 04': 3, '0F AE': 3, '0F AE E8': 6, '0F AE F0': 6, '0F AE F9': 6,
           '0F AE 38': 6, '0F AE 3C': 6, '0F E7 C0': 6, '0F F7 00': 6, '0F D7 00': 6}

# Operands of each size and sort, in a memory of so many bytes; besides the first byte too far, each has one of these addresses.
SIZES = {MOVQ_LOAD: 8, MOVQ_STORE: 8, MOVD_LOAD: 4, MOVD_STORE: 4, SECOND_BYTE['PUNPCKLWD']: 4, SECOND_BYTE['PSRLQ']: 8, SECOND_BYTE['PMADDWD']: 8}
LATER_SIZES = {MOVNTQ: 8, PINSRW: 2, PSHUFW: 8, SECOND_BYTE['PAVGB']: 8, SECOND_BYTE['PMINSW']: 8, SECOND_BYTE['PMULHUW']: 8,
               SECOND_BYTE['PSADBW']: 8}
MEMORY = 24
OUTSIDE = [MEMORY - 1, MEMORY, 2 ** 32 - 4, 2 ** 32 - 8, 2 ** 32 - 1, 2 ** 31, 2 ** 16]


def named(code):
    return code.replace(' ', '-') or 'none'


def stopped(dice, bad, after=AFTER, seconds=SECOND_BYTES_004):
    page = some_block(dice, MEMORY, dice.roll(BEFORE), seconds).page
    page.code += bad + after
    return pagefile.write(page)


def marked(dice, rows):
    """Marks and code alone, with any registers."""
    for marks, code in rows:
        page = some_block(dice, MEMORY, 0).page
        page.code, page.marks = bytes.fromhex(code), page.marks | marks
        yield f'refusals/marks-{marks}-{named(code)}', pagefile.write(page)


def shift_bytes():
    """71 to 73 with every digit that is not listed, and each with another mod than 11."""
    for mod, second in enumerate((0x71, 0x72, 0x73)):
        for digit in range(8):
            if (second, digit) not in SHIFTS.values():
                yield second, 0xC0 | digit << 3 | digit
        yield second, mod << 6 | 2 << 3 | mod


def misses(dice, sizes, seconds=SECOND_BYTES_004):
    """A page with an operand that is not wholly in the memory."""
    for (second, size), outside in zip(sizes.items(), OUTSIDE):
        for target in (MEMORY - size + 1, outside):
            block = some_block(dice, MEMORY, dice.roll(BEFORE), seconds)
            modrm = 0x80 | dice.roll(64)
            block.page.code += bytes([0x0F, second, modrm]) + operand(dice, modrm, block.emulator.integers(), target)
            block.page.code += dice.some_bytes(second in WITH_IMMEDIATE) + AFTER
            yield f'refusals/operand-{second:02X}-at-{target:X}', pagefile.write(block.page)


def of_004(dice):
    for first in PREFIXES + FIRST_BYTES:
        yield f'refusals/first-{first:02X}', stopped(dice, bytes([first]))
    for second in SECOND_UNLISTED:
        yield f'refusals/second-{second:02X}', stopped(dice, bytes([0x0F, second]))
    for second, modrm in shift_bytes():
        yield f'refusals/shift-{second:02X}-{modrm:02X}', stopped(dice, bytes([0x0F, second, modrm]))
    for cut in CUT:
        yield f'refusals/cut-{named(cut)}', stopped(dice, bytes.fromhex(cut), b'')
    yield from marked(dice, MARKED)
    yield from misses(dice, SIZES)


def of_000(dice):
    for second in LATER_UNLISTED:
        yield f'refusals/second-{second:02X}', stopped(dice, bytes([0x0F, second]), seconds=SECOND_BYTES)
    for number, code in enumerate(NO_FORM):
        yield f'refusals/form-{named(code)}', stopped(dice, bytes.fromhex(code), AFTER if number % 2 else b'', SECOND_BYTES)
    for cut in LATER_CUT:
        yield f'refusals/cut-{named(cut)}', stopped(dice, bytes.fromhex(cut), b'', SECOND_BYTES)
    yield from marked(dice, LATER_MARKED)
    yield from misses(dice, LATER_SIZES, SECOND_BYTES)


def files(dice, later_dice):
    for code, number in NUMBERS.items():
        assert rules.reading_refusal(bytes.fromhex(code)) == number, code
    yield from of_004(dice)
    yield from of_000(later_dice)
