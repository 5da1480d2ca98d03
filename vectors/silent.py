"""Prefetches and SFENCE: alone and beside others, at all marks, with operands anywhere. They leave everything, the tag mark included."""
import pagefile
from blocks import some_state
from opcodes import EMMS, OF_SFENCE, PREFETCH, PREFETCHES, SECOND_BYTE, at_address, registers
from pagefile import Page
from rules import LONGEST_CODE, LONGEST_MEMORY

FAR = 0xFFFFFFFC
EACH = {name: at_address(PREFETCH, digit, FAR) for digit, name in enumerate(PREFETCHES)} | {'SFENCE': OF_SFENCE}
ALL = b''.join(EACH.values())
EMMS_CODE = bytes([0x0F, EMMS])
PADDB = registers(SECOND_BYTE['PADDB'], 0, 1)
MARKS = range(16)
MEMORY = 16

# Operand bytes of every shape: each base, an index with each scale, displacements of a byte and of four.
OPERANDS = ['00', '49 7F', '92 FF FF FF 7F', '1B', '04 24', '4D 80', '96 00 00 00 80', '1F', '04 CD 00 00 00 00', '4C D0 FF', '94 25 01 00 00 00',
            '5C AE 10', '9C FF FF FF FF FF', '0D FF FF FF FF', '14 65 FF FF FF 7F']


def of_state(dice, code, length=MEMORY, marks=None):
    page = some_state(dice, length)
    page.code = code
    if marks is not None:
        page.marks = marks
    return page


def shapes(dice):
    """Name and page."""
    for name, code in EACH.items():
        for marks in (0, 15):
            yield f'{name}-marks-{marks:X}', of_state(dice, code, marks=marks)
    for marks in MARKS:
        yield f'all-marks-{marks:X}', of_state(dice, ALL, marks=marks)
    for marks in (0, 8):
        yield f'after-EMMS-{marks}', of_state(dice, EMMS_CODE + ALL, marks=marks)
        yield f'before-EMMS-{marks}', of_state(dice, ALL + EMMS_CODE, marks=marks)
        yield f'after-PADDB-{marks}', of_state(dice, PADDB + ALL, marks=marks)
        yield f'between-{marks}', of_state(dice, ALL + PADDB + ALL + EMMS_CODE + ALL, marks=marks)
    for marks in (1, 2, 4, 7, 12):
        yield f'before-PADDB-marks-{marks:X}', of_state(dice, ALL + PADDB + ALL, marks=marks)
        yield f'before-EMMS-marks-{marks:X}', of_state(dice, ALL + EMMS_CODE + ALL, marks=marks)
    yield 'operands', of_state(dice, b''.join(b'\x0F\x18' + bytes.fromhex(operand) for operand in OPERANDS))
    yield 'no-memory', of_state(dice, ALL, 0)
    yield 'then-a-miss', of_state(dice, ALL + at_address(SECOND_BYTE['PAVGB'], 1, MEMORY - 7) + ALL)
    yield 'then-26', of_state(dice, ALL + b'\x26' + ALL, marks=7)
    yield 'as-many-as-there-can-be', Page(OF_SFENCE * (LONGEST_CODE // 3), marks=7)
    yield 'memory-32769', Page(ALL, bytes(LONGEST_MEMORY + 1))
    yield 'code-4097', Page(OF_SFENCE * 1365 + EMMS_CODE, marks=7)


def files(dice):
    for name, page in shapes(dice):
        yield f'silent/{name}', pagefile.write(page)
