"""01's "Plates to prove and edges to run", with the customer's figures: what the emulator leaves must be these."""
import pagefile
import rules
from opcodes import MOVQ_LOAD, MOVQ_STORE, SECOND_BYTE, at_address, registers
from pagefile import Page

ALL = 2 ** 64 - 1
MEMORY = bytes(range(0x11, 0x19))
MEMORY_NUMBER = 0x1817161514131211


def packed(name, destination, source, result):
    """A plate of one instruction over MM0 and MM1. One lane stands lowest, with zeros above it."""
    page = Page(registers(SECOND_BYTE[name], 0, 1), mmx=(destination, source) + (0,) * 6)
    return page, 'done 1 at 3', result


def refused(code, number, **rest):
    return Page(bytes.fromhex(code), **rest), f'refused {number} 0 at 0', None


def in_memory(code, result, mm0=0, eax=0):
    """An edge in a memory of eight bytes: MM0's result, or refusal 10."""
    page = Page(code, MEMORY, (mm0,) + (0,) * 7, (eax,) + (0,) * 7)
    return page, 'refused 10 0 at 0' if result is None else f'done 1 at {len(code)}', result


def repeated(lane, width):
    return lane * (ALL // (2 ** width - 1))


# Name; page, first line, and what MM0 holds at the end where 01 says it.
PLATES = {
    'example': (Page(bytes.fromhex('0F FC C1'), mmx=(0xFF, 2) + (0,) * 6), 'done 1 at 3', 1),
    'PADDSB-D2': packed('PADDSB', 0xD2, 0x88, 0x80),
    'PADDSB-53': packed('PADDSB', 0x53, 0xEC, 0x3F),
    'PADDSB-77': packed('PADDSB', 0x77, 0x14, 0x7F),
    'PADDD': packed('PADDD', 0xFFF05C43, 0x000FA3BE, 0x00000001),
    'PCMPGTD-BA15': packed('PCMPGTD', 0x0000BA15, 0x0000BA14, 0xFFFFFFFF),
    'PCMPGTD-1': packed('PCMPGTD', 0x00000001, 0xFFFFFFFF, 0xFFFFFFFF),
    'PSRLD': packed('PSRLD', 0xFFF00000, 16, 0x0000FFF0),
    'PSRLQ': packed('PSRLQ', 0x000FA3BE01234567, 16, 0x0000000FA3BE0123),
    'PSRAW-16': packed('PSRAW', 0x8000, 16, 0xFFFF),
    'PSLLW-2^32': packed('PSLLW', ALL, 0x0000000100000000, 0),
    'PMULHW': packed('PMULHW', 0x8000, 0x8000, 0x4000),
    'PMADDWD': packed('PMADDWD', repeated(0x8000, 16), repeated(0x8000, 16), repeated(0x80000000, 32)),
    'PACKUSWB': packed('PACKUSWB', ALL, ALL, 0),
    '71-C0-01': refused('0F 71 C0 01', 6),
    'PCMPGTW-1': packed('PCMPGTW', 0x0001, 0xFFFF, 0xFFFF),  # the letter's question
    'MOVQ-at-0': in_memory(at_address(MOVQ_LOAD, 0, 0), MEMORY_NUMBER),
    'MOVQ-at-1': in_memory(at_address(MOVQ_LOAD, 0, 1), None),
    'PUNPCKLBW-at-4': in_memory(at_address(SECOND_BYTE['PUNPCKLBW'], 0, 4), 0x18AA17BB16CC15DD, mm0=0xAABBCCDD),
    'PUNPCKLBW-at-5': in_memory(at_address(SECOND_BYTE['PUNPCKLBW'], 0, 5), None),
    'FFFFFFFF-and-1': in_memory(bytes.fromhex('0F 6F 40 01'), MEMORY_NUMBER, eax=0xFFFFFFFF),
    'FFFFFFFC': in_memory(at_address(MOVQ_STORE, 0, 0xFFFFFFFC), None),
    '71-00': refused('0F 71 00', 6),
    '71-D0': refused('0F 71 D0', 3),
    'EM-with-TS': refused('0F FC C1', 7, marks=pagefile.EM | pagefile.TS),
}


def files():
    for number, (name, (page, first, mm0)) in enumerate(PLATES.items()):
        answer, count, at, emulator = rules.run(page)
        assert f'{answer} {count} at {at}' == first, name
        assert mm0 is None or emulator.mmx()[0] == mm0, name
        yield f'plates/{number:02}-{name}', pagefile.write(page)
