"""What 000's instructions do that no packed operation does: every immediate byte of PSHUFW, PEXTRW and PINSRW, every set of top bits for PMOVMSKB and
MASKMOVQ, integer registers that held ones, PSADBW's greatest sum, and MASKMOVQ, MOVNTQ and PINSRW at the memory's end."""
import struct

import pagefile
from edges import EDGES
from opcodes import (MASKMOVQ, MOVD_LOAD, MOVD_STORE, MOVNTQ, MOVQ_LOAD, MOVQ_STORE, PEXTRW, PINSRW, PMOVMSKB, PSHUFW, SECOND_BYTE, at_address,
                     registers)
from pagefile import Page
from rules import LONGEST_CODE

# Registers and words that all differ, with top bits set and clear; each byte of a register is its own.
MMX = tuple(int.from_bytes(bytes((37 * (8 * k + i) + 0x5B) % 256 for i in range(8)), 'little') for k in range(8))
WITH_ONES = MMX[:7] + (2 ** 64 - 1,)
INTEGERS = (0x80017FFF, 0xFFFF0000, 0x0000FFFF, 0x12348765, 0xFEDCBA98, 0x7FFF8000, 0xA5A55A5A, 0x00010100)
QUADWORD, DOUBLEWORD, WORD = 8, 4, 2
EDI = 7


def with_edi(edi):
    return INTEGERS[:EDI] + (edi,)


def load(mm, address):
    return at_address(MOVQ_LOAD, mm, address)


def store(mm, address):
    return at_address(MOVQ_STORE, mm, address)


def halves(items):
    """Number and half."""
    middle = len(items) // 2
    return (0, items[:middle]), (1, items[middle:])


def page_of(snippets, operands=b'', size=QUADWORD, mmx=MMX, edi=INTEGERS[EDI]):
    """Code that leaves so many results of a size behind its operands: a snippet takes its number and the address of its result."""
    code = b''.join(snippet(number, len(operands) + size * number) for number, snippet in enumerate(snippets))
    assert len(code) <= LONGEST_CODE
    return Page(code, operands + bytes(size * len(snippets)), mmx, with_edi(edi))


def shuffle(immediate, in_memory):
    """Of a register below MM4 or of eight bytes, into one from MM4 on."""
    def snippet(number, result):
        reg, source = 4 + number % 4, number // 4 % 4
        code = at_address(PSHUFW, reg, QUADWORD * source) if in_memory else registers(PSHUFW, reg, source)
        return code + bytes([immediate]) + store(reg, result)
    return snippet


def to_integer(code, reg, result):
    """An instruction that leaves an integer register, which held ones: MM7's."""
    return registers(MOVD_STORE, 7, reg) + code + registers(MOVD_LOAD, 6, reg) + at_address(MOVD_STORE, 6, result)


def extract(immediate):
    """Of a register below MM6."""
    def snippet(number, result):
        reg = number % 8
        return to_integer(registers(PEXTRW, reg, number // 8 % 6) + bytes([immediate]), reg, result)
    return snippet


def insert(immediate, in_memory):
    """A word of an integer register, or two bytes at any address, among others of a register."""
    def snippet(number, result):
        reg = number % 7
        source = at_address(PINSRW, reg, number % 23) if in_memory else registers(PINSRW, reg, number // 7 % 8)
        return registers(MOVQ_LOAD, reg, 7) + source + bytes([immediate]) + store(reg, result)
    return snippet


def top_bits(source):
    """Of a register below MM6, loaded with what stands at an address."""
    def snippet(number, result):
        reg, mm = number % 8, number % 6
        return load(mm, source) + to_integer(registers(PMOVMSKB, reg, mm), reg, result)
    return snippet


def masked(mask, data=None):
    """Eight bytes as a mask over what stands at EDI, which is put there before: MM7."""
    def snippet(number, result):
        rm, reg = number % 3, 3 + number % 4
        start = load(rm, mask) + (load(reg, data) if data is not None else b'') + bytes([0x0F, MOVQ_STORE, 7 << 3 | EDI])
        return start + registers(MASKMOVQ, reg, rm) + bytes([0x0F, MOVQ_LOAD, rm << 3 | EDI]) + store(rm, result)
    return snippet


def every_mask():
    """Eight bytes with each set of top bits, the others of chance."""
    for mask in range(256):
        yield bytes((mask >> i & 1) << 7 | (mask * 29 + 53 * i) % 128 for i in range(8))


def immediates():
    every = range(256)
    sources = struct.pack('<4Q', *MMX[:4])
    yield 'PSHUFW-registers', page_of([shuffle(immediate, False) for immediate in every])
    yield 'PSHUFW-memory', page_of([shuffle(immediate, True) for immediate in every], sources)
    yield 'PINSRW-registers', page_of([insert(immediate, False) for immediate in every])
    for part, some in halves(every):
        yield f'PINSRW-memory-{part}', page_of([insert(immediate, True) for immediate in some], sources)
        yield f'PEXTRW-{part}', page_of([extract(immediate) for immediate in some], size=DOUBLEWORD, mmx=WITH_ONES)


def masks():
    for part, some in halves(list(every_mask())):
        operands, places = b''.join(some), range(0, QUADWORD * len(some), QUADWORD)
        yield f'PMOVMSKB-{part}', page_of([top_bits(place) for place in places], operands, DOUBLEWORD, WITH_ONES)
        yield f'MASKMOVQ-{part}', page_of([masked(place) for place in places], operands + bytes(QUADWORD), edi=len(operands))
    edges = bytes(EDGES[1])
    operands = edges + 2 * edges[::-1]
    yield 'MASKMOVQ-edges', page_of([masked(QUADWORD + k, 0) for k in range(QUADWORD)], operands + bytes(QUADWORD), edi=len(operands))
    yield 'MASKMOVQ-of-itself', Page(registers(MASKMOVQ, 5, 5), bytes(range(0x21, 0x31)), MMX, with_edi(3))


def ones():
    """Each integer register, which held ones, from each MMX register."""
    for name, second, immediate in (('PEXTRW', PEXTRW, b'\x02'), ('PMOVMSKB', PMOVMSKB, b'')):
        code = b''.join(registers(second, 7 - k, k) + immediate for k in range(8))
        yield f'{name}-of-ones', Page(code, b'', MMX, (2 ** 32 - 1,) * 8)


def sums():
    """PSADBW's greatest sum, with the greater bytes on either side and on both in turn; and its least."""
    ones, turns = 2 ** 64 - 1, 0xFF00FF00FF00FF00
    code = b''.join(registers(SECOND_BYTE['PSADBW'], reg, reg + 1) for reg in range(0, 8, 2))
    yield 'PSADBW-of-ones', Page(code, b'', (ones, 0, 0, ones, turns, ones ^ turns, ones, ones), INTEGERS)


def ends():
    """At the memory's last bytes, and one beyond; and far outside it."""
    memory = bytes(range(0x41, 0x59))
    last = len(memory) - QUADWORD
    outside = (len(memory), 2 ** 31, 2 ** 32 - 8, 2 ** 32 - 4, 2 ** 32 - 1)
    for name, mask, more in (('none', 0, outside), ('all', 2 ** 64 - 1, ()), ('some', 0x80FF7F0000018081, ())):
        for edi in (last, last + 1) + more:
            yield f'MASKMOVQ-{name}-at-{edi:X}', Page(registers(MASKMOVQ, 2, 6), memory, MMX[:6] + (mask, MMX[7]), with_edi(edi))
    for length in (0, 7, 8):
        yield f'MASKMOVQ-in-{length}', Page(registers(MASKMOVQ, 1, 2), memory[:length], MMX, with_edi(0))
    for address in (last, last + 1, 2 ** 32 - 8):
        yield f'MOVNTQ-at-{address:X}', Page(at_address(MOVNTQ, 3, address), memory, MMX, INTEGERS)
    for address in (len(memory) - WORD, len(memory) - 1, len(memory), 2 ** 32 - 2, 2 ** 32 - 1):
        yield f'PINSRW-at-{address:X}', Page(at_address(PINSRW, 4, address) + b'\xFD', memory, MMX, INTEGERS)
    for length in (1, 2):
        yield f'PINSRW-in-{length}', Page(at_address(PINSRW, 4, 0) + b'\x06', memory[:length], MMX, INTEGERS)


def files():
    for make in (immediates, masks, ones, sums, ends):
        for name, page in make():
            yield f'picks/{name}', pagefile.write(page)
