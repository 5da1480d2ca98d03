"""Operands by ESP and EBP, and by other bases and none, one byte past the memory and at its last bytes; each size of operand by the two; and what is
never 14: a register, MASKMOVQ, a prefetch, a miss that a mark comes before."""
import pagefile
import rules
from emulator import INTEGERS as NAMES
from emulator import Emulator, instruction_at
from opcodes import MASKMOVQ, MOVD_LOAD, MOVD_STORE, MOVNTQ, MOVQ_LOAD, MOVQ_STORE, PINSRW, PREFETCH, PSHUFW, SECOND_BYTE, WITH_IMMEDIATE, registers
from pagefile import Page

MEMORY = bytes(range(0x61, 0x79))
MMX = tuple(0x0101010101010101 * (0x11 * k + 3) for k in range(8))
INTEGERS = (3, 2, 40, 50, 5, 6, 1, 70)
ESP, EBP = NAMES.index('esp'), NAMES.index('ebp')
REG, IMMEDIATE = 3, b'\x1B'
QUADWORD = 8
DISPLACEMENT = 'displacement'

# Operand bytes with reg 000; the part of the address that is chosen so that it leads to a place, a register or the displacement of 32 bits, which is
# the last; and the number of a miss, as it stands in the request or follows from its words alone.
NAMED = {
    'EBP+0': ('45 00', 'ebp', 14),
    'disp32': ('05 00 00 00 00', DISPLACEMENT, 10),
    'EAX+EBP': ('04 28', 'ebp', 10),
    'ESP': ('04 24', 'esp', 14),
    'disp32+EBP': ('04 2D 07 00 00 00', 'ebp', 10),
    'ESP+EBP': ('04 2C', 'ebp', 14),
}
OTHERS = {
    'EBP-128': ('45 80', 'ebp', 14),
    'EBP+disp32': ('85 00 00 00 00', DISPLACEMENT, 14),
    'EBP+SIB': ('44 25 09', 'ebp', 14),
    'EBP+4ECX': ('44 8D 00', 'ebp', 14),
    'EBP+8EBP+disp32': ('84 ED 00 00 00 00', DISPLACEMENT, 14),
    'ESP+127': ('44 24 7F', 'esp', 14),
    'ESP+2EAX+disp32': ('84 44 00 00 00 00', DISPLACEMENT, 14),
    'disp32-SIB': ('04 25 00 00 00 00', DISPLACEMENT, 10),
    '8EBP+disp32': ('04 ED 00 00 00 00', DISPLACEMENT, 10),
    'ECX+4EBP+disp32': ('84 A9 00 00 00 00', DISPLACEMENT, 10),
    'ESI+EBP-1': ('44 2E FF', 'esi', 10),
    'EDI': ('07', 'edi', 10),
}

# Each size of operand, by one of the two.
BY_EBP, BY_ESP = NAMED['EBP+0'], NAMED['ESP']
SIZED = {
    'MOVD-load': (MOVD_LOAD, 4, BY_EBP), 'MOVD-store': (MOVD_STORE, 4, BY_ESP), 'PUNPCKLBW': (SECOND_BYTE['PUNPCKLBW'], 4, BY_ESP),
    'PUNPCKLDQ': (SECOND_BYTE['PUNPCKLDQ'], 4, BY_EBP), 'PADDB': (SECOND_BYTE['PADDB'], 8, BY_EBP), 'PSADBW': (SECOND_BYTE['PSADBW'], 8, BY_ESP),
    'PINSRW': (PINSRW, 2, BY_EBP), 'PSHUFW': (PSHUFW, 8, BY_ESP), 'MOVNTQ': (MOVNTQ, 8, BY_EBP),
}


def page_of(*code, integers=INTEGERS):
    return Page(b''.join(code), MEMORY, MMX, tuple(integers))


def by_operand(second, operand):
    modrm, *rest = bytes.fromhex(operand)
    return bytes([0x0F, second, modrm | REG << 3, *rest])


def led_to(target, second, operand, chosen):
    """A page of one instruction, whose operand is at a place: Unicorn says where it is before the part is chosen."""
    code, immediate = by_operand(second, operand), IMMEDIATE * (second in WITH_IMMEDIATE)
    before = page_of(code, immediate)
    missing = target - Emulator(before).address(instruction_at(before.code))
    if chosen == DISPLACEMENT:
        displacement = (int.from_bytes(code[-4:], 'little') + missing) % 2 ** 32
        return page_of(code[:-4], displacement.to_bytes(4, 'little'), immediate)
    integers = list(INTEGERS)
    integers[NAMES.index(chosen)] = (integers[NAMES.index(chosen)] + missing) % 2 ** 32
    return page_of(code, immediate, integers=integers)


def misses():
    """Name, page and the number of its refusal."""
    for name, (operand, chosen, number) in (NAMED | OTHERS).items():
        for way, second in (('load', MOVQ_LOAD), ('store', MOVQ_STORE)):
            yield f'{name}-{way}', led_to(len(MEMORY) - QUADWORD + 1, second, operand, chosen), number
    for name, (second, size, (operand, chosen, number)) in SIZED.items():
        yield f'{name}-misses', led_to(len(MEMORY) - size + 1, second, operand, chosen), number
    for number, mark in ((7, pagefile.EM), (8, pagefile.TS), (9, pagefile.PENDING)):
        page = led_to(2 ** 31, MOVQ_STORE, *BY_EBP[:2])
        page.marks |= mark
        yield f'mark-{mark}-before-14', page, number
    yield 'MASKMOVQ-MM5-MM4', page_of(registers(MASKMOVQ, 5, 4)), 10


def reaches():
    """Name and page: nothing is refused."""
    for name, (operand, chosen, _) in NAMED.items():
        for way, second in (('load', MOVQ_LOAD), ('store', MOVQ_STORE)):
            yield f'{name}-{way}-last', led_to(len(MEMORY) - QUADWORD, second, operand, chosen)
    for name, (second, size, (operand, chosen, _)) in SIZED.items():
        yield f'{name}-last', led_to(len(MEMORY) - size, second, operand, chosen)
    for name, (operand, chosen, _) in (('ESP', BY_ESP), ('EBP', BY_EBP)):
        yield f'PREFETCHT2-{name}', led_to(2 ** 32 - 1, PREFETCH, operand, chosen)
    yield 'registers', page_of(registers(MOVD_LOAD, 1, ESP), registers(MOVD_STORE, 2, EBP), registers(MOVD_STORE, 3, ESP))


def later():
    """Name and page: a store by EBP, or ESP, which stays; then MOVD leads the register out of the memory; then it is used once more."""
    for name, register, (operand, _, _) in (('EBP', EBP, BY_EBP), ('ESP', ESP, BY_ESP)):
        for way, second in (('load', MOVQ_LOAD), ('store', MOVQ_STORE)):
            yield f'{name}-led-out-{way}', page_of(by_operand(MOVQ_STORE, operand), registers(MOVD_STORE, 0, register), by_operand(second, operand))


def files():
    for name, page, number in misses():
        assert rules.run(page)[:3] == (f'refused {number}', 0, 0), name
        yield f'stack/{name}', pagefile.write(page)
    for name, page in reaches():
        assert rules.run(page)[0] == 'done', name
        yield f'stack/{name}', pagefile.write(page)
    for name, page in later():
        assert rules.run(page)[:2] == ('refused 14', 2), name
        yield f'stack/{name}', pagefile.write(page)
