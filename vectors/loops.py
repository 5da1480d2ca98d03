"""Loops: counted, nested and without an end; where a jump may lead, and where not; what the four instructions leave, the zero mark included, at any
marks; and bytes that are none of theirs. Beside each page stands its first line, or the answer's name: both follow from the request's words."""
import pagefile
import rules
from emulator import INTEGERS as NAMES
from opcodes import (ADD, EMMS, MASKMOVQ, MOVD_LOAD, MOVD_STORE, MOVE, MOVQ_LOAD, MOVQ_STORE, OF_SFENCE, PREFETCH, SECOND_BYTE, add, at_address,
                     decrement, jump, move, registers, shift)
from pagefile import EM, PENDING, TS, VALID, ZERO, Page
from rules import BUDGET, LONGEST_CODE

EAX, ECX, EDX, EBX, ESP, EBP, ESI, EDI = range(8)
MMX = tuple(int.from_bytes(bytes((41 * (8 * k + i) + 0x37) % 256 for i in range(8)), 'little') for k in range(8))
INTEGERS = tuple(0x01010101 * (0x11 * k + 2) for k in range(8))
MEMORY = bytes(range(0x31, 0x49))
QUADWORD, DOUBLEWORD = 8, 4
CONTROL = EM | TS | PENDING

EMMS_CODE = bytes([0x0F, EMMS])
PADDB, PADDD = (registers(SECOND_BYTE[name], 0, 1) for name in ('PADDB', 'PADDD'))
PREFETCHED = at_address(PREFETCH, 1, 0)
UNREAD = b'\x90'

# With each byte added, one of these gives 0.
NUMBERS = [0x00000000, 0x00000001, 0x0000007F, 0x00000080, 0x000000FF, 0x7FFFFFFF, 0x80000000, 0xFFFFFF80, 0xFFFFFF81, 0xFFFFFFFF, 0x0F770FFC,
           0x12345678]
ADDED = [0x00, 0x01, 0x7F, 0x80, 0xFF]

# Bytes beside those of loops, and forms of 83 that are not listed: the ModRM byte may be the code's last.
FIRST_BYTES = bytes.fromhex('40 50 74 76 82 B7 C0')
FORMS = ['83 00', '83 C8 01', '83 F8', '83 45 00 01']
CUT = ['B8 00 00 00', 'BF', '83', '83 C7', '75']
PREFIXED = ['66 B8 01 00', 'F3 75 00', '67 83 C0 01']


def page_of(*code, marks=0, memory=MEMORY, **integers):
    """Any registers but those that are named."""
    return Page(b''.join(code), memory, MMX, tuple(integers.get(name, INTEGERS[k]) for k, name in enumerate(NAMES)), marks)


def loop(*body):
    """A body, and a jump back to its start."""
    length = sum(map(len, body))
    return b''.join(body) + jump(-length - 2)


def counted(register, turns, *body):
    return move(register, turns) + loop(*body, decrement(register))


def pointed(second, mm, register):
    """An instruction with a memory operand at [register + 0]."""
    return bytes([0x0F, second, 0x40 | mm << 3 | register]) + (b'\x24' if register == ESP else b'') + b'\x00'


def turns():
    to_ten = counted(ECX, 10, add(EAX, 1))
    yield 'counts-to-ten', page_of(to_ten, eax=0), 'done 31 at 11'
    yield 'counts-up-to-zero', page_of(move(EDX, -10), loop(add(EAX, 3), add(EDX, 1)), eax=0), 'done 31 at 13'
    yield 'one-after-another', page_of(counted(ECX, 1, PADDB), counted(ECX, 4, PADDD), to_ten), 'done 48 at 33'
    yield 'nested', page_of(counted(ECX, 5, PADDD, counted(EDX, 7, add(EAX, 2), PADDB)), eax=0), 'done 161 at 25'
    yield 'nested-thrice', page_of(counted(ECX, 4, counted(EDX, 5, counted(EBX, 6, add(EAX, -1)))), eax=120), 'done 433 at 27'
    yield 'over-an-instruction', page_of(counted(ECX, 3, decrement(EAX), jump(3), PADDB), eax=2), 'done 14 at 14'
    fill = loop(pointed(MOVQ_STORE, 0, EDI), PADDB, add(EDI, QUADWORD), decrement(ECX))
    yield 'fills-memory', page_of(move(ECX, 8), move(EDI, 0), fill, memory=bytes(8 * QUADWORD)), 'done 42 at 23'
    copy = loop(add(ESI, -QUADWORD), pointed(MOVQ_LOAD, 2, ESI), pointed(MOVQ_STORE, 2, EDI), add(EDI, QUADWORD), decrement(EDX))
    yield 'copies-backward', page_of(copy, memory=MEMORY + bytes(24), edx=3, esi=24, edi=24), 'done 18 at 17'
    yield 'with-EMMS', page_of(counted(ECX, 3, PADDB, EMMS_CODE)), 'done 13 at 13'
    for register, number in ((EDI, 10), (EBP, 14), (ESP, 14)):
        name = NAMES[register]
        store = loop(pointed(MOVQ_STORE, 3, register), PADDB, add(register, QUADWORD), decrement(ECX))
        yield f'third-turn-{name}', page_of(store, memory=MEMORY[:16], ecx=9, **{name: 0}), f'refused {number} 10 at 0'
    masked = loop(registers(MASKMOVQ, 5, 4), add(EDI, QUADWORD))
    yield 'third-turn-MASKMOVQ', page_of(masked, memory=MEMORY[:23], edi=0), 'refused 10 6 at 0'
    yield 'third-turn-astray', page_of(loop(decrement(EAX)), decrement(EAX), jump(1), eax=3), 'refused 19 7 at 4'


def budgets():
    """A loop of two instructions takes the budget in half as many turns."""
    two, half = loop(decrement(ECX)), BUDGET // 2
    yield 'to-itself', page_of(jump(-2)), 'spent 4096 at 0'
    yield 'to-itself-not-taken', page_of(jump(-2), marks=ZERO), 'done 1 at 2'
    yield 'never-ends', page_of(loop(PADDB, add(EAX, 2)), eax=1), 'spent 4096 at 3'
    yield 'never-ends-marks-7', page_of(loop(decrement(ESP), add(ESP, 2)), marks=CONTROL), 'spent 4096 at 1'
    yield 'done-without-a-jump', page_of(decrement(EDI) * LONGEST_CODE), 'done 4096 at 4096'
    yield 'done-as-it-is-spent', page_of(two, ecx=half), 'done 4096 at 3'
    yield 'done-by-a-jump-as-it-is-spent', page_of(two, decrement(EAX), jump(1), UNREAD, ecx=half - 1), 'done 4096 at 7'
    yield 'a-turn-too-many', page_of(two, ecx=half + 1), 'spent 4096 at 0'
    yield 'a-jump-too-many', page_of(two, decrement(EAX), OF_SFENCE, jump(1), UNREAD, ecx=half - 1), 'spent 4096 at 7'
    yield 'spent-before-5', page_of(two, UNREAD, ecx=half), 'spent 4096 at 3'
    yield '5-before-spent', page_of(two, UNREAD, ecx=half - 1), 'refused 5 4094 at 3'
    yield 'spent-before-19', page_of(two, OF_SFENCE, decrement(EAX), jump(1), ecx=half - 1), 'spent 4096 at 7'
    yield '19-before-spent', page_of(two, decrement(EAX), jump(1), ecx=half - 1), 'refused 19 4095 at 4'


def targets():
    """0, the end, and a byte past each."""
    for name, distance, taken in (('before-0', -3, 'refused 19 0 at 0'), ('end', 0, 'done 1 at 2'), ('past-end', 1, 'refused 19 0 at 0')):
        yield f'to-{name}', page_of(jump(distance)), taken
        yield f'to-{name}-not-taken', page_of(jump(distance), marks=ZERO), 'done 1 at 2'
    yield 'to-end-over-127', page_of(jump(127), UNREAD * 127), 'done 1 at 129'
    yield 'to-past-end-over-126', page_of(jump(127), UNREAD * 126), 'refused 19 0 at 0'
    yield 'to-0', page_of(decrement(EAX), jump(-3), eax=3), 'done 6 at 3'
    yield 'to-0-from-126', page_of(OF_SFENCE * 41, EMMS_CODE, decrement(EAX), jump(-128), eax=2), 'done 88 at 128'
    yield 'to-before-0-from-125', page_of(OF_SFENCE * 41, decrement(EAX), decrement(EAX), jump(-128)), 'refused 19 43 at 125'
    yield 'to-4096', page_of(decrement(ECX) * (LONGEST_CODE - 2), jump(0)), 'done 4095 at 4096'
    yield 'to-4097', page_of(decrement(ECX) * (LONGEST_CODE - 2), jump(1)), 'refused 19 4094 at 4094'
    yield 'code-4097', page_of(decrement(ECX) * (LONGEST_CODE - 1), jump(0), marks=CONTROL), 'refused 2'
    yield 'astray-after-others', page_of(PADDB, add(EBX, 5), move(EDX, 7), jump(-128), EMMS_CODE), 'refused 19 3 at 11'


def middles():
    """What a move's number hides is read where a jump leads behind the first byte."""
    hidden = bytes([MOVE + EBX]) + decrement(EAX) + EMMS_CODE + decrement(ECX)
    yield 'into-a-number', page_of(jump(1), hidden, marks=VALID), 'done 4 at 7'
    yield 'into-a-number-not-taken', page_of(jump(1), hidden, marks=VALID | ZERO), 'done 2 at 7'
    yield 'into-its-own-byte', page_of(jump(-1)), 'refused 5 1 at 1'
    for number, refusal in ((b'\xB9\0\0\0', 3), (b'\x66\x49\0\0', 4), (b'\xC1\0\0\0', 5), (b'\x83\0\0\0', 6)):
        yield f'into-a-number-{refusal}', page_of(jump(1), bytes([MOVE + EDX]), number), f'refused {refusal} 1 at 3'
    twice = bytes([MOVE + ECX]) + decrement(EDX) + jump(4) + b'\0'
    yield 'read-both-ways', page_of(twice, decrement(EDX), jump(-7), EMMS_CODE, edx=9), 'done 6 at 10'


def results(cases):
    """Code that leaves in memory, for each register and the instructions upon it, the register and the zero mark: moves and stores keep it."""
    code = b''
    for number, (register, instructions) in enumerate(cases):
        place, mark = 2 * DOUBLEWORD * number, (register + 1) % 8
        code += instructions + registers(MOVD_LOAD, 6, register) + at_address(MOVD_STORE, 6, place)
        code += move(mark, 0) + jump(len(move(mark, 1))) + move(mark, 1)
        code += registers(MOVD_LOAD, 7, mark) + at_address(MOVD_STORE, 7, place + DOUBLEWORD)
    assert len(code) <= LONGEST_CODE
    return page_of(code, memory=bytes(2 * DOUBLEWORD * len(cases)))


def values():
    """Each register with each number."""
    pairs = [(register, number) for register in range(8) for number in NUMBERS]
    yield 'move', results([(register, move(register, number)) for register, number in pairs]), 'done'
    yield 'decrement', results([(register, move(register, number) + decrement(register)) for register, number in pairs]), 'done'
    for byte in ADDED:
        yield f'add-{byte:02X}', results([(register, move(register, number) + add(register, byte)) for register, number in pairs]), 'done'
    sums = b''.join(add(EDX, byte) + registers(MOVD_LOAD, 0, EDX) + at_address(MOVD_STORE, 0, DOUBLEWORD * byte) for byte in range(256))
    yield 'add-every-byte', page_of(sums, memory=bytes(256 * DOUBLEWORD)), 'done 768 at 3328'


def marked():
    """The four pass all control marks and keep the tag mark; what others leave of the zero mark is what they found."""
    four = counted(ECX, 3, add(EAX, 1))
    for marks in (0, CONTROL, VALID, CONTROL | VALID, ZERO, CONTROL | VALID | ZERO):
        yield f'all-marks-{marks:X}', page_of(four, marks=marks), 'done 10 at 11'
    for marks, refusal in ((EM, 7), (TS, 8), (PENDING, 9)):
        yield f'then-PADDB-marks-{marks}', page_of(four, PADDB, marks=marks), f'refused {refusal} 10 at 11'
    yield 'then-EMMS-marks-7', page_of(four, EMMS_CODE, marks=CONTROL | VALID), 'refused 7 10 at 11'
    yield 'after-EMMS', page_of(EMMS_CODE, four, marks=VALID), 'done 11 at 13'
    yield 'after-PADDB', page_of(PADDB, four), 'done 11 at 14'
    others = [PADDB, at_address(MOVQ_LOAD, 2, 8), at_address(MOVQ_STORE, 3, 16), registers(MOVD_STORE, 4, EBX), shift('PSLLQ', 5, 64), PREFETCHED,
              OF_SFENCE, EMMS_CODE, move(ESI, 0), move(EDI, 1)]
    for marks, name in ((0, 'clear'), (ZERO, 'set')):
        yield f'kept-{name}', page_of(*others, jump(1), UNREAD, marks=marks), 'refused 5 11 at 48' if marks else 'done 11 at 49'


def readings():
    some = counted(EBP, 2, PADDB)
    for first in FIRST_BYTES:
        yield f'first-{first:02X}', page_of(some, bytes([first]), PADDB), 'refused 5 7 at 11'
    for codes, name, refusal in ((CUT, 'cut', 3), (PREFIXED, 'prefix', 4), (FORMS, 'form', 6)):
        for code in codes:
            yield f'{name}-{code.replace(" ", "-")}', page_of(some, bytes.fromhex(code)), f'refused {refusal} 7 at 11'
    yield 'form-marks-7', page_of(bytes([ADD, 0]), marks=CONTROL), 'refused 6 0 at 0'


def files():
    for make in (turns, budgets, targets, middles, values, marked, readings):
        for name, page, first in make():
            file = pagefile.write(page)
            line = rules.text(file).split('\n')[0]
            assert first in (line, line.split()[0]), f'{name}: {line}'
            yield f'loops/{name}', file
