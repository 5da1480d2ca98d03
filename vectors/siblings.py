"""Req 10's six: every suffix with every ModRM byte, and every mod with every SIB byte; every pair of edge halves, each result kept, and 22 where one
is unsupported; all 256 suffix bytes, and none; which refusal comes first; the tag mark; loops, and blocks of any instructions. What the emulator
leaves of the edges must be what the manuals' tables say in their words; beside each page stands its first line, or how that begins, as it follows
from the request's words."""
import struct
from itertools import product

import pagefile
import rules
from blocks import Block, operand, some_state
from edges import EDGES, Table
from edges import operands as lane_operands
from edges import places as lane_places
from emulator import INTEGERS as NAMES
from forms import MEMORY, POINTERS, SUM, TRIES
from loops import counted, loop, pointed
from opcodes import (EMMS, MODRMS, MOVD_LOAD, MOVE, MOVQ_LOAD, MOVQ_STORE, SECOND_BYTE, SECOND_BYTES, SIBLING, SUFFIXES, add, at_address, decrement,
                     jump, move, registers, shift, sibling, sibling_at, sibling_registers)
from pagefile import EM, PENDING, TS, VALID, ZERO, Page
from refusals import AFTER
from rules import BUDGET, EXPONENT, HALF, LONGEST_CODE, halves

EAX, ECX, EDX, EBX, ESP, EBP, ESI, EDI = range(8)
QUADWORD = 8
CONTROL = EM | TS | PENDING
EMMS_CODE = bytes([0x0F, EMMS])

# The greatest and least normal numbers, what is sorted as zero, one and what is just below it, and both ends of a word's range.
EDGE_HALVES = [0x7F7FFFFF, 0xFF7FFFFF, 0x00800000, 0x80800000, 0x007FFFFF, 0x80000001, 0x00000000, 0x80000000, 0x3F800000, 0xBF800000, 0x3F7FFFFF,
               0x46FFFE00, 0x46FFFFFF, 0x47000000, 0xC6FFFE00, 0xC7000000, 0xC7000100]
UNSUPPORTED = [0x7F800000, 0xFF800000, 0xFFC00000, 0x7FFFFFFF]
ZEROS = [0x00000000, 0x80000000, 0x00000001, 0x807FFFFF]

# Words of PI2FW, and what stands above them; wholes of PF2IW, from whose neighbours it cuts a part off.
WORDS = [0x0000, 0x0001, 0x0002, 0x00FF, 0x0100, 0x4001, 0x7FFF, 0x8000, 0x8001, 0xC000, 0xFFFE, 0xFFFF]
RUBBISH = [0xFFFF, 0x7F80, 0x0000, 0x8000, 0xA55A]
WHOLES = [1, 2, 3, 127, 128, 255, 256, 16383, 32766, 32767, 32769, 65535, 2 ** 31, 2 ** 32, 2 ** 63]

# The three that read pairs, and of these the two that read the destination's too.
PAIRED, COMPARED = ('PFMAX', 'PFCMPGT', 'PF2IW'), ('PFMAX', 'PFCMPGT')
OTHERS = [name for name in SUFFIXES if name not in PAIRED]
READS_DESTINATION = COMPARED + ('PAVGUSB',)

# Operand bytes of every kind; displacements that are suffixes themselves.
OPERANDS = ['C1', '00', '04 24', '04 25 0C 1C A0 A4', '05 BB BF 0C 1C', '45 A4', '44 24 A0', '86 1C 00 00 00', '84 24 0C 00 00 00']
PARTS = ['', '04', '05 0C', '05 0C 1C A0', '40', '44 24', '04 25', '80 0C 1C A0', '84', '84 24 BB']
UNLISTED = [0xB4, 0x0D, 0x1D, 0x90, 0x94, 0x9E, 0x0F, 0x00, 0xFF]

MMX = tuple(low | high << HALF for low, high in (
    (0x3F800000, 0xBF800000), (0x40490FDB, 0x00000000), (0xC6FFFE00, 0x46FFFE00), (0x80000000, 0x42C80000), (0x12345678, 0x9ABCDEF0),
    (0x3F000000, 0xC2F70000), (0x007FFFFF, 0x80000001), (0x01020304, 0xA0B0C0D0)))
INTEGERS = tuple(0x01010101 * (0x11 * k + 2) for k in range(8))
PADDD = SECOND_BYTE['PADDD']


def joined(low, high):
    return low | high << HALF


def packed(numbers):
    return struct.pack(f'<{len(numbers)}Q', *numbers)


def bits(number):
    """The half of a number that a half has exactly."""
    half = struct.unpack('<I', struct.pack('<f', number))[0]
    assert value(half) == number
    return half


def value(half):
    """The number of a half that is supported."""
    return struct.unpack('<f', struct.pack('<I', half))[0] if half & EXPONENT else 0.0


# The tables in their words: of halves that are supported, what stands in the result's half.

def maximum(first, second):
    """003's Table 11."""
    if value(first) == 0 or value(second) == 0:
        return first if value(first) > 0 else second if value(second) > 0 else 0
    return first if value(first) > value(second) else second


def greater(first, second):
    """003's Table 10."""
    return 0xFFFFFFFF if value(first) > value(second) else 0


def whole(_, source):
    """000's Table 3."""
    number = value(source)
    return (0x7FFF if number >= 32768 else -0x8000 if number <= -32768 else int(number)) % 2 ** HALF


def single(_, source):
    """000's words on PI2FW: the low word of a half, signed."""
    word = source % 2 ** 16
    return bits(word - 2 ** 16 if word >= 2 ** 15 else word)


def each_half(make):
    return lambda destination, source: joined(*map(make, halves(destination), halves(source)))


def swapped(_, source):
    return joined(*reversed(halves(source)))


def means(destination, source):
    """003's equations of PAVGUSB."""
    return int.from_bytes([(a + b + 1) // 2 for a, b in zip(destination.to_bytes(8, 'little'), source.to_bytes(8, 'little'))], 'little')


RESULTS = {'PFMAX': each_half(maximum), 'PFCMPGT': each_half(greater), 'PF2IW': each_half(whole), 'PI2FW': each_half(single), 'PSWAPD': swapped,
           'PAVGUSB': means}


class Pairs(Table):
    """A table of siblings, with what each must leave."""

    def __init__(self, operands):
        super().__init__(operands)
        self.expected = []

    def number_at(self, place):
        return int.from_bytes(self.memory[place:place + QUADWORD], 'little')

    def operate(self, name, destination, source):
        """In turn with the source in memory and in a register."""
        if self.results % 2:
            self.keep(destination, lambda reg: sibling_at(name, reg, source))
        else:
            self.keep(destination, lambda reg: at_address(MOVQ_LOAD, 7 - reg, source), lambda reg: sibling_registers(name, reg, 7 - reg))
        self.expected.append(RESULTS[name](self.number_at(destination), self.number_at(source)))

    def checked(self):
        """The page, if the emulator leaves what the tables say."""
        page = self.page()
        assert len(page.code) <= LONGEST_CODE
        answer, _, _, emulator = rules.run(page)
        assert answer == 'done' and emulator.memory() == self.memory + packed(self.expected), 'the tables and the emulator differ'
        return page


def table_of(name, destinations, sources, which=None):
    """Every destination with every source, or some of these."""
    table = Pairs(packed(destinations) + packed(sources))
    for i, j in which or product(range(len(destinations)), range(len(sources))):
        table.operate(name, QUADWORD * i, QUADWORD * (len(destinations) + j))
    return table.checked()


def rows(edges):
    """Destinations and sources: each edge in their low and in their high halves. With every destination and every source each edge meets each, in low
    halves and in high ones, beside others, if 5 does not divide their number."""
    count = len(edges)
    return ([joined(edges[i], edges[(i + 5) % count]) for i in range(count)], [joined(edges[j], edges[(5 * j + 2) % count]) for j in range(count)])


def near(half):
    """A half and its neighbours, of both signs."""
    return [half - 1, half, half + 1] + [half + 2 ** 31 + k for k in (-1, 0, 1)]


def any_half(dice):
    """An edge, or any that is supported."""
    return dice.choice(EDGE_HALVES) if dice.one_in(4) else dice.roll(2) << 31 | dice.roll(255) << 23 | dice.roll(2 ** 23)


def any_pair(dice):
    return joined(any_half(dice), any_half(dice))


def edge_operands():
    """Name, destinations and sources of each table. What PF2IW, PI2FW and PSWAPD do not read is unsupported."""
    unread = [joined(0xFFFFFFFF, 0x7F800000)]
    destinations, sources = rows(EDGE_HALVES)
    middle = len(destinations) // 2
    for name in COMPARED:
        yield name, destinations[:middle], sources
        yield name, destinations[middle:], sources
    every = [joined(*pair) for pair in product(EDGE_HALVES, repeat=2)]
    middle = len(every) // 2
    yield 'PF2IW', unread, every[:middle]
    yield 'PF2IW', unread, every[middle:]
    neighbours = [half for number in WHOLES for half in near(bits(number))]
    yield 'PF2IW', unread, [joined(*pair) for pair in zip(neighbours, neighbours[1:] + neighbours[:1])]
    words = [word | RUBBISH[k % len(RUBBISH)] << 16 for k, word in enumerate(WORDS)]
    yield 'PI2FW', unread, [joined(*pair) for pair in product(words, words[::-1])]
    yield 'PSWAPD', unread, [joined(*pair) for pair in product(EDGES[4], repeat=2)]


def means_table():
    """PAVGUSB's, as PAVGB's in `edges`."""
    table = Pairs(lane_operands('PAVGUSB', 1))
    for places in lane_places('PAVGUSB', 1):
        table.operate('PAVGUSB', *places)
    return table


def edge_pairs(name):
    """The destinations and sources of a sibling's tables."""
    for of_table, destinations, sources in edge_operands():
        if of_table == name:
            yield from product(destinations, sources)
    if name == 'PAVGUSB':
        table = means_table()
        yield from ((table.number_at(destination), table.number_at(source)) for destination, source in lane_places(name, 1))


def edges(dice):
    numbers = dict.fromkeys(SUFFIXES, 0)
    for name, destinations, sources in edge_operands():
        yield f'{name}-edges-{numbers[name]}', table_of(name, destinations, sources), 'done'
        numbers[name] += 1
    for name in COMPARED:
        yield f'{name}-neighbours', table_of(name, *rows(near(0x3F800000) + near(0x00800001))), 'done'
    for name in PAIRED:
        some = [any_pair(dice) for _ in range(80)], [any_pair(dice) for _ in range(80)]
        yield f'{name}-any', table_of(name, *some, [(k, k) for k in range(80)] + [(k, 79 - k) for k in range(80)]), 'done'
    yield 'PAVGUSB-edges', means_table().checked(), 'done'


def page_of(*code, marks=0, memory=b'', mmx=MMX, **integers):
    """Any registers but those that are named."""
    return Page(b''.join(code), memory, tuple(mmx), tuple(integers.get(name, INTEGERS[k]) for k, name in enumerate(NAMES)), marks)


def illustration():
    """003's of PAVGUSB: the list goes from bits 63 down."""
    first, second, mean = 0xFFFF010F0070079A, 0xFF00FF100144F7A8, 0xFF80801001 << 24 | 0x5A7FA1
    page = page_of(sibling_registers('PAVGUSB', 0, 1), mmx=(first, second) + MMX[2:])
    assert rules.run(page)[3].mmx()[0] == mean, 'the manual and the emulator differ'
    yield 'PAVGUSB-illustration', page, 'done 1 at 4'


def unsupported():
    """22, a page for each: an unsupported half of each sort in each place that is read, beside edges, with the source in a register or in memory."""
    beside = (edge for edge in EDGE_HALVES * 9)
    for name in PAIRED:
        for places in (*((k,) for k in range(4)), (0, 1, 2, 3)):
            if name == 'PF2IW' and places[0] < 2:
                continue
            for number, half in enumerate(UNSUPPORTED):
                operands = [half if k in places else next(beside) for k in range(4)]
                destination, source = joined(*operands[:2]), joined(*operands[2:])
                in_memory = (number + places[0]) % 2
                code = sibling_at(name, 0, 1) if in_memory else sibling_registers(name, 0, 1)
                mmx = (destination, MMX[1] if in_memory else source) + MMX[2:]
                where = '-'.join(('dl', 'dh', 'sl', 'sh')[k] for k in places) if len(places) < 4 else 'all'
                page = page_of(code, marks=VALID * (number % 2), memory=b'\xFF' + packed([source]) if in_memory else b'', mmx=mmx)
                yield f'{name}-{half:08X}-{where}', page, 'refused 22 0 at 0'


def unread():
    """What is not read may be unsupported, and the others read no pairs."""
    ones = 2 ** 64 - 1
    for name in OTHERS + ['PF2IW']:
        mmx = (ones, MMX[2] if name == 'PF2IW' else joined(*UNSUPPORTED[:2]), joined(*UNSUPPORTED[2:])) + MMX[3:]
        source = packed([mmx[1]])
        yield f'{name}-of-unsupported', page_of(sibling_registers(name, 0, 1), sibling_at(name, 2, 0), memory=source, mmx=mmx), 'done 2 at 12'


def of_zeros():
    """Each zero with each, in both halves, and each alone with itself: PFMAX leaves +0, and nothing of a fraction; the source stays as it stood."""
    for name in PAIRED:
        pairs = [joined(*pair) for pair in product(ZEROS, repeat=2)]
        yield f'{name}-zeros', table_of(name, pairs[:8], pairs), 'done'
        mmx = pairs[1:9]
        yield f'{name}-zeros-kept', page_of(*(sibling_registers(name, k, k + 1) for k in range(0, 8, 2)), mmx=mmx), 'done 4 at 16'
    for name in SUFFIXES:
        yield f'{name}-of-itself', page_of(*(sibling_registers(name, k, k) for k in range(8))), 'done 8 at 32'


def named(code):
    return code.replace(' ', '-') or 'none'


def before(code):
    """What comes before a suffix."""
    return bytes([0x0F, SIBLING]) + bytes.fromhex(code)


def suffixes():
    """All 256: six are listed. Then each kind of operand bytes with one that is not, and with none."""
    for suffix in range(256):
        first = 'done 2 at 7' if suffix in SUFFIXES.values() else 'refused 5 1 at 3'
        yield f'suffix-{suffix:02X}', page_of(registers(SECOND_BYTE['PXOR'], 7, 7), bytes([0x0F, SIBLING, 0xC1, suffix])), first
    for code, suffix in zip(OPERANDS, UNLISTED):
        yield f'unlisted-{suffix:02X}-{named(code)}', page_of(EMMS_CODE, before(code), bytes([suffix]), AFTER, marks=VALID), 'refused 5 1 at 2'
    for code in OPERANDS + PARTS:
        yield f'cut-{named(code)}', page_of(EMMS_CODE, before(code), marks=VALID), 'refused 3 1 at 2'
    for second in (0x0D, 0x0E):
        yield f'second-{second:02X}', page_of(bytes([0x0F, second, 0xC1, SUFFIXES['PFMAX']])), 'refused 5 0 at 0'
    for prefix in (0x66, 0xF3):
        yield f'prefix-{prefix:02X}', page_of(bytes([prefix]), sibling_registers('PFMAX', 0, 1)), 'refused 4 0 at 0'
    yield 'suffix-first', page_of(bytes([0x0F, SIBLING, SUFFIXES['PSWAPD'], 0xC1])), 'refused 3 0 at 0'


def plain_memory(length):
    """Bytes that are no half's last with the exponent FF, wherever an operand is."""
    return bytes((37 * k + 11) % 0x7F for k in range(length))


def displacements():
    """Displacements that are suffixes, with each suffix behind them: of a byte, of four, and as an SIB byte."""
    each = list(SUFFIXES)
    memory = plain_memory(0xC8)

    def kept(codes, **integers):
        """Each leaves its register in the memory behind."""
        pieces = [code + at_address(MOVQ_STORE, number % 8, len(memory) + QUADWORD * number) for number, code in enumerate(codes)]
        page = page_of(*pieces, memory=memory + bytes(QUADWORD * len(pieces)), **integers)
        assert len(page.code) <= LONGEST_CODE
        return page

    pairs = list(product(SUFFIXES.values(), each))
    yield 'displacement-8', kept([sibling(name, 0x40 | k % 8 << 3, byte) for k, (byte, name) in enumerate(pairs)], eax=0x60), 'done'
    yield 'displacement-32', kept([sibling_at(name, k % 8, byte) for k, (byte, name) in enumerate(pairs)]), 'done'
    codes = [sibling(name, 0x44 | k % 8 << 3, byte, 1) for k, (byte, name) in enumerate(pairs)]
    yield 'displacement-as-SIB', kept(codes, eax=0x20, ecx=0x11, ebx=0x07, esp=0x30, edi=0x0A), 'done'
    yield 'displacement-unlisted', kept([sibling(name, 0x40 | k % 8 << 3, 0xB4 - k) for k, name in enumerate(each)], eax=0x60), 'done'
    for suffix in (0xB4, 0x40):
        code = bytes([0x0F, SIBLING, 0x40, SUFFIXES['PFMAX'], suffix])
        yield f'displacement-A4-suffix-{suffix:02X}', page_of(code, memory=memory, eax=0x60), 'refused 5 0 at 0'


def orders():
    """Which refusal comes first. MM1 and what is at 0 are unsupported; an operand at 17, at ESP or at EBP is not wholly in the memory."""
    memory = packed([joined(*UNSUPPORTED[:2]), MMX[0], MMX[2]])
    mmx = (MMX[0], joined(*UNSUPPORTED[2:])) + MMX[2:]
    bad, outside = bytes([0xB4]), {'esp': 17, 'ebp': 2 ** 31}

    def page(*code, marks=0):
        return page_of(*code, marks=marks, memory=memory, mmx=mmx, **outside)

    for name in PAIRED:
        for marks, number in ((EM, 7), (TS, 8), (PENDING, 9), (CONTROL, 7), (TS | PENDING, 8)):
            yield f'{name}-{number}-before-22-marks-{marks}', page(sibling_registers(name, 0, 1), marks=marks), f'refused {number} 0 at 0'
        for where, code, number in (('past', sibling_at(name, 1, 17), 10), ('far', sibling_at(name, 1, -4), 10),
                                    ('ESP', sibling(name, 0x0C, 0x24), 14), ('EBP', sibling(name, 0x4D, 0), 14)):
            yield f'{name}-{number}-before-22-{where}', page(code), f'refused {number} 0 at 0'
        yield f'{name}-22-at-0', page(sibling_at(name, 0, 0)), 'refused 22 0 at 0'
        yield f'{name}-last', page(sibling_at(name, 0, 16)), 'done 1 at 8'
    for name in OTHERS:
        yield f'{name}-7', page(sibling_registers(name, 0, 1), marks=CONTROL), 'refused 7 0 at 0'
        yield f'{name}-10', page(sibling_at(name, 0, 17)), 'refused 10 0 at 0'
        yield f'{name}-14', page(sibling(name, 0x4D, 0)), 'refused 14 0 at 0'
        yield f'{name}-last', page(sibling_at(name, 0, 16)), 'done 1 at 8'
    for marks in (0, EM, TS, PENDING, CONTROL):
        yield f'5-before-marks-{marks}', page(before('C1'), bad, marks=marks), 'refused 5 0 at 0'
        yield f'3-before-marks-{marks}', page(before('C1'), marks=marks), 'refused 3 0 at 0'
    yield '5-before-10', page(before('05 FC FF FF FF'), bad), 'refused 5 0 at 0'
    yield '5-before-14', page(before('45 00'), bad), 'refused 5 0 at 0'
    yield '10-in-no-memory', page_of(sibling_at('PSWAPD', 0, 0)), 'refused 10 0 at 0'
    yield '10-in-7', page_of(sibling_at('PF2IW', 0, 0), memory=bytes(7)), 'refused 10 0 at 0'
    yield 'in-8', page_of(sibling_at('PF2IW', 0, 0), memory=bytes(8)), 'done 1 at 8'


def tags():
    """A sibling makes the tag mark valid; where it is refused the mark stays."""
    for name in SUFFIXES:
        code = sibling_registers(name, 4, 5)
        yield f'{name}-tags', page_of(code), 'done 1 at 4'
        yield f'{name}-tags-EMMS', page_of(code, EMMS_CODE, marks=VALID), 'done 2 at 6'
        yield f'{name}-after-EMMS', page_of(EMMS_CODE, code, marks=VALID), 'done 2 at 6'
    for marks in (0, VALID):
        yield f'22-tags-{marks}', page_of(sibling_registers('PFMAX', 4, 5), marks=marks, mmx=MMX[:5] + (2 ** 64 - 1,) + MMX[6:]), 'refused 22 0 at 0'
    yield '22-after-EMMS', page_of(EMMS_CODE, sibling_registers('PF2IW', 4, 5), marks=VALID, mmx=(2 ** 64 - 1,) * 8), 'refused 22 1 at 2'


def turns():
    """Loops: over memory; through every sign of a counter; refused in the third turn; and the budget."""
    words = struct.pack('<8H', *(WORDS[k] for k in (0, 1, 3, 5, 6, 7, 8, 11)))
    two_words = [pointed(MOVD_LOAD, 0, ESI), registers(SECOND_BYTE['PUNPCKLWD'], 0, 6), sibling_registers('PI2FW', 1, 0),
                 sibling_registers('PFMAX', 1, 7), sibling_registers('PF2IW', 1, 1), pointed(MOVQ_STORE, 1, EDI), add(ESI, 4), add(EDI, QUADWORD)]
    mmx = MMX[:7] + (joined(0x42C80000, 0x3F800000),)
    page = page_of(move(ESI, 0), move(EDI, 16), counted(ECX, 4, *two_words), memory=words + bytes(4 * QUADWORD), mmx=mmx)
    yield 'loop-over-words', page, 'done 43 at 47'
    there_and_back = [registers(MOVD_LOAD, 0, EDX), sibling_registers('PI2FW', 1, 0), sibling_registers('PF2IW', 2, 1), registers(PADDD, 3, 2),
                      sibling_registers('PSWAPD', 3, 3), decrement(EDX)]
    for name, start in (('7FFF', 0x8100), ('0', 0x100), ('10000', 0x10100)):
        page = page_of(counted(ECX, 500, *there_and_back), mmx=MMX[:3] + (0,) + MMX[4:], edx=start)
        yield f'loop-through-{name}', page, 'done 4001 at 27'
    greatest = [sibling_at('PFMAX', 0, 0), sibling_at('PFCMPGT', 1, 8), registers(PADDD, 0, 7)]
    memory = packed([MMX[1], MMX[3]])
    steps = MMX[2:3] + (0,) + MMX[2:7] + (joined(0x00800000, 0x00010000),)
    yield 'loop-greatest', page_of(counted(ECX, 9, *greatest), memory=memory, mmx=steps), 'done 46 at 27'
    # 3F800000, 5F800000 and 7F800000
    rising = loop(sibling_registers('PF2IW', 0, 1), registers(PADDD, 1, 2), decrement(ECX))
    for name, start, step in (('low', joined(0x3F800000, 0), joined(0x20000000, 1)), ('high', joined(1, 0xBF800000), joined(0, 0x20000000))):
        page = page_of(rising, mmx=(0, start, step) + MMX[3:], ecx=9)
        yield f'third-turn-{name}', page, 'refused 22 8 at 0'
    ones = MMX[:6] + (2 ** 64 - 1, MMX[7])
    half = BUDGET // 2
    two = loop(decrement(ECX))
    last = sibling_registers('PFCMPGT', 6, 5)
    yield 'spent-before-22', page_of(two, last, mmx=ones, ecx=half), f'spent {BUDGET} at 3'
    yield '22-before-spent', page_of(two, last, mmx=ones, ecx=half - 1), f'refused 22 {BUDGET - 2} at 3'
    yield 'without-an-end', page_of(loop(sibling_registers('PAVGUSB', 0, 1), decrement(EDX)), edx=2 ** 31), f'spent {BUDGET} at 4'
    # behind the first 0F stand EMMS and a move to ECX; with it they are [EDI + disp8], a suffix and zeros
    inside = bytes([0x0F, SIBLING, 0x77, MOVE + ECX, SUFFIXES['PSWAPD'], 0, 0, 0])
    yield 'into-a-sibling', page_of(jump(1), inside, memory=bytes(16), edi=0x47), 'done 3 at 10'
    yield 'into-a-sibling-not-taken', page_of(jump(1), inside, memory=bytes(16), marks=ZERO, edi=0x47), 'refused 5 2 at 7'


def middles():
    """Refused in the middle: what came before stays, and nothing after it is done."""
    memory = plain_memory(3) + b'\xFF\xFF' + plain_memory(27)
    ones = registers(SECOND_BYTE['PCMPEQD'], 2, 2)
    start = [sibling_at('PI2FW', 0, 3), at_address(MOVQ_STORE, 0, 8), sibling_registers('PSWAPD', 1, 0)]
    for name, code, number in (
            ('compared', [ones, sibling_registers('PFMAX', 0, 2)], 22),
            ('destination', [ones, sibling_registers('PFCMPGT', 2, 0)], 22),
            ('of-itself', [ones, sibling_registers('PF2IW', 2, 2)], 22),
            ('stored', [ones, at_address(MOVQ_STORE, 2, 16), sibling_at('PFMAX', 0, 12)], 22),
            ('shifted', [shift('PSRAD', 1, 8), sibling_registers('PFCMPGT', 1, 4)], 22),  # BF800000, of FFFF, to FFBF8000
            ('past', [ones, sibling_at('PFMAX', 2, 25)], 10),
            ('unlisted', [ones, before('D0'), b'\x9E'], 5),
            ('cut', [ones, before('D0')], 3)):
        done = len(start) + len(code) - 1 - (number == 5)
        yield f'middle-{name}', page_of(*start, *code, b'' if number == 3 else AFTER, memory=memory), f'refused {number} {done}'


def limits():
    code = sibling_registers('PSWAPD', 3, 2)
    yield 'as-many-as-there-can-be', page_of(code * (LONGEST_CODE // 4)), 'done 1024 at 4096'
    yield 'code-4097', page_of(code * (LONGEST_CODE // 4), b'\x0F', marks=CONTROL), 'refused 2'
    yield 'cut-at-4096', page_of(EMMS_CODE, code * (LONGEST_CODE // 4 - 1), b'\x0F\x0F'), 'refused 3 1024 at 4094'


def some_pairs(dice, state):
    """A state in which every other number or so is a pair."""
    state.mmx = tuple(any_pair(dice) if dice.roll(2) else number for number in state.mmx)
    memory = [any_pair(dice).to_bytes(8, 'little') if dice.roll(2) else state.memory[k:k + 8] for k in range(0, len(state.memory), 8)]
    state.memory = b''.join(memory)[:len(state.memory)]
    return state


def every_form(dice):
    """Each suffix with each ModRM byte; where an SIB byte follows, each of these at each mod, with each suffix and each reg a few times."""
    names = list(SUFFIXES)
    for name in names:
        for modrm in MODRMS[SIBLING]:
            if modrm >= 0xC0 or modrm & 7 != 4:
                yield name, modrm, None
    for mod in range(3):
        for number, sib in enumerate(dice.shuffled(range(256))):
            yield names[number // 8 % len(names)], mod << 6 | number % 8 << 3 | 4, sib


def add_form(dice, block, form):
    """A running sum at [EDI] keeps each result. Where a form is refused with any displacement, its register or the sum is unsupported: both become a
    quarter of the sum."""
    name, modrm, sib = form
    reg = modrm >> 3 & 7

    def some():
        target = SUM + dice.roll(MEMORY - SUM - 7)
        return block.add(sibling(name, modrm, *operand(dice, modrm, block.emulator.integers(), target, sib)))

    def at_sum(second):
        assert block.add(bytes([0x0F, second, reg << 3 | EDI]))

    if not any(some() for _ in range(20)):
        for mm in {reg, modrm & 7 if modrm >= 0xC0 else reg}:
            block.add(bytes([0x0F, MOVQ_LOAD, mm << 3 | EDI]))
            block.add(shift('PSRLD', mm, 2))
            block.add(bytes([0x0F, MOVQ_STORE, mm << 3 | EDI]))
        assert any(some() for _ in range(TRIES)), form
    at_sum(PADDD)
    at_sum(MOVQ_STORE)


def forms(dice):
    rest, number = dice.shuffled(every_form(dice)), 0
    while rest:
        state = some_state(dice, MEMORY)
        state.memory = bytes(byte % 0x7F for byte in some_pairs(dice, state).memory)
        state.integers = tuple(dice.shuffled(range(SUM, POINTERS))[:7]) + (0,)
        block = Block(state)
        while rest and len(block.page.code) < LONGEST_CODE - 48:
            add_form(dice, block, rest.pop())
        assert len(block.page.code) <= LONGEST_CODE
        yield f'forms-{number}', block.page, 'done'
        number += 1


def mixed(dice):
    """Blocks of any instructions, every third a sibling or so; each second one then has a sibling that is refused."""
    seconds = SECOND_BYTES + [SIBLING] * (len(SECOND_BYTES) // 2)
    for number, count in enumerate((1, 2, 3, 5, 8, 12, 20, 60) * 2):
        block = Block(some_pairs(dice, some_state(dice, 8 + dice.roll(120))))
        while block.count < count:
            block.add_any(dice, seconds=seconds)
        if number % 2:
            name, mm = dice.choice(COMPARED), dice.roll(8)
            end = f'refused 22 {count + 1} at {len(block.page.code) + 3}'
            block.page.code += registers(SECOND_BYTE['PCMPEQB'], mm, mm) + sibling_registers(name, *dice.shuffled((mm, dice.roll(8)))) + AFTER
            yield f'mixed-{number:02}', block.page, end
        else:
            yield f'mixed-{number:02}', block.page, f'done {count}'
    for number in range(3):
        block = Block(some_pairs(dice, some_state(dice, 128)))
        while len(block.page.code) < LONGEST_CODE - number:
            block.add_any(dice, LONGEST_CODE - number - len(block.page.code), seconds)
        yield f'mixed-{LONGEST_CODE - number}', block.page, 'done'


def files(dice):
    plain = (illustration, unsupported, unread, of_zeros, suffixes, displacements, orders, tags, turns, middles, limits)
    for make in (lambda: edges(dice), *plain, lambda: forms(dice), lambda: mixed(dice)):
        for name, page, first in make():
            file = pagefile.write(page)
            line = rules.text(file).split('\n')[0]
            assert line == first or line.startswith(first + ' '), f'{name}: {line}'
            yield f'siblings/{name}', file
