"""What the pages try, counted as they are played; and whether they would tell lanes that are turned round."""
from collections import Counter, defaultdict

import edges
import illustrations
import rules
import siblings
from emulator import Emulator, instruction_at
from opcodes import (FIRST_BYTES, JUMP, MODRMS, PACKED, SECOND_BYTE, SIBLING, SUFFIXES, WITH_IMMEDIATE, WITH_SIBLINGS, registers,
                     sibling_registers)
from pagefile import Page

# How many pairs of second byte and ModRM byte there are, EMMS counted as one: of 004's, of 000's, and of the siblings'.
PAIRS = 12353 + 3041 + 256
assert PAIRS == 1 + sum(map(len, MODRMS.values()))


class Coverage:
    def __init__(self):
        self.folders, self.answers, self.seconds, self.firsts, self.jumps = Counter(), Counter(), Counter(), Counter(), Counter()
        self.modrms, self.sibs, self.steps = set(), set(), 0
        self.suffixes, self.suffix_modrms, self.sibling_sibs = Counter(), set(), set()
        self.immediates = defaultdict(set)
        self.told_apart = 0

    def step(self, instruction, distance):
        """A completed instruction, and how far from its start the next one is."""
        self.steps += 1
        if instruction.bytes[0] in FIRST_BYTES:
            self.firsts[instruction.bytes[0]] += 1
            if instruction.bytes[0] == JUMP:
                self.jumps['back' if distance < instruction.size else 'on' if distance == instruction.size else 'ahead'] += 1
            return
        self.seconds[instruction.bytes[1]] += 1
        self.modrms.add(bytes(instruction.bytes[1:3]))
        has_sib = len(instruction.bytes) > 3 and instruction.bytes[2] < 0xC0 and instruction.bytes[2] & 7 == 4
        sibs = {(instruction.bytes[2] >> 6, instruction.bytes[3])} if has_sib else set()
        self.sibs |= sibs
        if instruction.bytes[1] == SIBLING:
            self.suffixes[instruction.bytes[-1]] += 1
            self.suffix_modrms.add((instruction.bytes[-1], instruction.bytes[2]))
            self.sibling_sibs |= sibs
        elif instruction.bytes[1] in WITH_IMMEDIATE:
            self.immediates[instruction.bytes[1]].add(instruction.bytes[-1])

    def page(self, name, text):
        lines = text.split('\n')
        first = lines[0].split()
        self.folders[name.split('/')[0]] += 1
        self.answers[' '.join(first[:2]) if first[0] == 'refused' else first[0]] += 1
        self.told_apart += len({int(line.split()[1], 16) for line in lines[1:17] if line}) == 16

    def report(self):
        yield f'{sum(self.folders.values())} pages: ' + ', '.join(f'{count} {folder}' for folder, count in self.folders.items())
        yield 'answers, ' + ', '.join(f'{answer}: {count}' for answer, count in sorted(self.answers.items(), key=in_order))
        yield (f'{self.steps} completed instructions: {len(self.seconds)} of {len(WITH_SIBLINGS)} second bytes, '
               f'each at least {min(self.seconds.values())} times; {len(self.modrms)} of {PAIRS} pairs of second byte and ModRM byte; '
               f'{len(self.sibs)} of 768 pairs of mod and SIB byte')
        yield ', '.join(f'{len(immediates)} immediates of {second:02X}' for second, immediates in sorted(self.immediates.items()))
        yield (f'{sum(self.firsts.values())} of loops: {len(self.firsts)} of {len(FIRST_BYTES)} first bytes, '
               f'each at least {min(self.firsts.values())} times; '
               f'{self.jumps["back"]} jumps back, {self.jumps["ahead"]} ahead, {self.jumps["on"]} on to what follows')
        yield (f'{sum(self.suffixes.values())} of siblings: {len(self.suffixes)} of {len(SUFFIXES)} suffixes, '
               f'each at least {min(self.suffixes.values())} times; '
               f'{len(self.suffix_modrms)} of {256 * len(SUFFIXES)} pairs of suffix and ModRM byte; '
               f'{len(self.sibling_sibs)} of 768 pairs of mod and SIB byte')
        yield f'{self.told_apart} pages leave sixteen registers that all differ'


def in_order(item):
    return [int(word) if word.isdigit() else word for word in item[0].split()]


def operate(name, destination, source):
    """What the emulator leaves of an operation."""
    code = sibling_registers(name, 0, 1) if name in SUFFIXES else registers(SECOND_BYTE[name], 0, 1)
    emulator = Emulator(Page(code, mmx=(destination, source) + (0,) * 6))
    rules.step(emulator, 0, instruction_at(code))
    return emulator.mmx()[0]


def turned(number, width):
    """A register with its lanes in the opposite order; of one lane, its halves."""
    width = min(width, 4)
    lanes = number.to_bytes(8, 'little')
    return int.from_bytes(b''.join(lanes[k:k + width] for k in reversed(range(0, 8, width))), 'little')


def told(name, width, destination, source):
    """Which of destination, source and result could not be turned round without another result."""
    result = operate(name, destination, source)
    return {
        part for part, other in (
            ('destination', operate(name, turned(destination, width), source)),
            ('source', operate(name, destination, turned(source, width))),
            ('result', turned(result, width)),
        ) if other != result
    }


def lanes_report():
    """The illustrations each tell lanes that are turned round, and the edges tell it of destination, source and result alike."""
    width_of = {name: width for _, name, width in PACKED}
    results = 0
    for name, destination, source, _ in illustrations.rows():
        parts = told(name, width_of[name], destination, source)
        assert parts, f'{name}: the illustration stays the same with its lanes turned round'
        results += 'result' in parts
    yield f'{len(list(illustrations.rows()))} illustrations tell a turned operand, {results} of them a turned result'
    for _, name, width in PACKED:
        memory, parts = edges.operands(name, width), set()
        for places in edges.places(name, width):
            parts |= told(name, width, *(int.from_bytes(memory[place:place + 8], 'little') for place in places))
            if len(parts) == 3:
                break
        assert len(parts) == 3, f'{name}: the edges do not tell {parts}'
    yield f'{len(PACKED)} pages of edges tell a turned destination, source and result'
    for name in SUFFIXES:
        parts, wanted = set(), {'source', 'result'} | ({'destination'} if name in siblings.READS_DESTINATION else set())
        for destination, source in siblings.edge_pairs(name):
            parts |= told(name, 1 if name == 'PAVGUSB' else 4, destination, source)
            if parts == wanted:
                break
        assert parts == wanted, f'{name}: the edges tell {parts}'
    yield f'{len(SUFFIXES)} siblings tell a turned source and result, {len(siblings.READS_DESTINATION)} of them a turned destination'
