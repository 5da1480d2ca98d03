"""The 10,000 files of crate `hostile`, made as its code makes them, and counted by the answer that the emulator and 01's rules give."""
import struct

import rules
from dice import Dice
from opcodes import ADD, DECREMENT, JUMP, MOVE, SIBLING, SUFFIXES
from pagefile import CODE, INTEGERS, LONGEST_FILE, MARKS, MEMORY, MMX, field
from rules import LONGEST_CODE, LONGEST_MEMORY

ROOM, SHORT, RARITY, MARK_SIDES, INSTRUCTIONS = LONGEST_FILE + 1, 1024, 32, 33, 12
TO_DECREMENT, FURTHER, DISTANCES, SORTS = 0xFD, 3, 4, 4
HALVES, BESIDE = 16, 4
SECOND_BYTES = bytes.fromhex('''
    60 61 62 63 67 6B 64 65 66 68 69 6A 6E 7E 6F 7F 71 72 73 74 75 76 77 D1 D2 D3 E1 E2 F1 F2 F3
    D5 E5 F5 D8 D9 DC DD E8 E9 EC ED DB DF EB EF F8 F9 FA FC FD FE
    F7 E7 E0 E3 C5 C4 EE DE EA DA D7 E4 18 F6 70 AE''')
NAMES = ['done'] + [f'refused {number}' for number in range(1, 23)] + ['spent', 'none of these']


def random_field(dice, tag, count):
    return struct.pack('<BH', tag, count) + dice.some_bytes(count)


def or_none(dice, make, *rest):
    return b'' if dice.one_in(2) else make(dice, *rest)


def marks(dice):
    return field(MARKS, bytes([dice.roll(MARK_SIDES)]))


def some_length(dice, long):
    return long + dice.roll(long) if dice.one_in(RARITY) else dice.roll(SHORT)


def small(dice, count):
    return (dice.some_bytes(1) + bytes(4))[:count]


def distance(dice):
    return dice.roll(256) if dice.one_in(RARITY) else TO_DECREMENT - FURTHER * dice.roll(DISTANCES)


def loop_instruction(dice):
    register, sort = dice.roll(8), dice.roll(SORTS)
    if sort == 0:
        return bytes([MOVE + register]) + small(dice, 4)
    if sort == 1:
        return bytes([ADD, 0xC0 + register, dice.roll(256)])
    if sort == 2:
        return bytes([DECREMENT + register])
    return bytes([DECREMENT + register, JUMP, distance(dice)])


def operand(dice):
    modrm = dice.roll(256)
    following = (0, 1, 4, 0)[modrm >> 6] + (modrm < 0xC0 and modrm & 7 == 4)
    return bytes([modrm]) + small(dice, following)


def listed(dice):
    first = dice.roll(256) if dice.one_in(RARITY) else 0x0F
    second = dice.roll(256) if dice.one_in(RARITY) else dice.choice(SECOND_BYTES)
    return bytes([first, second]) + operand(dice)


def sibling(dice):
    following = operand(dice)
    suffix = dice.roll(256) if dice.one_in(RARITY) else dice.choice(list(SUFFIXES.values()))
    return bytes([0x0F, SIBLING]) + following + bytes([suffix])


def instruction(dice):
    return loop_instruction(dice) if dice.one_in(2) else sibling(dice) if dice.one_in(BESIDE) else listed(dice)


def half(dice):
    return b'\xFF' * 4 if dice.one_in(RARITY) else dice.some_bytes(4)


def some_halves(dice):
    return field(MMX, b''.join(half(dice) for _ in range(HALVES)))


def plain(dice):
    return dice.some_bytes(ROOM if dice.one_in(RARITY) else dice.roll(SHORT))


def headed(dice):
    code, memory = some_length(dice, LONGEST_CODE), some_length(dice, LONGEST_MEMORY)
    parts = ((CODE, code), (MEMORY, memory), (MMX, 64), (INTEGERS, 32))
    return b''.join(or_none(dice, random_field, tag, count) for tag, count in parts) + or_none(dice, marks)


def likely(dice):
    memory = some_length(dice, LONGEST_MEMORY)
    file = field(CODE, b''.join(instruction(dice) for _ in range(dice.roll(INSTRUCTIONS))))
    file += random_field(dice, MEMORY, memory)
    file += or_none(dice, some_halves)
    file += field(INTEGERS, b''.join(small(dice, 4) for _ in range(8)))
    return file + or_none(dice, marks)


def tally(make, count):
    """How many of so many files get each answer."""
    dice, counts = Dice(), dict.fromkeys(NAMES, 0)
    for _ in range(count):
        first = rules.text(make(dice)[:ROOM]).split('\n')[0].split()
        counts[' '.join(first[:2]) if first[0] == 'refused' else first[0]] += 1
    return counts


def stdout():
    sorts = {'plain': tally(plain, 3000), 'headed': tally(headed, 3000), 'likely': tally(likely, 4000)}
    return ''.join(f'{name}: ' + ', '.join(f'{sort} {sorts[sort][name]}' for sort in sorts) + '\n' for name in NAMES)
