"""The opcode bytes, to write instructions with. A slip here cannot make a wrong text: what is read is capstone's to say."""
from emulator import immediate_size, instruction_at

# Second byte, name, and the bytes of a lane of the operands: 004's packed operations, and then 000's.
PACKED_004 = [
    (0x60, 'PUNPCKLBW', 1), (0x61, 'PUNPCKLWD', 2), (0x62, 'PUNPCKLDQ', 4),
    (0x63, 'PACKSSWB', 2), (0x67, 'PACKUSWB', 2), (0x6B, 'PACKSSDW', 4),
    (0x64, 'PCMPGTB', 1), (0x65, 'PCMPGTW', 2), (0x66, 'PCMPGTD', 4),
    (0x68, 'PUNPCKHBW', 1), (0x69, 'PUNPCKHWD', 2), (0x6A, 'PUNPCKHDQ', 4),
    (0x74, 'PCMPEQB', 1), (0x75, 'PCMPEQW', 2), (0x76, 'PCMPEQD', 4),
    (0xD1, 'PSRLW', 2), (0xD2, 'PSRLD', 4), (0xD3, 'PSRLQ', 8), (0xE1, 'PSRAW', 2), (0xE2, 'PSRAD', 4),
    (0xF1, 'PSLLW', 2), (0xF2, 'PSLLD', 4), (0xF3, 'PSLLQ', 8),
    (0xD5, 'PMULLW', 2), (0xE5, 'PMULHW', 2), (0xF5, 'PMADDWD', 2),
    (0xD8, 'PSUBUSB', 1), (0xD9, 'PSUBUSW', 2), (0xDC, 'PADDUSB', 1), (0xDD, 'PADDUSW', 2),
    (0xE8, 'PSUBSB', 1), (0xE9, 'PSUBSW', 2), (0xEC, 'PADDSB', 1), (0xED, 'PADDSW', 2),
    (0xDB, 'PAND', 1), (0xDF, 'PANDN', 1), (0xEB, 'POR', 1), (0xEF, 'PXOR', 1),
    (0xF8, 'PSUBB', 1), (0xF9, 'PSUBW', 2), (0xFA, 'PSUBD', 4), (0xFC, 'PADDB', 1), (0xFD, 'PADDW', 2), (0xFE, 'PADDD', 4),
]
PACKED_000 = [
    (0xE0, 'PAVGB', 1), (0xE3, 'PAVGW', 2), (0xEE, 'PMAXSW', 2), (0xDE, 'PMAXUB', 1), (0xEA, 'PMINSW', 2), (0xDA, 'PMINUB', 1),
    (0xE4, 'PMULHUW', 2), (0xF6, 'PSADBW', 1),
]
PACKED = PACKED_004 + PACKED_000
SECOND_BYTE = {name: second for second, name, _ in PACKED}
MOVES = (MOVD_LOAD, MOVD_STORE, MOVQ_LOAD, MOVQ_STORE) = (0x6E, 0x7E, 0x6F, 0x7F)
EMMS = 0x77

# The shifts by an immediate byte: second byte and digit.
SHIFTS = {
    'PSRLW': (0x71, 2), 'PSRAW': (0x71, 4), 'PSLLW': (0x71, 6),
    'PSRLD': (0x72, 2), 'PSRAD': (0x72, 4), 'PSLLD': (0x72, 6),
    'PSRLQ': (0x73, 2), 'PSLLQ': (0x73, 6),
}

# The others of 000. PREFETCH's digits are those of its four instructions.
OTHERS = (MASKMOVQ, MOVNTQ, PEXTRW, PINSRW, PMOVMSKB, PREFETCH, PSHUFW, SFENCE) = (0xF7, 0xE7, 0xC5, 0xC4, 0xD7, 0x18, 0x70, 0xAE)
PREFETCHES = ('PREFETCHNTA', 'PREFETCHT0', 'PREFETCHT1', 'PREFETCHT2')
OF_SFENCE = bytes([0x0F, SFENCE, 0xF8])

# The siblings: their second byte, and the suffix of each, which stands behind the operand bytes.
SIBLING = 0x0F
SUFFIXES = {'PI2FW': 0x0C, 'PF2IW': 0x1C, 'PFCMPGT': 0xA0, 'PFMAX': 0xA4, 'PSWAPD': 0xBB, 'PAVGUSB': 0xBF}

# The first bytes of loops. MOVE and DECREMENT name a register in their low bits.
MOVE, ADD, DECREMENT, JUMP = 0xB8, 0x83, 0x48, 0x75
FIRST_BYTES = [*range(MOVE, MOVE + 8), ADD, *range(DECREMENT, DECREMENT + 8), JUMP]

WITH_OPERAND = [second for second, _, _ in PACKED_004] + list(MOVES)
SECOND_BYTES_004 = WITH_OPERAND + [0x71, 0x72, 0x73, EMMS]
SECOND_BYTES_000 = [second for second, _, _ in PACKED_000] + list(OTHERS)
SECOND_BYTES = SECOND_BYTES_004 + SECOND_BYTES_000
WITH_SIBLINGS = SECOND_BYTES + [SIBLING]
assert len(SECOND_BYTES_004) == 52 and len(set(SECOND_BYTES)) == 68 and len(set(WITH_SIBLINGS)) == 69


def first_forms(second):
    """A second byte with each ModRM byte that it has, as capstone knows them; any bytes follow, or any with a suffix."""
    following = bytes([SUFFIXES['PFMAX'] if second == SIBLING else 0]) * 12
    read = {modrm: instruction_at(bytes([0x0F, second, modrm]) + following) for modrm in range(256)}
    return {modrm: found for modrm, found in read.items() if found}


# The ModRM bytes of each second byte, and the second bytes with an immediate byte, or a suffix, at the end.
FORMS = {second: first_forms(second) for second in WITH_SIBLINGS if second != EMMS}
MODRMS = {second: list(forms) for second, forms in FORMS.items()}
WITH_IMMEDIATE = {second for second, forms in FORMS.items() if any(map(immediate_size, forms.values()))}
assert WITH_IMMEDIATE == {0x71, 0x72, 0x73, PEXTRW, PINSRW, PSHUFW, SIBLING}


def registers(second, reg, rm):
    """An instruction between registers."""
    return bytes([0x0F, second, 0xC0 | reg << 3 | rm])


def at_address(second, reg, address):
    """An instruction with a memory operand at a fixed address: mod 00, rm 101."""
    return bytes([0x0F, second, reg << 3 | 5]) + (address % 2 ** 32).to_bytes(4, 'little')


def shift(name, rm, count):
    second, digit = SHIFTS[name]
    return bytes([0x0F, second, 0xC0 | digit << 3 | rm, count])


def sibling(name, *operand):
    """A sibling with these operand bytes."""
    return bytes([0x0F, SIBLING, *operand, SUFFIXES[name]])


def sibling_registers(name, reg, rm):
    return sibling(name, *registers(SIBLING, reg, rm)[2:])


def sibling_at(name, reg, address):
    return sibling(name, *at_address(SIBLING, reg, address)[2:])


def move(register, number):
    return bytes([MOVE + register]) + (number % 2 ** 32).to_bytes(4, 'little')


def add(register, number):
    return bytes([ADD, 0xC0 | register, number % 256])


def decrement(register):
    return bytes([DECREMENT + register])


def jump(distance):
    """To so many bytes behind the jump, or before that place where it is below 0."""
    return bytes([JUMP, distance % 256])


for _second, _name, _ in PACKED:
    assert instruction_at(registers(_second, 0, 1)).mnemonic == _name.lower()
for _name in SHIFTS:
    assert instruction_at(shift(_name, 0, 1)).mnemonic == _name.lower()
for _name in SUFFIXES:
    assert instruction_at(sibling_registers(_name, 0, 1)).mnemonic == instruction_at(sibling_at(_name, 0, 0)).mnemonic == _name.lower()
for _digit, _name in enumerate(PREFETCHES):
    assert instruction_at(at_address(PREFETCH, _digit, 0)).mnemonic == _name.lower()
for _register in range(8):
    assert [instruction_at(_make(_register, *_rest)).mnemonic for _make, *_rest in ((move, 1), (add, 1), (decrement,))] == ['mov', 'add', 'dec']
assert instruction_at(jump(0)).mnemonic == 'jne'
