"""What is printed of a page file. The emulator knows what an instruction does; what stands here is what no emulator knows: 01's and 02's
refusal numbers with their order, 01's run, and the layout of its text."""
import pagefile
from emulator import INTEGERS, LOOPS, Emulator, instruction_at, memory_operand

LONGEST_MEMORY, LONGEST_CODE, BUDGET = 32768, 4096, 4096
PREFIXES = bytes.fromhex('26 2E 36 3E 64 65 66 67 F0 F2 F3')
SIZES = {'movd': 4, 'punpcklbw': 4, 'punpcklwd': 4, 'punpckldq': 4, 'pinsrw': 2}  # the bytes of a memory operand where they are not eight
SILENT = ('prefetchnta', 'prefetcht0', 'prefetcht1', 'prefetcht2', 'sfence')
EDI = INTEGERS.index('edi')
STACK = ('esp', 'ebp')  # the base registers of an operand whose miss is 14

# The operands that are read as pairs of single-precision numbers: PF2IW's source, and both of PFMAX's and PFCMPGT's. A half is sorted by its exponent
# alone (003's Table 1).
PAIRS = {'pf2iw': slice(1, 2), 'pfmax': slice(0, 2), 'pfcmpgt': slice(0, 2)}
HALF, EXPONENT = 32, 0x7F800000

# With one of these behind it, what can be completed to an instruction is one: EMMS; a register form, a listed digit of 71 to 73,
# or any SIB byte, displacement and immediate; a memory form; SFENCE; the register form of 83; PI2FW's suffix, with any operand bytes.
COMPLETIONS = (b'\x77', b'\xD0' * 12, bytes(12), b'\xF8', b'\xC0\x00', b'\x0C' * 12)
OF_SIBLINGS = b'\x0F\x0F'  # with any operand bytes: what is not listed of theirs is a suffix


def is_start(code):
    """Whether an instruction starts with these bytes."""
    return any(instruction_at(code + more) for more in COMPLETIONS)


def reading_refusal(rest):
    """3 to 6: why no instruction stands at the start of what is left of the code."""
    if not rest:
        return 3
    if rest[0] in PREFIXES:
        return 4
    if is_start(rest):
        return 3
    opcode = rest[:2] if rest[0] == 0x0F else rest[:1]
    return 6 if is_start(opcode) and opcode != OF_SIBLINGS else 5


def mark_refusal(marks, instruction):
    """7 to 9."""
    if instruction.mnemonic in SILENT or instruction.mnemonic in LOOPS:
        return None
    return 7 if marks & pagefile.EM else 8 if marks & pagefile.TS else 9 if marks & pagefile.PENDING else None


def operand_refusal(emulator, instruction):
    """10 or 14. Which register is the base is capstone's knowledge."""
    operand = memory_operand(instruction)
    if instruction.mnemonic == 'maskmovq':
        address, base = emulator.integers()[EDI], 'edi'
    elif operand is None or instruction.mnemonic in SILENT:
        return None
    else:
        address, base = emulator.address(instruction), operand.base and instruction.reg_name(operand.base)
    if address + SIZES.get(instruction.mnemonic, 8) <= emulator.length:
        return None
    return 14 if base in STACK else 10


def pairs(emulator, instruction):
    """Where the pairs are that an instruction reads."""
    return [emulator.place(instruction, operand) for operand in instruction.operands[PAIRS.get(instruction.mnemonic, slice(0))]]


def halves(number):
    return number % 2 ** HALF, number >> HALF


def half_refusal(emulator, instruction):
    """22."""
    numbers = map(emulator.number_at, pairs(emulator, instruction))
    return 22 if any(half & EXPONENT == EXPONENT for number in numbers for half in halves(number)) else None


def memory_refusal(emulator, instruction):
    """10 or 14, and then 22."""
    return operand_refusal(emulator, instruction) or half_refusal(emulator, instruction)


def zeroed(number):
    """A pair with +0 for each half with the exponent 00."""
    return sum(half << HALF * k for k, half in enumerate(halves(number)) if half & EXPONENT)


def step(emulator, at, instruction):
    """Runs an instruction that nothing refuses, and hands back the next position. A half with the exponent 00 is zero, whatever its sign and fraction
    are, and PFMAX never leaves it but as +0 (003's Tables 1, 10 and 11); Unicorn has a -0, and numbers below the normal ones. So it is shown +0 in
    the place of such a half, and the source is put back as it stood."""
    places = pairs(emulator, instruction)
    before = [emulator.number_at(place) for place in places]
    for place, number in zip(places, before):
        emulator.put_at(place, zeroed(number))
    end = emulator.step(at, instruction)
    if places and places[-1] != instruction.reg_name(instruction.operands[0].reg):
        emulator.put_at(places[-1], before[-1])
    return end


def run(page, watch=None):
    """The run's answer, its count and its position, and the emulator as the run leaves it. `watch` is shown each completed step: the instruction, and
    how far from its start the next one is."""
    emulator = Emulator(page)
    at = count = 0
    while at != len(page.code):
        if count == BUDGET:
            return 'spent', count, at, emulator
        rest = page.code[at:]
        instruction = instruction_at(rest)
        if instruction is None:
            refusal = reading_refusal(rest)
        else:
            refusal = mark_refusal(page.marks, instruction) or memory_refusal(emulator, instruction)
        if refusal:
            return f'refused {refusal}', count, at, emulator
        end = step(emulator, at, instruction)
        if not 0 <= end <= len(page.code):
            return 'refused 19', count, at, emulator
        if watch:
            watch(instruction, end - at)
        at = end
        count += 1
    return 'done', count, at, emulator


def file_refusal(page):
    """13, 1 or 2."""
    if page is None:
        return 13
    return 1 if len(page.memory) > LONGEST_MEMORY else 2 if len(page.code) > LONGEST_CODE else None


def text(file, watch=None):
    """The whole text of a page file."""
    page = pagefile.read(file)
    refusal = file_refusal(page)
    if refusal:
        return f'refused {refusal}\n'
    answer, count, at, emulator = run(page, watch)
    memory = emulator.memory()
    lines = [f'{answer} {count} at {at}']
    lines += [f'mm{k} {value:016X}' for k, value in enumerate(emulator.mmx())]
    lines += [f'{name} {value:08X}' for name, value in zip(INTEGERS, emulator.integers())]
    lines += ['tags valid' if emulator.is_valid() else 'tags empty', f'zero {int(emulator.is_zero())}', f'memory {len(memory)}']
    lines += [memory[k:k + 16].hex(' ').upper() for k in range(0, len(memory), 16)]
    return '\n'.join(lines) + '\n'
