"""Every second byte with every ModRM byte that it has, and every SIB byte at every mod, in an order of chance over long blocks.

EDI is 0 and eight bytes there hold a running sum: PADDD MMn, [EDI] and MOVQ [EDI], MMn follow each instruction that leaves a register, so that no
result is lost when its register is written again. MASKMOVQ writes into the sum itself, to which its data are added then. What 000's instructions
leave in an integer register is moved to an MMX register first; the sum is at address 0 then, as EDI may be that register."""
import pagefile
from blocks import Block, operand, some_state
from opcodes import (EMMS, MASKMOVQ, MODRMS, MOVD_LOAD, MOVD_STORE, MOVNTQ, MOVQ_STORE, PEXTRW, PMOVMSKB, PREFETCH, SECOND_BYTE,
                     SECOND_BYTES_000, SFENCE, SHIFTS, WITH_IMMEDIATE, WITH_OPERAND, at_address, registers)
from rules import LONGEST_CODE

# The other integer registers are from 8 to 63, so that every base with every index stays in the memory.
MEMORY, SUM, POINTERS = 640, 8, 64
FORMS_OF_A_PAGE, LATER_FORMS_OF_A_PAGE = 360, 320
TRIES = 1000
PADDD = SECOND_BYTE['PADDD']


def with_sib(dice, forms):
    """Second bytes and ModRM bytes, with an SIB byte where one follows: each once, as long as there are more."""
    sibs = {mod: dice.shuffled(range(256)) for mod in range(3)}
    for second, modrm in forms:
        mod = modrm >> 6
        has_sib = mod < 3 and modrm & 7 == 4
        yield second, modrm, (sibs[mod].pop() if sibs[mod] else dice.roll(256)) if has_sib else None


def all_of(seconds):
    return ((second, modrm) for second in seconds for modrm in MODRMS[second])


def forms(dice):
    """004's: all 12,353 second bytes with ModRM bytes, all 768 mods with SIB bytes."""
    yield from with_sib(dice, all_of(WITH_OPERAND))
    for second, digit in SHIFTS.values():
        for rm in range(8):
            yield second, 0xC0 | digit << 3 | rm, None
    yield EMMS, None, None


def later_forms(dice):
    """000's: all 3,041."""
    return with_sib(dice, all_of(SECOND_BYTES_000))


def is_at_sum(modrm, sib):
    """[EDI], or an SIB byte with the base EDI and the index EDI or none."""
    return modrm & 0xC7 == 7 or modrm & 0xC7 == 4 and sib & 7 == 7 and sib >> 3 & 7 in (4, 7)


def leaves_integer(second, modrm):
    return second in (PEXTRW, PMOVMSKB) or second == MOVD_STORE and modrm >= 0xC0


def turn(form):
    """What is at the sum comes first in a page, as it may undo it; what writes an integer register last, as that then points nowhere."""
    second, modrm, sib = form
    if second == EMMS:
        return 1
    return 0 if second == MASKMOVQ or is_at_sum(modrm, sib) else 2 if leaves_integer(second, modrm) else 1


def left_in(form):
    """The number of the MMX register that a form leaves a result in, or None."""
    second, modrm, _ = form
    if second in (EMMS, MOVD_STORE, MOVNTQ, PREFETCH, SFENCE) or second == MOVQ_STORE and modrm < 0xC0:
        return None
    return modrm & 7 if second in (0x71, 0x72, 0x73, MOVQ_STORE) else modrm >> 3 & 7


def written(dice, block, form):
    second, modrm, sib = form
    if second == EMMS:
        return bytes([0x0F, EMMS])
    if second in (0x71, 0x72, 0x73):
        return bytes([0x0F, second, modrm, dice.roll(70)])
    code = bytes([0x0F, second, modrm]) + operand(dice, modrm, block.emulator.integers(), SUM + dice.roll(MEMORY - SUM - 7), sib)
    return code + dice.some_bytes(second in WITH_IMMEDIATE)


def add(dice, block, form):
    """A displacement of one byte leads into the memory or not: another target is tried."""
    assert any(block.add(written(dice, block, form)) for _ in range(TRIES)), form
    second, modrm, _ = form
    mm = left_in(form)
    if second in (PEXTRW, PMOVMSKB):
        for code in registers(MOVD_LOAD, mm, modrm >> 3 & 7), at_address(PADDD, mm, 0), at_address(MOVQ_STORE, mm, 0):
            block.add(code)
    elif mm is not None:
        block.add(bytes([0x0F, PADDD, mm << 3 | 7]))
        block.add(bytes([0x0F, MOVQ_STORE, mm << 3 | 7]))


def pages(dice, some_forms, of_a_page):
    rest = dice.shuffled(some_forms)
    for start in range(0, len(rest), of_a_page):
        state = some_state(dice, MEMORY)
        state.integers = tuple(dice.shuffled(range(SUM, POINTERS))[:7]) + (0,)
        block = Block(state)
        for form in sorted(rest[start:start + of_a_page], key=turn):
            add(dice, block, form)
        assert len(block.page.code) <= LONGEST_CODE
        yield block.page


def files(dice, later_dice):
    every = (*pages(dice, forms(dice), FORMS_OF_A_PAGE), *pages(later_dice, later_forms(later_dice), LATER_FORMS_OF_A_PAGE))
    for number, page in enumerate(every):
        yield f'forms/{number:02}', pagefile.write(page)
