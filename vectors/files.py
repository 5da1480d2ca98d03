"""Page files that are malformed, or well formed by a little; and the limits of file, code and memory."""
import pagefile
from blocks import Block, some_block, some_memory, some_state
from opcodes import EMMS
from pagefile import CODE, INTEGERS, LONGEST_FILE, MARKS, MEMORY, MMX, Page, field
from rules import LONGEST_CODE, LONGEST_MEMORY

EMMS_CODE = bytes([0x0F, EMMS])


def shapes(dice):
    """Name and file, from the five fields of a page."""
    good = list(pagefile.fields(some_block(dice, 16, 2).page).values())
    whole = b''.join(good)
    marks = field(MARKS, b'\x08')
    yield 'all-five', whole
    yield 'empty', b''
    yield 'empty-code-and-memory', field(CODE, b'') + field(MEMORY, b'')
    for k, name in enumerate(('code', 'memory', 'mmx', 'integers', 'marks')):
        yield f'without-{name}', b''.join(good[:k] + good[k + 1:])
        yield f'twice-{name}', b''.join(good[:k + 1] + good[k:])
    yield 'out-of-order', b''.join(good[:2] + good[3:1:-1] + good[4:])
    yield 'tag-0', field(0, b'') + whole
    yield 'tag-6', whole + field(6, b'')
    yield 'tag-FF', whole + field(255, b'\x01')
    for tag, length in ((MMX, 64), (INTEGERS, 32), (MARKS, 1)):
        for wrong in sorted({0, length - 1, length + 1}):
            yield f'field-{tag}-of-{wrong}', field(tag, bytes(wrong))
    yield 'marks-0F', b''.join(good[:4]) + field(MARKS, b'\x0F')
    yield 'marks-10', b''.join(good[:4]) + field(MARKS, b'\x10')
    yield 'marks-1F', b''.join(good[:4]) + field(MARKS, b'\x1F')
    yield 'marks-20', b''.join(good[:4]) + field(MARKS, b'\x20')
    yield 'marks-40', b''.join(good[:4]) + field(MARKS, b'\x40')
    yield 'marks-88', b''.join(good[:4]) + field(MARKS, b'\x88')
    yield 'ends-in-heading', whole + b'\x05'
    yield 'ends-in-length', b''.join(good[:4]) + b'\x05\x01'
    yield 'ends-in-field', whole[:-1]
    yield 'length-of-high-byte-first', b'\x01\x00\x02' + EMMS_CODE + marks
    yield 'past-the-end', b'\x01\xFF\xFF' + EMMS_CODE


def limits(dice):
    """Name and file at a limit, or one past it."""
    memory = some_memory(dice, LONGEST_MEMORY + 1)
    block = Block(some_state(dice, LONGEST_MEMORY))
    while block.count < 40:
        block.add_any(dice)
    yield 'memory-32768', pagefile.write(block.page)
    yield 'memory-32769', pagefile.write(Page(EMMS_CODE, memory))
    yield 'code-4096', pagefile.write(Page(EMMS_CODE * (LONGEST_CODE // 2)))
    yield 'code-4097', pagefile.write(Page(EMMS_CODE * (LONGEST_CODE // 2) + b'\x0F'))
    yield 'code-4097-memory-32769', pagefile.write(Page(EMMS_CODE * (LONGEST_CODE // 2) + b'\x0F', memory))
    yield 'memory-32769-marks-20', pagefile.write(Page(EMMS_CODE, memory)) + field(MARKS, b'\x20')
    for length in (LONGEST_FILE, LONGEST_FILE + 1):
        yield f'file-{length}', field(CODE, EMMS_CODE) + field(MEMORY, bytes(length - 8))


def files(dice):
    for make in (shapes, limits):
        for name, file in make(dice):
            yield f'files/{name}', file
