"""Page files (01, "The page file and the program"): a page, written as fields and read back."""
import struct
from dataclasses import dataclass

LONGEST_FILE = 65536
CODE, MEMORY, MMX, INTEGERS, MARKS = 1, 2, 3, 4, 5
LENGTHS = {MMX: 64, INTEGERS: 32, MARKS: 1}
EM, TS, PENDING, VALID, ZERO = 1, 2, 4, 8, 16


@dataclass
class Page:
    code: bytes = b''
    memory: bytes = b''
    mmx: tuple = (0,) * 8
    integers: tuple = (0,) * 8
    marks: int = 0


def field(tag, contents):
    return struct.pack('<BH', tag, len(contents)) + contents


def fields(page):
    """The five fields of a page, by tag."""
    contents = {
        CODE: page.code,
        MEMORY: page.memory,
        MMX: struct.pack('<8Q', *page.mmx),
        INTEGERS: struct.pack('<8I', *page.integers),
        MARKS: bytes([page.marks]),
    }
    return {tag: field(tag, contents[tag]) for tag in contents}


def write(page):
    """A page's file, without an empty code or memory, and without registers or marks that are all zero."""
    return b''.join(text for tag, text in fields(page).items() if any(text[3:]) or tag in (CODE, MEMORY) and len(text) > 3)


def read(file):
    """The page of a file, or None where the file is malformed."""
    if len(file) > LONGEST_FILE:
        return None
    contents = {CODE: b'', MEMORY: b'', MMX: bytes(64), INTEGERS: bytes(32), MARKS: bytes(1)}
    at = last = 0
    while at < len(file):
        if len(file) - at < 3:
            return None
        tag, length = struct.unpack_from('<BH', file, at)
        at += 3
        if not last < tag <= MARKS or len(file) - at < length or LENGTHS.get(tag, length) != length:
            return None
        contents[tag] = file[at:at + length]
        last, at = tag, at + length
    if contents[MARKS][0] >= 32:
        return None
    return Page(contents[CODE], contents[MEMORY], struct.unpack('<8Q', contents[MMX]), struct.unpack('<8I', contents[INTEGERS]),
                contents[MARKS][0])
