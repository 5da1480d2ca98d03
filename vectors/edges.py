"""One page for each packed operation: every pair of its lanes' edge values, and every edge of a shift's count, each result kept in memory."""
import struct

import pagefile
from opcodes import MOVQ_LOAD, MOVQ_STORE, PACKED, SHIFTS, at_address, registers, shift
from pagefile import Page

# By the bytes of a lane; as many as fill whole registers.
EDGES = {
    1: [0x00, 0x01, 0x7E, 0x7F, 0x80, 0x81, 0xFE, 0xFF],
    2: [0x0000, 0x0001, 0x007F, 0x0080, 0x00FF, 0x0100, 0x7FFF, 0x8000, 0x8001, 0xFF7F, 0xFF80, 0xFFFF],
    4: [0x00000000, 0x00000001, 0x00007FFF, 0x00008000, 0x7FFFFFFF, 0x80000000, 0x80000001, 0xFFFF7FFF, 0xFFFF8000, 0xFFFFFFFF],
    8: [0x0000000000000001, 0x7FFFFFFFFFFFFFFF, 0x8000000000000000, 0x0123456789ABCDEF, 0xFEDCBA9876543210],
}
IMMEDIATES = [0, 1, 7, 8, 15, 16, 17, 31, 32, 33, 63, 64, 65, 128, 255]
COUNTS = IMMEDIATES + [256, 2 ** 16, 2 ** 32, 2 ** 32 + 1, 2 ** 48 + 3, 2 ** 63, 2 ** 64 - 1]
QUADWORD = 8


class Table:
    """Code that takes operands from the memory and keeps each result behind them."""

    def __init__(self, operands):
        self.memory, self.code, self.results = operands, b'', 0

    def keep(self, destination, *instructions):
        """A register's destination loaded, some instructions upon it, and the result stored: each time another register."""
        reg = self.results % 8
        self.code += at_address(MOVQ_LOAD, reg, destination)
        self.code += b''.join(make(reg) for make in instructions)
        self.code += at_address(MOVQ_STORE, reg, len(self.memory) + QUADWORD * self.results)
        self.results += 1

    def operate(self, second, destination, source):
        """An operation, in turn with the source in memory and in a register."""
        if self.results % 2:
            self.keep(destination, lambda reg: at_address(second, reg, source))
        else:
            self.keep(destination, lambda reg: at_address(MOVQ_LOAD, 7 - reg, source), lambda reg: registers(second, reg, 7 - reg))

    def page(self):
        return Page(self.code, self.memory + bytes(QUADWORD * self.results))


def lanes(width, step=1):
    return b''.join(edge.to_bytes(width, 'little') for edge in EDGES[width][::step])


def operands(name, width):
    """What stands in the memory: destinations, which are the edges in a row, and sources: counts, or the edges from last to first, twice."""
    return lanes(width) + (struct.pack(f'<{len(COUNTS)}Q', *COUNTS) if name in SHIFTS else 2 * lanes(width, -1))


def places(name, width):
    """Where the two operands start. A source is any count, or starts at any lane from the destination's place in the other row on: so each edge
    meets each, beside lanes that differ."""
    length = len(lanes(width))
    for start in range(0, length, QUADWORD):
        sources = range(0, QUADWORD * len(COUNTS), QUADWORD) if name in SHIFTS else range(start, start + length, width)
        for source in sources:
            yield start, length + source


def page_of(second, name, width):
    table = Table(operands(name, width))
    for destination, source in places(name, width):
        table.operate(second, destination, source)
    if name in SHIFTS:
        for destination in range(0, len(lanes(width)), QUADWORD):
            for count in IMMEDIATES:
                table.keep(destination, lambda reg: shift(name, reg, count))
    return table.page()


def files():
    for second, name, width in PACKED:
        yield f'edges/{name}', pagefile.write(page_of(second, name, width))
