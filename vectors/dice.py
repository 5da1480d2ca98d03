"""A fixed generator, that of crate `hostile`: every run rolls the same numbers, on every Python."""


class Dice:
    def __init__(self, seed=0x0123456789ABCDEF):
        self.number = seed

    def roll(self, sides):
        """A number below a number of sides."""
        x = self.number
        x ^= x << 13 & 0xFFFFFFFFFFFFFFFF
        x ^= x >> 7
        x ^= x << 17 & 0xFFFFFFFFFFFFFFFF
        self.number = x
        return x % sides

    def one_in(self, sides):
        return self.roll(sides) == 0

    def choice(self, items):
        return items[self.roll(len(items))]

    def shuffled(self, items):
        items = list(items)
        for k in range(len(items) - 1, 0, -1):
            j = self.roll(k + 1)
            items[k], items[j] = items[j], items[k]
        return items

    def some_bytes(self, count):
        roll = self.roll
        return bytes([roll(256) for _ in range(count)])
