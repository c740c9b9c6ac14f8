"""Seeded numbers, the same on every machine, and floats as bits."""
import struct

ALL = (1 << 64) - 1
ONE, ZERO, MINUS_ZERO, INFINITY, NAN = 0x3F800000, 0, 0x80000000, 0x7F800000, 0x7FC00000
LARGEST, SMALLEST_NORMAL, LARGEST_SUBNORMAL = 0x7F7FFFFF, 0x00800000, 0x007FFFFF
BOUND = 0x2EDBE6FF  # 1e-10 as f32
SIGN = 0x80000000
# values at the ends of their kinds, of either sign
EDGES = [ZERO, 1, 2, LARGEST_SUBNORMAL, SMALLEST_NORMAL, 0x3F7FFFFF, ONE, 0x3F800001, BOUND, LARGEST - 1, LARGEST, INFINITY]
EDGES += [SIGN | bits for bits in EDGES]
# not numbers: quiet and signalling, of either sign
NANS = [NAN, SIGN | NAN, 0x7F800001, SIGN | 0x7F800001, 0x7FFFFFFF, 0xFFFFFFFF]


class Draws:
    """splitmix64"""

    def __init__(self, seed):
        self.state = seed

    def long(self):
        self.state = (self.state + 0x9E3779B97F4A7C15) & ALL
        z = self.state
        z = (z ^ z >> 30) * 0xBF58476D1CE4E5B9 & ALL
        z = (z ^ z >> 27) * 0x94D049BB133111EB & ALL
        return z ^ z >> 31

    def below(self, n):
        return self.long() % n

    def between(self, low, high):
        return low + self.below(high - low + 1)

    def of(self, items):
        return items[self.below(len(items))]

    def sign(self):
        return SIGN * self.below(2)

    # single components

    def unit(self):
        return single(self.below(1 << 25) / (1 << 24) - 1)

    def whole(self):
        return single(self.between(-1, 1))

    def near(self):
        """around 1, its exponent up to 20 away"""
        return self.sign() | self.between(107, 147) << 23 | self.below(1 << 23)

    def subnormal(self):
        return self.sign() | self.below(1 << 23)

    def small(self):
        """with a square that is subnormal or 0"""
        return self.sign() | self.between(30, 64) << 23 | self.below(1 << 23)

    def huge(self):
        """with a square around the largest number or above"""
        return self.sign() | self.between(188, 254) << 23 | self.below(1 << 23)

    def finite(self):
        return self.sign() | self.below(0x7F800000)

    def edge(self):
        return self.of(EDGES + NANS)

    def vector(self, length, component):
        return [component() for _ in range(length)]


def single(x):
    """the bits of the f32 nearest to x"""
    return struct.unpack('<I', struct.pack('<f', x))[0]


def double(x):
    return struct.unpack('<Q', struct.pack('<d', x))[0]


def value(bits):
    return struct.unpack('<f', struct.pack('<I', bits))[0]


def floats(bits):
    """tokens of f32s"""
    return [f'{x:08x}' for x in bits]


def counted(bits):
    """tokens of a count and of that number of f32s"""
    return [f'{len(bits):x}'] + floats(bits)


def line(kind, *tokens):
    """A question: numbers without leading zeros, lists of tokens as they are."""
    flat = []
    for token in tokens:
        flat += [f'{token:x}'] if isinstance(token, int) else token
    return ' '.join([kind] + flat)
