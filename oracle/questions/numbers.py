"""Questions about single numbers and vectors (scope, parts 1 to 3, and the numbers of parts 4 and 6)."""
from draws import *

d = Draws(1)
COMPONENTS = [d.unit, d.unit, d.near, d.whole, d.finite, d.subnormal, d.small, d.huge, d.edge]


def fraction(bits):
    return [f'{bits:016x}']


def length():
    """of a vector: mostly short, also the longest that a store takes, and beyond"""
    return d.of([d.below(9), d.below(9), d.below(20), d.of([47, 48, 49, 63, 64, 65, 70])])


def dots():
    huge, half = LARGEST, single(0.5)
    pairs = [
        ([], []), ([], [ONE]), ([ONE], []), ([ONE, NAN], [ONE]),
        # products of −0 alone: the sum is +0
        ([MINUS_ZERO], [ONE]), ([ZERO, MINUS_ZERO], [SIGN | ONE, ONE]), ([MINUS_ZERO] * 4, [ONE] * 4),
        # order of adding, rounding ties, overflow on the way
        ([single(1e8), ONE, single(-1e8)], [ONE] * 3), ([single(-1e8), single(1e8), ONE], [ONE] * 3),
        ([ONE, single(2**-24)], [ONE] * 2), ([0x3F800001, single(2**-24)], [ONE] * 2), ([ONE] + [single(2**-24)] * 4, [ONE] * 5),
        ([huge, huge, SIGN | huge], [ONE] * 3), ([huge, huge], [huge, SIGN | huge]), ([huge], [single(2)]), ([1], [half]), ([3], [half]),
        ([INFINITY], [ZERO]), ([INFINITY, INFINITY], [ONE, SIGN | ONE]), ([NAN], [ZERO]),
    ]
    for a, b in pairs:
        yield line('dot', counted(a), counted(b))
    for _ in range(240):
        n, component = length(), d.of(COMPONENTS)
        yield line('dot', counted(d.vector(n, component)), counted(d.vector(n, d.of([component, d.unit]))))
    for _ in range(20):
        yield line('dot', counted(d.vector(d.below(12), d.near)), counted(d.vector(d.below(12), d.near)))


def of_length_one(n):
    numbers = [value(d.unit()) for _ in range(n)]
    size = sum(x * x for x in numbers) ** 0.5 or 1.0
    return [single(x / size) for x in numbers]


def distances():
    for a, b in [([], []), ([], [ONE]), ([ONE, ONE], [ONE]), ([ONE], [ONE]), ([ONE], [SIGN | ONE]), ([MINUS_ZERO], [ONE]), ([NAN], [ONE]),
                 ([LARGEST], [LARGEST]), ([LARGEST], [SIGN | LARGEST]), ([ONE], [0x3F800001]), ([ONE], [0x3F7FFFFF])]:
        yield line('distance', counted(a), counted(b))
    for _ in range(120):
        n = length()
        a = of_length_one(n)
        yield line('distance', counted(a), counted(d.of([a, of_length_one(n)])))
    for _ in range(30):
        n, component = length(), d.of(COMPONENTS)
        yield line('distance', counted(d.vector(n, component)), counted(d.vector(d.of([n, n, d.below(9)]), component)))


def roots():
    bits = EDGES + NANS + [single(2), single(25), SIGN | single(25), SIGN | 1]
    bits += [exponent << 23 for exponent in range(1, 255)] + [1 << place for place in range(23)]
    for _ in range(80):
        m = d.between(2, 4096)
        bits += [single(m * m) + step for step in (-1, 0, 1)]
    # close to the middle between two roots
    for _ in range(120):
        m = d.between(1 << 23, (1 << 24) - 1)
        middle = (m + 0.5) ** 2 * 2.0 ** (2 * d.between(-86, 39))
        bits += [single(middle) + step for step in (-1, 0, 1)]
    bits += [d.below(1 << d.between(1, 23)) for _ in range(150)] + [d.below(INFINITY) for _ in range(250)]
    for x in bits:
        yield line('root', floats([x]))


def scales():
    beside = [BOUND + step for step in range(-4, 5)]
    vectors = [[ZERO], [MINUS_ZERO], [ZERO, MINUS_ZERO, ZERO], [ZERO] * 48, [x for x in beside]]
    vectors += [[sign | x] + [ZERO] * zeros for x in beside for sign in (0, SIGN) for zeros in (0, 2)]
    vectors += [[single(0.6 * value(x)), single(-0.8 * value(x))] for x in beside] + [[x, 1, MINUS_ZERO] for x in beside]
    # lengths at the bound by many components
    vectors += [[single(value(x) / n**0.5)] * n for x in beside for n in (4, 48)]
    # squares and sums of squares that overflow, each sign and −0 kept
    vectors += [[LARGEST, SIGN | LARGEST, MINUS_ZERO, ZERO], [single(1.5e19), single(-1.5e19)]]
    vectors += [[single(1.8e19)], [single(1.9e19), SIGN | ONE], [INFINITY, ONE], [NAN, ONE], [SIGN | INFINITY], [SIGN | NAN, ZERO]]
    for v in vectors:
        yield line('scale', counted(v))
    for _ in range(170):
        component = d.of(COMPONENTS[:-1])
        yield line('scale', counted(d.vector(max(1, length()), component)))
    # lengths a few powers of ten from the bound
    for _ in range(60):
        yield line('scale', counted([single(value(d.unit()) * 10.0 ** d.between(-12, -8)) for _ in range(d.between(1, 6))]))


def products():
    edges = [0, 1, 2, (1 << 32) - 1, 1 << 32, (1 << 32) + 1, (1 << 63) - 1, 1 << 63, ALL, 42, 6364136223846793005]
    for a in edges:
        for b in edges:
            yield line('multiply', a, b)
    for _ in range(180):
        yield line('multiply', d.long() >> d.below(64), d.of([d.long() >> d.below(64), 6364136223846793005]))


def planes():
    for k in range(1024):
        yield line('plane', k)


def fractions(n):
    """of a segment of n: ends, and numbers whose product with n is close to a whole number"""
    near = double(d.between(0, n) / n)
    return d.of([0, double(-0.0), double(1.0), double(1.0) - 1, 1, double(0.02), double(0.5), double(d.below(1 << 53) / (1 << 53)),
                 near, near, min(near + 1, double(1.0)), max(near - 1, 0)])


def leaders():
    sizes = list(range(1, 12)) + [49, 64, 100, 1023, 1024, 2047, 2048]
    for n in sizes:
        for f in (0, double(-0.0), double(0.02), double(0.5), double(1.0) - 1, double(1.0), double(min(1, 2 / n)), double(min(1, 3 / n))):
            yield line('leaders', n, fraction(f))
    for _ in range(650):
        n = d.between(1, 2048)
        yield line('leaders', n, fraction(fractions(n)))


def draws():
    yield line('draw', 0, 3, fraction(0))
    for level in range(21):
        for n in (1, 2, 3, d.between(4, 40), d.between(41, 300)):
            yield line('draw', level, n, fraction(fractions(n)))
    for level, n, f in ((0, 1024, 1.0), (0, 2048, 1.0), (1, 2048, 0.5), (20, 2048, 0.02), (7, 1024, 0.3)):
        yield line('draw', level, n, fraction(double(f)))


def centroids():
    yield line('centroid', 3, 2, floats([MINUS_ZERO] * 6))
    yield line('centroid', 2, 2, floats([ONE, SIGN | ONE, SIGN | ONE, ONE]))
    yield line('centroid', 3, 1, floats([LARGEST, LARGEST, SIGN | LARGEST]))
    yield line('centroid', 1024, 1, floats(d.vector(1024, d.unit)))
    yield line('centroid', 31, 64, floats(d.vector(31 * 64, d.unit)))
    yield line('centroid', 10, 48, floats(d.vector(480, d.near)))
    for _ in range(70):
        n, dimension = d.of([1, 2, 3, d.between(4, 40)]), d.between(1, 5)
        yield line('centroid', n, dimension, floats(d.vector(n * dimension, d.of(COMPONENTS[:-1]))))


def questions():
    for part in (dots, distances, roots, scales, products, planes, leaders, draws, centroids):
        yield from part()
