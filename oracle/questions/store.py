"""Histories of `new` and `add`: every refusal in its order, the ends of every parameter, damaged stores, stores of any first content."""
from history import *

d = Draws(2)
SMALL = Store()
NANS_64 = [0x7FF8000000000000, 0xFFF8000000000000, 0x7FF0000000000001]
INFINITIES_64 = [0x7FF0000000000000, 0xFFF0000000000000]
FRACTION_ONE = double(1.0)
GOOD = {
    'dimension': [1, 48, 64],
    'leaf': [1, 2, 2048],
    'min': [0, 1, 1024],
    'fraction': [0, double(-0.0), 1, double(0.02), FRACTION_ONE - 1, FRACTION_ONE],
    'degree': [0, 1, 32],
    'bits': [0, 1, 16],
    'final': [0, 1],
    'alpha': [ZERO, MINUS_ZERO, 1, SIGN | ONE, LARGEST, SIGN | LARGEST],
    'ef': [0, 1, 1024],
    'cap': [1, 2, 1023, 1024],
}
BAD = {
    'dimension': [0, 65, 0xFFFFFFFF],
    'leaf': [0, 2049, 0xFFFFFFFF],
    'min': [1025, 0xFFFFFFFF],
    'fraction': [FRACTION_ONE + 1, double(2.0), double(-1.0), 0x8000000000000001] + NANS_64 + INFINITIES_64,
    'degree': [33, 0xFFFFFFFF],
    'bits': [17, 0xFFFFFFFF],
    'alpha': NANS + [INFINITY, SIGN | INFINITY],
    'ef': [1025, 0xFFFFFFFF],
    'cap': [0, 1025, 0xFFFFFFFF],
}


def accepted_parameters():
    """Each end, with slices of just the size and with longer ones: nothing past the sizes changes."""
    for name, values in GOOD.items():
        for x in values:
            store = SMALL.but(**{name: x})
            for more in (0, 9):
                yield from [store.fill(d.below(1 << 40), more, more), store.new(), words(HEADER), SUM]
    yield from [SMALL.fill(3, 4, 4), SMALL.new(), words(SMALL.words + 4), SMALL.but(cap=1).new(), words(SMALL.words + 4), SUM]


def refused_parameters():
    yield SMALL.fill(11, 20, 20)
    for name, values in BAD.items():
        for x in values:
            yield from [SMALL.but(**{name: x}).new(), SUM]
    # 1 before 2 before 3
    for dimension in (SMALL.dimension, 0, 65):
        for name, x in (('leaf', 0), ('fraction', NANS_64[0]), ('alpha', INFINITY), ('cap', 1025), ('cap', SMALL.cap)):
            for w, f in ((SMALL.words, SMALL.floats), (SMALL.words - 1, SMALL.floats), (SMALL.words, SMALL.floats - 1), (0, 0)):
                yield from [lend(w, f), SMALL.but(dimension=dimension, **{name: x}).new(), SUM]
    for store in (Store(1, 1, 0, 0, 0, 0, 0, 0, 0, 1), Store(64, 2048, 1024, FRACTION_ONE, 32, 16, 1, LARGEST, 1024, 1024)):
        yield store.fill(13)
        for w, f in ((store.words - 1, store.floats), (store.words, store.floats - 1), (store.words, store.floats)):
            yield from [lend(w, f), store.new(), SUM]


def up_to_capacity():
    """C − 1 adds, then one more, then 8; doc ids may repeat."""
    vector = [ONE, SIGN | ONE, single(0.25)]
    for cap in (1, 2, 3, 8, 64, 1024):
        for store in (SMALL.but(cap=cap), SMALL.but(cap=cap, degree=0)):
            yield from store.open(cap - 1, cap)
            yield from [SUM, add(1, vector), SUM, add(2, vector), SUM, adds(2, 5, 0), SUM]
    large = Store(dimension=64, degree=32, cap=1024)
    yield from large.open(1023, 17, 3)
    yield from [SUM, adds(1, 5, 0), SUM, adds(1, 5, 0), SUM]


def adds_in_order():
    """Every check of add, alone and with each that comes later."""
    store, n = SMALL, 3
    whole = lend(store.words, store.floats)
    yield from [store.fill(19), store.new(), adds(n, 19, 0)]
    yield from orders([
        Defect(lend(15, store.floats), whole),
        damaged(1, 65, store.dimension),
        Defect(lend(store.words - 1, store.floats), whole),
        Defect(lend(store.words, store.floats - 1), whole),
        damaged(store.row(1), store.degree + 1, 0),
        Defect(set_float(4, NAN), set_float(4, ONE)),
        damaged(0, 1, 0),
        Defect(argument='vector', change=lambda v: v[1:]),
        Defect(argument='vector', change=lambda v: v[:-1] + [SIGN | INFINITY]),
        damaged(2, store.cap, n),
    ], lambda vector: add(9, vector), vector=[ONE, ZERO, ONE])
    for component in NANS + [INFINITY, SIGN | INFINITY]:
        yield from [add(9, [ONE, component, ONE]), SUM]
    for length in (0, 1, 2, 4, 64, 65):
        yield from [add(9, [ONE] * length), SUM]


# for each header word values around its limits
HEADER_WORDS = {
    0: [1, 2, 0xFFFFFFFF], 1: [0, 1, 64, 65, 0x80000003], 2: [0, 1, 4, 5, 6, 0xFFFFFFFF], 3: [0, 1, 2048, 2049], 4: [0, 1024, 1025],
    5: [0, 2, 4, 32, 33, 0xFFFFFFFF], 6: [0, 16, 17], 7: [0, 2, 0x10000], 8: [0, 1024, 1025], 9: [0, 1, 2, 3, 4, 0xFFFFFFFF],
    10: [0, 1, 2, 3, 4, 0xFFFFFFFF], 11: [0, 1, 2, 3, 4, 6, 1024, 1025, 0xFFFFFFFF],
    12: [0, 0x80000000, 0x3FEFFFFF, 0x3FF00000, 0x3FF00001, 0xBFE00000, 0x7FF00000, 0x7FF80000, 0xFFF80000], 13: [1, 0xFFFFFFFF],
    14: [ZERO, MINUS_ZERO, LARGEST, SIGN | LARGEST, INFINITY, SIGN | INFINITY, NAN, 0xFFFFFFFF], 15: [1, 0xFFFFFFFF],
}


def damaged_headers():
    vector = [ONE, ONE, ZERO]
    for place, values in HEADER_WORDS.items():
        for x in values:
            for made in (SMALL.open, SMALL.built):
                yield from made(3, place) + [word(place, x), add(9, vector), SUM]
    # two words together
    for high, low in ((0x3FF00000, 1), (0x80000000, 1), (0x7FF00000, 1), (0x80000000, 0), (0, 1)):
        yield from SMALL.open(3) + [word(12, high), word(13, low), add(9, vector), SUM]
    for n, entry, bridges in ((0, 0, 0), (1, 0, 0), (1, 0, 1), (5, 4, 4), (5, 5, 4), (5, 4, 5)):
        yield from SMALL.open(3) + [word(0, 1), word(2, n), word(9, entry), word(10, bridges), add(9, vector), SUM]


def damaged_rest():
    """Rows, bridges and vectors; what lies past n and past the counts is free."""
    n, degree = 3, SMALL.degree
    changes = [word(SMALL.row(node), x) for node in (0, n - 1, n) for x in (degree, degree + 1, 0xFFFFFFFF)]
    changes += [word(SMALL.row(node) + entry, x) for node in (0, n - 1, n) for entry in (1, degree) for x in (n - 1, n, 0xFFFFFFFF)]
    changes += [word(SMALL.bridge(0) + end, x) for end in (0, 1) for x in (0, 1, n - 1, n, 0xFFFFFFFF)]
    changes += [word(SMALL.bridge(SMALL.cap) - 1, 0xFFFFFFFF), word(SMALL.doc(0), 0xFFFFFFFF)]
    last = n * SMALL.dimension - 1
    changes += [set_float(place, x) for place in (0, last, last + 1) for x in NANS[:3] + [INFINITY, SIGN | INFINITY, LARGEST]]
    for change in changes:
        for made in (SMALL.open, SMALL.built):
            yield from made(n) + [change, add(9, [ONE, ONE, ZERO]), SUM, add(10, [ONE, ONE, ZERO]), SUM]
    # counts that use the whole row, bridges that are counted
    full = [word(SMALL.row(0), degree)] + [word(SMALL.row(0) + 1 + i, i) for i in range(degree)]
    for x in (n - 1, n):
        yield from SMALL.open(n) + full + [word(SMALL.row(0) + degree, x), add(9, [ONE, ONE, ZERO]), SUM]
    for ends in ((0, 1), (1, 1), (0, n), (n, 0), (0, 0), (n - 1, 0), (0xFFFFFFFF, 0xFFFFFFFF)):
        bridge = [word(SMALL.bridge(1) + end, x) for end, x in enumerate(ends)]
        for count in (1, 2):
            yield from SMALL.built(n) + [word(10, count), word(SMALL.bridge(0), 0), word(SMALL.bridge(0) + 1, 1)] + bridge
            yield from [add(9, [ONE, ONE, ZERO]), SUM]


def any_content():
    for w, f in ((0, 0), (1, 0), (2, 4), (15, 100), (16, 0), (17, 5), (400, 400)):
        for seed in (0, 1, d.long()):
            yield line('fill', w, f, seed)
            yield from [add(1, [ONE] * 3), adds(2, 1, 0), SMALL.build(), SMALL.find(1, 1, [ONE] * 3), SUM, SMALL.new(), SUM]
            yield from [add(1, [ONE] * 3), SUM]


def vectors():
    """Zero vectors, lengths around 1e-10, squares that overflow, subnormals."""
    store = SMALL.but(cap=64, dimension=4)
    yield from store.open(0)
    beside = [BOUND + step for step in range(-2, 3)]
    stored = [[ZERO] * 4, [MINUS_ZERO] * 4, [1, 0, 0, 0], [LARGEST] * 4, [SIGN | LARGEST, ZERO, MINUS_ZERO, ONE]]
    stored += [[x, ZERO, MINUS_ZERO, ZERO] for x in beside] + [[single(value(x) / 2)] * 4 for x in beside]
    stored += [d.vector(4, component) for component in (d.subnormal, d.small, d.huge, d.near, d.finite, d.whole) for _ in range(4)]
    for i, v in enumerate(stored):
        yield from [add(d.of([0, 1, i, 0xFFFFFFFF]), v), SUM]
    yield words(store.row(0))


def random_store():
    """mostly good, now and then one parameter that is not"""
    values = {name: d.of(GOOD[name]) for name in GOOD}
    values.update(dimension=d.of([1, 2, 3, 5, 64]), cap=d.of([1, 2, 3, 7, 20]), degree=d.of([0, 1, 2, 5, 32]))
    if d.below(6) == 0:
        name = d.of(list(BAD))
        values[name] = d.of(BAD[name])
    return Store(**values)


def random_histories():
    for _ in range(120):
        room = Store(dimension=d.of([1, 3, 5, 64]), cap=d.of([3, 7, 20]), degree=d.of([1, 5, 32]))
        yield room.fill(d.long(), d.below(40), d.below(40))
        for _ in range(d.between(2, 5)):
            yield random_store().new()
            yield from [adds(d.between(1, 8), d.long(), d.below(4)), SUM]
            if d.below(3) == 0:
                yield from [lend(d.between(0, room.words), d.between(0, room.floats)), adds(2, d.long(), 0), lend(room.words, room.floats)]
            if d.below(4) == 0:
                yield from [room.build(), adds(1, d.long(), 0)]
        yield words(HEADER)


def questions():
    for part in (accepted_parameters, refused_parameters, up_to_capacity, adds_in_order, damaged_headers, damaged_rest, any_content,
                 vectors, random_histories):
        yield from part()
