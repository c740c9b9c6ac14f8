"""Questions about recognising (scope, Recognising): scores at every edge, answers at the limit, the call on stores, household counts."""
from history import *

d = Draws(6)
SMALL = Store()
ANY, TIES, REPEATS, CLUSTERS = STYLES = range(4)
DAY = 86400
LAST_SECOND = ALL


def beside(bits):
    """a value, and the next values below and above it; a zero's neighbours are the smallest of either sign"""
    if bits & ~SIGN == 0:
        return [bits, 1, SIGN | 1]
    return [bits, bits - 1, bits + 1]


def scores():
    hundredths = [single(n / 100) for n in range(101)]
    for bits in EDGES + NANS + [single(0.375), single(0.125), SIGN | INFINITY]:
        yield line('score', floats([bits]))
    for bits in hundredths:
        for x in beside(bits):
            yield line('score', floats([x]))
        yield line('score', floats([SIGN | bits]))
    # every power of two up to 2, where the pattern's exponent changes, with its neighbours
    for exponent in range(1, 129):
        for x in beside(exponent << 23):
            yield line('score', floats([x]))
    for place in range(23):
        yield line('score', floats([1 << place]))
    for draw in (d.unit, d.near, d.subnormal, d.small, d.huge, d.finite):
        for _ in range(40):
            yield line('score', floats([draw()]))


def decisions():
    """A distance against itself and its neighbours, both zeros, infinities and what is no number."""
    distances = EDGES + NANS[:2] + [single(0.375), single(0.125), single(0.01), single(0.99), single(0.5), single(1.5)]
    distances += [draw() for draw in (d.unit, d.near, d.subnormal, d.finite) for _ in range(6)]
    for x in distances:
        doc = d.of([0, 7, 0xFFFFFFFF, d.below(1 << 32)])
        limits = beside(x) if x not in NANS and x & ~SIGN != INFINITY else [x]
        for limit in limits + [ZERO, MINUS_ZERO, INFINITY, SIGN | INFINITY, NAN, SIGN | x]:
            yield line('decide', doc, floats([x, limit]))


def recognise(store, ef, limit, query, scratch=None):
    return line('recognise', *(scratch or store.scratch), ef, floats([limit]), counted(query))


def at_known_distances():
    """One component, so that a stored v is at distance 1 − v from the query 1, rounded once."""
    store = SMALL.but(dimension=1, cap=4)
    stored = [single(1 - n / 100) for n in range(0, 101, 4)] + [single(x) for x in (0.625, 0.875, 1.0, 0.0, -1.0, 1.5, 2.0, -3.0)]
    stored += [0x3F7FFFFF, 0x3F800001, 1, SIGN | 1, MINUS_ZERO, LARGEST, SIGN | LARGEST] + [d.unit() for _ in range(20)]
    yield from store.open(1)
    yield from [word(0, 1), word(store.doc(0), 0xFFFFFFFF)]
    for v in stored:
        yield set_float(0, v)
        distance = single(1 - value(v))
        for limit in beside(distance) + [SIGN | distance]:
            yield recognise(store, 0, limit, [ONE])
    yield set_float(0, ONE)
    for limit in [ZERO, MINUS_ZERO, 1, SIGN | 1, LARGEST, SIGN | LARGEST, INFINITY, SIGN | INFINITY] + NANS:
        yield recognise(store, 1, limit, [ONE])


def at_infinite_distances():
    """Two components whose products are finite and whose sum is not."""
    store = SMALL.but(dimension=2, cap=2)
    yield from store.open(1)
    yield word(0, 1)
    for sign in (0, SIGN):
        yield from [set_float(0, sign | LARGEST), set_float(1, sign | LARGEST)]
        for limit in (ZERO, LARGEST, SIGN | LARGEST, INFINITY, NAN):
            yield recognise(store, 3, limit, [ONE, ONE])


def refusals():
    """Search's checks except 12, then the limit, each alone and with each that comes later."""
    store, n = SMALL, 3
    whole = lend(store.words, store.floats)
    yield from [store.fill(31), store.new(), adds(n, 31, 0), word(0, 1)]
    yield from orders([
        Defect(lend(15, store.floats), whole),
        damaged(9, n, 0),
        Defect(lend(store.words - 1, store.floats), whole),
        Defect(lend(store.words, store.floats - 1), whole),
        Defect(argument='scratch', change=lambda s: (s[0] - 1, s[1])),
        Defect(argument='scratch', change=lambda s: (s[0], s[1] - 1)),
        damaged(store.row(2), store.degree + 1, 0),
        Defect(set_float(8, NAN), set_float(8, ONE)),
        damaged(0, 0, 1),
        Defect(argument='query', change=lambda q: q[1:]),
        Defect(argument='query', change=lambda q: q[:-1] + [INFINITY]),
        Defect(argument='ef', change=lambda ef: 1025),
        Defect(argument='limit', change=lambda limit: NAN),
        Defect(argument='limit', change=lambda limit: INFINITY),
    ], lambda scratch, ef, limit, query: recognise(store, ef, limit, query, scratch),
        scratch=store.scratch, ef=1024, limit=single(0.5), query=[ONE, ZERO, ONE])
    for ef in (0, 1024, 1025, 0xFFFFFFFF):
        for limit in (ZERO, SIGN | INFINITY):
            yield recognise(store, ef, limit, [ONE, ZERO, ONE])
    for component in NANS + [INFINITY, SIGN | INFINITY]:
        yield recognise(store, 1, ONE, [ONE, component, ONE])
    for length in (0, 1, 2, 4, 64, 65):
        yield recognise(store, 1, ONE, [ONE] * length)
    yield SUM


def query(seed, dimension, style):
    if style == CLUSTERS and d.below(4):
        return [single(x + 0.05 * value(d.unit())) for x in generated(seed + d.below(16), dimension)]
    return d.vector(dimension, d.whole if style == TIES else d.unit)


def limit():
    return d.of([ZERO, single(0.01), single(0.1), single(0.25), single(0.5), ONE, single(2), single(d.below(1000) / 1000)])


def on_stores():
    wide = Store(dimension=48, leaf=2048, min=64, fraction=double(0.02), degree=32, bits=12, cap=1024)
    for store, n, asked in [
        (SMALL.but(cap=1), 1, 8), (SMALL.but(cap=2), 2, 8), (SMALL.but(cap=20, leaf=5), 12, 16), (SMALL.but(cap=60, dimension=1), 60, 16),
        (SMALL.but(cap=120, dimension=8, leaf=30, degree=4), 100, 24), (wide.but(cap=300, leaf=64, degree=8, dimension=64), 299, 24),
    ]:
        for style in STYLES:
            seed = d.below(1 << 32)
            yield from store.built(n, seed, style)
            for _ in range(asked):
                yield recognise(store, d.of([0, 1, 2, 10, 50, 1024]), limit(), query(seed, store.dimension, style))
            yield SUM
    seed = d.below(1 << 32)
    yield from wide.built(1024, seed, CLUSTERS)
    for ef in (0, 1, 10, 50, 100, 1024):
        for _ in range(5):
            yield recognise(wide, ef, limit(), query(seed, 48, CLUSTERS))
    yield SUM


def written_otherwise():
    """Built stores that the calls did not write: nodes out of reach, doc ids that repeat, distances below 0."""
    for _ in range(60):
        n, dimension = d.between(1, 9), d.between(1, 2)
        store = SMALL.but(dimension=dimension, cap=n + d.below(2), degree=d.between(0, 3))
        yield from [store.fill(d.below(1 << 32), 2, 1), store.new(), adds(n, d.below(1 << 32), d.of(STYLES))]
        for place, x in enumerate(d.vector(n * dimension, d.of([d.unit, d.whole, d.near]))):
            yield set_float(place, x)
        for node in range(n):
            count = d.between(0, store.degree)
            yield from [word(store.doc(node), d.below(4)), word(store.row(node), count)]
            yield from [word(store.row(node) + 1 + i, d.below(n)) for i in range(count)]
        yield from [word(0, 1), word(9, d.below(n))]
        for _ in range(4):
            yield recognise(store, d.of([0, 1, 2, 6]), limit(), d.vector(dimension, d.of([d.unit, d.whole])))


def household(day, seconds, docs):
    return line('household', day, len(seconds), [f'{second:x}' for second in seconds], len(docs), [f'{doc:x}' for doc in docs])


def days():
    """Seconds at both ends of days, the first day and the last that 64 bits hold."""
    last = LAST_SECOND // DAY
    seconds = [0, 1, DAY - 1, DAY, DAY + 1, 2 * DAY - 1, 2 * DAY, 20763 * DAY - 1, 20763 * DAY, 20764 * DAY - 1, 20764 * DAY,
               (1 << 32) - 1, 1 << 32, last * DAY - 1, last * DAY, LAST_SECOND]
    docs = list(range(len(seconds)))
    for day in [0, 1, 2, 3, 20762, 20763, 20764, ((1 << 32) - 1) // DAY, last - 1, last, last + 1, LAST_SECOND // 86399, LAST_SECOND]:
        yield household(day, seconds, docs)
        yield household(day, seconds, [doc % 2 for doc in docs])
        for second in (day * DAY - 1, day * DAY, day * DAY + DAY - 1, day * DAY + DAY):
            if 0 <= second <= LAST_SECOND:
                yield household(day, [second], [7])


def repeats():
    for docs in ([], [0], [0, 0], [0, 1], [0, 1, 0], [1, 0, 0], [0xFFFFFFFF, 0, 0xFFFFFFFF], [5] * 9, [1, 2, 3, 3, 2, 1], [1, 1, 2, 2]):
        yield household(1, [DAY] * len(docs), docs)
        yield household(1, [DAY * (1 + place % 2) for place in range(len(docs))], docs)
        yield household(3, [DAY] * len(docs), docs)
    for _ in range(80):
        count, start, few = d.below(40), d.below(20000) * DAY, d.between(1, 12)
        seconds = [start + d.below(3 * DAY) for _ in range(count)]
        yield household(start // DAY + d.below(3), seconds, [d.of([d.below(few), d.below(few), d.below(1 << 32)]) for _ in range(count)])


def many():
    """Up to 512 sightings and beyond, and lists that differ in length."""
    def both(sightings, docs):
        return household(20763, [20763 * DAY + d.below(DAY) for _ in range(sightings)], [d.below(1 << 32) for _ in range(docs)])

    for count in (511, 512):
        yield both(count, count)
        yield household(20763, [20763 * DAY] * count, [7] * count)
        yield household(20763, [20763 * DAY + d.below(2 * DAY) for _ in range(count)], [d.below(300) for _ in range(count)])
    for sightings, docs in [(513, 513), (513, 512), (512, 513), (512, 511), (511, 512), (600, 600), (600, 0), (0, 600), (0, 1), (1, 0), (2, 1), (1, 2)]:
        yield both(sightings, docs)


def questions():
    for part in (scores, decisions, at_known_distances, at_infinite_distances, refusals, on_stores, written_otherwise, days, repeats, many):
        yield from part()
