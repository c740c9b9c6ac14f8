"""Histories of searches: every k and ef at its ends, every refusal in its order, stores up to the largest and stores written otherwise."""
from history import *

d = Draws(4)
SMALL = Store()
ANY, TIES, REPEATS, CLUSTERS = STYLES = range(4)
COUNTS = [0, 1, 10, 50, 1024, 1025]


def near_centre(seed, dimension):
    """a query beside one of the sixteen centres of style 3"""
    return [single(x + 0.05 * value(d.unit())) for x in generated(seed + d.below(16), dimension)]


def query(seed, dimension, style):
    if style == CLUSTERS and d.below(4):
        return near_centre(seed, dimension)
    return d.vector(dimension, d.whole if style == TIES else d.unit)


def counts_at_their_ends():
    for store, n in ((SMALL.but(cap=1), 1), (SMALL.but(cap=2), 2), (SMALL.but(cap=20, leaf=5), 12), (SMALL.but(cap=60, dimension=1), 60)):
        for style in STYLES:
            seed = d.below(1 << 32)
            yield from store.built(n, seed, style)
            for k in COUNTS:
                for ef in COUNTS:
                    yield store.find(k, ef, query(seed, store.dimension, style), (min(k, n), min(k, n)))
            yield SUM


def large_stores():
    wide = Store(dimension=48, leaf=2048, min=64, fraction=double(0.02), degree=32, bits=12, cap=1024)
    for store, n, style in [
        (wide, 1024, CLUSTERS), (wide.but(leaf=64, dimension=64, bits=16), 1024, CLUSTERS),
        (wide.but(dimension=64, leaf=100, degree=4), 1023, ANY),
        (wide.but(dimension=4, leaf=64, degree=8), 1024, TIES), (wide.but(dimension=8, leaf=30, min=3, degree=2, bits=2), 1024, CLUSTERS),
        (wide.but(dimension=3, leaf=20, min=0, degree=0), 1024, ANY),
        (wide.but(dimension=16, leaf=32, min=0, degree=6, bits=4), 700, REPEATS),
        (wide.but(cap=512), 512, ANY), (wide.but(dimension=6, cap=512, leaf=64, degree=6, bits=4), 512, CLUSTERS),
    ]:
        seed = d.below(1 << 32)
        yield from store.built(n, seed, style)
        for k, ef in [(0, 0), (1, 0), (1, 1), (0, 1), (1, 2), (1, 10), (10, 1), (10, 10), (10, 50), (1, 50), (50, 10), (1, 100),
                      (10, 300), (1, 1024)]:
            yield store.find(k, ef, query(seed, store.dimension, style))
            yield store.find(k, ef, query(seed, store.dimension, style))
        yield store.find(1024, 0, query(seed, store.dimension, style), (1024, 1024))
        yield SUM


def random_stores():
    for cap, count in ((12, 60), (40, 60), (120, 40), (300, 20)):
        for _ in range(count):
            store = Store(
                dimension=d.of([1, 2, 3, 4, 8]), leaf=d.of([1, 3, cap // 4, 2048]), min=d.of([0, 1, 3, cap // 5]),
                fraction=d.of([0, double(0.05), double(0.3), double(1.0)]), degree=d.of([0, 1, 2, 4, 8]), bits=d.of([0, 2, 4, 12]), cap=cap)
            seed, style = d.below(1 << 32), d.of(STYLES)
            yield from store.built(d.between(1, cap), seed, style)
            for _ in range(5):
                yield store.find(d.of([0, 1, 2, 3, 5, 10]), d.of([0, 1, 2, 3, 4, 6, 10, 20]), query(seed, store.dimension, style))


def queries_at_edges():
    """Queries of length 0, around 1e-10, with squares that overflow, with subnormals."""
    beside = [BOUND + step for step in range(-2, 3)]
    queries = [[ZERO] * 3, [MINUS_ZERO] * 3, [LARGEST] * 3, [SIGN | LARGEST, ONE, ZERO], [1, 0, 0], [SIGN | 1, 2, 3]]
    queries += [[x, ZERO, MINUS_ZERO] for x in beside] + [[ZERO, single(0.6 * value(x)), single(0.8 * value(x))] for x in beside]
    queries += [d.vector(3, component) for component in (d.subnormal, d.small, d.huge, d.near, d.finite, d.whole) for _ in range(3)]
    store = SMALL.but(cap=30, leaf=6)
    yield from store.open(10, 3, ANY)
    for doc, v in enumerate(queries[:14]):
        yield add(doc, v)
    yield store.build()
    for q in queries:
        yield from [store.find(5, 2, q), store.find(30, 0, q)]


def outputs():
    """Of two outputs either may be too short; only min(k, n) places are needed, and none for k = 0."""
    store, n = SMALL, 4
    yield from store.built(n)
    for k in (0, 1, 3, 4, 5, 1024):
        need = min(k, n)
        less = max(0, need - 1)
        for pair in sorted({(need, need), (need + 1, need + 7), (less, need), (need, less), (0, 0), (need, 0), (0, need)}):
            yield store.find(k, 3, [ONE, ZERO, ONE], pair)
    yield SUM


def refusals():
    """Every check of a search, alone and with each that comes later. The store is one that only its entry node reaches."""
    store, n = SMALL, 3
    whole = lend(store.words, store.floats)
    yield from [store.fill(29), store.new(), adds(n, 29, 0), word(0, 1)]
    yield from orders([
        Defect(lend(15, store.floats), whole),
        damaged(9, n, 0),
        Defect(lend(store.words - 1, store.floats), whole),
        Defect(lend(store.words, store.floats - 1), whole),
        Defect(argument='scratch', change=lambda s: (s[0] - 1, s[1])),
        Defect(argument='scratch', change=lambda s: (s[0], s[1] - 1)),
        damaged(store.row(2), store.degree + 1, 0),
        Defect(set_float(8, NAN), set_float(8, ONE)),
        damaged(0, 0, 1),
        Defect(argument='query', change=lambda q: q[1:]),
        Defect(argument='query', change=lambda q: q[:-1] + [INFINITY]),
        Defect(argument='k', change=lambda k: 1025),
        Defect(argument='ef', change=lambda ef: 1025),
        Defect(argument='places', change=lambda places: (places[0] - 1, places[1])),
        Defect(argument='places', change=lambda places: (places[0], places[1] - 1)),
    ], lambda scratch, k, ef, places, query: line('find', *scratch, k, ef, *places, counted(query)),
        scratch=store.scratch, k=1024, ef=1024, places=(n, n), query=[ONE, ZERO, ONE])
    for k, ef in ((1024, 1024), (1025, 0), (0, 1025), (0xFFFFFFFF, 0), (0, 0xFFFFFFFF), (0, 0)):
        yield store.find(k, ef, [ONE, ZERO, ONE], (n, n))
    for component in NANS + [INFINITY, SIGN | INFINITY]:
        yield store.find(1, 1, [ONE, component, ONE])
    for length in (0, 1, 2, 4, 64, 65):
        yield store.find(1, 1, [ONE] * length)
    yield SUM


def walked_by_hand():
    """One component, so that a stored v is at distance 1 − v from the query 1."""
    store = SMALL.but(dimension=1, cap=5)

    def graph(distances, lists):
        yield from store.open(len(distances))
        yield word(0, 1)
        for node, distance in enumerate(distances):
            yield from [set_float(node, single(1 - distance)), word(store.row(node), len(lists[node]))]
            yield from [word(store.row(node) + 1 + i, entry) for i, entry in enumerate(lists[node])]
        for k, ef in ((0, 0), (1, 1), (1, 2), (2, 3), (4, 4)):
            yield store.find(k, ef, [ONE])

    star = [[1, 2], [], [3], []]
    # 1.5 · cutoff is rounded up to the distance of node 2, which is therefore expanded
    yield from graph([2.0, 1 + 2**-23, 1.5 + 2**-22, 1.0], star)
    yield from graph([2.0, 1 + 2**-23, 1.5 + 2**-22 + 2**-23, 1.0], star)
    # a cutoff below 0 times 1.5 is lower still; it is infinite on the push with which b nodes are held
    yield from graph([-1.0, -2.0, -0.5, 1.0], star)
    yield from graph([-4.0, -3.0, -5.0, -6.0], [[1], [2], [3], [0]])
    # ties in the frontier: the lower node first
    yield from graph([2.0, 1.0, 1.0, 1.0], [[3, 2, 1], [], [], []])
    yield from graph([1.0, 1.0, 1.0, 1.0, 1.0], [[4, 2], [], [3], [], [1, 0]])


def written_otherwise():
    """Built stores that the calls did not write: any rows and bridges, nodes out of reach, distances that overflow or lie below 0."""
    for _ in range(150):
        n, dimension = d.between(1, 14), d.between(1, 2)
        store = SMALL.but(dimension=dimension, cap=n + d.below(2), degree=d.between(0, 4))
        component = d.of([d.unit, d.whole, d.near, d.huge, lambda: d.of([LARGEST, SIGN | LARGEST, ONE, ZERO, d.huge()])])
        yield from [store.fill(d.below(1 << 32), 2, 1), store.new(), adds(n, d.below(1 << 32), d.of(STYLES))]
        for place, x in enumerate(d.vector(n * dimension, component)):
            yield set_float(place, x)
        for node in range(n):
            count = d.between(0, store.degree)
            yield word(store.row(node), count)
            yield from [word(store.row(node) + 1 + i, d.below(n)) for i in range(count)]
        bridges = d.of([0, d.below(n), d.below(n)])
        for bridge in range(bridges):
            near = d.below(n)
            yield from [word(store.bridge(bridge), near), word(store.bridge(bridge) + 1, (near + d.between(1, n - 1)) % n)]
        yield from [word(0, 1), word(9, d.below(n)), word(10, bridges)]
        for _ in range(4):
            yield store.find(d.of([0, 1, 2, 5, 14]), d.of([0, 1, 2, 3, 6]), d.vector(dimension, d.of([d.unit, d.whole])), (n, n))


def questions():
    for part in (counts_at_their_ends, outputs, refusals, walked_by_hand, queries_at_edges, random_stores, written_otherwise, large_stores):
        yield from part()
