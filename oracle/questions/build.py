"""Histories of `build`, and leaves by themselves: the ends of every parameter, all styles of vectors, stores of any kind, refusals."""
from history import *

d = Draws(3)
SMALL = Store()
ANY, TIES, REPEATS, CLUSTERS = STYLES = range(4)
FRACTIONS = [0, double(-0.0), double(0.02), double(0.1), double(0.3), double(0.5), double(0.9), double(1.0)]


def shown(store):
    """the whole word store where it is small, else its sum; past the sizes too"""
    return words(store.words + 5) if store.words < 400 else SUM


def run(store, nodes, seed, style):
    yield from store.built(nodes, seed, style)
    yield shown(store)


def ends_of_parameters():
    """One parameter after the other at its ends, the others between, on carved and on uncarved stores."""
    ends = {
        'dimension': [1, 2, 48, 64],
        'leaf': [1, 2, 3, 11, 2048],
        'min': [0, 1, 2, 5, 1024],
        'fraction': FRACTIONS + [1, double(1.0) - 1],
        'degree': [0, 1, 2, 32],
        'bits': [0, 1, 2, 16],
        'final': [0, 1],
        'alpha': [ZERO, SIGN | ONE, LARGEST, SIGN | LARGEST, 1],
        'ef': [0, 1024],
    }
    for base, cap in ((SMALL.but(leaf=4, min=2), 12), (SMALL.but(leaf=2048), 12), (SMALL.but(leaf=3, min=0, degree=8, bits=12), 40)):
        for name, values in ends.items():
            for x in values:
                yield from run(base.but(**{name: x, 'cap': cap}), d.of([cap - 1, cap]), d.below(1 << 32), d.of(STYLES))


def few_nodes():
    for nodes in (1, 2, 3):
        for cap in (nodes, nodes + 1, nodes + 3):
            for degree in (0, 1, 32):
                for leaf in (1, 2):
                    yield from run(SMALL.but(cap=cap, degree=degree, leaf=leaf), nodes, d.below(1 << 32), d.of(STYLES))


def random_store(cap):
    return Store(
        dimension=d.of([1, 2, 3, 3, 5, 8, 16, 48, 64]), leaf=d.of([1, 2, 3, 5, max(1, cap // 4), max(1, cap // 2), cap, 2048]),
        min=d.of([0, 0, 1, 2, 3, max(1, cap // 5), cap, 1024]), fraction=d.of(FRACTIONS), degree=d.of([0, 1, 2, 3, 4, 8, 16, 32]),
        bits=d.of([0, 1, 2, 3, 4, 8, 12, 16]), final=d.below(2), alpha=d.of([ALPHA, ONE, ZERO]), ef=d.below(1025), cap=cap)


def random_stores():
    for cap, count in ((6, 60), (12, 160), (24, 120), (48, 80), (100, 40), (200, 12)):
        for _ in range(count):
            yield from run(random_store(d.between(cap // 2, cap)), d.between(max(1, cap // 4), cap // 2), d.below(1 << 32), d.of(STYLES))


def tied_stores():
    """Leaves of more than 20 with many equal distances: here the order of equal ones shows in the lists."""
    for _ in range(60):
        store = Store(dimension=d.of([1, 2, 3]), leaf=d.of([1, 5, 10, 2048]), min=d.of([0, 3, 11]), fraction=d.of(FRACTIONS),
                      degree=d.of([1, 2, 4]), bits=d.of([0, 2, 6]), cap=d.between(11, 40))
        yield from run(store, store.cap, d.below(1 << 32), d.of([TIES, REPEATS]))


def large_stores():
    """Up to 1,024 nodes and 64 components: sums of the whole stores."""
    wide = Store(dimension=48, leaf=2048, min=64, fraction=double(0.02), degree=32, bits=12, cap=1024)
    for store, nodes, style in [
        (wide, 1024, ANY), (wide.but(leaf=64), 1024, CLUSTERS), (wide.but(leaf=64, dimension=64, bits=16), 1023, ANY),
        (wide.but(leaf=1, min=0, degree=1, bits=0), 1024, ANY), (wide.but(leaf=16, min=0, fraction=double(1.0), dimension=1), 1024, ANY),
        (wide.but(leaf=100, degree=0, dimension=3), 1024, CLUSTERS), (wide.but(leaf=64, dimension=4, bits=4), 1024, TIES),
        (wide.but(leaf=200, min=1024, dimension=8), 1024, CLUSTERS), (wide.but(leaf=64, fraction=0, degree=8), 1024, CLUSTERS),
        (wide.but(leaf=32, min=4, dimension=64, degree=16), 700, REPEATS), (wide.but(cap=512), 512, CLUSTERS),
        (wide.but(cap=512, leaf=64), 511, ANY), (wide.but(cap=512, leaf=20, min=3, degree=4, bits=2), 512, TIES),
    ]:
        yield from run(store, nodes, d.below(1 << 32), style)
    # the longest carving: each level keeps one bucket of all nodes
    yield from run(Store(leaf=1, min=1024, fraction=double(1.0), degree=4, cap=100), 100, 5, ANY)


def vectors_at_edges():
    """Zero vectors, lengths around 1e-10, squares that overflow, subnormals, mixed with others."""
    edges = [[ZERO] * 3, [MINUS_ZERO] * 3, [BOUND, ZERO, ZERO], [BOUND + 1, ZERO, ZERO], [BOUND - 1, MINUS_ZERO, ZERO], [LARGEST] * 3,
             [SIGN | LARGEST, ONE, ZERO], [1, 2, 3], [SIGN | 1, 0, 0], [single(1e-9)] * 3, [single(1e-30)] * 3]
    for _ in range(40):
        store = SMALL.but(cap=d.between(2, 16), leaf=d.of([1, 3, 5, 2048]), min=d.of([0, 1, 3]), degree=d.between(0, 5),
                          bits=d.of([0, 3, 16]))
        yield from store.open(0)
        for doc in range(d.between(1, store.cap)):
            yield add(doc, d.of(edges) if d.below(3) else d.vector(3, d.of([d.unit, d.near, d.subnormal, d.huge])))
        yield from [store.build(), shown(store), SUM]


def written_otherwise():
    """Open stores that the calls did not write: distances that overflow or are NaNs, rows and bridges with any content."""
    for _ in range(90):
        n = d.between(2, 14)
        store = SMALL.but(cap=n + d.below(2), leaf=d.of([1, 3, 5, 2048]), min=d.of([0, 1, 3]), degree=d.between(0, 5),
                          bits=d.of([0, 1, 3, 16]), fraction=d.of(FRACTIONS))
        yield from store.open(n, d.below(1 << 32), d.of(STYLES))
        for _ in range(d.below(3 * n)):
            yield set_float(d.below(3 * n), d.of([d.huge(), d.huge(), LARGEST, SIGN | LARGEST, MINUS_ZERO, d.finite()]))
        for node in range(n):
            if store.degree and d.below(2):
                yield word(store.row(node), d.between(0, store.degree))
                yield word(store.row(node) + d.between(1, store.degree), d.below(n))
        yield from [word(store.bridge(d.below(store.cap)), d.below(1 << 32)), store.build(), shown(store), SUM]


def refusals():
    """Every check of build, alone and with each that comes later; a built store is success, and stays."""
    store = SMALL
    whole = lend(store.words, store.floats)
    scratch_words, scratch_floats = store.scratch
    yield from [store.fill(23), store.new(), adds(3, 23, 0)]
    yield from orders([
        Defect(lend(15, store.floats), whole),
        damaged(3, 0, store.leaf),
        Defect(lend(store.words - 1, store.floats), whole),
        Defect(lend(store.words, store.floats - 1), whole),
        Defect(argument='scratch', change=lambda s: (s[0] - 1, s[1])),
        Defect(argument='scratch', change=lambda s: (s[0], s[1] - 1)),
        damaged(store.row(2), store.degree + 1, 0),
        Defect(set_float(8, SIGN | INFINITY), set_float(8, ONE)),
        damaged(2, 0, 3),
    ], lambda scratch: line('build', *scratch), scratch=store.scratch)
    for short in ((0, 0), (0, scratch_floats), (scratch_words, 0)):
        yield from [line('build', *short), SUM]
    yield from [line('build', scratch_words + 9, scratch_floats + 9), words(store.words), SUM]
    # built: checked like any other, then success with nothing changed
    yield from [store.build(), SUM, line('build', scratch_words - 1, scratch_floats), SUM, word(store.row(0) + 1, 9), store.build(), SUM]
    yield from SMALL.built(5) + [SUM, SMALL.build(), SUM, add(9, [ONE] * 3), SMALL.new(), SUM, SMALL.build()]
    yield from [adds(2, 1, 0), SMALL.build(), SUM]


def carvings():
    """Leaves by themselves, of vectors as they are."""
    for _ in range(110):
        n, dimension = d.between(1, 40), d.between(1, 3)
        component = d.of([d.unit, d.unit, d.whole, d.near, d.huge])
        yield line('leaves', dimension, d.of([1, 2, 3, 5, 10]), d.of([0, 0, 1, 2, 4, 20]), [f'{d.of(FRACTIONS):016x}'], n,
                   floats(d.vector(n * dimension, component)))
    for _ in range(260):
        n = d.of([d.between(1, 40), d.between(1, 40), d.between(41, 300)])
        yield line('leavesof', d.of([1, 2, 3, 8, 64]), d.of([1, 2, 5, max(1, n // 4), n, 2048]), d.of([0, 0, 1, 2, 10, n, 1024]),
                   [f'{d.of(FRACTIONS):016x}'], n, d.below(1 << 32), d.of(STYLES))
    for *sizes, fraction, style in ((48, 64, 16, 0.02, ANY), (64, 1, 0, 0.5, CLUSTERS), (1, 100, 30, 0.1, TIES), (8, 32, 0, 0.0, REPEATS)):
        yield line('leavesof', *sizes, [f'{double(fraction):016x}'], 1024, d.below(1 << 32), style)


def questions():
    for part in (few_nodes, ends_of_parameters, random_stores, tied_stores, large_stores, vectors_at_edges, written_otherwise, refusals,
                 carvings):
        yield from part()
