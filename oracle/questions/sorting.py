"""Questions about the order of distances (scope, part 1): all of them sorted, and the first few."""
from draws import *

d = Draws(2)


def to_sort(n):
    """distances with few ties, many ties, or edges"""
    pool = d.vector(d.between(1, 8), d.near) + [ZERO, MINUS_ZERO]
    component = d.of([d.near, lambda: d.of(pool), lambda: d.of(pool), d.edge, lambda: d.of(NANS + [INFINITY, SIGN | INFINITY])])
    return d.vector(n, component)


def sorts():
    for v in [[], [ZERO, MINUS_ZERO], [MINUS_ZERO, ZERO], [ONE] * 5, NANS, list(reversed(EDGES + NANS)), EDGES + NANS + EDGES]:
        yield line('sort', counted(v))
    for n in range(71):
        yield line('sort', counted(to_sort(n)))
        yield line('sort', counted(to_sort(n)))
    for n in (1024, 2048):
        yield line('sort', counted(d.vector(n, d.unit)))
    yield line('sort', counted(d.vector(2048, d.whole)))


def firsts():
    for n in range(1, 71):
        yield line('first', d.of([0, 1, 2, d.below(n), d.below(n), n, n + 1, 64]), counted(to_sort(n)))
    for n, m in ((1024, 64), (2048, 1)):
        yield line('first', m, counted(d.vector(n, d.of([d.unit, d.whole]))))


def questions():
    for part in (sorts, firsts):
        yield from part()
