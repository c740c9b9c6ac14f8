"""Lines of a history of calls, and the places of a store's words."""
from dataclasses import dataclass, replace

from draws import *

ALPHA = single(1.2)
HEADER = 16  # words


@dataclass(frozen=True)
class Store:
    """What `new` is asked for; floats are bits. The defaults make a small store that is carved."""
    dimension: int = 3
    leaf: int = 2
    min: int = 1
    fraction: int = double(0.5)
    degree: int = 3
    bits: int = 4
    final: int = 1
    alpha: int = ALPHA
    ef: int = 10
    cap: int = 5

    def but(self, **changes):
        return replace(self, **changes)

    # the sizes and the layout of docs/SCOPE.md, for all questions

    @property
    def words(self):
        return HEADER + self.cap * (4 + self.degree)

    @property
    def floats(self):
        return self.cap * self.dimension

    @property
    def scratch(self):
        return 64 * self.cap, 16 * self.cap + 256

    def doc(self, node):
        return HEADER + node

    def row(self, node):
        return self.doc(self.cap) + node * (1 + self.degree)

    def bridge(self, number):
        return self.row(self.cap) + 2 * number

    def fill(self, seed=7, more_words=0, more_floats=0):
        return line('fill', self.words + more_words, self.floats + more_floats, seed)

    def new(self):
        return line('new', self.dimension, self.leaf, self.min, [f'{self.fraction:016x}'], self.degree, self.bits, self.final,
                    floats([self.alpha]), self.ef, self.cap)

    def build(self):
        return line('build', *self.scratch)

    def find(self, k, ef, query, outputs=None):
        """lent outputs of k places each, if nothing else is said"""
        doc_places, distance_places = outputs or (k, k)
        return line('find', *self.scratch, k, ef, doc_places, distance_places, counted(query))

    def open(self, nodes, seed=7, style=0):
        """a store of generated nodes, not built"""
        return [self.fill(seed, 5, 3), self.new()] + ([adds(nodes, seed, style)] if nodes else [])

    def built(self, nodes, seed=7, style=0):
        return self.open(nodes, seed, style) + [self.build()]


def add(doc, vector):
    return line('add', doc, counted(vector))


def adds(count, seed, style):
    return line('adds', count, seed, style)


def word(place, x):
    return line('word', place, x)


def set_float(place, bits):
    return line('float', place, floats([bits]))


def lend(words, floats):
    return line('lend', words, floats)


SUM = 'sum'


def generated(seed, dimension):
    """The first vector that `adds` makes from a seed in style 0, as numbers; with style 3 the centres are those of seed to seed + 15."""
    numbers, r = [], seed
    for _ in range(dimension):
        r = (r * 6364136223846793005 + 1442695040888963407) & ALL
        numbers.append((r >> 40) / 8388608 - 1)
    return numbers


def words(count, start=0):
    return line('words', start, count)


@dataclass(frozen=True)
class Defect:
    """Something that turns a call back: lines that bring it about and take it away, or a change to one of the call's arguments."""
    bring: str = None
    take: str = None
    argument: str = None
    change: object = None


def damaged(place, bad, good):
    return Defect(word(place, bad), word(place, good))


def orders(defects, call, **arguments):
    """Each defect alone, each with each that is checked later, each with all of those. The sums show that nothing changed."""
    count = len(defects)
    chosen = [[i] for i in range(count)] + [[i, j] for i in range(count) for j in range(i + 1, count)]
    chosen += [list(range(i, count)) for i in range(count - 2)]
    for places in chosen:
        together = [defects[place] for place in reversed(places)]
        changed = dict(arguments)
        for defect in together:
            if defect.argument:
                changed[defect.argument] = defect.change(changed[defect.argument])
        yield from (defect.bring for defect in together if defect.bring)
        yield call(**changed)
        yield SUM
        yield from (defect.take for defect in reversed(together) if defect.take)
