"""Inputs of the program probe (scope, Checked values): the worked example, every refusal that it can reach, every kind of line that ends it."""
from draws import *

HEADER = dict(dim='2', leaf='256', min='0', fraction='3fe0000000000000', degree='1', bits='0', final='1', alpha='3f99999a', ef='3', cap='8')
ADDS = ['add=10,3f800000,00000000', 'add=20,00000000,3f800000', 'add=30,bf800000,00000000']
BUILD, FIND = 'build=1', 'find=3,3,3f800000,00000000'
CALLS = ADDS + [BUILD, FIND]


def header(**changes):
    return [f'{key}={text}' for key, text in {**HEADER, **changes}.items()]


def text(lines):
    return ''.join(line + '\n' for line in lines).encode()


def generated(d, cap, nodes, component, finds, **changes):
    """a larger run: generated phones, searched by generated phones"""
    dimension = int(changes['dim'])

    def vector():
        return ','.join(floats(d.vector(dimension, component)))

    adds = [f'add={7 * i},{vector()}' for i in range(nodes)]
    return text(header(cap=str(cap), **changes) + adds + [BUILD] + [f'find={k},{ef},{vector()}' for k, ef in finds])


def good():
    d = Draws(5)
    yield 'example', text(header() + CALLS)
    more = ['find=1,1,3f800000,00000000', 'find=0,0,3f800000,00000000', 'find=1024,1024,80000000,3f800000']
    yield 'example-more', text(header() + CALLS + more)
    yield 'no-last-line-feed', text(header() + CALLS)[:-1]
    zeros = ['add=0010,3f800000,00000000', BUILD, 'find=01,001,3f800000,00000000']
    yield 'leading-zeros', text(header(dim='002', cap='0000000000008') + zeros)
    yield 'edges-of-vectors', text(header() + [f'add=4294967295,{x}' for x in (
        '00000000,80000000', '2edbe6ff,00000000', '2edbe700,00000000', '7f7fffff,ff7fffff', '00000001,80000001', '7f7fffff,00000000')]
        + [BUILD] + [f'find=8,8,{x}' for x in ('00000000,00000000', '3f800000,00000000', '2edbe6ff,2edbe6ff', '00000001,7f7fffff')])
    yield 'limits-low', generated(d, 1, 1, d.unit, [(0, 0), (1, 0)], dim='1', leaf='1', fraction='8000000000000000', degree='0',
                                  ef='0')
    yield 'limits-high', generated(d, 64, 64, d.unit, [(1024, 1024), (10, 50)], dim='64', leaf='2048', min='1024',
                                   fraction='3ff0000000000000', degree='32', bits='16', alpha='ff7fffff', ef='1024')
    yield 'household', generated(d, 64, 40, d.unit, [(1, 10), (3, 10), (3, 1), (50, 50)], dim='48', leaf='2048', min='64', degree='32',
                                 bits='12', ef='100')
    yield 'carved', generated(d, 64, 63, d.unit, [(5, 2), (5, 5), (1, 1), (0, 1)], dim='3', leaf='6', min='2', degree='3', bits='4')
    yield 'ties', generated(d, 32, 32, d.whole, [(8, 1), (32, 4), (32, 32)], dim='2', leaf='10', fraction='3fb999999999999a', degree='2',
                            bits='2')


def evening():
    """a household's evening, which examples/README.md explains: features that a reader can follow"""
    def features(*xs):
        return ','.join(floats(map(single, xs)))

    phones = {101: (1, 0, 0.5, 0), 102: (0, 1, 0, 0.5), 103: (0.5, 0.5, -1, 0), 104: (1, 0, 0.5, 0.25)}
    asked = [(1, 10, (1, 0.0625, 0.5, 0)), (1, 10, (0, 0.75, 0.0625, 0.5)), (2, 10, (1, 0, 0.5, 0.125)), (1, 10, (-1, 0, 0, 1))]
    lines = header(dim='4', leaf='2048', min='64', fraction='3f947ae147ae147b', degree='32', bits='12', ef='100', cap='8')
    lines += [f'add={doc},{features(*xs)}' for doc, xs in phones.items()]
    lines += [BUILD] + [f'find={k},{ef},{features(*xs)}' for k, ef, xs in asked]
    yield 'evening', text(lines + [f'add=105,{features(0, 0, 1, 0)}', f'find=1,10,{features(1, 0, 0)}'])


def refused():
    for number, changes in ((1, dict(dim='0')), (1, dict(dim='65', leaf='0')), (2, dict(final='2')), (2, dict(cap='0')),
                            (2, dict(alpha='7fc00000'))):
        yield f'refused-{number}-{"-".join(changes)}', text(header(**changes) + CALLS)
    finds = ['find=3,3,3f800000', 'find=3,3', 'find=3,3,7fc00000,00000000', 'find=1025,3,3f800000,00000000',
             'find=3,1025,3f800000,00000000', 'find=4294967295,4294967295,3f800000,00000000']
    adds = ['add=1,3f800000', 'add=1', 'add=1,3f800000,00000000,00000000', 'add=1,7f800000,00000000', 'add=1,00000000,ffc00000']
    yield 'refused-calls', text(header(cap='3') + [BUILD, FIND] + ADDS[:2] + adds + finds[:1] + ADDS[2:] + ADDS[:1] + adds
                                + [BUILD] + ADDS[:1] + adds + finds + [FIND, BUILD])


def ending():
    """Lines after which nothing more is read, between calls that show it."""
    start = header() + ADDS + [BUILD]
    lines = {
        'empty-line': '', 'carriage-return': FIND + '\r', 'blank-before': ' ' + FIND, 'blank-inside': 'find=3, 3,3f800000,00000000',
        'sign': 'find=+3,3,3f800000,00000000', 'number-too-large': 'find=4294967296,3,3f800000,00000000',
        'capitals': 'find=3,3,3F800000,00000000', 'few-digits': 'find=3,3,3f80000,00000000', 'many-digits': 'find=3,3,03f800000,00000000',
        'last-comma': 'find=3,3,3f800000,00000000,', 'one-count': 'find=3', 'no-doc': 'add=,3f800000,00000000', 'build-0': 'build=0',
        'build-01': 'build=01', 'other-key': 'found=3,3,3f800000,00000000', 'no-equals': 'build', 'second-header': 'dim=2',
        'second-cap': 'cap=8',
    }
    for name, bad in lines.items():
        yield f'ends-{name}', text(start + [bad, FIND])
    yield 'ends-other-bytes', text(start) + b'find=3,3,\xff\x00800000,00000000\n' + text([FIND])
    headers = {
        'cap-65': header(cap='65'), 'cap-65-and-dim-0': header(cap='65', dim='0'), 'cap-1025': header(cap='1025'),
        'header-order': header()[1::-1] + header()[2:], 'header-missing': header()[1:], 'header-twice': header()[:1] + header(),
        'add-before-cap': header()[:-1] + ADDS[:1] + header()[-1:], 'leaf-too-large': header(leaf='4294967296'),
        'fraction-short': header(fraction='3fe00000'), 'alpha-long': header(alpha='03f99999a'), 'no-number': header(ef=''),
    }
    for name, bad in headers.items():
        yield f'ends-{name}', text(bad + CALLS)
    yield 'ends-at-once', b''


def inputs():
    for part in (good, evening, refused, ending):
        yield from part()
