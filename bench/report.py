#!/usr/bin/env python3
"""Makes the measured part of docs/SPEED.md, and docs/speed.svg beside it, from what bench/run measured.

usage: report.py LINES SPEED.md speed.svg

LINES has one line for each measurement, fields between tabs: those that bench/calls.rs prints, and `size` lines of bench/run.
"""
import pathlib
import sys

BEGIN, END = '<!-- measured -->\n', '<!-- /measured -->\n'
SIZES = (64, 256, 512, 1024)
LEAVES = (2048, 64)
SEARCHES = [f'search k {k} ef {ef}' for k in (1, 10) for ef in (10, 50, 100)]
KINDS = ['add', 'build'] + SEARCHES + ['recognise ef 50']
# the largest share of the Rust's time that is accepted
ASKED = {'build': 0.5, **{s: 1.2 if s.endswith('ef 10') else 0.7 for s in SEARCHES}}


def read(path):
    """Times by kind, nodes and leaf size; the other lines by their first field."""
    times, others = {}, {}
    for line in pathlib.Path(path).read_text().splitlines():
        kind, *fields = line.split('\t')
        if kind in KINDS:
            n, leaf, scored, rust, ours, again = map(float, fields)
            times[kind, int(n), int(leaf)] = (int(scored), rust, ours, again)
        else:
            others.setdefault(kind, []).append(fields)
    return times, others


def duration(nanoseconds):
    for unit, size in (('ms', 1e6), ('µs', 1e3)):
        if nanoseconds >= size:
            return f'{nanoseconds / size:.3g} {unit}'
    return f'{nanoseconds:.0f} ns'


def table(head, rows):
    lines = [head, ['---'] * len(head)] + rows
    return ''.join('| ' + ' | '.join(map(str, line)) + ' |\n' for line in lines)


def times_table(times, leaf):
    rows = []
    for kind in KINDS:
        cells = [times.get((kind, n, leaf)) for n in SIZES]
        if any(cells):
            rows.append([kind, ASKED.get(kind, '')] + ['' if c is None else f'{c[2]:.2f} of {duration(c[1])}' for c in cells])
    scored = [[f'.. scored, {s[7:]}', ''] + [times[s, n, leaf][0] for n in SIZES] for s in SEARCHES[:3]]
    return table(['Call', 'Aim'] + [f'{n:,} nodes' for n in SIZES], rows + scored)


def report(times, others):
    noise = sorted(abs(t[3] - 1) for t in times.values())
    n = SIZES[-1]
    parts = [
        'Each cell is this library\'s time as a share of the Rust\'s, and the Rust\'s time. Aim is the largest share that is accepted. Add is all '
        'nodes into an empty index. The Rust has no recognising: there it searches for one node and compares its distance.\n\n'
        f'The Rust was measured twice in the same rounds: the second time differed from the first by {noise[len(noise) // 2]:.1%} in the '
        f'median case and by {noise[-1]:.1%} at most. Smaller differences between shares mean nothing.\n\n'
        '**Default parameters**\n\n', times_table(times, 2048),
        '\n**max_leaf_size 64**\n\n', times_table(times, 64),
        f'\n**Stored vectors missed** by a search with k = 1 for exactly that vector, of {n:,}:\n\n',
        table(['Vectors'] + [f'ef {f[1]}' for f in others['missed clusters']],
              [[kind] + [f'{int(f[2]) / n:.1%}' for f in others[f'missed {kind}']] for kind in ('clusters', 'random')]),
        '\n**Memory**, in KB:\n\n',
        table(['Nodes', 'The Rust, built', '.. at most', 'Here: both stores', '.. scratch'],
              [[f'{int(f[0]):,}'] + [f'{int(x) / 1024:.0f}' for x in f[1:]] for f in others['room']]),
        '\n**Binary size**, in KB of code and constants that a program for release grows by: '
        + ', '.join(f'{name} {int(size) / 1024:.0f}' for name, size in others['size']) + '.\n',
    ]
    return ''.join(parts)


def picture(times):
    """Our shares as bars, a group for each call and a bar for each number of nodes, with the aim."""
    kinds = [k for k in KINDS if k != 'add']
    left, top, group, bar, height = 48, 40, 92, 18, 240
    scale = height / 1.4
    width = left + group * len(kinds) + 16
    base = top + height
    out = [f'<svg xmlns="http://www.w3.org/2000/svg" width="{width}" height="{base + 60}" font-family="sans-serif" font-size="11">',
           f'<rect width="{width}" height="{base + 60}" fill="white"/>',
           f'<text x="{left}" y="20" font-size="14">Share of the Rust\'s time, 48 features, default parameters (less is faster)</text>']
    for share in (0.25, 0.5, 0.75, 1, 1.25):
        y = base - share * scale
        out.append(f'<line x1="{left}" x2="{width - 16}" y1="{y:.1f}" y2="{y:.1f}" stroke="{"#333" if share == 1 else "#ddd"}"/>')
        out.append(f'<text x="{left - 6}" y="{y + 4:.1f}" text-anchor="end">{share}</text>')
    for g, kind in enumerate(kinds):
        x = left + g * group + 10
        for i, n in enumerate(SIZES):
            share = times[kind, n, 2048][2]
            tall = min(share, 1.4) * scale
            shade = ('#9ecae1', '#6baed6', '#3182bd', '#08519c')[i]
            out.append(f'<rect x="{x + i * bar}" y="{base - tall:.1f}" width="{bar - 2}" height="{tall:.1f}" fill="{shade}">'
                       f'<title>{kind}, {n} nodes: {share:.2f}</title></rect>')
        if kind in ASKED:
            y = base - ASKED[kind] * scale
            out.append(f'<line x1="{x - 4}" x2="{x + 4 * bar + 2}" y1="{y:.1f}" y2="{y:.1f}" stroke="#d62728" stroke-width="2"/>')
        out.append(f'<text x="{x + 2 * bar}" y="{base + 16}" text-anchor="middle">{kind.replace("search ", "")}</text>')
    out.append(f'<text x="{left}" y="{base + 40}">bars: 64, 256, 512, 1,024 nodes; red: the aim; "k .. ef ..": searches</text></svg>')
    return '\n'.join(out) + '\n'


def main():
    lines, speed, svg = sys.argv[1:]
    times, others = read(lines)
    text = pathlib.Path(speed).read_text()
    before, rest = text.split(BEGIN)
    after = rest.split(END)[1]
    pathlib.Path(speed).write_text(before + BEGIN + report(times, others) + END + after)
    pathlib.Path(svg).write_text(picture(times))


if __name__ == '__main__':
    main()
