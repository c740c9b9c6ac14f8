#!/usr/bin/env python3
"""The oracle's departures from the published Rust, each by name.

usage: edits.py FROM TO [NAME..]

Copies the published files from FROM to TO with every edit but those named. An edit that does not match as often as it says is an error.
"""
import pathlib
import sys

MODULE = 'pipnn/mod.rs'
FILES = [MODULE, 'graph_utils.rs', 'distance.rs', 'simd.rs', 'error.rs']
FROM_ZERO = '.fold(0.0f32, |total, term| total + term)'


def before(text, call):
    """The text with a call put in front of it."""
    return text, f'{call} {text}'


def after(text, line):
    """The text with a line put behind it."""
    return text, f'{text} {line}'


# name, file, (what it replaces, by what), how often
EDITS = [
    # equal distances keep their incoming order
    ('stable-sorts', MODULE, ('sort_unstable_by', 'sort_by'), 7),
    # a NaN is taken as positive, whatever its sign
    ('one-order', MODULE, ('a.1.total_cmp(&b.1)', 'crate::order::compare(a.1, b.1)'), 7),
    # it is not among the published files
    ('float-ord', 'distance.rs', after('use crate::simd;', 'pub use crate::order::FloatOrd;'), 1),
    # sums start at +0, whatever the release of Rust
    ('sums-from-zero', MODULE, ('.sum::<f32>()', FROM_ZERO), 3),
    ('sums-from-zero', 'simd.rs', ('x * y).sum()', f'x * y){FROM_ZERO}'), 1),
    # what the driver and the recorded answers need to see
    ('hand-out-inside', MODULE, after('use crate::RetrieveError;', 'mod inside;'), 1),
    ('hand-out-length', MODULE, before('if norm > 1e-10', 'crate::trace::length(norm);'), 1),
    ('hand-out-leaders', MODULE,
     before('let leaders: Vec<u32>', 'if crate::trace::leaders(&leader_indices) { return Vec::new(); }'), 1),
    ('hand-out-leaves', MODULE, after('let leaves = self.partition(&all_ids, 0);', 'crate::trace::leaves(&leaves);'), 1),
    ('hand-out-cells', MODULE, before('selected.sort_', 'crate::trace::cells(point_id, &selected);'), 1),
    ('hand-out-merged', MODULE, before('self.neighbors[point_id as usize] =', 'crate::trace::merged(point_id, &merged);'), 1),
    ('hand-out-centroid', MODULE, before('let mut best = 0u32;', 'crate::trace::centroid(&centroid);'), 1),
    ('hand-out-lists', MODULE, before('self.ensure_connectivity();', 'crate::trace::lists_before_repair(&self.neighbors);'), 1),
    ('hand-out-bridges', 'graph_utils.rs',
     before('neighbors[best_id as usize].push', 'crate::trace::bridge(best_id, i as u32);'), 1),
    ('hand-out-scored', MODULE, after('candidates.push((entry, entry_dist));', 'crate::trace::scored(entry, entry_dist);'), 1),
    ('hand-out-scored', MODULE, after('candidates.push((neighbor, dist));', 'crate::trace::scored(neighbor, dist);'), 1),
    ('hand-out-visited', MODULE, before('candidates.dedup_by_key', 'crate::trace::visited(visited_count);'), 1),
]


def main():
    source, target, left_out = pathlib.Path(sys.argv[1]), pathlib.Path(sys.argv[2]), sys.argv[3:]
    unknown = set(left_out) - {name for name, *_ in EDITS}
    if unknown:
        sys.exit(f'edits.py: no edit is named {", ".join(sorted(unknown))}')
    for file in FILES:
        text = (source / file).read_text()
        for name, where, (old, new), times in EDITS:
            if where != file or name in left_out:
                continue
            found = text.count(old)
            if found != times:
                sys.exit(f'edits.py: {name}: {file} has {old!r} {found} times, and not {times}')
            text = text.replace(old, new)
        (target / file).parent.mkdir(parents=True, exist_ok=True)
        (target / file).write_text(text)


main()
