//! Answers to the questions of the recorded files, line by line (recorded/README.md has the format).
use crate::distance::cosine_distance_normalized;
use crate::order::{bits, compare};
use crate::pipnn::{PipnnIndex, PipnnParams};
use crate::recognising::{decide, household, score, Recognised};
use crate::simd;
use crate::stores::{Asked, Stores};
use crate::trace;

const MULTIPLIER: u64 = 6364136223846793005;

/// The tokens of a question from left to right: hexadecimal numbers.
struct Question<'a>(std::str::Split<'a, char>);

impl Question<'_> {
    fn long(&mut self) -> u64 {
        let token = self.0.next().expect("a token more");
        u64::from_str_radix(token, 16).expect("a hexadecimal number")
    }

    fn word(&mut self) -> u32 {
        self.long().try_into().expect("32 bits")
    }

    fn size(&mut self) -> usize {
        self.long() as usize
    }

    fn words(&mut self, count: usize) -> Vec<u32> {
        (0..count).map(|_| self.word()).collect()
    }

    fn longs(&mut self, count: usize) -> Vec<u64> {
        (0..count).map(|_| self.long()).collect()
    }

    fn float(&mut self) -> f32 {
        f32::from_bits(self.word())
    }

    fn floats(&mut self, count: usize) -> Vec<f32> {
        (0..count).map(|_| self.float()).collect()
    }

    /// a count n, then n floats
    fn vector(&mut self) -> Vec<f32> {
        let count = self.size();
        self.floats(count)
    }
}

/// The tokens of an answer.
#[derive(Default)]
struct Answer(Vec<String>);

impl Answer {
    fn number(&mut self, x: impl TryInto<u64>) {
        let x: u64 = x.try_into().ok().expect("64 bits");
        self.0.push(format!("{x:x}"));
    }

    fn float(&mut self, x: f32) {
        self.0.push(format!("{:08x}", bits(x)));
    }

    fn floats(&mut self, xs: &[f32]) {
        xs.iter().for_each(|&x| self.float(x));
    }

    /// 1 for Known with its doc id, 0 for New, then the score
    fn recognised(&mut self, recognised: Recognised) {
        let tokens = match recognised {
            Recognised::Known(doc, score) => vec![1, doc, score],
            Recognised::New(score) => vec![0, score],
        };
        tokens.into_iter().for_each(|x| self.number(x));
    }
}

/// What stays from line to line: the whole stores, and how much of them is passed to the calls.
#[derive(Default)]
struct State {
    words: Vec<u32>,
    floats: Vec<u32>,
    lent: (usize, usize),
}

pub fn run(questions: &str) -> String {
    let mut state = State::default();
    let mut output = String::new();
    for line in questions.lines() {
        output += line;
        if let Some(answer) = answer(&mut state, line) {
            output += " =";
            for token in answer.0 {
                output += " ";
                output += &token;
            }
        }
        output += "\n";
    }
    output
}

fn answer(state: &mut State, line: &str) -> Option<Answer> {
    let mut tokens = line.split(' ');
    let kind = tokens.next().expect("a kind");
    let q = &mut Question(tokens);
    let mut a = Answer::default();
    match kind {
        "fill" | "lend" | "word" | "float" => {
            set(state, kind, q);
            return None;
        }
        "new" | "add" | "adds" | "build" | "find" | "recognise" => call(state, kind, q, &mut a),
        "sum" | "words" => look(state, kind, q, &mut a),
        "leaves" | "leavesof" => leaves(kind, q, &mut a),
        "leaders" | "draw" => draws(kind, q, &mut a),
        "score" | "decide" | "household" => recognising(kind, q, &mut a),
        _ => number(kind, q, &mut a),
    }
    assert!(q.0.next().is_none(), "too many tokens: {line}");
    Some(a)
}

fn number(kind: &str, q: &mut Question, a: &mut Answer) {
    match kind {
        "dot" => a.float(simd::dot(&q.vector(), &q.vector())),
        "distance" => a.float(cosine_distance_normalized(&q.vector(), &q.vector())),
        "root" => a.float(q.float().sqrt()),
        "scale" => {
            let vector = q.vector();
            let mut index = index_of(vector.len(), Vec::new());
            index
                .add_slice(0, &vector)
                .expect("an open index of this dimension");
            a.float(trace::take().length);
            a.floats(index.vectors());
        }
        "sort" | "first" => {
            let most = if kind == "first" {
                q.size()
            } else {
                usize::MAX
            };
            let mut places: Vec<(usize, f32)> = q.vector().into_iter().enumerate().collect();
            places.sort_by(|a, b| compare(a.1, b.1));
            places.iter().take(most).for_each(|place| a.number(place.0));
        }
        "multiply" => a.number(q.long().wrapping_mul(q.long())),
        "plane" => a.float(index_of(64, Vec::new()).hyperplanes()[q.size()]),
        "centroid" => {
            let (count, dimension) = (q.size(), q.size());
            index_of(dimension, q.floats(count * dimension)).find_entry();
            a.floats(&trace::take().centroid);
        }
        _ => panic!("no such kind: {kind}"),
    }
}

/// The published index with these vectors as they are, the full number of hyperplanes and the Rust's defaults else.
fn index_of(dimension: usize, vectors: Vec<f32>) -> PipnnIndex {
    PipnnIndex::holding(
        dimension,
        PipnnParams {
            num_hash_bits: 16,
            ..Default::default()
        },
        vectors,
        Vec::new(),
    )
}

/// The published index for carving alone.
fn index_to_carve(
    dimension: usize,
    leaf: usize,
    min: usize,
    fraction: u64,
    vectors: Vec<f32>,
) -> PipnnIndex {
    let params = PipnnParams {
        max_leaf_size: leaf,
        min_leaf_size: min,
        leader_fraction: f64::from_bits(fraction),
        ..Default::default()
    };
    PipnnIndex::holding(dimension, params, vectors, Vec::new())
}

fn draws(kind: &str, q: &mut Question, a: &mut Answer) {
    let level = if kind == "draw" { q.size() } else { 0 };
    let (count, fraction) = (q.word(), q.long());
    let segment: Vec<u32> = (0..count).collect();
    trace::take();
    trace::only_draws();
    index_to_carve(1, 0, 0, fraction, Vec::new()).carve(&segment, level);
    let positions = &trace::take().draws[0];
    match kind {
        "leaders" => a.number(positions.len()),
        _ => positions.iter().for_each(|&position| a.number(position)),
    }
}

fn leaves(kind: &str, q: &mut Question, a: &mut Answer) {
    let (dimension, leaf, min, fraction, count) =
        (q.size(), q.size(), q.size(), q.long(), q.size());
    let vectors = match kind {
        "leaves" => q.floats(count * dimension),
        _ => generated(count, dimension, q.long(), q.long()).concat(),
    };
    let nodes: Vec<u32> = (0..count as u32).collect();
    let leaves = index_to_carve(dimension, leaf, min, fraction, vectors).carve(&nodes, 0);
    trace::take();
    let mut flat: Vec<u32> = Vec::new();
    for leaf in &leaves {
        flat.push(leaf.len() as u32);
        flat.extend(leaf);
    }
    a.number(leaves.len());
    match kind {
        "leaves" => flat.iter().for_each(|&x| a.number(x)),
        _ => a.number(checksum(&flat)),
    }
}

fn recognising(kind: &str, q: &mut Question, a: &mut Answer) {
    match kind {
        "score" => a.number(score(q.float())),
        "decide" => a.recognised(decide(q.word(), q.float(), q.float())),
        _ => {
            let (day, count) = (q.long(), q.size());
            let seconds = q.longs(count);
            let count = q.size();
            match household(day, &seconds, &q.words(count)) {
                Ok(phones) => {
                    a.number(0);
                    a.number(phones);
                }
                Err(refusal) => a.number(refusal),
            }
        }
    }
}

fn checksum(values: &[u32]) -> u64 {
    values.iter().fold(0, |h: u64, &x| {
        h.wrapping_mul(MULTIPLIER).wrapping_add(x as u64 + 1)
    })
}

/// `dimension` numbers of the generator from a state on, and the state after them.
fn numbers(mut r: u64, dimension: usize, style: u64) -> (Vec<f32>, u64) {
    let vector = (0..dimension)
        .map(|_| {
            r = r.wrapping_mul(MULTIPLIER).wrapping_add(1442695040888963407);
            let x = r >> 40;
            match style {
                1 => (x % 3) as f32 - 1.0,
                _ => x as f32 / 8388608.0 - 1.0,
            }
        })
        .collect();
    (vector, r)
}

/// Generated vectors: 0 any, 1 with ties, 2 seven that repeat, 3 around sixteen centres.
fn generated(count: usize, dimension: usize, seed: u64, style: u64) -> Vec<Vec<f32>> {
    let mut r = seed;
    let next = |i: u64| match style {
        2 => numbers(seed.wrapping_add(i % 7), dimension, 0).0,
        3 => {
            let centre = numbers(seed.wrapping_add(i % 16), dimension, 0).0;
            let noise = numbers(seed.wrapping_mul(31).wrapping_add(i + 1000), dimension, 0).0;
            centre
                .iter()
                .zip(noise)
                .map(|(c, x)| c + 0.05f32 * x)
                .collect()
        }
        _ => {
            let (vector, after) = numbers(r, dimension, style);
            r = after;
            vector
        }
    };
    (0..count as u64).map(next).collect()
}

fn set(state: &mut State, kind: &str, q: &mut Question) {
    match kind {
        "fill" => {
            let (words, floats, seed) = (q.size(), q.size(), q.long());
            let scattered = |i: usize| seed.wrapping_add((i as u64).wrapping_mul(2654435761));
            state.words = (0..words).map(|i| scattered(i) as u32).collect();
            state.floats = (0..floats)
                .map(|i| (scattered(i) % (1 << 30)) as u32)
                .collect();
            state.lent = (words, floats);
        }
        "lend" => state.lent = (q.size(), q.size()),
        _ => {
            let (place, x) = (q.size(), q.word());
            let store = if kind == "word" {
                &mut state.words
            } else {
                &mut state.floats
            };
            store[place] = x;
        }
    }
}

fn look(state: &State, kind: &str, q: &mut Question, a: &mut Answer) {
    match kind {
        "sum" => {
            a.number(checksum(&state.words));
            a.number(checksum(&state.floats));
        }
        _ => {
            let (from, count) = (q.size(), q.size());
            state.words[from..from + count]
                .iter()
                .for_each(|&x| a.number(x));
        }
    }
}

fn call(state: &mut State, kind: &str, q: &mut Question, a: &mut Answer) {
    let mut stores = Stores {
        words: &mut state.words[..state.lent.0],
        floats: &mut state.floats[..state.lent.1],
    };
    match kind {
        "new" => a.number(stores.new(&Asked {
            dimension: q.word(),
            max_leaf_size: q.word(),
            min_leaf_size: q.word(),
            leader_fraction: q.long(),
            max_degree: q.word(),
            num_hash_bits: q.word(),
            final_prune: q.word(),
            alpha: q.word(),
            ef_search: q.word(),
            capacity: q.word(),
        })),
        "add" => {
            let (doc, length) = (q.word(), q.size());
            a.number(stores.add(doc, &q.words(length)));
        }
        "adds" => {
            let (count, seed, style) = (q.size(), q.long(), q.long());
            a.number(adds(&mut stores, count, seed, style));
        }
        "build" => a.number(stores.build((q.size(), q.size())).0),
        "recognise" => {
            let scratch = (q.size(), q.size());
            let (ef, limit, length) = (q.word(), q.float(), q.size());
            match stores.recognise(scratch, ef, limit, &q.words(length)) {
                Ok(recognised) => {
                    a.number(0);
                    a.recognised(recognised);
                }
                Err(refusal) => a.number(refusal),
            }
        }
        _ => {
            let scratch = (q.size(), q.size());
            let (k, ef, outputs, length) = (q.word(), q.word(), (q.size(), q.size()), q.size());
            let (number, found) = stores.find(scratch, k, ef, outputs, &q.words(length));
            a.number(number);
            a.number(found.docs.len());
            a.number(found.scored.len());
            found.docs.iter().for_each(|&doc| a.number(doc));
            a.floats(&found.distances);
        }
    }
}

/// Adds generated vectors up to the first refusal, and returns the last number.
fn adds(stores: &mut Stores, count: usize, seed: u64, style: u64) -> u32 {
    let dimension = stores.words.get(1).map_or(0, |&x| x as usize);
    let vectors = generated(
        count,
        if dimension > 64 { 0 } else { dimension },
        seed,
        style,
    );
    let mut number = 0;
    for (i, vector) in vectors.iter().enumerate() {
        let components: Vec<u32> = vector.iter().map(|x| x.to_bits()).collect();
        number = stores.add(i as u32 * 7 + 1, &components);
        if number != 0 {
            break;
        }
    }
    number
}
