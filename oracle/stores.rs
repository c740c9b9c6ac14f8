//! The two stores and the calls on them: well-formedness and refusals in the words of docs/SCOPE.md, over the layout of sizes.rs. Vectors, lists,
//! bridges, entry nodes and answers come from the published code.
use crate::pipnn::{PipnnIndex, PipnnParams};
use crate::recognising::{decide, Recognised};
use crate::sizes::{self, HEADER};
use crate::trace::{self, Trace};

/// What `new` is asked for. Floats are bits.
#[derive(Clone)]
pub struct Asked {
    pub dimension: u32,
    pub max_leaf_size: u32,
    pub min_leaf_size: u32,
    pub leader_fraction: u64,
    pub max_degree: u32,
    pub num_hash_bits: u32,
    pub final_prune: u32,
    pub alpha: u32,
    pub ef_search: u32,
    pub capacity: u32,
}

/// What a search returns.
#[derive(Default)]
pub struct Found {
    pub docs: Vec<u32>,
    pub distances: Vec<f32>,
    pub scored: Vec<(u32, f32)>,
}

/// The words and floats of scratch that a call is passed.
pub type Scratch = (usize, usize);

/// The words and floats that a call is passed. Floats are bits.
pub struct Stores<'a> {
    pub words: &'a mut [u32],
    pub floats: &'a mut [u32],
}

impl Asked {
    pub fn of_header(w: &[u32]) -> Self {
        Asked {
            dimension: w[1],
            max_leaf_size: w[3],
            min_leaf_size: w[4],
            leader_fraction: (w[12] as u64) << 32 | w[13] as u64,
            max_degree: w[5],
            num_hash_bits: w[6],
            final_prune: w[7],
            alpha: w[14],
            ef_search: w[8],
            capacity: w[11],
        }
    }

    /// 1 or 2 if something is beyond its limits, else 0
    fn refusal(&self) -> u32 {
        let fraction = f64::from_bits(self.leader_fraction);
        let in_limits = (1..=2048).contains(&self.max_leaf_size)
            && self.min_leaf_size <= 1024
            && (0.0..=1.0).contains(&fraction)
            && self.max_degree <= 32
            && self.num_hash_bits <= 16
            && self.final_prune <= 1
            && f32::from_bits(self.alpha).is_finite()
            && self.ef_search <= 1024
            && (1..=1024).contains(&self.capacity);
        first(&[(!(1..=64).contains(&self.dimension), 1), (!in_limits, 2)])
    }

    fn words(&self) -> usize {
        sizes::words(self.capacity as usize, self.max_degree as usize)
    }

    fn floats(&self) -> usize {
        sizes::floats(self.capacity as usize, self.dimension as usize)
    }

    fn params(&self) -> PipnnParams {
        PipnnParams {
            max_leaf_size: self.max_leaf_size as usize,
            min_leaf_size: self.min_leaf_size as usize,
            leader_fraction: f64::from_bits(self.leader_fraction),
            max_degree: self.max_degree as usize,
            num_hash_bits: self.num_hash_bits as usize,
            final_prune: self.final_prune == 1,
            alpha: f32::from_bits(self.alpha),
            ef_search: self.ef_search as usize,
        }
    }
}

/// The number of the first check that fails, or 0.
fn first(checks: &[(bool, u32)]) -> u32 {
    checks
        .iter()
        .find(|check| check.0)
        .map_or(0, |check| check.1)
}

fn floats_of(bits: &[u32]) -> Vec<f32> {
    bits.iter().map(|&b| f32::from_bits(b)).collect()
}

fn all_finite(bits: &[u32]) -> bool {
    bits.iter().all(|&b| f32::from_bits(b).is_finite())
}

impl Stores<'_> {
    fn asked(&self) -> Asked {
        Asked::of_header(self.words)
    }

    fn built(&self) -> bool {
        self.words[0] == 1
    }

    fn nodes(&self) -> usize {
        self.words[2] as usize
    }

    pub fn entry(&self) -> u32 {
        self.words[9]
    }

    pub fn bridge_count(&self) -> usize {
        self.words[10] as usize
    }

    fn row_at(&self, node: usize) -> usize {
        sizes::rows_at(self.words[11] as usize) + node * sizes::row(self.words[5] as usize)
    }

    fn bridge_at(&self, bridge: usize) -> usize {
        let start = sizes::bridges_at(self.words[11] as usize, self.words[5] as usize);
        start + sizes::BRIDGE * bridge
    }

    fn row(&self, node: usize) -> &[u32] {
        let at = self.row_at(node);
        &self.words[at + 1..at + 1 + self.words[at] as usize]
    }

    fn bridges(&self) -> Vec<(u32, u32)> {
        let start = self.bridge_at(0);
        self.words[start..start + sizes::BRIDGE * self.bridge_count()]
            .chunks(sizes::BRIDGE)
            .map(|ends| (ends[0], ends[1]))
            .collect()
    }

    fn vectors(&self) -> &[u32] {
        &self.floats[..self.nodes() * self.words[1] as usize]
    }

    fn doc_ids(&self) -> Vec<u32> {
        self.words[HEADER..HEADER + self.nodes()].to_vec()
    }

    fn header_well_formed(&self) -> bool {
        let (n, entry, bridges) = (self.words[2], self.words[9], self.words[10]);
        let state_fits = match self.words[0] {
            0 => entry == 0 && bridges == 0,
            1 => n >= 1 && entry < n && bridges <= n - 1,
            _ => false,
        };
        self.asked().refusal() == 0 && n <= self.words[11] && state_fits && self.words[15] == 0
    }

    fn rest_well_formed(&self) -> bool {
        let n = self.words[2];
        (0..n as usize).all(|node| {
            self.words[self.row_at(node)] <= self.words[5] && self.row(node).iter().all(|&e| e < n)
        }) && self
            .bridges()
            .iter()
            .all(|&(near, far)| near < n && far < n && near != far)
            && all_finite(self.vectors())
    }

    /// What every call but `new` checks first: 3, 4, 3, 4.
    fn refusal(&self, scratch: Option<Scratch>) -> u32 {
        if self.words.len() < HEADER {
            return 3;
        }
        if !self.header_well_formed() {
            return 4;
        }
        let asked = self.asked();
        let needed = sizes::scratch(asked.capacity as usize);
        let passed = scratch.unwrap_or(needed);
        let short = self.words.len() < asked.words()
            || self.floats.len() < asked.floats()
            || passed.0 < needed.0
            || passed.1 < needed.1;
        if short {
            return 3;
        }
        first(&[(!self.rest_well_formed(), 4)])
    }

    /// The published index with this store's vectors and, if it is built, its graph.
    fn index(&self) -> PipnnIndex {
        let asked = self.asked();
        let index = PipnnIndex::holding(
            asked.dimension as usize,
            asked.params(),
            floats_of(self.vectors()),
            self.doc_ids(),
        );
        if !self.built() {
            return index;
        }
        let mut lists: Vec<Vec<u32>> = (0..self.nodes())
            .map(|node| self.row(node).to_vec())
            .collect();
        for (near, far) in self.bridges() {
            lists[near as usize].push(far);
            lists[far as usize].push(near);
        }
        index.with_graph(lists, self.entry())
    }

    pub fn new(&mut self, asked: &Asked) -> u32 {
        let number = asked.refusal();
        if number != 0 {
            return number;
        }
        if self.words.len() < asked.words() || self.floats.len() < asked.floats() {
            return 3;
        }
        self.words[..asked.words()].fill(0);
        self.floats[..asked.floats()].fill(0);
        self.words[1] = asked.dimension;
        self.words[3] = asked.max_leaf_size;
        self.words[4] = asked.min_leaf_size;
        self.words[5] = asked.max_degree;
        self.words[6] = asked.num_hash_bits;
        self.words[7] = asked.final_prune;
        self.words[8] = asked.ef_search;
        self.words[11] = asked.capacity;
        self.words[12] = (asked.leader_fraction >> 32) as u32;
        self.words[13] = asked.leader_fraction as u32;
        self.words[14] = asked.alpha;
        0
    }

    pub fn add(&mut self, doc: u32, vector: &[u32]) -> u32 {
        let number = self.refusal(None);
        if number != 0 {
            return number;
        }
        let asked = self.asked();
        let (n, dimension) = (self.nodes(), asked.dimension as usize);
        let number = first(&[
            (self.built(), 5),
            (vector.len() != dimension, 6),
            (!all_finite(vector), 7),
            (n == asked.capacity as usize, 8),
        ]);
        if number != 0 {
            return number;
        }
        let mut index = PipnnIndex::holding(dimension, asked.params(), Vec::new(), Vec::new());
        index
            .add_slice(doc, &floats_of(vector))
            .expect("what the Rust refuses is refused above");
        for (place, x) in index.vectors().iter().enumerate() {
            self.floats[n * dimension + place] = x.to_bits();
        }
        self.words[HEADER + n] = doc;
        self.words[2] += 1;
        0
    }

    /// The number, and what the published build handed out if it ran.
    pub fn build(&mut self, scratch: Scratch) -> (u32, Option<Trace>) {
        let number = self.refusal(Some(scratch));
        if number != 0 || self.built() {
            return (number, None);
        }
        if self.nodes() == 0 {
            return (9, None);
        }
        let mut index = self.index();
        trace::take();
        index
            .build()
            .expect("what the Rust refuses is refused above");
        let trace = trace::take();
        for (node, list) in trace.lists_before_repair.iter().enumerate() {
            let (at, end) = (self.row_at(node), self.row_at(node + 1));
            self.words[at..end].fill(0);
            self.words[at] = list.len() as u32;
            self.words[at + 1..at + 1 + list.len()].copy_from_slice(list);
        }
        for (bridge, &(near, far)) in trace.bridges.iter().enumerate() {
            let at = self.bridge_at(bridge);
            self.words[at..at + 2].copy_from_slice(&[near, far]);
        }
        self.words[0] = 1;
        self.words[9] = index.entry();
        self.words[10] = trace.bridges.len() as u32;
        assert!(
            self.index().lists() == index.lists(),
            "rows and bridges are the lists"
        );
        (0, Some(trace))
    }

    /// `outputs` are the lengths of the two outputs of a search, doc ids and distances.
    pub fn find(
        &self,
        scratch: Scratch,
        k: u32,
        ef: u32,
        outputs: (usize, usize),
        query: &[u32],
    ) -> (u32, Found) {
        let mut number = self.refusal(Some(scratch));
        if number == 0 {
            let wanted = self.nodes().min(k as usize);
            number = first(&[
                (!self.built(), 10),
                (query.len() != self.words[1] as usize, 6),
                (!all_finite(query), 7),
                (k > 1024 || ef > 1024, 11),
                (outputs.0 < wanted || outputs.1 < wanted, 12),
            ]);
        }
        if number != 0 {
            return (number, Found::default());
        }
        let index = self.index();
        trace::take();
        let answer = index.search_with_ef(&floats_of(query), k as usize, ef as usize);
        let (docs, distances) = answer
            .expect("what the Rust refuses is refused above")
            .into_iter()
            .unzip();
        let trace = trace::take();
        assert!(
            trace.visited_count == trace.scored.len(),
            "each visit scores"
        );
        (
            0,
            Found {
                docs,
                distances,
                scored: trace.scored,
            },
        )
    }

    /// A search with k = 1 into outputs that have room, then 13 for a limit that is not finite. A refusal is its number.
    pub fn recognise(
        &self,
        scratch: Scratch,
        ef: u32,
        limit: f32,
        query: &[u32],
    ) -> Result<Recognised, u32> {
        let (number, found) = self.find(scratch, 1, ef, (1, 1), query);
        match first(&[(number != 0, number), (!limit.is_finite(), 13)]) {
            0 => Ok(decide(found.docs[0], found.distances[0], limit)),
            refusal => Err(refusal),
        }
    }
}
