//! Makes a history from random numbers: stores of any content, `new`, adds, build, searches, and damage between the calls. What a call
//! will answer is not known here; the plan only says what was asked for, so that most steps hit what they aim at.
use crate::history::{Call, Recognition, Scratch, Search, Sightings, Step, Store};
use crate::limits::{beyond, size, within, Size};
use crate::random::Random;
use crate::vectors::Vectors;
use oracle::sizes;
use oracle::stores::Asked;

const SECONDS_A_DAY: u64 = 86_400;

pub fn history(mut random: Random, only_small: bool) -> Vec<Step> {
    let size = size(&mut random, only_small);
    let plan = within(&mut random, size);
    let vectors = Vectors::new(&mut random, plan.dimension as usize);
    let mut maker = Maker {
        random,
        size,
        plan,
        vectors,
        nodes: 0,
        added: Vec::new(),
        steps: Vec::new(),
    };
    maker.fill();
    for life in 0..maker.random.of(&[1, 1, 1, 2, 3]) {
        if life > 0 && maker.random.one_in(2) {
            maker.plan_anew();
        }
        maker.life();
    }
    maker.steps
}

struct Maker {
    random: Random,
    size: Size,
    /// The parameters of the `new` that is, or will be, accepted.
    plan: Asked,
    vectors: Vectors,
    /// How many nodes were to be added since.
    nodes: usize,
    added: Vec<Vec<u32>>,
    steps: Vec<Step>,
}

/// The lengths that the two stores need.
fn lengths(asked: &Asked) -> (usize, usize) {
    let capacity = asked.capacity as usize;
    (
        sizes::words(capacity, asked.max_degree as usize),
        sizes::floats(capacity, asked.dimension as usize),
    )
}

impl Maker {
    fn call(&mut self, call: Call) {
        self.steps.push(Step::Call(call));
    }

    fn sometimes(&mut self, one_in: usize, act: fn(&mut Self)) {
        if self.random.one_in(one_in) {
            act(self);
        }
    }

    /// A length around the one that is asked for: just that, longer, one short, or any.
    fn around(&mut self, length: usize) -> usize {
        match self.random.below(40) {
            0 => length.saturating_sub(1),
            1 => self.random.below(length + 1),
            2..=13 => length + self.random.within(1, 9),
            _ => length,
        }
    }

    fn fill(&mut self) {
        let (words, floats) = lengths(&self.plan);
        let (words, floats) = match self.random.below(60) {
            0 => (self.random.below(20), floats),
            1..=30 => (self.around(words), self.around(floats)),
            _ => (words, floats + self.random.below(3)),
        };
        let seed = self.random.next();
        self.steps.push(Step::Fill(words, floats, seed));
        let content = self.random.below(8);
        if content < 3 {
            // zeros, or any bits: also negative floats and NaNs
            let mut any = |many: usize| -> Vec<u32> {
                let keep = if content == 0 { 0 } else { u32::MAX };
                (0..many).map(|_| self.random.word() & keep).collect()
            };
            let (any_words, any_floats) = (any(words), any(floats));
            self.put(Store::Words, 0, any_words);
            self.put(Store::Floats, 0, any_floats);
        }
        self.sometimes(6, Self::any_call);
    }

    fn put(&mut self, store: Store, at: usize, values: Vec<u32>) {
        self.steps.push(Step::Put(store, at, values));
    }

    /// From `new` to searches.
    fn life(&mut self) {
        self.open();
        self.adds();
        self.sometimes(4, Self::damaged_calls);
        self.sometimes(6, Self::foreign_vectors);
        self.sometimes(10, Self::short_lending);
        self.sometimes(8, Self::question);
        self.build();
        for _ in 0..self.random.within(1, 5) {
            self.question();
        }
        self.sometimes(3, Self::damaged_calls);
        self.sometimes(3, Self::foreign_graph);
        self.sometimes(8, Self::short_lending);
        self.sometimes(6, Self::any_call);
        self.sometimes(6, Self::household);
        self.sometimes(12, Self::sizes);
    }

    /// Other parameters for the same store, where they may not fit.
    fn plan_anew(&mut self) {
        let capacity = self.plan.capacity;
        self.plan = within(&mut self.random, self.size);
        self.plan.capacity = self.plan.capacity.min(capacity);
        self.vectors = Vectors::new(&mut self.random, self.plan.dimension as usize);
    }

    fn open(&mut self) {
        if self.random.one_in(10) {
            let asked = beyond(&mut self.random, &self.plan);
            self.call(Call::New(asked));
        }
        self.nodes = 0;
        self.added.clear();
        match self.random.below(6) {
            0 => self.foreign_open(),
            _ => self.call(Call::New(self.plan.clone())),
        }
    }

    fn adds(&mut self) {
        let capacity = self.plan.capacity as usize;
        let many = match self.random.below(8) {
            0 => self.random.below(capacity + 1),
            // full, though some are refused
            1 => capacity + 1 + capacity / 8,
            2 => capacity.saturating_sub(1),
            _ => capacity,
        };
        for _ in 0..many {
            self.add();
        }
    }

    fn vector(&mut self) -> Vec<u32> {
        self.vectors
            .vector(&mut self.random, self.plan.dimension as usize)
    }

    fn add(&mut self) {
        let doc = match self.random.below(3) {
            0 => self.random.word(),
            _ => self.random.below(20) as u32,
        };
        let vector = self.vector();
        self.added.push(vector.clone());
        self.call(Call::Add { doc, vector });
        self.nodes = (self.nodes + 1).min(self.plan.capacity as usize);
    }

    fn scratch(&mut self) -> Scratch {
        let (words, floats) = sizes::scratch(self.plan.capacity as usize);
        Scratch {
            lengths: (self.around(words), self.around(floats)),
            seed: self.random.next(),
        }
    }

    fn build(&mut self) {
        let scratch = self.scratch();
        self.call(Call::Build(scratch));
        if self.random.one_in(8) {
            // a second one, and an add that comes too late
            let scratch = self.scratch();
            self.call(Call::Build(scratch));
            self.add();
        }
    }

    /// k or ef: small, around the number of nodes, or at the limit.
    fn amount(&mut self) -> u32 {
        let nodes = self.nodes as u32;
        let any = self.random.below(self.nodes + 2) as u32;
        let few = [0, 1, 2, 3, 10, any, any, any, nodes, nodes + 1];
        match self.random.below(40) {
            0 => self.random.of(&[1025, u32::MAX]),
            1..=3 => 1024,
            _ => self.random.of(&few),
        }
    }

    fn query(&mut self) -> Vec<u32> {
        match self.random.below(3) {
            0 if !self.added.is_empty() => self.random.of(&self.added),
            _ => self.vector(),
        }
    }

    fn question(&mut self) {
        let (query, scratch) = (self.query(), self.scratch());
        let (k, ef) = (self.amount(), self.amount());
        if self.random.one_in(4) {
            let limit = self.limit();
            return self.call(Call::Recognise(Recognition {
                ef,
                limit,
                query,
                scratch,
            }));
        }
        let wanted = self.nodes.min(k as usize);
        let outputs = (self.around(wanted), self.around(wanted));
        let ef = (!self.random.one_in(4)).then_some(ef);
        self.call(Call::Find(Search {
            k,
            ef,
            outputs,
            query,
            scratch,
        }));
    }

    fn limit(&mut self) -> u32 {
        let any = self.random.unit() + 1.0;
        let not_finite = [f32::NAN, -f32::NAN, f32::INFINITY, f32::NEG_INFINITY];
        match self.random.below(10) {
            0 => self.random.of(&not_finite).to_bits(),
            1..=4 => self
                .random
                .of(&[0.0f32, -0.0, 0.5, 1.0, -1.0, f32::MAX, f32::MIN])
                .to_bits(),
            _ => any.to_bits(),
        }
    }

    fn any_call(&mut self) {
        match self.random.below(4) {
            0 => self.add(),
            1 => self.build(),
            _ => self.question(),
        }
    }

    /// A word that is wrong somewhere: an end of a range, or any.
    fn wrong_word(&mut self) -> u32 {
        let (n, any, plan) = (self.nodes as u32, self.random.word(), &self.plan);
        let ends = [
            n.wrapping_sub(1),
            n,
            n + 1,
            plan.max_degree,
            plan.max_degree + 1,
            plan.capacity,
        ];
        match self.random.below(3) {
            0 => self
                .random
                .of(&[0, 1, 2, 3, 32, 33, 64, 65, 1024, 1025, 2048, 2049, u32::MAX]),
            1 => self.random.of(&ends),
            _ => self
                .random
                .of(&[any, 0x7ff8_0000, 0x7f80_0000, 0x3ff0_0000, 1 << 31]),
        }
    }

    /// Damage to one word: of the header, a row, a bridge, a component, or any word, also past the sizes.
    fn damage(&mut self) {
        let (capacity, degree) = (self.plan.capacity as usize, self.plan.max_degree as usize);
        let rows = sizes::rows_at(capacity);
        let bridges = sizes::bridges_at(capacity, degree);
        let (words, floats) = lengths(&self.plan);
        let node = self.random.below(self.nodes + 1);
        let value = self.wrong_word();
        let (store, at, value) = match self.random.below(12) {
            0..=3 => (Store::Words, self.random.below(sizes::HEADER), value),
            4 => (Store::Words, rows + node * sizes::row(degree), value),
            5 | 6 => (Store::Words, self.random.within(rows, bridges), value),
            7 => (
                Store::Words,
                bridges + self.random.below(sizes::BRIDGE * self.nodes + 1),
                value,
            ),
            8 => (Store::Words, self.random.below(words + 9), value),
            9 => (Store::Floats, self.random.below(floats + 9), value),
            _ => {
                let bits = self.random.of(&[
                    0x7f80_0000,
                    0xff80_0000,
                    0x7fc0_0000,
                    0xffc0_0001,
                    0x7f7f_ffff,
                ]);
                (Store::Floats, self.random.below(floats), bits)
            }
        };
        self.steps.push(Step::Damage(store, at, value));
    }

    /// Calls on a damaged store, which is mostly mended afterwards.
    fn damaged_calls(&mut self) {
        for _ in 0..self.random.within(1, 3) {
            self.damage();
            self.sometimes(4, Self::damage);
            self.any_call();
            if !self.random.one_in(6) {
                self.steps.push(Step::Mend);
            }
        }
    }

    /// A call that is passed one word or float less than it needs, or far less; or exactly what it needs.
    fn short_lending(&mut self) {
        let (words, floats) = lengths(&self.plan);
        let lend = match self.random.below(4) {
            0 => (words, floats),
            1 => (words.saturating_sub(1), floats),
            2 => (words, floats.saturating_sub(1)),
            _ => (
                self.random.below(words.min(40)),
                self.random.below(floats + 1),
            ),
        };
        self.steps.push(Step::Lend(lend.0, lend.1));
        self.any_call();
        self.steps.push(Step::Lend(usize::MAX, usize::MAX));
    }

    /// Finite vectors that are not scaled, in place of some that calls wrote.
    fn foreign_vectors(&mut self) {
        let dimension = self.plan.dimension as usize;
        let first = self.random.below(self.nodes + 1);
        let mut values = Vec::new();
        for _ in first..self.nodes {
            values.extend(self.vectors.unscaled(&mut self.random, dimension));
        }
        self.put(Store::Floats, first * dimension, values);
    }

    /// Rows of any entries for all nodes, mostly well formed; what lies past the counts is any node too.
    fn foreign_rows(&mut self) {
        let (n, degree) = (self.nodes, self.plan.max_degree as usize);
        let most = self.random.below(degree + 1);
        let mut values = Vec::new();
        for _ in 0..n {
            values.push(self.random.below(most + 1) as u32);
            values.extend((0..degree).map(|_| self.random.below(n) as u32));
        }
        let rows = sizes::rows_at(self.plan.capacity as usize);
        self.put(Store::Words, rows, values);
    }

    /// An open store that no call wrote: header, rows and vectors. The rest stays as it was.
    fn foreign_open(&mut self) {
        let p = &self.plan;
        self.nodes = self.random.below(p.capacity as usize + 1);
        let fraction = [(p.leader_fraction >> 32) as u32, p.leader_fraction as u32];
        let mut header = vec![0, p.dimension, self.nodes as u32, p.max_leaf_size];
        header.extend([
            p.min_leaf_size,
            p.max_degree,
            p.num_hash_bits,
            p.final_prune,
        ]);
        header.extend([
            p.ef_search,
            0,
            0,
            p.capacity,
            fraction[0],
            fraction[1],
            p.alpha,
            0,
        ]);
        self.put(Store::Words, 0, header);
        self.foreign_rows();
        let dimension = self.plan.dimension as usize;
        let (plain, n) = (Vectors::new(&mut self.random, dimension), self.nodes);
        let values = (0..n).flat_map(|_| plain.finite(&mut self.random, dimension));
        let values = values.collect();
        self.put(Store::Floats, 0, values);
        self.sometimes(2, Self::foreign_vectors);
    }

    /// A well formed built store that no call wrote: any rows, any bridges, any entry; then questions.
    fn foreign_graph(&mut self) {
        if self.nodes == 0 {
            return;
        }
        self.foreign_rows();
        let n = self.nodes;
        let count = self.random.below(n);
        let count = self.random.of(&[0, count]);
        let mut ends = Vec::new();
        for _ in 0..count {
            let near = self.random.below(n);
            let far = (near + self.random.within(1, n - 1)) % n;
            ends.extend([near as u32, far as u32]);
        }
        let (capacity, degree) = (self.plan.capacity as usize, self.plan.max_degree as usize);
        self.put(Store::Words, sizes::bridges_at(capacity, degree), ends);
        let entry = self.random.below(n) as u32;
        self.put(Store::Words, 9, vec![entry, count as u32]);
        self.put(Store::Words, 0, vec![1]);
        self.sometimes(3, Self::foreign_vectors);
        for _ in 0..self.random.within(1, 3) {
            self.question();
        }
    }

    fn household(&mut self) {
        let many = self.random.of(&[0, 1, 5, 20, 20, 512, 513]);
        let many = self.random.within(many / 2, many);
        let lengths = (self.around_sightings(many), self.around_sightings(many));
        let day = self
            .random
            .of(&[0, 1, 19_876, u64::MAX / SECONDS_A_DAY, u64::MAX]);
        let spread = self.random.of(&[1, 2 * SECONDS_A_DAY, 4 * SECONDS_A_DAY]);
        let start = day.saturating_sub(1).saturating_mul(SECONDS_A_DAY);
        let seconds = (0..lengths.0)
            .map(|_| start.saturating_add(self.random.next() % spread))
            .collect();
        let different = self.random.of(&[1, 5, 40, 1 << 31]);
        let docs = (0..lengths.1)
            .map(|_| self.random.below(different) as u32)
            .collect();
        self.call(Call::Household(Sightings { day, seconds, docs }));
    }

    fn around_sightings(&mut self, many: usize) -> usize {
        match self.random.below(12) {
            0 => many + 1,
            _ => many,
        }
    }

    fn sizes(&mut self) {
        let word = self.random.word();
        let of =
            |random: &mut Random, most: u32| random.of(&[0, 1, most, most + 1, most / 3, word]);
        let capacity = of(&mut self.random, 1024);
        let max_degree = of(&mut self.random, 32);
        let dimension = of(&mut self.random, 64);
        self.call(Call::Sizes([capacity, max_degree, dimension]));
    }
}
