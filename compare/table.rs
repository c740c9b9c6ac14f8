//! How many cases of which kind ran.
use crate::history::{Call, State, KINDS};
use crate::outcome::Outcome;

const NUMBERS: usize = 15;

/// The sizes by which built stores are counted: up to this number of nodes.
const BANDS: [usize; 5] = [1, 10, 40, 300, 1024];

/// Besides numbers, what is counted of calls that were accepted.
const FACTS: [&str; 9] = [
    "open stores built",
    ".. of these carved (n above max_leaf_size)",
    ".. of these with components whose squares overflow",
    "builds of built stores",
    "nodes found",
    ".. of these at an infinite distance",
    "searches that return fewer than min(k, n): nodes out of reach",
    "searches that score fewer than n nodes",
    "phones recognised as known",
];

#[derive(Default)]
pub struct Table {
    pub histories: u64,
    answered: [[u64; NUMBERS]; KINDS.len()],
    built: [u64; BANDS.len()],
    facts: [u64; FACTS.len()],
    most_nodes: usize,
    most_features: u32,
}

/// What one call adds to the table.
pub struct Noted {
    kind: usize,
    number: usize,
    /// The nodes of a store that this call built.
    built: Option<usize>,
    features: u32,
    facts: [u64; FACTS.len()],
}

impl Noted {
    /// Of a call, the stores before it and its outcome.
    pub fn of(call: &Call, state: &State, outcome: &Outcome) -> Self {
        let mut noted = Noted {
            kind: call.kind(),
            number: outcome.number as usize,
            built: None,
            features: 0,
            facts: Default::default(),
        };
        if outcome.number == 0 {
            noted.accepted(call, state, outcome);
        }
        noted
    }

    fn accepted(&mut self, call: &Call, state: &State, outcome: &Outcome) {
        let nodes = state.header(2) as usize;
        match call {
            Call::Build(_) if state.header(0) == 0 => {
                self.built = Some(nodes);
                self.features = state.header(1);
                let vectors = &state.lent_floats()[..nodes * self.features as usize];
                let square_overflows = |x: &u32| f32::from_bits(*x).powi(2).is_infinite();
                self.facts[0] = 1;
                self.facts[1] = (nodes > state.header(3) as usize).into();
                self.facts[2] = vectors.iter().any(square_overflows).into();
            }
            Call::Build(_) => self.facts[3] = 1,
            Call::Find(search) => {
                let count = outcome.count();
                let distances = outcome.distances[..count].iter();
                let infinite = distances.filter(|x| f32::from_bits(**x).is_infinite());
                self.facts[4] = count as u64;
                self.facts[5] = infinite.count() as u64;
                self.facts[6] = (count < nodes.min(search.k as usize)).into();
                self.facts[7] = (outcome.given[1] < nodes as u64).into();
            }
            Call::Recognise(_) => self.facts[8] = outcome.given[0],
            _ => {}
        }
    }
}

fn add(to: &mut [u64], more: &[u64]) {
    to.iter_mut().zip(more).for_each(|(to, more)| *to += more);
}

impl Table {
    pub fn note(&mut self, noted: &Noted) {
        self.answered[noted.kind][noted.number] += 1;
        add(&mut self.facts, &noted.facts);
        if let Some(nodes) = noted.built {
            let band = BANDS.iter().position(|most| nodes <= *most);
            self.built[band.expect("at most 1,024 nodes")] += 1;
            self.most_nodes = self.most_nodes.max(nodes);
            self.most_features = self.most_features.max(noted.features);
        }
    }

    pub fn join(&mut self, other: &Table) {
        self.histories += other.histories;
        for (to, more) in self.answered.iter_mut().zip(&other.answered) {
            add(to, more);
        }
        add(&mut self.built, &other.built);
        add(&mut self.facts, &other.facts);
        self.most_nodes = self.most_nodes.max(other.most_nodes);
        self.most_features = self.most_features.max(other.most_features);
    }

    pub fn print(&self) {
        print!("{:<15}{:>10}", "calls", "all");
        (0..NUMBERS).for_each(|number| print!("{number:>9}"));
        println!();
        for (kind, numbers) in KINDS.iter().zip(&self.answered) {
            print!("{kind:<15}{:>10}", numbers.iter().sum::<u64>());
            numbers.iter().for_each(|count| print!("{count:>9}"));
            println!();
        }
        println!();
        for (name, count) in FACTS.iter().zip(&self.facts) {
            println!("{count:>10} {name}");
        }
        for (most, count) in BANDS.iter().zip(&self.built) {
            println!(
                "{count:>10} stores built with up to {most} nodes, and more than the line above"
            );
        }
        println!(
            "{:>10} nodes at the most in a store that was built, {} features",
            self.most_nodes, self.most_features
        );
    }
}
