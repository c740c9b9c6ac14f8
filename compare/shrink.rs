//! Makes a history that differs smaller, as long as it still differs.
use crate::history::{Call, Recognition, Scratch, Search, Sightings, State, Step, Store};
use crate::library::Lending;
use crate::lines::lines;
use crate::play::{play, take, Difference};
use crate::table::Table;
use oracle::sizes;
use oracle::stores::Asked;
use std::time::{Duration, Instant};

const LONGEST: Duration = Duration::from_secs(60);

pub struct Smallest {
    pub steps: Vec<Step>,
    pub difference: Difference,
    lending: Lending,
    until: Instant,
}

/// The smallest history that was found from one that differs.
pub fn shrink(steps: Vec<Step>, difference: Difference, lending: Lending) -> Smallest {
    let mut smallest = Smallest {
        steps,
        difference,
        lending,
        until: Instant::now() + LONGEST,
    };
    while smallest.drop_steps()
        | smallest.fewer(dimension, narrow)
        | smallest.fewer(capacity, empty)
        | smallest.simpler_steps()
        | smallest.begin_with_new()
    {}
    smallest
}

impl Smallest {
    /// Takes the steps if they differ, up to where they do.
    fn take_if_differs(&mut self, mut steps: Vec<Step>) -> bool {
        if Instant::now() > self.until {
            return false;
        }
        match play(&steps, self.lending, &mut Table::default()) {
            Ok(()) => false,
            Err(difference) => {
                steps.truncate(difference.step + 1);
                self.steps = steps;
                self.difference = difference;
                true
            }
        }
    }

    /// The stores before the last call, made by `new` and as much as is needed of what they hold besides, if that takes fewer lines.
    fn begin_with_new(&mut self) -> bool {
        let Some((last, before)) = self.steps.split_last() else {
            return false;
        };
        let state = state_after(before);
        if state.lent.0 < sizes::HEADER {
            return false;
        }
        let mut steps = vec![
            Step::Fill(state.words.len(), state.floats.len(), 0),
            Step::Call(Call::New(Asked::of_header(&state.words))),
        ];
        let opened = state_after(&steps);
        let end = [Step::Lend(state.lent.0, state.lent.1), last.clone()];
        [Store::Words, Store::Floats].into_iter().any(|store| {
            steps.extend(rewriting(store, opened.held(store), state.held(store)));
            let whole = [&steps[..], &end].concat();
            lines(&whole).0.len() < lines(&self.steps).0.len() && self.take_if_differs(whole)
        })
    }

    /// Leaves out runs of steps: half of them, a quarter, .., single ones.
    fn drop_steps(&mut self) -> bool {
        let before = self.steps.len();
        let mut run = before;
        while run > 0 {
            let mut from = 0;
            while from < self.steps.len() {
                let mut fewer = self.steps.clone();
                fewer.drain(from..(from + run).min(fewer.len()));
                if !self.take_if_differs(fewer) {
                    from += run;
                }
            }
            run /= 2;
        }
        self.steps.len() < before
    }

    /// One less of something that several steps have to agree on, as often as it goes; the first function says how much there is.
    fn fewer(&mut self, held: fn(&Step) -> Option<u32>, lessen: fn(&mut Step, u32)) -> bool {
        let mut improved = false;
        while let Some(most) = self.steps.iter().filter_map(held).max() {
            let mut steps = self.steps.clone();
            steps.iter_mut().for_each(|step| lessen(step, most));
            if most < 2 || !self.take_if_differs(steps) {
                break;
            }
            improved = true;
        }
        improved
    }

    /// Each step by a simpler one.
    fn simpler_steps(&mut self) -> bool {
        let mut improved = false;
        let mut at = 0;
        while at < self.steps.len() {
            let taken = simpler(&self.steps[at]).into_iter().any(|step| {
                let mut steps = self.steps.clone();
                steps[at] = step;
                self.take_if_differs(steps)
            });
            improved |= taken;
            at += usize::from(!taken);
        }
        improved
    }
}

/// Both stores as the steps leave them.
fn state_after(steps: &[Step]) -> State {
    let mut state = State::default();
    for step in steps {
        take(&mut state, step);
    }
    state
}

/// The steps that make one content of a store another one.
fn rewriting(store: Store, from: &[u32], to: &[u32]) -> Vec<Step> {
    let changed = (0..to.len()).filter(|place| from[*place] != to[*place]);
    let puts = changed.map(|place| Step::Put(store, place, vec![to[place]]));
    puts.collect()
}

fn dimension(step: &Step) -> Option<u32> {
    match step {
        Step::Call(Call::New(asked)) => Some(asked.dimension),
        _ => None,
    }
}

fn capacity(step: &Step) -> Option<u32> {
    match step {
        Step::Call(Call::New(asked)) => Some(asked.capacity),
        _ => None,
    }
}

/// One node less, and a capacity less by one.
fn empty(step: &mut Step, from: u32) {
    match step {
        Step::Call(Call::New(asked)) if asked.capacity == from => asked.capacity -= 1,
        Step::Put(Store::Words, 2, nodes) if nodes.len() == 1 => {
            nodes[0] = nodes[0].saturating_sub(1);
        }
        _ => {}
    }
}

/// One component less of every vector that has as many as a `new` asks for.
fn narrow(step: &mut Step, from: u32) {
    let Step::Call(call) = step else { return };
    match call {
        Call::New(asked) if asked.dimension == from => asked.dimension -= 1,
        Call::Add { vector: v, .. }
        | Call::Find(Search { query: v, .. })
        | Call::Recognise(Recognition { query: v, .. })
            if v.len() == from as usize =>
        {
            v.pop();
        }
        _ => {}
    }
}

/// Numbers that are simpler than a number, the simplest first.
fn less(x: u64) -> Vec<u64> {
    let mut numbers = vec![0, 1, x / 2, x.saturating_sub(1)];
    numbers.retain(|number| *number < x);
    numbers.dedup();
    numbers
}

/// Simpler bits of a float.
fn plainer(bits: u32) -> Vec<u32> {
    let plain = [0, 0x3f80_0000, 0xbf80_0000];
    let known = plain.iter().position(|x| *x == bits);
    plain[..known.unwrap_or(plain.len())].to_vec()
}

/// For each index of a list the list with a simpler value there; before these, its two halves.
fn simpler_list<T: Clone>(list: &[T], simpler: impl Fn(&T) -> Vec<T>, cut: bool) -> Vec<Vec<T>> {
    let mut lists = Vec::new();
    if cut && !list.is_empty() {
        lists.push(list[..list.len() / 2].to_vec());
        lists.push(list[..list.len() - 1].to_vec());
    }
    for (place, value) in list.iter().enumerate() {
        for value in simpler(value) {
            let mut changed = list.to_vec();
            changed[place] = value;
            lists.push(changed);
        }
    }
    lists
}

/// Every record with one of its numbers made simpler.
fn by_numbers<T: Clone>(record: &T, numbers: &[u64], set: impl Fn(&mut T, usize, u64)) -> Vec<T> {
    let mut records = Vec::new();
    for (place, number) in numbers.iter().enumerate() {
        for number in less(*number) {
            let mut changed = record.clone();
            set(&mut changed, place, number);
            records.push(changed);
        }
    }
    records
}

fn simpler(step: &Step) -> Vec<Step> {
    match step {
        Step::Fill(words, floats, seed) => {
            let numbers = [*seed, *words as u64, *floats as u64];
            by_numbers(&numbers, &numbers, |numbers, place, x| numbers[place] = x)
                .into_iter()
                .map(|[seed, words, floats]| Step::Fill(words as usize, floats as usize, seed))
                .collect()
        }
        Step::Put(store, at, values) => simpler_put(*store, *at, values),
        Step::Damage(store, at, value) => {
            let values = less((*value).into()).into_iter();
            values
                .map(|x| Step::Damage(*store, *at, x as u32))
                .collect()
        }
        Step::Call(call) => simpler_call(call).into_iter().map(Step::Call).collect(),
        Step::Lend(..) | Step::Mend => Vec::new(),
    }
}

fn simpler_put(store: Store, at: usize, values: &[u32]) -> Vec<Step> {
    let plainer = |x: &u32| match store {
        Store::Words => less((*x).into()).into_iter().map(|x| x as u32).collect(),
        Store::Floats => plainer(*x),
    };
    let half = values.len() / 2;
    let mut puts = Vec::new();
    if half > 0 {
        puts.push(Step::Put(store, at + half, values[half..].to_vec()));
    }
    let fewer = simpler_list(values, plainer, true).into_iter();
    puts.extend(fewer.map(|fewer| Step::Put(store, at, fewer)));
    puts
}

fn simpler_call(call: &Call) -> Vec<Call> {
    match call {
        Call::New(asked) => simpler_new(asked).into_iter().map(Call::New).collect(),
        Call::Add { doc, vector } => simpler_add(*doc, vector),
        Call::Build(scratch) => less_scratch(scratch).into_iter().map(Call::Build).collect(),
        Call::Find(search) => simpler_search(search),
        Call::Recognise(asked) => simpler_list(&asked.query, |x| plainer(*x), false)
            .into_iter()
            .map(|query| Recognition {
                query,
                ..asked.clone()
            })
            .map(Call::Recognise)
            .collect(),
        Call::Household(sightings) => fewer_sightings(sightings),
        Call::Sizes(_) => Vec::new(),
    }
}

fn fewer_sightings(sightings: &Sightings) -> Vec<Call> {
    let Sightings { day, seconds, docs } = sightings;
    let pairs: Vec<(u64, u32)> = seconds.iter().copied().zip(docs.iter().copied()).collect();
    simpler_list(&pairs, |_| Vec::new(), true)
        .into_iter()
        .map(|pairs| {
            let (seconds, docs) = pairs.into_iter().unzip();
            Call::Household(Sightings {
                day: *day,
                seconds,
                docs,
            })
        })
        .collect()
}

fn less_scratch(scratch: &Scratch) -> Vec<Scratch> {
    let (words, floats) = scratch.lengths;
    let numbers = [scratch.seed, words as u64, floats as u64];
    by_numbers(scratch, &numbers, |scratch, place, x| match place {
        0 => scratch.seed = x,
        1 => scratch.lengths.0 = x as usize,
        _ => scratch.lengths.1 = x as usize,
    })
}

fn simpler_new(asked: &Asked) -> Vec<Asked> {
    let numbers = [
        asked.capacity,
        asked.max_degree,
        asked.num_hash_bits,
        asked.min_leaf_size,
        asked.final_prune,
        asked.ef_search,
        asked.max_leaf_size,
        asked.alpha,
    ];
    let mut all = by_numbers(asked, &numbers.map(u64::from), |asked, place, x| {
        let field = match place {
            0 => &mut asked.capacity,
            1 => &mut asked.max_degree,
            2 => &mut asked.num_hash_bits,
            3 => &mut asked.min_leaf_size,
            4 => &mut asked.final_prune,
            5 => &mut asked.ef_search,
            6 => &mut asked.max_leaf_size,
            _ => &mut asked.alpha,
        };
        *field = x as u32;
    });
    if asked.leader_fraction != 0 {
        let mut whole = asked.clone();
        whole.leader_fraction = 0;
        all.push(whole);
    }
    all
}

fn simpler_add(doc: u32, vector: &[u32]) -> Vec<Call> {
    let docs = less(doc.into())
        .into_iter()
        .map(|x| (x as u32, vector.to_vec()));
    let vectors = simpler_list(vector, |x| plainer(*x), false).into_iter();
    docs.chain(vectors.map(|v| (doc, v)))
        .map(|(doc, vector)| Call::Add { doc, vector })
        .collect()
}

fn simpler_search(search: &Search) -> Vec<Call> {
    let (docs, distances) = search.outputs;
    let ef = search.ef.unwrap_or(0).into();
    let numbers = [search.k.into(), docs as u64, distances as u64, ef];
    let mut all = by_numbers(search, &numbers, |search, place, x| match place {
        0 => search.k = x as u32,
        1 => search.outputs.0 = x as usize,
        2 => search.outputs.1 = x as usize,
        _ => search.ef = Some(x as u32),
    });
    let scratches = less_scratch(&search.scratch).into_iter();
    all.extend(scratches.map(|scratch| Search {
        scratch,
        ..search.clone()
    }));
    let queries = simpler_list(&search.query, |x| plainer(*x), false);
    all.extend(queries.into_iter().map(|query| Search {
        query,
        ..search.clone()
    }));
    all.into_iter().map(Call::Find).collect()
}
