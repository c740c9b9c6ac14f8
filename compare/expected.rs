//! What a call has to do: the oracle's stores and what it says of recognising, and the scope's sizes.
use crate::history::{Call, Search, Sightings, State};
use crate::library::outputs_before;
use crate::outcome::Outcome;
use oracle::recognising::{self, Recognised};
use oracle::sizes;
use oracle::stores::Stores;

/// Both stores, as far as they are passed in, and the outputs, before a call.
pub fn before(call: &Call, state: &State) -> Outcome {
    let (docs, distances) = outputs_before(call);
    Outcome {
        words: state.lent_words().to_vec(),
        floats: state.lent_floats().to_vec(),
        docs,
        distances,
        ..Outcome::default()
    }
}

pub fn outcome(call: &Call, state: &State) -> Outcome {
    let mut outcome = before(call, state);
    let mut stores = Stores {
        words: &mut outcome.words,
        floats: &mut outcome.floats,
    };
    match call {
        Call::New(asked) => outcome.number = stores.new(asked),
        Call::Add { doc, vector } => outcome.number = stores.add(*doc, vector),
        Call::Build(scratch) => outcome.number = stores.build(scratch.lengths).0,
        Call::Find(search) => find(&mut outcome, search, state),
        Call::Recognise(asked) => {
            let limit = f32::from_bits(asked.limit);
            let answer = stores.recognise(asked.scratch.lengths, asked.ef, limit, &asked.query);
            outcome.number = answer.as_ref().err().copied().unwrap_or(0);
            outcome.given = match answer {
                Ok(Recognised::Known(doc, score)) => vec![1, doc.into(), score.into()],
                Ok(Recognised::New(score)) => vec![0, 0, score.into()],
                Err(_) => vec![0, 0, 0],
            };
        }
        Call::Household(Sightings { day, seconds, docs }) => {
            let counted = recognising::household(*day, seconds, docs);
            outcome.number = counted.err().unwrap_or(0);
            outcome.given = vec![counted.unwrap_or(0) as u64];
        }
        Call::Sizes(asked) => outcome.given = sizes_within(*asked).map(|size| size as u64).to_vec(),
    }
    outcome
}

/// `search` is `search_with_ef` with the store's ef_search.
fn find(outcome: &mut Outcome, search: &Search, state: &State) {
    let stores = Stores {
        words: &mut outcome.words,
        floats: &mut outcome.floats,
    };
    let ef = search.ef.unwrap_or(state.header(8));
    let (number, found) = stores.find(
        search.scratch.lengths,
        search.k,
        ef,
        search.outputs,
        &search.query,
    );
    outcome.number = number;
    outcome.given = vec![found.docs.len() as u64, found.scored.len() as u64];
    for (place, (doc, distance)) in found.docs.iter().zip(&found.distances).enumerate() {
        outcome.docs[place] = *doc;
        outcome.distances[place] = distance.to_bits();
    }
}

/// The four sizes, 0 where a number is beyond its limits.
fn sizes_within(asked: [u32; 3]) -> [usize; 4] {
    let [capacity, degree, dimension] = asked.map(|number| number as usize);
    if !(1..=1024).contains(&capacity) {
        return [0; 4];
    }
    let (scratch_words, scratch_floats) = sizes::scratch(capacity);
    let (in_degree, in_dimension) = (degree <= 32, (1..=64).contains(&dimension));
    [
        if in_degree {
            sizes::words(capacity, degree)
        } else {
            0
        },
        if in_dimension {
            sizes::floats(capacity, dimension)
        } else {
            0
        },
        scratch_words,
        scratch_floats,
    ]
}
