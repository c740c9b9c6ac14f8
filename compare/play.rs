//! Plays a history: each call by the library and by the oracle, from the same stores, and everything that they leave compared.
use crate::history::{Call, State, Step, Store};
use crate::library::{self, Lending};
use crate::outcome::Outcome;
use crate::table::Table;
use crate::{expected, table};
use std::panic::{catch_unwind, AssertUnwindSafe};

/// Where a history differs.
pub struct Difference {
    /// The step that differs.
    pub step: usize,
    pub what: String,
    pub library: String,
    pub oracle: String,
}

/// Plays the steps up to the first difference, and counts what the calls answered.
pub fn play(steps: &[Step], lending: Lending, table: &mut Table) -> Result<(), Difference> {
    let mut state = State::default();
    for (step, taken) in steps.iter().enumerate() {
        state.prepare(taken);
        let Step::Call(call) = taken else { continue };
        let Some(expected) = expect(call, &state) else {
            return Err(Difference {
                step,
                what: "the oracle panicked".into(),
                library: "was not asked".into(),
                oracle: "panicked".into(),
            });
        };
        let found = library::outcome(call, &state, lending);
        if let Some(what) = judge(call, &state, &found, &expected) {
            return Err(Difference {
                step,
                what,
                library: found.map_or_else(|wrote| wrote, |found| found.told()),
                oracle: expected.told(),
            });
        }
        table.note(&table::Noted::of(call, &state, &expected));
        keep(&mut state, &expected);
    }
    Ok(())
}

/// The oracle's outcome, if it comes to one.
fn expect(call: &Call, state: &State) -> Option<Outcome> {
    catch_unwind(AssertUnwindSafe(|| expected::outcome(call, state))).ok()
}

/// Takes a step by the oracle alone, and returns what it wrote if it is not a call.
pub fn take(state: &mut State, step: &Step) -> Vec<(Store, usize, u32)> {
    if let Step::Call(call) = step {
        if let Some(outcome) = expect(call, state) {
            keep(state, &outcome);
        }
    }
    state.prepare(step)
}

/// In words, the first thing that is wrong.
fn judge(
    call: &Call,
    state: &State,
    found: &Result<Outcome, String>,
    expected: &Outcome,
) -> Option<String> {
    let found = match found {
        Ok(found) => found,
        Err(wrote) => return Some(wrote.clone()),
    };
    let refused = (found.number != 0).then(|| found.changed(&expected::before(call, state)));
    refused.flatten().or_else(|| {
        found
            .difference(expected)
            .map(|what| format!("library and oracle: {what}"))
    })
}

/// The stores as the call left them.
fn keep(state: &mut State, outcome: &Outcome) {
    let (words, floats) = state.lent;
    state.words[..words].copy_from_slice(&outcome.words);
    state.floats[..floats].copy_from_slice(&outcome.floats);
}
