//! A history as lines of recorded/README.md, so that the oracle can be asked the same.
use crate::history::{Call, Scratch, Sightings, State, Step, Store};
use crate::play::take;
use oracle::stores::Asked;

/// The lines, and remarks on those for a call that has no line there.
pub fn lines(steps: &[Step]) -> (Vec<String>, Vec<String>) {
    let (mut lines, mut remarks) = (Vec::new(), Vec::new());
    let mut state = State::default();
    for step in steps {
        if let Step::Call(call) = step {
            let (line, remark) = of_call(call, &state);
            lines.extend(line);
            remarks.extend(remark.map(|remark| format!("after line {}: {remark}", lines.len())));
        }
        let written = take(&mut state, step);
        match step {
            Step::Fill(words, floats, seed) => {
                lines.push(format!("fill {words:x} {floats:x} {seed:x}"));
            }
            Step::Lend(..) => lines.push(format!("lend {:x} {:x}", state.lent.0, state.lent.1)),
            _ => lines.extend(written.into_iter().map(|(store, at, x)| match store {
                Store::Words => format!("word {at:x} {x:x}"),
                Store::Floats => format!("float {at:x} {x:08x}"),
            })),
        }
    }
    (lines, remarks)
}

/// A length and the components.
fn vector(components: &[u32]) -> String {
    let mut line = format!("{:x}", components.len());
    components.iter().for_each(|x| line += &format!(" {x:08x}"));
    line
}

fn lent(scratch: &Scratch) -> String {
    format!("{:x} {:x}", scratch.lengths.0, scratch.lengths.1)
}

/// The line of a call, and a remark where it has none of its own.
fn of_call(call: &Call, state: &State) -> (Option<String>, Option<String>) {
    match call {
        Call::New(asked) => (Some(of_new(asked)), None),
        Call::Add { doc, vector: v } => (Some(format!("add {doc:x} {}", vector(v))), None),
        Call::Build(scratch) => (Some(format!("build {}", lent(scratch))), None),
        Call::Find(s) => {
            let ef = s.ef.unwrap_or(state.header(8));
            let (docs, distances) = s.outputs;
            let asked = format!("{:x} {ef:x} {docs:x} {distances:x}", s.k);
            let line = format!("find {} {asked} {}", lent(&s.scratch), vector(&s.query));
            let remark = "this was `search`, with the store's ef";
            (Some(line), s.ef.is_none().then(|| remark.into()))
        }
        Call::Recognise(asked) => {
            let (scratch, query) = (lent(&asked.scratch), vector(&asked.query));
            let line = format!(
                "recognise {scratch} {:x} {:08x} {query}",
                asked.ef, asked.limit
            );
            (Some(line), None)
        }
        Call::Household(Sightings { day, seconds, docs }) => {
            let mut line = format!("household {day:x} {:x}", seconds.len());
            seconds.iter().for_each(|x| line += &format!(" {x:x}"));
            line += &format!(" {:x}", docs.len());
            docs.iter().for_each(|x| line += &format!(" {x:x}"));
            (Some(line), None)
        }
        Call::Sizes(asked) => {
            let remark = format!("sizes of capacity, degree and dimension {asked:?}");
            (None, Some(remark))
        }
    }
}

fn of_new(a: &Asked) -> String {
    let leaves = format!(
        "{:x} {:x} {:x}",
        a.dimension, a.max_leaf_size, a.min_leaf_size
    );
    let graph = format!(
        "{:x} {:x} {:x}",
        a.max_degree, a.num_hash_bits, a.final_prune
    );
    let rest = format!("{:08x} {:x} {:x}", a.alpha, a.ef_search, a.capacity);
    format!("new {leaves} {:016x} {graph} {rest}", a.leader_fraction)
}
