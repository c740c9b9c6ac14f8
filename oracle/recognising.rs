//! Recognising (scope, Recognising): the score of a distance, Known or New, and the household count. The published code has none of it:
//! these are the scope's words, computed in another way than in the project's own code.
use std::collections::BTreeSet;

/// What recognising answers, refusals aside.
pub enum Recognised {
    Known(u32, u32),
    New(u32),
}

/// floor(100 · (1 − d)) held to 0..100. Of an f32 d the product 100 · d has at most 31 digits, so it is exact in f64, and so is its ceiling.
pub fn score(d: f32) -> u32 {
    if d.is_nan() {
        return 0;
    }
    let lost = (100.0 * d as f64).ceil();
    (100.0 - lost).clamp(0.0, 100.0) as u32
}

pub fn decide(doc: u32, d: f32, limit: f32) -> Recognised {
    match d <= limit {
        true => Recognised::Known(doc, score(d)),
        false => Recognised::New(score(d)),
    }
}

/// How many different doc ids were sighted on a day, or 14.
pub fn household(day: u64, seconds: &[u64], docs: &[u32]) -> Result<usize, u32> {
    if seconds.len() > 512 || seconds.len() != docs.len() {
        return Err(14);
    }
    let sighted = seconds.iter().zip(docs).filter(|(&second, _)| second / 86_400 == day);
    Ok(sighted.map(|(_, doc)| doc).collect::<BTreeSet<_>>().len())
}
