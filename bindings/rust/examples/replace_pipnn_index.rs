//! A program over the published `PipnnIndex`, and the same over this crate. Where the two differ there are both lines, the published
//! one under `cfg(published)`; every other line is the same:
//!
//! - the names: `Index` and `Params` are taken under the published ones;
//! - `new` has the capacity, since all memory is allocated there;
//! - an error has a number and a message, and its own name for each cause.
//!
//! `search` borrows the index as `&mut`, because its scratch is the index's; `search_shared` takes `&self` and the caller's scratch.
#[cfg(not(published))]
use pipnn_gateway::{Error, Index as PipnnIndex, Params as PipnnParams};
#[cfg(published)]
use vicinity::pipnn::{PipnnIndex, PipnnParams};
#[cfg(published)]
use vicinity::RetrieveError as Error;

const FEATURES: usize = 48;
const PHONES: u32 = 200;

/// A phone's radio features, a little different each time that it is heard.
fn features(phone: u32, heard: u32) -> Vec<f32> {
    let noise = |i: u32, salt: u32| (i + 1).wrapping_mul(2_654_435_761).wrapping_mul(salt + 17).rotate_left(11) % 1000;
    (0..FEATURES as u32)
        .map(|i| noise(i, phone) as f32 - 500.0 + 0.05 * noise(i, 7919 * heard + phone) as f32)
        .collect()
}

fn main() -> Result<(), Error> {
    let params = PipnnParams {
        ef_search: 64,
        ..PipnnParams::default()
    };

    #[cfg(published)]
    let mut index = PipnnIndex::new(FEATURES, params)?;
    #[cfg(not(published))]
    let mut index = PipnnIndex::new(FEATURES, params, PHONES as usize)?;

    for phone in 0..PHONES {
        index.add(phone, features(phone, 0))?;
    }
    index.build()?;
    println!("{} phones", index.len());

    for phone in [3, 77, 199] {
        for (doc, distance) in index.search(&features(phone, 1), 2)? {
            println!("phone {phone} heard again: {doc} at {distance:.4}");
        }
    }

    // ef is the number of phones: nothing can be missed
    let nearest = index.search_with_ef(&features(1000, 0), 1, PHONES as usize)?;
    println!("a phone that is not stored: {} at {:.4}", nearest[0].0, nearest[0].1);

    #[allow(clippy::unneeded_struct_pattern)] // the published case has fields
    match index.search(&[0.0; 3], 1) {
        Ok(_) => println!("three features are enough"),
        Err(Error::DimensionMismatch { .. }) => println!("three features are too few"),
        Err(other) => println!("something else: {other:?}"),
    }
    Ok(())
}
