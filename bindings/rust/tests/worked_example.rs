//! The scope's worked example, over memory that is passed in.
mod common;
use common::{bits, sizes, three_phones, Memory, HEADER};
use pipnn_gateway::{Error, Found, Params, Recognition};

#[test]
fn graph() {
    let mut memory = three_phones();
    memory.lent().build().unwrap();
    // state, entry node and number of bridges; then, past the header and eight doc ids, rows of a count and one entry
    assert_eq!((memory.words[0], memory.words[9], memory.words[10]), (1, 1, 1));
    assert_eq!(memory.words[HEADER..24], [10, 20, 30, 0, 0, 0, 0, 0]);
    assert_eq!(memory.words[24..30], [1, 1, 1, 0, 1, 1]);
    // the bridge, near and far end
    assert_eq!(memory.words[40..42], [1, 2]);
}

#[test]
fn searches() {
    let mut memory = three_phones();
    memory.lent().build().unwrap();
    let stores = memory.stores();
    let (mut docs, mut distances) = ([7u32; 4], [-1.0f32; 4]);
    let mut find = |query: &[f32], k, ef| {
        docs = [7; 4];
        distances = [-1.0; 4];
        let given = memory.lent().search_with_ef(query, k, ef, &mut docs, &mut distances);
        (given, docs, bits(&distances))
    };
    let untouched = 0xbf80_0000;
    let all = vec![0, 0x3f80_0000, 0x4000_0000, untouched];
    assert_eq!(
        find(&[1.0, 0.0], 3, 3),
        (Ok(Found { count: 3, scored: 3 }), [10, 20, 30, 7], all)
    );
    let first = vec![0, untouched, untouched, untouched];
    assert_eq!(
        find(&[1.0, 0.0], 1, 1),
        (Ok(Found { count: 1, scored: 3 }), [10, 7, 7, 7], first)
    );
    let none = vec![untouched; 4];
    assert_eq!(
        find(&[1.0, 0.0], 0, 0),
        (Ok(Found { count: 0, scored: 3 }), [7; 4], none.clone())
    );
    assert_eq!(find(&[1.0, 0.0, 0.0], 1, 1), (Err(Error::DimensionMismatch), [7; 4], none));
    // `search` takes the index's ef_search, which is 3
    let given = memory.lent().search(&[1.0, 0.0], 2, &mut docs, &mut distances);
    assert_eq!((given, docs), (Ok(Found { count: 2, scored: 3 }), [10, 20, 7, 7]));
    assert_eq!(memory.stores(), stores);
}

/// Every parameter arrives at its word of the header.
#[test]
fn header() {
    let params = Params {
        max_leaf_size: 300,
        min_leaf_size: 20,
        leader_fraction: f64::from_bits(0x3fd0_0000_0000_0001),
        max_degree: 5,
        num_hash_bits: 7,
        final_prune: false,
        alpha: 1.5,
        ef_search: 60,
    };
    let mut memory = Memory::new(3, &params, 9);
    memory.lent().reset(3, &params, 9).unwrap();
    let expected = [0, 3, 0, 300, 20, 5, 7, 0, 60, 0, 0, 9, 0x3fd0_0000, 1, 0x3fc0_0000, 0];
    assert_eq!(memory.words[..HEADER], expected);
    assert!(memory.words[HEADER..].iter().all(|&word| word == 0));
    assert!(memory.floats.iter().all(|x| x.to_bits() == 0));
    let needed = sizes(3, &params, 9);
    assert_eq!((memory.words.len(), memory.floats.len()), (needed.words, needed.floats));
}

#[test]
fn recognises() {
    let mut memory = three_phones();
    memory.lent().build().unwrap();
    let mut ask = |query: &[f32], limit| memory.lent().recognise(query, 3, limit).unwrap();
    assert_eq!(ask(&[2.0, 0.0], 0.0), Recognition::Known { doc: 10, score: 100 });
    assert_eq!(ask(&[-1.0, 0.0], 0.5), Recognition::Known { doc: 30, score: 100 });
    // 0.2 from the second phone
    assert_eq!(ask(&[0.6, 0.8], 0.3), Recognition::Known { doc: 20, score: 80 });
    assert_eq!(ask(&[0.6, 0.8], 0.1), Recognition::New { score: 80 });
    // a limit below 0 is a limit, which a distance of 0 is beyond
    assert_eq!(ask(&[1.0, 0.0], -0.25), Recognition::New { score: 100 });
}
