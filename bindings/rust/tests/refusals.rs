//! Every number of a refusal, each with the smallest change that brings it about; after each the stores and outputs are what they
//! were.
mod common;
use common::{bits, small, three_phones, Memory};
use pipnn_gateway::{household_count, Error, Lent, Params, Sizes};

/// Has a call refused, and nothing changed by it.
fn refused<T: std::fmt::Debug>(memory: &mut Memory, call: impl FnOnce(&mut Lent) -> Result<T, Error>) -> u32 {
    let before = memory.stores();
    let refusal = call(&mut memory.lent()).unwrap_err();
    assert_eq!(memory.stores(), before, "{refusal} has changed a store");
    refusal.number()
}

/// The same of a search, whose outputs stay too.
fn search_refused(memory: &mut Memory, query: &[f32], k: usize, ef: usize, room: usize) -> u32 {
    let (mut docs, mut distances) = (vec![7; room], vec![-1.0; room]);
    let number = refused(memory, |lent| lent.search_with_ef(query, k, ef, &mut docs, &mut distances));
    assert_eq!((docs, bits(&distances)), (vec![7; room], vec![0xbf80_0000; room]));
    number
}

fn new_refused(dimension: usize, params: Params, capacity: usize) -> u32 {
    let mut memory = Memory::new(2, &small(), 8);
    refused(&mut memory, |lent| lent.reset(dimension, &params, capacity))
}

#[test]
fn dimension_1() {
    assert_eq!(new_refused(0, small(), 8), 1);
    assert_eq!(new_refused(65, small(), 8), 1);
    assert_eq!(new_refused(usize::MAX, small(), 8), 1);
    // before a parameter
    assert_eq!(
        new_refused(
            65,
            Params {
                max_degree: 33,
                ..small()
            },
            0
        ),
        1
    );
}

#[test]
fn parameter_2() {
    let wrong = [
        Params {
            max_leaf_size: 0,
            ..small()
        },
        Params {
            max_leaf_size: 2049,
            ..small()
        },
        Params {
            min_leaf_size: 1025,
            ..small()
        },
        Params {
            leader_fraction: -0.1,
            ..small()
        },
        Params {
            leader_fraction: 1.1,
            ..small()
        },
        Params {
            leader_fraction: f64::NAN,
            ..small()
        },
        Params {
            max_degree: 33,
            ..small()
        },
        Params {
            max_degree: 1 << 32,
            ..small()
        },
        Params {
            num_hash_bits: 17,
            ..small()
        },
        Params {
            alpha: f32::INFINITY,
            ..small()
        },
        Params {
            alpha: f32::NAN,
            ..small()
        },
        Params {
            ef_search: 1025,
            ..small()
        },
    ];
    for params in wrong {
        assert_eq!(new_refused(2, params.clone(), 8), 2, "{params:?}");
    }
    assert_eq!(new_refused(2, small(), 0), 2);
    assert_eq!(new_refused(2, small(), 1025), 2);
    // before a store that is too short
    assert_eq!(
        new_refused(
            64,
            Params {
                num_hash_bits: 17,
                ..small()
            },
            8
        ),
        2
    );
}

/// final_prune is a bool in Rust and a number in C.
#[test]
fn final_prune_is_0_or_1() {
    let new = |dimension, final_prune| {
        let mut memory = Memory::new(2, &small(), 8);
        let before = memory.stores();
        let (words, floats) = (&mut memory.words, &mut memory.floats);
        let number = pipnn_gateway::sys::pipnn_new(words, floats, dimension, 256, 0, 0.5, 1, 0, final_prune, 1.2, 3, 8);
        (
            number,
            if number == 0 {
                memory.words[7]
            } else {
                u32::from(memory.stores() != before)
            },
        )
    };
    assert_eq!(new(2, 0), (0, 0));
    assert_eq!(new(2, 1), (0, 1));
    assert_eq!(new(2, 2), (2, 0));
    assert_eq!(new(2, u32::MAX), (2, 0));
    assert_eq!(new(65, 2), (1, 0));
    // before 3
    assert_eq!(new(64, 2), (2, 0));
    assert_eq!(new(64, 1), (3, 0));
}

#[test]
fn too_short_3() {
    let mut memory = Memory::new(2, &small(), 8);
    memory.words.pop();
    assert_eq!(refused(&mut memory, |lent| lent.reset(2, &small(), 8)), 3);
    let mut memory = Memory::new(2, &small(), 8);
    memory.floats.pop();
    assert_eq!(refused(&mut memory, |lent| lent.reset(2, &small(), 8)), 3);

    let mut memory = three_phones();
    memory.scratch_words.pop();
    assert_eq!(refused(&mut memory, |lent| lent.build()), 3);
    let mut memory = three_phones();
    memory.scratch_floats.pop();
    assert_eq!(refused(&mut memory, |lent| lent.build()), 3);
    // before 10
    assert_eq!(search_refused(&mut memory, &[1.0, 0.0], 1, 1, 1), 3);

    let mut memory = three_phones();
    memory.words.truncate(15);
    assert_eq!(refused(&mut memory, |lent| lent.add(1, &[1.0, 0.0])), 3);
    memory.words.clear();
    memory.floats.clear();
    assert_eq!(refused(&mut memory, |lent| lent.add(1, &[1.0, 0.0])), 3);
}

#[test]
fn not_well_formed_4() {
    let mut memory = Memory::new(2, &small(), 8);
    assert_eq!(refused(&mut memory, |lent| lent.add(1, &[1.0, 0.0])), 4);
    assert_eq!(refused(&mut memory, |lent| lent.build()), 4);
    assert_eq!(search_refused(&mut memory, &[1.0, 0.0], 1, 1, 1), 4);
    // any word of the header beyond its range
    for (word, value) in [
        (0, 2),
        (1, 65),
        (2, 9),
        (3, 0),
        (5, 33),
        (7, 2),
        (8, 1025),
        (9, 1),
        (10, 1),
        (11, 0),
        (15, 1),
    ] {
        let mut memory = three_phones();
        memory.words[word] = value;
        assert_eq!(refused(&mut memory, |lent| lent.build()), 4, "word {word}");
    }
    // an entry of a row that is no node, a bridge from a node to itself, a vector that is not finite
    let mut memory = three_phones();
    memory.lent().build().unwrap();
    memory.words[25] = 3;
    assert_eq!(search_refused(&mut memory, &[1.0, 0.0], 1, 1, 1), 4);
    memory.words[25] = 1;
    memory.words[40] = 2;
    assert_eq!(search_refused(&mut memory, &[1.0, 0.0], 1, 1, 1), 4);
    memory.words[40] = 1;
    memory.floats[5] = f32::NAN;
    assert_eq!(search_refused(&mut memory, &[1.0, 0.0], 1, 1, 1), 4);
    memory.floats[5] = 0.0;
    assert!(memory.lent().search_with_ef(&[1.0, 0.0], 1, 1, &mut [0], &mut [0.0]).is_ok());
}

/// What is asked of an index is answered on an open and on a built one, in memory that is longer than it has to be too, and refused
/// where there is none. Nothing is changed either way.
#[test]
fn what_an_index_is() {
    let about = |memory: &mut Memory| {
        let before = memory.stores();
        let mut lent = memory.lent();
        let given = (lent.dimension(), lent.capacity(), lent.is_built());
        assert_eq!(memory.stores(), before);
        given
    };
    let mut memory = three_phones();
    memory.words.extend([u32::MAX; 5]);
    memory.floats.extend([f32::NAN; 5]);
    assert_eq!(about(&mut memory), (Ok(2), Ok(8), Ok(false)));
    memory.lent().build().unwrap();
    assert_eq!(about(&mut memory), (Ok(2), Ok(8), Ok(true)));
    // a full index, and one with no vectors
    let mut full = Memory::new(3, &small(), 1);
    full.lent().reset(3, &small(), 1).unwrap();
    assert_eq!(about(&mut full), (Ok(3), Ok(1), Ok(false)));
    full.lent().add(1, &[1.0, 2.0, 3.0]).unwrap();
    assert_eq!(about(&mut full), (Ok(3), Ok(1), Ok(false)));
    // scratch is not needed
    memory.scratch_words.clear();
    memory.scratch_floats.clear();
    assert_eq!(about(&mut memory), (Ok(2), Ok(8), Ok(true)));

    let refusals = |memory: &mut Memory| {
        [
            refused(memory, |lent| lent.dimension()),
            refused(memory, |lent| lent.capacity()),
            refused(memory, |lent| lent.is_built()),
        ]
    };
    memory.words[25] = 3; // an entry of a row that is no node
    assert_eq!(refusals(&mut memory), [4; 3]);
    memory.words.truncate(15);
    assert_eq!(refusals(&mut memory), [3; 3]);
    memory.words.clear();
    assert_eq!(refusals(&mut memory), [3; 3]);
    assert_eq!(refusals(&mut Memory::new(2, &small(), 8)), [4; 3]);
    let mut short = three_phones();
    short.floats.pop();
    assert_eq!(refusals(&mut short), [3; 3]);
}

#[test]
fn built_5_length_6_finite_7_full_8() {
    let mut memory = three_phones();
    assert_eq!(refused(&mut memory, |lent| lent.add(1, &[1.0])), 6);
    assert_eq!(refused(&mut memory, |lent| lent.add(1, &[1.0, 0.0, 0.0])), 6);
    assert_eq!(refused(&mut memory, |lent| lent.add(1, &[1.0, f32::INFINITY])), 7);
    assert_eq!(refused(&mut memory, |lent| lent.add(1, &[f32::NAN, 0.0])), 7);
    for doc in 4..=8 {
        memory.lent().add(doc, &[1.0, doc as f32]).unwrap();
    }
    // 6 and 7 before 8
    assert_eq!(refused(&mut memory, |lent| lent.add(1, &[1.0])), 6);
    assert_eq!(refused(&mut memory, |lent| lent.add(1, &[f32::NAN, 0.0])), 7);
    assert_eq!(refused(&mut memory, |lent| lent.add(1, &[1.0, 0.0])), 8);
    memory.lent().build().unwrap();
    // 5 before all of these
    assert_eq!(refused(&mut memory, |lent| lent.add(1, &[1.0])), 5);
    // built again: success, and nothing changes
    let stores = memory.stores();
    memory.lent().build().unwrap();
    assert_eq!(memory.stores(), stores);
}

#[test]
fn empty_9() {
    let mut memory = Memory::new(2, &small(), 8);
    memory.lent().reset(2, &small(), 8).unwrap();
    assert_eq!(refused(&mut memory, |lent| lent.build()), 9);
}

#[test]
fn open_10_then_6_7_11_12() {
    let mut memory = three_phones();
    assert_eq!(search_refused(&mut memory, &[1.0], 1025, 1025, 0), 10);
    memory.lent().build().unwrap();
    assert_eq!(search_refused(&mut memory, &[1.0], 1025, 1025, 0), 6);
    assert_eq!(search_refused(&mut memory, &[1.0, f32::NAN], 1025, 1025, 0), 7);
    assert_eq!(search_refused(&mut memory, &[1.0, 0.0], 1025, 0, 0), 11);
    assert_eq!(search_refused(&mut memory, &[1.0, 0.0], 1, 1025, 0), 11);
    assert_eq!(search_refused(&mut memory, &[1.0, 0.0], usize::MAX, 0, 0), 11);
    assert_eq!(search_refused(&mut memory, &[1.0, 0.0], 3, 1024, 2), 12);
    assert_eq!(search_refused(&mut memory, &[1.0, 0.0], 1024, 1024, 2), 12);
    let (mut docs, mut distances) = ([7; 3], [-1.0; 3]);
    let given = memory
        .lent()
        .search_with_ef(&[1.0, 0.0], 1024, 1024, &mut docs, &mut distances);
    assert_eq!(given.unwrap().count, 3);
    // either output
    assert_eq!(
        refused(&mut memory, |lent| lent.search_with_ef(
            &[1.0, 0.0],
            3,
            3,
            &mut docs[..2],
            &mut distances
        )),
        12
    );
    assert_eq!(
        refused(&mut memory, |lent| lent.search_with_ef(
            &[1.0, 0.0],
            3,
            3,
            &mut docs,
            &mut distances[..2]
        )),
        12
    );
}

#[test]
fn limit_13_after_search_s_checks() {
    let mut memory = three_phones();
    let nan = f32::NAN;
    assert_eq!(refused(&mut memory, |lent| lent.recognise(&[1.0], 1025, nan)), 10);
    memory.lent().build().unwrap();
    assert_eq!(refused(&mut memory, |lent| lent.recognise(&[1.0], 1025, nan)), 6);
    assert_eq!(refused(&mut memory, |lent| lent.recognise(&[1.0, nan], 1025, nan)), 7);
    assert_eq!(refused(&mut memory, |lent| lent.recognise(&[1.0, 0.0], 1025, nan)), 11);
    for limit in [nan, f32::INFINITY, f32::NEG_INFINITY] {
        assert_eq!(refused(&mut memory, |lent| lent.recognise(&[1.0, 0.0], 1024, limit)), 13);
    }
    // all but the number are 0
    let (sw, sf) = (&mut memory.scratch_words, &mut memory.scratch_floats);
    let given = pipnn_gateway::sys::pipnn_recognise(&memory.words, &memory.floats, &[1.0, 0.0], 3, nan, sw, sf);
    assert_eq!(
        given,
        pipnn_gateway::sys::PipnnRecognised {
            number: 13,
            known: 0,
            doc: 0,
            score: 0
        }
    );
    memory.scratch_floats.pop();
    assert_eq!(refused(&mut memory, |lent| lent.recognise(&[1.0, 0.0], 1024, nan)), 3);
    memory.words[15] = 1;
    assert_eq!(refused(&mut memory, |lent| lent.recognise(&[1.0, 0.0], 1024, nan)), 4);
}

#[test]
fn sightings_14() {
    assert_eq!(household_count(0, &[0; 513], &[0; 513]).unwrap_err().number(), 14);
    assert_eq!(household_count(0, &[0; 2], &[0; 3]).unwrap_err().number(), 14);
    assert_eq!(household_count(0, &[0; 512], &[5; 512]), Ok(1));
    assert_eq!(household_count(0, &[], &[]), Ok(0));
    let day = 20_763;
    let at = day * 86_400;
    assert_eq!(
        household_count(day, &[at, at + 1, at + 86_399, at - 1, at + 86_400], &[3, 4, 3, 5, 6]),
        Ok(2)
    );
}

#[test]
fn sizes() {
    for (dimension, max_degree, capacity) in [(1, 0, 1), (48, 32, 1024), (64, 7, 100)] {
        let params = Params {
            max_degree,
            ..Params::default()
        };
        assert_eq!(
            Sizes::needed(dimension, &params, capacity),
            common::sizes(dimension, &params, capacity)
        );
    }
    let none = Sizes {
        words: 0,
        floats: 0,
        scratch_words: 0,
        scratch_floats: 0,
    };
    assert_eq!(Sizes::needed(48, &Params::default(), 1025), none);
    assert_eq!(Sizes::needed(48, &Params::default(), usize::MAX), none);
    let wide = Params {
        max_degree: 33,
        ..Params::default()
    };
    assert_eq!(
        Sizes::needed(65, &wide, 1),
        Sizes {
            words: 0,
            floats: 0,
            ..common::sizes(65, &wide, 1)
        }
    );
}

/// The library writes nothing past its sizes.
#[test]
fn longer_memory_stays() {
    let mut memory = three_phones();
    let (words, floats) = (memory.words.len(), memory.floats.len());
    memory.words.extend([u32::MAX; 5]);
    memory.floats.extend([f32::INFINITY; 5]);
    let mut lent = memory.lent();
    lent.reset(2, &small(), 8).unwrap();
    lent.add(1, &[3.0, 4.0]).unwrap();
    lent.build().unwrap();
    assert_eq!(memory.words[words..], [u32::MAX; 5]);
    assert_eq!(memory.floats[floats..], [f32::INFINITY; 5]);
    assert_eq!(memory.floats[..2], [0.6, 0.8]);
}

#[test]
fn errors_have_numbers_and_messages() {
    let numbers: Vec<u32> = Error::ALL.iter().map(|e| e.number()).collect();
    assert_eq!(numbers, (1..=14).collect::<Vec<u32>>());
    assert_eq!(
        Error::Full.to_string(),
        "the index holds as many vectors as its capacity (refusal 8)"
    );
    assert_eq!(Error::Unknown(99).number(), 99);
}
