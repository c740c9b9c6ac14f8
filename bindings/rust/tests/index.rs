//! The index that owns its memory.
#![cfg(feature = "std")]
mod common;
use common::HEADER;
use pipnn_gateway::{Error, Index, Params, Recognition, Scratch};

const DIMENSION: usize = 48;

/// Numbers from -1 to 1, from a small generator.
fn numbers(seed: u64, count: usize) -> Vec<f32> {
    let mut r = seed;
    let mut next = || {
        r = r
            .wrapping_mul(6_364_136_223_846_793_005)
            .wrapping_add(1_442_695_040_888_963_407);
        ((r >> 40) as f32) / 8_388_608.0 - 1.0
    };
    (0..count).map(|_| next()).collect()
}

fn dot(a: &[f32], b: &[f32]) -> f32 {
    a.iter().zip(b).fold(0.0, |sum, (x, y)| sum + x * y)
}

fn scaled(v: &[f32]) -> Vec<f32> {
    let length = dot(v, v).sqrt();
    v.iter().map(|x| x / length).collect()
}

fn filled(n: usize, params: Params) -> (Index, Vec<f32>) {
    let vectors = numbers(9, n * DIMENSION);
    let mut index = Index::new(DIMENSION, params, n).unwrap();
    for (doc, vector) in vectors.chunks_exact(DIMENSION).enumerate() {
        index.add(1000 + doc as u32, vector).unwrap();
    }
    (index, vectors)
}

/// Where ef is the number of nodes, an answer is the exact nearest k, bit for bit.
#[test]
fn exact_where_nothing_can_be_missed() {
    let n = 300;
    for params in [
        Params::default(),
        Params {
            max_leaf_size: 40,
            ..Params::default()
        },
    ] {
        let (mut index, vectors) = filled(n, params);
        index.build().unwrap();
        for query in numbers(77, 8 * DIMENSION).chunks_exact(DIMENSION) {
            let mut expected: Vec<(u32, f32)> = vectors
                .chunks_exact(DIMENSION)
                .enumerate()
                .map(|(doc, vector)| (1000 + doc as u32, 1.0 - dot(&scaled(query), &scaled(vector))))
                .collect();
            expected.sort_by(|a, b| a.1.total_cmp(&b.1));
            let given = index.search_with_ef(query, 10, n).unwrap();
            assert_eq!(given, expected[..10]);
            let few = index.search(query, 3).unwrap();
            assert_eq!(few.len(), 3);
        }
    }
}

#[test]
fn of_the_published_shape() {
    let mut index = Index::new(2, Params::default(), 4).unwrap();
    assert!(index.is_empty());
    assert_eq!((index.dimension(), index.capacity(), index.is_built()), (2, 4, false));
    assert_eq!(index.build(), Err(Error::EmptyIndex));
    index.add(1, vec![1.0, 0.0]).unwrap();
    index.add_slice(2, &[0.0, 2.0]).unwrap();
    index.add(3, [0.0, -2.0]).unwrap();
    assert_eq!(index.search(&[1.0, 0.0], 1), Err(Error::NotBuilt));
    assert!(!index.is_built());
    index.build().unwrap();
    assert_eq!((index.dimension(), index.capacity(), index.is_built()), (2, 4, true));
    assert_eq!(
        format!("{index:?}"),
        "Index { len: 3, capacity: 4, dimension: 2, is_built: true, .. }"
    );
    assert_eq!(index.len(), 3);
    assert_eq!(index.add(4, [1.0, 1.0]), Err(Error::AlreadyBuilt));
    assert_eq!(index.search(&[0.0, 5.0], 10).unwrap(), [(2, 0.0), (1, 1.0), (3, 2.0)]);
    assert_eq!(index.search(&[0.0, 5.0], 1025), Err(Error::KOrEfTooLarge));
    assert_eq!(
        index.recognise(&[0.0, 5.0], 10, 0.25),
        Ok(Recognition::Known { doc: 2, score: 100 })
    );
    assert_eq!(index.recognise(&[1.0, 1.0], 10, 0.25), Ok(Recognition::New { score: 70 }));
    assert_eq!(index.search(&[0.0], 1), Err(Error::DimensionMismatch));
    assert!(matches!(Index::new(0, Params::default(), 4), Err(Error::DimensionOutOfRange)));
    assert!(matches!(Index::new(2, Params::default(), 0), Err(Error::ParameterOutOfRange)));
    assert!(matches!(
        Index::new(2, Params::default(), usize::MAX),
        Err(Error::ParameterOutOfRange)
    ));
}

#[test]
fn kept_and_taken_up_again() {
    let (mut index, vectors) = filled(50, Params::default());
    let open = Index::from_stores(index.words().to_vec(), index.floats().to_vec());
    let mut open = open.unwrap_or_else(|e| panic!("{e}"));
    assert_eq!((open.dimension(), open.capacity(), open.is_built()), (DIMENSION, 50, false));
    index.build().unwrap();
    open.build().unwrap();
    assert_eq!(index.words(), open.words());
    let (words, floats) = (index.words().to_vec(), index.floats().to_vec());
    let mut again = Index::from_stores(words.clone(), floats.clone()).unwrap_or_else(|e| panic!("{e}"));
    assert_eq!((again.dimension(), again.capacity(), again.is_built()), (DIMENSION, 50, true));
    let query = &vectors[..DIMENSION];
    assert_eq!(again.search_with_ef(query, 5, 50), index.search_with_ef(query, 5, 50));

    let refusal = |words: Vec<u32>, floats: Vec<f32>| Index::from_stores(words, floats).err();
    assert_eq!(refusal(vec![], vec![]), Some(Error::SliceTooShort));
    assert_eq!(refusal(vec![u32::MAX; 4000], floats.clone()), Some(Error::NotWellFormed));
    assert_eq!(refusal(words.clone(), floats[1..].to_vec()), Some(Error::SliceTooShort));
    let mut damaged = words;
    damaged[HEADER + 50 + 1] = 50; // node 0's first entry leads to no node
    assert_eq!(refusal(damaged, floats), Some(Error::NotWellFormed));
}

#[test]
fn searched_by_several_threads() {
    let (mut index, vectors) = filled(200, Params::default());
    index.build().unwrap();
    let expected: Vec<_> = vectors
        .chunks_exact(DIMENSION)
        .map(|q| index.search_with_ef(q, 5, 20).unwrap())
        .collect();
    let index = &index;
    std::thread::scope(|threads| {
        for _ in 0..4 {
            threads.spawn(|| {
                let mut scratch = Scratch::new(200);
                for (query, answer) in vectors.chunks_exact(DIMENSION).zip(&expected) {
                    assert_eq!(&index.search_shared(query, 5, 20, &mut scratch).unwrap(), answer);
                    let again = index.recognise_shared(query, 200, 0.001, &mut scratch).unwrap();
                    assert!(matches!(again, Recognition::Known { score: 99..=100, .. }), "{again:?}");
                }
                let mut short = Scratch::new(100);
                assert_eq!(
                    index.search_shared(&vectors[..DIMENSION], 5, 20, &mut short),
                    Err(Error::SliceTooShort)
                );
            });
        }
    });
}
