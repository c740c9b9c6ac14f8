//! Random parameters of `new`: within their limits, at the ends, and beyond.
use crate::random::Random;
use oracle::stores::Asked;

/// How large the stores of a history are.
#[derive(Clone, Copy)]
pub struct Size {
    pub most_nodes: usize,
    pub most_features: usize,
}

/// Most histories are small, so that there are many.
pub fn size(random: &mut Random, only_small: bool) -> Size {
    let (most_nodes, most_features) = match random.below(5000) {
        0..=1 if !only_small => (1024, 64),
        2..=150 if !only_small => (300, 64),
        ..=1700 => (40, 8),
        _ => (12, 5),
    };
    Size {
        most_nodes,
        most_features,
    }
}

/// Parameters within the limits.
pub fn within(random: &mut Random, size: Size) -> Asked {
    let many = size.most_nodes;
    let large = many > 300;
    let any_fraction = (random.next() >> 11) as f64 / (1u64 << 53) as f64;
    let fractions = [0.0, -0.0, 0.02, 0.1, 0.5, 1.0, 5e-324, any_fraction];
    let leaf = random.within(1, many);
    let degree = random.within(0, 32) as u32;
    let alpha = random.of(&[1.2, 1.0, 0.0, -0.0, -3.5, f32::MAX, f32::MIN, 1e-45]);
    Asked {
        dimension: random.of(&[1, 2, 3, 8, 16, 48, 64].map(|x| x.min(size.most_features as u32))),
        max_leaf_size: random.of(&[1, 2, 5, 2048, 2048, 2048, leaf as u32, leaf as u32]),
        min_leaf_size: random.of(&[0, 0, 1, 3, 64, 1024]),
        leader_fraction: random
            .of(if large { &fractions[..3] } else { &fractions })
            .to_bits(),
        max_degree: random.of(&[0, 1, 2, 3, 4, 8, 32, degree]),
        num_hash_bits: random.of(&[0, 1, 2, 4, 12, 16]),
        final_prune: random.of(&[0, 1]),
        alpha: alpha.to_bits(),
        ef_search: random.of(&[0, 1, 2, 10, 100, 1024]),
        capacity: match random.below(4) {
            0 if !large => random.within(1, 3.min(many)) as u32,
            1 => many as u32,
            _ => random.within(1 + many / 4, many) as u32,
        },
    }
}

/// The same with one number beyond its limits, rarely with several.
pub fn beyond(random: &mut Random, within: &Asked) -> Asked {
    let mut asked = within.clone();
    for _ in 0..random.of(&[1, 1, 1, 2, 5]) {
        let any = random.word() | 4096;
        let far = random.of(&[u32::MAX, 1 << 31, any]);
        let mut just = |edge: u32| random.of(&[edge, edge, far]);
        let numbers = [65, 2049, 1025, 33, 17, 2, 1025, 1025].map(&mut just);
        let fractions = [
            f64::NAN,
            -f64::NAN,
            f64::INFINITY,
            -5e-324,
            1.0 + f64::EPSILON,
            -1.0,
        ];
        let alphas = [f32::NAN, -f32::NAN, f32::INFINITY, f32::NEG_INFINITY];
        match random.below(13) {
            0 => asked.dimension = 0,
            1 => asked.dimension = numbers[0],
            2 => asked.max_leaf_size = 0,
            3 => asked.max_leaf_size = numbers[1],
            4 => asked.min_leaf_size = numbers[2],
            5 | 6 => asked.leader_fraction = random.of(&fractions).to_bits(),
            7 => asked.max_degree = numbers[3],
            8 => asked.num_hash_bits = numbers[4],
            9 => asked.final_prune = numbers[5],
            10 => asked.alpha = random.of(&alphas).to_bits(),
            11 => asked.ef_search = numbers[6],
            _ => asked.capacity = random.of(&[0, numbers[7]]),
        }
    }
    asked
}
