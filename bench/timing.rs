//! Inputs and times, for every program here.
use std::time::Instant;

const ROUNDS: usize = 401;

/// Numbers from -1 up to 1, by the generator of recorded/README.md.
pub fn numbers(seed: u64, n: usize) -> Vec<f32> {
    let mut r = seed;
    (0..n)
        .map(|_| {
            r = r.wrapping_mul(6364136223846793005).wrapping_add(1442695040888963407);
            (r >> 40) as f32 / 8388608.0 - 1.0
        })
        .collect()
}

/// The median time of a round, in nanoseconds, of several candidates that take turns.
pub fn medians(candidates: &mut [&mut dyn FnMut()]) -> Vec<f64> {
    medians_of(ROUNDS, candidates)
}

pub fn medians_of(rounds: usize, candidates: &mut [&mut dyn FnMut()]) -> Vec<f64> {
    let mut times = vec![Vec::with_capacity(rounds); candidates.len()];
    for _ in 0..rounds {
        for (candidate, times) in candidates.iter_mut().zip(&mut times) {
            let start = Instant::now();
            candidate();
            times.push(start.elapsed().as_nanos() as f64);
        }
    }
    times
        .iter_mut()
        .map(|times| {
            times.sort_by(f64::total_cmp);
            times[rounds / 2]
        })
        .collect()
}

/// Vectors in 16 clusters: component j is that of a centre and a twentieth of noise (style 3 of recorded/README.md).
pub fn clusters(seed: u64, n: usize, dimension: usize) -> Vec<f32> {
    (0..n as u64)
        .flat_map(|i| {
            let centre = numbers(seed + i % 16, dimension);
            let noise = numbers(seed * 31 + i + 1000, dimension);
            centre.into_iter().zip(noise).map(|(c, x)| c + 0.05 * x).collect::<Vec<_>>()
        })
        .collect()
}

/// The Rust's time in nanoseconds, and two shares of it: ours, and the Rust's own when it is measured once more in the same rounds,
/// which shows how far shares can be trusted.
pub struct Compared {
    pub rust: f64,
    pub ours: f64,
    pub again: f64,
}

impl Compared {
    /// Of a single call, where `calls` were measured.
    pub fn each(self, calls: usize) -> Self {
        Compared { rust: self.rust / calls as f64, ..self }
    }

    /// Without the nanoseconds that the Rust spends beside what is measured.
    pub fn without(self, beside: f64) -> Self {
        let rust = self.rust - beside;
        Compared { rust, ours: self.ours * self.rust / rust, again: (self.again * self.rust - beside) / rust }
    }
}

/// In a round each has two turns, one after the other's: neither finds the caches as it left them itself. A time is the mean of the two
/// turns' medians.
pub fn compare(rounds: usize, rust: impl FnMut(), ours: impl FnMut()) -> Compared {
    let (rust, ours) = (std::cell::RefCell::new(rust), std::cell::RefCell::new(ours));
    let mut turns: [&mut dyn FnMut(); 4] =
        [&mut || rust.borrow_mut()(), &mut || ours.borrow_mut()(), &mut || rust.borrow_mut()(), &mut || ours.borrow_mut()()];
    let times = medians_of(rounds, &mut turns);
    let rust = (times[0] + times[2]) / 2.0;
    Compared { rust, ours: (times[1] + times[3]) / 2.0 / rust, again: times[2] / times[0] }
}
