//! Synthetic sequences, the same for the same seed: repeats and genomes.

use crate::generate::{letters, tandem, Rng};

/// n letters of tandem copies of one random unit, one letter in `errors` replaced (0: none).
pub fn repeat(seed: u64, period: usize, n: usize, errors: usize) -> Vec<u8> {
    let rng = &mut Rng::new(seed, period as u64);
    let unit = letters(rng, period, b"ACGT");
    tandem(rng, &unit, n, errors)
}

pub fn random(seed: u64, n: usize) -> Vec<u8> {
    letters(&mut Rng::new(seed, 0), n, b"ACGT")
}

/// A kind of piece that is planted among random letters.
struct Kind {
    /// Letters in 100 that lie in such pieces.
    share: usize,
    /// Units of tandem copies; none: runs of N.
    periods: &'static [usize],
    /// One letter in this many is replaced.
    errors: usize,
    shortest: usize,
    longest: usize,
}

const fn microsatellites(share: usize) -> Kind {
    Kind { share, periods: &[1, 2, 3, 4, 5, 6], errors: 20, shortest: 20, longest: 200 }
}

const fn satellites(share: usize) -> Kind {
    Kind { share, periods: &[32, 68, 171], errors: 50, shortest: 800, longest: 10_000 }
}

const fn unknown(share: usize) -> Kind {
    Kind { share, periods: &[], errors: 0, shortest: 200, longest: 1000 }
}

impl Kind {
    /// A piece that is no longer than the letters due to its kind among n.
    fn piece(&self, rng: &mut Rng, n: usize) -> Vec<u8> {
        let longest = self.longest.min(n * self.share / 100).max(self.shortest + 1);
        let length = self.shortest + rng.below(longest - self.shortest);
        if self.periods.is_empty() {
            return vec![b'N'; length];
        }
        let period = rng.pick(self.periods);
        let unit = letters(rng, period, b"ACGT");
        tandem(rng, &unit, length, self.errors)
    }
}

/// n letters: a piece is planted as soon as half of it is due, random letters stand between.
fn planted(seed: u64, n: usize, kinds: &[Kind]) -> Vec<u8> {
    let rng = &mut Rng::new(seed, 1);
    let mut all = Vec::with_capacity(n + 10_000);
    let mut ready: Vec<Vec<u8>> = kinds.iter().map(|kind| kind.piece(rng, n)).collect();
    let mut planted = vec![0; kinds.len()];
    while all.len() < n {
        all.extend(letters(rng, 100, b"ACGT"));
        for (i, kind) in kinds.iter().enumerate() {
            while all.len() * kind.share / 100 >= planted[i] + ready[i].len() / 2 {
                planted[i] += ready[i].len();
                all.append(&mut ready[i]);
                ready[i] = kind.piece(rng, n);
            }
        }
    }
    all.truncate(n);
    all
}

pub fn genome_like(seed: u64, n: usize) -> Vec<u8> {
    planted(seed, n, &[microsatellites(3), satellites(5), unknown(1)])
}

pub fn repeat_heavy(seed: u64, n: usize) -> Vec<u8> {
    planted(seed, n, &[microsatellites(10), satellites(70)])
}
