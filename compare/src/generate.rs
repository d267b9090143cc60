//! Seeded random numbers, sequences, and requests of every kind.

use crate::original;
use crate::request::{Gc, Request, Tables, SLICES};

/// SplitMix64.
pub struct Rng(u64);

impl Rng {
    /// The stream of one request of a seed.
    pub fn new(seed: u64, stream: u64) -> Rng {
        let mut rng = Rng(seed);
        rng.0 = rng.next() ^ stream.wrapping_mul(0xd134_2543_de82_ef95);
        rng
    }

    pub fn next(&mut self) -> u64 {
        self.0 = self.0.wrapping_add(0x9e37_79b9_7f4a_7c15);
        let z = (self.0 ^ self.0 >> 30).wrapping_mul(0xbf58_476d_1ce4_e5b9);
        let z = (z ^ z >> 27).wrapping_mul(0x94d0_49bb_1331_11eb);
        z ^ z >> 31
    }

    pub fn below(&mut self, n: usize) -> usize {
        (self.next() % n as u64) as usize
    }

    pub fn one_in(&mut self, n: usize) -> bool {
        self.below(n) == 0
    }

    /// From 0 to 1.
    pub fn unit(&mut self) -> f64 {
        (self.next() >> 11) as f64 / (1u64 << 53) as f64
    }

    pub fn pick<T: Copy>(&mut self, from: &[T]) -> T {
        from[self.below(from.len())]
    }
}

pub fn letters(rng: &mut Rng, n: usize, alphabet: &[u8]) -> Vec<u8> {
    (0..n).map(|_| rng.pick(alphabet)).collect()
}

/// Copies of a unit, one letter in `errors` replaced (0: none).
pub fn tandem(rng: &mut Rng, unit: &[u8], n: usize, errors: usize) -> Vec<u8> {
    let copy = |i: usize| match errors > 0 && rng.one_in(errors) {
        true => rng.pick(b"ACGT"),
        false => unit[i % unit.len()],
    };
    (0..n).map(copy).collect()
}

/// Of upper-case letters; any other byte stays.
fn reverse_complement(letters: &[u8]) -> Vec<u8> {
    let complement = |letter: &u8| match letter {
        b'A' => b'T',
        b'C' => b'G',
        b'G' => b'C',
        b'T' => b'A',
        other => *other,
    };
    letters.iter().rev().map(complement).collect()
}

/// In some sequences U stands for each T or for some of them.
fn transcribe(rng: &mut Rng, all: &mut [u8]) {
    let rate = rng.pick(&[0, 0, 1, 3]);
    if rate > 0 {
        all.iter_mut().filter(|letter| b"Tt".contains(letter) && rng.one_in(rate)).for_each(|letter| *letter += 1);
    }
}

/// Pieces of many kinds up to n letters.
pub fn sequence(rng: &mut Rng, n: usize) -> Vec<u8> {
    let mut all: Vec<u8> = Vec::new();
    let longest = rng.pick(&[6, 15, 40, 1000]);
    while all.len() < n {
        let length = 1 + rng.below(longest);
        let errors = rng.pick(&[0, 0, 30, 10, 4]);
        let piece = match rng.below(12) {
            0..=1 => letters(rng, length, b"ACGT"),
            2 => letters(rng, length, b"AC"),
            3..=4 => letters(rng, length.div_ceil(2), b"A"),
            5..=8 => {
                let period = 1 + rng.below(if longest > 40 { 30 } else { 5 });
                let unit = letters(rng, period, b"ACGT");
                tandem(rng, &unit, length, errors)
            }
            9 => letters(rng, length.min(1 + length / 4), b"Nn-X"),
            10 => letters(rng, 1, b"ABCDEFGHIJKLMNOPQRSTUVWXYZabcdefghijklmnopqrstuvwxyz-*"),
            _ => {
                let start = rng.below(all.len() + 1);
                let copy = &all[start..all.len().min(start + length)];
                match rng.one_in(2) {
                    true => copy.to_vec(),
                    false => reverse_complement(copy),
                }
            }
        };
        all.extend(piece);
    }
    all.truncate(n);
    if rng.one_in(3) {
        all.iter_mut().filter(|_| rng.one_in(4)).for_each(|letter| letter.make_ascii_lowercase());
    }
    transcribe(rng, &mut all);
    all
}

/// Floats that a table may hold though no formula gives them.
const HOSTILE: [f64; 16] = [
    f64::NAN,
    f64::INFINITY,
    f64::NEG_INFINITY,
    -0.0,
    0.0,
    -1.0,
    -1e-9,
    5e-324,
    1e300,
    -1e300,
    f64::MAX,
    16.0,
    16.000000000000004,
    1048576.0,
    1048576.0000000002,
    1e-7,
];

/// Tables for a window: smooth, in steps of one unit so that scores tie, near ties, random in range, or
/// any of these with hostile entries.
fn given(rng: &mut Rng, w: usize, unit: f64) -> Tables {
    let slope = rng.pick(&[0.0, 0.0, 0.01, 0.1, 0.5]);
    let step = rng.pick(&[0.0, 0.0, 1.0]) * unit;
    let near = rng.pick(&[0.0, 0.0, 3e-10, 7e-10, 4e-9, 4e-7, 3e-6]);
    let (kind, hostile) = (rng.below(6), rng.pick(&[0, 0, 0, 2, 5, 20]));
    let mut f_entry = 0.0;
    let mut entry = |i: usize, is_ln: bool| {
        let near = rng.below(3) as f64 * near;
        let value = match (kind, is_ln) {
            (0, true) => (i as f64).ln() + rng.unit() * 0.1,
            (0, false) => i as f64 * slope,
            (1, true) => rng.unit() * 16.0,
            (1, false) => rng.unit() * rng.pick(&[1.0, 100.0, 1048576.0]),
            (_, true) => rng.below(5) as f64 * unit + near,
            (_, false) => {
                f_entry += rng.pick(&[0.0, 0.0, step]) + near;
                f_entry
            }
        };
        match hostile > 0 && rng.one_in(hostile) {
            true if rng.one_in(4) => rng.next(),
            true => rng.pick(&HOSTILE).to_bits(),
            false => value.to_bits(),
        }
    };
    let mut ln: Vec<u64> = (0..w + 1).map(|i| entry(i, true)).collect();
    let mut f: Vec<u64> = (0..w + 2).map(|i| entry(i, false)).collect();
    // Entries that no run may depend on.
    (ln[0], f[0], f[w + 1]) = (rng.next(), rng.next(), rng.next());
    Tables::Given { ln, f }
}

fn threshold(rng: &mut Rng, unit: f64) -> f64 {
    match rng.below(20) {
        0..=4 => 0.6,
        5..=15 => unit * (1 + rng.below(2)) as f64,
        16..=18 => rng.unit() * 2.0 + 1e-3,
        _ => rng.pick(&[5e-324, 1e-300, 1e-9, 3.0, 16.0, 16.000000000000004, 1e300, f64::MAX]),
    }
}

/// Options and tables for this k and w that pass every check if these do.
fn options(rng: &mut Rng, k: usize, w: usize) -> Request {
    let gc = match rng.below(6) {
        0..=2 => Gc::Uniform,
        3 => Gc::Auto,
        _ => Gc::Fixed(match rng.below(3) {
            0 => rng.pick(&[0.0, -0.0, 1.0, 0.5, 5e-324, 1e-14, 0.9999999999999999]),
            _ => rng.unit(),
        }),
    };
    let unit = rng.pick(&[0.5, 0.5, 0.1]);
    let tables = match rng.below(20) {
        0..=5 => Tables::Formula,
        6..=8 => Tables::Own,
        _ => given(rng, w, unit),
    };
    Request {
        kmer: k,
        window_size: w,
        score_threshold: threshold(rng, unit),
        gc,
        xdrop: rng.pick(&[Some(50), Some(50), Some(1), Some(2), Some(5), None, Some(u32::MAX)]),
        min_start_cnt: rng.pick(&[2, 2, 2, 2, 3, 3, 3, 4, 6, 65535]),
        approx: rng.one_in(3),
        forward_only: rng.one_in(4),
        yes: rng.pick(&[1, 1, 2, 256, 0x8000_0000]),
        tables,
        garbage: rng.pick(&[0, 1, 2, 3, 4, 5]),
        ..Request::default()
    }
}

/// A request for this k, w and n that passes every check if these do.
pub fn accepted(rng: &mut Rng, k: usize, w: usize, n: usize) -> Request {
    let mut request = options(rng, k, w);
    request.sequence = sequence(rng, n);
    request
}

/// Now and then an option with any value, not one of the few that `options` picks from.
fn vary(rng: &mut Rng, request: &mut Request) {
    if rng.one_in(4) {
        let most = rng.pick(&[10, 300, u32::MAX as usize]);
        request.xdrop = Some(1 + rng.below(most) as u32);
    }
    if rng.one_in(6) {
        request.min_start_cnt = 2 + rng.below(30) as u16;
    }
}

/// A repeat from the first letter on, as long as the window and a k-mer or less: an extension then often leads to a find
/// that begins before the first letter.
fn begin_with_repeat(rng: &mut Rng, request: &mut Request) {
    let period = 1 + rng.below(2);
    let unit = letters(rng, period, b"ACGT");
    let most = (request.window_size + rng.below(request.kmer + 1)).min(request.sequence.len());
    let repeat = tandem(rng, &unit, most, 0);
    request.sequence[..most].copy_from_slice(&repeat);
}

/// Sizes of a random request: small ones nearly always, every k and wide windows now and then.
fn measures(rng: &mut Rng) -> (usize, usize, usize) {
    if rng.one_in(3) {
        let k = 1 + rng.below(2);
        return (k, k + 1 + rng.below(8), k + 1 + rng.below(150));
    }
    let k = match rng.below(15000) {
        0 => 12,
        1..=3 => 11,
        4..=12 => 10,
        13..=200 => 8 + rng.below(2),
        201..=4000 => 5 + rng.below(3),
        _ => 1 + rng.below(4),
    };
    let spread = match rng.below(20000) {
        0 => return (k.min(7), rng.pick(&[65535, 65534, 40000]), 2000),
        1..=20 => 3000,
        21..=3000 => 300,
        3001..=7000 => 3,
        _ => 40,
    };
    let w = k + 1 + rng.below(spread);
    let n = match rng.below(3) {
        0 => rng.pick(&[k + 1, k + 2, 2 * k, w - 1, w, w + 1, w + k - 1, w + k, w + k + 1, 2 * w, 2 * w + 1]),
        1 => 1 + rng.below(3 * w + 20),
        _ => 1 + rng.below(400),
    };
    (k, w, n.max(k + 1).min(if k > 9 { 60 } else { 4000 }))
}

/// Makes the check of this number refuse the request, unless an earlier one does.
pub fn spoil(rng: &mut Rng, request: &mut Request, number: u32) {
    let k = request.kmer;
    match number {
        1 => request.kmer = rng.pick(&[0, 13, 14, 31, 32, 64, 1 << 32, (1 << 32) + 7, usize::MAX]),
        2 if !request.sequence.is_empty() => {
            let place = rng.below(request.sequence.len());
            request.sequence[place] = 128 + rng.below(128) as u8;
        }
        13 if !request.sequence.is_empty() => {
            let place = rng.below(request.sequence.len());
            let near = rng.pick(b"@[`{,.)+09 \n\r\t>\x7f\0");
            let any = rng.below(128) as u8;
            request.sequence[place] = if original::is_other(any) { rng.pick(&[any, near]) } else { near };
        }
        3 => request.sequence.truncate(rng.below(k.min(20) + 1)),
        4 => request.window_size = rng.below(k.min(20) + 1),
        5 => request.window_size = rng.pick(&[65536, 65537, 100_000, 1 << 32, (1 << 32) + 20, usize::MAX]),
        6 => {
            request.score_threshold = rng.pick(&[0.0, -0.0, -0.6, -5e-324, f64::NAN, f64::INFINITY, f64::NEG_INFINITY])
        }
        7 => {
            let value = rng.pick(&[f64::NAN, -5e-324, -1.0, 1.0000000000000002, f64::INFINITY, f64::NEG_INFINITY]);
            let kind = rng.pick(&[3, 4, 256, u32::MAX]);
            request.gc = rng.pick(&[Gc::Fixed(value), Gc::Fixed(value), Gc::Kind(kind, 0.5)]);
        }
        8 => request.min_start_cnt = rng.below(2) as u16,
        9 => request.xdrop = Some(0),
        11 => {
            let slice = rng.below(SLICES);
            let listed = request.listed()[slice];
            if listed > 0 {
                request.sizes[slice] = Some(rng.pick(&[listed - 1, listed - 1, listed / 2, 0]));
            }
        }
        _ => {}
    }
}

/// The request of this number in a seed's list.
pub fn request(seed: u64, number: u64) -> Request {
    let rng = &mut Rng::new(seed, number);
    let (k, w, n) = measures(rng);
    let mut request = accepted(rng, k, w, n);
    if rng.one_in(4) {
        begin_with_repeat(rng, &mut request);
    }
    vary(rng, &mut request);
    if rng.one_in(3) {
        for slice in 0..SLICES {
            if rng.one_in(2) {
                request.sizes[slice] = Some(request.listed()[slice] + rng.below(4));
            }
        }
    }
    if rng.one_in(8) {
        spoil(rng, &mut request, 11);
    }
    if rng.one_in(8) {
        for _ in 0..1 + rng.below(3) {
            let number = rng.pick(&[1, 2, 13, 3, 4, 5, 6, 7, 8, 9]);
            spoil(rng, &mut request, number);
        }
    }
    if original::refusal_before_sizes(&request).is_some() {
        request.sizes = [0; SLICES].map(|_| Some(rng.below(20)));
    }
    request
}

/// Sizes of long requests: a window and a number of letters, each between two numbers. Where k is small
/// every letter is searched from, so that the product of both is what a request costs.
struct Sizes {
    w: [usize; 2],
    n: [usize; 2],
}

const LONGEST: Sizes = Sizes { w: [20, 300], n: [131_072, 200_000] };
const LONGER: Sizes = Sizes { w: [20, 600], n: [65_537, 131_071] };
const LONG: Sizes = Sizes { w: [300, 5000], n: [4001, 12_000] };
const WIDE: Sizes = Sizes { w: [40_001, 65_535], n: [1000, 6000] };
/// The window is wide and gets full.
const FULL: Sizes = Sizes { w: [40_001, 41_000], n: [41_500, 42_000] };

/// Each k takes its turn with each of these, the dearest first.
const TURNS: [&Sizes; 20] = [
    &FULL, &LONGEST, &LONGER, &LONG, &LONG, &WIDE, &LONGEST, &LONGER, &LONG, &LONG, &WIDE, &LONGEST, &LONGER, &LONG,
    &LONG, &WIDE, &LONGEST, &LONGER, &LONG, &WIDE,
];

/// Random letters with repeats and some N among them, at either end too; at most this many lie in repeats.
fn with_repeats(rng: &mut Rng, n: usize, most: usize) -> Vec<u8> {
    const SHORTEST: usize = 40;
    let mut all = letters(rng, n, b"ACGTACGTACGTACGTacgt");
    let longest = (most / rng.pick(&[1, 2, 3, 6])).max(SHORTEST);
    let mut left = most;
    while left >= SHORTEST {
        let length = SHORTEST + rng.below(longest.min(left) - SHORTEST + 1);
        let period = 1 + rng.below((length / 8).min(40));
        let unit = letters(rng, period, b"ACGT");
        let errors = rng.pick(&[0, 30, 10]);
        let mut piece = tandem(rng, &unit, length, errors);
        if rng.one_in(4) {
            piece[length / 2] = b'N';
        }
        let anywhere = rng.below(n - length + 1);
        let start = rng.pick(&[0, n - length, anywhere, anywhere]);
        all[start..start + length].copy_from_slice(&piece);
        left -= length;
    }
    transcribe(rng, &mut all);
    all
}

/// The long request of this number in a seed's list.
pub fn long(seed: u64, number: u64) -> Request {
    let rng = &mut Rng::new(seed, !number);
    let k = 1 + (number % 12) as usize;
    let sizes = TURNS[(number / 12) as usize % TURNS.len()];
    let mut between = |[low, high]: [usize; 2]| low + rng.below(high - low + 1);
    let (w, n) = (between(sizes.w), between(sizes.n));
    let mut request = options(rng, k, w);
    vary(rng, &mut request);
    // Where k is small, one strand has to do for a wide window that gets full.
    request.forward_only |= k < 9 && n > w && w > 40_000;
    // The original clears 4^k counts for each letter of a repeat, some times over.
    request.sequence = with_repeats(rng, n, (n / 3).min(2_000_000_000 >> (2 * k)).min(50_000_000 / w));
    request
}
