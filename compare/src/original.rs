//! The reference: the original's checks and the paper's two more, then the original itself, in three variants.
//!
//! `unmodified` is the original's text as it stands; `formulas` takes ln, exp and powi by the paper's
//! formulas; `handed` takes both tables as arguments. Each tells of finds that begin before the first letter;
//! where one does, the reference is the variant's twin in which such starts are raised to 0. build.rs makes them.

use crate::port::Buffers;
use crate::request::{Answer, Request, Tables, SLICES};
use std::cell::Cell;

/// Gives a variant its options, and the two tables it would make for a request, as float bits.
macro_rules! variant {
    ($name:ident, $file:literal) => {
        #[allow(dead_code, unused_assignments, clippy::all)]
        pub mod $name {
            include!(concat!(env!("OUT_DIR"), $file));
            use crate::request::{Gc, Request};

            pub fn options(request: &Request) -> LongdustOptions {
                LongdustOptions {
                    window_size: request.window_size,
                    score_threshold: request.score_threshold,
                    kmer: request.kmer,
                    gc: match request.gc {
                        Gc::Uniform => GcOption::Uniform,
                        Gc::Fixed(value) => GcOption::Fixed(value),
                        Gc::Auto => GcOption::Auto,
                        // No kind of the original's: refused as a fixed GC that is no number.
                        Gc::Kind(..) => GcOption::Fixed(f64::NAN),
                    },
                    xdrop: request.xdrop.map(|length| length as usize),
                    min_start_cnt: request.min_start_cnt,
                    approx: request.approx,
                    forward_only: request.forward_only,
                }
            }

            pub fn tables(request: &Request) -> (Vec<u64>, Vec<u64>) {
                let (k, w) = (request.kmer, request.window_size);
                let f = match request.gc {
                    Gc::Fixed(gc) => calculate_f_gc(k, w + 1, gc),
                    Gc::Auto => calculate_f_gc(
                        k,
                        w + 1,
                        compute_gc_content(&encode_sequence(&crate::original::with_t(&request.sequence))),
                    ),
                    _ => calculate_f(k, w + 1),
                };
                (crate::original::bits(&ln_table()[..=w]), crate::original::bits(&f))
            }
        }
    };
}

#[cfg(test)]
pub(crate) use variant;

variant!(unmodified, "/unmodified.rs");
variant!(formulas, "/formulas.rs");
variant!(handed, "/handed.rs");
variant!(unmodified_raised, "/unmodified_raised.rs");
variant!(formulas_raised, "/formulas_raised.rs");
variant!(handed_raised, "/handed_raised.rs");

thread_local! {
    /// Whether a find of the run at hand began before the first letter.
    static BEFORE_FIRST: Cell<bool> = const { Cell::new(false) };
}

/// What the variants call with the start of each find.
pub fn tell_start(start: i64) {
    if start < 0 {
        BEFORE_FIRST.set(true);
    }
}

/// A mask, and whether a find of the run began before the first letter.
pub struct Masked {
    pub intervals: Vec<(usize, usize)>,
    pub before_first: bool,
}

/// A variant as it stands; where it tells of a find before the first letter, its twin.
pub fn masked(as_it_stands: impl Fn() -> Vec<(usize, usize)>, raised: impl Fn() -> Vec<(usize, usize)>) -> Masked {
    BEFORE_FIRST.set(false);
    let intervals = as_it_stands();
    match BEFORE_FIRST.get() {
        false => Masked { intervals, before_first: false },
        true => Masked { intervals: raised(), before_first: true },
    }
}

/// The original knows no U: it is fed T for each U and t for each u.
pub fn with_t(sequence: &[u8]) -> Vec<u8> {
    let letter = |&b: &u8| match b {
        b'U' => b'T',
        b'u' => b't',
        other => other,
    };
    sequence.iter().map(letter).collect()
}

pub fn bits(floats: &[f64]) -> Vec<u64> {
    floats.iter().map(|x| x.to_bits()).collect()
}

pub fn floats(bits: &[u64]) -> Vec<f64> {
    bits.iter().map(|&x| f64::from_bits(x)).collect()
}

/// The original's `validate_inputs`, cut in by build.rs.
mod checks {
    use super::unmodified::{GcOption, LongdustOptions};
    use crate::{MAX_LONGDUST_KMER, MAX_LONGDUST_WINDOW_SIZE};

    include!(concat!(env!("OUT_DIR"), "/checks.rs"));

    /// Its errors in the paper's order; what they hold is for messages.
    #[allow(dead_code, clippy::enum_variant_names)]
    pub enum InputError {
        KmerSizeError(usize, usize),
        NonAsciiSequenceError,
        SequenceLengthError(usize, usize),
        WindowSizeError(usize, usize),
        WindowSizeLimitError(usize, usize),
        LongdustScoreThresholdError(f64),
        GcError(f64),
        MinStartCntError(u16),
        XdropLenError(usize),
    }

    /// The paper's number of the check that refuses.
    pub fn refusal(options: &LongdustOptions, sequence: &[u8]) -> Option<u32> {
        options.validate_inputs(sequence).err().map(|error| match error {
            InputError::KmerSizeError(..) => 1,
            InputError::NonAsciiSequenceError => 2,
            InputError::SequenceLengthError(..) => 3,
            InputError::WindowSizeError(..) => 4,
            InputError::WindowSizeLimitError(..) => 5,
            InputError::LongdustScoreThresholdError(..) => 6,
            InputError::GcError(..) => 7,
            InputError::MinStartCntError(..) => 8,
            InputError::XdropLenError(..) => 9,
        })
    }
}

/// The number of the first check that refuses a request, if its slices have these lengths.
fn refusal(request: &Request, lengths: &[usize; SLICES]) -> Option<u32> {
    refusal_before_sizes(request).or_else(|| {
        let short = lengths.iter().zip(request.listed()).any(|(length, listed)| *length < listed);
        short.then_some(11)
    })
}

/// Whether a byte below 128 is no letter A to Z in either case, no - and no *.
pub fn is_other(byte: u8) -> bool {
    byte.is_ascii() && !byte.is_ascii_alphabetic() && byte != b'-' && byte != b'*'
}

/// Checks 1 to 9 are the original's own; 13 comes straight after 2, and the paper adds 10.
pub fn refusal_before_sizes(request: &Request) -> Option<u32> {
    let number = checks::refusal(&unmodified::options(request), &request.sequence);
    if number.is_some_and(|number| number <= 2) {
        return number;
    }
    let other = request.sequence.iter().copied().any(is_other);
    let too_long = request.sequence.len() > 2147483647;
    other.then_some(13).or(number).or(too_long.then_some(10))
}

/// The flag: T at most 16, ln entries 1..w in 0..16 and f entries 1..w in 0..1,048,576.
pub fn in_range(request: &Request, ln: &[u64], f: &[u64]) -> bool {
    let within = |table: &[u64], high: f64| {
        floats(&table[1..=request.window_size]).iter().all(|entry| (0.0..=high).contains(entry))
    };
    request.score_threshold <= 16.0 && within(ln, 16.0) && within(f, 1048576.0)
}

/// The reverse complement, as the original's codes have it; the letters are those of `with_t`.
fn reverse_complement(letters: &[u8]) -> Vec<u8> {
    let complement = |letter: &u8| match letter.to_ascii_uppercase() {
        b'A' => b'T',
        b'C' => b'G',
        b'G' => b'C',
        b'T' => b'A',
        _ => b'N',
    };
    letters.iter().rev().map(complement).collect()
}

/// The list that the original gives one strand by itself, in that strand's own positions.
pub fn strand(request: &Request, reverse: bool, ln: &[f64], f: &[f64]) -> Vec<(usize, usize)> {
    let letters = with_t(&request.sequence);
    let letters = if reverse { reverse_complement(&letters) } else { letters };
    let alone = Request { forward_only: true, sequence: Vec::new(), tables: Tables::Formula, ..request.clone() };
    let (ln, f) = (|| ln.to_vec(), || f.to_vec());
    let list = masked(
        || handed::Longdust::process(&letters, handed::options(&alone), ln(), f()),
        || handed_raised::Longdust::process(&letters, handed_raised::options(&alone), ln(), f()),
    );
    list.intervals
}

/// The marks of a mask, from the lists that the original gives each strand by itself: 1 if an interval of the forward
/// list lies in the masked one, 2 if one of the reverse complement's list does, read backwards, 3 if both.
pub fn marks(request: &Request, ln: &[f64], f: &[f64], intervals: &[(usize, usize)]) -> Vec<u8> {
    if intervals.is_empty() {
        return Vec::new();
    }
    let n = request.sequence.len();
    let forward = strand(request, false, ln, f);
    let reverse = match request.forward_only {
        true => Vec::new(),
        false => strand(request, true, ln, f).into_iter().rev().map(|(start, end)| (n - end, n - start)).collect(),
    };
    let lies_in = |list: &[(usize, usize)], (start, end): (usize, usize)| {
        let first = list.partition_point(|interval| interval.0 < start);
        list.get(first).is_some_and(|interval| interval.1 <= end)
    };
    intervals
        .iter()
        .map(|&interval| lies_in(&forward, interval) as u8 + 2 * lies_in(&reverse, interval) as u8)
        .collect()
}

/// The reference's answer, and the tables that the port must have filled.
pub struct Reference {
    pub answer: Answer,
    /// Whether a find began before the first letter, so that starts were raised to 0.
    pub before_first: bool,
    pub filled: Option<(Vec<u64>, Vec<u64>)>,
}

/// Answers a request that lends these buffers, as they are before the call.
pub fn reference(request: &Request, lent: &Buffers) -> Reference {
    if let Some(number) = refusal(request, &lent.lengths()) {
        return Reference { answer: Answer::Refused(number), before_first: false, filled: None };
    }
    let (letters, w) = (&with_t(&request.sequence)[..], request.window_size);
    let filled = (request.tables == Tables::Formula).then(|| formulas::tables(request));
    let (ln, f) = match &filled {
        Some((ln, f)) => (&ln[..], &f[..]),
        None => (&lent.ln.now[..w + 1], &lent.f.now[..w + 2]),
    };
    let Masked { intervals, before_first } = match request.tables {
        Tables::Formula => masked(
            || formulas::Longdust::process(letters, formulas::options(request)),
            || formulas_raised::Longdust::process(letters, formulas_raised::options(request)),
        ),
        Tables::Own => masked(
            || unmodified::Longdust::process(letters, unmodified::options(request)),
            || unmodified_raised::Longdust::process(letters, unmodified_raised::options(request)),
        ),
        Tables::Given { .. } => masked(
            || handed::Longdust::process(letters, handed::options(request), floats(ln), floats(f)),
            || handed_raised::Longdust::process(letters, handed_raised::options(request), floats(ln), floats(f)),
        ),
    };
    let in_range = in_range(request, ln, f);
    let marks = marks(request, &floats(ln), &floats(f), &intervals);
    Reference { answer: Answer::Accepted { in_range, intervals, marks }, before_first, filled }
}
