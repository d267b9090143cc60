//! The strongest stretch at a letter: the port against a plain search in numbers of 128 bits, on random requests.

use crate::generate::{letters, tandem, Rng};
use std::collections::HashMap;

/// Entries that stand behind each lent buffer and are no part of it.
const GUARD: usize = 8;
/// How many differing requests are printed.
const SHOWN: u64 = 3;
const REFUSALS: [i64; 10] = [1, 2, 13, 3, 4, 5, 11, 18, 19, 20];

/// A request, and the buffers that are lent for it, with their guards.
#[derive(Clone, Debug, PartialEq)]
pub struct Request {
    sequence: Vec<u8>,
    kmer: usize,
    window_size: usize,
    place: usize,
    budget: usize,
    threshold: u64,
    ln: Vec<u64>,
    f: Vec<u64>,
    codes: Vec<u8>,
    scan_counts: Vec<u16>,
}

/// The steps or minus a refusal, and the numbers that are set.
#[derive(Clone, Copy, Debug, PartialEq)]
pub struct Answer {
    result: i64,
    start: u64,
    score: i64,
    gap: u64,
}

/// Something that answers as the C interface does.
pub type Port = fn(&mut Request) -> Answer;

#[cfg(port)]
pub fn port(request: &mut Request) -> Answer {
    extern "C" {
        fn longdust_strongest_stretch(
            sequence: *const u8,
            sequence_len: usize,
            kmer: usize,
            window_size: usize,
            place: usize,
            budget: usize,
            threshold: u64,
            ln: *const u64,
            ln_len: usize,
            f: *const u64,
            f_len: usize,
            codes: *mut u8,
            codes_len: usize,
            scan_counts: *mut u16,
            scan_counts_len: usize,
            start: *mut u64,
            score: *mut i64,
            gap: *mut u64,
        ) -> i64;
    }
    let Request { sequence, kmer, window_size, place, budget, threshold, ln, f, codes, scan_counts } = request;
    let (codes_len, counts_len) = (codes.len() - GUARD, scan_counts.len() - GUARD);
    let (mut start, mut score, mut gap) = (!0, !0, !0);
    // SAFETY: each pointer is to a live slice at least as long as its length; none overlap.
    let result = unsafe {
        longdust_strongest_stretch(
            sequence.as_ptr(),
            sequence.len(),
            *kmer,
            *window_size,
            *place,
            *budget,
            *threshold,
            ln.as_ptr(),
            ln.len(),
            f.as_ptr(),
            f.len(),
            codes.as_mut_ptr(),
            codes_len,
            scan_counts.as_mut_ptr(),
            counts_len,
            &mut start,
            &mut score,
            &mut gap,
        )
    };
    Answer { result, start, score, gap }
}

/// The k-mer of a place as its letters; none if it is ambiguous.
fn kmer_at(request: &Request, place: usize) -> Option<Vec<u8>> {
    let first = (place + 1).checked_sub(request.kmer)?;
    let letter = |byte: &u8| match byte.to_ascii_uppercase() {
        b'U' => Some(b'T'),
        byte @ (b'A' | b'C' | b'G' | b'T') => Some(byte),
        _ => None,
    };
    request.sequence[first..=place].iter().map(letter).collect()
}

/// What may be done wrong, for the tests.
#[derive(Clone, Copy, PartialEq)]
enum Slip {
    None,
    GapWithF,
    OneUnreadLess,
    Shorter,
    LnZero,
    GapBelowZero,
    OneStepMore,
    FromZero,
    CountsNotRaised,
    ThresholdOnce,
    WidthReached,
    EntryZeroRead,
    BudgetLast,
}

fn refusal(request: &Request, slip: Slip) -> i64 {
    let Request { sequence, kmer: k, window_size: w, place, budget, threshold, ln, f, codes, scan_counts } = request;
    let n = sequence.len();
    let accepted = |byte: &u8| byte.is_ascii_alphabetic() || b"-*".contains(byte);
    let short = || {
        ln.len() < w + 1 || f.len() < w + 2 || codes.len() - GUARD < n || scan_counts.len() - GUARD < 1usize << (2 * k)
    };
    let more = (slip == Slip::WidthReached) as u64;
    let from = 1 - (slip == Slip::EntryZeroRead) as usize;
    let wide = || {
        *threshold >= (1 << 36) + more
            || ln[from..=*w].iter().any(|&x| x >= 1 << 36)
            || f[from..=*w].iter().any(|&x| x >= 1 << 52)
    };
    match () {
        _ if !(1..=12).contains(k) => 1,
        _ if sequence.iter().any(|&byte| byte >= 128) => 2,
        _ if !sequence.iter().all(accepted) => 13,
        _ if n < k + 1 => 3,
        _ if *w < k + 1 => 4,
        _ if *w > 65535 => 5,
        _ if short() => 11,
        _ if *budget == 0 && !(slip == Slip::BudgetLast && *place >= n) => 18,
        _ if *place >= n => 19,
        _ if wide() => 20,
        _ => 0,
    }
}

/// The scores of the stretches of 1, 2 .. places up to the request's, and the same with f left out.
fn scores(request: &Request, available: usize, slip: Slip) -> Vec<(i128, i128)> {
    let mut counts: HashMap<Vec<u8>, usize> = HashMap::new();
    let mut sum: i128 = 0;
    let one = |size: usize| {
        if let Some(kmer) = kmer_at(request, request.place + 1 - size) {
            let count = counts.entry(kmer).or_insert(0);
            *count += 1;
            sum += request.ln[if slip == Slip::CountsNotRaised { 1 } else { *count }] as i128;
        }
        let losses = if slip == Slip::ThresholdOnce { 1 } else { size as i128 };
        let open = sum - losses * request.threshold as i128;
        (open - request.f[size] as i128, open)
    };
    (1..=available).map(one).collect()
}

/// The request's own words.
fn plain(request: &Request, slip: Slip) -> Answer {
    let number = refusal(request, slip);
    if number != 0 {
        return Answer { result: -number, start: 0, score: 0, gap: 0 };
    }
    let w = request.window_size;
    let available = w.min(request.place + 1);
    let steps = available.min(request.budget.saturating_add((slip == Slip::OneStepMore) as usize));
    let scores = scores(request, available, slip);
    let mut best = 1;
    for size in 2..=steps {
        let (old, new) = (scores[best - 1].0, scores[size - 1].0);
        if new > old || slip != Slip::Shorter && new == old {
            best = size;
        }
    }
    let score = scores[best - 1].0;
    let unread = available - steps;
    let from = 1 - (slip == Slip::LnZero) as usize;
    let largest = *request.ln[from..=w].iter().max().unwrap() as i128;
    let rise = (largest - request.threshold as i128).max(0);
    let (with_f, open) = scores[steps - 1];
    let read = if slip == Slip::GapWithF { with_f } else { open };
    let counted = unread as i128 - (slip == Slip::OneUnreadLess) as i128;
    let gap = match read + counted * rise - score {
        _ if unread == 0 => 0,
        gap if slip == Slip::GapBelowZero => gap.abs(),
        gap => gap.clamp(0, u64::MAX as i128),
    };
    let start = (request.place + 1 - best - (slip == Slip::FromZero && best < request.place) as usize) as u64;
    Answer { result: steps as i64, start, score: i64::try_from(score).unwrap(), gap: u64::try_from(gap).unwrap() }
}

/// No unread start beats the best by more than the gap.
fn gap_holds(request: &Request, answer: Answer) -> bool {
    let available = request.window_size.min(request.place + 1);
    let most = answer.score as i128 + answer.gap as i128;
    scores(request, available, Slip::None)[answer.result as usize..].iter().all(|score| score.0 <= most)
}

fn sequence(rng: &mut Rng, n: usize) -> Vec<u8> {
    let size = 1 + rng.below(6);
    let unit = letters(rng, size, b"ACGT");
    match rng.below(8) {
        0 => letters(rng, n, b"ACGTN"),
        1 => letters(rng, n, b"Nnacgtu-*XA"),
        2 => letters(rng, n, b"A"),
        3 => letters(rng, n, b"N"),
        4 => letters(rng, n, b"AC"),
        5 => {
            let errors = 1 + rng.below(9);
            tandem(rng, &unit, n, errors)
        }
        6 => tandem(rng, &unit, n, 0),
        _ => letters(rng, n, b"ACGTUacgtu"),
    }
}

/// A table of w + 1 entries or more: the entries 1..w below `width`, the others anything.
fn table(rng: &mut Rng, entries: usize, w: usize, width: u64, natural: impl Fn(usize) -> u64) -> Vec<u64> {
    let kind = rng.below(6);
    let entry = |i: usize| match kind {
        _ if i == 0 || i > w => rng.next(),
        0 => width - 1,
        1 => 0,
        2 => rng.next() % width,
        3 => rng.below(4) as u64,
        _ => natural(i) % width,
    };
    (0..entries).map(entry).collect()
}

/// The request of this number in the list of a seed.
fn request(seed: u64, number: u64) -> Request {
    let rng = &mut Rng::new(seed, number);
    let wide = rng.one_in(2000);
    let kmer = match rng.below(40) {
        0 => rng.pick(&[0, 13, 32, usize::MAX]),
        1 if wide => 9 + rng.below(4),
        1 => rng.pick(&[5, 5, 5, 6, 6, 7, 8]),
        _ => 1 + rng.below(4),
    };
    let most = if wide { 80_000 } else { rng.pick(&[3, 10, 40, 150]) };
    let n = match rng.below(30) {
        0 => rng.below(kmer.min(13) + 1),
        _ => kmer.min(13) + 1 + rng.below(most),
    };
    let window_size = match rng.below(30) {
        0 => rng.pick(&[0, kmer, kmer.saturating_sub(1), 65536, 100_000, usize::MAX, usize::MAX - 1]),
        _ if wide => 65535 - rng.below(3),
        1 => (n + rng.below(4)).max(kmer.saturating_add(1)),
        _ => kmer.saturating_add(1 + rng.below(most)),
    };
    // 5 is refused before the tables are asked for.
    let w = if window_size > 65535 { 20 } else { window_size };
    let place = match rng.below(20) {
        0 => rng.pick(&[n, n + 1, usize::MAX]),
        1 => 0,
        2..=6 => n.saturating_sub(1),
        _ => rng.below(n.max(1)),
    };
    let budget = match rng.below(12) {
        0 => rng.pick(&[0, 0, usize::MAX]),
        1 => 1,
        2 => 2,
        3 => w,
        4 => w + 1,
        5 => place.saturating_add(1),
        _ => 1 + rng.below(most),
    };
    let threshold = match rng.below(8) {
        0 => (1 << 36) - 1,
        1 => 0,
        2 => rng.pick(&[1 << 36, 1 << 36, u64::MAX, (1 << 36) - 2]),
        3 => rng.next() % (1 << 36),
        4 => rng.below(4) as u64,
        _ => 2_576_980_378,
    };
    let natural_ln = |i: usize| ((i as f64).ln() * 4_294_967_296.0) as u64;
    let past = rng.below(3);
    let mut ln = table(rng, w + 1 + past, w, 1 << 36, natural_ln);
    let mut f = table(rng, w + 2 + past, w, 1 << 52, |i| (i as u64) << 27);
    // So is 1.
    let counts = if kmer > 12 { 4 } else { 1usize << (2 * kmer) };
    let (mut codes_len, mut counts_len) = (n + rng.below(3), counts + rng.below(3));
    if rng.one_in(12) && w > 0 {
        let i = 1 + rng.below(w);
        match rng.below(2) {
            0 => ln[i] = rng.pick(&[1 << 36, u64::MAX, (1 << 36) - 1]),
            _ => f[i] = rng.pick(&[1 << 52, u64::MAX, (1 << 52) - 1]),
        }
    }
    if rng.one_in(20) {
        match rng.below(4) {
            0 => ln.truncate(w - rng.below(w + 1).min(2)),
            1 => f.truncate(w + 1 - rng.below(w + 1).min(2)),
            2 => codes_len = n - rng.below(n + 1).min(1),
            _ => counts_len = counts - 1 - rng.below(counts.min(5)).min(counts - 1),
        }
    }
    let mut sequence = sequence(rng, n);
    if rng.one_in(15) && n > 0 {
        for _ in 0..=rng.below(2) {
            let x = rng.below(n);
            sequence[x] = rng.pick(b"\x80\xff 7\r>.@[`{\n\0");
        }
    }
    let garbage = rng.next();
    Request {
        sequence,
        kmer,
        window_size,
        place,
        budget,
        threshold,
        ln,
        f,
        codes: (0..codes_len + GUARD).map(|i| (garbage >> (i % 57)) as u8).collect(),
        scan_counts: (0..counts_len + GUARD).map(|i| (garbage >> (i % 49)) as u16).collect(),
    }
}

/// Whether the buffers are as they were: all of them after a refusal, else the entries past the sizes asked for.
fn kept(before: &Request, after: &Request, accepted: bool) -> bool {
    if !accepted {
        return before == after;
    }
    let (n, counts) = (before.sequence.len(), 1 << (2 * before.kmer));
    let mut past = after.clone();
    past.codes[..n].copy_from_slice(&before.codes[..n]);
    past.scan_counts[..counts].copy_from_slice(&before.scan_counts[..counts]);
    &past == before
}

/// The `strongest` command: every answer, every buffer, and the claim about the starts left unread.
pub fn command(port: Port, seed: u64, count: u64) -> (u64, u64) {
    let (mut whole, mut gaps, mut refused, mut failed) = (0, 0, [0; 21], 0);
    for number in 0..count {
        let request = request(seed, number);
        let mut ours = request.clone();
        let (said, right) = (port(&mut ours), plain(&request, Slip::None));
        match right.result {
            result if result < 0 => refused[-result as usize] += 1,
            _ if right.gap == 0 => whole += 1,
            _ => gaps += 1,
        }
        let accepted = right.result > 0;
        if said != right || !kept(&request, &ours, accepted) || accepted && !gap_holds(&request, said) {
            failed += 1;
            if failed <= SHOWN {
                println!("request {number} of seed {seed}: said {said:?}, not {right:?}");
            }
        }
    }
    let refused: Vec<_> = REFUSALS.map(|number| format!("{number}: {}", refused[number as usize])).to_vec();
    println!("no gap {whole}, a gap {gaps}, refused by number {}", refused.join(" "));
    (count - failed, failed)
}

#[cfg(test)]
mod tests {
    use super::*;

    const WRONG: &[(&str, Port)] = &[
        ("gap with f", |request| plain(request, Slip::GapWithF)),
        ("one unread place less", |request| plain(request, Slip::OneUnreadLess)),
        ("ties to the shorter", |request| plain(request, Slip::Shorter)),
        ("ln 0 taken for the largest", |request| plain(request, Slip::LnZero)),
        ("a gap below 0", |request| plain(request, Slip::GapBelowZero)),
        ("one step more", |request| plain(request, Slip::OneStepMore)),
        ("start one before", |request| plain(request, Slip::FromZero)),
        ("counts not raised", |request| plain(request, Slip::CountsNotRaised)),
        ("T once", |request| plain(request, Slip::ThresholdOnce)),
        ("width of T reached", |request| plain(request, Slip::WidthReached)),
        ("entry 0 read", |request| plain(request, Slip::EntryZeroRead)),
        ("budget last", |request| plain(request, Slip::BudgetLast)),
        ("codes past n", |request| {
            let n = request.sequence.len();
            let answer = plain(request, Slip::None);
            if answer.result > 0 {
                request.codes[n] ^= 1;
            }
            answer
        }),
        ("counts past 4^k", |request| {
            let answer = plain(request, Slip::None);
            if answer.result > 0 {
                request.scan_counts[1 << (2 * request.kmer)] ^= 1;
            }
            answer
        }),
        ("codes written when refused", |request| {
            let answer = plain(request, Slip::None);
            if answer.result < 0 {
                request.codes[0] ^= 1;
            }
            answer
        }),
    ];

    #[test]
    fn a_plain_search_passes() {
        assert_eq!(command(|request| plain(request, Slip::None), 1, 2000), (2000, 0));
    }

    #[test]
    fn wrong_searches_are_found() {
        for (name, wrong) in WRONG {
            assert!(command(*wrong, 1, 2000).1 > 0, "{name}");
        }
    }

    #[test]
    fn worked_examples() {
        let request = |place, budget| Request {
            sequence: b"AAAAC".to_vec(),
            kmer: 2,
            window_size: 4,
            place,
            budget,
            threshold: 2,
            ln: vec![9, 1, 4, 5, 6],
            f: vec![9, 1, 1, 1, 1, 9],
            codes: vec![0; 5 + GUARD],
            scan_counts: vec![0; 16 + GUARD],
        };
        let answer = |result, start, score, gap| Answer { result, start, score, gap };
        assert_eq!(plain(&request(3, 9), Slip::None), answer(4, 1, 3, 0));
        assert_eq!(plain(&request(3, 2), Slip::None), answer(2, 2, 0, 9));
        assert_eq!(plain(&request(0, 1), Slip::None), answer(1, 0, -3, 0));
    }
}
