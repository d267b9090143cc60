//! The strongest stretches of a contig: the port against a plain search in numbers of 128 bits, on random requests.

use crate::generate::{letters, tandem, Rng};
use crate::original;
use crate::port::Buffers;
use crate::request;
use std::collections::HashMap;

/// Entries that stand behind each lent buffer and are no part of it.
const GUARD: usize = 8;
/// How many differing requests are printed.
const SHOWN: u64 = 3;
const REFUSALS: [i64; 9] = [1, 2, 13, 3, 4, 5, 16, 11, 20];
/// A tile has w and so many ends.
const SPAN: usize = 4096;

/// As include/longdust.h has it.
#[repr(C)]
#[derive(Clone, Copy, Debug, PartialEq)]
pub struct Place {
    entry: u32,
    older: u32,
    order: u16,
}

/// As include/longdust.h has it.
#[repr(C)]
#[derive(Clone, Copy, Debug, PartialEq)]
pub struct Tile {
    first: usize,
    size: usize,
    gain: u64,
    loss: u64,
    stale: u8,
}

/// A request, and the buffers that are lent for it, with their guards.
#[derive(Clone, Debug, PartialEq)]
pub struct Request {
    sequence: Vec<u8>,
    kmer: usize,
    window_size: usize,
    threshold: u64,
    ln: Vec<u64>,
    f: Vec<u64>,
    regions: Vec<[u32; 2]>,
    floor: u64,
    codes: Vec<u8>,
    newest: Vec<u32>,
    places: Vec<Place>,
    tiles: Vec<Tile>,
    list: Vec<[u32; 2]>,
    scores: Vec<i64>,
}

/// Something that answers as the C interface does.
pub type Port = fn(&mut Request) -> i64;

#[cfg(port)]
pub fn port(request: &mut Request) -> i64 {
    extern "C" {
        fn longdust_strongest_stretches(
            sequence: *const u8,
            sequence_len: usize,
            kmer: usize,
            window_size: usize,
            threshold: u64,
            ln: *const u64,
            ln_len: usize,
            f: *const u64,
            f_len: usize,
            regions: *const [u32; 2],
            regions_len: usize,
            floor: u64,
            codes: *mut u8,
            codes_len: usize,
            newest: *mut u32,
            newest_len: usize,
            places: *mut Place,
            places_len: usize,
            tiles: *mut Tile,
            tiles_len: usize,
            list: *mut [u32; 2],
            list_len: usize,
            scores: *mut i64,
            scores_len: usize,
        ) -> i64;
    }
    let Request { sequence, kmer, window_size, threshold, ln, f, regions, floor, .. } = request;
    let (codes_len, newest_len) = (request.codes.len() - GUARD, request.newest.len() - GUARD);
    let places_len = request.places.len() - GUARD;
    let tiles_len = request.tiles.len() - GUARD;
    let (list_len, scores_len) = (request.list.len() - GUARD, request.scores.len() - GUARD);
    // SAFETY: each pointer is to a live slice at least as long as its length; none overlap.
    unsafe {
        longdust_strongest_stretches(
            sequence.as_ptr(),
            sequence.len(),
            *kmer,
            *window_size,
            *threshold,
            ln.as_ptr(),
            ln.len(),
            f.as_ptr(),
            f.len(),
            regions.as_ptr(),
            regions.len(),
            *floor,
            request.codes.as_mut_ptr(),
            codes_len,
            request.newest.as_mut_ptr(),
            newest_len,
            request.places.as_mut_ptr(),
            places_len,
            request.tiles.as_mut_ptr(),
            tiles_len,
            request.list.as_mut_ptr(),
            list_len,
            request.scores.as_mut_ptr(),
            scores_len,
        )
    }
}

/// What may be done wrong, for the tests.
#[derive(Clone, Copy, PartialEq)]
enum Slip {
    None,
    Shorter,
    Later,
    TouchingTaken,
    TwoBetween,
    SharingOne,
    TwoEntries,
    EveryLetter,
    FloorReached,
    NoFloor,
    LastEndSkipped,
    NewestEntryForgotten,
    LongerList,
    OnePlaceMore,
    OneRegionOnly,
    EmptyRegionTaken,
    RegionPastTaken,
    RegionsAfterBuffers,
    FewTiles,
    LettersFromPlace,
    LnBack,
}

fn refusal(request: &Request, slip: Slip) -> i64 {
    let Request { sequence, kmer: k, window_size: w, threshold, ln, f, codes, newest, places, .. } = request;
    let n = sequence.len();
    let accepted = |byte: &u8| byte.is_ascii_alphabetic() || b"-*".contains(byte);
    let few = (slip == Slip::FewTiles) as usize;
    let short = || {
        ln.len() < w + 1
            || f.len() < w + 2
            || codes.len() - GUARD < n
            || newest.len() - GUARD < 1usize << (2 * k)
            || places.len() - GUARD < 2 * w + SPAN + k
            || request.tiles.len() - GUARD + few < n / (w + SPAN) + 1
    };
    let bad = |&[start, end]: &[u32; 2]| {
        start >= end && slip != Slip::EmptyRegionTaken || end as usize > n && slip != Slip::RegionPastTaken
    };
    let wide =
        || *threshold >= 1 << 36 || ln[1..=*w].iter().any(|&x| x >= 1 << 36) || f[1..=*w].iter().any(|&x| x >= 1 << 52);
    match () {
        _ if !(1..=12).contains(k) => 1,
        _ if sequence.iter().any(|&byte| byte >= 128) => 2,
        _ if !sequence.iter().all(accepted) => 13,
        _ if n < k + 1 => 3,
        _ if *w < k + 1 => 4,
        _ if *w > 65535 => 5,
        _ if slip == Slip::RegionsAfterBuffers && short() => 11,
        _ if request.regions.iter().any(bad) => 16,
        _ if short() => 11,
        _ if wide() => 20,
        _ => 0,
    }
}

/// The k-mer of a place as its letters; none if it is ambiguous.
fn kmer_at(request: &Request, place: usize) -> Option<Vec<u8>> {
    let first = (place + 1).checked_sub(request.kmer)?;
    let letter = |byte: &u8| match byte.to_ascii_uppercase() {
        b'U' => Some(b'T'),
        byte @ (b'A' | b'C' | b'G' | b'T') => Some(byte),
        _ => None,
    };
    request.sequence[first..=place].iter().map(letter).collect()
}

/// A stretch of places, its letters [from, to), and its score.
#[derive(Clone, Copy)]
struct Stretch {
    first: usize,
    size: usize,
    from: usize,
    to: usize,
    score: i128,
}

/// Every stretch of at most w places whose letters lie in the regions, by the place where it ends.
fn stretches(request: &Request, slip: Slip) -> Vec<Stretch> {
    let Request { kmer: k, threshold, ln, f, regions, .. } = request;
    let n = request.sequence.len();
    let lies = |x: usize| regions.iter().any(|r| (r[0] as usize..r[1] as usize).contains(&x));
    let covered: Vec<bool> = (0..n).map(|x| slip == Slip::EveryLetter || lies(x)).collect();
    let mut number: HashMap<Vec<u8>, usize> = HashMap::new();
    let mut numbered = |place| {
        kmer_at(request, place).map(|kmer| {
            let next = number.len();
            *number.entry(kmer).or_insert(next)
        })
    };
    let places: Vec<Option<usize>> = (0..n).map(&mut numbered).collect();
    let mut counts = vec![0; n];
    let most = request.window_size + (slip == Slip::OnePlaceMore) as usize;
    let mut all = vec![];
    for b in 0..n - (slip == Slip::LastEndSkipped) as usize {
        let mut gain: i128 = 0;
        counts.fill(0);
        let (mut from, mut inside) = (b + 1, true);
        for size in 1..=most.min(b + 1) {
            let first = b + 1 - size;
            if let Some(kmer) = places[first] {
                counts[kmer] += 1;
                let back = (slip == Slip::LnBack && counts[kmer] > 1) as usize;
                gain += ln[(counts[kmer] - back).min(request.window_size)] as i128;
            }
            let low = (first + 1).saturating_sub(*k);
            while from > low {
                from -= 1;
                inside &= covered[from];
            }
            if !inside {
                break;
            }
            let one = |r: &[u32; 2]| r[0] as usize <= low && b < r[1] as usize;
            if slip == Slip::OneRegionOnly && !regions.iter().any(one) {
                continue;
            }
            let score = gain - size as i128 * *threshold as i128 - f[size.min(request.window_size)] as i128;
            let from = if slip == Slip::LettersFromPlace { first } else { low };
            all.push(Stretch { first, size, from, to: b + 1, score });
        }
    }
    all
}

/// The request's own words: the letters and scores, in the order found.
fn found(request: &Request, slip: Slip) -> Vec<Stretch> {
    let (lent, other) = (request.list.len() - GUARD, request.scores.len() - GUARD);
    let most = if slip == Slip::LongerList { lent.max(other) } else { lent.min(other) };
    let all = stretches(request, slip);
    let floor = request.floor as i128;
    let high = |s: &&Stretch| match () {
        _ if slip == Slip::FloorReached => s.score >= floor,
        _ if slip == Slip::NoFloor => true,
        _ => s.score > floor,
    };
    let apart = |s: &Stretch, t: &Stretch| match () {
        _ if slip == Slip::TouchingTaken => s.to <= t.from || t.to <= s.from,
        _ if slip == Slip::TwoBetween => s.to + 1 < t.from || t.to + 1 < s.from,
        _ if slip == Slip::SharingOne => s.to <= t.from + 1 || t.to <= s.from + 1,
        _ => s.to < t.from || t.to < s.from,
    };
    let mut entries: Vec<Stretch> = vec![];
    while entries.len() < most {
        let seen = entries.len() - (slip == Slip::NewestEntryForgotten && entries.len() > 1) as usize;
        let free = |s: &&Stretch| entries[..seen].iter().all(|t| apart(s, t));
        let order = |s: &Stretch| {
            let size = if slip == Slip::Shorter { usize::MAX - s.size } else { s.size };
            let first = if slip == Slip::Later { s.first } else { usize::MAX - s.first };
            (s.score, size, first)
        };
        let Some(best) = all.iter().filter(high).filter(free).max_by_key(|s| order(s)) else {
            break;
        };
        entries.push(*best);
        if slip == Slip::TwoEntries && entries.len() > 1 {
            break;
        }
    }
    entries
}

/// The best stretch that ends at place b without a letter that is not free, scores above the floor and has at most w places.
fn best_ending(
    request: &Request,
    places: &[Option<usize>],
    free: &[bool],
    counts: &mut [u32],
    b: usize,
) -> Option<Stretch> {
    let Request { kmer: k, threshold, ln, f, .. } = request;
    let (mut gain, mut best, mut from): (i128, Option<Stretch>, usize) = (0, None, b + 1);
    counts.fill(0);
    for size in 1..=request.window_size.min(b + 1) {
        let first = b + 1 - size;
        let low = (first + 1).saturating_sub(*k);
        if !free[low..from].iter().all(|&free| free) {
            break;
        }
        from = low;
        if let Some(kmer) = places[first] {
            counts[kmer] += 1;
            gain += ln[counts[kmer] as usize] as i128;
        }
        let score = gain - size as i128 * *threshold as i128 - f[size] as i128;
        if score > request.floor as i128 && best.map_or(true, |old| score >= old.score) {
            best = Some(Stretch { first, size, from: low, to: b + 1, score });
        }
    }
    best
}

/// The same list for long sequences: the best of each end is kept, and found again where letters that it may hold are no longer free.
fn found_by_ends(request: &Request, most: usize) -> Vec<Stretch> {
    let n = request.sequence.len();
    let lies = |x: usize| request.regions.iter().any(|r| (r[0] as usize..r[1] as usize).contains(&x));
    let mut free: Vec<bool> = (0..n).map(lies).collect();
    let mut number: HashMap<Vec<u8>, usize> = HashMap::new();
    let mut numbered = |place| {
        kmer_at(request, place).map(|kmer| {
            let next = number.len();
            *number.entry(kmer).or_insert(next)
        })
    };
    let places: Vec<Option<usize>> = (0..n).map(&mut numbered).collect();
    let counts = &mut vec![0; number.len()];
    let mut ends: Vec<_> = (0..n).map(|b| best_ending(request, &places, &free, counts, b)).collect();
    let mut entries: Vec<Stretch> = vec![];
    while entries.len() < most {
        let order = |s: &&Stretch| (s.score, s.size, usize::MAX - s.first);
        let Some(best) = ends.iter().flatten().max_by_key(order).copied() else {
            break;
        };
        entries.push(best);
        let (low, high) = (best.from.saturating_sub(1), (best.to + 1).min(n));
        free[low..high].fill(false);
        for b in low..n.min(high + request.window_size + request.kmer) {
            if ends[b].is_some_and(|s| s.from < high && low < s.to) {
                ends[b] = best_ending(request, &places, &free, counts, b);
            }
        }
    }
    entries
}

/// The answer, written over the request's own lists; the work space stays as it is.
fn plain(request: &mut Request, slip: Slip) -> i64 {
    let number = refusal(request, slip);
    if number != 0 {
        return -number;
    }
    let entries = found(request, slip);
    for (i, s) in entries.iter().enumerate() {
        request.list[i] = [s.from as u32, s.to as u32];
        request.scores[i] = i64::try_from(s.score).unwrap();
    }
    entries.len() as i64
}

fn sequence(rng: &mut Rng, n: usize) -> Vec<u8> {
    let size = 1 + rng.below(6);
    let unit = letters(rng, size, b"ACGT");
    match rng.below(8) {
        0 => letters(rng, n, b"ACGTN"),
        1 => letters(rng, n, b"Nnacgtu-*XA"),
        2 => letters(rng, n, b"A"),
        3 => letters(rng, n, b"AAAAAAAAAAAAAN"),
        4 => letters(rng, n, b"AC"),
        5 => {
            let errors = 1 + rng.below(9);
            tandem(rng, &unit, n, errors)
        }
        6 => tandem(rng, &unit, n, 0),
        _ => letters(rng, n, b"ACGTUacgtu"),
    }
}

/// Entries 1..w below `width`, those around them anything; most of these tables fall somewhere.
fn table(rng: &mut Rng, entries: usize, w: usize, width: u64, natural: impl Fn(usize) -> u64) -> Vec<u64> {
    let kind = rng.below(7);
    let entry = |i: usize| match kind {
        _ if i == 0 || i > w => rng.next(),
        0 => 0,
        1 => rng.next() % width,
        2 => rng.below(4) as u64,
        3 => (w - i) as u64,
        _ => natural(i) % width,
    };
    (0..entries).map(entry).collect()
}

/// Regions of n letters: none, all, of one letter, apart, touching, overlapping, in any order.
fn regions(rng: &mut Rng, n: usize) -> Vec<[u32; 2]> {
    let n = n as u32;
    let mut list = vec![];
    match rng.below(6) {
        _ if n == 0 => {}
        0 if rng.one_in(3) => {}
        0..=2 => list.push([0, n]),
        3 => {
            for _ in 0..1 + rng.below(4) {
                let start = rng.below(n as usize) as u32;
                list.push([start, start + 1 + rng.below((n - start) as usize) as u32]);
            }
        }
        4 => {
            let mut start = 0;
            while start < n {
                let end = (start + 1 + rng.below(20) as u32).min(n);
                list.push([start, end]);
                start = end + rng.pick(&[0, 0, 0, 1, 1, 2, 9]);
            }
        }
        _ => {
            let most = 1 + rng.below(30);
            for _ in 0..1 + rng.below(n as usize) {
                let start = rng.below(n as usize) as u32;
                list.push([start, (start + 1 + rng.below(most) as u32).min(n)]);
            }
        }
    }
    list
}

/// The request of this number in the list of a seed.
fn random(seed: u64, number: u64) -> Request {
    let rng = &mut Rng::new(seed, number);
    // More letters than a tile has ends.
    let long = rng.one_in(1000);
    let kmer = match rng.below(40) {
        0 => rng.pick(&[0, 13, 32, usize::MAX]),
        1 => rng.pick(&[5, 5, 5, 6, 6, 7, 8]),
        _ => 1 + rng.below(4),
    };
    let most = if long { 9_000 } else { rng.pick(&[3, 10, 40, 100]) };
    let n = match rng.below(30) {
        0 => rng.below(kmer.min(13) + 1),
        _ => kmer.min(13) + 1 + rng.below(most),
    };
    let window_size = match rng.below(30) {
        0 => rng.pick(&[0, kmer, kmer.saturating_sub(1), 65536, 100_000, usize::MAX, usize::MAX - 1]),
        1 if !long => 65535 - rng.below(3),
        2 => kmer.saturating_add(1),
        _ => kmer.saturating_add(1 + rng.below(60)),
    };
    // 5 is refused before the tables are asked for.
    let w = if window_size > 65535 { 20 } else { window_size };
    let threshold = match rng.below(8) {
        0 | 1 => 0,
        2 => rng.below(4) as u64,
        3 if rng.one_in(2) => rng.next() % (1 << 36),
        3 if rng.one_in(4) => rng.pick(&[1 << 36, u64::MAX, (1 << 36) - 1]),
        _ => 2_576_980_378,
    };
    let natural_ln = |i: usize| ((i as f64).ln() * 4_294_967_296.0) as u64;
    let past = rng.below(3);
    let mut ln = table(rng, w + 1 + past, w, 1 << 36, natural_ln);
    let width = rng.pick(&[2, 1 << 30, 1 << 34, 1 << 52]);
    let mut f = table(rng, w + 2 + past, w, width, |i| (i as u64) << 27);
    let floor = match rng.below(8) {
        0 => rng.below(4) as u64,
        1 => rng.next() % (1 << 36),
        2 if rng.one_in(4) => rng.pick(&[u64::MAX, 1 << 63]),
        _ => 0,
    };
    let mut regions = regions(rng, n);
    let count = |rng: &mut Rng| match rng.below(12) {
        0 => 0,
        1 => 1,
        2 => 2,
        3 => 100,
        _ => 1 + rng.below(10),
    };
    let list_len = count(rng);
    let scores_len = if rng.one_in(3) { count(rng) } else { list_len };
    let counts = if kmer > 12 { 4 } else { 1usize << (2 * kmer) };
    let places = if kmer > 12 || window_size > 65535 { 4 } else { 2 * w + SPAN + kmer };
    let tiles = n / w.saturating_add(SPAN) + 1;
    let (mut codes_len, mut newest_len) = (n + rng.below(3), counts + rng.below(3));
    let (mut places_len, mut tiles_len) = (places + rng.below(3), tiles + rng.below(3));
    if rng.one_in(12) && w > 0 {
        let i = 1 + rng.below(w);
        match rng.below(2) {
            0 => ln[i] = rng.pick(&[1 << 36, u64::MAX, (1 << 36) - 1]),
            _ => f[i] = rng.pick(&[1 << 52, u64::MAX, (1 << 52) - 1]),
        }
    }
    if rng.one_in(15) {
        let start = rng.below(n + 1) as u32;
        let bad = [[start, start], [start + 1, start], [start, n as u32 + 1], [n as u32, u32::MAX], [u32::MAX, 0]];
        let at = rng.below(regions.len() + 1);
        regions.insert(at, rng.pick(&bad));
    }
    if rng.one_in(20) {
        match rng.below(6) {
            0 => ln.truncate(w - rng.below(w + 1).min(2)),
            1 => f.truncate(w + 1 - rng.below(w + 1).min(2)),
            2 => codes_len = n - rng.below(n + 1).min(1),
            3 => tiles_len = rng.below(tiles),
            4 => places_len = places - 1 - rng.below(places.min(5)).min(places - 1),
            _ => newest_len = counts - 1 - rng.below(counts.min(5)).min(counts - 1),
        }
    }
    let mut sequence = sequence(rng, n);
    if rng.one_in(30) && n > 0 {
        for _ in 0..=rng.below(2) {
            let x = rng.below(n);
            sequence[x] = rng.pick(b"\x80\xff 7\r>.@[`{\n\0");
        }
    }
    let garbage = rng.next();
    let tile = |i: usize| {
        let x = garbage >> (i % 51);
        Tile { first: x as usize, size: x as usize % 7, gain: x, loss: !x, stale: (x % 2) as u8 }
    };
    let place = |i: usize| {
        let x = garbage >> (i % 47);
        Place { entry: x as u32 % 64, older: (x >> 5) as u32, order: (x >> 9) as u16 }
    };
    Request {
        sequence,
        kmer,
        window_size,
        threshold,
        ln,
        f,
        regions,
        floor,
        codes: (0..codes_len + GUARD).map(|i| (garbage >> (i % 57)) as u8).collect(),
        newest: (0..newest_len + GUARD).map(|i| (garbage >> (i % 61)) as u32).collect(),
        places: (0..places_len + GUARD).map(place).collect(),
        tiles: (0..tiles_len + GUARD).map(tile).collect(),
        list: (0..list_len + GUARD).map(|i| [(garbage >> (i % 33)) as u32, i as u32]).collect(),
        scores: (0..scores_len + GUARD).map(|i| (garbage >> (i % 23)) as i64).collect(),
    }
}

/// Whether the request is `right` but for what a call may leave in its work space.
fn alike(right: &Request, left: &Request, accepted: bool) -> bool {
    if !accepted {
        return right == left;
    }
    let (n, w) = (right.sequence.len(), right.window_size);
    let (counts, places, tiles) = (1 << (2 * right.kmer), 2 * w + SPAN + right.kmer, n / (w + SPAN) + 1);
    let mut past = left.clone();
    past.codes[..n].copy_from_slice(&right.codes[..n]);
    past.newest[..counts].copy_from_slice(&right.newest[..counts]);
    past.places[..places].copy_from_slice(&right.places[..places]);
    past.tiles[..tiles].copy_from_slice(&right.tiles[..tiles]);
    &past == right
}

/// The `strongest-list` command: every answer and every buffer.
pub fn command(port: Port, seed: u64, count: u64) -> (u64, u64) {
    let (mut entries, mut ties, mut cut, mut none, mut refused, mut failed) = (0, 0, 0, 0, [0; 21], 0);
    for number in 0..count {
        let mut right = random(seed, number);
        let mut ours = right.clone();
        let (said, wanted) = (port(&mut ours), plain(&mut right, Slip::None));
        match wanted {
            0 => none += 1,
            1.. => {
                let scores = &right.scores[..wanted as usize];
                entries += scores.len();
                ties += scores.windows(2).filter(|pair| pair[0] == pair[1]).count();
                cut += (scores.len() == right.list.len().min(right.scores.len()) - GUARD) as usize;
            }
            _ => refused[-wanted as usize] += 1,
        }
        if said != wanted || !alike(&right, &ours, wanted >= 0) {
            failed += 1;
            if failed <= SHOWN {
                println!("request {number} of seed {seed}: said {said}, not {wanted}");
            }
        }
    }
    let refused: Vec<_> = REFUSALS.map(|number| format!("{number}: {}", refused[number as usize])).to_vec();
    println!("entries {entries}, with the score of the one before {ties}; lists full {cut}, empty {none}");
    println!("refused by number {}", refused.join(" "));
    (count - failed, failed)
}

/// Letters of a piece, and entries of its list at most.
const PIECE: usize = 20_000;
const ENTRIES: usize = 10;

/// A request for a piece: k, w, T and the tables as usual, the tables and T times 2^32, and the original's mask as regions.
fn piece(letters: &[u8]) -> Request {
    let usual = request::Request { sequence: letters.to_vec(), ..Default::default() };
    let masked = match original::reference(&usual, &Buffers::new(&usual)).answer {
        request::Answer::Accepted { intervals, .. } => intervals,
        request::Answer::Refused(number) => panic!("a piece is refused with {number}"),
    };
    let (ln, f) = original::formulas::tables(&usual);
    let whole = |bits: &[u64]| original::floats(bits).iter().map(|x| (x * 4_294_967_296.0).round() as u64).collect();
    Request {
        sequence: letters.to_vec(),
        kmer: usual.kmer,
        window_size: usual.window_size,
        threshold: (usual.score_threshold * 4_294_967_296.0).round() as u64,
        ln: whole(&ln),
        f: whole(&f),
        regions: masked.iter().map(|&(start, end)| [start as u32, end as u32]).collect(),
        floor: 0,
        codes: vec![7; PIECE + GUARD],
        newest: vec![7; (1 << (2 * usual.kmer)) + GUARD],
        places: vec![Place { entry: 7, older: 7, order: 7 }; 2 * usual.window_size + SPAN + usual.kmer + GUARD],
        tiles: vec![
            Tile { first: 7, size: 7, gain: 7, loss: 7, stale: 1 };
            PIECE / (usual.window_size + SPAN) + 1 + GUARD
        ],
        list: vec![[7, 7]; ENTRIES + GUARD],
        scores: vec![7; ENTRIES + GUARD],
    }
}

/// The `strongest-list pieces` command: pieces of real letters, spread over a file.
pub fn pieces(port: Port, text: &[u8], count: usize) -> (u64, u64) {
    let lines = text.split(|&byte| byte == b'\n').filter(|line| line.first() != Some(&b'>'));
    let letters: Vec<u8> = lines.flatten().copied().filter(|&byte| byte != b'\r').collect();
    let (mut entries, mut failed) = (0, 0);
    for i in 0..count {
        let at = (letters.len() - PIECE) / count * i;
        let mut right = piece(&letters[at..at + PIECE]);
        let mut ours = right.clone();
        let wanted = found_by_ends(&right, ENTRIES);
        for (i, s) in wanted.iter().enumerate() {
            right.list[i] = [s.from as u32, s.to as u32];
            right.scores[i] = s.score as i64;
        }
        entries += wanted.len();
        let said = port(&mut ours);
        if said != wanted.len() as i64 || !alike(&right, &ours, true) {
            failed += 1;
            println!("the piece at letter {at}: said {said}, not {}", wanted.len());
        }
    }
    println!("pieces {count}, entries {entries}");
    (count as u64 - failed, failed)
}

#[cfg(test)]
mod tests {
    use super::*;

    #[test]
    fn both_plain_searches_agree() {
        for number in 0..2000 {
            let request = random(2, number);
            if refusal(&request, Slip::None) == 0 {
                let most = request.list.len().min(request.scores.len()) - GUARD;
                let told = |s: &Stretch| (s.first, s.size, s.score);
                let by_ends: Vec<_> = found_by_ends(&request, most).iter().map(told).collect();
                assert_eq!(by_ends, found(&request, Slip::None).iter().map(told).collect::<Vec<_>>(), "{number}");
            }
        }
    }

    const WRONG: &[(&str, Port)] = &[
        ("equal scores to the shorter", |request| plain(request, Slip::Shorter)),
        ("equal places to the later", |request| plain(request, Slip::Later)),
        ("a touching stretch taken", |request| plain(request, Slip::TouchingTaken)),
        ("two letters between", |request| plain(request, Slip::TwoBetween)),
        ("a shared letter taken", |request| plain(request, Slip::SharingOne)),
        ("two entries at most", |request| plain(request, Slip::TwoEntries)),
        ("regions not asked", |request| plain(request, Slip::EveryLetter)),
        ("in one region only", |request| plain(request, Slip::OneRegionOnly)),
        ("a floor reached", |request| plain(request, Slip::FloorReached)),
        ("no floor", |request| plain(request, Slip::NoFloor)),
        ("the last end skipped", |request| plain(request, Slip::LastEndSkipped)),
        ("the newest entry forgotten", |request| plain(request, Slip::NewestEntryForgotten)),
        ("one place more", |request| plain(request, Slip::OnePlaceMore)),
        ("an empty region taken", |request| plain(request, Slip::EmptyRegionTaken)),
        ("a region past n taken", |request| plain(request, Slip::RegionPastTaken)),
        ("regions after buffers", |request| plain(request, Slip::RegionsAfterBuffers)),
        ("a tile too few", |request| plain(request, Slip::FewTiles)),
        ("letters from the first place", |request| plain(request, Slip::LettersFromPlace)),
        ("ln one entry back", |request| plain(request, Slip::LnBack)),
        ("N of the longer list", |request| {
            let most = request.list.len().min(request.scores.len()) - GUARD;
            match refusal(request, Slip::None) {
                0 => (found(request, Slip::LongerList).len() as i64).min(most as i64 + 1),
                number => -number,
            }
        }),
        ("an entry past the count written", |request| {
            let answer = plain(request, Slip::None);
            if answer >= 0 {
                request.list[answer as usize][0] ^= 1;
            }
            answer
        }),
        ("a score past the count written", |request| {
            let answer = plain(request, Slip::None);
            if answer >= 0 {
                request.scores[answer as usize] ^= 1;
            }
            answer
        }),
        ("codes past n", |request| {
            let answer = plain(request, Slip::None);
            if answer >= 0 {
                request.codes[request.sequence.len()] ^= 1;
            }
            answer
        }),
        ("places past the last", |request| {
            let answer = plain(request, Slip::None);
            if answer >= 0 {
                let places = 2 * request.window_size + SPAN + request.kmer;
                request.places[places].order ^= 1;
            }
            answer
        }),
        ("tiles past the last", |request| {
            let answer = plain(request, Slip::None);
            if answer >= 0 {
                let tiles = request.sequence.len() / (request.window_size + SPAN) + 1;
                request.tiles[tiles].gain ^= 1;
            }
            answer
        }),
        ("tiles written when refused", |request| {
            let answer = plain(request, Slip::None);
            if answer < 0 {
                request.tiles[0].size ^= 1;
            }
            answer
        }),
    ];

    #[test]
    fn a_plain_search_passes() {
        assert_eq!(command(|request| plain(request, Slip::None), 1, 2000), (2000, 0));
    }

    #[test]
    fn wrong_searches_are_found() {
        for (name, wrong) in WRONG {
            assert!(command(*wrong, 1, 3000).1 > 0, "{name}");
        }
    }

    fn asked(sequence: &[u8], k: usize, t: u64, ln: &[u64], f: &[u64], regions: &[[u32; 2]]) -> Request {
        Request {
            sequence: sequence.to_vec(),
            kmer: k,
            window_size: 3,
            threshold: t,
            ln: ln.to_vec(),
            f: f.to_vec(),
            regions: regions.to_vec(),
            floor: 0,
            codes: vec![0; sequence.len() + GUARD],
            newest: vec![0; (1 << (2 * k)) + GUARD],
            places: vec![Place { entry: 0, older: 0, order: 0 }; 6 + SPAN + k + GUARD],
            tiles: vec![Tile { first: 0, size: 0, gain: 0, loss: 0, stale: 0 }; 1 + GUARD],
            list: vec![[0, 0]; 3 + GUARD],
            scores: vec![0; 3 + GUARD],
        }
    }

    fn list(mut request: Request) -> Vec<(u32, u32, i64)> {
        let count = plain(&mut request, Slip::None) as usize;
        (0..count).map(|i| (request.list[i][0], request.list[i][1], request.scores[i])).collect()
    }

    #[test]
    fn worked_examples() {
        let letters = |sequence, regions| list(asked(sequence, 1, 2, &[9, 1, 4, 5], &[9, 1, 1, 1, 9], regions));
        assert_eq!(letters(b"AAAGCCC", &[[0, 7]]), [(0, 3, 3), (4, 7, 3)]);
        assert_eq!(letters(b"AAACCC", &[[0, 6]]), [(0, 3, 3)]);
        assert_eq!(letters(b"AAACCC", &[[0, 2], [2, 3]]), [(0, 3, 3)]);
        // Where f falls the mirror of a list may be another: the request's own example.
        let falling = |sequence, regions| list(asked(sequence, 2, 0, &[9, 5, 5, 5], &[9, 10, 0, 0, 9], regions));
        assert_eq!(falling(b"AAN", &[[0, 2]]), [(0, 2, 5)]);
        assert_eq!(falling(b"NTT", &[[1, 3]]), []);
    }
}
