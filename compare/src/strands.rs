//! One strand alone, both lists joined, and the tables alone: the port against the original on random requests, and
//! against a plain join on random lists; and the texts of the refusals.

use crate::generate::{self, Rng};
use crate::lists::{break_list, list, room, usual};
use crate::original::{self, floats, formulas};
use crate::port::{Buffers, Said};
use crate::request::{Answer, Gc, Request, Tables, F, LN, SLICES};
use std::thread;

/// Entries that stand behind each lent slice and are no part of it.
pub const GUARD: usize = 4;
/// How many differing requests are printed.
const SHOWN: usize = 3;
/// The places of the codes and of the lists among the slices, the forward strand's; the other's come next.
const CODES: usize = 6;
const LIST: usize = 8;

/// Both lists, and the slices that are lent for them, with their guards.
#[derive(Clone, Debug, PartialEq)]
pub struct Merge {
    pub n: usize,
    pub forward: Vec<[u32; 2]>,
    pub reverse: Vec<[u32; 2]>,
    pub list: Vec<[u32; 2]>,
    pub marks: Vec<u8>,
}

/// Calls that answer as the C interface does.
#[derive(Clone, Copy)]
pub struct Port {
    pub fill: fn(&Request, &mut Buffers) -> Said,
    pub strand: fn(&Request, &mut Buffers, bool) -> Said,
    pub merge: fn(&mut Merge) -> i64,
    pub text: fn(u32, &mut [u8], usize) -> i64,
}

type Held = Result<(), String>;

fn same<T: PartialEq + std::fmt::Debug>(what: &str, said: T, right: T) -> Held {
    if said == right {
        return Ok(());
    }
    Err(format!("{what}: {said:?}, not {right:?}"))
}

fn unchanged(lent: &Buffers, free: &[usize; SLICES]) -> Held {
    lent.changes(free).map_or(Ok(()), Err)
}

/// The specification's list of checks that concern the tables.
fn filling_refusal(request: &Request, lengths: &[usize; SLICES]) -> Option<u32> {
    let (k, w) = (request.kmer, request.window_size);
    let gc_bad = match request.gc {
        Gc::Uniform | Gc::Auto => false,
        Gc::Fixed(gc) => !(0.0..=1.0).contains(&gc),
        Gc::Kind(..) => true,
    };
    let short = lengths[LN] < w.saturating_add(1) || lengths[F] < w.saturating_add(2) || lengths[CODES] < request.sequence.len();
    let threshold = request.score_threshold;
    let fails = [
        (1, !(1..=12).contains(&k)),
        (4, w < k.saturating_add(1)),
        (5, w > 65535),
        (6, !(threshold > 0.0 && threshold.is_finite())),
        (7, gc_bad),
        (11, short),
    ];
    fails.into_iter().find(|(_, fails)| *fails).map(|(number, _)| number)
}

/// The checks of the masking calls, the last of the slices that one strand needs.
fn strand_refusal(request: &Request, lengths: &[usize; SLICES], reverse: bool) -> Option<u32> {
    original::refusal_before_sizes(request).or_else(|| {
        let listed = request.listed();
        let needed = (LN..CODES).chain([CODES + reverse as usize, LIST + reverse as usize]);
        needed.into_iter().any(|slice| lengths[slice] < listed[slice]).then_some(11)
    })
}

/// Fills the tables of a request that asks for it; says whether they can be read.
fn fill(port: Port, request: &Request, lent: &mut Buffers, free: &mut [usize; SLICES]) -> Result<bool, String> {
    if request.tables != Tables::Formula {
        return Ok(true);
    }
    let refusal = filling_refusal(request, &lent.lengths());
    let said = (port.fill)(request, lent);
    if let Some(number) = refusal {
        same("refusal of the tables", said, (-i64::from(number), 0))?;
        unchanged(lent, free)?;
        return Ok(false);
    }
    let (ln, f) = formulas::tables(request);
    let w = request.window_size;
    free[..=F].copy_from_slice(&[w + 1, w + 2]);
    free[CODES] = request.sequence.len();
    same("tables", said, (0, original::in_range(request, &ln, &f) as u32))?;
    same("ln", &lent.ln.now[..w + 1], &ln[..])?;
    same("f", &lent.f.now[..w + 2], &f[..])?;
    unchanged(lent, free)?;
    Ok(true)
}

fn rows(list: &[(usize, usize)]) -> Vec<[u32; 2]> {
    list.iter().map(|&(start, end)| [start as u32, end as u32]).collect()
}

/// One strand's list, or none if it is refused.
fn strand(port: Port, request: &Request, lent: &mut Buffers, free: &mut [usize; SLICES], reverse: bool) -> Result<Option<Vec<[u32; 2]>>, String> {
    let refusal = strand_refusal(request, &lent.lengths(), reverse);
    let said = (port.strand)(request, lent, reverse);
    if let Some(number) = refusal {
        same("refusal of a strand", said, (-i64::from(number), 0))?;
        unchanged(lent, free)?;
        return Ok(None);
    }
    let (w, listed) = (request.window_size, request.listed());
    let (ln, f) = (&lent.ln.now[..w + 1], &lent.f.now[..w + 2]);
    let right = rows(&original::strand(request, reverse, &floats(ln), &floats(f)));
    same("strand", said, (right.len() as i64, original::in_range(request, ln, f) as u32))?;
    same("list of a strand", &lent.lists[reverse as usize].now[..right.len()], &right[..])?;
    free[2..CODES].copy_from_slice(&listed[2..CODES]);
    for slice in [CODES, LIST] {
        free[slice + reverse as usize] = listed[slice];
    }
    unchanged(lent, free)?;
    Ok(Some(right))
}

/// All calls on a request; whether it was accepted.
fn request(port: Port, seed: u64, number: u64) -> Result<bool, String> {
    let request = generate::request(seed, number);
    let mut lent = Buffers::new(&request);
    let mut free = [0; SLICES];
    let filled = fill(port, &request, &mut lent, &mut free)?;
    if !filled && original::refusal_before_sizes(&request).is_none() {
        return Ok(false);
    }
    let forward = strand(port, &request, &mut lent, &mut free, false)?;
    let reverse = strand(port, &request, &mut lent, &mut free, true)?;
    let reference = original::reference(&request, &Buffers::new(&request));
    let (Some(forward), Some(reverse), Answer::Accepted { intervals, marks, .. }) = (forward, reverse, reference.answer) else {
        return Ok(false);
    };
    let reverse = if request.forward_only { Vec::new() } else { reverse };
    let most = forward.len() + reverse.len() + GUARD;
    let n = request.sequence.len();
    let mut merge = Merge { n, forward, reverse, list: vec![[7; 2]; most], marks: vec![7; most] };
    let mut right = merge.clone();
    right.list[..intervals.len()].copy_from_slice(&rows(&intervals));
    right.marks[..marks.len()].copy_from_slice(&marks);
    let said = (port.merge)(&mut merge);
    same("joined", (said, merge), (intervals.len() as i64, right))?;
    Ok(true)
}

fn merge_refusal(merge: &Merge) -> i64 {
    let Merge { n, forward, reverse, list, marks } = merge;
    let both = forward.len() + reverse.len();
    if *n > 2_147_483_647 {
        10
    } else if !usual(forward, *n as u64) || !usual(reverse, *n as u64) {
        16
    } else if list.len() - GUARD < both || marks.len() - GUARD < both {
        11
    } else {
        0
    }
}

/// All intervals by their starts, touching ones joined.
fn plain(merge: &mut Merge) -> i64 {
    let refusal = merge_refusal(merge);
    if refusal > 0 {
        return -refusal;
    }
    let n = merge.n as u32;
    let mut all: Vec<_> = merge.forward.iter().map(|&[start, end]| (start, end, 1)).collect();
    all.extend(merge.reverse.iter().map(|&[start, end]| (n - end, n - start, 2)));
    all.sort();
    let mut count = 0;
    for (start, end, mark) in all {
        if count > 0 && start <= merge.list[count - 1][1] {
            merge.list[count - 1][1] = merge.list[count - 1][1].max(end);
            merge.marks[count - 1] |= mark;
        } else {
            (merge.list[count], merge.marks[count]) = ([start, end], mark);
            count += 1;
        }
    }
    count as i64
}

/// Random lists of both strands; the refusal that they earn, 0 for none.
fn lists(port: Port, seed: u64, number: u64) -> Result<i64, String> {
    let rng = &mut Rng::new(seed, number);
    let letters = rng.pick(&[0, 1, 2, 30, 100, 100, 3000, 2_147_483_647]);
    let mut both = [list(rng, letters), list(rng, letters)];
    for list in &mut both {
        if rng.one_in(8) {
            break_list(rng, list, letters);
        }
    }
    let n = if rng.one_in(20) { rng.pick(&[2_147_483_648, 1 << 32, u64::MAX]) } else { letters };
    let most = (both[0].len() + both[1].len()) as u64;
    let rooms = [room(rng, most), room(rng, most)];
    let [forward, reverse] = both;
    let mut merge = Merge {
        n: n as usize,
        forward,
        reverse,
        list: (0..rooms[0] + GUARD).map(|_| [rng.next() as u32, rng.next() as u32]).collect(),
        marks: (0..rooms[1] + GUARD).map(|_| rng.next() as u8).collect(),
    };
    let mut right = merge.clone();
    let (said, count) = ((port.merge)(&mut merge), plain(&mut right));
    same("joined lists", (said, merge), (count, right))?;
    Ok((-count).max(0))
}

/// The numbers of the refusals, as include/longdust.h lists them.
const NUMBERS: [u32; 20] = [1, 2, 3, 4, 5, 6, 7, 8, 9, 10, 11, 12, 13, 16, 17, 18, 19, 20, 21, 22];

/// The text of a number: some words for each refusal, of 64 bytes at most, none for any other number; and nothing is
/// written where there is no room for it.
fn text(port: Port, number: u32, texts: &mut Vec<Vec<u8>>) -> Held {
    let mut held = [7; 64 + GUARD];
    let length = (port.text)(number, &mut held, 64);
    let words = held[..length.clamp(0, 64) as usize].to_vec();
    same("a refusal has words", (1..=64).contains(&length), NUMBERS.contains(&number))?;
    same("words are printed", words.iter().all(|byte| (32..127).contains(byte)), true)?;
    same("behind the words", held[words.len()..].iter().all(|&byte| byte == 7), true)?;
    if !words.is_empty() {
        let mut short = [7; 64 + GUARD];
        same("too little room", (port.text)(number, &mut short, words.len() - 1), -11)?;
        same("nothing written", short, [7; 64 + GUARD])?;
        same("words of their own", texts.contains(&words), false)?;
        texts.push(words);
    }
    Ok(())
}

/// The `strands` command.
pub fn command(port: Port, seed: u64, count: u64) -> (u64, u64) {
    let workers = thread::available_parallelism().map_or(1, |n| n.get()) as u64;
    let work = |from: u64| {
        let (mut accepted, mut refused, mut wrong) = (0, [0; 3], Vec::new());
        for number in (from..count).step_by(workers as usize) {
            match request(port, seed, number) {
                Ok(taken) => accepted += taken as u64,
                Err(error) => wrong.push(format!("request {number} of seed {seed}: {error}")),
            }
            match lists(port, seed, number) {
                Ok(refusal) => [10, 16, 11].iter().zip(&mut refused).for_each(|(r, count)| *count += (refusal == *r) as u64),
                Err(error) => wrong.push(format!("lists {number} of seed {seed}: {error}")),
            }
        }
        (accepted, refused, wrong)
    };
    let parts: Vec<_> = thread::scope(|scope| {
        let work = &work;
        let threads: Vec<_> = (0..workers).map(|from| scope.spawn(move || work(from))).collect();
        threads.into_iter().map(|thread| thread.join().unwrap()).collect()
    });
    let mut wrong: Vec<_> = parts.iter().flat_map(|part| part.2.clone()).collect();
    let mut texts = Vec::new();
    let numbers = (0..100).chain([u32::MAX - 12, u32::MAX]);
    let asked = numbers.clone().count() as u64;
    wrong.extend(numbers.filter_map(|number| text(port, number, &mut texts).err().map(|error| format!("text {number}: {error}"))));
    wrong.iter().take(SHOWN).for_each(|line| println!("{}", &line[..line.len().min(2000)]));
    println!("accepted {}, of {count}", parts.iter().map(|part| part.0).sum::<u64>());
    let refused = [0, 1, 2].map(|i| parts.iter().map(|part| part.1[i]).sum::<u64>());
    println!("lists refused by 10, 16, 11: {refused:?}; texts {}", texts.len());
    let failed = wrong.len() as u64;
    (2 * count + asked - failed, failed)
}
