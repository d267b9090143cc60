//! Joining tracks: the port against a plain join letter by letter, on random pairs; and pairs of BED files, for bedtools.

use crate::generate::Rng;
use crate::lists::{break_list, list, room, usual};
use std::{collections::HashMap, fs, io, path::Path};

/// Entries that stand behind each lent slice and are no part of it.
pub const GUARD: usize = 4;
/// How many differing pairs are printed.
const SHOWN: usize = 3;

/// A request, and the slices that are lent for it, with their guards.
#[derive(Clone, Debug, PartialEq)]
pub struct Request {
    pub kind: u32,
    pub n: usize,
    pub ours: Vec<[u32; 2]>,
    pub marks: Vec<u8>,
    pub theirs: Vec<[u32; 2]>,
    pub list: Vec<[u32; 2]>,
    pub list_marks: Vec<u8>,
}

/// Something that answers as the C interface does: the number of intervals, or minus a refusal.
pub type Port = fn(&mut Request) -> i64;

fn wanted(kind: u32, ours: bool, theirs: bool) -> bool {
    match kind {
        0 => ours || theirs,
        1 => ours && theirs,
        _ => ours && !theirs,
    }
}

fn refusal(request: &Request) -> i64 {
    let Request { n, ours, marks, theirs, list, list_marks, .. } = request;
    let both = ours.len() + theirs.len();
    if *n > 2_147_483_647 {
        10
    } else if !usual(ours, *n as u64) || !usual(theirs, *n as u64) {
        16
    } else if marks.len() < ours.len() || list.len() - GUARD < both || list_marks.len() - GUARD < both {
        11
    } else {
        0
    }
}

/// For each letter from the first that a list covers up to the last, the index of the interval that covers it.
fn owners(list: &[[u32; 2]], from: u32, to: u32) -> Vec<Option<usize>> {
    (from..to).map(|x| list.iter().position(|&[start, end]| start <= x && x < end)).collect()
}

/// The request's own words, letter by letter.
fn plain(request: &mut Request) -> i64 {
    let refusal = refusal(request);
    if refusal > 0 {
        return -refusal;
    }
    let Request { kind, ours, marks, theirs, list, list_marks, .. } = request;
    let every = || ours.iter().chain(theirs.iter());
    let (from, to) = (every().map(|e| e[0]).min().unwrap_or(0), every().map(|e| e[1]).max().unwrap_or(0));
    let [own, their] = [&ours[..], &theirs[..]].map(|list| owners(list, from, to));
    let mut count = 0;
    let mut before = false;
    for (x, (own, their)) in (from..to).zip(own.into_iter().zip(their)) {
        let now = wanted(*kind, own.is_some(), their.is_some());
        if now && !before {
            count += 1;
            (list[count - 1], list_marks[count - 1]) = ([x, x], 0);
        }
        if now {
            list[count - 1][1] = x + 1;
            list_marks[count - 1] |= own.map_or(0, |i| marks[i] & 3);
        }
        before = now;
    }
    count as i64
}

/// Mostly a list that is not empty.
fn some(rng: &mut Rng, n: u64) -> Vec<[u32; 2]> {
    let tries = rng.pick(&[1, 4, 4, 4]);
    (0..tries).map(|_| list(rng, n)).find(|list| !list.is_empty()).unwrap_or_default()
}

/// A second list: on its own, or one that meets the first everywhere.
fn other(rng: &mut Rng, ours: &[[u32; 2]], n: u64) -> Vec<[u32; 2]> {
    let gaps = || {
        let ends = ours.iter().map(|entry| entry[1]);
        let starts = ours.iter().map(|entry| entry[0]).chain([n as u32]);
        [0].into_iter().chain(ends).zip(starts).map(|(a, b)| [a, b]).filter(|[a, b]| a < b).collect()
    };
    match rng.below(8) {
        0 => ours.to_vec(),
        1 => gaps(),
        2 => ours.iter().map(|entry| entry.map(|x| x + 1)).filter(|entry| entry[1] as u64 <= n).collect(),
        3 => ours.iter().copied().filter(|_| rng.one_in(2)).collect(),
        _ => some(rng, n),
    }
}

/// The request of this number in the list of a seed.
fn request(seed: u64, number: u64) -> Request {
    let rng = &mut Rng::new(seed, number);
    let letters = match rng.below(8) {
        0 => rng.below(3),
        1 => rng.below(3000),
        _ => rng.below(100),
    } as u64;
    let mut ours = some(rng, letters);
    let mut theirs = other(rng, &ours, letters);
    let many = match rng.below(24) {
        0 => rng.pick(&[2_147_483_646, 2_147_483_647]),
        1 => rng.pick(&[2_147_483_648, 1 << 32, u64::MAX]),
        _ => letters,
    };
    // The last letters of many are the first of few, moved up.
    let n = many.max(letters);
    let up = (n.min(2_147_483_647) - letters) as u32;
    ours.iter_mut().chain(&mut theirs).for_each(|entry| *entry = entry.map(|x| x + up));
    for list in [&mut ours, &mut theirs] {
        if rng.one_in(10) {
            break_list(rng, list, n.min(u32::MAX as u64));
        }
    }
    let both = (ours.len() + theirs.len()) as u64;
    let rooms = [both, both, ours.len() as u64].map(|asked| room(rng, asked));
    Request {
        kind: rng.pick(&[0, 0, 1, 2, 2, 3, u32::MAX]),
        n: n as usize,
        ours,
        marks: (0..rooms[2]).map(|_| rng.next() as u8).collect(),
        theirs,
        list: (0..rooms[0] + GUARD).map(|_| [rng.next() as u32, rng.next() as u32]).collect(),
        list_marks: (0..rooms[1] + GUARD).map(|_| rng.next() as u8).collect(),
    }
}

const REFUSALS: [i64; 3] = [10, 16, 11];

/// The `tracks` command: every answer, both slices whole, and that the lists and our marks are as they were.
pub fn command(port: Port, seed: u64, count: u64) -> (u64, u64) {
    let (mut kinds, mut empty, mut refused, mut failed) = ([0; 3], 0, [0; 3], 0);
    for number in 0..count {
        let request = request(seed, number);
        let (mut ours, mut theirs) = (request.clone(), request);
        let (said, right) = (port(&mut ours), plain(&mut theirs));
        match REFUSALS.iter().position(|number| right == -number) {
            Some(index) => refused[index] += 1,
            None => {
                kinds[theirs.kind.min(2) as usize] += 1;
                empty += (right == 0) as u64;
            }
        }
        if (said, &ours) != (right, &theirs) {
            failed += 1;
            if failed <= SHOWN as u64 {
                println!("pair {number} of seed {seed}: said {said}, not {right}\n{ours:?}\nnot {theirs:?}");
            }
        }
    }
    println!("in either, in both, in ours and outside theirs {kinds:?}, of these without an interval {empty}");
    println!("refused by number {REFUSALS:?}: {refused:?}");
    (count - failed, failed)
}

/// A list of the usual kind with this many intervals or fewer.
fn larger(rng: &mut Rng, n: usize, entries: usize) -> Vec<[u32; 2]> {
    let step = n / entries;
    let mut list: Vec<[u32; 2]> = Vec::new();
    for i in 0..entries {
        let start = i * step + rng.below(step);
        let end = start + 1 + rng.below(2 * step);
        let free = list.last().is_none_or(|last| (last[1] as usize) < start);
        if free && end <= n {
            list.push([start as u32, end as u32]);
        }
    }
    list
}

/// A larger pair in n letters.
fn pair(seed: u64, number: u64) -> (usize, [Vec<[u32; 2]>; 2]) {
    let rng = &mut Rng::new(seed, number);
    let n = rng.pick(&[100_000, 1_000_000, 200_000_000]);
    let lists = [(); 2].map(|_| {
        let entries = 1000 + rng.below(9000);
        larger(rng, n, entries)
    });
    (n, lists)
}

const KINDS: [&str; 3] = ["either", "both", "outside"];

fn bed(lists: impl Iterator<Item = (u64, Vec<[u32; 2]>)>) -> String {
    let lines = |(number, list): (u64, Vec<[u32; 2]>)| -> String {
        list.iter().map(|[start, end]| format!("pair{number:06}\t{start}\t{end}\n")).collect()
    };
    lists.map(lines).collect()
}

/// The `tracks beds` command: ours.bed and theirs.bed, a chromosome for each pair.
pub fn beds(folder: &str, seed: u64, count: u64) -> io::Result<()> {
    for (i, name) in ["ours", "theirs"].into_iter().enumerate() {
        let lists = (0..count).map(|number| (number, pair(seed, number).1[i].clone()));
        fs::write(Path::new(folder).join(format!("{name}.bed")), bed(lists))?;
    }
    Ok(())
}

/// The `tracks held` command: the port on the same pairs against either.bed, both.bed and outside.bed.
pub fn held(port: Port, folder: &str, seed: u64, count: u64) -> io::Result<(u64, u64)> {
    let (mut passed, mut failed, mut intervals) = (0, 0, 0);
    for (kind, name) in KINDS.into_iter().enumerate() {
        let text = fs::read_to_string(Path::new(folder).join(format!("{name}.bed")))?;
        let mut right: HashMap<&str, String> = HashMap::new();
        for line in text.lines() {
            *right.entry(line.split('\t').next().unwrap_or("")).or_default() += &format!("{line}\n");
        }
        for number in 0..count {
            let (n, [ours, theirs]) = pair(seed, number);
            let room = ours.len() + theirs.len() + GUARD;
            let (marks, list, list_marks) = (vec![3; ours.len()], vec![[0; 2]; room], vec![0; room]);
            let mut request = Request { kind: kind as u32, n, ours, marks, theirs, list, list_marks };
            let said = port(&mut request);
            let joined = request.list[..said.max(0) as usize].to_vec();
            intervals += joined.len();
            let right = right.get(&format!("pair{number:06}")[..]).map_or("", |lines| lines);
            match said >= 0 && bed([(number, joined)].into_iter()) == right {
                true => passed += 1,
                false => failed += 1,
            }
        }
    }
    println!("{count} pairs, {intervals} intervals in {}", KINDS.join(", "));
    Ok((passed, failed))
}

#[cfg(test)]
mod tests {
    use super::*;

    /// Right, but for one thing.
    const WRONG: &[(&str, Port)] = &[
        ("kinds swapped", |request| asked(request, |kind| 1 - kind.min(1))),
        ("a large kind as either", |request| asked(request, |kind| if kind > 2 { 0 } else { kind })),
        ("touching left apart", |request| {
            written(request, |request, count| {
                let Request { ours, theirs, list, list_marks, .. } = request;
                let met = |&x: &u32| theirs.iter().any(|entry| entry[0] == x);
                let cut = |i: usize| {
                    ours.iter().map(|entry| entry[1]).find(|x| met(x) && (list[i][0]..list[i][1]).contains(x))
                };
                let Some((i, x)) = (0..count).find_map(|i| cut(i).map(|x| (i, x))) else { return count as i64 };
                list.copy_within(i..count, i + 1);
                list_marks.copy_within(i..count, i + 1);
                (list[i][1], list[i + 1][0]) = (x, x);
                count as i64 + 1
            })
        }),
        ("the last interval lost", |request| written(request, |_, count| count.saturating_sub(1) as i64)),
        ("all bits of the marks", |request| {
            written(request, |request, count| {
                let list_marks = &mut request.list_marks[..count];
                list_marks.iter_mut().filter(|byte| **byte != 0).for_each(|byte| *byte |= 4);
                count as i64
            })
        }),
        ("theirs alone with marks", |request| {
            written(request, |request, count| {
                let list_marks = &mut request.list_marks[..count];
                list_marks.iter_mut().filter(|byte| **byte == 0).for_each(|byte| *byte = 3);
                count as i64
            })
        }),
        ("marks carried over", |request| {
            written(request, |request, count| {
                (1..count).for_each(|i| request.list_marks[i] |= request.list_marks[i - 1]);
                count as i64
            })
        }),
        ("theirs not checked", |request| match refusal(request) {
            16 if usual(&request.ours, request.n as u64) => 0,
            _ => plain(request),
        }),
        ("sizes first", |request| match refusal(request) {
            16 if request.marks.len() < request.ours.len() => -11,
            _ => plain(request),
        }),
        ("letters last", |request| match refusal(request) {
            10 if request.marks.len() < request.ours.len() => -11,
            _ => plain(request),
        }),
        ("our marks not counted", |request| match refusal(request) {
            11 if request.list.len().min(request.list_marks.len()) - GUARD
                >= request.ours.len() + request.theirs.len() =>
            {
                0
            }
            _ => plain(request),
        }),
        ("an entry past the list", |request| {
            written(request, |request, count| {
                request.list[count] = [0, 0];
                count as i64
            })
        }),
        ("a mark past the list", |request| {
            written(request, |request, count| {
                request.list_marks[count] = !request.list_marks[count];
                count as i64
            })
        }),
        ("written when refused", |request| {
            let said = plain(request);
            if said < 0 {
                request.list[0] = [0, 0];
            }
            said
        }),
    ];

    fn asked(request: &mut Request, change: impl Fn(u32) -> u32) -> i64 {
        let kind = request.kind;
        request.kind = change(kind);
        let said = plain(request);
        request.kind = kind;
        said
    }

    fn written(request: &mut Request, change: impl Fn(&mut Request, usize) -> i64) -> i64 {
        let said = plain(request);
        match said >= 0 {
            true => change(request, said as usize),
            false => said,
        }
    }

    #[test]
    fn a_plain_join_passes() {
        assert_eq!(command(plain, 1, 3000), (3000, 0));
    }

    #[test]
    fn wrong_joins_are_found() {
        for (name, wrong) in WRONG {
            assert!(command(*wrong, 1, 3000).1 > 0, "{name}");
        }
    }

    #[test]
    fn a_worked_example() {
        let joined = |kind| {
            let (ours, theirs) = (vec![[0, 5], [9, 12]], vec![[5, 7], [10, 14]]);
            let (marks, list, list_marks) = (vec![1, 2], vec![[7; 2]; 4 + GUARD], vec![7; 4 + GUARD]);
            let mut request = Request { kind, n: 14, ours, marks, theirs, list, list_marks };
            let count = plain(&mut request) as usize;
            (request.list[..count].to_vec(), request.list_marks[..count].to_vec())
        };
        assert_eq!(joined(0), (vec![[0, 7], [9, 14]], vec![1, 2]));
        assert_eq!(joined(1), (vec![[10, 12]], vec![2]));
        assert_eq!(joined(2), (vec![[0, 5], [9, 10]], vec![1, 2]));
    }
}
