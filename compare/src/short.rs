//! All short sequences: the table by the original, and the port's call held against it.

use crate::original;
use crate::port::Buffers;
use crate::request::{Answer, Request};

/// Numbers that stand behind the lent buffer and are no part of it.
const GUARD: usize = 4;
const LETTERS: &[u8; 5] = b"ACGTN";
const MOST: usize = 8;

/// What the C interface is lent and answers: m, the tallies and their number, how many are refused; the result.
pub type Port = fn(usize, &mut [u32], usize, &mut u32) -> i64;

/// The tallies of all sequences of a size, and how many are refused.
struct Tallied {
    tallies: Vec<u32>,
    refused: u32,
}

/// The next sequence, the last letter fastest; none after the last.
fn next(digits: &mut [usize]) -> bool {
    for digit in digits.iter_mut().rev() {
        *digit += 1;
        if *digit < LETTERS.len() {
            return true;
        }
        *digit = 0;
    }
    false
}

fn tally(m: usize) -> Tallied {
    let mut tallied = Tallied { tallies: vec![0; m + 1], refused: 0 };
    let mut digits = vec![0; m];
    loop {
        let sequence = digits.iter().map(|&digit| LETTERS[digit]).collect();
        let request = Request { kmer: 1, window_size: 8, sequence, ..Request::default() };
        match original::reference(&request, &Buffers::new(&request)).answer {
            Answer::Refused(3) => tallied.refused += 1,
            Answer::Accepted { intervals, .. } => {
                let masked: usize = intervals.iter().map(|(start, end)| end - start).sum();
                tallied.tallies[masked] += 1;
            }
            other => panic!("{other}: {request:?}"),
        }
        if !next(&mut digits) {
            return tallied;
        }
    }
}

/// For m = 1 to 8 a line: m, refused, and a number for each of 0..m.
pub fn table() -> String {
    let line = |m: usize| {
        let Tallied { tallies, refused } = tally(m);
        let columns: Vec<String> = tallies.iter().map(u32::to_string).collect();
        format!("{m}\t{refused}\t{}\n", columns.join("\t"))
    };
    (1..=MOST).map(line).collect()
}

/// The `short port` command: every size and sizes past the bounds, with buffers that are too short, as listed, and longer.
pub fn command(port: Port) -> (u64, u64) {
    let (mut passed, mut failed) = (0, 0);
    let wanted: Vec<Tallied> = (1..=MOST).map(tally).collect();
    let beyond = [9, 10, 255, 256, 65536, 1 << 32, usize::MAX - 1, usize::MAX];
    for m in (0..=MOST).chain(beyond) {
        let lengths = [0, 1, m.wrapping_sub(1), m, m.wrapping_add(1), m.wrapping_add(2), 9, 12];
        for length in lengths.map(|length| length.min(20)) {
            let before: Vec<u32> = (0..(length + GUARD) as u32).map(|i| 0xdead_0000 + i).collect();
            let (mut right, mut right_refused) = (before.clone(), 0);
            let right_said = match m {
                1..=MOST if length > m => {
                    right[..=m].copy_from_slice(&wanted[m - 1].tallies);
                    right_refused = wanted[m - 1].refused;
                    5i64.pow(m as u32)
                }
                1..=MOST => -11,
                _ => -22,
            };
            let (mut now, mut refused) = (before.clone(), 0xdead);
            let said = port(m, &mut now, length, &mut refused);
            if (said, refused, &now) == (right_said, right_refused, &right) {
                passed += 1;
            } else {
                failed += 1;
                println!("m {m}, {length} entries: said {said}, refused {refused}, {now:?}; not {right_said}, {right_refused}, {right:?}");
            }
        }
    }
    (passed, failed)
}
