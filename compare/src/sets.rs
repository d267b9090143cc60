//! Fixed sets of requests: the paper's cases, filled tables, and wide windows.

use crate::genomes;
use crate::port::{difference, Port};
use crate::random::kinds;
use crate::request::{Answer, Gc, Request, Tables, SLICES};
use std::sync::atomic::{AtomicU64, AtomicUsize, Ordering};
use std::sync::Mutex;
use std::thread;

/// Runs both on each named request, two at a time, and prints those that differ, and how many were of which kind.
fn compare_all(port: Port, requests: &[(String, Request)]) -> (u64, u64) {
    let (next, failed, before_first) = (AtomicUsize::new(0), Mutex::new(0), AtomicU64::new(0));
    let work = || loop {
        let Some((name, request)) = requests.get(next.fetch_add(1, Ordering::Relaxed)) else {
            return;
        };
        let (reference, differs) = difference(port, request);
        before_first.fetch_add(reference.before_first as u64, Ordering::Relaxed);
        if let Some(differs) = differs {
            *failed.lock().unwrap() += 1;
            println!("{name}: {differs}");
        }
    };
    thread::scope(|scope| {
        scope.spawn(work);
        scope.spawn(work);
    });
    let failed = failed.into_inner().unwrap();
    println!("{}", kinds(requests.len() as u64, before_first.into_inner()));
    (requests.len() as u64 - failed, failed)
}

/// The paper's cases, each with the answer that the paper and the requests say.
pub fn cases(port: Port) -> (u64, u64) {
    let none: &[(usize, usize)] = &[];
    let runs_of_a: [(usize, &[(usize, usize)]); 10] = [
        (9, none),
        (10, &[(0, 10)]),
        (20, &[(0, 20)]),
        (5000, &[(0, 5000)]),
        (5001, &[(0, 5001)]),
        (5002, &[(0, 5002)]),
        (5003, &[(0, 5003)]),
        (5004, &[(0, 5004)]),
        (5005, &[(0, 5005)]),
        (5006, &[(0, 5006)]),
    ];
    let mut cases = Vec::new();
    for (n, intervals) in runs_of_a {
        for tables in [Tables::Formula, Tables::Own] {
            let request = Request { sequence: vec![b'A'; n], tables, ..Request::default() };
            let marks = vec![3; intervals.len()];
            cases.push((request, Answer::Accepted { in_range: true, intervals: intervals.to_vec(), marks }));
        }
    }
    let many = |n: usize| Request {
        sequence: vec![b'A'; n],
        sizes: [Some(0); SLICES],
        is_virtual: true,
        ..Request::default()
    };
    let mut many_with_200 = many(1 << 31);
    many_with_200.sequence[1 << 30] = 200;
    many_with_200.sequence[0] = b'1';
    let refused = [
        (1, Request { kmer: 13, sequence: vec![200], ..Request::default() }),
        (2, many_with_200),
        (13, Request { kmer: 2, window_size: 2, sequence: b"A1".to_vec(), ..Request::default() }),
        (3, Request { kmer: 2, window_size: 2, sequence: b"AC".to_vec(), ..Request::default() }),
        (10, many(1 << 31)),
        (11, many((1 << 31) - 1)),
    ];
    cases.extend(refused.map(|(number, request)| (request, Answer::Refused(number))));
    // Every byte among letters without a repeat.
    for byte in 0..=255u8 {
        let request = Request { sequence: [b"ACGTTGCAT", &[byte][..]].concat(), ..Request::default() };
        let answer = match byte {
            b'A'..=b'Z' | b'a'..=b'z' | b'-' | b'*' => {
                Answer::Accepted { in_range: true, intervals: vec![], marks: vec![] }
            }
            0..=127 => Answer::Refused(13),
            _ => Answer::Refused(2),
        };
        cases.push((request, answer));
    }

    let (mut failed, mut accepted, mut before_first) = (0, 0, 0);
    for (request, expected) in &cases {
        let (reference, differs) = difference(port, request);
        accepted += matches!(expected, Answer::Accepted { .. }) as u64;
        before_first += reference.before_first as u64;
        if differs.is_some() || reference.answer != *expected {
            failed += 1;
            println!("{request}# the paper: {expected}# original: {}# {differs:?}", reference.answer);
        }
    }
    println!("{}", kinds(accepted, before_first));
    (cases.len() as u64 - failed, failed)
}

/// Filled tables bit by bit, over k, w and GC.
pub fn tables(port: Port) -> (u64, u64) {
    let mut choices = vec![Gc::Uniform, Gc::Auto];
    let values = [0.0, -0.0, 5e-324, 1e-14, 0.1, 0.2, 0.36, 0.41, 0.5, 0.64, 0.9, 0.9999999999999999, 1.0];
    choices.extend(values.map(Gc::Fixed));
    let mut requests = Vec::new();
    for kmer in 1..=12 {
        for (i, &gc) in choices.iter().enumerate() {
            let widest = if i % 4 == 0 { 65535 } else { 8192 };
            for window_size in [kmer + 1, 50, 1000, 5000, widest] {
                let sequence = b"GCNAatGGc-CATTAGA".to_vec();
                let request = Request { kmer, window_size, gc, sequence, ..Request::default() };
                requests.push((format!("k {kmer} w {window_size} {gc:?}"), request));
            }
        }
    }
    compare_all(port, &requests)
}

/// Windows of 65,535 over 200,000 letters with formula and own tables, or all of it smaller.
pub fn large(port: Port, quick: bool) -> (u64, u64) {
    let (w, n) = if quick { (12_000, 30_000) } else { (65_535, 200_000) };
    let sequences = [
        ("all A", vec![b'A'; n]),
        ("period 2", b"AC".repeat(n / 2)),
        ("period 3", b"ACT".repeat(n / 3)),
        ("period 5 with errors", genomes::repeat(1, 5, n, 40)),
        ("satellite 171", genomes::repeat(1, 171, n, 0)),
        ("satellite 171 with errors", genomes::repeat(1, 171, n, 50)),
        ("genome-like", genomes::genome_like(1, n)),
        ("random", genomes::random(1, n)),
    ];
    let mut requests = Vec::new();
    for (name, sequence) in &sequences {
        for tables in [Tables::Formula, Tables::Own] {
            let name = format!("{name}, {tables:?} tables");
            requests.push((name, Request { window_size: w, sequence: sequence.clone(), tables, ..Request::default() }));
        }
    }
    compare_all(port, &requests)
}
