//! Both sides on random requests, with a summary, and a small request for each of the first differences.

use crate::original::Reference;
use crate::port::{difference, Port};
use crate::request::{Answer, Request, Tables};
use std::sync::atomic::{AtomicU64, Ordering};
use std::thread;
use std::time::{Duration, Instant};

/// How many differing requests are printed.
const SHOWN: usize = 3;
/// How many smaller requests are tried for each, and for how long.
const TRIES: usize = 3000;
const LONGEST: Duration = Duration::from_secs(20);

#[derive(Default)]
pub struct Summary {
    pub passed: u64,
    /// Numbers of the requests that differ.
    pub failed: Vec<u64>,
    refused: [u64; 14],
    masked: u64,
    unmasked: u64,
    in_range: u64,
    /// Intervals with the forward mark alone, the reverse mark alone, and both.
    pub marks: [u64; 4],
    /// Accepted, and a find began before the first letter.
    pub before_first: u64,
    /// Accepted with formula, own and given tables.
    tables: [u64; 3],
    /// Accepted for each k.
    kmers: [u64; 13],
}

impl Summary {
    fn add(&mut self, request: &Request, reference: &Reference) {
        let (in_range, intervals, marks) = match &reference.answer {
            Answer::Refused(number) => return self.refused[*number as usize] += 1,
            Answer::Accepted { in_range, intervals, marks } => (in_range, intervals, marks),
        };
        marks.iter().for_each(|mark| self.marks[*mark as usize] += 1);
        self.unmasked += intervals.is_empty() as u64;
        self.masked += !intervals.is_empty() as u64;
        self.in_range += *in_range as u64;
        self.before_first += reference.before_first as u64;
        self.kmers[request.kmer] += 1;
        self.tables[match request.tables {
            Tables::Formula => 0,
            Tables::Own => 1,
            Tables::Given { .. } => 2,
        }] += 1;
    }

    fn join(mut self, other: Summary) -> Summary {
        let add = |ours: &mut [u64], theirs: &[u64]| ours.iter_mut().zip(theirs).for_each(|(a, b)| *a += b);
        add(&mut self.refused, &other.refused);
        add(&mut self.tables, &other.tables);
        add(&mut self.kmers, &other.kmers);
        add(&mut self.marks, &other.marks);
        self.passed += other.passed;
        self.masked += other.masked;
        self.unmasked += other.unmasked;
        self.in_range += other.in_range;
        self.before_first += other.before_first;
        self.failed.extend(other.failed);
        self
    }

    pub fn accepted(&self) -> u64 {
        self.masked + self.unmasked
    }

    pub fn print(&self) {
        let list = |counts: &[u64]| {
            let each = (1..).zip(&counts[1..]).map(|(number, count)| format!(" {number}: {count}"));
            each.collect::<String>()
        };
        println!("accepted {}, masked {}, flag yes {}", self.accepted(), self.masked, self.in_range);
        println!("{}", kinds(self.accepted(), self.before_first));
        let [_, forward, reverse, both] = self.marks;
        println!("intervals marked forward {forward}, reverse {reverse}, both {both}");
        println!("accepted by tables, formula {}, own {}, given {}", self.tables[0], self.tables[1], self.tables[2]);
        println!("accepted by k{}", list(&self.kmers));
        println!("refused by number{}", list(&self.refused));
    }
}

/// How many accepted requests were held against the original as it stands, and how many against it with starts raised.
pub fn kinds(accepted: u64, before_first: u64) -> String {
    let as_it_stands = accepted - before_first;
    format!("held against the original as it stands {as_it_stands}, with starts raised to 0 {before_first}")
}

/// The request of this number in the list of a seed.
type List = fn(u64, u64) -> Request;

/// The requests of a seed, shared out to all processors.
pub fn run(port: Port, list: List, seed: u64, count: u64) -> Summary {
    let next = AtomicU64::new(0);
    let work = || {
        let mut summary = Summary::default();
        loop {
            let number = next.fetch_add(1, Ordering::Relaxed);
            if number >= count {
                return summary;
            }
            let request = list(seed, number);
            let (reference, differs) = difference(port, &request);
            summary.add(&request, &reference);
            match differs {
                None => summary.passed += 1,
                Some(_) => summary.failed.push(number),
            }
        }
    };
    thread::scope(|scope| {
        let workers = thread::available_parallelism().map_or(1, |n| n.get());
        let threads: Vec<_> = (0..workers).map(|_| scope.spawn(work)).collect();
        let summaries = threads.into_iter().map(|thread| thread.join().unwrap());
        let mut summary = summaries.fold(Summary::default(), Summary::join);
        summary.failed.sort();
        summary
    })
}

/// The `random` and the `long` command.
pub fn command(port: Port, list: List, seed: u64, count: u64) -> (u64, u64) {
    let summary = run(port, list, seed, count);
    for &number in summary.failed.iter().take(SHOWN) {
        let request = shrink(list(seed, number), |request| difference(port, request).1.is_some());
        let differs = difference(port, &request).1.unwrap_or_default();
        println!(
            "# request {number} of seed {seed}, made smaller\n{request}# {}\n",
            differs.trim().replace('\n', "\n# ")
        );
    }
    summary.print();
    (summary.passed, summary.failed.len() as u64)
}

/// A smaller request that still fails.
pub fn shrink(mut request: Request, fails: impl Fn(&Request) -> bool) -> Request {
    let (mut tries, start) = (0, Instant::now());
    loop {
        let smaller = simpler(&request).into_iter().find(|simpler| {
            tries += 1;
            tries <= TRIES && start.elapsed() < LONGEST && fails(simpler)
        });
        match smaller {
            Some(simpler) => request = simpler,
            None => return request,
        }
    }
}

/// Requests that are simpler in one respect, the largest steps first.
fn simpler(request: &Request) -> Vec<Request> {
    let mut all = Vec::new();
    let mut with = |change: &dyn Fn(&mut Request)| {
        let mut simpler = request.clone();
        change(&mut simpler);
        // As text, since a threshold may be no number.
        if simpler.to_string() != request.to_string() {
            all.push(simpler);
        }
    };
    let plain = Request::default();
    with(&|r| r.sizes = plain.sizes);
    let n = request.sequence.len();
    let mut part = n;
    while part > 0 {
        for start in (0..n).step_by(part) {
            with(&|r| drop(r.sequence.drain(start..n.min(start + part))));
        }
        part /= 2;
    }
    with(&|r| r.sequence.make_ascii_uppercase());
    with(&|r| r.yes = plain.yes);
    with(&|r| r.garbage = plain.garbage);
    with(&|r| r.approx = false);
    with(&|r| r.forward_only = true);
    with(&|r| r.xdrop = plain.xdrop);
    with(&|r| r.min_start_cnt = plain.min_start_cnt);
    with(&|r| r.gc = plain.gc);
    with(&|r| r.score_threshold = plain.score_threshold);
    with(&|r| r.tables = Tables::Formula);
    for w in [request.kmer + 1, request.window_size / 2, request.window_size.wrapping_sub(1)] {
        with(&|r| narrow(r, w));
    }
    if let Tables::Given { ln, f } = &request.tables {
        with(&|r| {
            retable(r, |ln, f| [ln, f].into_iter().flat_map(|table| table.first_mut()).for_each(|entry| *entry = 0))
        });
        with(&|r| retable(r, |_, f| f.fill(0)));
        for i in 0..ln.len().min(200) {
            with(&|r| retable(r, |ln, _| ln[i] = ln[i.saturating_sub(1)]));
        }
        for i in 0..f.len().min(200) {
            with(&|r| retable(r, |_, f| f[i] = f[i.saturating_sub(1)]));
        }
    }
    all
}

/// A smaller window, with given tables cut to it.
fn narrow(request: &mut Request, w: usize) {
    if w >= request.window_size {
        return;
    }
    request.window_size = w;
    retable(request, |ln, f| {
        ln.truncate(w + 1);
        f.truncate(w + 2);
    });
}

/// Changes given tables; others stay.
fn retable(request: &mut Request, change: impl Fn(&mut Vec<u64>, &mut Vec<u64>)) {
    if let Tables::Given { ln, f } = &mut request.tables {
        change(ln, f);
    }
}
