//! Letters per second of both on the same synthetic genomes, as ratios.

use crate::genomes;
use crate::original::{self, floats, formulas, handed, handed_raised, masked, Masked};
use crate::port::{Buffers, Port};
use crate::request::{Answer, Request, Tables};
use std::cell::Cell;

/// A synthetic genome of this seed and number of letters.
type Genome = fn(u64, usize) -> Vec<u8>;

const GENOMES: [(&str, Genome); 3] =
    [("genome-like", genomes::genome_like), ("repeat-heavy", genomes::repeat_heavy), ("random", genomes::random)];

/// One k of the table: letters of each genome in a quick and in a whole run, and the ratios to reach.
struct Row {
    kmer: usize,
    quick: [usize; 3],
    whole: [usize; 3],
    aims: [f64; 3],
}

/// The original clears 4^k counts for each scan, so a larger k gets fewer letters.
const ROWS: [Row; 3] = [
    Row { kmer: 7, quick: [300_000, 40_000, 2_000_000], whole: [2_000_000, 300_000, 8_000_000], aims: [2.2, 1.8, 1.0] },
    Row { kmer: 10, quick: [60_000, 8000, 2_000_000], whole: [400_000, 50_000, 8_000_000], aims: [6.0, 5.0, 1.0] },
    Row { kmer: 12, quick: [8000, 1200, 2_000_000], whole: [40_000, 3000, 8_000_000], aims: [50.0, 30.0, 1.0] },
];

#[repr(C)]
struct Timespec {
    seconds: i64,
    nanoseconds: i64,
}

extern "C" {
    fn clock_gettime(clock: i32, time: *mut Timespec) -> i32;
}

/// How long this thread has had a processor, so that other programs of the machine count little.
pub fn processor_seconds() -> f64 {
    const CLOCK_THREAD_CPUTIME_ID: i32 = 3;
    let mut time = Timespec { seconds: 0, nanoseconds: 0 };
    // SAFETY: the pointer is to a live record of the C library's form on 64-bit Linux.
    let failed = unsafe { clock_gettime(CLOCK_THREAD_CPUTIME_ID, &mut time) };
    assert_eq!(failed, 0, "the thread's clock");
    time.seconds as f64 + time.nanoseconds as f64 * 1e-9
}

/// Both on the same request, one after the other.
pub struct Turn {
    pub original_seconds: f64,
    pub port_seconds: f64,
    /// The original's mask.
    pub mask: Vec<(usize, usize)>,
    /// Whether a find began before the first letter, so that starts were raised to 0.
    pub before_first: bool,
    pub same: bool,
}

/// A turn on a request that hands tables in; the buffers and the marks may be left from the turn before.
pub fn turn(port: Port, request: &Request, buffers: &mut Buffers, marks: &mut Option<Vec<u8>>) -> Turn {
    let Tables::Given { ln, f } = &request.tables else { unreachable!("a turn hands tables in") };
    let (ln, f) = (floats(ln), floats(f));
    let original_seconds = Cell::new(0.0);
    let as_it_stands = || {
        let (ln, f) = (ln.clone(), f.clone());
        let start = processor_seconds();
        let mask = handed::Longdust::process(&request.sequence, handed::options(request), ln, f);
        original_seconds.set(processor_seconds() - start);
        mask
    };
    let raised =
        || handed_raised::Longdust::process(&request.sequence, handed_raised::options(request), ln.clone(), f.clone());
    let Masked { intervals: mask, before_first } = masked(as_it_stands, raised);
    let start = processor_seconds();
    let said = port(request, buffers);
    let port_seconds = processor_seconds() - start;
    let marks = marks.get_or_insert_with(|| original::marks(request, &ln, &f, &mask));
    let expected = Answer::Accepted { in_range: true, intervals: mask.clone(), marks: marks.clone() };
    let same = buffers.answer(said) == Ok(expected);
    Turn { original_seconds: original_seconds.into_inner(), port_seconds, mask, before_first, same }
}

/// Median seconds of both on the same request, turns taken.
fn turns(port: Port, request: &Request, turns: usize) -> (f64, f64) {
    let (mut buffers, mut marks) = (Buffers::new(request), None);
    let (mut original, mut ported) = (Vec::new(), Vec::new());
    for _ in 0..turns {
        let turn = turn(port, request, &mut buffers, &mut marks);
        assert!(turn.same, "both give the same mask");
        original.push(turn.original_seconds);
        ported.push(turn.port_seconds);
    }
    (median(original), median(ported))
}

pub fn median(mut seconds: Vec<f64>) -> f64 {
    seconds.sort_by(f64::total_cmp);
    seconds[seconds.len() / 2]
}

/// The usual options but for k, and the formulas' tables.
pub fn request(kmer: usize, sequence: Vec<u8>) -> Request {
    let request = Request { kmer, sequence, ..Request::default() };
    let (ln, f) = formulas::tables(&request);
    Request { tables: Tables::Given { ln, f }, ..request }
}

/// The `bench` command.
pub fn command(port: Port, quick: bool) {
    let times = if quick { 3 } else { 5 };
    println!("two strands, w 5000, other options the defaults, formula tables lent to both, one thread");
    println!("{times} turns each, original then port, medians of processor time");
    println!("buffers: the port's are lent as its turn before left them, the original allocates its own in its turn");
    println!("\n k  genome        letters   original/s       port/s   ratio  to reach");
    for Row { kmer, quick: few, whole, aims } in ROWS {
        for (i, (name, genome)) in GENOMES.into_iter().enumerate() {
            let n = if quick { few[i] } else { whole[i] };
            let (original, ported) = turns(port, &request(kmer, genome(1, n)), times);
            let speed = |seconds: f64| n as f64 / seconds;
            let (theirs, ours, ratio) = (speed(original), speed(ported), original / ported);
            println!("{kmer:2}  {name:12} {n:8} {theirs:12.0} {ours:12.0} {ratio:7.2} {:9.1}", aims[i]);
        }
    }
    println!("\ngrowth, k 7, genome-like\n letters   original s    port s   port ns a letter");
    let genome = genomes::genome_like(2, if quick { 800_000 } else { 8_000_000 });
    for n in [8, 4, 2, 1].map(|part| genome.len() / part) {
        let (original, ported) = turns(port, &request(7, genome[..n].to_vec()), 3);
        println!("{n:8} {original:12.3} {ported:9.3} {:18.1}", ported / n as f64 * 1e9);
    }
}
