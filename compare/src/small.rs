//! The small profile: the port against the original and against the filling call, on random requests, and how many
//! probes it masks a second.

use crate::bench::processor_seconds;
use crate::generate::{self, letters, tandem, Rng};
use crate::port::{self, Buffers};
use crate::request::{Answer, Gc, Tables, SLICES};
use crate::{original, request};

/// Bytes that stand behind the output and are no part of it.
pub const GUARD: usize = 16;
/// How many differing requests are printed.
const SHOWN: usize = 3;
const MOST_KMER: usize = 6;
const MOST: usize = 4096;

/// A request with GC uniform, and the output that is lent for it, with its guard.
#[derive(Clone, Debug)]
pub struct Request {
    pub options: request::Request,
    pub out: Vec<u8>,
}

/// Something that answers as the C interface does: the number of intervals, or minus a refusal.
pub type Port = fn(&mut Request) -> i64;

/// How many bytes a request must be lent.
fn listed(options: &request::Request) -> usize {
    8 * ((options.sequence.len() as u128 + 1) / (options.kmer as u128 + 1)) as usize
}

/// The intervals that the profile must write, or the refusal's number.
fn wanted(request: &Request) -> Result<Vec<(usize, usize)>, u32> {
    let options = &request.options;
    let outside = options.kmer > MOST_KMER || options.window_size > MOST || options.sequence.len() > MOST;
    if let Some(number) = original::refusal_before_sizes(options) {
        return Err(number);
    }
    if outside {
        return Err(21);
    }
    if request.out.len() - GUARD < listed(options) {
        return Err(11);
    }
    match original::reference(options, &Buffers::new(options)).answer {
        Answer::Accepted { intervals, .. } => Ok(intervals),
        Answer::Refused(number) => Err(number),
    }
}

/// What the filling call says of the same request.
fn filled(filling: port::Port, options: &request::Request) -> Result<Vec<(usize, usize)>, String> {
    let mut buffers = Buffers::new(options);
    let said = filling(options, &mut buffers);
    match buffers.answer(said)? {
        Answer::Accepted { intervals, .. } => Ok(intervals),
        refused => Err(refused.to_string()),
    }
}

/// The request of this number in the list of a seed: most inside the profile, its bounds and one past each met often.
fn request(seed: u64, number: u64) -> Request {
    let rng = &mut Rng::new(seed ^ 0x51a1, number);
    let mut options = generate::request(seed, number);
    options.tables = Tables::Formula;
    options.gc = Gc::Uniform;
    options.sizes = [None; SLICES];
    if options.kmer > MOST_KMER && !rng.one_in(10) {
        options.kmer = 1 + rng.below(MOST_KMER);
    }
    match rng.below(1000) {
        0 => {
            let (n, period) = (rng.pick(&[MOST - 1, MOST, MOST, MOST + 1]), 1 + rng.below(9));
            let unit = letters(rng, period, b"ACGT");
            options.sequence = tandem(rng, &unit, n, 9);
        }
        1..=20 => options.window_size = rng.pick(&[MOST - 1, MOST, MOST + 1, 65535, 65536]),
        21..=60 => options.kmer = rng.pick(&[0, MOST_KMER, MOST_KMER, MOST_KMER + 1, 12, 13, usize::MAX]),
        _ => {}
    }
    let room = match rng.below(8) {
        0 => listed(&options).saturating_sub(1 + rng.below(9)),
        1 => listed(&options) + rng.below(40),
        2 => rng.below(listed(&options) + 1),
        _ => listed(&options),
    };
    Request { options, out: (0..room + GUARD).map(|_| rng.next() as u8).collect() }
}

/// How far a run needs the tables: up to w, up to n since that decides max_test, or up to w though n is less.
fn need(options: &request::Request) -> usize {
    let n = options.sequence.len();
    if options.window_size <= n {
        return 0;
    }
    let (ln, f) = original::formulas::tables(options);
    let mut sum = 0.0;
    let decided = (1..=n).any(|i| {
        sum += f64::from_bits(ln[i]) - options.score_threshold;
        sum - f64::from_bits(f[i]) > 0.0
    });
    if decided { 1 } else { 2 }
}

/// The `small` command: every answer, the whole output, and the filling call's intervals.
pub fn command(port: Port, filling: port::Port, seed: u64, count: u64) -> (u64, u64) {
    let (mut accepted, mut intervals, mut needs, mut refused, mut failed) = (0, 0, [[0; 2]; 3], [0; 32], 0);
    for number in 0..count {
        let request = request(seed, number);
        let mut ours = request.clone();
        let said = port(&mut ours);
        let mut right = request.clone();
        let mut wrong = None;
        let right_said = match wanted(&request) {
            Ok(mask) => {
                accepted += 1;
                intervals += mask.len();
                needs[need(&request.options)][mask.is_empty() as usize] += 1;
                let bytes = mask.iter().flat_map(|&(start, end)| [start as u32, end as u32]).flat_map(u32::to_le_bytes);
                right.out.iter_mut().zip(bytes).for_each(|(byte, new)| *byte = new);
                if filled(filling, &request.options).as_ref() != Ok(&mask) {
                    wrong = Some("the filling call has other intervals".to_string());
                }
                mask.len() as i64
            }
            Err(number) => {
                refused[number as usize] += 1;
                -(number as i64)
            }
        };
        if (said, &ours.out, &ours.options.sequence) != (right_said, &right.out, &right.options.sequence) {
            wrong = Some(format!("said {said}, not {right_said}; {:?}, not {:?}", ours.out, right.out));
        }
        if let Some(wrong) = wrong {
            failed += 1;
            if failed <= SHOWN as u64 {
                println!("request {number} of seed {seed}: {request:?}\n{wrong}");
            }
        }
    }
    println!("accepted {accepted} with {intervals} intervals, by how far a run needs the tables (with intervals, without):");
    for (way, [some, none]) in ["up to w, n not less", "up to n", "up to w, n less"].iter().zip(needs) {
        println!("  {way}: {some}, {none}");
    }
    println!("refused by number:");
    for (number, times) in refused.iter().enumerate().filter(|(_, &times)| times > 0) {
        println!("  {number}: {times}");
    }
    (count - failed, failed)
}

/// Probes as a panel designer has them: random letters, every tenth with a repeat.
fn probe(number: usize, n: usize) -> Vec<u8> {
    let rng = &mut Rng::new(200, number as u64);
    let mut probe = letters(rng, n, b"ACGT");
    if number % 10 == 0 {
        let unit = letters(rng, 3, b"ACGT");
        let repeat = tandem(rng, &unit, n / 4, 0);
        probe[n / 2..n / 2 + n / 4].copy_from_slice(&repeat);
    }
    probe
}

/// Calls a second of processor time for probes of 200 letters at k = 6, over windows: the profile, also on probes that all have a repeat,
/// the filling call on lent buffers, and the call on tables that were filled before.
pub fn bench(port: Port, filling: port::Port) {
    const TURNS: usize = 5;
    const SMALL_CALLS: usize = 10_000;
    println!("w\tprofile\tall with a repeat\tfilling call\tfilled tables   (calls a second of processor time, medians of {TURNS} turns)");
    let probes: Vec<_> = (0..100).map(|number| probe(number, 200)).collect();
    let repeats: Vec<_> = (0..100).map(|number| probe(10 * number, 200)).collect();
    for window_size in [50, 200, 500, 1000, 4096] {
        let options = |tables| request::Request { kmer: MOST_KMER, window_size, tables, ..request::Request::default() };
        let calls = 20_000_000 / (2000 + 40 * window_size);
        let (ln, f) = original::formulas::tables(&options(Tables::Formula));
        let mut rates = [const { Vec::new() }; 4];
        for _ in 0..TURNS {
            let mut small = Request { options: options(Tables::Formula), out: vec![0; 8 * 28 + GUARD] };
            for (rate, probes) in [(0, &probes), (1, &repeats)] {
                let start = processor_seconds();
                for call in 0..SMALL_CALLS {
                    small.options.sequence.clone_from(&probes[call % probes.len()]);
                    assert!(port(&mut small) >= 0);
                }
                rates[rate].push(SMALL_CALLS as f64 / (processor_seconds() - start));
            }
            let given = Tables::Given { ln: ln.clone(), f: f.clone() };
            for (rate, tables) in [(2, Tables::Formula), (3, given)] {
                let request = request::Request { sequence: probes[0].clone(), ..options(tables) };
                let mut buffers = Buffers::new(&request);
                let start = processor_seconds();
                for call in 0..calls {
                    buffers.sequence.clone_from(&probes[call % probes.len()]);
                    assert!(filling(&request, &mut buffers).0 >= 0);
                }
                rates[rate].push(calls as f64 / (processor_seconds() - start));
            }
        }
        let median = |rates: &mut Vec<f64>| {
            rates.sort_by(f64::total_cmp);
            rates[rates.len() / 2]
        };
        let [profile, repeats, filling, tables] = rates.each_mut().map(median);
        println!("{window_size}\t{profile:.0}\t{repeats:.0}\t{filling:.0}\t{tables:.0}");
    }
}
