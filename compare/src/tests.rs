//! The comparison itself held to account: the original gives the paper's answers, its variants agree,
//! and wrong ports and wrong originals are found.

use crate::generate;
use crate::original::{self, floats, formulas, handed, reference, unmodified, variant, with_t};
use crate::port::{difference, Buffers, Port, Said};
use crate::random::{run, shrink};
use crate::record;
use crate::request::{Answer, Gc, Request, Tables, SLICES};
use crate::sets;

/// As many requests of seed 1 as compare/run runs.
const RANDOM: u64 = 200_000;
const LONG: u64 = 240;

type Mask = Vec<(usize, usize)>;
/// A wrong original: the mask it gives a request with these tables.
type Wrong = fn(&Request, Vec<f64>, Vec<f64>) -> Mask;

/// Lists them by name.
macro_rules! every {
    ($($name:ident),*) => {
        const WRONG: &[(&str, Wrong)] = &[$((stringify!($name), |request, ln, f| {
            $name::Longdust::process(&with_t(&request.sequence), $name::options(request), ln, f)
        })),*];
    };
}
include!(concat!(env!("OUT_DIR"), "/wrong.rs"));

/// What a request gives where it is accepted: its mask and its tables.
fn accepted(request: &Request) -> Option<(Mask, Vec<f64>, Vec<f64>)> {
    let lent = Buffers::new(request);
    let reference = reference(request, &lent);
    let Answer::Accepted { intervals, .. } = reference.answer else {
        return None;
    };
    let (ln, f) = reference.filled.unwrap_or_else(|| (lent.ln.now.clone(), lent.f.now.clone()));
    let w = request.window_size;
    Some((intervals, floats(&ln[..w + 1]), floats(&f[..w + 2])))
}

/// Wrong originals that none of these requests tells from the right one.
fn not_told<'a>(requests: impl Iterator<Item = Request>) -> Vec<&'a str> {
    let mut left = WRONG.to_vec();
    for request in requests {
        if let Some((mask, ln, f)) = accepted(&request) {
            left.retain(|(_, wrong)| wrong(&request, ln.clone(), f.clone()) == mask);
        }
        if left.is_empty() {
            break;
        }
    }
    left.iter().map(|(name, _)| *name).collect()
}

#[test]
fn random_requests_tell_every_wrong_original() {
    assert_eq!(not_told((0..100_000).map(|number| generate::request(1, number))), [""; 0]);
}

#[test]
fn the_recorded_list_tells_every_wrong_original() {
    assert_eq!(not_told(record::requests().into_iter()), [""; 0]);
}

/// Both kinds are frequent: runs without a find before the first letter, and runs with one.
#[test]
fn random_requests_reach_both_kinds() {
    let summary = run(right, generate::request, 5, 20_000);
    let (accepted, before_first) = (summary.accepted(), summary.before_first);
    assert!(before_first * 20 >= accepted && before_first * 2 <= accepted, "{before_first} of {accepted}");
}

/// Reads the recorded list as its form says.
struct Reader<'a>(&'a [u8]);

impl Reader<'_> {
    fn bytes(&mut self, n: usize) -> &[u8] {
        let (word, rest) = self.0.split_at(n);
        assert!(rest[0] == b' ' || rest[0] == b'\n');
        self.0 = &rest[1..];
        word
    }

    fn word(&mut self) -> &str {
        let n = self.0.iter().position(|b| b" \n".contains(b)).unwrap();
        std::str::from_utf8(self.bytes(n)).unwrap()
    }

    fn number(&mut self) -> usize {
        self.word().parse::<u32>().unwrap() as usize
    }

    fn float(&mut self) -> u64 {
        u64::from_str_radix(&format!("{:0<16}", self.word()), 16).unwrap()
    }

    fn table(&mut self) -> Vec<u64> {
        let runs = self.number();
        let mut table = Vec::new();
        for _ in 0..runs {
            let length = table.len() + self.number();
            table.resize(length, self.float());
        }
        table
    }

    fn request(&mut self) -> Request {
        let mut request = Request { kmer: self.number(), window_size: self.number(), ..Request::default() };
        request.min_start_cnt = self.number() as u16;
        let xdrop_set = self.number() == 1;
        let xdrop = self.number() as u32;
        request.xdrop = xdrop_set.then_some(xdrop);
        request.approx = self.number() == 1;
        request.forward_only = self.number() == 1;
        request.score_threshold = f64::from_bits(self.float());
        let gc_kind = self.number();
        let gc = f64::from_bits(self.float());
        request.gc = [Gc::Uniform, Gc::Fixed(gc), Gc::Auto][gc_kind];
        let short = self.number();
        if self.number() == 1 {
            request.tables = Tables::Given { ln: self.table(), f: self.table() };
        }
        let n = self.number();
        request.sequence = self.bytes(n).iter().map(|&b| if b == b'~' { 200 } else { b }).collect();
        match short {
            0 => {}
            slice if slice > SLICES => request.sizes = [Some(0); SLICES],
            slice => request.sizes[slice - 1] = Some(request.listed()[slice - 1] - 1),
        }
        request
    }

    fn answer(&mut self) -> Answer {
        match self.number() {
            0 => {
                let (in_range, count) = (self.number() == 1, self.number());
                let marked: Vec<_> = (0..count).map(|_| (self.number(), self.number(), self.number() as u8)).collect();
                let intervals = marked.iter().map(|&(start, end, _)| (start, end)).collect();
                Answer::Accepted { in_range, intervals, marks: marked.iter().map(|&(.., mark)| mark).collect() }
            }
            number => Answer::Refused(number as u32),
        }
    }
}

#[test]
fn the_recorded_list_reads_back() {
    let list = record::list();
    let mut reader = Reader(list.as_bytes());
    let mut numbers = [0; 14];
    for _ in 0..reader.number() {
        let request = reader.request();
        let answer = reader.answer();
        assert_eq!(reference(&request, &Buffers::new(&request)).answer, answer, "{request}");
        match answer {
            Answer::Refused(number) => numbers[number as usize] += 1,
            Answer::Accepted { .. } => {
                assert!(request.kmer <= 6 && request.window_size <= 64 && request.sequence.len() <= 200);
                numbers[0] += 1;
            }
        }
    }
    assert!(reader.0.is_empty());
    assert_eq!(numbers, [238, 3, 3, 3, 3, 3, 3, 3, 3, 3, 0, 12, 0, 3]);
}

/// Prints the first part of told.txt anew: for each wrong original a small request that tells it.
#[test]
#[ignore]
fn print_told() {
    for (name, wrong) in WRONG {
        let tells = |request: &Request| {
            accepted(request).is_some_and(|(mask, ln, f)| request.kmer <= 6 && wrong(request, ln, f) != mask)
        };
        let told = (0..).map(|number| generate::request(1, number)).find(tells).unwrap();
        println!("# {name}\n{}", shrink(told, tells));
    }
}

#[test]
fn own_tables_handed_in_give_the_unmodified_answer() {
    for number in 0..20_000 {
        let mut request = generate::request(2, number);
        request.tables = Tables::Own;
        request.sizes = [None; SLICES];
        if original::refusal_before_sizes(&request).is_some() || request.kmer > 8 {
            continue;
        }
        let letters = with_t(&request.sequence);
        let (ln, f) = unmodified::tables(&request);
        let given = handed::Longdust::process(&letters, handed::options(&request), floats(&ln), floats(&f));
        assert_eq!(given, unmodified::Longdust::process(&letters, unmodified::options(&request)), "{request}");
        let (ln, f) = formulas::tables(&request);
        let given = handed::Longdust::process(&letters, handed::options(&request), floats(&ln), floats(&f));
        assert_eq!(given, formulas::Longdust::process(&letters, formulas::options(&request)), "{request}");
    }
}

/// The formulas' tables are the library's but for rounding.
#[test]
fn formula_tables_are_near_the_unmodified_ones() {
    for kmer in 1..=12 {
        for gc in [Gc::Uniform, Gc::Fixed(0.0), Gc::Fixed(0.1), Gc::Fixed(0.41), Gc::Fixed(0.999), Gc::Fixed(1.0)] {
            let request = Request { kmer, gc, window_size: 9000, ..Request::default() };
            let (own, formula) = (unmodified::tables(&request), formulas::tables(&request));
            for (own, formula) in [(own.0, formula.0), (own.1, formula.1)] {
                for (i, (own, formula)) in floats(&own).into_iter().zip(floats(&formula)).enumerate() {
                    let near = own == formula || (own - formula).abs() <= 2e-14 * own.abs().max(1e-9);
                    assert!(near, "k {kmer} {gc:?} entry {i}: {own} {formula}");
                }
            }
        }
    }
}

/// A port that answers as the original does, and leaves other garbage where it may.
fn right(request: &Request, lent: &mut Buffers) -> Said {
    let reference = reference(request, lent);
    let Answer::Accepted { in_range, intervals, marks } = reference.answer else {
        let Answer::Refused(number) = reference.answer else { unreachable!() };
        return (-(number as i64), 0);
    };
    if let Some((ln, f)) = reference.filled {
        lent.ln.now[..ln.len()].copy_from_slice(&ln);
        lent.f.now[..f.len()].copy_from_slice(&f);
    }
    let listed = request.listed();
    lent.queue.now[..listed[2]].fill(7);
    lent.scan_counts.now[..listed[4]].fill(7);
    lent.lists[0].now[..listed[8]].fill([7, 7]);
    for (row, (interval, mark)) in intervals.iter().zip(marks).enumerate() {
        lent.put(row, *interval);
        lent.marks.now[row] = mark;
    }
    (intervals.len() as i64, in_range as u32)
}

#[test]
fn the_original_gives_the_paper_s_cases() {
    assert_eq!(sets::cases(right).1, 0);
}

#[test]
fn a_right_port_passes() {
    let summary = run(right, generate::request, 3, 20_000);
    assert_eq!((summary.passed, summary.failed), (20_000, vec![]));
}

#[test]
fn a_wrong_port_is_found_and_the_request_made_small() {
    let wrong: [Port; 14] = [
        |r, lent| (right(r, lent).0, 1),
        |r, lent| (right(r, lent).0.max(-10), 0),
        |r, lent| (right(r, lent).0 + 1, 1),
        |r, lent| {
            let result = right(r, lent);
            lent.codes.now[lent.codes.length] ^= 1;
            result
        },
        |r, lent| {
            let result = right(r, lent);
            lent.put(result.0.max(0) as usize, (1, 2));
            result
        },
        |r, lent| {
            let result = right(r, lent);
            lent.marks.now[result.0.max(0) as usize] ^= 1;
            result
        },
        |r, lent| {
            let result = right(r, lent);
            let count = result.0.max(0) as usize;
            lent.marks.now[..count].fill(3);
            result
        },
        |r, lent| {
            let result = right(r, lent);
            let count = result.0.max(0) as usize;
            lent.marks.now[..count].iter_mut().for_each(|mark| *mark = [0, 2, 1, 3][*mark as usize]);
            result
        },
        |r, lent| {
            let result = right(r, lent);
            let count = result.0.max(0) as usize;
            lent.marks.now[..count].iter_mut().filter(|mark| **mark == 3).for_each(|mark| *mark = 1);
            result
        },
        |r, lent| {
            let result = right(r, lent);
            if result.0 < 0 {
                lent.queue.now[0] ^= 1
            };
            result
        },
        |r, lent| {
            let result = right(r, lent);
            lent.f.now[1] ^= 1;
            result
        },
        |r, lent| {
            let result = right(r, lent);
            lent.sequence.iter_mut().for_each(|letter| letter.make_ascii_uppercase());
            result
        },
        |r, lent| {
            let no_u = |&b: &u8| if b"Uu".contains(&b) { b'N' } else { b };
            right(&Request { sequence: r.sequence.iter().map(no_u).collect(), ..r.clone() }, lent)
        },
        |r, lent| {
            if r.sequence.windows(3).any(|three| three == b"CAT") && r.forward_only {
                (0, 0)
            } else {
                right(r, lent)
            }
        },
    ];
    for (i, port) in wrong.into_iter().enumerate() {
        let failed = run(port, generate::request, 4, 2000).failed;
        assert!(!failed.is_empty(), "wrong port {i}");
        let request = shrink(generate::request(4, failed[0]), |request| difference(port, request).1.is_some());
        assert!(request.sequence.len() <= 20, "{request}");
        let again = Request::parse(request.to_string().as_bytes()).unwrap();
        assert!(difference(port, &again).1.is_some(), "{request}");
    }
}

/// Where a port may be wrong and right everywhere else.
type There = fn(&Request) -> bool;

const THERE: &[(&str, There)] = &[
    ("k 11, more than 60 letters", |r| r.kmer == 11 && r.sequence.len() > 60),
    ("more than 4,000 letters, one strand", |r| r.sequence.len() > 4000 && r.forward_only),
    ("more than 4,000 letters, approx", |r| r.sequence.len() > 4000 && r.approx),
    ("more than 65,536 letters, GC auto", |r| {
        r.sequence.len() > 65536 && r.gc == Gc::Auto && r.tables == Tables::Formula
    }),
    ("more than 65,536 letters, GC fixed", |r| {
        r.sequence.len() > 65536 && matches!(r.gc, Gc::Fixed(_)) && r.tables == Tables::Formula
    }),
    ("more than 65,536 letters, one strand", |r| r.sequence.len() > 65536 && r.forward_only),
    ("more than 65,536 letters, approx", |r| r.sequence.len() > 65536 && r.approx),
    ("131,072 letters or more, formula tables", |r| r.sequence.len() >= 131072 && r.tables == Tables::Formula),
    ("131,072 letters or more, own tables", |r| r.sequence.len() >= 131072 && r.tables == Tables::Own),
    ("131,072 letters or more, given tables", |r| {
        r.sequence.len() >= 131072 && matches!(r.tables, Tables::Given { .. })
    }),
    ("more than 4,000 letters, a U among them", |r| r.sequence.len() > 4000 && r.sequence.contains(&b'U')),
    ("xdrop of 6 to 49", |r| r.xdrop.is_some_and(|length| (6..50).contains(&length))),
    ("xdrop above 50", |r| r.xdrop.is_some_and(|length| (51..u32::MAX).contains(&length))),
    ("min_start_cnt above 6", |r| r.min_start_cnt > 6),
    ("a wide window that gets full, small k", |r| {
        r.window_size > 40000 && r.sequence.len() > r.window_size && r.kmer < 7
    }),
];

/// Where a port may be wrong at any one k.
const THERE_FOR_K: &[(&str, There)] = &[
    ("more than 4,000 letters", |r| r.sequence.len() > 4000),
    ("more than 65,536 letters", |r| r.sequence.len() > 65536),
    ("a window of more than 40,000", |r| r.window_size > 40000),
];

/// A port that drops the last interval there is told by these requests, or by random ones.
fn assert_told(long: &[Request], name: &str, there: impl Fn(&Request) -> bool) {
    let drops_the_last = |request: &Request, lent: &mut Buffers| {
        let (count, in_range) = right(request, lent);
        (count - (count > 0 && there(request)) as i64, in_range)
    };
    let tells = |request: &Request| there(request) && difference(drops_the_last, request).1.is_some();
    let told = long.iter().rev().any(tells) || (0..RANDOM).any(|number| tells(&generate::request(1, number)));
    assert!(told, "{name}");
}

#[test]
fn a_port_that_is_wrong_only_there_is_found() {
    let long: Vec<_> = (0..LONG).map(|number| generate::long(1, number)).collect();
    for (name, there) in THERE {
        assert_told(&long, name, there);
    }
    for (name, there) in THERE_FOR_K {
        for k in 1..=12 {
            assert_told(&long, &format!("k {k}, {name}"), |request| request.kmer == k && there(request));
        }
    }
}
