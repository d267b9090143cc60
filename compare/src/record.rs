//! The recorded list that the program `replay` answers again where no Rust is at hand.
//!
//! Plain text of at most 65,536 bytes. Every word is followed by one byte, a space or at the end of a
//! line a newline. The first line is the number of records; a record is one line of these words:
//!
//!     k w min_start_cnt xdrop_set xdrop approx forward_only T gc_kind gc
//!         whole numbers and two floats; gc_kind: 0 uniform, 1 fixed, 2 auto; gc is 0 unless fixed
//!     short
//!         0: every slice has the listed length; 1 to 12: the slice of this number in the order of the call
//!         (ln, f, queue, window counts, scan counts, candidates, codes, reverse codes,
//!         then the forward, the reverse and the final list, and the marks) has one entry less; 13: every slice is empty
//!     tables
//!         0: the filling call; 1: the call on lent tables, which follow: the number of runs of the ln table,
//!         for each run how often its entry stands and the entry, a float; then the f table in the same way.
//!         They have the listed length also where they are lent shorter; where all slices are empty, no run
//!     n letters
//!         the number of letters, then that many bytes from 33 to 126; `~` stands for the byte 200
//!     refusal
//!         0: accepted, and these follow: in_range (1 or 0), count, and count times start, end and marks
//!
//! Whole numbers are decimal and below 2^32. A float is its 64 bits as hex digits from the top, with trailing
//! zeros left out but for the first digit: 0.5 is `3fe`, 0 is `0`, -0 is `8`. An accepted request, and one
//! refused for a short slice, has k at most 6, w at most 64 and n at most 200.

use crate::generate::{self, Rng};
use crate::original::{reference, unmodified};
use crate::port::Buffers;
use crate::request::{runs, Answer, Gc, Request, Tables, SLICES};
use std::fmt::Write;

const RECORDS: usize = 280;
const MOST_BYTES: usize = 65536;
const LONGEST_LINE: usize = 420;

/// Small requests that tell a wrong original from the right one, and others worth keeping.
const TOLD: &str = include_str!("../told.txt");

/// The requests of told.txt, which empty lines part.
pub fn told() -> Vec<Request> {
    let read = |text: &str| Request::parse(text.as_bytes()).expect("told.txt");
    TOLD.split("\n\n").map(read).filter(|request| !request.sequence.is_empty()).collect()
}

/// All requests of the list.
pub fn requests() -> Vec<Request> {
    let rng = &mut Rng::new(9, 0);
    let mut all = told();
    for n in [9, 10, 20, 64, 65, 69, 70, 71, 200] {
        all.push(Request { window_size: 64, sequence: vec![b'A'; n], kmer: 6, ..Request::default() });
    }
    for number in [1, 2, 13, 3, 4, 5, 6, 7, 8, 9].repeat(3) {
        all.push(refused(rng, number));
    }
    for slice in 0..SLICES {
        let mut request = small(rng);
        request.sizes[slice] = Some(request.listed()[slice] - 1);
        all.push(request);
    }
    let mut unmasked = 0;
    while all.len() < RECORDS {
        let request = small(rng);
        let empty = line(&request).ends_with(" 0");
        if !empty || unmasked < 20 {
            unmasked += empty as usize;
            all.push(request);
        }
    }
    all
}

/// The text of the list.
pub fn list() -> String {
    let requests = requests();
    let lines = requests.iter().map(|request| line(request) + "\n");
    let text = format!("{}\n{}", requests.len(), lines.collect::<String>());
    assert!(text.len() <= MOST_BYTES, "the list has {} bytes", text.len());
    text
}

/// An accepted request within the limits of the list.
fn small(rng: &mut Rng) -> Request {
    loop {
        let (most_k, most_w, most_n) = (rng.pick(&[2, 4, 6]), rng.pick(&[6, 15, 57]), rng.pick(&[40, 40, 190]));
        let k = 1 + rng.below(most_k);
        let (w, n) = (k + 1 + rng.below(most_w), k + 1 + rng.below(most_n));
        let mut request = generate::accepted(rng, k, w, n);
        request.yes = 1;
        request.garbage = 0;
        request.xdrop = request.xdrop.map(|length| length.min(1_000_000));
        if request.tables == Tables::Own {
            let (ln, f) = unmodified::tables(&request);
            request.tables = Tables::Given { ln, f };
        }
        let readable = request.sequence.iter().all(|letter| (33..126).contains(letter));
        if readable && line(&request).len() < LONGEST_LINE {
            return request;
        }
    }
}

/// A request that this check refuses before the sizes are looked at.
fn refused(rng: &mut Rng, number: u32) -> Request {
    loop {
        let mut request = small(rng);
        generate::spoil(rng, &mut request, number);
        request.sizes = [Some(0); SLICES];
        if let Tables::Given { ln, f } = &mut request.tables {
            ln.clear();
            f.clear();
        }
        request.sequence.iter_mut().filter(|letter| !letter.is_ascii()).for_each(|letter| *letter = 200);
        request
            .sequence
            .iter_mut()
            .filter(|letter| !(33..126).contains(*letter) && **letter < 128)
            .for_each(|letter| *letter = b'1');
        let in_form = request.kmer.max(request.window_size) <= u32::MAX as usize && !matches!(request.gc, Gc::Kind(..));
        if in_form {
            return request;
        }
    }
}

fn float(bits: u64) -> String {
    let digits = format!("{bits:016x}");
    match digits.trim_end_matches('0') {
        "" => "0".to_string(),
        word => word.to_string(),
    }
}

fn table(table: &[u64]) -> String {
    let runs = runs(table);
    runs.iter().fold(runs.len().to_string(), |line, (entry, times)| format!("{line} {times} {}", float(*entry)))
}

/// The word `short` of a record: 0, the number of the only slice that is shorter than listed, or one past the last if all are.
fn short(request: &Request) -> usize {
    match request.sizes.iter().position(Option::is_some) {
        None => 0,
        Some(slice) if request.sizes.iter().flatten().count() == 1 => slice + 1,
        Some(_) => SLICES + 1,
    }
}

/// The record of a request, without the newline.
fn line(request: &Request) -> String {
    let (gc_kind, gc) = match request.gc {
        Gc::Uniform => (0, 0.0),
        Gc::Fixed(value) => (1, value),
        Gc::Auto => (2, 0.0),
        Gc::Kind(kind, value) => (kind, value),
    };
    let mut line = format!(
        "{} {} {} {} {} {} {} {} {gc_kind} {} {}",
        request.kmer,
        request.window_size,
        request.min_start_cnt,
        request.xdrop.is_some() as u8,
        request.xdrop.unwrap_or(0),
        request.approx as u8,
        request.forward_only as u8,
        float(request.score_threshold.to_bits()),
        float(gc.to_bits()),
        short(request),
    );
    match &request.tables {
        Tables::Given { ln, f } => write!(line, " 1 {} {}", table(ln), table(f)).unwrap(),
        _ => line += " 0",
    }
    let letters = request.sequence.iter().map(|&letter| if letter < 128 { letter as char } else { '~' });
    write!(line, " {} {}", request.sequence.len(), letters.collect::<String>()).unwrap();
    match reference(request, &Buffers::new(request)).answer {
        Answer::Refused(number) => write!(line, " {number}").unwrap(),
        Answer::Accepted { in_range, intervals, marks } => {
            write!(line, " 0 {} {}", in_range as u8, intervals.len()).unwrap();
            let marked = intervals.iter().zip(marks);
            marked.into_iter().for_each(|((start, end), mark)| write!(line, " {start} {end} {mark}").unwrap());
        }
    }
    line
}
