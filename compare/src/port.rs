//! The port: buffers to lend it, the call, and what must be true of the buffers afterwards.

use crate::original::{self, Reference};
use crate::request::{Answer, Request, Tables, F, FINAL, LN, MARKS, NAMES, SLICES};

/// What the C interface answers: a count or minus a refusal, and the flag.
pub type Said = (i64, u32);
/// Something that answers as the C interface does.
pub type Port = fn(&Request, &mut Buffers) -> Said;

/// Elements that stand behind each lent slice and are no part of it.
const GUARD: usize = 8;

/// A lent slice, with its guard and a copy of what both held before.
pub struct Lent<T> {
    pub now: Vec<T>,
    before: Vec<T>,
    pub length: usize,
}

impl<T: Copy + PartialEq> Lent<T> {
    fn new(length: usize, content: impl Fn(usize) -> T) -> Self {
        let before: Vec<T> = (0..length + GUARD).map(content).collect();
        Lent { now: before.clone(), before, length }
    }
}

/// What the checks need of a slice of any element type.
trait Slice {
    fn length(&self) -> usize;
    /// The first element from this one on that changed.
    fn change(&self, from: usize) -> Option<usize>;
}

impl<T: Copy + PartialEq> Slice for Lent<T> {
    fn length(&self) -> usize {
        self.length
    }

    fn change(&self, from: usize) -> Option<usize> {
        let from = from.min(self.length);
        if self.now[from..] == self.before[from..] {
            return None;
        }
        (from..self.now.len()).find(|&i| self.now[i] != self.before[i])
    }
}

/// A candidate as the C interface has it (`longdust_forward_position`), its score as bits.
#[derive(Clone, Copy, PartialEq)]
#[repr(C)]
pub struct Candidate {
    pos: u32,
    max_score: u64,
}

/// All lent slices; floats as their bits.
pub struct Buffers {
    pub sequence: Vec<u8>,
    pub ln: Lent<u64>,
    pub f: Lent<u64>,
    pub queue: Lent<u32>,
    pub window_counts: Lent<u16>,
    pub scan_counts: Lent<u16>,
    pub candidates: Lent<Candidate>,
    pub codes: Lent<u8>,
    pub reverse_codes: Lent<u8>,
    /// The forward, the reverse and the final list: start and end of each interval.
    pub lists: [Lent<[u32; 2]>; 3],
    /// The marks of the final list.
    pub marks: Lent<u8>,
}

/// The length of a slice that a request says nothing of, where it is refused before the sizes.
const UNCHECKED: usize = 64;

/// What stands in the buffers before the call.
fn garbage(kind: u64, slice: usize, i: usize) -> u64 {
    match kind {
        0 => 0,
        1 => u64::MAX,
        seed => (seed ^ (slice as u64) << 56 ^ i as u64).wrapping_mul(0x9e37_79b9_7f4a_7c15).rotate_left(23),
    }
}

/// A copy in which pages of zeros take no room, as in fresh memory that is only read.
fn copy(letters: &[u8]) -> Vec<u8> {
    const PAGE: usize = 4096;
    let mut copy = vec![0; letters.len()];
    for (page, letters) in copy.chunks_mut(PAGE).zip(letters.chunks(PAGE)) {
        if letters.iter().fold(0, |any, letter| any | letter) != 0 {
            page.copy_from_slice(letters);
        }
    }
    copy
}

impl Buffers {
    /// As long as the request says, else as listed, and full of its garbage and tables.
    pub fn new(request: &Request) -> Buffers {
        let accepted = original::refusal_before_sizes(request).is_none();
        let listed = if accepted { request.listed() } else { [UNCHECKED; SLICES] };
        let length = |slice: usize| request.size_said(slice).unwrap_or(listed[slice]);
        let (ln, f) = match &request.tables {
            Tables::Own if accepted => original::unmodified::tables(request),
            Tables::Given { ln, f } => (ln.clone(), f.clone()),
            _ => (Vec::new(), Vec::new()),
        };
        let any = |slice: usize, i: usize| garbage(request.garbage, slice, i);
        let table =
            |slice: usize, words: &[u64]| Lent::new(length(slice), |i| words.get(i).copied().unwrap_or(any(slice, i)));
        Buffers {
            sequence: copy(&request.sequence),
            ln: table(LN, &ln),
            f: table(F, &f),
            queue: Lent::new(length(2), |i| any(2, i) as u32),
            window_counts: Lent::new(length(3), |i| any(3, i) as u16),
            scan_counts: Lent::new(length(4), |i| any(4, i) as u16),
            candidates: Lent::new(length(5), |i| Candidate { pos: any(5, i) as u32, max_score: !any(5, i) }),
            codes: Lent::new(length(6), |i| any(6, i) as u8),
            reverse_codes: Lent::new(length(7), |i| any(7, i) as u8),
            lists: [8, 9, FINAL]
                .map(|slice| Lent::new(length(slice), |i| [any(slice, i) as u32, !any(slice, i) as u32])),
            marks: Lent::new(length(MARKS), |i| any(MARKS, i) as u8),
        }
    }

    fn slices(&self) -> [&dyn Slice; SLICES] {
        let [forward, reverse, mask] = &self.lists;
        [
            &self.ln,
            &self.f,
            &self.queue,
            &self.window_counts,
            &self.scan_counts,
            &self.candidates,
            &self.codes,
            &self.reverse_codes,
            forward,
            reverse,
            mask,
            &self.marks,
        ]
    }

    pub fn lengths(&self) -> [usize; SLICES] {
        self.slices().map(|slice| slice.length())
    }

    /// This many intervals of the final list.
    fn mask(&self, count: usize) -> Result<Vec<(usize, usize)>, String> {
        let [.., mask] = &self.lists;
        if count > mask.length {
            return Err(format!("count {count} is past the list"));
        }
        Ok(mask.now[..count].iter().map(|&[start, end]| (start as usize, end as usize)).collect())
    }

    /// This many marks of the final list.
    fn marks(&self, count: usize) -> Result<Vec<u8>, String> {
        if count > self.marks.length {
            return Err(format!("count {count} is past the marks"));
        }
        Ok(self.marks.now[..count].to_vec())
    }

    /// Writes an interval of the final list.
    #[cfg(test)]
    pub fn put(&mut self, row: usize, (start, end): (usize, usize)) {
        let [.., mask] = &mut self.lists;
        mask.now[row] = [start as u32, end as u32];
    }

    /// The port's result as an answer, or why it is none.
    pub fn answer(&self, (result, flag): Said) -> Result<Answer, String> {
        match result {
            _ if flag > 1 || result < 0 && flag != 0 => Err(format!("result {result} with flag {flag}")),
            ..=-1 => Ok(Answer::Refused(result.unsigned_abs() as u32)),
            count => Ok(Answer::Accepted {
                in_range: flag == 1,
                intervals: self.mask(count as usize)?,
                marks: self.marks(count as usize)?,
            }),
        }
    }

    /// The first place that should not have changed and did, or that should hold a formula and does not.
    fn damage(&self, request: &Request, reference: &Reference) -> Option<String> {
        if self.sequence != request.sequence {
            return Some("sequence changed".to_string());
        }
        let Answer::Accepted { intervals, .. } = &reference.answer else {
            return self.changes(&[0; SLICES]);
        };
        let mut free = request.listed();
        free[FINAL..].fill(intervals.len());
        match &reference.filled {
            None => free[..=F].fill(0),
            Some((ln, f)) => {
                for (name, lent, table) in [("ln", &self.ln, ln), ("f", &self.f, f)] {
                    if let Some(i) = (0..table.len()).find(|&i| lent.now[i] != table[i]) {
                        return Some(format!("{name}[{i}] does not hold its formula"));
                    }
                }
            }
        }
        self.changes(&free)
    }

    /// The first place that changed past the entries of each slice that are free.
    pub fn changes(&self, free: &[usize; SLICES]) -> Option<String> {
        let change = |((slice, &from), name): ((&dyn Slice, &usize), &str)| {
            slice.change(from).map(|i| format!("{name} changed at {i}"))
        };
        self.slices().into_iter().zip(free).zip(NAMES).find_map(change)
    }
}

/// Runs both on a request: the reference, and how the port differs from it if it does.
pub fn difference(port: impl Fn(&Request, &mut Buffers) -> Said, request: &Request) -> (Reference, Option<String>) {
    let mut buffers = Buffers::new(request);
    let reference = original::reference(request, &buffers);
    let result = port(request, &mut buffers);
    let differs = match buffers.answer(result) {
        Err(wrong) => Some(wrong),
        Ok(answer) if answer != reference.answer => Some(format!("port: {answer}original: {}", reference.answer)),
        Ok(_) => buffers.damage(request, &reference),
    };
    (reference, differs)
}
