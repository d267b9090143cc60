//! The port as liblongdust_c.a exports it (include/longdust.h).

use crate::copies;
use crate::port::{Buffers, Candidate, Lent};
use crate::questions;
use crate::request::{Gc, Request, Tables};
use crate::small;
use crate::strands;
use crate::tracks;
use std::ptr;

/// Both calls are declared with tables that may be written, so that one expression calls either; that
/// the call on lent tables leaves them alone is checked.
macro_rules! declare {
    ($name:ident) => {
        extern "C" {
            fn $name(
                sequence: *const u8,
                sequence_len: usize,
                kmer: usize,
                window_size: usize,
                score_threshold: f64,
                gc_kind: u32,
                gc_value: f64,
                xdrop_set: u32,
                xdrop_length: u32,
                min_start_cnt: u16,
                approx: u32,
                forward_only: u32,
                ln: *mut f64,
                ln_len: usize,
                f: *mut f64,
                f_len: usize,
                queue: *mut u32,
                queue_len: usize,
                window_counts: *mut u16,
                window_counts_len: usize,
                scan_counts: *mut u16,
                scan_counts_len: usize,
                candidates: *mut Candidate,
                candidates_len: usize,
                codes: *mut u8,
                codes_len: usize,
                reverse_codes: *mut u8,
                reverse_codes_len: usize,
                forward_list: *mut [u32; 2],
                forward_list_len: usize,
                reverse_list: *mut [u32; 2],
                reverse_list_len: usize,
                list: *mut [u32; 2],
                list_len: usize,
                marks: *mut u8,
                marks_len: usize,
                in_range: *mut u32,
            ) -> i64;
        }
    };
}
declare!(longdust_process_tables);
declare!(longdust_process);

/// A choice without a value gets one that would spoil every table.
fn gc_numbers(gc: Gc) -> (u32, f64) {
    match gc {
        Gc::Uniform => (0, f64::NAN),
        Gc::Fixed(value) => (1, value),
        Gc::Auto => (2, f64::NAN),
        Gc::Kind(kind, value) => (kind, value),
    }
}

/// An empty slice is null, as a host may lend it.
fn pointer<T>(slice: &mut [T], length: usize) -> (*mut T, usize) {
    (if length == 0 { ptr::null_mut() } else { slice.as_mut_ptr() }, length)
}

fn raw<T>(lent: &mut Lent<T>) -> (*mut T, usize) {
    pointer(&mut lent.now, lent.length)
}

pub fn call(request: &Request, lent: &mut Buffers) -> (i64, u32) {
    let process = match request.tables {
        Tables::Formula => longdust_process,
        _ => longdust_process_tables,
    };
    let yes = |said: bool| if said { request.yes } else { 0 };
    let (gc_kind, gc_value) = gc_numbers(request.gc);
    let letters = lent.sequence.len();
    let (sequence, sequence_len) = pointer(&mut lent.sequence, letters);
    let (ln, ln_len) = raw(&mut lent.ln);
    let (f, f_len) = raw(&mut lent.f);
    let (queue, queue_len) = raw(&mut lent.queue);
    let (window_counts, window_counts_len) = raw(&mut lent.window_counts);
    let (scan_counts, scan_counts_len) = raw(&mut lent.scan_counts);
    let (candidates, candidates_len) = raw(&mut lent.candidates);
    let (codes, codes_len) = raw(&mut lent.codes);
    let (reverse_codes, reverse_codes_len) = raw(&mut lent.reverse_codes);
    let [forward, reverse, list] = lent.lists.each_mut().map(raw);
    let (marks, marks_len) = raw(&mut lent.marks);
    let mut in_range = 0xdead;
    // SAFETY: each pointer is null with length 0, or to a live slice at least as long as its length; none overlap.
    let result = unsafe {
        process(
            sequence,
            sequence_len,
            request.kmer,
            request.window_size,
            request.score_threshold,
            gc_kind,
            gc_value,
            yes(request.xdrop.is_some()),
            request.xdrop.unwrap_or(0),
            request.min_start_cnt,
            yes(request.approx),
            yes(request.forward_only),
            ln.cast(),
            ln_len,
            f.cast(),
            f_len,
            queue,
            queue_len,
            window_counts,
            window_counts_len,
            scan_counts,
            scan_counts_len,
            candidates,
            candidates_len,
            codes,
            codes_len,
            reverse_codes,
            reverse_codes_len,
            forward.0,
            forward.1,
            reverse.0,
            reverse.1,
            list.0,
            list.1,
            marks,
            marks_len,
            &mut in_range,
        )
    };
    (result, in_range)
}

extern "C" {
    fn longdust_masked_copy(
        sequence: *const u8,
        sequence_len: usize,
        list: *const [u32; 2],
        list_len: usize,
        lower_case: u32,
        replacement: u8,
        copy: *mut u8,
        copy_len: usize,
    ) -> i64;
}

pub fn masked_copy(request: &mut copies::Request) -> i64 {
    let copies::Request { sequence, list, lower_case, replacement, copy } = request;
    let (letters, entries, room) = (sequence.len(), list.len(), copy.len() - copies::GUARD);
    let (sequence, sequence_len) = pointer(sequence, letters);
    let (list, list_len) = pointer(list, entries);
    let (copy, copy_len) = pointer(copy, room);
    // SAFETY: as above.
    unsafe { longdust_masked_copy(sequence, sequence_len, list, list_len, *lower_case, *replacement, copy, copy_len) }
}

extern "C" {
    fn longdust_questions(
        n: usize,
        list: *const [u32; 2],
        list_len: usize,
        questions: *const [u32; 3],
        questions_len: usize,
        summary: *mut u32,
        summary_len: usize,
        results: *mut [u32; 2],
        results_len: usize,
    ) -> i64;
}

pub fn answer_questions(request: &mut questions::Request) -> i64 {
    let questions::Request { n, list, questions, summary, results } = request;
    let (entries, asked) = (list.len(), questions.len());
    let rooms = [summary.len(), results.len()].map(|length| length - questions::GUARD);
    let (list, list_len) = pointer(list, entries);
    let (questions, questions_len) = pointer(questions, asked);
    let (summary, summary_len) = pointer(summary, rooms[0]);
    let (results, results_len) = pointer(results, rooms[1]);
    // SAFETY: as above.
    unsafe {
        longdust_questions(*n, list, list_len, questions, questions_len, summary, summary_len, results, results_len)
    }
}

extern "C" {
    fn longdust_join_tracks(
        kind: u32,
        n: usize,
        ours: *const [u32; 2],
        ours_len: usize,
        marks: *const u8,
        marks_len: usize,
        theirs: *const [u32; 2],
        theirs_len: usize,
        list: *mut [u32; 2],
        list_len: usize,
        list_marks: *mut u8,
        list_marks_len: usize,
    ) -> i64;
}

pub fn join_tracks(request: &mut tracks::Request) -> i64 {
    let tracks::Request { kind, n, ours, marks, theirs, list, list_marks } = request;
    let lengths = [ours.len(), marks.len(), theirs.len(), list.len() - tracks::GUARD, list_marks.len() - tracks::GUARD];
    let (ours, ours_len) = pointer(ours, lengths[0]);
    let (marks, marks_len) = pointer(marks, lengths[1]);
    let (theirs, theirs_len) = pointer(theirs, lengths[2]);
    let (list, list_len) = pointer(list, lengths[3]);
    let (list_marks, list_marks_len) = pointer(list_marks, lengths[4]);
    // SAFETY: as above.
    unsafe {
        longdust_join_tracks(
            *kind,
            *n,
            ours,
            ours_len,
            marks,
            marks_len,
            theirs,
            theirs_len,
            list,
            list_len,
            list_marks,
            list_marks_len,
        )
    }
}

extern "C" {
    fn longdust_small(
        sequence: *const u8,
        sequence_len: usize,
        kmer: usize,
        window_size: usize,
        score_threshold: f64,
        xdrop_set: u32,
        xdrop_length: u32,
        min_start_cnt: u16,
        approx: u32,
        forward_only: u32,
        out: *mut u8,
        out_len: usize,
    ) -> i64;
}

pub fn small(request: &mut small::Request) -> i64 {
    let small::Request { options, out } = request;
    let yes = |said: bool| if said { options.yes } else { 0 };
    let (set, approx, forward_only) = (yes(options.xdrop.is_some()), yes(options.approx), yes(options.forward_only));
    let (letters, room) = (options.sequence.len(), out.len() - small::GUARD);
    let (sequence, sequence_len) = pointer(&mut options.sequence, letters);
    let (out, out_len) = pointer(out, room);
    // SAFETY: as above.
    unsafe {
        longdust_small(
            sequence,
            sequence_len,
            options.kmer,
            options.window_size,
            options.score_threshold,
            set,
            options.xdrop.unwrap_or(0),
            options.min_start_cnt,
            approx,
            forward_only,
            out,
            out_len,
        )
    }
}

extern "C" {
    fn longdust_short_sequences(m: usize, tallies: *mut u32, tallies_len: usize, refused: *mut u32) -> i64;
}

pub fn short_sequences(m: usize, tallies: &mut [u32], length: usize, refused: &mut u32) -> i64 {
    let (tallies, tallies_len) = pointer(tallies, length);
    // SAFETY: as above.
    unsafe { longdust_short_sequences(m, tallies, tallies_len, refused) }
}

extern "C" {
    fn longdust_fill_tables(
        sequence: *const u8,
        sequence_len: usize,
        kmer: usize,
        window_size: usize,
        score_threshold: f64,
        gc_kind: u32,
        gc_value: f64,
        ln: *mut f64,
        ln_len: usize,
        f: *mut f64,
        f_len: usize,
        codes: *mut u8,
        codes_len: usize,
        in_range: *mut u32,
    ) -> i64;

    fn longdust_strand(
        sequence: *const u8,
        sequence_len: usize,
        kmer: usize,
        window_size: usize,
        score_threshold: f64,
        gc_kind: u32,
        gc_value: f64,
        xdrop_set: u32,
        xdrop_length: u32,
        min_start_cnt: u16,
        approx: u32,
        reverse: u32,
        ln: *const f64,
        ln_len: usize,
        f: *const f64,
        f_len: usize,
        queue: *mut u32,
        queue_len: usize,
        window_counts: *mut u16,
        window_counts_len: usize,
        scan_counts: *mut u16,
        scan_counts_len: usize,
        candidates: *mut Candidate,
        candidates_len: usize,
        codes: *mut u8,
        codes_len: usize,
        list: *mut [u32; 2],
        list_len: usize,
        in_range: *mut u32,
    ) -> i64;

    fn longdust_merge_strands(
        n: usize,
        forward: *const [u32; 2],
        forward_len: usize,
        reverse: *const [u32; 2],
        reverse_len: usize,
        list: *mut [u32; 2],
        list_len: usize,
        marks: *mut u8,
        marks_len: usize,
    ) -> i64;

    fn longdust_refusal_text(number: u32, text: *mut u8, text_len: usize) -> i64;
}

pub fn fill_tables(request: &Request, lent: &mut Buffers) -> (i64, u32) {
    let (gc_kind, gc_value) = gc_numbers(request.gc);
    let letters = lent.sequence.len();
    let (sequence, sequence_len) = pointer(&mut lent.sequence, letters);
    let (ln, ln_len) = raw(&mut lent.ln);
    let (f, f_len) = raw(&mut lent.f);
    let (codes, codes_len) = raw(&mut lent.codes);
    let (k, w, threshold) = (request.kmer, request.window_size, request.score_threshold);
    let mut in_range = 0xdead;
    // SAFETY: as above.
    let result = unsafe {
        longdust_fill_tables(
            sequence,
            sequence_len,
            k,
            w,
            threshold,
            gc_kind,
            gc_value,
            ln.cast(),
            ln_len,
            f.cast(),
            f_len,
            codes,
            codes_len,
            &mut in_range,
        )
    };
    (result, in_range)
}

/// The forward strand with the first buffer for codes and the first list, the other with the second ones.
pub fn strand(request: &Request, lent: &mut Buffers, reverse: bool) -> (i64, u32) {
    let yes = |said: bool| if said { request.yes } else { 0 };
    let (gc_kind, gc_value) = gc_numbers(request.gc);
    let letters = lent.sequence.len();
    let (sequence, sequence_len) = pointer(&mut lent.sequence, letters);
    let (ln, ln_len) = raw(&mut lent.ln);
    let (f, f_len) = raw(&mut lent.f);
    let (queue, queue_len) = raw(&mut lent.queue);
    let (window_counts, window_counts_len) = raw(&mut lent.window_counts);
    let (scan_counts, scan_counts_len) = raw(&mut lent.scan_counts);
    let (candidates, candidates_len) = raw(&mut lent.candidates);
    let (codes, codes_len) = raw(if reverse { &mut lent.reverse_codes } else { &mut lent.codes });
    let (list, list_len) = raw(&mut lent.lists[reverse as usize]);
    let mut in_range = 0xdead;
    // SAFETY: as above.
    let result = unsafe {
        longdust_strand(
            sequence,
            sequence_len,
            request.kmer,
            request.window_size,
            request.score_threshold,
            gc_kind,
            gc_value,
            yes(request.xdrop.is_some()),
            request.xdrop.unwrap_or(0),
            request.min_start_cnt,
            yes(request.approx),
            yes(reverse),
            ln.cast(),
            ln_len,
            f.cast(),
            f_len,
            queue,
            queue_len,
            window_counts,
            window_counts_len,
            scan_counts,
            scan_counts_len,
            candidates,
            candidates_len,
            codes,
            codes_len,
            list,
            list_len,
            &mut in_range,
        )
    };
    (result, in_range)
}

pub fn merge_strands(request: &mut strands::Merge) -> i64 {
    let strands::Merge { n, forward, reverse, list, marks } = request;
    let lengths = [forward.len(), reverse.len(), list.len() - strands::GUARD, marks.len() - strands::GUARD];
    let (forward, forward_len) = pointer(forward, lengths[0]);
    let (reverse, reverse_len) = pointer(reverse, lengths[1]);
    let (list, list_len) = pointer(list, lengths[2]);
    let (marks, marks_len) = pointer(marks, lengths[3]);
    // SAFETY: as above.
    unsafe {
        longdust_merge_strands(*n, forward, forward_len, reverse, reverse_len, list, list_len, marks, marks_len)
    }
}

pub fn refusal_text(number: u32, text: &mut [u8], length: usize) -> i64 {
    let (text, text_len) = pointer(text, length);
    // SAFETY: as above.
    unsafe { longdust_refusal_text(number, text, text_len) }
}
