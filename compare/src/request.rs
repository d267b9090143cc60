//! A request, its text form, and an answer.
//!
//! A request is text lines in any order; a word that begins with `#` opens a comment. Lines left out
//! take the original's defaults, formula tables, and buffers exactly as long as listed.
//!
//!     k 7                  w 5000              min_start_cnt 3      xdrop 50|none
//!     approx 0|1           forward_only 0|1    T <float bits in hex>
//!     gc uniform|auto|fixed <hex>              tables formula|own|given
//!     ln <hex>[*COUNT] ..  f <hex>[*COUNT] ..  (given tables, as long as their words)
//!     size NAME COUNT      a buffer's length: ln f queue wcounts scounts cands code1 code2 fwd rev final marks
//!     seq N, a newline and N raw bytes; seqhex 41c3..; seqrle A*5000 AC*20
//!     virtual_n N          a length to be checked without its letters or buffers
//!
//! Three more lines say what a host may vary without changing the answer, or get wrong:
//!
//!     gc kind N <hex>      a GC choice that is none of the three
//!     yes N                the number that stands for a yes
//!     garbage N            what the buffers hold before the call: 0 zeros, 1 ones, or a seed

use crate::original::unmodified::{GcOption, LongdustOptions};
use std::fmt::{self, Display, Formatter, Write};

/// How many slices a call is lent.
pub const SLICES: usize = 12;
/// Their names, in the order of the call.
pub const NAMES: [&str; SLICES] =
    ["ln", "f", "queue", "wcounts", "scounts", "cands", "code1", "code2", "fwd", "rev", "final", "marks"];
pub const LN: usize = 0;
pub const F: usize = 1;
pub const FINAL: usize = 10;
pub const MARKS: usize = 11;

#[derive(Clone, Copy, Debug, PartialEq)]
pub enum Gc {
    Uniform,
    Fixed(f64),
    Auto,
    Kind(u32, f64),
}

#[derive(Clone, Debug, PartialEq)]
pub enum Tables {
    /// Filled by the call.
    Formula,
    /// Those of the unmodified original.
    Own,
    /// Float bits.
    Given { ln: Vec<u64>, f: Vec<u64> },
}

#[derive(Clone, Debug, PartialEq)]
pub struct Request {
    pub kmer: usize,
    pub window_size: usize,
    pub score_threshold: f64,
    pub gc: Gc,
    pub xdrop: Option<u32>,
    pub min_start_cnt: u16,
    pub approx: bool,
    pub forward_only: bool,
    pub yes: u32,
    pub tables: Tables,
    pub sizes: [Option<usize>; SLICES],
    pub garbage: u64,
    pub sequence: Vec<u8>,
    /// The letters stand for their number alone, and the buffers are empty.
    pub is_virtual: bool,
}

/// The original's own defaults, formula tables and buffers as listed.
impl Default for Request {
    fn default() -> Self {
        let usual = LongdustOptions::default();
        Request {
            kmer: usual.kmer,
            window_size: usual.window_size,
            score_threshold: usual.score_threshold,
            gc: match usual.gc {
                GcOption::Uniform => Gc::Uniform,
                GcOption::Fixed(value) => Gc::Fixed(value),
                GcOption::Auto => Gc::Auto,
            },
            xdrop: usual.xdrop.map(|length| length as u32),
            min_start_cnt: usual.min_start_cnt,
            approx: usual.approx,
            forward_only: usual.forward_only,
            yes: 1,
            tables: Tables::Formula,
            sizes: [None; SLICES],
            garbage: 2,
            sequence: Vec::new(),
            is_virtual: false,
        }
    }
}

impl Request {
    /// How many entries of each slice the paper lists, for k up to 12.
    pub fn listed(&self) -> [usize; SLICES] {
        let (n, w) = (self.sequence.len(), self.window_size);
        let kmers = 1 << (2 * self.kmer);
        let rows = (n + 1) / (self.kmer + 1);
        [w + 1, w + 2, w, kmers, kmers, w, n, n, rows, rows, rows, rows]
    }

    /// The length that a `size` line, or given words, set for a slice.
    pub fn size_said(&self, slice: usize) -> Option<usize> {
        let words = match (&self.tables, slice) {
            (Tables::Given { ln, .. }, LN) => Some(ln.len()),
            (Tables::Given { f, .. }, F) => Some(f.len()),
            _ => None,
        };
        self.sizes[slice].or(words)
    }

    pub fn parse(mut text: &[u8]) -> Result<Request, String> {
        let mut request = Request::default();
        let (mut kind, mut ln, mut f) = ("formula".to_string(), Vec::new(), Vec::new());
        while !text.is_empty() {
            let end = text.iter().position(|&b| b == b'\n').unwrap_or(text.len());
            let line = String::from_utf8(text[..end].to_vec()).map_err(|_| "a line is not plain text")?;
            text = &text[(end + 1).min(text.len())..];
            let words: Vec<&str> = line.split_ascii_whitespace().take_while(|word| !word.starts_with('#')).collect();
            let wrong = || format!("not understood: {line}");
            match words[..] {
                [] => {}
                ["k", n] => request.kmer = number(n)?,
                ["w", n] => request.window_size = number(n)?,
                ["min_start_cnt", n] => request.min_start_cnt = number(n)?,
                ["xdrop", "none"] => request.xdrop = None,
                ["xdrop", n] => request.xdrop = Some(number(n)?),
                ["approx", bit @ ("0" | "1")] => request.approx = bit == "1",
                ["forward_only", bit @ ("0" | "1")] => request.forward_only = bit == "1",
                ["yes", n] => request.yes = number(n)?,
                ["T", hex] => request.score_threshold = float(hex)?,
                ["gc", "uniform"] => request.gc = Gc::Uniform,
                ["gc", "auto"] => request.gc = Gc::Auto,
                ["gc", "fixed", hex] => request.gc = Gc::Fixed(float(hex)?),
                ["gc", "kind", n, hex] => request.gc = Gc::Kind(number(n)?, float(hex)?),
                ["tables", name @ ("formula" | "own" | "given")] => kind = name.to_string(),
                ["ln", ref words @ ..] => repeated(words, &mut ln)?,
                ["f", ref words @ ..] => repeated(words, &mut f)?,
                ["size", name, n] => {
                    let slice = NAMES.iter().position(|known| *known == name).ok_or_else(wrong)?;
                    request.sizes[slice] = Some(number(n)?);
                }
                ["garbage", n] => request.garbage = number(n)?,
                ["virtual_n", n] => {
                    // One letter past the limit is refused as any larger number is.
                    request.sequence = vec![b'A'; number::<usize>(n)?.min(1 << 31)];
                    request.sizes = [Some(0); SLICES];
                    request.is_virtual = true;
                }
                ["seq", n] => {
                    let n: usize = number(n)?;
                    request.sequence.extend(text.get(..n).ok_or_else(wrong)?);
                    text = &text[n..];
                }
                ["seqhex", ref words @ ..] => {
                    for pair in words.concat().as_bytes().chunks(2) {
                        let pair = std::str::from_utf8(pair).map_err(|_| wrong())?;
                        request.sequence.push(u8::from_str_radix(pair, 16).map_err(|_| wrong())?);
                    }
                }
                ["seqrle", ref words @ ..] => {
                    for word in words {
                        let (letters, times) = split_count(word)?;
                        request.sequence.extend(letters.as_bytes().repeat(times));
                    }
                }
                _ => return Err(wrong()),
            }
        }
        request.tables = match &kind[..] {
            "own" => Tables::Own,
            "given" => Tables::Given { ln, f },
            _ => Tables::Formula,
        };
        Ok(request)
    }
}

pub fn number<N: std::str::FromStr>(word: &str) -> Result<N, String> {
    word.parse().map_err(|_| format!("not a number in range: {word}"))
}

fn bits(word: &str) -> Result<u64, String> {
    u64::from_str_radix(word.trim_start_matches("0x"), 16).map_err(|_| format!("not hex: {word}"))
}

fn float(word: &str) -> Result<f64, String> {
    bits(word).map(f64::from_bits)
}

fn split_count(word: &str) -> Result<(&str, usize), String> {
    match word.rsplit_once('*') {
        Some((what, times)) => Ok((what, number(times)?)),
        None => Ok((word, 1)),
    }
}

fn repeated(words: &[&str], table: &mut Vec<u64>) -> Result<(), String> {
    for word in words {
        let (hex, times) = split_count(word)?;
        let value = bits(hex)?;
        table.resize(table.len() + times, value);
    }
    Ok(())
}

/// Equal neighbours as one entry and how often it stands.
pub fn runs<T: PartialEq + Copy>(entries: &[T]) -> Vec<(T, usize)> {
    entries.chunk_by(|a, b| a == b).map(|run| (run[0], run.len())).collect()
}

fn table_line(name: &str, table: &[u64]) -> String {
    let mut line = name.to_string();
    for (value, times) in runs(table) {
        write!(line, " {value:016x}").unwrap();
        if times > 1 {
            write!(line, "*{times}").unwrap();
        }
    }
    line
}

fn sequence_line(sequence: &[u8]) -> String {
    if !sequence.iter().all(|b| b.is_ascii_alphabetic() || *b == b'-') {
        return sequence.iter().fold("seqhex ".to_string(), |line, b| line + &format!("{b:02x}"));
    }
    let mut line = "seqrle".to_string();
    let mut short = false;
    for (letter, times) in runs(sequence) {
        let letter = letter as char;
        if times > 7 {
            write!(line, " {letter}*{times}").unwrap();
        } else {
            line += if short { "" } else { " " };
            line += &letter.to_string().repeat(times);
        }
        short = times <= 7;
    }
    line
}

/// The text form, without the lines that say the default.
impl Display for Request {
    fn fmt(&self, out: &mut Formatter) -> fmt::Result {
        let default = Request::default();
        writeln!(out, "k {}\nw {}", self.kmer, self.window_size)?;
        writeln!(out, "T {:016x}", self.score_threshold.to_bits())?;
        match self.gc {
            Gc::Uniform => {}
            Gc::Auto => writeln!(out, "gc auto")?,
            Gc::Fixed(value) => writeln!(out, "gc fixed {:016x}", value.to_bits())?,
            Gc::Kind(kind, value) => writeln!(out, "gc kind {kind} {:016x}", value.to_bits())?,
        }
        match self.xdrop {
            None => writeln!(out, "xdrop none")?,
            Some(length) => writeln!(out, "xdrop {length}")?,
        }
        writeln!(out, "min_start_cnt {}", self.min_start_cnt)?;
        writeln!(out, "approx {}\nforward_only {}", self.approx as u8, self.forward_only as u8)?;
        if self.yes != default.yes {
            writeln!(out, "yes {}", self.yes)?;
        }
        match &self.tables {
            Tables::Formula => writeln!(out, "tables formula")?,
            Tables::Own => writeln!(out, "tables own")?,
            Tables::Given { ln, f } => writeln!(out, "tables given\n{}\n{}", table_line("ln", ln), table_line("f", f))?,
        }
        for (name, size) in NAMES.iter().zip(self.sizes) {
            if let Some(count) = size {
                writeln!(out, "size {name} {count}")?;
            }
        }
        if self.garbage != default.garbage {
            writeln!(out, "garbage {}", self.garbage)?;
        }
        if self.is_virtual {
            return writeln!(out, "virtual_n {}", self.sequence.len());
        }
        writeln!(out, "{}", sequence_line(&self.sequence))
    }
}

#[derive(Clone, Debug, PartialEq)]
pub enum Answer {
    Refused(u32),
    /// Each interval with its marks: 1 forward, 2 reverse, 3 both.
    Accepted {
        in_range: bool,
        intervals: Vec<(usize, usize)>,
        marks: Vec<u8>,
    },
}

impl Display for Answer {
    fn fmt(&self, out: &mut Formatter) -> fmt::Result {
        match self {
            Answer::Refused(number) => writeln!(out, "refused {number}"),
            Answer::Accepted { in_range, intervals, marks } => {
                writeln!(out, "ok {} {}", intervals.len(), if *in_range { "yes" } else { "no" })?;
                let marked = intervals.iter().zip(marks);
                marked.into_iter().try_for_each(|((start, end), mark)| writeln!(out, "{start}\t{end}\t{mark}"))
            }
        }
    }
}

#[cfg(test)]
mod tests {
    use super::*;

    #[test]
    fn reads_every_line() {
        let text = b"# all of it\nseq 3\nA\nC\nk 3 # small\nw 12\nmin_start_cnt 2\nxdrop none\napprox 1\n\
            forward_only 1\nT 3fe0000000000000\ngc fixed 3fd0000000000000\ntables given\n\
            ln 0*2 0x3ff0000000000000\nf 8000000000000000*14\nln 1*10\nsize fwd 9\n\
            seqhex 41c3\nseqrle A*3 AC*2 G\n";
        let request = Request::parse(text).unwrap();
        assert_eq!(request.sequence, b"A\nCA\xc3AAAACACG");
        assert_eq!((request.kmer, request.window_size, request.min_start_cnt), (3, 12, 2));
        assert_eq!((request.xdrop, request.approx, request.forward_only), (None, true, true));
        assert_eq!((request.score_threshold, request.gc), (0.5, Gc::Fixed(0.25)));
        let sizes = [0, 1, 8, 9].map(|slice| request.size_said(slice));
        assert_eq!(sizes, [Some(13), Some(14), Some(9), None]);
        assert_eq!(Request::parse(request.to_string().as_bytes()).unwrap(), request);
    }

    #[test]
    fn stops_at_what_it_does_not_know() {
        for text in ["k", "k -1", "approx 2", "size heap 3", "seq 5\nACG", "T zz", "seqhex 4g", "mask A"] {
            assert!(Request::parse(text.as_bytes()).is_err(), "{text}");
        }
        assert_eq!(Request::parse(b"").unwrap(), Request::default());
    }
}
