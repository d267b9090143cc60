//! What the program `cisternpea` must write for a FASTA file, by the original and a reader of its own, and
//! random files for it.

use crate::generate::{letters, sequence, Rng};
use crate::genomes;
use crate::original;
use crate::port::Buffers;
use crate::request::{number, Answer, Gc, Request};
use std::io::{self, BufWriter, Write};

/// A record: its line with `>`, and its lines of letters, all without line ends.
struct Record<'a> {
    header: &'a [u8],
    lines: Vec<&'a [u8]>,
}

impl Record<'_> {
    /// From the `>` to the first blank.
    fn name(&self) -> &[u8] {
        self.header[1..].split(|byte| b" \t".contains(byte)).next().unwrap()
    }
}

/// The records of a file that has no fault.
fn records(text: &[u8]) -> Vec<Record<'_>> {
    let mut all: Vec<Record> = Vec::new();
    let mut lines: Vec<&[u8]> = text.split(|&byte| byte == b'\n').collect();
    // What follows the last line end is a line only if it has bytes.
    if lines.last().is_some_and(|line| line.is_empty()) {
        lines.pop();
    }
    for line in lines {
        let line = line.strip_suffix(b"\r").unwrap_or(line);
        match (line, all.last_mut()) {
            ([b'>', ..], _) => all.push(Record { header: line, lines: Vec::new() }),
            (_, Some(record)) => record.lines.push(line),
            (_, None) => assert!(line.is_empty(), "letters before the first name"),
        }
    }
    all
}

#[derive(Clone, Copy)]
enum Form {
    Bed,
    Marks,
    Soft,
    Hard(u8),
    Summary,
    Bedgraph(usize),
}

/// What is written: shorter intervals have no line in BED and marks; a record that is refused for too few letters may have no
/// mask instead.
#[derive(Clone, Copy)]
struct Settings {
    form: Form,
    min_length: usize,
    skip_short: bool,
}

type Interval = (usize, usize);

/// The mask, or the number of the refusal.
fn mask(request: &Request) -> Result<Vec<Interval>, u32> {
    match original::reference(request, &Buffers::new(request)).answer {
        Answer::Accepted { intervals, .. } => Ok(intervals),
        Answer::Refused(number) => Err(number),
    }
}

fn reverse_complement(letters: &[u8]) -> Vec<u8> {
    let (bases, others) = (b"ACGTUacgtu", b"TGCAAtgcaa");
    let complement = |byte: &u8| bases.iter().position(|base| base == byte).map_or(*byte, |i| others[i]);
    letters.iter().rev().map(complement).collect()
}

/// Which strands see an interval of the mask: those that alone have an interval in it.
fn strands(request: &Request, mask_of_both: &[Interval]) -> Vec<&'static str> {
    let n = request.sequence.len();
    let alone = |sequence: Vec<u8>| mask(&Request { forward_only: true, sequence, ..request.clone() }).unwrap();
    let forward = alone(request.sequence.clone());
    let reverse: Vec<Interval> = match request.forward_only {
        true => Vec::new(),
        false => alone(reverse_complement(&request.sequence)).into_iter().map(|(s, e)| (n - e, n - s)).collect(),
    };
    let sees = |list: &[Interval], (start, end): Interval| list.iter().any(|&(s, e)| start <= s && e <= end);
    let words = mask_of_both.iter().map(|&interval| match (sees(&forward, interval), sees(&reverse, interval)) {
        (true, true) => "both\t0\t.",
        (true, false) => "forward\t0\t+",
        (false, true) => "reverse\t0\t-",
        (false, false) => unreachable!("an interval that no strand sees"),
    });
    words.collect()
}

/// Which letters are masked, one by one.
fn flags(n: usize, mask: &[Interval]) -> Vec<bool> {
    let mut flags = vec![false; n];
    mask.iter().for_each(|&(start, end)| flags[start..end].fill(true));
    flags
}

fn count(flags: &[bool]) -> usize {
    flags.iter().filter(|&&flag| flag).count()
}

fn write_letters(out: &mut impl Write, record: &Record, masked: &[bool], shown: impl Fn(u8) -> u8) -> io::Result<()> {
    out.write_all(record.header)?;
    let mut at = 0;
    for line in &record.lines {
        let flags = &masked[at..at + line.len()];
        let line: Vec<u8> = line.iter().zip(flags).map(|(&byte, &is)| if is { shown(byte) } else { byte }).collect();
        out.write_all(b"\n")?;
        out.write_all(&line)?;
        at += line.len();
    }
    out.write_all(b"\n")
}

/// A refused record passes through as it came in FASTA, and is left out in the other forms.
fn write_record(out: &mut impl Write, settings: Settings, record: &Record, options: &Request) -> io::Result<()> {
    let Settings { form, min_length, skip_short } = settings;
    let request = Request { sequence: record.lines.concat(), ..options.clone() };
    let n = request.sequence.len();
    let mask = match (mask(&request), form) {
        (Ok(mask), _) => mask,
        (Err(3), _) if skip_short => Vec::new(),
        (Err(_), Form::Soft | Form::Hard(_)) => return write_letters(out, record, &vec![false; n], |byte| byte),
        (Err(_), _) => return Ok(()),
    };
    let masked = flags(n, &mask);
    let name = record.name();
    let is_long = |(start, end): &&Interval| end - start >= min_length;
    let mut line = |text: String| out.write_all(name).and_then(|()| writeln!(out, "\t{text}"));
    match form {
        Form::Bed => mask.iter().filter(is_long).try_for_each(|(start, end)| line(format!("{start}\t{end}"))),
        Form::Marks if mask.is_empty() => Ok(()),
        Form::Marks => {
            let words = strands(&request, &mask);
            let mut lines = mask.iter().zip(words).filter(|(interval, _)| is_long(interval));
            lines.try_for_each(|((start, end), word)| line(format!("{start}\t{end}\t{word}")))
        }
        Form::Summary => {
            let letters = count(&masked);
            line(format!("{n}\t{}\t{letters}\t{:.6}", mask.len(), letters as f64 / n.max(1) as f64))
        }
        Form::Bedgraph(size) => masked.chunks(size).enumerate().try_for_each(|(i, block)| {
            let share = count(block) as f64 / block.len() as f64;
            line(format!("{}\t{}\t{share:.6}", i * size, i * size + block.len()))
        }),
        Form::Soft => write_letters(out, record, &masked, |byte| byte.to_ascii_lowercase()),
        Form::Hard(replacement) => write_letters(out, record, &masked, |_| replacement),
    }
}

fn option(request: &mut Request, settings: &mut Settings, name: &str, value: &str) -> Result<(), String> {
    match (name, value) {
        ("kmer", n) => request.kmer = number(n)?,
        ("window-size", n) => request.window_size = number(n)?,
        ("score-threshold", t) => request.score_threshold = number(t)?,
        ("gc", "uniform") => request.gc = Gc::Uniform,
        ("gc", "auto") => request.gc = Gc::Auto,
        ("gc", share) => request.gc = Gc::Fixed(number(share)?),
        ("xdrop", "none") => request.xdrop = None,
        ("xdrop", n) => request.xdrop = Some(number(n)?),
        ("min-start-cnt", n) => request.min_start_cnt = number(n)?,
        ("approx", "") => request.approx = true,
        ("forward-only", "") => request.forward_only = true,
        ("marks", "") => settings.form = Form::Marks,
        ("soft", "") => settings.form = Form::Soft,
        ("hard", letter) => settings.form = Form::Hard(letter.as_bytes()[0]),
        ("summary", "") => settings.form = Form::Summary,
        ("bedgraph", n) => settings.form = Form::Bedgraph(number(n)?),
        ("min-length", n) => settings.min_length = number(n)?,
        ("skip-short", "") => settings.skip_short = true,
        _ => return Err(format!("not understood: --{name}={value}")),
    }
    Ok(())
}

/// The `genome` command: a file, and before it options of `cisternpea` as `--name` or `--name=value`.
pub fn command(words: &[&str]) -> Result<(), String> {
    let [options @ .., file] = words else { return Err("no file".to_string()) };
    let mut request = Request::default();
    let mut settings = Settings { form: Form::Bed, min_length: 0, skip_short: false };
    for word in options {
        let word = word.strip_prefix("--").ok_or(format!("not understood: {word}"))?;
        let (name, value) = word.split_once('=').unwrap_or((word, ""));
        option(&mut request, &mut settings, name, value)?;
    }
    let text = std::fs::read(file).map_err(|error| format!("{file}: {error}"))?;
    let mut out = BufWriter::new(io::stdout().lock());
    let heading = if let Form::Summary = settings.form { "#name\tletters\tintervals\tmasked\tshare\n" } else { "" };
    let mut write = || {
        out.write_all(heading.as_bytes())?;
        records(&text).iter().try_for_each(|record| write_record(&mut out, settings, record, &request))?;
        out.flush()
    };
    write().map_err(|error| error.to_string())
}

/// A record's letters: mostly few, one time in 30 as many as there is room for.
fn some_letters(rng: &mut Rng, room: usize) -> Vec<u8> {
    let most = rng.pick(&[12, 200, 200, 5000, 5000, 40_000]);
    let most = if rng.one_in(30) { room } else { most };
    let n = rng.below(most.min(room) + 1);
    let mut all = match n > 20_000 {
        true => genomes::genome_like(rng.next(), n),
        false => sequence(rng, n),
    };
    if n > 0 && rng.one_in(15) {
        let at = rng.below(n);
        all[at] = rng.pick(b"0 9.>\t\0\x7f\x80\xff");
    }
    all
}

/// Letters in lines of one length or of several; a line cannot begin with `>`.
fn write_lines(out: &mut Vec<u8>, rng: &mut Rng, letters: &[u8], end: &[u8]) {
    let width = rng.pick(&[1, 60, 60, 60, 70, 1000, usize::MAX]);
    let varies = rng.one_in(5);
    let mut rest = letters;
    while !rest.is_empty() {
        let length = if varies { 1 + rng.below(100) } else { width };
        let (line, more) = rest.split_at(length.min(rest.len()));
        let begins = line[0] == b'>';
        out.push(if begins { b'A' } else { line[0] });
        out.extend(&line[1..]);
        out.extend(end);
        if rng.one_in(200) {
            out.extend(end);
        }
        rest = more;
    }
}

/// A random file of about this many bytes: names of many kinds, lines of many lengths, some records that are
/// refused, some empty lines and, if `crlf` is said, some records with CRLF line ends.
pub fn random(seed: u64, bytes: usize, crlf: bool) -> Result<(), String> {
    let rng = &mut Rng::new(seed, 3);
    let mut out = Vec::new();
    while out.len() < bytes {
        let end: &[u8] = if crlf && rng.one_in(2) { b"\r\n" } else { b"\n" };
        let length = 1 + rng.below(20);
        out.push(b'>');
        out.extend(letters(rng, length, b"abcXYZ0129_|.:>-+\xc3\xa4"));
        out.extend(rng.pick(&[&b""[..], b" some words", b"\tand a tab", b" "]));
        out.extend(end);
        let room = bytes.saturating_sub(out.len());
        let all = some_letters(rng, room);
        write_lines(&mut out, rng, &all, end);
    }
    if rng.one_in(2) {
        out.pop();
    }
    io::stdout().write_all(&out).map_err(|error| error.to_string())
}

#[cfg(test)]
mod tests {
    use super::*;

    #[test]
    fn reads_records() {
        let read: Vec<_> = records(b"\n>one and\tmore\r\nAC\r\n\r\nG>T\n>two\n>x\tx\nNN\r")
            .into_iter()
            .map(|record| (record.name().to_vec(), record.lines.concat()))
            .collect();
        let expected = [("one", "ACG>T"), ("two", ""), ("x", "NN")];
        assert_eq!(read, expected.map(|(name, letters)| (name.into(), letters.into())));
    }

    #[test]
    fn writes_forms() {
        let text = b">a b\nGCGC\n\nAAAAAAAA\nAAGT\n>b c\nA7C\nGTA\n>c\nA\n";
        let write = |form, min_length, skip_short| {
            let mut out = Vec::new();
            let options = Request { kmer: 3, ..Request::default() };
            let settings = Settings { form, min_length, skip_short };
            records(text).iter().for_each(|record| write_record(&mut out, settings, record, &options).unwrap());
            String::from_utf8(out).unwrap()
        };
        assert_eq!(write(Form::Bed, 10, false), "a\t4\t14\n");
        assert_eq!(write(Form::Bed, 11, false), "");
        assert_eq!(write(Form::Marks, 10, true), "a\t4\t14\tboth\t0\t.\n");
        assert_eq!(write(Form::Marks, 11, true), "");
        let refused = ">b c\nA7C\nGTA\n>c\nA\n";
        assert_eq!(write(Form::Soft, 11, false), format!(">a b\nGCGC\n\naaaaaaaa\naaGT\n{refused}"));
        assert_eq!(write(Form::Hard(b'X'), 11, true), format!(">a b\nGCGC\n\nXXXXXXXX\nXXGT\n{refused}"));
        assert_eq!(write(Form::Summary, 11, false), "a\t16\t1\t10\t0.625000\n");
        assert_eq!(write(Form::Summary, 0, true), "a\t16\t1\t10\t0.625000\nc\t1\t0\t0\t0.000000\n");
        assert_eq!(write(Form::Bedgraph(10), 0, false), "a\t0\t10\t0.600000\na\t10\t16\t0.666667\n");
    }
}
