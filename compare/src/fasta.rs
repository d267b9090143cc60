//! Both sides on the records of FASTA files, with the usual options.

use crate::bench;
use crate::original::refusal_before_sizes;
use crate::port::{difference, Buffers, Port};
use crate::random::kinds;
use crate::request::{number, Request};
use std::fs;

struct Record {
    name: String,
    letters: Vec<u8>,
}

/// Bytes 10 and 13 are dropped; a name ends at the first blank.
fn records(text: &[u8]) -> Vec<Record> {
    let mut all: Vec<Record> = Vec::new();
    for line in text.split(|&byte| byte == b'\n') {
        let line = line.strip_suffix(b"\r").unwrap_or(line);
        match (line, all.last_mut()) {
            ([b'>', header @ ..], _) => {
                let name = String::from_utf8_lossy(header).split_whitespace().next().unwrap_or("").to_string();
                all.push(Record { name, letters: Vec::new() });
            }
            (letters, Some(record)) => record.letters.extend(letters),
            (letters, None) => all.push(Record { name: String::new(), letters: letters.to_vec() }),
        }
    }
    all
}

/// Letters, letters masked and seconds of both, summed up over the records of a run.
#[derive(Default)]
struct Sum {
    letters: usize,
    intervals: usize,
    masked: usize,
    original: f64,
    port: f64,
}

impl Sum {
    fn print(&self, name: &str, same: bool) {
        let share = 100.0 * self.masked as f64 / self.letters as f64;
        let (original, port) = (self.original, self.port);
        let differs = if same { "" } else { "  differs" };
        println!(
            "{:>11} {:>9} {share:>8.2} {original:>11.3} {port:>9.3} {:>6.2}  {name}{differs}",
            self.letters,
            self.intervals,
            original / port
        );
    }

    fn add(&mut self, other: &Sum) {
        self.letters += other.letters;
        self.intervals += other.intervals;
        self.masked += other.masked;
        self.original += other.original;
        self.port += other.port;
    }
}

/// The `fasta` command: files, before them a k and a number of letters after which each record is cut.
pub fn command(port: Port, words: &[&str]) -> Result<(u64, u64), String> {
    let (mut kmer, mut most, mut files) = (Request::default().kmer, usize::MAX, Vec::new());
    for word in words {
        match word.split_once('=') {
            Some(("k", n)) => kmer = number(n)?,
            Some(("letters", n)) => most = number(n)?,
            _ => files.push(word),
        }
    }
    let (mut passed, mut failed, mut accepted, mut before_first, mut sum) = (0, 0, 0, 0, Sum::default());
    println!(
        "k {kmer}, other options the defaults, formula tables lent to both; one turn, original first; processor time"
    );
    println!("    letters intervals  masked%  original s    port s  ratio  record");
    for file in files {
        let text = fs::read(file).map_err(|error| format!("{file}: {error}"))?;
        for Record { name, mut letters } in records(&text) {
            letters.truncate(most);
            let request = bench::request(kmer, letters);
            let same = match refusal_before_sizes(&request) {
                Some(number) => {
                    println!("refused {number}  {name}");
                    difference(port, &request).1.is_none()
                }
                None => {
                    let turn = bench::turn(port, &request, &mut Buffers::new(&request), &mut None);
                    let record = Sum {
                        letters: request.sequence.len(),
                        intervals: turn.mask.len(),
                        masked: turn.mask.iter().map(|(start, end)| end - start).sum(),
                        original: turn.original_seconds,
                        port: turn.port_seconds,
                    };
                    record.print(&name, turn.same);
                    sum.add(&record);
                    accepted += 1;
                    before_first += turn.before_first as u64;
                    turn.same
                }
            };
            passed += same as u64;
            failed += !same as u64;
        }
    }
    sum.print("all", true);
    println!("{}", kinds(accepted, before_first));
    Ok((passed, failed))
}

#[cfg(test)]
mod tests {
    use super::*;

    #[test]
    fn reads_records() {
        let text = b">one and more\r\nAC\r\nGT\r\n\r\n>two\nA\n>\n>four\nNN";
        let read: Vec<_> = records(text).into_iter().map(|record| (record.name, record.letters)).collect();
        let expected = [("one", "ACGT"), ("two", "A"), ("", ""), ("four", "NN")];
        assert_eq!(read, expected.map(|(name, letters)| (name.to_string(), letters.into())));
    }
}
