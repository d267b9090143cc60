//! FASTA files: what the program `contigs` prints, against the original's masks written out by a plain reader.

use crate::generate::{self, Rng};
use crate::original;
use crate::port::Buffers;
use crate::request::{Answer, Request};
use std::io::Write;
use std::process::{Command, Stdio};
use std::sync::Mutex;
use std::thread;

const MOST_BYTES: usize = 65536;
const MOST_LETTERS: usize = 32768;
/// How many differing files are printed.
const SHOWN: usize = 3;

/// Something that prints the text of a file.
pub type Port = fn(&[u8]) -> Vec<u8>;

/// Runs `target/bin/contigs` on a file; what it says on standard error belongs to no right answer.
pub fn program(file: &[u8]) -> Vec<u8> {
    let mut child = Command::new("target/bin/contigs")
        .stdin(Stdio::piped())
        .stdout(Stdio::piped())
        .stderr(Stdio::piped())
        .spawn()
        .unwrap_or_else(|error| crate::stop(&format!("target/bin/contigs: {error} (run ./contigs once)")));
    // The program reads no more than it needs to see that a file is too large.
    let _ = child.stdin.take().unwrap().write_all(file);
    let output = child.wait_with_output().unwrap();
    [output.stdout, output.stderr].concat()
}

struct Record<'a> {
    name: &'a [u8],
    letters: Vec<u8>,
}

/// The records of a file, or the number of its first fault.
fn records(file: &[u8]) -> Result<Vec<Record<'_>>, u32> {
    let mut all: Vec<Record> = Vec::new();
    for line in file.split(|&byte| byte == b'\n') {
        match (line, all.last_mut()) {
            ([b'>', header @ ..], _) => {
                let name = header.split(|&byte| byte == b' ' || byte == b'\t').next().unwrap();
                if name.is_empty() {
                    return Err(15);
                }
                all.push(Record { name, letters: Vec::new() });
            }
            (letters, Some(record)) => record.letters.extend(letters),
            ([], None) => {}
            (_, None) => return Err(14),
        }
    }
    Ok(all)
}

/// What follows a record's name in each of its lines: its letters masked by the original, alone.
fn answers(letters: &[u8]) -> Vec<String> {
    if letters.len() > MOST_LETTERS {
        return vec!["refused\tsize".to_string()];
    }
    let request = Request { sequence: letters.to_vec(), ..Request::default() };
    match original::reference(&request, &Buffers::new(&request)).answer {
        Answer::Refused(number) => vec![format!("refused\t{number}")],
        Answer::Accepted { intervals, .. } => intervals.iter().map(|(start, end)| format!("{start}\t{end}")).collect(),
    }
}

/// The text of a file.
pub fn text(file: &[u8]) -> Vec<u8> {
    if file.len() > MOST_BYTES {
        return b"refused size\n".to_vec();
    }
    match records(file) {
        Err(number) => format!("refused {number}\n").into_bytes(),
        Ok(records) => lines(&records),
    }
}

fn lines(records: &[Record]) -> Vec<u8> {
    let mut text = Vec::new();
    for Record { name, letters } in records {
        for answer in answers(letters) {
            text.extend([name, &b"\t"[..], answer.as_bytes(), b"\n"].concat());
        }
    }
    text
}

/// The files of crates/cases/src/files.rt, each with its title.
fn cases() -> Vec<(&'static str, Vec<u8>)> {
    let a = b"AAAAAAAAAAAA";
    // Two records, the first of 32,768 letters.
    let sized = |first: &[u8], bytes: usize| {
        let mut file = [first, &[b'A'].repeat(32768), b"\n>b\n"].concat();
        file.resize(bytes, b'A');
        file
    };
    let one = |letters: usize| [b">a\n", &[b'A'].repeat(letters)[..]].concat();
    let mut digit = one(32769);
    digit[2000] = b'1';
    let long_letters = [[b'n'].repeat(280), [b'A'].repeat(18), [b'n'].repeat(2)].concat().repeat(5);
    vec![
        ("an empty file", b"".to_vec()),
        ("only line ends", b"\n\n\n".to_vec()),
        ("no line end at the end", [b">a\n", &a[..]].concat()),
        ("headers only", b">a\n>b".to_vec()),
        ("names up to a tab and a blank", [b">a\tb\n", &a[..], b"\n>c d\n", a, b"\n"].concat()),
        ("> in mid-line", [b">a\nAAAAAA>b\nAAAAAA\n>b>c\n", &a[..], b"\n"].concat()),
        ("line ends of two bytes", [b">a\r\n", &a[..], b"\r\n"].concat()),
        ("empty lines between letters", b"\n>a\n\nAAAAAA\n\nAAAAAA\n\n".to_vec()),
        (
            "bytes from 128 on in a name, and in letters",
            [b">\x80\xff\n", &a[..], b"\n>b\n", &a[1..], b"\x80\n"].concat(),
        ),
        ("no interval, and U", b">a\nACGTTGCATC\n>b\nACGUACGTACGUACGTACGT\n".to_vec()),
        ("an empty name first", [b">\n", &a[..], b"\n"].concat()),
        ("an empty name before a blank", [b"> a\n", &a[..], b"\n"].concat()),
        ("an empty name later", [b">a\n", &a[..], b"\n>\tb\n", a, b"\n"].concat()),
        ("an empty name at the end", [b">a\n", &a[..], b"\n>"].concat()),
        ("letters first", [b"ACGT\n>a\n", &a[..], b"\n"].concat()),
        ("a blank first", [b"\n \n>a\n", &a[..], b"\n"].concat()),
        ("letters first, then an empty name", [b"A\n>\n", &a[..], b"\n"].concat()),
        ("digits in one record of three", [b">a\n", &a[..], b"\n>b\nAAAAAA 12\nAAAAAA\n>c\n", a, b"\n"].concat()),
        ("too few letters in one record of three", [b">a\n", &a[..], b"\n>b\nACG\nTACG\n>c\n", a, b"\n"].concat()),
        ("32,768 letters", one(32768)),
        ("32,769 letters", one(32769)),
        ("32,769 letters and a digit", digit),
        ("65,536 bytes", sized(b">a\n", 65536)),
        ("65,537 bytes", sized(b">a\n", 65537)),
        ("65,537 bytes, letters first", sized(b"Aa\n", 65537)),
        ("a name of 30,000 bytes and five intervals", [b">", &[b'n'].repeat(30000)[..], b"\n", &long_letters].concat()),
    ]
}

/// What crates/cases prints for files: for each case its title, its text, and how many bytes the text has.
pub fn cases_text() -> Vec<u8> {
    let case = |(title, file): (&str, Vec<u8>)| {
        let text = text(&file);
        [format!("# {title}\n").as_bytes(), &text, format!("bytes {}\n", text.len()).as_bytes()].concat()
    };
    cases().into_iter().flat_map(case).collect()
}

fn name(rng: &mut Rng) -> Vec<u8> {
    let any: Vec<u8> = (0..=255).filter(|byte| !b"\n\t ".contains(byte)).collect();
    let usual = &b"chrXIV_0123456789.>|"[..];
    let (longest, alphabet) = match rng.below(200) {
        0 => (40_000, usual),
        1..=60 => (200, usual),
        61..=130 => (10, usual),
        _ => (3, &any[..]),
    };
    let length = 1 + rng.below(longest);
    generate::letters(rng, length, alphabet)
}

fn header(rng: &mut Rng) -> Vec<u8> {
    let name = if rng.one_in(50) { Vec::new() } else { name(rng) };
    let rest = rng.pick(&[&b""[..], b"", b"", b" ", b"\t", b" a record\twith more", b"\t>b c", b"\r"]);
    [b">", &name[..], rest, b"\n"].concat()
}

/// Letters in lines, now and then with a byte that a record should not hold.
fn letters(rng: &mut Rng) -> Vec<u8> {
    let n = match rng.below(400) {
        0 => MOST_LETTERS - 1 + rng.below(3),
        1..=4 => 4990 + rng.below(30),
        5..=60 => rng.below(10),
        61..=90 => rng.below(2000),
        _ => rng.below(150),
    };
    let mut letters = generate::sequence(rng, n);
    if n > 0 && rng.one_in(8) {
        let place = rng.below(n);
        letters[place] = rng.pick(b">>\r \t1\0\x7f\x80\xff;");
    }
    let width = rng.pick(&[60, 70, 1 + n, 1 + n / 2, 3]);
    let mut lines = Vec::new();
    for line in letters.chunks(width) {
        lines.extend(line);
        lines.extend([b'\n'].repeat(1 + (rng.one_in(30) as usize)));
    }
    lines
}

/// The file of this number in the list of a seed.
fn file(seed: u64, number: u64) -> Vec<u8> {
    let rng = &mut Rng::new(seed, number);
    let mut file = rng.pick(&[&b""[..], b"", b"", b"", b"", b"\n", b"\n\n"]).to_vec();
    if rng.one_in(40) {
        file.extend(letters(rng));
    }
    for _ in 0..rng.pick(&[0, 1, 1, 2, 3, 5]) {
        file.extend(header(rng));
        file.extend(letters(rng));
    }
    if rng.one_in(3) {
        file.pop();
    }
    if rng.one_in(100) {
        let length = MOST_BYTES - 1 + rng.below(4);
        let missing = vec![rng.pick(b"\nN"); length.saturating_sub(file.len())];
        file = if rng.one_in(2) { [missing, file].concat() } else { [file, missing].concat() };
        file.truncate(length);
    }
    file
}

/// The `contigs` command: the cases, then random files.
pub fn command(port: Port, seed: u64, count: u64) -> (u64, u64) {
    let mut files: Vec<(String, Vec<u8>)> =
        cases().into_iter().map(|(title, file)| (title.to_string(), file)).collect();
    files.extend((0..count).map(|number| (format!("file {number} of seed {seed}"), file(seed, number))));
    let (next, seen) = (Mutex::new(files.iter()), Mutex::new(Seen::default()));
    let work = || loop {
        let taken = next.lock().unwrap().next();
        let Some((title, file)) = taken else { break };
        let (said, right) = (port(file), text(file));
        let mut seen = seen.lock().unwrap();
        seen.add(file, &right);
        if said != right {
            seen.failed += 1;
            if seen.failed <= SHOWN as u64 {
                println!("{title}: {:?}", shown(file));
                println!("said {:?}\nnot  {:?}", shown(&said), shown(&right));
            }
        }
    };
    thread::scope(|scope| {
        scope.spawn(work);
        scope.spawn(work);
    });
    let seen = seen.into_inner().unwrap();
    println!(
        "files refused, size {} 14: {} 15: {}; records {}, of these refused {}; intervals {}",
        seen.refused_size, seen.refused_14, seen.refused_15, seen.records, seen.records_refused, seen.intervals
    );
    (files.len() as u64 - seen.failed, seen.failed)
}

/// The first bytes of a text.
fn shown(text: &[u8]) -> String {
    String::from_utf8_lossy(&text[..text.len().min(2000)]).into_owned()
}

/// What the right answers were.
#[derive(Default)]
struct Seen {
    refused_size: u64,
    refused_14: u64,
    refused_15: u64,
    records: u64,
    records_refused: u64,
    intervals: u64,
    failed: u64,
}

impl Seen {
    fn add(&mut self, file: &[u8], text: &[u8]) {
        match text {
            b"refused size\n" => self.refused_size += 1,
            b"refused 14\n" => self.refused_14 += 1,
            b"refused 15\n" => self.refused_15 += 1,
            _ => {
                let lines = text.split(|&byte| byte == b'\n').filter(|line| !line.is_empty());
                let (refused, intervals): (Vec<_>, Vec<_>) =
                    lines.partition(|line| line.windows(9).any(|word| word == b"\trefused\t"));
                self.records += records(file).map_or(0, |records| records.len() as u64);
                self.records_refused += refused.len() as u64;
                self.intervals += intervals.len() as u64;
            }
        }
    }
}

#[cfg(test)]
mod tests {
    use super::*;

    /// As many files of seed 1 as compare/run runs.
    const FILES: u64 = 2000;

    /// Right, but for one change of the file that is read, of the records, or of the text.
    const WRONG: &[(&str, Port)] = &[
        ("carriage returns dropped", |file| text(&replaced(file, b'\r', b""))),
        ("> in mid-line opens a record", |file| text(&replaced(file, b'>', b"\n>"))),
        ("a tab in a name", |file| text(&replaced(file, b'\t', b"_"))),
        ("a blank in a name", |file| text(&replaced(file, b' ', b"_"))),
        ("the rest of a header in the letters", |file| text(&replaced(file, b' ', b"\n"))),
        ("a line without its end lost", |file| {
            text(&file[..file.iter().rposition(|&byte| byte == b'\n').map_or(0, |last| last + 1)])
        }),
        (
            "65,536 bytes refused",
            |file| if file.len() == MOST_BYTES { text(&vec![0; MOST_BYTES + 1]) } else { text(file) },
        ),
        ("65,537 bytes taken", |file| if file.len() == MOST_BYTES + 1 { of_records(file) } else { text(file) }),
        ("faults before the size", |file| if records(file).is_err() { of_records(file) } else { text(file) }),
        ("32,768 letters refused", |file| {
            changed(file, |record| {
                if record.letters.len() == MOST_LETTERS {
                    record.letters.push(b'A');
                }
            })
        }),
        ("32,769 letters taken", |file| {
            changed(file, |record| {
                if record.letters.len() == MOST_LETTERS + 1 {
                    record.letters.pop();
                }
            })
        }),
        ("the letters of records run together", |file| {
            let mut before = Vec::new();
            changed(file, |record| {
                before.append(&mut record.letters);
                record.letters = before.clone();
            })
        }),
        ("letters before the first name dropped", |file| match records(file) {
            Err(14) => text(&file[file.windows(2).position(|pair| pair == b"\n>").map_or(file.len(), |end| end + 1)..]),
            _ => text(file),
        }),
        ("15 for letters first", |file| if records(file).is_err() { text(b">") } else { text(file) }),
        ("records before a fault", |file| {
            let fault = text(file);
            let end = file.windows(2).rposition(|pair| pair == b"\n>").unwrap_or(0);
            let before = if fault == b"refused 15\n" { text(&file[..end]) } else { Vec::new() };
            if before == fault {
                fault
            } else {
                [before, fault].concat()
            }
        }),
        ("nothing after a refused record", |file| {
            let text = text(file);
            let end = text.windows(9).position(|word| word == b"\trefused\t");
            end.map_or(text.clone(), |end| text[..end + 11].to_vec())
        }),
        ("refused and a blank", |file| replaced(&text(file), b'\t', b" ")),
        ("the last line twice", |file| {
            let text = text(file);
            let last = text.split_inclusive(|&byte| byte == b'\n').last().unwrap_or(b"").to_vec();
            [text, last].concat()
        }),
    ];

    fn replaced(file: &[u8], byte: u8, with: &[u8]) -> Vec<u8> {
        file.iter().flat_map(|&other| if other == byte { with.to_vec() } else { vec![other] }).collect()
    }

    /// The text of a file of any size.
    fn of_records(file: &[u8]) -> Vec<u8> {
        records(file).map_or_else(|number| format!("refused {number}\n").into_bytes(), |records| lines(&records))
    }

    /// The text of a file with each of its records changed.
    fn changed(file: &[u8], mut change: impl FnMut(&mut Record)) -> Vec<u8> {
        match records(file) {
            Ok(mut records) if file.len() <= MOST_BYTES => {
                records.iter_mut().for_each(&mut change);
                lines(&records)
            }
            _ => text(file),
        }
    }

    #[test]
    fn random_files_tell_every_wrong_program() {
        let mut left = WRONG.to_vec();
        for number in 0..FILES {
            let file = file(1, number);
            let right = text(&file);
            left.retain(|(_, wrong)| wrong(&file) == right);
        }
        assert_eq!(left.iter().map(|(name, _)| *name).collect::<Vec<_>>(), [""; 0]);
    }

    #[test]
    fn reads_records() {
        let read = |file: &[u8]| {
            records(file).map(|all| all.into_iter().map(|r| (r.name.to_vec(), r.letters)).collect::<Vec<_>>())
        };
        let pair = |name: &[u8], letters: &[u8]| (name.to_vec(), letters.to_vec());
        assert_eq!(read(b"\n>a one\nAC\n\nG>T\n>b\ttwo\nT"), Ok(vec![pair(b"a", b"ACG>T"), pair(b"b", b"T")]));
        assert_eq!(read(b">a\n>b\r\nA\r\n"), Ok(vec![pair(b"a", b""), pair(b"b\r", b"A\r")]));
        assert_eq!(read(b"\n\n"), Ok(vec![]));
        assert_eq!(read(b"\nA\n>\n"), Err(14));
        assert_eq!(read(b">a\nA\n>\n"), Err(15));
        assert_eq!(read(b"> a\nA\n"), Err(15));
    }
}
