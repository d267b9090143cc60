//! Holds the proved masker against the Rust it was made from: `compare` without words lists the commands.

mod common {
    #![allow(dead_code)]
    include!(concat!(env!("OUT_DIR"), "/common.rs"));
}
#[cfg(port)]
mod archive;
mod bench;
mod contigs;
mod copies;
mod fasta;
mod formulas;
mod generate;
mod genome;
mod genomes;
mod lists;
mod original;
mod port;
mod questions;
mod random;
mod record;
mod request;
mod sets;
mod strongest;
mod strongest_list;
mod short;
mod small;
mod strands;
#[cfg(test)]
mod tests;
mod tracks;

use port::{Buffers, Port};
use request::{Answer, Request};
use std::io::{self, Write};
use std::{env, fs, process};

// The original's limits, which it reads from the root of its crate.
include!(concat!(env!("OUT_DIR"), "/limits.rs"));

const USAGE: &str = "\
compare answer FILE        one request (its form: src/request.rs), answered by the port
compare original FILE      the same by the original
compare random SEED COUNT  both on random requests, every result and buffer compared
compare long SEED COUNT    the same on long sequences or wide windows; 240 are one round of every k and size
compare cases              both on the paper's cases
compare tables             filled tables bit by bit, over k, w and GC
compare copies SEED COUNT  masked copies, the port's against a plain one, on random requests
compare copies bench       seconds of both at 100,000,000 letters
compare contigs SEED COUNT the program contigs on its cases and on random FASTA files, its text against the original's masks
compare contigs text FILE  what contigs has to print for a file, by the original
compare contigs cases      what crates/cases has to print for files, by the original
compare questions SEED COUNT  questions about a position, the port's answers against plain walks, on random batches
compare questions bench    questions per second of both, 1,000,000 intervals in 2,000,000,000 letters
compare tracks SEED COUNT  joined tracks, the port's against a plain join letter by letter, on random pairs
compare tracks beds FOLDER SEED COUNT  larger pairs as BED files, for compare/bedtools.sh
compare tracks held FOLDER SEED COUNT  the port on these pairs against what bedtools made of them
compare strands SEED COUNT one strand alone, both joined and the tables alone against the original, on random requests
compare strongest SEED COUNT  the strongest stretch at a letter, the port's against a plain search
compare strongest-list SEED COUNT  the strongest stretches of a contig, the port's against a plain search
compare strongest-list pieces FILE COUNT  the same on pieces of a FASTA file, 20,000 letters each
compare short              the table of all short sequences, by the original: crates/short_sequences_table/stdout
compare short port         the port's call for it, on every size and past the bounds
compare small SEED COUNT   the small profile against the original and the filling call, on random requests
compare small bench        probes a second
compare large [quick]      windows of 65,535 letters; quick: narrower ones
compare fasta FILE..       both on every record of FASTA files, with intervals, share masked and seconds;
                           before the files, k=K sets k, and letters=N cuts a record after N letters
compare genome [--OPTION[=VALUE]].. FILE
                           what `cisternpea` with these options must write for a FASTA file, by the original
compare random-genome SEED BYTES lf|crlf
                           a random FASTA file; crlf: half of its records with CRLF line ends
compare bench [quick]      letters per second of both, as ratios; quick: under a minute
compare record             the recorded list for crates/replay (its form: src/record.rs)";

fn main() {
    let words: Vec<String> = env::args().skip(1).collect();
    let words: Vec<&str> = words.iter().map(|word| &word[..]).collect();
    let (passed, failed) = match words[..] {
        ["answer", file] => return answer(file),
        ["original", file] => return original(file),
        ["bench"] => return bench::command(port(), false),
        ["bench", "quick"] => return bench::command(port(), true),
        ["genome", ref words @ ..] => return genome::command(words).unwrap_or_else(|error| stop(&error)),
        ["random-genome", seed, bytes, ends @ ("lf" | "crlf")] => {
            let made = genome::random(number(seed), number(bytes) as usize, ends == "crlf");
            return made.unwrap_or_else(|error| stop(&error));
        }
        ["short"] => return print!("{}", short::table()),
        ["short", "port"] => short::command(short_port()),
        ["record"] => return print!("{}", record::list()),
        ["random", seed, count] => random::command(port(), generate::request, number(seed), number(count)),
        ["long", seed, count] => random::command(port(), generate::long, number(seed), number(count)),
        ["fasta", ref words @ ..] => fasta::command(port(), words).unwrap_or_else(|error| stop(&error)),
        ["copies", "bench"] => return copies::bench(copies_port()),
        ["copies", seed, count] => copies::command(copies_port(), number(seed), number(count)),
        ["contigs", "cases"] => return print(&contigs::cases_text()),
        ["contigs", "text", file] => return print(&contigs::text(&bytes(file))),
        ["contigs", seed, count] => contigs::command(contigs::program, number(seed), number(count)),
        ["questions", "bench"] => return questions::bench(questions_port()),
        ["questions", seed, count] => questions::command(questions_port(), number(seed), number(count)),
        ["tracks", seed, count] => tracks::command(tracks_port(), number(seed), number(count)),
        ["tracks", "beds", folder, seed, count] => {
            return tracks::beds(folder, number(seed), number(count)).unwrap_or_else(|error| stop(&error.to_string()))
        }
        ["tracks", "held", folder, seed, count] => {
            let held = tracks::held(tracks_port(), folder, number(seed), number(count));
            held.unwrap_or_else(|error| stop(&error.to_string()))
        }
        ["strands", seed, count] => strands::command(strands_port(), number(seed), number(count)),
        ["strongest", seed, count] => strongest::command(strongest_port(), number(seed), number(count)),
        ["strongest-list", "pieces", file, count] => {
            strongest_list::pieces(strongest_list_port(), &bytes(file), number(count) as usize)
        }
        ["strongest-list", seed, count] => strongest_list::command(strongest_list_port(), number(seed), number(count)),
        ["small", "bench"] => return small::bench(small_port(), port()),
        ["small", seed, count] => small::command(small_port(), port(), number(seed), number(count)),
        ["cases"] => sets::cases(port()),
        ["tables"] => sets::tables(port()),
        ["large"] => sets::large(port(), false),
        ["large", "quick"] => sets::large(port(), true),
        _ => stop(USAGE),
    };
    println!("{passed} passed, {failed} failed");
    process::exit((failed > 0) as i32);
}

#[cfg(port)]
fn port() -> Port {
    archive::call
}

#[cfg(port)]
fn copies_port() -> copies::Port {
    archive::masked_copy
}

#[cfg(port)]
fn questions_port() -> questions::Port {
    archive::answer_questions
}

#[cfg(port)]
fn tracks_port() -> tracks::Port {
    archive::join_tracks
}

#[cfg(port)]
fn strands_port() -> strands::Port {
    strands::Port {
        fill: archive::fill_tables,
        strand: archive::strand,
        merge: archive::merge_strands,
        text: archive::refusal_text,
    }
}

#[cfg(port)]
fn strongest_port() -> strongest::Port {
    strongest::port
}

#[cfg(port)]
fn strongest_list_port() -> strongest_list::Port {
    strongest_list::port
}

#[cfg(port)]
fn small_port() -> small::Port {
    archive::small
}

#[cfg(port)]
fn short_port() -> short::Port {
    archive::short_sequences
}

#[cfg(not(port))]
fn port() -> Port {
    stop(WITHOUT_PORT)
}

#[cfg(not(port))]
fn copies_port() -> copies::Port {
    stop(WITHOUT_PORT)
}

#[cfg(not(port))]
fn questions_port() -> questions::Port {
    stop(WITHOUT_PORT)
}

#[cfg(not(port))]
fn tracks_port() -> tracks::Port {
    stop(WITHOUT_PORT)
}

#[cfg(not(port))]
fn strands_port() -> strands::Port {
    stop(WITHOUT_PORT)
}

#[cfg(not(port))]
fn strongest_port() -> strongest::Port {
    stop(WITHOUT_PORT)
}

#[cfg(not(port))]
fn strongest_list_port() -> strongest_list::Port {
    stop(WITHOUT_PORT)
}

#[cfg(not(port))]
fn small_port() -> small::Port {
    stop(WITHOUT_PORT)
}

#[cfg(not(port))]
fn short_port() -> short::Port {
    stop(WITHOUT_PORT)
}

#[cfg(not(port))]
const WITHOUT_PORT: &str = "built without the port: run `rt lib` in crates/longdust_c, then build this program again";

fn number(word: &str) -> u64 {
    word.parse().unwrap_or_else(|_| stop(USAGE))
}

fn stop(message: &str) -> ! {
    eprintln!("{message}");
    process::exit(2)
}

fn bytes(file: &str) -> Vec<u8> {
    fs::read(file).unwrap_or_else(|error| stop(&format!("{file}: {error}")))
}

fn print(text: &[u8]) {
    io::stdout().write_all(text).unwrap_or_else(|error| stop(&format!("standard output: {error}")));
}

fn read(file: &str) -> Request {
    Request::parse(&bytes(file)).unwrap_or_else(|error| stop(&format!("{file}: {error}")))
}

fn answer(file: &str) {
    let request = read(file);
    let mut buffers = Buffers::new(&request);
    let result = port()(&request, &mut buffers);
    match buffers.answer(result) {
        Ok(answer) => show(&request, &answer),
        Err(wrong) => stop(&wrong),
    }
}

fn original(file: &str) {
    let request = read(file);
    show(&request, &original::reference(&request, &Buffers::new(&request)).answer);
}

/// A length without letters is answered only where a check before the buffers' refuses it.
fn show(request: &Request, answer: &Answer) {
    match answer {
        Answer::Refused(11) if request.is_virtual => println!("unsupported"),
        answer => print!("{answer}"),
    }
}
