//! Masked copies: the port against a plain copy, on random requests, and how long both take.

use crate::generate::Rng;
use std::time::Instant;

/// Bytes that stand behind the lent buffer and are no part of it.
pub const GUARD: usize = 16;
/// How many differing requests are printed.
const SHOWN: usize = 3;

/// A request, and the buffer that is lent for it, with its guard.
#[derive(Clone, Debug, PartialEq)]
pub struct Request {
    pub sequence: Vec<u8>,
    pub list: Vec<[u32; 2]>,
    pub lower_case: u32,
    pub replacement: u8,
    pub copy: Vec<u8>,
}

/// Something that answers as the C interface does: the number of bytes copied, or minus a refusal.
pub type Port = fn(&mut Request) -> i64;

/// The request's own words: each letter is looked up in the whole list.
fn plain(request: &mut Request) -> i64 {
    let Request { sequence, list, lower_case, replacement, copy } = request;
    if *lower_case == 0 && !b"NX".contains(replacement) {
        return -12;
    }
    if copy.len() - GUARD < sequence.len() {
        return -11;
    }
    for (x, &letter) in sequence.iter().enumerate() {
        let masked = list.iter().any(|&[start, end]| start as usize <= x && x < end as usize);
        copy[x] = match (masked, *lower_case) {
            (false, _) => letter,
            (true, 0) => *replacement,
            (true, _) => letter.to_ascii_lowercase(),
        };
    }
    sequence.len() as i64
}

/// An end of an entry: near a letter, near the last one, or far off.
fn place(rng: &mut Rng, n: usize) -> u32 {
    match rng.below(8) {
        0 => (n + 1).saturating_sub(rng.below(3)) as u32,
        1 => u32::MAX - rng.below(2) as u32,
        2 => rng.next() as u32,
        _ => rng.below(n + 2) as u32,
    }
}

fn entry(rng: &mut Rng, n: usize) -> [u32; 2] {
    let start = place(rng, n);
    match rng.one_in(2) {
        true => [start, place(rng, n)],
        false => [start, start.saturating_add(rng.below(9) as u32)],
    }
}

/// The request of this number in the list of a seed.
fn request(seed: u64, number: u64) -> Request {
    let rng = &mut Rng::new(seed, number);
    let longest = rng.pick(&[1, 3, 20, 70, 500]);
    let n = rng.below(longest);
    let any: Vec<u8> = (0..=255).collect();
    let alphabet = rng.pick(&[&b"ACGT"[..], b"ACGTNXacgtnx-*", b"@AZ[`az{", &any]);
    let entries = rng.pick(&[0, 1, 2, 5, 30]);
    let room = match rng.below(6) {
        0 => rng.below(n + 1),
        1 => n.saturating_sub(1),
        2 => n + rng.below(40),
        _ => n,
    };
    Request {
        sequence: (0..n).map(|_| rng.pick(alphabet)).collect(),
        list: (0..entries).map(|_| entry(rng, n)).collect(),
        lower_case: rng.pick(&[0, 0, 0, 1, 2, 256, u32::MAX]),
        replacement: match rng.one_in(8) {
            true => rng.next() as u8,
            false => rng.pick(b"NNNNXXXXnxMOWY"),
        },
        copy: (0..room + GUARD).map(|_| rng.next() as u8).collect(),
    }
}

/// The `copies` command: every answer, the whole buffer, and that letters and list are as they were.
pub fn command(port: Port, seed: u64, count: u64) -> (u64, u64) {
    let (mut lower_case, mut replaced, mut refused, mut failed) = (0, 0, [0, 0], 0);
    for number in 0..count {
        let request = request(seed, number);
        let (mut ours, mut theirs) = (request.clone(), request.clone());
        let (said, right) = (port(&mut ours), plain(&mut theirs));
        match right {
            -11 => refused[0] += 1,
            -12 => refused[1] += 1,
            _ if request.lower_case == 0 => replaced += 1,
            _ => lower_case += 1,
        }
        if (said, &ours) != (right, &theirs) {
            failed += 1;
            if failed <= SHOWN as u64 {
                println!("request {number} of seed {seed}: {request:?}\nsaid {said}, not {right}: {:?}", ours.copy);
            }
        }
    }
    println!(
        "in lower case {lower_case}, replaced {replaced}, refused by number 11: {} 12: {}",
        refused[0], refused[1]
    );
    (count - failed, failed)
}

/// A copy by the machine's own means, then a pass over the masked letters.
fn quick(request: &mut Request) -> i64 {
    let Request { sequence, list, lower_case, replacement, copy } = request;
    copy[..sequence.len()].copy_from_slice(sequence);
    for &[start, end] in list.iter() {
        let part = &mut copy[start as usize..end as usize];
        match *lower_case {
            0 => part.fill(*replacement),
            _ => part.make_ascii_lowercase(),
        }
    }
    sequence.len() as i64
}

/// The `copies bench` command: n letters, a tenth of them masked in intervals of some 50 or 1,000 letters.
pub fn bench(port: Port) {
    let n = 100_000_000;
    let rng = &mut Rng::new(1, 0);
    let sequence: Vec<u8> = (0..n).map(|_| rng.pick(b"ACGT")).collect();
    for (letters, lower_case) in [(50, 0), (50, 1), (1000, 0), (1000, 1)] {
        let list = (0..n / (10 * letters)).map(|i| [0, letters].map(|x| (10 * letters * i + x) as u32)).collect();
        let copy = vec![0; n + GUARD];
        let mut request = Request { sequence: sequence.clone(), list, lower_case, replacement: b'N', copy };
        let mut seconds = [(); 2].map(|_| Vec::new());
        for _ in 0..9 {
            for (call, seconds) in [quick, port].into_iter().zip(&mut seconds) {
                let start = Instant::now();
                let said = call(&mut request);
                seconds.push(start.elapsed().as_secs_f64());
                assert_eq!(said, n as i64);
            }
        }
        let [quick, port] = seconds.map(|mut seconds| {
            seconds.sort_by(f64::total_cmp);
            seconds[4]
        });
        let how = ["N for each", "lower case"][lower_case as usize];
        println!(
            "{how}, intervals of {letters}: copy and pass {quick:.3} s, port {port:.3} s, ratio {:.2}",
            port / quick
        );
    }
}

#[cfg(test)]
mod tests {
    use super::*;

    /// Right, but for one change of what is asked, or of what is answered.
    const WRONG: &[(&str, Port)] = &[
        ("end held", |request| asked(request, |[start, end]| [start, end.saturating_add(1)])),
        ("start not held", |request| asked(request, |[start, end]| [start.saturating_add(1), end])),
        ("reversed entries", |request| asked(request, |[start, end]| [start.min(end), start.max(end)])),
        ("far entries", |request| {
            let n = request.sequence.len() as u32;
            asked(request, |[start, end]| if end > n { [0, 0] } else { [start, end] })
        }),
        ("only the first entry", |request| {
            let list = request.list.split_off(request.list.len().min(1));
            let said = plain(request);
            request.list.extend(list);
            said
        }),
        ("size first", |request| match plain(request) {
            -12 if request.copy.len() - GUARD < request.sequence.len() => -11,
            said => said,
        }),
        ("any replacement in lower case", |request| match request.replacement {
            b'N' | b'X' => plain(request),
            _ => -12,
        }),
        ("n and x too", |request| {
            let replacement = request.replacement;
            request.replacement = replacement.to_ascii_uppercase();
            let said = plain(request);
            request.replacement = replacement;
            said
        }),
        ("high letters", |request| {
            let said = plain(request);
            let n = said.max(0) as usize;
            request.copy[..n].iter_mut().for_each(|byte| *byte &= 127);
            said
        }),
        ("past the copy", |request| {
            let said = plain(request);
            if let Some(byte) = usize::try_from(said).ok().and_then(|n| request.copy.get_mut(n)) {
                *byte = 0;
            }
            said
        }),
        ("written when refused", |request| {
            let said = plain(request);
            if said < 0 {
                request.copy[0] = 0;
            }
            said
        }),
    ];

    fn asked(request: &mut Request, change: impl Fn([u32; 2]) -> [u32; 2]) -> i64 {
        let list = request.list.clone();
        request.list.iter_mut().for_each(|entry| *entry = change(*entry));
        let said = plain(request);
        request.list = list;
        said
    }

    #[test]
    fn a_plain_copy_passes() {
        assert_eq!(command(plain, 1, 2000), (2000, 0));
    }

    #[test]
    fn wrong_copies_are_found() {
        for (name, wrong) in WRONG {
            assert!(command(*wrong, 1, 2000).1 > 0, "{name}");
        }
    }

    #[test]
    fn a_worked_example() {
        let list = vec![[6, 9], [1, 3], [2, 4], [5, 5], [4, 2]];
        let sequence = b"ACGTN-7\xc8".to_vec();
        for (lower_case, replacement, shown) in [(1, 0, b"AcgtN-7\xc8"), (0, b'N', b"ANNNN-NN"), (0, b'X', b"AXXXN-XX")]
        {
            let (sequence, list, copy) = (sequence.clone(), list.clone(), vec![0; 8 + GUARD]);
            let mut request = Request { sequence, list, lower_case, replacement, copy };
            assert_eq!(plain(&mut request), 8);
            assert_eq!(request.copy[..8], shown[..]);
        }
    }
}
