//! Questions about a position: the port against plain walks over the list, on random batches, and how fast both answer.

use crate::bench::{median, processor_seconds};
use crate::generate::Rng;
use crate::lists::{break_list, list, room, usual};

/// Entries that stand behind each lent buffer and are no part of it.
pub const GUARD: usize = 4;
/// How many differing batches are printed.
const SHOWN: usize = 3;
const BLOCK: u64 = 1024;
const NONE: [u32; 2] = [u32::MAX, 0];

/// A batch, and the buffers that are lent for it, with their guards.
#[derive(Clone, Debug, PartialEq)]
pub struct Request {
    pub n: usize,
    pub list: Vec<[u32; 2]>,
    pub questions: Vec<[u32; 3]>,
    pub summary: Vec<u32>,
    pub results: Vec<[u32; 2]>,
}

/// Something that answers as the C interface does: the number of questions answered, or minus a refusal.
pub type Port = fn(&mut Request) -> i64;

fn bad(n: u64, [kind, a, b]: [u32; 3]) -> bool {
    match kind {
        0 => a as u64 >= n,
        1..=3 => a >= b || b as u64 > n,
        _ => true,
    }
}

fn distance(x: u32, [start, end]: [u32; 2]) -> u32 {
    match x < start {
        true => start - x - 1,
        false => x.saturating_sub(end),
    }
}

/// How many letters of an interval lie in [a, b).
fn inside(a: u64, b: u64, [start, end]: [u32; 2]) -> u64 {
    (end as u64).min(b).saturating_sub((start as u64).max(a))
}

fn masked(list: &[[u32; 2]], a: u64, b: u64) -> u64 {
    list.iter().map(|&interval| inside(a, b, interval)).sum()
}

/// The first index and how many.
fn all_that(list: &[[u32; 2]], test: impl Fn([u32; 2]) -> bool) -> [u32; 2] {
    let mut answer = NONE;
    for (index, &interval) in list.iter().enumerate() {
        if test(interval) {
            answer = [answer[0].min(index as u32), answer[1] + 1];
        }
    }
    answer
}

fn nearest(list: &[[u32; 2]], x: u32) -> [u32; 2] {
    let least = list.iter().enumerate().map(|(index, &interval)| (distance(x, interval), index)).min();
    least.map_or(NONE, |(distance, index)| [index as u32, distance])
}

fn share(list: &[[u32; 2]], a: u32, b: u32) -> [u32; 2] {
    let (parts, letters) = (10_000 * masked(list, a as u64, b as u64), (b - a) as u64);
    [(parts / letters) as u32, (parts % letters) as u32]
}

/// The request's own words: each answer is a walk over the whole list.
fn answer(list: &[[u32; 2]], [kind, a, b]: [u32; 3]) -> [u32; 2] {
    match kind {
        0 => nearest(list, a),
        1 => all_that(list, |[start, end]| a <= start && end <= b),
        2 => all_that(list, |[start, end]| start.max(a) < end.min(b) && (start < a || b < end)),
        _ => share(list, a, b),
    }
}

fn blocks(n: u64) -> u64 {
    n / BLOCK + (n % BLOCK > 0) as u64
}

fn plain(request: &mut Request) -> i64 {
    let Request { n, list, questions, summary, results } = request;
    let n = *n as u64;
    if n > 2_147_483_647 {
        return -10;
    }
    if !usual(list, n) {
        return -16;
    }
    if ((summary.len() - GUARD) as u64) < blocks(n) || results.len() - GUARD < questions.len() {
        return -11;
    }
    if questions.iter().any(|&question| bad(n, question)) {
        return -17;
    }
    for j in 0..blocks(n) {
        summary[j as usize] = masked(list, BLOCK * j, BLOCK * (j + 1)) as u32;
    }
    for (result, &question) in results.iter_mut().zip(questions.iter()) {
        *result = answer(list, question);
    }
    questions.len() as i64
}

/// A letter or a bound: near an interval's, near a block's, near the ends, or any.
fn place(rng: &mut Rng, n: u64, list: &[[u32; 2]]) -> u64 {
    let near = match rng.below(6) {
        0 | 1 if !list.is_empty() => rng.pick(list)[rng.below(2)] as u64,
        2 => BLOCK * rng.below(blocks(n) as usize + 1) as u64,
        3 => n,
        4 => 0,
        _ => return rng.below(n as usize + 1) as u64,
    };
    (near + rng.below(3) as u64).saturating_sub(1).min(n)
}

/// A question about n letters, n above 0.
fn question(rng: &mut Rng, n: u64, list: &[[u32; 2]]) -> [u32; 3] {
    let kind = rng.below(4) as u32;
    let (a, b) = (place(rng, n, list), place(rng, n, list));
    let (a, b) = (a.min(b).min(n - 1), a.max(b));
    match kind {
        0 => [0, a as u32, rng.next() as u32],
        _ if a == b || rng.one_in(8) => [kind, a as u32, a as u32 + 1],
        _ => [kind, a as u32, b as u32],
    }
}

fn break_question(rng: &mut Rng, n: u64, question: &mut [u32; 3]) {
    let [kind, a, b] = *question;
    let past = (n + 1).min(u32::MAX as u64) as u32;
    *question = match rng.below(8) {
        0 => [0, n as u32, b],
        1 => [0, u32::MAX, b],
        2 => [4, a, b],
        3 => [rng.next() as u32 | 4, 0, 1],
        4 => [kind.max(1), a, a],
        5 => [kind.max(1), b, a],
        6 => [kind.max(1), a, past],
        _ => [kind.max(1), 0, 0],
    };
}

const LENGTHS: [u64; 12] = [1, 2, 1023, 1024, 1025, 2047, 2048, 2049, 3071, 3072, 20_000, 100_000];
/// Around the most letters that are accepted, and far past them.
const MANY: [u64; 5] = [2_147_483_646, 2_147_483_647, 2_147_483_648, 1 << 32, u64::MAX];

/// The batch of this number in the list of a seed.
fn request(seed: u64, number: u64) -> Request {
    let rng = &mut Rng::new(seed, number);
    let n = match rng.below(16) {
        0 => 0,
        1..=4 => rng.below(200) as u64,
        5..=8 => rng.below(6000) as u64,
        9 if rng.one_in(20) => rng.pick(&MANY),
        10 if rng.one_in(20) => rng.pick(&MANY[2..]),
        _ => rng.pick(&LENGTHS),
    };
    let letters = n.min(u32::MAX as u64);
    let mut list = list(rng, letters);
    let count = rng.pick(&[0, 1, 2, 5, 12]);
    let mut questions: Vec<_> = (0..count).map(|_| question(rng, letters.max(1), &list)).collect();
    if rng.one_in(6) {
        break_list(rng, &mut list, letters);
    }
    if rng.one_in(6) {
        if let Some(question) = questions.last_mut() {
            break_question(rng, letters, question);
        }
    }
    let summary = room(rng, blocks(n)) + GUARD;
    let results = room(rng, count) + GUARD;
    Request {
        n: n as usize,
        list,
        questions,
        summary: (0..summary).map(|_| rng.next() as u32).collect(),
        results: (0..results).map(|_| [rng.next() as u32, rng.next() as u32]).collect(),
    }
}

const REFUSALS: [i64; 4] = [10, 16, 11, 17];

/// The `questions` command: every answer, both buffers whole, and that list and questions are as they were.
pub fn command(port: Port, seed: u64, count: u64) -> (u64, u64) {
    let (mut kinds, mut none, mut refused, mut failed) = ([0; 4], 0, [0; 4], 0);
    for number in 0..count {
        let request = request(seed, number);
        let (mut ours, mut theirs) = (request.clone(), request);
        let right = plain(&mut theirs);
        let said = port(&mut ours);
        match REFUSALS.iter().position(|number| right == -number) {
            Some(index) => refused[index] += 1,
            None => {
                theirs.questions.iter().for_each(|question| kinds[question[0] as usize] += 1);
                none += theirs.results[..theirs.questions.len()].iter().filter(|&&result| result == NONE).count();
            }
        }
        if (said, &ours) != (right, &theirs) {
            failed += 1;
            if failed <= SHOWN as u64 {
                println!("batch {number} of seed {seed}: said {said}, not {right}");
                println!("n {}, list {:?}, questions {:?}", theirs.n, theirs.list, theirs.questions);
                println!("results {:?}\nnot     {:?}", ours.results, theirs.results);
            }
        }
    }
    println!("questions by kind {kinds:?}, answered with none {none}");
    println!("batches refused by number {REFUSALS:?}: {refused:?}");
    (count - failed, failed)
}

/// The `questions bench` command: 1,000,000 intervals in 2,000,000,000 letters, 100,000 questions of a kind in a batch.
pub fn bench(port: Port) {
    let (n, intervals, count, walks) = (2_000_000_000, 1_000_000, 100_000, 300);
    let rng = &mut Rng::new(1, 0);
    let step = n / intervals;
    let list: Vec<_> = (0..intervals)
        .map(|i| {
            let start = i * step + rng.below(step / 2);
            [start as u32, (start + 1 + rng.below(step / 2 - 1)) as u32]
        })
        .collect();
    let batch = |questions: Vec<[u32; 3]>| {
        let (summary, results) = (vec![0; blocks(n as u64) as usize + GUARD], vec![[0; 2]; questions.len() + GUARD]);
        Request { n, list: list.clone(), questions, summary, results }
    };
    let seconds = |request: &mut Request| {
        let turns = (0..3).map(|_| {
            let start = processor_seconds();
            let said = port(request);
            assert_eq!(said, request.questions.len() as i64);
            processor_seconds() - start
        });
        median(turns.collect())
    };
    let empty = seconds(&mut batch(Vec::new()));
    println!("{intervals} intervals in {n} letters; check of the list and summary: {empty:.4} s");
    println!("kind                                        questions/s      walks/s     ratio");
    for (name, kind, longest) in [
        ("0 nearest", 0, n),
        ("1 wholly within, any range", 1, n),
        ("2 both inside and outside, any range", 2, n),
        ("3 share, any range", 3, n),
        ("3 share, ranges up to 1,000,000 letters", 3, 1_000_000),
    ] {
        let range = |rng: &mut Rng| {
            let a = rng.below(n - longest + 1);
            let (x, y) = (rng.below(longest), rng.below(longest));
            [kind, (a + x.min(y)) as u32, (a + x.max(y) + 1) as u32]
        };
        let mut request = batch((0..count).map(|_| range(rng)).collect());
        let ours = count as f64 / (seconds(&mut request) - empty);
        let start = processor_seconds();
        for i in 0..walks {
            let right = answer(&list, request.questions[i]);
            assert_eq!(request.results[i], right, "both give the same answer");
        }
        let plain = walks as f64 / (processor_seconds() - start);
        println!("{name:42} {ours:12.0} {plain:12.1} {:9.0}", ours / plain);
    }
}

#[cfg(test)]
mod tests {
    use super::*;

    /// Right, but for the answer to a question or for something around it.
    const WRONG: &[(&str, Port)] = &[
        ("ties to the right", |request| {
            answered(request, |list, question| {
                let [index, between] = answer(list, question);
                let next = index.wrapping_add(1);
                match list.get(next as usize) {
                    Some(&interval) if question[0] == 0 && distance(question[1], interval) == between => {
                        [next, between]
                    }
                    _ => [index, between],
                }
            })
        }),
        ("end at the range's end not within", |request| {
            answered(request, |list, [kind, a, b]| answer(list, [kind, a, b - (kind == 1 && b > a + 1) as u32]))
        }),
        ("start at the range's start not within", |request| {
            answered(request, |list, [kind, a, b]| answer(list, [kind, a + (kind == 1 && b > a + 1) as u32, b]))
        }),
        ("an interval over the whole range is not both", |request| {
            answered(request, |list, [kind, a, b]| match kind {
                2 => all_that(list, |[start, end]| start.max(a) < end.min(b) && ((start < a) != (b < end))),
                _ => answer(list, [kind, a, b]),
            })
        }),
        ("adjacent at a distance of 1", |request| {
            answered(request, |list, question| {
                let [index, between] = answer(list, question);
                let outside = question[0] == 0
                    && list.get(index as usize).is_some_and(|&[start, end]| question[1] < start || end <= question[1]);
                [index, between + outside as u32]
            })
        }),
        ("share rounded up", |request| {
            answered(request, |list, question| {
                let [share, rest] = answer(list, question);
                match question[0] == 3 && rest > 0 {
                    true => [share + 1, 0],
                    false => [share, rest],
                }
            })
        }),
        ("a share of the last block alone", |request| {
            answered(request, |list, [kind, a, b]| match kind {
                3 => share(list, a.max((b - 1) / 1024 * 1024), b),
                _ => answer(list, [kind, a, b]),
            })
        }),
        ("none as 0", |request| {
            answered(request, |list, question| Some(answer(list, question)).filter(|&r| r != NONE).unwrap_or([0, 0]))
        }),
        ("a block with a neighbour's letter", |request| {
            let said = plain(request);
            if said >= 0 {
                for j in 0..blocks(request.n as u64) {
                    request.summary[j as usize] = masked(&request.list, BLOCK * j, BLOCK * (j + 1) + 1) as u32;
                }
            }
            said
        }),
        ("an empty batch without a summary", |request| match request.questions.is_empty() {
            true => plain(&mut request.clone()),
            false => plain(request),
        }),
        ("a result past the batch", |request| {
            let said = plain(request);
            if said >= 0 {
                request.results[said as usize] = [0, 0];
            }
            said
        }),
        ("a block past the last", |request| {
            let said = plain(request);
            if said >= 0 {
                request.summary[blocks(request.n as u64) as usize] = 0;
            }
            said
        }),
        ("written when refused", |request| {
            let said = plain(request);
            if said < 0 {
                request.summary[0] = 0;
            }
            said
        }),
        ("sizes before the list", |request| match plain(request) {
            -16 if request.results.len() - GUARD < request.questions.len() => -11,
            said => said,
        }),
        ("questions before the sizes", |request| match plain(request) {
            -11 if request.questions.iter().any(|&question| bad(request.n as u64, question)) => -17,
            said => said,
        }),
        ("the list before the letters", |request| match plain(request) {
            -10 if !usual(&request.list, request.n as u64) => -16,
            said => said,
        }),
        ("the last question not looked at", |request| {
            let last = request.questions.pop();
            let said = plain(request);
            request.questions.extend(last);
            said + (said >= 0) as i64 * last.is_some() as i64
        }),
        ("touching accepted", |request| without(request, |list| !list.windows(2).any(|two| two[0][1] == two[1][0]))),
        ("past n accepted", |request| {
            let n = request.n as u64;
            without(request, |list| list.last().is_none_or(|&[_, end]| end as u64 <= n))
        }),
    ];

    fn answered(request: &mut Request, answer: impl Fn(&[[u32; 2]], [u32; 3]) -> [u32; 2]) -> i64 {
        let said = plain(request);
        if said >= 0 {
            for (result, &question) in request.results.iter_mut().zip(&request.questions) {
                *result = answer(&request.list, question);
            }
        }
        said
    }

    /// A list that fails the test is taken for an empty one.
    fn without(request: &mut Request, test: impl Fn(&[[u32; 2]]) -> bool) -> i64 {
        if test(&request.list) {
            return plain(request);
        }
        let list = std::mem::take(&mut request.list);
        let said = plain(request);
        request.list = list;
        said
    }

    #[test]
    fn plain_walks_pass() {
        assert_eq!(command(plain, 1, 3000), (3000, 0));
    }

    #[test]
    fn wrong_answers_are_found() {
        for (name, wrong) in WRONG {
            assert!(command(*wrong, 1, 3000).1 > 0, "{name}");
        }
    }

    /// The walks against a table of the masked letters, on lists of the usual kind in few letters.
    #[test]
    fn walks_agree_with_letters() {
        for number in 0..2000 {
            let rng = &mut Rng::new(7, number);
            let n = 1 + rng.below(60);
            let list = list(rng, n as u64);
            let owner = |x: usize| list.iter().position(|&[start, end]| (start..end).contains(&(x as u32)));
            for _ in 0..10 {
                let [kind, a, b] = question(rng, n as u64, &list);
                let (from, to) = (a as usize, b as usize);
                let letters = |index: usize| (0..n).filter(move |&x| owner(x) == Some(index));
                let steps = |index: usize| letters(index).map(|x| x.abs_diff(from)).min().unwrap();
                let which = |test: &dyn Fn(usize) -> bool| (0..list.len()).filter(|&i| test(i)).collect::<Vec<_>>();
                let found = match kind {
                    0 => which(&|i| (0..list.len()).all(|j| steps(i).max(1) <= steps(j).max(1))),
                    1 => which(&|i| letters(i).all(|x| from <= x && x < to)),
                    _ => which(&|i| {
                        let inside = letters(i).filter(|&x| from <= x && x < to).count();
                        0 < inside && inside < letters(i).count()
                    }),
                };
                let right = match (kind, &found[..]) {
                    (3, _) => {
                        let parts = 10_000 * (from..to).filter(|&x| owner(x).is_some()).count();
                        [parts / (to - from), parts % (to - from)].map(|x| x as u32)
                    }
                    (_, []) => NONE,
                    (0, &[first, ..]) => [first as u32, steps(first).max(1) as u32 - 1],
                    (_, all) => [all[0] as u32, all.len() as u32],
                };
                assert_eq!(answer(&list, [kind, a, b]), right, "{list:?} {kind} {a} {b}");
            }
        }
    }
}
