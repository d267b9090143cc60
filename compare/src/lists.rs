//! Lists of intervals of the usual kind, and lists broken in every way that refusal 16 names.

use crate::generate::Rng;

/// A list ends where it likes to at a multiple of this.
const BLOCK: u64 = 1024;

/// Entries within n and not empty, each with a letter or more before the next.
pub fn usual(list: &[[u32; 2]], n: u64) -> bool {
    list.iter().all(|&[start, end]| start < end && end as u64 <= n) && list.windows(2).all(|two| two[0][1] < two[1][0])
}

/// A list of the usual kind in n letters, n below 2^32.
pub fn list(rng: &mut Rng, n: u64) -> Vec<[u32; 2]> {
    let entries = rng.pick(&[0, 1, 2, 3, 8, 40]);
    let wide = (2 * n / (entries + 1) + 1) as usize;
    let (gap, length) = rng.pick(&[(1, 1), (1, 3), (3, 3), (40, 3), (3, 40), (wide, wide), (wide, 3), (2000, 2000)]);
    if entries == 1 && rng.one_in(2) {
        return (0..n.min(1)).map(|_| [0, n as u32]).collect();
    }
    let mut list = Vec::new();
    let mut from = rng.below(gap) as u64;
    for _ in 0..entries {
        let mut end = from + 1 + rng.below(length) as u64;
        if rng.one_in(6) {
            end = (end / BLOCK + 1) * BLOCK;
        }
        if rng.one_in(20) || end > n {
            end = n;
        }
        if end <= from {
            break;
        }
        list.push([from as u32, end as u32]);
        from = end + 1 + rng.below(gap) as u64;
    }
    list
}

/// Breaks a list in one of the ways that refusal 16 names.
pub fn break_list(rng: &mut Rng, list: &mut [[u32; 2]], n: u64) {
    let Some(last) = list.len().checked_sub(1) else { return };
    let i = if rng.one_in(2) { last } else { rng.below(list.len()) };
    let [start, end] = list[i];
    let before = i.checked_sub(1);
    match (rng.below(8), before) {
        (0, _) => list[i] = [start, start],
        (1, _) => list[i] = [end, start],
        (2, _) => list[last][1] = (n + 1).min(u32::MAX as u64) as u32,
        (3, _) => list[last][1] = u32::MAX,
        (4, Some(before)) => list.swap(before, i),
        (5, Some(before)) => list[i][0] = list[before][1],
        (6, Some(before)) => list[i][0] = list[before][1] - 1,
        (7, Some(before)) => list[i] = list[before],
        _ => list[i][1] = start,
    }
}

/// As many entries as asked for, or too few, or more.
pub fn room(rng: &mut Rng, asked: u64) -> usize {
    let asked = asked.min(2_097_152) as usize;
    match rng.below(10) {
        0 => asked.saturating_sub(1),
        1 => rng.below(asked + 1),
        2 => asked + rng.below(9),
        _ => asked,
    }
}
