//! A judge of the library's kind: the lengths, the chains by their length words, the names in buckets, the pairs list by list.

use super::sections::{Sections, NONE};

const LINE_MOST: u32 = 65535;

/// Whether a table of the right length is sound.
pub fn sound(words: &[u32], at: Sections, d: usize) -> bool {
    lengths(words, at, d)
        && chain(words, at, at.n)
        && names(words, at)
        && (0..at.n).all(|v| place(words, at, v))
}

fn lengths(words: &[u32], at: Sections, d: usize) -> bool {
    let lengths = &words[at.length(0)..=at.length(at.n)];
    let sum: u64 = lengths.iter().map(|&length| u64::from(length)).sum();
    sum == at.c as u64 && lengths[..at.n].iter().all(|&length| length as usize <= d)
}

/// From the list's head, NONE is reached after exactly as many cells as its length says, each right for the list.
fn chain(words: &[u32], at: Sections, list: usize) -> bool {
    let mut cell = words[at.head(list)];
    for _ in 0..words[at.length(list)] {
        if cell as usize >= at.c || !right(words, at, list, cell as usize) {
            return false;
        }
        cell = words[at.next(cell as usize)];
    }
    cell == NONE
}

fn right(words: &[u32], at: Sections, list: usize, cell: usize) -> bool {
    let target = words[at.target(cell)];
    if words[at.owner(cell)] as usize != list {
        return false;
    }
    if list == at.n {
        return target == NONE;
    }
    let (n, v) = (at.n as u32, list as u32);
    target < n && target != v && words[list] != 0 && words[target as usize] != 0
}

/// No two open places agree in both line and number: each is held against the earlier ones of its bucket.
fn names(words: &[u32], at: Sections) -> bool {
    let buckets = (2 * at.n).next_power_of_two();
    let mut last = vec![0_u16; buckets];
    let mut before = vec![0_u16; at.n];
    let (lines, numbers) = (&words[..at.n], &words[at.number(0)..at.head(0)]);
    for v in (0..at.n).filter(|&v| lines[v] != 0) {
        let mixed = numbers[v].wrapping_add(lines[v].wrapping_mul(4099));
        let bucket = mixed as usize & (buckets - 1);
        let mut other = usize::from(last[bucket]);
        while other != 0 {
            if lines[other - 1] == lines[v] && numbers[other - 1] == numbers[v] {
                return false;
            }
            other = usize::from(before[other - 1]);
        }
        before[v] = last[bucket];
        last[bucket] = v as u16 + 1;
    }
    true
}

/// One place: its line, its list and its pairs.
fn place(words: &[u32], at: Sections, v: usize) -> bool {
    let (line, number) = (words[v], words[at.number(v)]);
    line <= LINE_MOST && (line != 0 || number == 0) && chain(words, at, v) && alone(words, at, v)
}

/// No pair of v's list stands in a later cell of that list or in its target's list.
fn alone(words: &[u32], at: Sections, v: usize) -> bool {
    let mut cell = words[at.head(v)];
    let mut left = words[at.length(v)];
    while left > 0 {
        left -= 1;
        let target = words[at.target(cell as usize)];
        let after = words[at.next(cell as usize)];
        let (head, many) = (words[at.head(target as usize)], words[at.length(target as usize)]);
        if has(words, at, target, left, after) || has(words, at, v as u32, many, head) {
            return false;
        }
        cell = after;
    }
    true
}

/// One of the many cells from a cell on has the target.
fn has(words: &[u32], at: Sections, target: u32, many: u32, mut cell: u32) -> bool {
    for _ in 0..many {
        if cell as usize >= at.c {
            return false;
        }
        if words[at.target(cell as usize)] == target {
            return true;
        }
        cell = words[at.next(cell as usize)];
    }
    false
}
