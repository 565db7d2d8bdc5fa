//! Turning lists over, and the step that it is made of.

use super::sections::{Sections, NONE};

/// The cell that a list's hook names goes to the front of another list, with a target.
#[inline]
pub fn shift(
    words: &mut [u32],
    at: Sections,
    (from, hook): (usize, usize),
    to: usize,
    target: u32,
) {
    let cell = words[hook] as usize;
    words[hook] = words[at.next(cell)];
    words[at.length(from)] -= 1;
    words[at.owner(cell)] = to as u32;
    words[at.target(cell)] = target;
    words[at.next(cell)] = words[at.head(to)];
    words[at.head(to)] = cell as u32;
    words[at.length(to)] += 1;
}

/// The reversals, or nothing where a place still waits after as many lists as there are links.
pub fn turn(
    words: &mut [u32],
    waiting: &mut [u32],
    at: Sections,
    d: usize,
    first: usize,
) -> Option<u32> {
    let mut lists_left = at.c - words[at.length(at.n)] as usize;
    let mut reversals = 0;
    waiting[0] = first as u32;
    let mut top = 1;
    while top > 0 {
        if lists_left == 0 {
            return None;
        }
        lists_left -= 1;
        let w = waiting[top - 1] as usize;
        reversals += words[at.length(w)];
        top = turn_list(words, waiting, at, d, (w, top - 1));
    }
    Some(reversals)
}

/// Hands the cells of w's list over, front to back. The new number of waiting places.
fn turn_list(
    words: &mut [u32],
    waiting: &mut [u32],
    at: Sections,
    d: usize,
    (w, mut top): (usize, usize),
) -> usize {
    let mut cell = words[at.head(w)];
    words[at.head(w)] = NONE;
    words[at.length(w)] = 0;
    while cell != NONE {
        let i = cell as usize;
        let x = words[at.target(i)] as usize;
        let after = words[at.next(i)];
        words[at.owner(i)] = x as u32;
        words[at.target(i)] = w as u32;
        words[at.next(i)] = words[at.head(x)];
        words[at.head(x)] = cell;
        words[at.length(x)] += 1;
        if words[at.length(x)] as usize == d + 1 {
            waiting[top] = x as u32;
            top += 1;
        }
        cell = after;
    }
    top
}
