// Refusal 10: whether a record and the areas agree.

use super::index::*;
use crate::monitor::{Record, SLOT};

pub fn agrees(index: Index, record: Record, area0: &[u64], area1: &[u64]) -> bool {
    let (present, other) = if record.taken % 2 == 0 { (area0, area1) } else { (area1, area0) };
    let stands = match record.failed {
        Some(place) => place <= record.taken && record.count == 0,
        None => record.count > 0,
    };
    // so the count is at most the slots
    let peaks = record.count <= record.peak && record.peak <= (present.len() / SLOT) as u64;
    if !stands || !peaks {
        return false;
    }
    let (held, rest) = present.split_at(record.count as usize * SLOT);
    zeros(rest)
        && zeros(other)
        && held.chunks_exact(SLOT).all(|slot| valid(index, slot))
        && held.chunks_exact(SLOT).zip(held.chunks_exact(SLOT).skip(1)).all(|(a, b)| a < b)
}

fn zeros(words: &[u64]) -> bool {
    words.iter().all(|&word| word == 0)
}

// One whole tree, its nodes read from the last, and then zeros.
fn valid(index: Index, slot: &[u64]) -> bool {
    if slot[0] == 0 || slot[0] >= SLOT as u64 {
        return false;
    }
    let (nodes, rest) = slot[1..].split_at(slot[0] as usize);
    let (mut trees, mut reach) = (0, 0);
    for &word in nodes.iter().rev() {
        let n = term_of(word);
        if n >= index.terms() {
            return false;
        }
        let term = index.term(n);
        if !memory_fits(index.alphabet(), term.prefixes(), word) {
            return false;
        }
        match term.kind() {
            STOP | PREFIX => {
                trees += 1;
                reach += index.reach(n);
            }
            PARALLEL if trees >= 2 => trees -= 1,
            _ => return false,
        }
    }
    trees == 1 && reach <= 8 && zeros(rest)
}

fn memory_fits(alphabet: u64, prefixes: u64, word: u64) -> bool {
    (0..4).all(|i| {
        let event = event_of(word, i);
        event < alphabet && (i < prefixes || event == 0)
    })
}
