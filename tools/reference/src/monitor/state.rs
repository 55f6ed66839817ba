// The state record, and whether it agrees with the areas (01, "When the monitor declines":
// "Disturbed"; 02, W1).
//     Record      taken, residual count, its peak, running or failed at a place
//     held        the residuals that a state holds, unless it is disturbed

use super::residual::*;
use super::terms::{Kind, Terms};
use std::rc::Rc;

#[derive(Clone, Copy, Debug, PartialEq, Eq)]
pub struct Record {
    pub taken: u64,
    pub count: u64,
    // "the largest residual count since Start, the present one included" (02, W1)
    pub peak: u64,
    // the place of failure; none while running
    pub failed: Option<u64>,
}

// Areas 0 and 1.
pub type Areas = [Vec<u64>; 2];

pub const MOST_REACH: u128 = 8;

impl Record {
    // "The present area is taken mod 2"
    pub fn present(&self) -> usize {
        (self.taken % 2) as usize
    }
}

fn zeros(words: &[u64]) -> bool {
    words.iter().all(|&word| word == 0)
}

// None if "state and area disagree".
pub fn held(terms: &Terms, record: Record, areas: &Areas) -> Option<Residuals> {
    let present = &areas[record.present()];
    let other = &areas[1 - record.present()];
    let slots = present.len() / SLOT;
    // "failed with a place above taken or residuals held; running with none or more than fit"
    let stands = match record.failed {
        Some(place) => place <= record.taken && record.count == 0,
        None => record.count > 0 && record.count <= slots as u64,
    };
    // "A record whose peak is below its count, or above the slots, is disturbed." (02, W1)
    let peaks = record.count <= record.peak && record.peak <= slots as u64;
    if !stands || !peaks || !zeros(other) {
        return None;
    }
    // "a present area that is not that many ascending valid slots (none after failure) and then
    // zeros"
    let (holding, rest) = present.split_at(record.count as usize * SLOT);
    let slots: Vec<&[u64]> = holding.chunks(SLOT).collect();
    if !zeros(rest) || !slots.windows(2).all(|two| two[0] < two[1]) {
        return None;
    }
    slots.into_iter().map(|slot| residual(terms, slot)).collect()
}

// "A valid slot is one whole residual tree of known STOP, prefix and parallel terms, its other
// words zero; .. the leaves' reach sums to at most 8."
pub fn residual(terms: &Terms, slot: &[u64]) -> Option<Residual> {
    let count = usize::try_from(slot[0]).ok().filter(|&count| count < SLOT)?;
    let (nodes, rest) = slot[1..].split_at(count);
    let mut nodes = nodes.iter().copied();
    let residual = tree(terms, &mut nodes)?;
    let whole = nodes.next().is_none() && zeros(rest);
    (whole && reach(terms, &residual) <= MOST_REACH).then_some(residual)
}

fn tree(terms: &Terms, nodes: &mut impl Iterator<Item = u64>) -> Option<Residual> {
    let node = node(terms, nodes.next()?)?;
    match terms.kind(node.term) {
        Kind::Stop | Kind::Prefix { .. } => Some(Residual::Leaf(node)),
        Kind::Parallel { .. } => {
            let left = tree(terms, nodes)?;
            let right = tree(terms, nodes)?;
            Some(Residual::Pair(node, Rc::new(left), Rc::new(right)))
        }
        Kind::Fail | Kind::Choice { .. } | Kind::Call { .. } => None,
    }
}

// "memory is below A, zero beyond the term's enclosing prefixes"
fn node(terms: &Terms, word: u64) -> Option<Node> {
    let term = usize::try_from(word >> TERM_AT).ok().filter(|&term| term < terms.terms.len())?;
    let memory = [0, 1, 2, 3].map(|i| (word >> digit_at(i) & DIGIT_MOST) as u16);
    let enclosing = terms.terms[term].enclosing;
    let below = memory.iter().all(|&m| m < terms.alphabet);
    let none_beyond = memory.iter().skip(enclosing).all(|&m| m == 0);
    (below && none_beyond).then_some(Node { term, memory })
}

pub fn reach(terms: &Terms, residual: &Residual) -> u128 {
    match residual {
        Residual::Leaf(node) => terms.terms[node.term].reach,
        Residual::Pair(_, left, right) => reach(terms, left) + reach(terms, right),
    }
}
