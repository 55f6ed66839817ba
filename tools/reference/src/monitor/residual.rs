// Residuals (01, "Residuals"): trees of terms with memory, and the sets of them.
//     resolve         the residuals of a term (01: settling)
//     after           the residuals of a residual after an event
//     after_all       the union of these over a set
//     slot            a residual's 16 words
// A set of results that has more members than there are slots is `Many`: some accepted tables
// have 2^64 results, and it only counts that they are too many, or none after all where a
// synchronised side has none. Results are without repeats at each node.

use super::terms::{Kind, Terms};
use std::collections::BTreeSet;
use std::rc::Rc;

// "Memory is four events", the nearest first.
pub type Memory = [u16; 4];

pub const SLOT: usize = 16;
pub type Slot = [u64; SLOT];

// A term with its memory.
#[derive(Clone, Copy, Debug, PartialEq, Eq, PartialOrd, Ord)]
pub struct Node {
    pub term: usize,
    pub memory: Memory,
}

#[derive(Clone, Debug, PartialEq, Eq, PartialOrd, Ord)]
pub enum Residual {
    Leaf(Node),
    Pair(Node, Rc<Residual>, Rc<Residual>),
}

pub type Residuals = BTreeSet<Residual>;

// At most `most` results, or more.
#[derive(Clone, Debug, PartialEq, Eq)]
pub enum Results {
    Few(Residuals),
    Many,
}

impl Results {
    pub fn of(residuals: Residuals, most: usize) -> Results {
        if residuals.len() > most {
            Results::Many
        } else {
            Results::Few(residuals)
        }
    }

    pub fn none() -> Results {
        Results::Few(Residuals::new())
    }

    pub fn is_none(&self) -> bool {
        matches!(self, Results::Few(residuals) if residuals.is_empty())
    }

    fn union(self, other: Results, most: usize) -> Results {
        match (self, other) {
            (Results::Few(mut residuals), Results::Few(mut others)) => {
                residuals.append(&mut others);
                Results::of(residuals, most)
            }
            _ => Results::Many,
        }
    }

    // Every pair of these under a parallel. Different sides make different pairs, so their
    // number is the product.
    fn pairs(self, other: Results, node: Node, most: usize) -> Results {
        if self.is_none() || other.is_none() {
            return Results::none();
        }
        match (self, other) {
            (Results::Few(lefts), Results::Few(rights)) if lefts.len() * rights.len() <= most => {
                Results::Few(pairs(node, lefts, rights))
            }
            _ => Results::Many,
        }
    }
}

fn pairs(node: Node, lefts: Residuals, rights: Residuals) -> Residuals {
    let rights: Vec<Rc<Residual>> = rights.into_iter().map(Rc::new).collect();
    let mut made = Vec::new();
    for left in lefts.into_iter().map(Rc::new) {
        for right in &rights {
            made.push(Residual::Pair(node, left.clone(), right.clone()));
        }
    }
    made.into_iter().collect()
}

// "STOP and a prefix give themselves with their memory; FAIL nothing; choice the union; parallel
// itself, with its memory, over every pair; call the settled body." Doomed terms give nothing,
// and are not entered: there may be 256^7 pairs beside a FAIL.
pub fn resolve(terms: &Terms, term: usize, memory: Memory) -> Residuals {
    if terms.terms[term].doomed {
        return Residuals::new();
    }
    let node = Node { term, memory };
    match *terms.kind(term) {
        Kind::Stop | Kind::Prefix { .. } => Residuals::from([Residual::Leaf(node)]),
        Kind::Fail => Residuals::new(),
        Kind::Choice { left, right } => {
            let mut residuals = resolve(terms, left, memory);
            residuals.extend(resolve(terms, right, memory));
            residuals
        }
        Kind::Parallel { left, right, .. } => {
            pairs(node, resolve(terms, left, memory), resolve(terms, right, memory))
        }
        // "all 0 at a body's start"
        Kind::Call { definition } => resolve(terms, terms.bodies[definition], [0; 4]),
    }
}

// The residuals at the start: those of the last definition.
pub fn resolve_last(terms: &Terms) -> Residuals {
    resolve(terms, *terms.bodies.last().expect("a definition"), [0; 4])
}

// "After e: STOP gives nothing; a prefix whose set holds e settles its follower with memory
// (e, m0, m1, m2), otherwise nothing. A pair whose set holds e gives every pair of the sides'
// results, otherwise one side's results with the other side kept."
pub fn after(terms: &Terms, residual: &Residual, event: u16, most: usize) -> Results {
    match residual {
        Residual::Leaf(Node { term, memory }) => match terms.kind(*term) {
            Kind::Prefix { set, follower } if terms.holds(set, *memory, event) => {
                let [m0, m1, m2, _] = *memory;
                Results::of(resolve(terms, *follower, [event, m0, m1, m2]), most)
            }
            _ => Results::none(),
        },
        Residual::Pair(node, left, right) => {
            let Kind::Parallel { set, .. } = terms.kind(node.term) else {
                unreachable!("a pair is of a parallel")
            };
            let lefts = after(terms, left, event, most);
            let rights = after(terms, right, event, most);
            if terms.holds(set, node.memory, event) {
                return lefts.pairs(rights, *node, most);
            }
            let kept = |side: &Rc<Residual>| Results::Few(Residuals::from([(**side).clone()]));
            let left_moves = lefts.pairs(kept(right), *node, most);
            left_moves.union(kept(left).pairs(rights, *node, most), most)
        }
    }
}

// "The set after a list is the union, event by event."
pub fn after_all(terms: &Terms, residuals: &Residuals, event: u16, most: usize) -> Results {
    let each = residuals.iter().map(|residual| after(terms, residual, event, most));
    each.fold(Results::none(), |results, more| results.union(more, most))
}

// ---- words

// "memory digits take seven bits, so a node word is term × 2^28 and so on down" (02, W6)
const DIGIT_BITS: usize = 7;
pub const DIGIT_MOST: u64 = (1 << DIGIT_BITS) - 1;
pub const TERM_AT: usize = 4 * DIGIT_BITS;

// Where digit i of a node word stands, the nearest event's first.
pub fn digit_at(i: usize) -> usize {
    TERM_AT - DIGIT_BITS * (i + 1)
}

pub fn node_word(node: Node) -> u64 {
    let memory = node.memory.iter().fold(0, |digits, &m| (digits << DIGIT_BITS) + m as u64);
    ((node.term as u64) << TERM_AT) + memory
}

// "nodes with each parallel before its sides", the left side first
pub fn words(residual: &Residual) -> Vec<u64> {
    match residual {
        Residual::Leaf(node) => vec![node_word(*node)],
        Residual::Pair(node, left, right) => {
            [vec![node_word(*node)], words(left), words(right)].concat()
        }
    }
}

// "16 words: node count, nodes .., zeros"
pub fn slot(residual: &Residual) -> Slot {
    let words = words(residual);
    let mut slot = [0; SLOT];
    slot[0] = words.len() as u64;
    slot[1..=words.len()].copy_from_slice(&words);
    slot
}

// "An area holds slots ascending by first differing word, then zeros."
pub fn area(residuals: &Residuals, length: usize) -> Vec<u64> {
    let slots: BTreeSet<Slot> = residuals.iter().map(slot).collect();
    let mut area: Vec<u64> = slots.into_iter().flatten().collect();
    area.resize(length, 0);
    area
}
