// From one set of residuals to the next. In a tree that takes an event, the leaves that move make
// a pattern: both sides of a pair that synchronises, one side of any other. Under a pattern the
// results are the product of the moving leaves' results, which are without repeats.
//     Step        the step of a set
//     Tree        one residual before an event: which of its nodes' trees take it
//     Scratch     words for one residual at a time, kept over the events of a call; where it keeps
//                 results, they are those of each follower and memory, settled once

use super::index::*;
use super::slots::Slots;
use crate::monitor::SLOT;
use std::collections::HashMap;
use std::hash::{BuildHasherDefault, Hasher};

// The nodes of term n's i-th residual, at a place of a slot; the place after them.
pub fn resolve(
    index: Index,
    mut n: usize,
    mut memory: u64,
    mut i: u64,
    out: &mut [u64],
    mut at: usize,
) -> usize {
    loop {
        let term = index.term(n);
        match term.kind() {
            CHOICE => {
                let left = index.branches(n + 1);
                (n, i) = if i < left { (n + 1, i) } else { (term.right(), i - left) };
            }
            PARALLEL => {
                out[at] = node(n, memory);
                let right = index.branches(term.right());
                at = resolve(index, n + 1, memory, i / right, out, at + 1);
                (n, i) = (term.right(), i % right);
            }
            CALL => (n, memory) = (index.body(term.target()), 0),
            _ => {
                out[at] = node(n, memory);
                return at + 1;
            }
        }
    }
}

// Results of a residual's leaves whose followers have several branches: leaf by leaf, 512 words
// for each of its reach, which sum to 8. A result is the number of its nodes, and these. Where
// results are kept they stand in `arena` one after the other, and are all dropped where it has many.
pub struct Scratch {
    arena: Arena,
    kept: HashMap<(usize, u64), Leaf, BuildHasherDefault<Mixer>>,
    used: usize,
    leaves: [Leaf; SLOT],
    out: [u64; SLOT],
}

enum Arena {
    One([u64; 4_096]),
    Many(Vec<u64>),
}

// Where kept results are dropped.
const MANY: usize = 1 << 20;

impl Arena {
    fn words(&mut self) -> &mut [u64] {
        match self {
            Arena::One(words) => words,
            Arena::Many(words) => words,
        }
    }
}

// Where a leaf's results stand, how many words each takes, and how many there are.
#[derive(Clone, Copy)]
struct Leaf {
    start: usize,
    width: usize,
    count: usize,
}

impl Scratch {
    pub fn new() -> Self {
        Scratch::of(Arena::One([0; 4_096]))
    }

    pub fn keeping() -> Self {
        Scratch::of(Arena::Many(vec![0; 4_096]))
    }

    fn of(arena: Arena) -> Self {
        let leaves = [Leaf { start: 0, width: 0, count: 0 }; SLOT];
        Scratch { arena, kept: HashMap::default(), used: 0, leaves, out: [0; SLOT] }
    }

    fn keeps(&self) -> bool {
        matches!(self.arena, Arena::Many(_))
    }

    // Room for what one residual's leaves may come to.
    fn make_room(&mut self) {
        if let Arena::Many(words) = &mut self.arena {
            if self.used > MANY {
                self.used = 0;
                self.kept.clear();
            }
            if words.len() < self.used + 4_096 {
                words.resize(2 * words.len() + 4_096, 0);
            }
        }
    }
}

// A hash of words, of few instructions.
#[derive(Default)]
pub struct Mixer(u64);

impl Hasher for Mixer {
    fn write(&mut self, bytes: &[u8]) {
        for word in bytes.chunks(8) {
            let mut padded = [0; 8];
            padded[..word.len()].copy_from_slice(word);
            self.write_u64(u64::from_ne_bytes(padded));
        }
    }

    fn write_u64(&mut self, word: u64) {
        self.0 = (self.0.rotate_left(5) ^ word).wrapping_mul(0x517c_c1b7_2722_0a95);
    }

    fn write_usize(&mut self, word: usize) {
        self.write_u64(word as u64);
    }

    fn finish(&self) -> u64 {
        self.0 ^ self.0 >> 32
    }
}

// A residual's nodes are numbered from 1, in a slot's order.
struct Tree<'a> {
    nodes: &'a [u64; SLOT],
    // the node after each node's tree
    ends: [u8; SLOT],
    // a bit for each node: whether its tree takes the event
    moves: u32,
    // whether it is a pair whose sides take it together
    together: u32,
    // whether it is a leaf that moves, with several branches
    several: u32,
}

impl<'a> Tree<'a> {
    fn of(index: Index, event: u64, nodes: &'a [u64; SLOT]) -> Self {
        let mut tree = Tree { nodes, ends: [0; SLOT], moves: 0, together: 0, several: 0 };
        for k in (1..=tree.len()).rev() {
            let n = term_of(nodes[k]);
            let term = index.term(n);
            let kind = term.kind();
            let holds = kind != STOP && index.holds(term, memory_of(nodes[k]), event);
            let bit = 1 << k;
            if kind == PARALLEL {
                let right = tree.ends[k + 1] as usize;
                let (left_moves, right_moves) = (tree.moves(k + 1), tree.moves(right));
                tree.ends[k] = tree.ends[right];
                if holds {
                    tree.together |= bit;
                }
                if (left_moves && right_moves) || (!holds && (left_moves || right_moves)) {
                    tree.moves |= bit;
                }
            } else {
                tree.ends[k] = k as u8 + 1;
                let branches = if holds { index.branches(n + 1) } else { 0 };
                if branches > 0 {
                    tree.moves |= bit;
                }
                if branches > 1 {
                    tree.several |= bit;
                }
            }
        }
        tree
    }

    fn len(&self) -> usize {
        self.nodes[0] as usize
    }

    fn moves(&self, k: usize) -> bool {
        self.moves >> k & 1 == 1
    }
}

pub struct Step<'a, 'b> {
    pub index: Index<'a>,
    pub event: u64,
    pub slots: Slots<'b>,
    pub scratch: &'a mut Scratch,
}

impl Step<'_, '_> {
    // The results of all residuals held; false where they have no room.
    pub fn all(&mut self, held: &[u64]) -> bool {
        held.chunks_exact(SLOT).all(|slot| {
            let nodes: &[u64; SLOT] = slot.try_into().expect("a slot");
            if nodes[0] == 1 {
                return self.leaf(nodes[1]);
            }
            let tree = Tree::of(self.index, self.event, nodes);
            if !tree.moves(1) {
                return true;
            }
            if tree.several != 0 {
                self.resolve_leaves(&tree);
            }
            self.results(&tree, 1, 1, 1)
        })
    }

    // The results of a residual that is one leaf: repeats are held once anyway.
    fn leaf(&mut self, word: u64) -> bool {
        let term = self.index.term(term_of(word));
        if term.kind() != PREFIX || !self.index.holds(term, memory_of(word), self.event) {
            return true;
        }
        let (follower, memory) = self.follower(word);
        let branches = self.index.branches(follower);
        if branches > 1 && self.scratch.keeps() {
            self.scratch.make_room();
            let leaf = self.once(follower, memory);
            return self.each_alone(leaf);
        }
        (0..branches).all(|i| {
            let out = &mut self.scratch.out;
            out[0] = resolve(self.index, follower, memory, i, out, 1) as u64 - 1;
            self.slots.insert(out)
        })
    }

    // A leaf's follower, and the memory with the event.
    fn follower(&self, word: u64) -> (usize, u64) {
        (term_of(word) + 1, self.event << (MEMORY - DIGIT) | memory_of(word) >> DIGIT)
    }

    fn resolve_leaves(&mut self, tree: &Tree) {
        self.scratch.make_room();
        let mut start = 0;
        for k in 1..=tree.len() {
            if tree.several >> k & 1 == 1 {
                let (follower, memory) = self.follower(tree.nodes[k]);
                if self.scratch.keeps() {
                    self.scratch.leaves[k] = self.once(follower, memory);
                    continue;
                }
                let width = 2 * self.index.reach(follower) as usize;
                let count = self.distinct(follower, memory, start, width);
                self.scratch.leaves[k] = Leaf { start, width, count };
                start += 256 * width;
            }
        }
    }

    // A follower's results, settled where they are not kept yet.
    fn once(&mut self, follower: usize, memory: u64) -> Leaf {
        if let Some(leaf) = self.scratch.kept.get(&(follower, memory)) {
            return *leaf;
        }
        let start = self.scratch.used;
        let width = 2 * self.index.reach(follower) as usize;
        let count = self.distinct(follower, memory, start, width);
        let leaf = Leaf { start, width, count };
        self.scratch.used += count * width;
        self.scratch.kept.insert((follower, memory), leaf);
        leaf
    }

    // Each result of a residual's only leaf.
    fn each_alone(&mut self, leaf: Leaf) -> bool {
        let Leaf { start, width, count } = leaf;
        (0..count).all(|j| {
            let result = &self.scratch.arena.words()[start + j * width..][..width];
            let nodes = result[0] as usize;
            self.scratch.out[..=nodes].copy_from_slice(&result[..=nodes]);
            self.slots.insert(&self.scratch.out)
        })
    }

    // A follower's results without repeats; their number.
    fn distinct(&mut self, follower: usize, memory: u64, start: usize, width: usize) -> usize {
        let kept = &mut self.scratch.arena.words()[start..];
        let mut count = 0;
        for i in 0..self.index.branches(follower) {
            let (before, at) = kept.split_at_mut(count * width);
            let end = resolve(self.index, follower, memory, i, at, 1);
            at[0] = end as u64 - 1;
            let new = &at[..end];
            if before.chunks_exact(width).all(|held| held[..end] != *new) {
                count += 1;
            }
        }
        count
    }

    // All results from node k on, after the words before `at`: the lowest bit of `modes` says
    // whether that node's tree moves, the others say it of the trees after it.
    fn results(&mut self, tree: &Tree, mut k: usize, mut modes: u64, mut at: usize) -> bool {
        while k <= tree.len() {
            let moves = modes & 1 == 1;
            modes >>= 1;
            let end = tree.ends[k] as usize;
            if !moves {
                for word in &tree.nodes[k..end] {
                    self.scratch.out[at] = *word;
                    at += 1;
                }
                k = end;
            } else if end > k + 1 {
                self.scratch.out[at] = tree.nodes[k];
                let together = tree.together >> k & 1 == 1;
                (k, at) = (k + 1, at + 1);
                modes <<= 2;
                modes |= match (tree.moves(k), tree.moves(tree.ends[k] as usize)) {
                    _ if together => 3,
                    (true, false) => 1,
                    (false, _) => 2,
                    (true, true) => {
                        if !self.results(tree, k, modes | 1, at) {
                            return false;
                        }
                        2
                    }
                };
            } else if tree.several >> k & 1 == 1 {
                return self.each(tree, k, modes, at);
            } else {
                let (follower, memory) = self.follower(tree.nodes[k]);
                at = resolve(self.index, follower, memory, 0, &mut self.scratch.out, at);
                k += 1;
            }
        }
        self.scratch.out[0] = at as u64 - 1;
        self.slots.insert(&self.scratch.out)
    }

    // The same for each result of leaf k.
    fn each(&mut self, tree: &Tree, k: usize, modes: u64, at: usize) -> bool {
        let Leaf { start, width, count } = self.scratch.leaves[k];
        (0..count).all(|j| {
            let result = &self.scratch.arena.words()[start + j * width..][..width];
            let nodes = result[0] as usize;
            self.scratch.out[at..at + nodes].copy_from_slice(&result[1..=nodes]);
            self.results(tree, k + 1, modes, at + nodes)
        })
    }
}
