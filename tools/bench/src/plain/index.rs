// The index of a judged table in the work area.
//     0        a mask for each row, events 0 to 63; where A is at most 64 up to 4,096 rows
//     3,072    a mask for each row, events from 64 on; where A is above 64
//     6,144    a word for each term: kind, parameter, whether a parallel is around it, whether it is
//              a body or a follower, enclosing prefixes, own definition, right side, row or call,
//              branches (01: openings), 257 for more than 256
//     7,168    the reach of each term, two to a word; while it is judged, the list place of its kind
//     7,680    each set's first row and kind
//     7,744    each body's term, and the number of terms after them
//     7,777    each definition's level
//     7,809    the alphabet size, the number of definitions, the number of terms

use crate::monitor::WORK;

pub const HIGH: usize = 3_072;
pub const TERMS: usize = 6_144;
const REACH: usize = 7_168;
pub const SETS: usize = 7_680;
pub const BODIES: usize = 7_744;
pub const LEVELS: usize = 7_777;
pub const ALPHABET: usize = 7_809;
pub const DEFINITIONS: usize = 7_810;
pub const COUNT: usize = 7_811;

// Events 0 to 63 have their bit in a row's first mask.
pub const MASK_BITS: u64 = 64;

pub const STOP: u64 = 0;
pub const FAIL: u64 = 1;
pub const PREFIX: u64 = 2;
pub const CHOICE: u64 = 3;
pub const PARALLEL: u64 = 4;
pub const CALL: u64 = 5;

// A term's word.
#[derive(Clone, Copy)]
pub struct Term(pub u64);

impl Term {
    pub fn kind(self) -> u64 {
        self.0 & 7
    }

    // 0 where its set has one row, else its parameter and 1
    pub fn parameter(self) -> u64 {
        self.0 >> 3 & 7
    }

    pub fn under_parallel(self) -> bool {
        self.0 >> 6 & 1 == 1
    }

    // a body, or a prefix's follower
    pub fn entry(self) -> bool {
        self.0 >> 7 & 1 == 1
    }

    pub fn prefixes(self) -> u64 {
        self.0 >> 8 & 63
    }

    pub fn own(self) -> usize {
        (self.0 >> 14 & 31) as usize
    }

    pub fn right(self) -> usize {
        (self.0 >> 19 & 2_047) as usize
    }

    // a prefix's or parallel's first row, or the definition that a call names
    pub fn target(self) -> usize {
        (self.0 >> 30 & 65_535) as usize
    }

    pub fn branches(self) -> u64 {
        self.0 >> BRANCHES
    }

    pub fn with_branches(self, branches: u64) -> Self {
        Term(self.0 & ((1 << BRANCHES) - 1) | branches << BRANCHES)
    }
}

// Where a term's branches begin in its word.
const BRANCHES: u32 = 46;

// The reach of a term, or a place: a list of numbers may be longer than 65,535.
pub fn reach(work: &[u64; WORK], n: usize) -> u64 {
    work[REACH + n / 2] >> (n % 2 * 32) & u32::MAX as u64
}

pub fn set_reach(work: &mut [u64; WORK], n: usize, reach: u64) {
    let shift = n % 2 * 32;
    let word = &mut work[REACH + n / 2];
    *word = *word & !((u32::MAX as u64) << shift) | reach << shift;
}

// A node word: a term's number and its memory, seven bits for each event.
pub const DIGIT: u64 = 7;
pub const MEMORY: u64 = 4 * DIGIT;

// The i-th event of a word's memory, the nearest first.
pub fn event_of(word: u64, i: u64) -> u64 {
    word >> (MEMORY - DIGIT * (i + 1)) & ((1 << DIGIT) - 1)
}

pub fn term_of(word: u64) -> usize {
    (word >> MEMORY) as usize
}

pub fn memory_of(word: u64) -> u64 {
    word & ((1 << MEMORY) - 1)
}

pub fn node(term: usize, memory: u64) -> u64 {
    (term as u64) << MEMORY | memory
}

#[derive(Clone, Copy)]
pub struct Index<'a> {
    words: &'a [u64; WORK],
}

impl<'a> Index<'a> {
    pub fn of(words: &'a [u64; WORK]) -> Self {
        Index { words }
    }

    pub fn alphabet(&self) -> u64 {
        self.words[ALPHABET]
    }

    pub fn definitions(&self) -> usize {
        self.words[DEFINITIONS] as usize
    }

    pub fn terms(&self) -> usize {
        self.words[COUNT] as usize
    }

    pub fn body(&self, definition: usize) -> usize {
        self.words[BODIES + definition] as usize
    }

    pub fn term(&self, n: usize) -> Term {
        Term(self.words[TERMS + n])
    }

    pub fn branches(&self, n: usize) -> u64 {
        self.term(n).branches()
    }

    pub fn reach(&self, n: usize) -> u64 {
        reach(self.words, n)
    }

    // Whether the set of a prefix or a parallel holds an event, by the node's memory.
    pub fn holds(&self, term: Term, memory: u64, event: u64) -> bool {
        let recalled = match term.parameter() {
            0 => 0,
            k => event_of(memory, k - 1) as usize,
        };
        let row = term.target() + recalled;
        if event < MASK_BITS {
            return self.words[row] >> event & 1 == 1;
        }
        self.words[HIGH + row] >> (event - MASK_BITS) & 1 == 1
    }
}
