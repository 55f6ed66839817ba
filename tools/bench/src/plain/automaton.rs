// A call's events through an automaton over residual sets, made as it is met: a set is a number, and
// for a set and an event the next set is looked up; what is not known yet is stepped as plain steps.
// The areas are laid out at the call's end, or before a refusal.

use super::index::Index;
use super::step::{Mixer, Scratch};
use super::{after, clear, fed_with, refusal};
use crate::monitor::*;
use std::collections::HashMap;
use std::hash::BuildHasherDefault;

// No set: the transition is not known.
const UNKNOWN: u32 = u32::MAX;

struct Sets {
    alphabet: usize,
    numbers: HashMap<Vec<u64>, u32, BuildHasherDefault<Mixer>>,
    // each set's words in use
    words: Vec<Vec<u64>>,
    // of each set and event
    next: Vec<u32>,
}

impl Sets {
    fn number(&mut self, held: &[u64]) -> u32 {
        if let Some(&number) = self.numbers.get(held) {
            return number;
        }
        let number = self.words.len() as u32;
        self.numbers.insert(held.to_vec(), number);
        self.words.push(held.to_vec());
        self.next.resize(self.next.len() + self.alphabet, UNKNOWN);
        number
    }
}

pub fn fed(
    index: Index,
    mut record: Record,
    area0: &mut [u64],
    area1: &mut [u64],
    events: &[u8],
) -> Answer {
    let alphabet = index.alphabet() as usize;
    let mut scratch = Scratch::keeping();
    let mut sets =
        Sets { alphabet, numbers: HashMap::default(), words: Vec::new(), next: Vec::new() };
    // the record whose set the areas hold
    let mut laid = record;
    let mut at = sets.number(present(record, area0, area1).0.held(record));
    let mut place = 0;
    while place < events.len() {
        let event = events[place] as usize;
        if event < alphabet && record.taken < u64::MAX {
            let next = sets.next[at as usize * alphabet + event];
            if next != UNKNOWN {
                at = next;
                record = after(record, (sets.words[at as usize].len() / SLOT) as u64);
                place += 1;
                continue;
            }
        }
        lay(&sets.words[at as usize], laid, record, area0, area1);
        let one = &events[place..=place];
        match fed_with(index, record, area0, area1, one, &mut scratch) {
            Answer::Given(next) => record = next,
            Answer::Stopped(stopped, _) => {
                return Answer::Stopped(refusal(stopped.number, place), record)
            }
            answer => return answer,
        }
        laid = record;
        let number = sets.number(present(record, area0, area1).0.held(record));
        sets.next[at as usize * alphabet + event] = number;
        at = number;
        place += 1;
    }
    lay(&sets.words[at as usize], laid, record, area0, area1);
    Answer::Given(record)
}

trait Held {
    fn held(&self, record: Record) -> &[u64];
}

impl Held for [u64] {
    fn held(&self, record: Record) -> &[u64] {
        &self[..record.count as usize * SLOT]
    }
}

// The present area of a record, and the other.
fn present<'a>(
    record: Record,
    area0: &'a mut [u64],
    area1: &'a mut [u64],
) -> (&'a mut [u64], &'a mut [u64]) {
    if record.taken % 2 == 0 {
        (area0, area1)
    } else {
        (area1, area0)
    }
}

// A set into the area that the record says, where the areas hold that of another record.
fn lay(words: &[u64], laid: Record, record: Record, area0: &mut [u64], area1: &mut [u64]) {
    if laid.taken == record.taken {
        return;
    }
    clear(present(laid, area0, area1).0, laid.count as usize);
    present(record, area0, area1).0[..words.len()].copy_from_slice(words);
}
