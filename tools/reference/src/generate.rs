// Seeded tables that are accepted, small ones; `shape` has ones of a given size.
//     draft       a table that keeps 3 to 7 by the way it is made
//     small       a draft that is accepted

mod shape;

use crate::operations::check;
use crate::random::Random;
use crate::table::*;
pub use shape::*;

// Most of each part of a draft.
#[derive(Clone, Copy)]
pub struct Bounds {
    pub alphabet: usize,
    pub sets: usize,
    pub definitions: usize,
    pub depth: usize,
    // a call or parameter may break the rules of references
    pub wild: bool,
}

pub const SMALL: Bounds = Bounds { alphabet: 4, sets: 4, definitions: 4, depth: 6, wild: false };
pub const MIDDLE: Bounds =
    Bounds { alphabet: 12, sets: 8, definitions: 10, depth: 9, wild: false };

// ---- drafts

pub fn row(random: &mut Random, alphabet: u16) -> Row {
    let part = random.between(1, 4);
    (0..alphabet).filter(|_| random.once_in(part)).collect()
}

pub fn set(random: &mut Random, alphabet: u16) -> Set {
    if random.once_in(3) {
        Set::Rows((0..alphabet).map(|_| row(random, alphabet)).collect())
    } else {
        Set::Plain(row(random, alphabet))
    }
}

struct Draft<'a> {
    sets: &'a [Set],
    levels: &'a [u16],
    definition: usize,
    wild: bool,
}

pub fn draft(random: &mut Random, bounds: Bounds) -> Table {
    let alphabet = random.between(1, bounds.alphabet) as u16;
    let sets: Vec<Set> =
        (0..random.between(0, bounds.sets)).map(|_| set(random, alphabet)).collect();
    let top = random.between(0, MOST_LEVEL as usize);
    let levels: Vec<u16> = (0..random.between(1, bounds.definitions))
        .map(|_| random.between(0, top) as u16)
        .collect();
    let mut definitions = Vec::new();
    for definition in 0..levels.len() {
        let draft = Draft { sets: &sets, levels: &levels, definition, wild: bounds.wild };
        let depth = random.between(1, bounds.depth);
        let body = draft.term(random, depth, 0, false);
        definitions.push(Definition { level: levels[definition], body });
    }
    Table { alphabet, sets, definitions }
}

impl Draft<'_> {
    fn term(
        &self,
        random: &mut Random,
        depth: usize,
        prefixes: usize,
        parallel_above: bool,
    ) -> Term {
        let kind = if depth == 1 { random.below(4) } else { random.below(14) };
        let made = match kind {
            2..=4 => self.call(random, prefixes, parallel_above),
            5..=9 => self.reference(random, prefixes).map(|set| {
                prefix(set, self.term(random, depth - 1, prefixes + 1, parallel_above))
            }),
            10 | 11 => Some(choice(
                self.term(random, depth - 1, prefixes, parallel_above),
                self.term(random, depth - 1, prefixes, parallel_above),
            )),
            12 | 13 => self.reference(random, prefixes).map(|set| {
                let left = self.term(random, depth - 1, prefixes, true);
                parallel(set, left, self.term(random, depth - 1, prefixes, true))
            }),
            _ => None,
        };
        made.unwrap_or_else(|| leaf(random))
    }

    fn reference(&self, random: &mut Random, prefixes: usize) -> Option<SetReference> {
        if self.sets.is_empty() {
            return None;
        }
        let set = random.below(self.sets.len()) as u16;
        let parameters = if self.wild { 4 } else { prefixes.min(4) };
        match self.sets[set as usize] {
            Set::Plain(_) => Some(plain(set)),
            Set::Rows(_) if parameters == 0 => None,
            Set::Rows(_) => {
                Some(SetReference { set, parameter: Some(random.below(parameters) as u16) })
            }
        }
    }

    fn call(&self, random: &mut Random, prefixes: usize, parallel_above: bool) -> Option<Term> {
        let called = random.below(self.levels.len());
        let (own, level) = (self.levels[self.definition], self.levels[called]);
        let stands = level < own || (level == own && !parallel_above);
        let guarded = prefixes > 0 || called < self.definition;
        (self.wild || (stands && guarded)).then_some(Term::Call(called as u16))
    }
}

pub fn leaf(random: &mut Random) -> Term {
    if random.once_in(4) {
        Term::Fail
    } else {
        Term::Stop
    }
}

pub fn accepted(mut make: impl FnMut() -> Table) -> Table {
    loop {
        let table = make();
        if check(&table.list()).is_ok() {
            return table;
        }
    }
}

pub fn small(random: &mut Random, bounds: Bounds) -> Table {
    accepted(|| draft(random, bounds))
}
