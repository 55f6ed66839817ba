// The terms of an accepted table, numbered from 0 in reading order over the table (01, "Numbers
// and table").
//     Terms       the terms, the sets, and the number of each body
//     holds       whether a set reference holds an event, by a memory

use super::residual::Memory;
use crate::judge::level_widths;
use crate::table::*;

pub struct Terms {
    pub alphabet: u16,
    pub sets: Vec<Set>,
    pub terms: Vec<TermInfo>,
    // the number of each definition's body
    pub bodies: Vec<usize>,
}

#[derive(Clone, Debug)]
pub struct TermInfo {
    pub kind: Kind,
    // how many prefixes of this definition enclose it
    pub enclosing: usize,
    pub reach: u128,
    pub doomed: bool,
}

#[derive(Clone, Debug, PartialEq, Eq)]
pub enum Kind {
    Stop,
    Fail,
    Prefix { set: SetReference, follower: usize },
    Choice { left: usize, right: usize },
    Parallel { set: SetReference, left: usize, right: usize },
    Call { definition: usize },
}

impl Terms {
    pub fn of(table: &Table) -> Terms {
        let mut terms = Terms {
            alphabet: table.alphabet,
            sets: table.sets.clone(),
            terms: Vec::new(),
            bodies: Vec::new(),
        };
        for definition in &table.definitions {
            terms.bodies.push(terms.terms.len());
            terms.number(&definition.body, 0);
        }
        terms.set_reach(table);
        terms.set_doomed();
        terms
    }

    pub fn kind(&self, term: usize) -> &Kind {
        &self.terms[term].kind
    }

    // Numbers a term and those in it; its number.
    fn number(&mut self, term: &Term, enclosing: usize) -> usize {
        let number = self.terms.len();
        self.terms.push(TermInfo { kind: Kind::Stop, enclosing, reach: 0, doomed: false });
        self.terms[number].kind = match term {
            Term::Stop => Kind::Stop,
            Term::Fail => Kind::Fail,
            Term::Prefix(set, follower) => {
                Kind::Prefix { set: set.clone(), follower: self.number(follower, enclosing + 1) }
            }
            Term::Choice(left, right) => {
                let left = self.number(left, enclosing);
                Kind::Choice { left, right: self.number(right, enclosing) }
            }
            Term::Parallel(set, left, right) => {
                let left = self.number(left, enclosing);
                let right = self.number(right, enclosing);
                Kind::Parallel { set: set.clone(), left, right }
            }
            Term::Call(definition) => Kind::Call { definition: *definition as usize },
        };
        number
    }

    // "Reach counts likewise, but an own-level call counts its level's hands": a call of any
    // level counts that level's width.
    fn set_reach(&mut self, table: &Table) {
        let widths = level_widths(table);
        // what a term consists of comes after it
        for term in (0..self.terms.len()).rev() {
            let reach = |term: usize| self.terms[term].reach;
            self.terms[term].reach = match self.terms[term].kind {
                Kind::Stop | Kind::Fail => 1,
                Kind::Prefix { follower, .. } => reach(follower),
                Kind::Choice { left, right } => reach(left).max(reach(right)),
                Kind::Parallel { left, right, .. } => reach(left) + reach(right),
                Kind::Call { definition } => widths[table.definitions[definition].level as usize],
            };
        }
    }

    // "Doomed: FAIL; a choice of two doomed terms; a parallel with a doomed side; a call of a
    // doomed body." A body's calls that no prefix guards are of lower definitions, so that the
    // bodies are right after a round; the calls behind prefixes after another.
    fn set_doomed(&mut self) {
        for _ in 0..2 {
            for definition in 0..self.bodies.len() {
                let next = self.bodies.get(definition + 1).copied().unwrap_or(self.terms.len());
                for term in (self.bodies[definition]..next).rev() {
                    let doomed = |term: usize| self.terms[term].doomed;
                    self.terms[term].doomed = match self.terms[term].kind {
                        Kind::Stop | Kind::Prefix { .. } => false,
                        Kind::Fail => true,
                        Kind::Choice { left, right } => doomed(left) && doomed(right),
                        Kind::Parallel { left, right, .. } => doomed(left) || doomed(right),
                        Kind::Call { definition } => doomed(self.bodies[definition]),
                    };
                }
            }
        }
    }

    // "row v is the set for parameter v"; the parameter is the event that the memory has at k
    pub fn holds(&self, set: &SetReference, memory: Memory, event: u16) -> bool {
        let row = match (&self.sets[set.set as usize], set.parameter) {
            (Set::Plain(row), _) => row,
            (Set::Rows(rows), Some(k)) => &rows[memory[k as usize] as usize],
            (Set::Rows(_), None) => unreachable!("a kind 1 set has a parameter"),
        };
        row.contains(&event)
    }
}
