// States that did not come from a fresh monitor and are not disturbed all the same, or may be.

use super::walks::*;
use crate::generate::*;
use crate::monitor::history::History;
use crate::monitor::residual::*;
use crate::monitor::state::{reach, Record, MOST_REACH};
use crate::monitor::tables;
use crate::monitor::terms::{Kind, Terms};
use crate::random::Random;
use crate::refusal::INCONSISTENT;
use crate::table::*;
use std::rc::Rc;

// The record with another count, its peak raised where it would be below.
pub fn counted(record: Record, count: u64) -> Record {
    Record { count, peak: record.peak.max(count), ..record }
}

pub fn is_pair(residual: &Residual) -> bool {
    matches!(residual, Residual::Pair(..))
}

// These residuals instead of those that the present area holds, with a peak that stands.
pub fn hold(history: &mut History, residuals: &Residuals) {
    let length = history.lengths[0];
    let mut areas = history.areas();
    areas[history.record.present()] = area(residuals, length);
    let record = counted(history.record, residuals.len() as u64);
    history.restore(record, &areas);
}

// Calls on a state that is valid, from this one on.
fn follow(random: &mut Random, history: &mut History, terms: &Terms) {
    history.feed(&[]);
    history.known(0, 0);
    history.offer();
    history.known(0, 0);
    history.view();
    for _ in 0..random.between(1, 3) {
        let residuals = residuals_of(terms, history);
        let slots = history.lengths[0] / 16;
        let count = random.between(1, 3);
        let events = guided(random, terms, &residuals, slots, count);
        history.feed(&events);
        history.known_not(INCONSISTENT);
        history.offer();
    }
}

fn swapped(random: &mut Random, residual: &Residual) -> Residual {
    match residual {
        Residual::Leaf(_) => residual.clone(),
        Residual::Pair(node, left, right) => {
            let left = Rc::new(swapped(random, left));
            let right = Rc::new(swapped(random, right));
            if random.once_in(2) {
                Residual::Pair(*node, left, right)
            } else {
                Residual::Pair(*node, right, left)
            }
        }
    }
}

pub fn sides_swapped(random: &mut Random, history: &mut History) {
    let made = prepared(random, |_, residuals| residuals.iter().any(is_pair));
    enter(history, &made);
    let residuals = made.residuals.iter().map(|residual| swapped(random, residual)).collect();
    hold(history, &residuals);
    follow(random, history, &made.terms);
}

// ---- trees of any terms of the table

pub fn terms_where(terms: &Terms, want: impl Fn(&Kind) -> bool) -> Vec<usize> {
    (0..terms.terms.len()).filter(|&term| want(terms.kind(term))).collect()
}

pub fn leaf_terms(terms: &Terms) -> Vec<usize> {
    terms_where(terms, |kind| matches!(kind, Kind::Stop | Kind::Prefix { .. }))
}

pub fn parallel_terms(terms: &Terms) -> Vec<usize> {
    terms_where(terms, |kind| matches!(kind, Kind::Parallel { .. }))
}

// A memory that may stand at this term.
fn memory(random: &mut Random, terms: &Terms, term: usize) -> Memory {
    let enclosing = terms.terms[term].enclosing;
    [0, 1, 2, 3].map(|i| match i < enclosing {
        true => random.below(terms.alphabet as usize) as u16,
        false => 0,
    })
}

// A tree of so many leaves, whatever its reach.
pub fn any_tree(random: &mut Random, terms: &Terms, leaves: usize) -> Residual {
    let kinds = if leaves == 1 { leaf_terms(terms) } else { parallel_terms(terms) };
    let term = *random.pick(&kinds);
    let node = Node { term, memory: memory(random, terms, term) };
    if leaves == 1 {
        return Residual::Leaf(node);
    }
    let left = random.between(1, leaves - 1);
    let (left, right) = (any_tree(random, terms, left), any_tree(random, terms, leaves - left));
    Residual::Pair(node, Rc::new(left), Rc::new(right))
}

fn leaf_and_parallel(terms: &Terms) -> bool {
    !leaf_terms(terms).is_empty() && !parallel_terms(terms).is_empty()
}

pub fn any_trees(random: &mut Random, history: &mut History) {
    let made = prepared(random, |terms, _| leaf_and_parallel(terms));
    enter(history, &made);
    let mut residuals = Residuals::new();
    for _ in 0..random.between(1, made.slots.min(4)) {
        let leaves = random.between(1, 8);
        let tree = any_tree(random, &made.terms, leaves);
        if reach(&made.terms, &tree) <= MOST_REACH {
            residuals.insert(tree);
        }
    }
    if residuals.is_empty() {
        let leaf = any_tree(random, &made.terms, 1);
        residuals.insert(leaf);
    }
    hold(history, &residuals);
    follow(random, history, &made.terms);
}

// Level 0: a wide body, and a prefix before a call of it, whose reach is the level's width and
// whose width is 1.
pub fn far_reaching(random: &mut Random) -> Table {
    let width = random.between(2, 8);
    accepted(|| {
        let mut definitions = vec![
            definition(0, wide(random, width, width + 2)),
            definition(0, prefix(plain(0), Term::Call(0))),
        ];
        let call = Term::Call(random.below(2) as u16);
        let sides = parallel(plain(2), Term::Call(1), prefix(plain(1), Term::Stop));
        definitions.push(definition(1, if width < 8 { sides } else { call }));
        with_bodies(definitions)
    })
}

// ---- states that may be disturbed: whatever this implementation says

// A word or two of a running state changed.
pub fn random_words(random: &mut Random, history: &mut History) {
    let made = prepared(random, |_, _| true);
    enter(history, &made);
    let present = history.record.present();
    for _ in 0..random.between(1, 2) {
        let held = 16 * history.record.count as usize;
        let index = match random.below(4) {
            0 => random.below(history.lengths[0]),
            _ => 16 * random.below(held / 16) + random.below(6),
        };
        let area = if random.once_in(8) { 1 - present } else { present };
        let word = history.lent(area)[index];
        let word = match random.below(6) {
            0 => word ^ (1 << random.below(TERM_AT + 10)),
            1 => word.wrapping_add(1 << TERM_AT),
            2 => word.wrapping_sub(1 << TERM_AT),
            3 => word ^ (1 << digit_at(random.below(4))),
            4 => word.wrapping_add(1),
            _ => (random.below(made.terms.terms.len()) as u64) << TERM_AT,
        };
        history.set_words(area, index, &[word]);
    }
    history.feed(&[]);
    history.offer();
    history.view();
    let residuals = residuals_of(&made.terms, history);
    let next = event(random, &made.terms, &residuals);
    history.feed(&[next]);
}

// The state of one table lent with another: a changed one, or any.
pub fn other_table(random: &mut Random, history: &mut History) {
    let made = prepared(random, |_, _| true);
    enter(history, &made);
    let (record, areas) = (history.record, history.areas());
    for _ in 0..random.between(1, 3) {
        let other = match random.below(3) {
            0 => tables::any(random).list(),
            _ => changed(random, &made.list),
        };
        let terms = Terms::of(&accepted_table(&other));
        history.other_table(&other);
        history.feed(&[]);
        history.offer();
        let residuals = residuals_of(&terms, history);
        let next = event(random, &terms, &residuals);
        history.feed(&[next]);
        history.restore(record, &areas);
    }
    history.other_table(&made.list);
    history.feed(&[]);
    history.known(0, 0);
}

// An accepted list that differs in a number or two.
fn changed(random: &mut Random, list: &[u16]) -> Vec<u16> {
    for _ in 0..400 {
        let mut other = list.to_vec();
        let at = random.below(other.len());
        other[at] = random.below(6) as u16;
        if other != list && tables::stands(&other) {
            return other;
        }
    }
    list.to_vec()
}
