// Wrong lengths of what is lent, garbage before Open, and refused tables.

use super::walks::*;
use crate::damage::CLAUSES;
use crate::monitor::history::{Fill, History, BUFFER};
use crate::monitor::tables;
use crate::operations::WORK;
use crate::random::Random;
use crate::refusal::*;

// Lengths of the areas and of the work area, one of which at least is wrong.
fn wrong_lengths(random: &mut Random, length: usize) -> ([usize; 2], usize) {
    let wrong = match random.below(4) {
        0 => random.below(BUFFER + 1),
        1 => [length - 1, length + 1][random.below(2)],
        2 => 16 * random.between(1, 256),
        _ => [0, 4_112, BUFFER][random.below(3)],
    };
    let wrong_work = match random.below(3) {
        0 => random.below(8_300),
        1 => [WORK - 1, WORK + 1, 0][random.below(3)],
        _ => WORK,
    };
    let lengths = match random.below(4) {
        0 => [wrong, length],
        1 => [length, wrong],
        2 => [wrong, wrong],
        _ => [length, length],
    };
    let [one, two] = lengths;
    let right = one == two && one % 16 == 0 && 16 <= one && one <= 4_096 && wrong_work == WORK;
    if right {
        return wrong_lengths(random, length);
    }
    (lengths, wrong_work)
}

pub fn wrong_lengths_open(random: &mut Random, history: &mut History) {
    let list = tables::any(random).list();
    let length = 16 * random.between(1, 20);
    history.table(&list);
    let ([one, two], work_len) = wrong_lengths(random, length);
    history.lend(one, two, if random.once_in(2) { Fill::Junk } else { Fill::Zeros });
    history.open_work(&[], work_len);
    history.known(WRONG_LENGTH, 0);
    history.feed_work(&[0], work_len);
    history.known(WRONG_LENGTH, 0);
    history.offer_work(work_len);
    history.known(WRONG_LENGTH, 0);
    history.view();
}

// A running state, lent wrongly and then rightly again: nothing was lost.
pub fn wrong_lengths_midway(random: &mut Random, history: &mut History) {
    let made = prepared(random, |_, _| true);
    enter(history, &made);
    let length = 16 * made.slots;
    for _ in 0..random.between(1, 2) {
        let ([one, two], work_len) = wrong_lengths(random, length);
        history.lend(one, two, Fill::Kept);
        let next = event(random, &made.terms, &made.residuals);
        history.feed_work(&[next], work_len);
        history.known(WRONG_LENGTH, 0);
        history.offer_work(work_len);
        history.known(WRONG_LENGTH, 0);
        history.view();
    }
    history.lend(length, length, Fill::Kept);
    let next = event(random, &made.terms, &made.residuals);
    history.feed(&[next]);
    history.known_not(WRONG_LENGTH);
    history.known_not(INCONSISTENT);
    history.offer();
}

pub fn garbage_before_open(random: &mut Random, history: &mut History) {
    let made = prepared(random, |_, _| true);
    enter(history, &made);
    let (record, areas) = (history.record, history.areas());
    for area in 0..2 {
        let words: Vec<u64> =
            (0..random.between(1, 20)).map(|_| random.next() >> random.below(64)).collect();
        let most = 16 * made.slots - words.len().min(16 * made.slots);
        let index = random.between(0, most);
        let words = &words[..words.len().min(16 * made.slots)];
        history.set_words(area, index, words);
    }
    history.offer();
    history.open(&[]);
    history.known(0, 0);
    history.feed(&made.events);
    let same = history.record == record && history.areas() == areas;
    history.known_true(same, "as if nothing had stood there");
    history.view();
}

// A table with one known fault, at Open and in the midst of a history.
pub fn refused_tables(random: &mut Random, history: &mut History) {
    let fault = loop {
        let fault = random.pick(&CLAUSES).1(random);
        if fault.list.len() <= 700 {
            break fault;
        }
    };
    history.begin(&fault.list, random.between(1, 4));
    history.open(&[]);
    history.known(fault.number, fault.place);
    history.feed(&[200]);
    history.known(fault.number, fault.place);
    history.offer();
    history.known(fault.number, fault.place);
    history.view();
    if random.once_in(2) {
        return;
    }
    let made = prepared(random, |_, _| true);
    enter(history, &made);
    history.other_table(&fault.list);
    history.feed(&[0, 1]);
    history.known(fault.number, fault.place);
    history.offer();
    history.known(fault.number, fault.place);
    if random.once_in(4) {
        history.open(&[]);
        history.known(fault.number, fault.place);
    }
    history.other_table(&made.list);
    let next = event(random, &made.terms, &made.residuals);
    history.feed(&[next]);
    history.known_not(INCONSISTENT);
    history.offer();
    history.known(0, 0);
}
