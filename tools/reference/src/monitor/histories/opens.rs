// Open with a list of events (02, W7): junk stands in the areas before each call, and a record that
// it does not read.

use super::walks::*;
use crate::damage::CLAUSES;
use crate::monitor::examples::{list_of, K7, K8};
use crate::monitor::history::{Fill, History};
use crate::monitor::residual::{after_all, resolve_last, Results};
use crate::monitor::state::Record;
use crate::monitor::tables;
use crate::monitor::terms::Terms;
use crate::operations::WORK;
use crate::random::Random;
use crate::refusal::*;
use crate::worked::TABLE_B;

// Areas of the same length full of junk, and another record.
fn again(history: &mut History) {
    let [length_0, length_1] = history.lengths;
    history.lend(length_0, length_1, Fill::Junk);
    history.set_record(Record { taken: 7, count: 3, peak: 9, failed: Some(5) });
}

// Both areas are zero, and the record that went in stands.
fn known_unopened(history: &mut History, record: Record) {
    history.known(CAPACITY_EXCEEDED, 0);
    let zero = history.areas().iter().flatten().all(|&word| word == 0);
    history.known_true(zero && history.record == record, "both areas zero, no record");
}

// Table B with one slot; K7, which holds two at first, with one; K8, whose event 0 leaves two, with
// one: 13 at place 0 in two forms.
pub fn worked_open(history: &mut History) {
    let table = list_of(&[TABLE_B]);
    history.begin(&table, 1);
    for (events, answer, (taken, count, peak, failed)) in [
        (&[][..], (0, 0), (0, 1, 1, None)),
        (&[0, 1, 0], (0, 0), (3, 1, 1, None)),
        (&[0, 0, 1], (0, 0), (3, 0, 1, Some(2))),
        (&[0, 3, 1], (UNKNOWN_EVENT, 1), (1, 1, 1, None)),
        (&[3], (UNKNOWN_EVENT, 0), (0, 1, 1, None)),
        (&[2, 9], (UNKNOWN_EVENT, 1), (1, 0, 1, Some(1))),
    ] {
        again(history);
        history.open(events);
        history.known(answer.0, answer.1);
        history.known_record(taken, count, peak, failed);
        history.offer();
        history.view();
        history.feed(&[1]);
        history.known(0, 0);
    }
    // a list changes nothing of 1 to 9
    again(history);
    history.open_work(&[9], WORK - 1);
    history.known(WRONG_LENGTH, 0);
    history.other_table(&table[..15]);
    history.open(&[9]);
    history.known(TRUNCATED, 15);
    history.known_record(7, 3, 9, Some(5));
    history.lend(16, 32, Fill::Junk);
    history.open(&[9]);
    history.known(WRONG_LENGTH, 0);
    history.begin(&list_of(&K7), 1);
    for events in [&[][..], &[0], &[9]] {
        again(history);
        let record = history.record;
        history.open(events);
        known_unopened(history, record);
    }
    history.begin(&list_of(&K8), 1);
    again(history);
    history.open(&[0]);
    history.known(CAPACITY_EXCEEDED, 0);
    history.known_record(0, 1, 1, None);
    history.view();
    history.feed(&[2]);
    history.known_record(1, 0, 1, Some(1));
    // with two slots: the peak of its own list
    history.begin(&list_of(&K8), 2);
    history.open(&[0, 0]);
    history.known_record(2, 1, 2, None);
}

// Open of a list answers and leaves what Feed of it does on what Open of none gave.
pub fn opened_and_fed(random: &mut Random, history: &mut History) {
    let table = tables::any(random);
    let terms = Terms::of(&table);
    let slots = slots_for(random, &table);
    history.begin(&table.list(), slots);
    let events = piece(random, &terms, &resolve_last(&terms), slots);
    let opened = history.open(&events);
    let areas = history.areas();
    again(history);
    if history.open(&[]).record.is_none() {
        history.known(CAPACITY_EXCEEDED, 0);
        return;
    }
    let fed = history.feed(&events);
    let same = fed == opened && history.areas() == areas;
    history.known_true(same, "opened in one go and fed agree");
    history.offer();
    history.view();
}

// An Open that is refused at an event; calls after it; then an Open on what was joined.
pub fn opened_midway(random: &mut Random, history: &mut History) {
    let made = prepared(random, |_, _| true);
    let alphabet = made.terms.alphabet as usize;
    history.begin(&made.list, made.slots);
    again(history);
    let mut list = made.events.clone();
    list.push(random.between(alphabet, 255) as u8);
    let count = random.between(0, 3);
    list.extend((0..count).map(|_| random.below(alphabet) as u8));
    history.open(&list);
    history.known(UNKNOWN_EVENT, made.events.len());
    let (taken, held) = (made.events.len() as u64, made.residuals.len() as u64);
    history.known_record(taken, held, made.peak, None);
    let mut joined = made.events.clone();
    for _ in 0..random.between(1, 3) {
        let residuals = residuals_of(&made.terms, history);
        let events = piece(random, &made.terms, &residuals, made.slots);
        let fed = history.feed(&events);
        joined.extend(taken_of(&events, fed.refusal));
    }
    let (record, areas) = (history.record, history.areas());
    again(history);
    history.open(&joined);
    history.known(0, 0);
    let same = history.record == record && history.areas() == areas;
    history.known_true(same, "the calls and one Open agree");
    history.offer();
}

// More residuals than slots before any event: whatever the list, and after a refused table.
pub fn opened_crowded_settling(random: &mut Random, history: &mut History) {
    let table = loop {
        let table = tables::wide_loops(random);
        if (2..=40).contains(&resolve_last(&Terms::of(&table)).len()) {
            break table;
        }
    };
    let held = resolve_last(&Terms::of(&table)).len();
    history.begin(&table.list(), random.between(1, held - 1));
    again(history);
    let record = history.record;
    let count = random.between(0, 4);
    let events: Vec<u8> = (0..count).map(|_| random.below(256) as u8).collect();
    history.open(&events);
    known_unopened(history, record);
    let fault = loop {
        let fault = random.pick(&CLAUSES).1(random);
        if fault.list.len() <= 700 {
            break fault;
        }
    };
    history.other_table(&fault.list);
    history.open(&events);
    history.known(fault.number, fault.place);
    history.other_table(&table.list());
    history.lend(16 * held, 16 * held, Fill::Junk);
    history.open(&[]);
    history.known_record(0, held as u64, held as u64, None);
}

// More residuals than slots after the first event: with the record and the settled areas.
pub fn opened_crowded_first(random: &mut Random, history: &mut History) {
    loop {
        let table = tables::wide_loops(random);
        let terms = Terms::of(&table);
        let settled = resolve_last(&terms);
        let slots = settled.len().max(1);
        let crowding: Vec<u8> = (0..terms.alphabet)
            .filter(|&e| after_all(&terms, &settled, e, slots) == Results::Many)
            .map(|e| e as u8)
            .collect();
        if slots > 40 || crowding.is_empty() {
            continue;
        }
        history.begin(&table.list(), slots);
        history.open(&[]);
        let (record, areas) = (history.record, history.areas());
        again(history);
        history.open(&[*random.pick(&crowding), random.below(256) as u8]);
        history.known(CAPACITY_EXCEEDED, 0);
        let same = history.record == record && history.areas() == areas;
        history.known_true(same, "the record and the settled areas");
        history.offer();
        history.feed(&[*random.pick(&crowding)]);
        history.known(CAPACITY_EXCEEDED, 0);
        return;
    }
}
