// Try beside Feed (02, W4): junk stands in the further areas before each call.

use super::states::counted;
use super::walks::*;
use crate::damage::CLAUSES;
use crate::monitor::examples::{list_of, K8};
use crate::monitor::history::{History, BUFFER};
use crate::monitor::state::Record;
use crate::monitor::tables;
use crate::operations::WORK;
use crate::random::Random;
use crate::refusal::*;
use crate::worked::TABLE_B;

// Try leaves the monitor as it was; Feed of the same events then answers and leaves what Try did.
fn tried_then_fed(history: &mut History, events: &[u8]) {
    let (record, areas) = (history.record, history.areas());
    let tried = history.try_feed(events);
    let kept = history.record == record && history.areas() == areas;
    history.known_true(kept, "the monitor is as it was");
    let fed = history.feed(events);
    let same = fed == tried.answer && history.areas() == tried.areas;
    history.known_true(same, "as it was tried");
    history.known_not(INCONSISTENT);
}

// Events from the state on, at times with one that is no event of the table.
fn some_events(random: &mut Random, made: &Prepared, history: &History) -> Vec<u8> {
    let residuals = residuals_of(&made.terms, history);
    let count = random.between(0, 5);
    let mut events = guided(random, &made.terms, &residuals, made.slots, count);
    if random.once_in(5) {
        events.push(random.between(made.terms.alphabet as usize, 255) as u8);
        events.push(0);
    }
    events
}

// Table B with one slot; K8, whose event 0 leaves two residuals, with one and with two.
pub fn worked_try(history: &mut History) {
    let table = list_of(&[TABLE_B]);
    history.begin(&table, 1);
    history.open(&[]);
    for (events, number, place) in
        [(&[0, 1, 0][..], 0, 0), (&[0, 0], 0, 0), (&[], 0, 0), (&[0, 3, 1], UNKNOWN_EVENT, 1)]
    {
        history.try_feed(events);
        history.known(number, place);
        history.known_record(0, 1, 1, None);
    }
    // each further area by itself, before the table; the areas themselves
    for lengths in [[16, 32], [32, 16], [0, 16], [16, 0], [32, 32], [15, 16]] {
        history.try_work(&[0], WORK, lengths);
        history.known(WRONG_LENGTH, 0);
    }
    history.try_work(&[0], WORK - 1, [16, 16]);
    history.known(WRONG_LENGTH, 0);
    history.other_table(&table[..15]);
    history.try_work(&[0], WORK, [16, 32]);
    history.known(WRONG_LENGTH, 0);
    history.try_feed(&[0]);
    history.known(TRUNCATED, 15);
    history.other_table(&table);
    history.feed(&[0, 0]);
    history.known_record(2, 0, 1, Some(2));
    history.try_feed(&[1, 3]);
    history.known(UNKNOWN_EVENT, 1);
    history.set_words(1, 3, &[1]);
    history.try_feed(&[3]);
    history.known(INCONSISTENT, 0);
    history.begin(&list_of(&K8), 1);
    history.open(&[]);
    history.try_feed(&[0]);
    history.known(CAPACITY_EXCEEDED, 0);
    history.known_record(0, 1, 1, None);
    history.try_feed(&[1, 0]);
    history.known(0, 0);
    history.offer();
    // with two slots: the record that Try gives has the copy's peak, the monitor's its own
    history.begin(&list_of(&K8), 2);
    history.open(&[]);
    let tried = history.try_feed(&[0, 0]);
    let given = Record { taken: 2, count: 1, peak: 2, failed: None };
    history.known_true(tried.answer.record == Some(given), "the record of the copy");
    history.known_record(0, 1, 1, None);
}

pub fn tried_and_fed(random: &mut Random, history: &mut History) {
    let made = prepared(random, |_, _| true);
    enter(history, &made);
    for _ in 0..random.between(1, 3) {
        let events = some_events(random, &made, history);
        tried_then_fed(history, &events);
    }
    history.offer();
}

// A further area of another length is 1, before a refused table and a disturbed state.
pub fn tried_lengths(random: &mut Random, history: &mut History) {
    let made = prepared(random, |_, _| true);
    enter(history, &made);
    let length = 16 * made.slots;
    let other = match random.below(3) {
        0 => random.below(BUFFER + 1),
        1 => [length - 1, length + 1][random.below(2)],
        _ => 16 * random.between(1, 256),
    };
    let lengths = [[other, length], [length, other], [other, other]][random.below(3)];
    let events = some_events(random, &made, history);
    history.try_work(&events, WORK, lengths);
    if other != length {
        history.known(WRONG_LENGTH, 0);
    }
    history.try_work(&events, random.below(WORK), [length; 2]);
    history.known(WRONG_LENGTH, 0);
    if other != length {
        history.other_table(&made.list[1..]);
        history.try_work(&events, WORK, lengths);
        history.known(WRONG_LENGTH, 0);
        history.other_table(&made.list);
    }
    tried_then_fed(history, &events);
}

pub fn tried_refused_tables(random: &mut Random, history: &mut History) {
    let fault = loop {
        let fault = random.pick(&CLAUSES).1(random);
        if fault.list.len() <= 700 {
            break fault;
        }
    };
    let made = prepared(random, |_, _| true);
    enter(history, &made);
    let events = some_events(random, &made, history);
    history.other_table(&fault.list);
    history.try_feed(&events);
    history.known(fault.number, fault.place);
    history.other_table(&made.list);
    tried_then_fed(history, &events);
}

pub fn tried_disturbed(random: &mut Random, history: &mut History) {
    let made = prepared(random, |_, _| true);
    enter(history, &made);
    let (record, areas) = (history.record, history.areas());
    match random.below(3) {
        0 => history.set_record(counted(record, record.count + 1)),
        1 => history.set_record(Record { peak: made.slots as u64 + 1, ..record }),
        _ => {
            let index = random.below(16 * made.slots);
            history.set_words(1 - record.present(), index, &[random.between(1, 9) as u64]);
        }
    }
    let events = some_events(random, &made, history);
    history.try_feed(&events);
    history.known(INCONSISTENT, 0);
    history.restore(record, &areas);
    tried_then_fed(history, &events);
}

// With just the slots that the way to the state takes.
pub fn tried_crowded(random: &mut Random, history: &mut History) {
    let made = prepared_of(random, tables::wide_loops, |_, _| true);
    history.begin(&made.list, made.slots.max(2) - 1);
    if history.open(&[]).record.is_none() {
        history.known(CAPACITY_EXCEEDED, 0);
        return;
    }
    for _ in 0..random.between(1, 4) {
        let residuals = residuals_of(&made.terms, history);
        let count = random.between(1, 5);
        let events = guided(random, &made.terms, &residuals, 256, count);
        tried_then_fed(history, &events);
    }
}

// A state whose taken is raised to the end, parity kept.
pub fn tried_counter(random: &mut Random, history: &mut History) {
    let made = prepared(random, |_, _| true);
    enter(history, &made);
    let away = 2 * random.below(2) as u64 + (1 - history.record.taken % 2);
    history.set_record(Record { taken: u64::MAX - away, ..history.record });
    for _ in 0..2 {
        let events = some_events(random, &made, history);
        tried_then_fed(history, &events);
    }
}

pub fn tried_after_failure(random: &mut Random, history: &mut History) {
    let all = |terms: &crate::monitor::terms::Terms| terms.alphabet as usize;
    let made =
        prepared(random, |terms, residuals| permitted(terms, residuals).len() < all(terms));
    enter(history, &made);
    let permitted = permitted(&made.terms, &made.residuals);
    let wrong = (0..=255).find(|e| !permitted.contains(e)).expect("an event");
    tried_then_fed(history, &[wrong]);
    history.known_true(history.record.failed.is_some(), "failed");
    for _ in 0..2 {
        let count = random.between(0, 3);
        let events: Vec<u8> =
            (0..count).map(|_| random.below(all(&made.terms) + 1) as u8).collect();
        tried_then_fed(history, &events);
    }
}
