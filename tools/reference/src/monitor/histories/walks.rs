// Walks: calls of fresh monitors on drawn tables, mostly along events that are permitted.
//     Prepared        a table and events that lead to a state of a wanted kind
//     guided          events that mostly keep a state running

use crate::generate::*;
use crate::monitor::history::{Fill, History};
use crate::monitor::operations::{is_offered, Answer};
use crate::monitor::residual::*;
use crate::monitor::state::{held, Record};
use crate::monitor::tables;
use crate::monitor::terms::Terms;
use crate::operations::{table_of_list, WORK};
use crate::random::Random;
use crate::refusal::{Refusal, CAPACITY_EXCEEDED, INCONSISTENT, UNKNOWN_EVENT, WRONG_LENGTH};
use crate::table::Table;

pub struct Prepared {
    pub list: Vec<u16>,
    pub terms: Terms,
    // enough slots for the way there, and some more
    pub slots: usize,
    pub events: Vec<u8>,
    pub residuals: Residuals,
    // the most residuals on the way there, these included
    pub peak: u64,
}

pub fn permitted(terms: &Terms, residuals: &Residuals) -> Vec<u8> {
    let goes_on = |e: &u16| !after_all(terms, residuals, *e, 256).is_none();
    (0..terms.alphabet).filter(goes_on).map(|e| e as u8).collect()
}

// An event that is permitted where there is one, mostly.
pub fn event(random: &mut Random, terms: &Terms, residuals: &Residuals) -> u8 {
    let permitted = permitted(terms, residuals);
    if permitted.is_empty() || random.once_in(20) {
        random.below(terms.alphabet as usize) as u8
    } else {
        *random.pick(&permitted)
    }
}

// Events from these residuals on.
pub fn guided(
    random: &mut Random,
    terms: &Terms,
    residuals: &Residuals,
    slots: usize,
    count: usize,
) -> Vec<u8> {
    let mut residuals = residuals.clone();
    let mut events = Vec::new();
    for _ in 0..count {
        let event = event(random, terms, &residuals);
        events.push(event);
        match after_all(terms, &residuals, event as u16, slots) {
            Results::Few(next) => residuals = next,
            Results::Many => break,
        }
    }
    events
}

// The residuals that the state of a history holds; none if it is disturbed.
pub fn residuals_of(terms: &Terms, history: &History) -> Residuals {
    held(terms, history.record, &history.areas()).unwrap_or_default()
}

// A running state for which `want` holds, with at most twelve residuals on the way.
pub fn prepared_of(
    random: &mut Random,
    mut table: impl FnMut(&mut Random) -> Table,
    want: impl Fn(&Terms, &Residuals) -> bool,
) -> Prepared {
    loop {
        let table = table(random);
        let terms = Terms::of(&table);
        let mut residuals = resolve_last(&terms);
        let mut events = Vec::new();
        let mut most = residuals.len();
        let several = random.once_in(2);
        for _ in 0..random.between(1, 5) {
            if residuals.is_empty() || most > 12 {
                break;
            }
            let enough = !several || residuals.len() > 1;
            if enough && want(&terms, &residuals) && !random.once_in(3) {
                let slots = most + random.between(1, 3);
                let (list, peak) = (table.list(), most as u64);
                return Prepared { list, terms, slots, events, residuals, peak };
            }
            let event = event(random, &terms, &residuals);
            let Results::Few(next) = after_all(&terms, &residuals, event as u16, 12) else {
                break;
            };
            events.push(event);
            most = most.max(next.len());
            residuals = next;
        }
    }
}

pub fn prepared(random: &mut Random, want: impl Fn(&Terms, &Residuals) -> bool) -> Prepared {
    prepared_of(random, tables::any, want)
}

// Open, in one go with the events that lead to the state or before these are fed.
pub fn enter(history: &mut History, prepared: &Prepared) {
    history.begin(&prepared.list, prepared.slots);
    let at_once = prepared.events.len() % 2 == 1;
    history.open(if at_once { &prepared.events } else { &[] });
    history.known(0, 0);
    if !at_once && !prepared.events.is_empty() {
        history.feed(&prepared.events);
    }
    let (taken, count) = (prepared.events.len() as u64, prepared.residuals.len() as u64);
    history.known_record(taken, count, prepared.peak, None);
}

pub fn slots_for(random: &mut Random, table: &Table) -> usize {
    let most = resolve_last(&Terms::of(table)).len();
    match random.below(8) {
        0 => 256,
        1 => 1,
        _ => (most + random.between(0, 6)).clamp(1, 256),
    }
}

// Calls of one to six events, with Offer and View after each.
fn walk(random: &mut Random, history: &mut History, table: &Table, calls: usize) {
    let terms = Terms::of(table);
    let slots = slots_for(random, table);
    history.begin(&table.list(), slots);
    if history.open(&[]).record.is_none() {
        history.known(CAPACITY_EXCEEDED, 0);
        return;
    }
    for _ in 0..calls {
        let residuals = residuals_of(&terms, history);
        let count = random.between(0, 6);
        let mut events = guided(random, &terms, &residuals, slots, count);
        if random.once_in(10) {
            events.push(random.between(terms.alphabet as usize, 255) as u8);
        }
        history.feed(&events);
        history.known_not(INCONSISTENT);
        if random.once_in(2) {
            history.offer();
            history.known(0, 0);
        }
        if random.once_in(2) {
            history.view();
        }
        if history.record.failed.is_some() && random.once_in(2) {
            break;
        }
    }
}

pub fn walks(random: &mut Random, history: &mut History) {
    let table = match random.below(4) {
        0 => small(random, SMALL),
        _ => tables::any(random),
    };
    let calls = random.between(1, 8);
    walk(random, history, &table, calls);
}

pub fn alphabet_64(random: &mut Random, history: &mut History) {
    let table = tables::full_alphabet(random, 64);
    walk(random, history, &table, 5);
}

// "Big halls need 128 events" (02, W6)
pub fn alphabet_128(random: &mut Random, history: &mut History) {
    let table = tables::full_alphabet(random, 128);
    walk(random, history, &table, 5);
}

// From one state, Offer; then the events beside the two words' ends, each as it was offered.
pub fn offers_128(random: &mut Random, history: &mut History) {
    let draw = |random: &mut Random| tables::full_alphabet(random, 128);
    let made = prepared_of(random, draw, |_, residuals| !residuals.is_empty());
    enter(history, &made);
    let (record, areas) = (history.record, history.areas());
    let bits = history.offer();
    for event in [0, 62, 63, 64, 65, 126, 127, random.below(128) as u16] {
        let goes_on = went_on(history.feed(&[event as u8]));
        history.known_true(is_offered(bits, event) == goes_on, "as it was offered");
        if random.once_in(4) {
            history.offer();
        }
        history.restore(record, &areas);
    }
    history.feed(&[128]);
    history.known(UNKNOWN_EVENT, 0);
}

// Whether the event that was fed left residuals, be they too many.
fn went_on(fed: Answer) -> bool {
    match fed.refusal {
        Some(refusal) => refusal.number == CAPACITY_EXCEEDED,
        None => fed.record.is_some_and(|record| record.failed.is_none()),
    }
}

pub fn memory_0_to_3(random: &mut Random, history: &mut History) {
    let table = tables::remembering(random);
    let calls = random.between(3, 8);
    walk(random, history, &table, calls);
}

// Event by event, Offer before each; then each event of the alphabet from the last state.
pub fn offers(random: &mut Random, history: &mut History) {
    let made = prepared(random, |_, residuals| !residuals.is_empty());
    enter(history, &made);
    let (record, areas) = (history.record, history.areas());
    let bits = history.offer();
    for event in 0..made.terms.alphabet.min(5) {
        let goes_on = went_on(history.feed(&[event as u8]));
        history.known_true(is_offered(bits, event) == goes_on, "as it was offered");
        if random.once_in(2) {
            history.offer();
        }
        history.restore(record, &areas);
    }
    history.offer();
    history.view();
}

// An Open with a piece, and further pieces, some refused; then an Open on the joined events, lent
// areas of the same length.
pub fn pieces_and_at_once(random: &mut Random, history: &mut History) {
    let table = tables::any(random);
    let terms = Terms::of(&table);
    let slots = slots_for(random, &table);
    history.begin(&table.list(), slots);
    let first = piece(random, &terms, &resolve_last(&terms), slots);
    let opened = history.open(&first);
    if opened.record.is_none() {
        return;
    }
    let mut joined = taken_of(&first, opened.refusal);
    for _ in 0..random.between(1, 5) {
        let residuals = residuals_of(&terms, history);
        let events = piece(random, &terms, &residuals, slots);
        let work_len = if random.once_in(10) { random.below(8_300) } else { WORK };
        let fed = history.feed_work(&events, work_len);
        joined.extend(taken_of(&events, fed.refusal));
    }
    let (record, areas) = (history.record, history.areas());
    history.lend(16 * slots, 16 * slots, Fill::Junk);
    history.open(&joined);
    history.known(0, 0);
    let same = history.record == record && history.areas() == areas;
    history.known_true(same, "pieces and at once agree");
    history.offer();
    history.view();
}

// Up to five events from the state on, at times with one among them that is no event of the table.
pub fn piece(random: &mut Random, terms: &Terms, residuals: &Residuals, slots: usize) -> Vec<u8> {
    let count = random.between(0, 5);
    let mut events = guided(random, terms, residuals, slots, count);
    if random.once_in(6) {
        let at = random.between(0, events.len());
        events.insert(at, random.between(terms.alphabet as usize, 255) as u8);
    }
    events
}

// The events of a call that join: before its refusal; none of a call with a wrong length.
pub fn taken_of(events: &[u8], refusal: Option<Refusal>) -> Vec<u8> {
    match refusal {
        None => events.to_vec(),
        Some(Refusal { number: WRONG_LENGTH, .. }) => Vec::new(),
        Some(Refusal { place, .. }) => events[..place].to_vec(),
    }
}

// Events that the alphabet does not have, and what comes after them.
pub fn strange_events(random: &mut Random, history: &mut History) {
    let made = prepared(random, |_, _| true);
    enter(history, &made);
    for _ in 0..random.between(1, 4) {
        let residuals = residuals_of(&made.terms, history);
        let count = random.between(0, 4);
        let mut events = guided(random, &made.terms, &residuals, 256, count);
        let place = random.between(0, events.len());
        let alphabet = made.terms.alphabet as usize;
        let strange = match random.below(3) {
            0 => alphabet,
            1 => 255,
            _ => random.between(alphabet, 255),
        };
        events.insert(place, strange as u8);
        let refusal = history.feed(&events).refusal.expect("a strange event");
        let stands = match refusal.number {
            UNKNOWN_EVENT => refusal.place == place,
            CAPACITY_EXCEEDED => refusal.place < place,
            _ => false,
        };
        history.known_true(stands, "11 at its place, or 13 before it");
        history.offer();
    }
    history.feed(&[]);
    history.known(0, 0);
    history.view();
}

// ---- more residuals than slots

pub fn crowded_settling(random: &mut Random, history: &mut History) {
    let table = loop {
        let table = match random.below(2) {
            0 => tables::wide_loops(random),
            _ => tables::lively(random, SMALL),
        };
        let count = resolve_last(&Terms::of(&table)).len();
        if (2..=40).contains(&count) {
            break table;
        }
    };
    let count = resolve_last(&Terms::of(&table)).len();
    let few = if random.once_in(2) { count - 1 } else { random.between(1, count - 1) };
    history.begin(&table.list(), few);
    if random.once_in(3) {
        let (taken, peak) = (random.below(9) as u64, random.below(9) as u64);
        history.set_record(Record { taken, count: 3, peak, failed: Some(1) });
    }
    let record = history.record;
    history.open(&[]);
    history.known(CAPACITY_EXCEEDED, 0);
    let zero = history.areas().iter().flatten().all(|&word| word == 0);
    history.known_true(zero && history.record == record, "both areas zero, no record");
    history.feed(&[0]);
    history.view();
    history.lend(16 * count, 16 * count, Fill::Kept);
    history.open(&[]);
    history.known_record(0, count as u64, count as u64, None);
    history.view();
    history.feed(&[random.below(table.alphabet as usize) as u8]);
    history.offer();
}

// Up to an event that is too much for the slots; then another event, or the same again.
pub fn crowded_midway(random: &mut Random, history: &mut History) {
    loop {
        let made = prepared_of(random, tables::wide_loops, |_, _| true);
        let slots = made.slots.max(2) - 1;
        let fits = |n: usize| n <= slots;
        let terms = &made.terms;
        let mut residuals = resolve_last(terms);
        let mut way = vec![residuals.len()];
        for &event in &made.events {
            let Results::Few(next) = after_all(terms, &residuals, event as u16, 256) else {
                unreachable!("at most twelve on the way")
            };
            residuals = next;
            way.push(residuals.len());
        }
        let crowding: Vec<u8> = (0..terms.alphabet)
            .filter(|&e| after_all(terms, &residuals, e, slots) == Results::Many)
            .map(|e| e as u8)
            .collect();
        let peak = way.iter().copied().max().expect("the start") as u64;
        if !way.into_iter().all(fits) || crowding.is_empty() {
            continue;
        }
        history.begin(&made.list, slots);
        history.open(&[]);
        let mut events = made.events.clone();
        events.push(*random.pick(&crowding));
        events.push(random.below(256) as u8);
        history.feed(&events);
        history.known(CAPACITY_EXCEEDED, made.events.len());
        let (taken, count) = (made.events.len() as u64, residuals.len() as u64);
        history.known_record(taken, count, peak, None);
        history.offer();
        history.view();
        history.feed(&[*random.pick(&crowding)]);
        history.known(CAPACITY_EXCEEDED, 0);
        history.known_record(taken, count, peak, None);
        for _ in 0..random.between(1, 4) {
            let residuals = residuals_of(terms, history);
            let next = event(random, terms, &residuals);
            history.feed(&[next]);
            history.known_not(INCONSISTENT);
        }
        history.offer();
        history.view();
        return;
    }
}

// The table of a list that is accepted.
pub fn accepted_table(list: &[u16]) -> Table {
    table_of_list(list).expect("an accepted table")
}
