// Events that are refused: 17, crowded starts, 11, 12 and 13 on the drawing and count then reached.
// Each leaves record, areas and minute as they were, and its place counts this call's events.

use super::drawn::*;
use super::history::*;
use super::operations::{Lent, Timed};
use super::refused::{begun, started};
use super::timetable::*;
use crate::monitor::residual::*;
use crate::monitor::state::Record;
use crate::monitor::tables;
use crate::random::Random;
use crate::refusal::*;

// Events up to one that is refused, and some behind it that are not looked at.
fn stopped(
    random: &mut Random,
    history: &mut History,
    before: &[(u8, u64)],
    event: (u8, u64),
    number: u8,
) {
    let mut ahead = copy(history);
    let taken = ahead.feed(before).refusal.is_none();
    let mut events = before.to_vec();
    events.push(event);
    let most = random.between(0, 2);
    events.extend((0..most).map(|_| (random.below(256) as u8, random.next() >> 20)));
    let answer = history.feed(&events);
    history.known_true(taken && answer.state.is_some(), "a state");
    history.known(number, before.len());
    history.known_same(ahead.state, &ahead.areas);
}

// Some events that are all taken.
fn taken_events(random: &mut Random, history: &History, most: usize) -> Vec<(u8, u64)> {
    let count = random.between(0, most);
    let mut events = script(random, history, count);
    if copy(history).feed(&events).refusal.is_some() {
        events.pop();
    }
    events
}

// The state after these events.
fn after(history: &History, events: &[(u8, u64)]) -> History {
    let mut ahead = copy(history);
    ahead.feed(events);
    ahead
}

// ---- 17

// A minute that an event may not have.
fn bad_minute(random: &mut Random, history: &History) -> u64 {
    let last = match history.state {
        Timed::NotStarted => 0,
        Timed::Started { minute, .. } => minute,
    };
    match random.below(5) {
        0 => MINUTES,
        1 => u64::MAX,
        2 => MINUTES + random.next() % (u64::MAX - MINUTES),
        3 if last > 0 => last - 1,
        _ if last > 0 => random.next() % last,
        _ => MINUTES,
    }
}

// Before crowded settling and 11: any event.
pub fn clock_back(random: &mut Random, history: &mut History) {
    let lent = lent(random);
    begun(random, history, &lent);
    for _ in 0..random.between(1, 3) {
        let before = taken_events(random, history, 3);
        let minute = bad_minute(random, &after(history, &before));
        let event = random.below(256) as u8;
        stopped(random, history, &before, (event, minute), CLOCK_BACK);
    }
}

// A stored minute of 2^48 or more is read on its remainder, and every event is 17.
pub fn large_minute(random: &mut Random, history: &mut History) {
    let (record, minute) = started(random, history);
    let weeks = match random.below(3) {
        0 => MINUTES / WEEK + 1,
        1 => u64::MAX / WEEK - 1,
        _ => MINUTES / WEEK + 1 + random.next() % (u64::MAX / WEEK - MINUTES / WEEK - 2),
    };
    let minute = WEEK * weeks + minute % WEEK;
    history.state = Timed::Started { record, minute };
    history.feed(&[]);
    history.known(0, 0);
    history.known_state(record, minute);
    for at in [minute, u64::MAX, minute % WEEK, MINUTES - 1, MINUTES] {
        if !random.once_in(2) {
            let event = random.below(4) as u8;
            stopped(random, history, &[], (event, at), CLOCK_BACK);
        }
    }
}

// ---- crowded starts

// Tables of which the wash one, or the everyday one, has more residuals at its start than there are
// slots, and the other has not.
fn crowding(random: &mut Random) -> (Lent, usize, Drawing) {
    loop {
        let windows = changing(random);
        let many = tables::wide_loops(random).list();
        let mut lent = lent_of(random, windows);
        let crowded = match random.once_in(2) {
            true => Drawing::Wash,
            false => Drawing::Everyday,
        };
        let few = match crowded {
            Drawing::Wash => {
                lent.wash = many.clone();
                lent.everyday.clone()
            }
            Drawing::Everyday => {
                lent.everyday = many.clone();
                lent.wash.clone()
            }
        };
        let [most, least] = [many, few].map(|list| {
            start_slots(&Lent { everyday: list.clone(), wash: list, windows: vec![] })
        });
        if least < most && most <= 40 {
            return (lent, random.between(least, most - 1), crowded);
        }
    }
}

// A minute from another on at which this drawing is in force.
fn minute_of(random: &mut Random, windows: &[u16], from: u64, drawing: Drawing) -> u64 {
    loop {
        let minute = from + random.next() % (2 * WEEK);
        if in_force(windows, minute) == drawing && minute < MINUTES {
            return minute;
        }
    }
}

// The first event; 13 comes before 11, and the monitor has not started.
pub fn crowded_first(random: &mut Random, history: &mut History) {
    let (lent, slots, drawing) = crowding(random);
    history.begin(&lent, slots);
    for _ in 0..2 {
        let from = random.below(100_000) as u64;
        let minute = minute_of(random, &lent.windows, from, drawing);
        let event = random.below(256) as u8;
        stopped(random, history, &[], (event, minute), CAPACITY_EXCEEDED);
        history.known_not_started();
    }
    let events = script(random, history, 3);
    history.feed(&events);
}

// A start in the midst; the old residuals, record and minute stand, and the monitor goes on.
pub fn crowded_restart(random: &mut Random, history: &mut History) {
    loop {
        let (lent, slots, crowded) = crowding(random);
        let calm = match crowded {
            Drawing::Wash => Drawing::Everyday,
            Drawing::Everyday => Drawing::Wash,
        };
        let from = random.below(100_000) as u64;
        let minute = minute_of(random, &lent.windows, from, calm);
        history.begin(&lent, slots);
        let first = (event_at(random, history, minute), minute);
        if copy(history).feed(&[first]).refusal.is_some() {
            continue;
        }
        history.feed(&[first]);
        for _ in 0..random.between(1, 3) {
            let before = taken_events(random, history, 3);
            let ahead = after(history, &before);
            let Timed::Started { minute: last, .. } = ahead.state else {
                unreachable!("started")
            };
            if last >= MINUTES - 3 * WEEK {
                break;
            }
            let at = minute_of(random, &lent.windows, last, crowded);
            let event = (random.below(256) as u8, at);
            stopped(random, history, &before, event, CAPACITY_EXCEEDED);
        }
        let events = script(random, history, 3);
        history.feed(&events);
        return;
    }
}

// ---- 11, 12 and 13

// An event that the drawing now in force does not have, though the other may.
pub fn strange_events(random: &mut Random, history: &mut History) {
    let lent = lent(random);
    let slots = start_slots(&lent) + 8;
    history.begin(&lent, slots.min(256));
    for _ in 0..random.between(1, 3) {
        let before = taken_events(random, history, 4);
        let ahead = after(history, &before);
        let minute = next_minute(random, &ahead);
        let alphabet = terms_at(&lent, minute).alphabet as usize;
        let event = match random.below(3) {
            0 => alphabet,
            1 => 255,
            _ => random.between(alphabet, 255),
        };
        stopped(random, history, &before, (event as u8, minute), UNKNOWN_EVENT);
    }
}

// More residuals after the event than slots, of a start or in the midst.
pub fn crowded_events(random: &mut Random, history: &mut History) {
    loop {
        let windows = timetable(random);
        let wash = tables::wide_loops(random).list();
        let everyday = tables::wide_loops(random).list();
        let lent = Lent { everyday, wash, windows };
        let slots = start_slots(&lent);
        if slots > 12 {
            continue;
        }
        history.begin(&lent, slots);
        let before = taken_events(random, history, 4);
        let ahead = after(history, &before);
        let minute = next_minute(random, &ahead);
        let terms = terms_at(&lent, minute);
        let residuals = residuals_at(&ahead, minute);
        let crowded = |e: &u16| after_all(&terms, &residuals, *e, slots) == Results::Many;
        let Some(event) = (0..terms.alphabet).find(crowded) else { continue };
        stopped(random, history, &before, (event as u8, minute), CAPACITY_EXCEEDED);
        let events = script(random, history, 3);
        history.feed(&events);
        return;
    }
}

// A record that is counted to the end: 12 where no start is due, else a start.
pub fn counter(random: &mut Random, history: &mut History) {
    let (record, minute) = started(random, history);
    // 2^64 - 1 is odd
    let away = 1 - record.taken % 2;
    history.state =
        Timed::Started { record: Record { taken: u64::MAX - away, ..record }, minute };
    for _ in 0..3 {
        let Timed::Started { record, .. } = history.state else { unreachable!("started") };
        let full = record.taken == u64::MAX;
        let minute = next_minute(random, history);
        let starts = starts(history, minute);
        let event = event_at(random, history, minute);
        let answer = history.feed(&[(event, minute)]);
        if full && !starts {
            history.known(COUNTER_FULL, 0);
        } else {
            let number = answer.refusal.map_or(0, |refusal| refusal.number);
            history.known_true(number != COUNTER_FULL, "not counted to the end");
        }
    }
}

// A failed monitor: its events are taken, and a start makes another of it.
pub fn failed_starts(random: &mut Random, history: &mut History) {
    let windows = changing(random);
    let lent = lent_of(random, windows);
    let slots = start_slots(&lent) + 8;
    history.begin(&lent, slots.min(256));
    let taken = random.below(9) as u64;
    let place = random.below(taken as usize + 1) as u64;
    let peak = random.between(0, history.slots()) as u64;
    let record = Record { taken, count: 0, peak, failed: Some(place) };
    let minute = first_minute(random, &lent.windows);
    history.state = Timed::Started { record, minute };
    for _ in 0..4 {
        let Timed::Started { record, .. } = history.state else { unreachable!("started") };
        let minute = next_minute(random, history);
        let starts = starts(history, minute);
        let event = event_at(random, history, minute);
        let answer = history.feed(&[(event, minute)]);
        let Timed::Started { record: now, .. } = history.state else { unreachable!("started") };
        let stands = match (answer.refusal, record.failed, starts) {
            (None, _, true) => now.taken == 1,
            (None, Some(_), false) => now == Record { taken: record.taken + 1, ..record },
            (None, None, false) => now.taken == record.taken + 1,
            (Some(_), ..) => now == record,
        };
        history.known_true(stands, "counted since the last start");
    }
}
