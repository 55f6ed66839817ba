// Calls that are refused before their events, in the midst of a history too: 1, the tables'
// refusals, 16 and 10, each with each reason; two faults at once; each history then goes on.

use super::drawn::*;
use super::history::*;
use super::operations::{Lent, Timed};
use super::timetable::*;
use crate::damage::{Fault, CLAUSES};
use crate::generate::{definition, long_table};
use crate::monitor::state::{held, Record};
use crate::operations::WORK;
use crate::random::Random;
use crate::refusal::*;
use crate::table::*;

// A history that has begun, mostly with some events behind it.
pub fn begun(random: &mut Random, history: &mut History, lent: &Lent) {
    let slots = slots_for(random, lent);
    history.begin(lent, slots);
    if random.once_in(4) {
        return;
    }
    let count = random.between(1, 4);
    let mut quiet = copy(history);
    let events = script(random, &quiet, count);
    quiet.feed(&events);
    history.restore(quiet.state, &quiet.areas);
}

// The same, and at least one event was taken: its record and minute.
pub fn started(random: &mut Random, history: &mut History) -> (Record, u64) {
    loop {
        let lent = lent(random);
        begun(random, history, &lent);
        if let Timed::Started { record, minute } = history.state {
            return (record, minute);
        }
    }
}

// Goes on with some events: nothing was lost.
fn goes_on(random: &mut Random, history: &mut History) {
    let count = random.between(0, 3);
    let events = script(random, history, count);
    let refused = history.feed(&events).refusal.map_or(0, |refusal| refusal.number);
    let stands = refused == 0 || refused >= UNKNOWN_EVENT;
    history.known_true(stands, "it goes on");
}

// A call with these events is refused without a state, and all is as before.
fn declined(history: &mut History, events: &[(u8, u64)], number: u8, place: usize) {
    let (state, areas) = (history.state, history.areas.clone());
    let answer = history.feed(events);
    history.known(number, place);
    history.known_true(answer.state.is_none(), "no state");
    history.known_same(state, &areas);
}

// Events that would be refused too: a strange one, or one at a minute that is too large.
fn any_events(random: &mut Random) -> Vec<(u8, u64)> {
    let count = random.between(0, 2);
    (0..count).map(|_| (random.below(256) as u8, random.next() >> random.below(40))).collect()
}

// ---- 1

pub fn wrong_lengths(random: &mut Random, history: &mut History) {
    let lent = lent(random);
    begun(random, history, &lent);
    let (state, areas) = (history.state, history.areas.clone());
    let length = areas[0].len();
    let other = match random.below(4) {
        0 => random.below(MOST_AREA + 1),
        1 => [length - 1, length + 1][random.below(2)],
        2 => [0, 8, 4_112, MOST_AREA][random.below(4)],
        _ => 16 * random.between(1, 256),
    };
    let lengths = [[other, length], [length, other], [other, other]][random.below(3)];
    let (mut events, mut minutes): (Vec<u8>, Vec<u64>) = any_events(random).into_iter().unzip();
    let mut work_len = WORK;
    let right = |length: usize| length % 16 == 0 && (16..=4_096).contains(&length);
    match random.below(4) {
        0 if lengths[0] != lengths[1] || !right(other) => history.litter(lengths),
        1 => work_len = [0, WORK - 1, WORK + 1, random.below(WORK)][random.below(4)],
        2 => events.push(0),
        _ => minutes.extend([7; 2]),
    }
    // before the tables, the timetable and the state
    match random.below(5) {
        0 => history.lent.everyday.push(0),
        1 => history.lent.wash.clear(),
        2 => history.lent.windows = vec![5],
        _ => {}
    }
    let before = history.areas.clone();
    history.call(&events, &minutes, work_len);
    history.known(WRONG_LENGTH, 0);
    history.known_same(state, &before);
    history.lent = lent;
    history.restore(state, &areas);
    goes_on(random, history);
}

// ---- the tables

fn fault(random: &mut Random) -> Fault {
    loop {
        let fault = random.pick(&CLAUSES).1(random);
        if fault.list.len() <= 700 {
            return fault;
        }
    }
}

pub fn refused_everyday(random: &mut Random, history: &mut History) {
    let lent = lent(random);
    begun(random, history, &lent);
    let fault = fault(random);
    history.lent.everyday = fault.list;
    // before the wash table and the timetable
    if random.once_in(3) {
        history.lent.wash.push(0);
    }
    if random.once_in(3) {
        history.lent.windows.push(3);
    }
    let events = any_events(random);
    declined(history, &events, fault.number, fault.place);
    history.lent = lent;
    goes_on(random, history);
}

pub fn refused_wash(random: &mut Random, history: &mut History) {
    let lent = lent(random);
    begun(random, history, &lent);
    let fault = fault(random);
    history.lent.wash = fault.list;
    if random.once_in(3) {
        history.lent.windows.push(3);
    }
    let events = any_events(random);
    declined(history, &events, fault.number, fault.place);
    history.lent = lent;
    goes_on(random, history);
}

// Both tables: the everyday one's refusal is told, whatever the numbers.
pub fn refused_both(random: &mut Random, history: &mut History) {
    let lent = lent(random);
    begun(random, history, &lent);
    let (everyday, wash) = (fault(random), fault(random));
    history.lent.everyday = everyday.list;
    history.lent.wash = wash.list;
    let events = any_events(random);
    declined(history, &events, everyday.number, everyday.place);
    history.lent = lent;
    goes_on(random, history);
}

// "over 16,384 bytes" of the one and of the other, before and after other faults.
pub fn long_tables(random: &mut Random, history: &mut History) {
    let body = || prefix(plain(0), prefix(plain(1), Term::Stop));
    let long = long_table(random, MOST_BYTES + 1, vec![definition(0, body())]).list();
    let stands = long_table(random, MOST_BYTES, vec![definition(0, body())]).list();
    let small = lent_of(random, vec![100, 200]);
    let cut = small.wash[..small.wash.len() - 1].to_vec();
    let place = cut.len();
    let event = [(0, 100)];
    for (everyday, wash, windows, number, place) in [
        (&long, &small.wash, vec![100, 200], TOO_LONG, 0),
        (&small.everyday, &long, vec![100, 200], TOO_LONG, 0),
        (&long, &cut, vec![100], TOO_LONG, 0),
        (&cut, &long, vec![100], TRUNCATED, place),
        (&small.everyday, &long, vec![100], TOO_LONG, 0),
        (&stands, &small.wash, vec![100], BAD_TIMETABLE, 0),
        (&small.everyday, &stands, vec![5, 5], BAD_TIMETABLE, 0),
    ] {
        let lent = Lent { everyday: everyday.clone(), wash: wash.clone(), windows };
        history.begin(&lent, 2);
        if random.once_in(2) {
            history.litter([32, 32]);
        }
        declined(history, &event, number, place);
    }
    begun(random, history, &small);
    history.lent.wash = long.clone();
    declined(history, &event, TOO_LONG, 0);
    history.lent.wash = small.wash.clone();
    history.lent.everyday = long;
    declined(history, &event, TOO_LONG, 0);
    let lent = Lent { everyday: small.everyday, wash: stands, windows: vec![100, 200] };
    history.begin(&lent, 12);
    history.feed(&[(0, 100), (0, 100), (64, 150)]);
    history.known(UNKNOWN_EVENT, 2);
}

// ---- 16

pub fn bad_timetable(random: &mut Random, history: &mut History, reason: Reason) {
    let lent = lent(random);
    begun(random, history, &lent);
    let (state, areas) = (history.state, history.areas.clone());
    history.lent.windows = reason(random);
    // before 10
    if random.once_in(3) {
        history.litter([areas[0].len(), areas[1].len()]);
    }
    let events = any_events(random);
    declined(history, &events, BAD_TIMETABLE, 0);
    history.lent = lent;
    history.restore(state, &areas);
    goes_on(random, history);
}

// The longest timetables that a line has room for: the whole week in touching windows, and the same
// with a fault at its end.
pub fn long_timetables(random: &mut Random, history: &mut History) {
    let most = 4_000;
    let bounds: Vec<u16> = (0..=most).map(|i| if i == most { 10_080 } else { i }).collect();
    let whole: Vec<u16> = bounds.windows(2).flatten().copied().collect();
    let apart: Vec<u16> = (0..2 * most).collect();
    for windows in [whole, apart] {
        let lent = lent_of(random, windows);
        history.begin(&lent, start_slots(&lent) + 3);
        let count = 5;
        let events = script(random, history, count);
        history.feed(&events);
        let end = lent.windows.len();
        for (at, value) in [(end - 1, 10_081), (end - 2, 1), (end - 1, 0), (0, 1)] {
            history.lent.windows[at] = value;
            declined(history, &[(0, 0)], BAD_TIMETABLE, 0);
            history.lent = lent.clone();
        }
        history.lent.windows.pop();
        declined(history, &[], BAD_TIMETABLE, 0);
        history.lent = lent;
        goes_on(random, history);
    }
}

// ---- 10

// Before the first event, any word that is not 0.
pub fn disturbed_before_first(random: &mut Random, history: &mut History) {
    let lent = lent(random);
    let slots = slots_for(random, &lent);
    history.begin(&lent, slots);
    let zero = history.areas.clone();
    match random.below(4) {
        0 => history.litter([16 * slots; 2]),
        _ => {
            let index = match random.below(3) {
                0 => 0,
                1 => 16 * slots - 1,
                _ => random.below(16 * slots),
            };
            history.areas[random.below(2)][index] = random.next() >> random.below(63) | 1;
        }
    }
    let events = any_events(random);
    declined(history, &events, INCONSISTENT, 0);
    history.restore(Timed::NotStarted, &zero);
    goes_on(random, history);
}

// A record or a word that is wrong on the drawing in force.
pub fn disturbed(random: &mut Random, history: &mut History) {
    let (record, minute) = started(random, history);
    let state = history.state;
    let areas = history.areas.clone();
    let slots = history.slots() as u64;
    let at_minute = |record: Record| Timed::Started { record, minute };
    match random.below(7) {
        0 => history.state = at_minute(Record { count: record.count + 1, ..record }),
        1 => history.state = at_minute(Record { peak: slots + 1, ..record }),
        2 if record.count > 0 => history.state = at_minute(Record { count: 0, ..record }),
        3 if record.count > 0 => history.state = at_minute(Record { failed: Some(1), ..record }),
        4 => {
            let failed = Some(record.taken + 1);
            history.state = at_minute(Record { failed, count: 0, ..record });
        }
        5 if record.count > 0 => {
            history.state = at_minute(Record { taken: record.taken + 1, ..record })
        }
        _ => {
            let index = random.below(16 * slots as usize);
            history.areas[1 - record.present()][index] = 1;
        }
    }
    let events = any_events(random);
    declined(history, &events, INCONSISTENT, 0);
    history.restore(state, &areas);
    goes_on(random, history);
}

// A state that stands on the one drawing and not on the other: 10 is read on the drawing in force
// at the last event's minute.
pub fn disturbed_on_one_drawing(random: &mut Random, history: &mut History) {
    loop {
        let windows = changing(random);
        let lent = lent_of(random, windows);
        begun(random, history, &lent);
        let Timed::Started { record, minute } = history.state else { continue };
        let other = loop {
            let other = random.next() % (3 * WEEK);
            if in_force(&lent.windows, other) != in_force(&lent.windows, minute) {
                break other;
            }
        };
        if held(&terms_at(&lent, other), record, &history.areas).is_some() {
            continue;
        }
        let (state, areas) = (history.state, history.areas.clone());
        history.state = Timed::Started { record, minute: other };
        let events = any_events(random);
        declined(history, &events, INCONSISTENT, 0);
        // any minute of the same drawing will do
        let same = minute % WEEK + WEEK * random.below(9) as u64;
        history.restore(Timed::Started { record, minute: same }, &areas);
        history.feed(&[]);
        history.known(0, 0);
        history.known_state(record, same);
        history.restore(state, &areas);
        goes_on(random, history);
        return;
    }
}

// ---- two faults at once

// 1; the everyday table; the wash table; 16; 10; an event's: any two, and the first is told.
pub fn two_faults(random: &mut Random, history: &mut History) {
    let lent = lent(random);
    let (state, areas) = loop {
        begun(random, history, &lent);
        if matches!(history.state, Timed::Started { .. }) || random.once_in(4) {
            break (history.state, history.areas.clone());
        }
    };
    let (everyday, wash) = (fault(random), fault(random));
    let first = random.below(5);
    let second = random.between(first + 1, 5);
    let mut events = vec![(0, 0)];
    let mut work_len = WORK;
    for fault in [first, second] {
        match fault {
            0 => work_len = random.below(WORK),
            1 => history.lent.everyday = everyday.list.clone(),
            2 => history.lent.wash = wash.list.clone(),
            3 => history.lent.windows = random.pick(&REASONS).1(random),
            4 => history.litter([areas[0].len(); 2]),
            _ => events = vec![(255, MINUTES)],
        }
    }
    let (number, place) = match first {
        0 => (WRONG_LENGTH, 0),
        1 => (everyday.number, everyday.place),
        2 => (wash.number, wash.place),
        3 => (BAD_TIMETABLE, 0),
        _ => (INCONSISTENT, 0),
    };
    let before = history.areas.clone();
    let (events, minutes): (Vec<u8>, Vec<u64>) = events.into_iter().unzip();
    history.call(&events, &minutes, work_len);
    history.known(number, place);
    history.known_same(state, &before);
    history.lent = lent;
    history.restore(state, &areas);
    goes_on(random, history);
}
