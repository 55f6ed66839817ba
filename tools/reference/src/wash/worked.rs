// Histories worked by hand from the words of 02, W5: refusals and records stand here, and are not
// this implementation's. The everyday table is table B of 01 (0, 1, 0, 1 and so on; A = 3), the
// wash table permits 3 over and over (A = 4).

use super::history::History;
use super::operations::{Lent, Timed};
use super::timetable::*;
use crate::monitor::examples::{list_of, K7, K8};
use crate::monitor::state::Record;
use crate::monitor::tables::repeating;
use crate::operations::WORK;
use crate::refusal::*;
use crate::worked::*;

// A = 4, {3} -> itself
const RINSE: &str = "04 01 00 01 03 01 00 02 00 05 00";
// A = 3, FAIL
const FAILS: [&str; 2] = [ONE_SET, "01 00 01"];

const TOP: u64 = MINUTES - 1;

pub fn lent(windows: &[u16]) -> Lent {
    with(&[TABLE_B], &[RINSE], windows)
}

pub fn with(everyday: &[&str], wash: &[&str], windows: &[u16]) -> Lent {
    Lent { everyday: list_of(everyday), wash: list_of(wash), windows: windows.to_vec() }
}

pub fn running(taken: u64, count: u64, peak: u64) -> Record {
    Record { taken, count, peak, failed: None }
}

pub fn failed(taken: u64, peak: u64, place: u64) -> Record {
    Record { taken, count: 0, peak, failed: Some(place) }
}

// An event and its minute are taken, and lead to a record.
fn taken(history: &mut History, event: u8, minute: u64, record: Record) {
    history.feed(&[(event, minute)]);
    history.known(0, 0);
    history.known_state(record, minute);
}

// An event and its minute are refused, and all is as before.
fn refused(history: &mut History, event: u8, minute: u64, number: u8) {
    let (state, areas) = (history.state, history.areas.clone());
    history.feed(&[(event, minute)]);
    history.known(number, 0);
    history.known_same(state, &areas);
}

// A call without events on a fresh history.
fn looked(history: &mut History, windows: &[u16], number: u8) {
    history.begin(&lent(windows), 1);
    history.call(&[], &[], WORK);
    history.known(number, 0);
    history.known_not_started();
}

pub fn timetables(history: &mut History) {
    for windows in [
        &[][..],
        &[0, 1],
        &[0, 10_080],
        &[10_079, 10_080],
        &[5, 6, 6, 7],
        &[0, 5_000, 5_000, 10_080],
        &[0, 1, 10_079, 10_080],
        &[1, 2, 3, 4, 5, 6],
    ] {
        looked(history, windows, 0);
    }
    for windows in [
        // odd
        &[0][..],
        &[10_080],
        &[0, 1, 2],
        &[0, 10_080, 10_080],
        // empty
        &[0, 0],
        &[7, 7],
        &[10_079, 10_079],
        &[10_080, 10_080],
        &[0, 5, 5, 5],
        &[0, 5, 5, 5, 5, 9],
        // a bound
        &[10_080, 10_081],
        &[10_079, 10_081],
        &[0, 10_081],
        &[0, 65_535],
        &[65_535, 65_535],
        &[0, 1, 10_080, 10_081],
        // a descent
        &[6, 5],
        &[3, 4, 1, 2],
        &[10_079, 0],
        // an overlap
        &[1, 3, 2, 4],
        &[1, 10, 2, 3],
        &[1, 3, 1, 4],
        &[1, 3, 1, 3],
        &[0, 10_080, 10_079, 10_080],
    ] {
        looked(history, windows, BAD_TIMETABLE);
    }
}

pub fn changes_of_drawing(history: &mut History) {
    history.begin(&lent(&[100, 200]), 1);
    history.call(&[], &[], WORK);
    history.known(0, 0);
    history.known_not_started();
    // the first event starts the monitor on the drawing in force
    taken(history, 0, 99, running(1, 1, 1));
    // the window's first minute is included; 3 is an event of the wash drawing only
    refused(history, 3, 99, UNKNOWN_EVENT);
    taken(history, 3, 100, running(1, 1, 1));
    taken(history, 3, 100, running(2, 1, 1));
    taken(history, 3, 199, running(3, 1, 1));
    // its last is not
    refused(history, 3, 200, UNKNOWN_EVENT);
    taken(history, 0, 200, running(1, 1, 1));
    taken(history, 1, 10_179, running(2, 1, 1));
    refused(history, 0, 10_178, CLOCK_BACK);
    history.begin(&lent(&[100, 200]), 1);
    taken(history, 0, 99, running(1, 1, 1));
    // a change and a change back
    taken(history, 0, 200, running(1, 1, 1));
    taken(history, 1, 10_080 + 99, running(2, 1, 1));
    taken(history, 3, 10_080 + 100, running(1, 1, 1));
    // a week later, the same minute of the week
    taken(history, 3, 2 * 10_080 + 100, running(1, 1, 1));
    taken(history, 3, 2 * 10_080 + 199, running(2, 1, 1));
    taken(history, 0, 2 * 10_080 + 200, running(1, 1, 1));
    taken(history, 0, 5 * 10_080 + 200, running(1, 1, 1));
    taken(history, 1, 5 * 10_080 + 201, running(2, 1, 1));
    // the last minute of all
    let last = TOP % WEEK;
    history.known_true(!(100..200).contains(&last), "everyday at the last minute");
    taken(history, 0, TOP, running(1, 1, 1));
    taken(history, 1, TOP, running(2, 1, 1));
    for minute in [TOP - 1, TOP + 1, 0, u64::MAX] {
        refused(history, 0, minute, CLOCK_BACK);
    }
}

pub fn no_change(history: &mut History) {
    // touching windows, also over the week's end
    history.begin(&lent(&[0, 50, 50, 60, 10_000, 10_080]), 1);
    taken(history, 3, 10_000, running(1, 1, 1));
    taken(history, 3, 10_079, running(2, 1, 1));
    taken(history, 3, 10_080, running(3, 1, 1));
    taken(history, 3, 10_080 + 49, running(4, 1, 1));
    taken(history, 3, 10_080 + 50, running(5, 1, 1));
    taken(history, 3, 10_080 + 59, running(6, 1, 1));
    taken(history, 0, 10_080 + 60, running(1, 1, 1));
    taken(history, 1, 10_080 + 9_999, running(2, 1, 1));
    taken(history, 3, 3 * 10_080 - 1, running(1, 1, 1));
    taken(history, 3, 3 * 10_080, running(2, 1, 1));
    // no windows, and windows that are the whole week: never a change
    history.begin(&lent(&[]), 1);
    taken(history, 0, 0, running(1, 1, 1));
    taken(history, 1, 10_080, running(2, 1, 1));
    taken(history, 0, 1_000_000_007, running(3, 1, 1));
    taken(history, 1, TOP, running(4, 1, 1));
    for windows in [&[0, 10_080][..], &[0, 1, 1, 10_079, 10_079, 10_080]] {
        history.begin(&lent(windows), 1);
        taken(history, 3, 0, running(1, 1, 1));
        taken(history, 3, 10_079, running(2, 1, 1));
        taken(history, 3, 10_080, running(3, 1, 1));
        taken(history, 3, TOP, running(4, 1, 1));
        taken(history, 0, TOP, failed(5, 1, 5));
    }
    // the same drawing twice, the hours apart: still a start
    history.begin(&with(&[TABLE_B], &[TABLE_B], &[100, 200]), 1);
    taken(history, 0, 99, running(1, 1, 1));
    taken(history, 0, 100, running(1, 1, 1));
    taken(history, 1, 199, running(2, 1, 1));
    taken(history, 1, 200, failed(1, 1, 1));
}

// A failed monitor starts afresh with the next drawing; the peak counts since the last start.
pub fn fresh_starts(history: &mut History) {
    history.begin(&with(&[TABLE_B], &K7, &[100, 200]), 3);
    taken(history, 1, 5, failed(1, 1, 1));
    taken(history, 1, 6, failed(2, 1, 1));
    taken(history, 0, 150, running(1, 2, 2));
    taken(history, 1, 151, running(2, 1, 2));
    taken(history, 1, 152, failed(3, 2, 3));
    taken(history, 0, 200, running(1, 1, 1));
    taken(history, 1, 10_080 + 99, running(2, 1, 1));
    taken(history, 0, 10_080 + 99, running(3, 1, 1));
    // from an odd count and from an even one: the residuals stand in area 1
    taken(history, 0, 10_080 + 100, running(1, 2, 2));
    // a start that fails: at 0, the event counted
    history.begin(&with(&[TABLE_B], &FAILS, &[100, 200]), 1);
    taken(history, 0, 100, failed(1, 0, 0));
    taken(history, 0, 100, failed(2, 0, 0));
    taken(history, 0, 300, running(1, 1, 1));
    refused(history, 3, 10_180, UNKNOWN_EVENT);
    taken(history, 0, 10_180, failed(1, 0, 0));
    // counted to the end: 12, but not where a start is due
    history.begin(&lent(&[100, 200]), 1);
    let zero = [vec![0; 16], vec![0; 16]];
    history.restore(Timed::Started { record: failed(u64::MAX, 1, 9), minute: 7 }, &zero);
    refused(history, 0, 99, COUNTER_FULL);
    refused(history, 3, 99, UNKNOWN_EVENT);
    refused(history, 0, 6, CLOCK_BACK);
    taken(history, 3, 100, running(1, 1, 1));
}

// Crowded settling comes after 17 and before 11; all is as before.
pub fn crowded_starts(history: &mut History) {
    history.begin(&with(&[TABLE_B], &K7, &[100, 200]), 1);
    refused(history, 0, 100, CAPACITY_EXCEEDED);
    history.known_not_started();
    refused(history, 255, 199, CAPACITY_EXCEEDED);
    refused(history, 255, MINUTES, CLOCK_BACK);
    // a minute of the wash hours, by its remainder
    refused(history, 255, MINUTES + 6_084, CLOCK_BACK);
    history.known_not_started();
    taken(history, 0, 99, running(1, 1, 1));
    refused(history, 0, 100, CAPACITY_EXCEEDED);
    refused(history, 255, 199, CAPACITY_EXCEEDED);
    refused(history, 255, 98, CLOCK_BACK);
    taken(history, 1, 99, running(2, 1, 1));
    refused(history, 0, 100, CAPACITY_EXCEEDED);
    // the old residuals were kept: table B goes on, and after the window starts afresh
    taken(history, 0, 99, running(3, 1, 1));
    taken(history, 0, 200, running(1, 1, 1));
    // crowded after the event of a start: K8 with one slot
    history.begin(&with(&[TABLE_B], &K8, &[100, 200]), 1);
    refused(history, 0, 100, CAPACITY_EXCEEDED);
    history.known_not_started();
    taken(history, 0, 99, running(1, 1, 1));
    refused(history, 0, 100, CAPACITY_EXCEEDED);
    refused(history, 3, 100, UNKNOWN_EVENT);
    taken(history, 1, 100, failed(1, 1, 1));
    taken(history, 0, 100, failed(2, 1, 1));
}

// A place counts this call's events, through starts.
pub fn places(history: &mut History) {
    let b = |events: &[(u8, u64)]| events.to_vec();
    history.begin(&lent(&[100, 200]), 1);
    history.feed(&b(&[(0, 99), (1, 99), (3, 100), (3, 150), (4, 150)]));
    history.known(UNKNOWN_EVENT, 4);
    history.known_state(running(2, 1, 1), 150);
    history.feed(&b(&[(3, 199), (0, 200), (3, 201)]));
    history.known(UNKNOWN_EVENT, 2);
    history.known_state(running(1, 1, 1), 200);
    history.feed(&b(&[(1, 200), (3, 10_180), (3, 10_179), (3, 10_180)]));
    history.known(CLOCK_BACK, 2);
    history.known_state(running(1, 1, 1), 10_180);
    history.feed(&b(&[(3, 10_180), (0, 10_280), (0, MINUTES)]));
    history.known(CLOCK_BACK, 2);
    history.known_state(running(1, 1, 1), 10_280);
    history.begin(&with(&[TABLE_B], &K7, &[100, 200]), 1);
    history.feed(&b(&[(0, 0), (1, 1), (0, 2), (0, 120), (1, 200)]));
    history.known(CAPACITY_EXCEEDED, 3);
    history.known_state(running(3, 1, 1), 2);
    history.feed(&b(&[(1, 3), (0, 201), (1, 202), (7, 10_180)]));
    history.known(CAPACITY_EXCEEDED, 3);
    history.known_state(running(2, 1, 1), 202);
}

// The order: 1; the everyday table; the wash table; 16; 10; and then the events.
pub fn order(history: &mut History) {
    let good = lent(&[100, 200]);
    let cut = |list: &[u16]| list[..list.len() - 1].to_vec();
    let everyday = Lent { everyday: cut(&good.everyday), ..good.clone() };
    let wash = Lent { wash: cut(&good.wash), ..good.clone() };
    let both = Lent { wash: cut(&good.wash), ..everyday.clone() };
    let (first, second) = (good.everyday.len() - 1, good.wash.len() - 1);
    for (lent, number, place) in [
        (&both, TRUNCATED, first),
        (&everyday, TRUNCATED, first),
        (&wash, TRUNCATED, second),
        (&good, INCONSISTENT, 0),
    ] {
        for windows in [&[100, 200][..], &[100, 100], &[1]] {
            let bad = windows != [100, 200];
            let (number, place) = match number {
                INCONSISTENT if bad => (BAD_TIMETABLE, 0),
                _ => (number, place),
            };
            let lent = Lent { windows: windows.to_vec(), ..lent.clone() };
            for (events, minutes, work_len, lengths) in [
                (&[9][..], &[MINUTES][..], WORK, [16, 16]),
                (&[9], &[], WORK, [16, 16]),
                (&[], &[0], WORK, [16, 16]),
                (&[9], &[MINUTES], WORK - 1, [16, 16]),
                (&[9], &[MINUTES], WORK + 1, [16, 16]),
                (&[9], &[MINUTES], WORK, [16, 32]),
                (&[9], &[MINUTES], WORK, [32, 16]),
                (&[9], &[MINUTES], WORK, [0, 0]),
                (&[9], &[MINUTES], WORK, [24, 24]),
                (&[9], &[MINUTES], WORK, [4_112, 4_112]),
            ] {
                history.begin(&lent, 1);
                history.litter(lengths);
                history.call(events, minutes, work_len);
                let fits = events.len() == minutes.len() && work_len == WORK;
                match fits && lengths == [16, 16] {
                    true => history.known(number, place),
                    false => history.known(WRONG_LENGTH, 0),
                }
            }
        }
    }
    // 17, crowded settling, 11, 12 on one event
    history.begin(&with(&[TABLE_B], &K7, &[100, 200]), 1);
    let zero = [vec![0; 16], vec![0; 16]];
    history.restore(Timed::Started { record: failed(u64::MAX, 0, 0), minute: 70 }, &zero);
    refused(history, 255, 69, CLOCK_BACK);
    refused(history, 255, MINUTES + 6_084, CLOCK_BACK);
    refused(history, 255, 100, CAPACITY_EXCEEDED);
    refused(history, 255, 99, UNKNOWN_EVENT);
    refused(history, 2, 99, COUNTER_FULL);
}

// Before the first event only the areas' zeros are asked; after it, the state is read on the
// drawing in force at the last event's minute.
pub fn standing(history: &mut History) {
    for area in 0..2 {
        for index in [0, 15, 16, 31] {
            history.begin(&lent(&[100, 200]), 2);
            history.areas[area][index] = 1;
            history.call(&[], &[], WORK);
            history.known(INCONSISTENT, 0);
            history.feed(&[(0, 0)]);
            history.known(INCONSISTENT, 0);
        }
    }
    // table B's state under the wash drawing: its second term has no place there
    history.begin(&lent(&[100, 200]), 1);
    taken(history, 0, 99, running(1, 1, 1));
    let (state, areas) = (history.state, history.areas.clone());
    let Timed::Started { record, .. } = state else { unreachable!("started") };
    for (minute, number) in [
        (99, 0),
        (100, INCONSISTENT),
        (199, INCONSISTENT),
        (200, 0),
        (10_179, 0),
        (10_180, INCONSISTENT),
        (TOP, 0),
        // not among 10's conditions: read on its remainder, and every event is 17
        (MINUTES, 0),
        (u64::MAX, 0),
        (WEEK << 48 | 99, 0),
        (u64::MAX - (u64::MAX - 150) % WEEK, INCONSISTENT),
    ] {
        history.restore(Timed::Started { record, minute }, &areas);
        history.call(&[], &[], WORK);
        history.known(number, 0);
        if number == 0 {
            history.known_state(record, minute);
            if minute >= MINUTES {
                refused(history, 1, minute, CLOCK_BACK);
                refused(history, 1, u64::MAX, CLOCK_BACK);
                refused(history, 1, 0, CLOCK_BACK);
            }
        }
    }
    // a record that disagrees, by its peak too
    for record in [running(1, 2, 2), running(1, 1, 0), running(1, 1, 2), running(2, 1, 1)] {
        history.restore(Timed::Started { record, minute: 99 }, &areas);
        history.feed(&[(1, 99)]);
        history.known(INCONSISTENT, 0);
    }
    history.restore(state, &areas);
    taken(history, 1, 99, running(2, 1, 1));
}

// 02, W6: "A may be 1 to 128": the alphabet is that of the drawing in force.
pub fn large_alphabets(history: &mut History) {
    let (everyday, wash) = (repeating(128, &[127]).list(), repeating(65, &[64]).list());
    history.begin(&Lent { everyday, wash, windows: vec![100, 200] }, 1);
    taken(history, 127, 99, running(1, 1, 1));
    refused(history, 128, 99, UNKNOWN_EVENT);
    refused(history, 65, 100, UNKNOWN_EVENT);
    taken(history, 64, 100, running(1, 1, 1));
    taken(history, 127, 200, running(1, 1, 1));
    taken(history, 64, 200, failed(2, 1, 2));
}
