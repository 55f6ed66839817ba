// Timetables, minutes and pairs of tables for histories in wash hours.
//     timetable      a good timetable, of some shape
//     REASONS        makers of bad timetables, reason by reason
//     later          a minute after another, often at a bound of the timetable
//     lent           two tables and a timetable
//     script         events with their minutes, from a state on

use super::history::History;
use super::operations::*;
use super::timetable::*;
use crate::monitor::histories::walks::event;
use crate::monitor::residual::*;
use crate::monitor::state::held;
use crate::monitor::tables;
use crate::monitor::terms::Terms;
use crate::operations::table_of_list;
use crate::random::Random;

const LAST: u16 = WEEK as u16;

// ---- timetables

// Distinct minutes of the week, ascending.
fn minutes(random: &mut Random, count: usize) -> Vec<u16> {
    let mut minutes: Vec<u16> = (0..count).map(|_| random.below(10_081) as u16).collect();
    minutes.sort();
    minutes.dedup();
    minutes
}

// Windows between ascending minutes; some touch the one before.
fn windows(random: &mut Random, count: usize) -> Vec<u16> {
    let bounds = minutes(random, 2 * count);
    let mut windows = Vec::new();
    for pair in bounds.chunks_exact(2) {
        let first = match (windows.last(), random.once_in(3)) {
            (Some(&last), true) => last,
            _ => pair[0],
        };
        windows.extend([first, pair[1]]);
    }
    windows
}

// The whole week, in windows that touch.
fn whole_week(random: &mut Random, cuts: usize) -> Vec<u16> {
    let mut bounds = minutes(random, cuts);
    bounds.extend([0, LAST]);
    bounds.sort();
    bounds.dedup();
    bounds.windows(2).flatten().copied().collect()
}

// The last window touches the first over the week's end.
fn around_the_end(random: &mut Random) -> Vec<u16> {
    let first = random.between(1, 4_000) as u16;
    let last = random.between(6_000, 10_079) as u16;
    match random.once_in(2) {
        true => vec![0, first, last, LAST],
        false => vec![0, first, first + 500, last - 500, last, LAST],
    }
}

pub fn timetable(random: &mut Random) -> Vec<u16> {
    match random.below(12) {
        0 => vec![],
        1 => vec![0, LAST],
        2 => whole_week(random, 3),
        3 | 4 => around_the_end(random),
        5 => vec![0, 1],
        6 => vec![LAST - 1, LAST],
        7 => windows(random, 1),
        8 => windows(random, 40),
        _ => {
            let count = random.between(2, 5);
            windows(random, count)
        }
    }
}

// A good timetable under which the drawing changes.
pub fn changing(random: &mut Random) -> Vec<u16> {
    loop {
        let windows = timetable(random);
        if changes(&windows, 0, WEEK) {
            return windows;
        }
    }
}

// At least so many windows.
fn with_windows(random: &mut Random, least: usize) -> Vec<u16> {
    loop {
        let windows = timetable(random);
        if windows.len() >= 2 * least {
            return windows;
        }
    }
}

pub type Reason = fn(&mut Random) -> Vec<u16>;

pub const REASONS: [(&str, Reason); 8] = [
    ("timetable_odd", odd),
    ("timetable_empty_window", empty_window),
    ("timetable_first_above", first_above),
    ("timetable_last_above", last_above),
    ("timetable_backwards", backwards),
    ("timetable_overlap", overlap),
    ("timetable_not_ascending", not_ascending),
    ("timetable_twice", twice),
];

fn odd(random: &mut Random) -> Vec<u16> {
    let mut windows = timetable(random);
    match random.below(3) {
        0 if !windows.is_empty() => {
            windows.pop();
        }
        1 => windows.push(LAST),
        _ => windows.push(windows.last().map_or(0, |last| last.saturating_add(1))),
    }
    windows
}

fn empty_window(random: &mut Random) -> Vec<u16> {
    let mut windows = with_windows(random, 1);
    let at = 2 * random.below(windows.len() / 2);
    match random.below(3) {
        0 => windows[at + 1] = windows[at],
        1 => windows[at] = windows[at + 1],
        // between two windows, or at the end
        _ => {
            let last = windows[at + 1];
            windows.splice(at + 2..at + 2, [last, last]);
        }
    }
    windows
}

fn first_above(random: &mut Random) -> Vec<u16> {
    let mut windows = timetable(random);
    let first = *random.pick(&[LAST, LAST + 1, 32_768, 65_534]);
    windows.extend([first, first + 1]);
    windows
}

fn last_above(random: &mut Random) -> Vec<u16> {
    let mut windows = with_windows(random, 1);
    let end = windows.len() - 1;
    windows[end] = *random.pick(&[LAST + 1, LAST + 2, 20_000, 65_535]);
    windows
}

fn backwards(random: &mut Random) -> Vec<u16> {
    let mut windows = with_windows(random, 1);
    let at = 2 * random.below(windows.len() / 2);
    windows.swap(at, at + 1);
    windows
}

fn overlap(random: &mut Random) -> Vec<u16> {
    loop {
        let mut windows = with_windows(random, 2);
        let at = 2 * random.below(windows.len() / 2 - 1);
        // one minute, or more
        let most = windows[at + 3] - 1 - windows[at + 2];
        let more = if random.once_in(2) { 0 } else { random.between(0, most as usize) as u16 };
        windows[at + 1] = windows[at + 2] + 1 + more.min(most);
        if windows[at] < windows[at + 1] {
            return windows;
        }
    }
}

fn not_ascending(random: &mut Random) -> Vec<u16> {
    let mut windows = with_windows(random, 2);
    let at = 2 * random.below(windows.len() / 2 - 1);
    windows[at..at + 4].rotate_left(2);
    windows
}

fn twice(random: &mut Random) -> Vec<u16> {
    let mut windows = with_windows(random, 1);
    let at = 2 * random.below(windows.len() / 2);
    let pair = [windows[at], windows[at + 1]];
    windows.splice(at..at, pair);
    windows
}

// ---- minutes

// A bound of the timetable, or the week's end, and the minutes beside it.
fn near_bound(random: &mut Random, windows: &[u16]) -> u64 {
    let bound = match windows.is_empty() || random.once_in(6) {
        true => WEEK,
        false => *random.pick(windows) as u64,
    };
    (bound + WEEK - 1 + random.below(3) as u64) % WEEK
}

// A minute from another on, below 2^48 where that one is.
pub fn later(random: &mut Random, windows: &[u16], last: u64) -> u64 {
    let most = MINUTES - 1;
    let minute = match random.below(16) {
        0..=3 => last,
        4 | 5 => last + 1,
        6 => last + random.below(1_440) as u64,
        7 => last + WEEK - 1 + random.below(3) as u64,
        8 => last + WEEK * random.between(2, 9) as u64,
        9 if random.once_in(12) => most - random.below(3) as u64,
        10 if random.once_in(12) => random.next() % MINUTES,
        // the next minute with this minute of the week, or the same of a later week
        _ => {
            let bound = near_bound(random, windows);
            let ahead = (bound + WEEK - last % WEEK) % WEEK;
            last + ahead + if random.once_in(8) { WEEK } else { 0 }
        }
    };
    if minute < last || minute > most {
        last
    } else {
        minute
    }
}

// A minute of a first event.
pub fn first_minute(random: &mut Random, windows: &[u16]) -> u64 {
    match random.below(4) {
        0 => random.below(3) as u64,
        1 => near_bound(random, windows),
        2 => WEEK * (random.next() % (1 << 30)) + near_bound(random, windows),
        _ => random.below(30_000) as u64,
    }
}

// ---- tables

pub fn small_list(random: &mut Random) -> Vec<u16> {
    loop {
        let list = tables::any(random).list();
        if list.len() <= 120 {
            return list;
        }
    }
}

pub fn lent(random: &mut Random) -> Lent {
    let windows = timetable(random);
    lent_of(random, windows)
}

pub fn lent_of(random: &mut Random, windows: Vec<u16>) -> Lent {
    let everyday = small_list(random);
    let wash = if random.once_in(8) { everyday.clone() } else { small_list(random) };
    Lent { everyday, wash, windows }
}

// The terms of the drawing in force, of accepted tables.
pub fn terms_at(lent: &Lent, minute: u64) -> Terms {
    let list = match in_force(&lent.windows, minute) {
        Drawing::Everyday => &lent.everyday,
        Drawing::Wash => &lent.wash,
    };
    Terms::of(&table_of_list(list).expect("an accepted table"))
}

// The most residuals of the two starts.
pub fn start_slots(lent: &Lent) -> usize {
    let count = |list: &[u16]| {
        let table = table_of_list(list).expect("an accepted table");
        resolve_last(&Terms::of(&table)).len()
    };
    count(&lent.everyday).max(count(&lent.wash)).max(1)
}

// Slots that are mostly enough.
pub fn slots_for(random: &mut Random, lent: &Lent) -> usize {
    match random.below(8) {
        0 => random.between(1, 3),
        _ => (start_slots(lent) + random.between(0, 8)).min(256),
    }
}

// ---- events

// Whether an event at this minute comes with a start.
pub fn starts(history: &History, minute: u64) -> bool {
    match history.state {
        Timed::NotStarted => true,
        Timed::Started { minute: last, .. } => changes(&history.lent.windows, last, minute),
    }
}

// The residuals that an event at this minute would meet.
pub fn residuals_at(history: &History, minute: u64) -> Residuals {
    let terms = terms_at(&history.lent, minute);
    match history.state {
        Timed::Started { record, .. } if !starts(history, minute) => {
            held(&terms, record, &history.areas).unwrap_or_default()
        }
        _ => resolve_last(&terms),
    }
}

// An event that is mostly permitted at this minute.
pub fn event_at(random: &mut Random, history: &History, minute: u64) -> u8 {
    event(random, &terms_at(&history.lent, minute), &residuals_at(history, minute))
}

// A minute for the next event.
pub fn next_minute(random: &mut Random, history: &History) -> u64 {
    match history.state {
        Timed::NotStarted => first_minute(random, &history.lent.windows),
        Timed::Started { minute, .. } => later(random, &history.lent.windows, minute),
    }
}

// So many events from the state on, up to one that is refused.
pub fn script(random: &mut Random, history: &History, count: usize) -> Vec<(u8, u64)> {
    let mut ahead = copy(history);
    let mut events = Vec::new();
    for _ in 0..count {
        let minute = next_minute(random, &ahead);
        let event = (event_at(random, &ahead, minute), minute);
        events.push(event);
        if ahead.feed(&[event]).refusal.is_some() {
            break;
        }
    }
    events
}

// The same state, to look ahead.
pub fn copy(history: &History) -> History {
    let mut copy = History::new();
    copy.begin(&history.lent, history.slots());
    copy.restore(history.state, &history.areas);
    copy
}
