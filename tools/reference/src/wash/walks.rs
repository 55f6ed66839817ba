// Histories over several weeks. After each call the state is known: that of the drawing in force on
// the events joined since the last start, found by Open of the monitor; nothing joined
// leaves the not-started record and zero areas.
//     Joined       the events that the calls so far joined, with their minutes

use super::drawn::*;
use super::history::*;
use super::operations::{Answer, Lent, Timed};
use super::timetable::*;
use crate::monitor::operations::open;
use crate::monitor::state::Areas;
use crate::operations::WORK;
use crate::random::Random;
use crate::refusal::*;

#[derive(Default)]
pub struct Joined(pub Vec<(u8, u64)>);

impl Joined {
    // "a call joins its events before the first one refused, 17 and crowded settling included"
    pub fn join(&mut self, events: &[(u8, u64)], answer: Answer) {
        match (answer.refusal, answer.state) {
            (None, _) => self.0.extend(events),
            (Some(refusal), Some(_)) => self.0.extend(&events[..refusal.place]),
            (Some(_), None) => {}
        }
    }

    // Where the last start lies: a change after the event before, or the first event.
    fn last_start(&self, windows: &[u16]) -> usize {
        let minutes: Vec<u64> = self.0.iter().map(|&(_, minute)| minute).collect();
        let starts = |i: &usize| changes(windows, minutes[i - 1], minutes[*i]);
        (1..minutes.len()).rev().find(starts).unwrap_or(0)
    }

    // The state that these events leave.
    pub fn state(&self, lent: &Lent, length: usize) -> (Timed, Areas) {
        let zero = [vec![0; length], vec![0; length]];
        let Some(&(_, minute)) = self.0.last() else { return (Timed::NotStarted, zero) };
        let list = match in_force(&lent.windows, minute) {
            Drawing::Everyday => &lent.everyday,
            Drawing::Wash => &lent.wash,
        };
        let since = &self.0[self.last_start(&lent.windows)..];
        let events: Vec<u8> = since.iter().map(|&(event, _)| event).collect();
        let opened = open(list, &zero, &events, WORK);
        assert_eq!(opened.answer.refusal, None, "joined events are taken");
        let record = opened.answer.record.expect("a record");
        (Timed::Started { record, minute }, opened.areas)
    }
}

fn known(history: &mut History, joined: &Joined) {
    let (state, areas) = joined.state(&history.lent, history.areas[0].len());
    history.known_same(state, &areas);
}

// A call that is refused without a state, in between.
fn declined(random: &mut Random, history: &mut History) -> Answer {
    let lent = history.lent.clone();
    let mut work_len = WORK;
    match random.below(4) {
        0 => work_len = random.below(WORK),
        1 => history.lent.everyday.push(0),
        2 => history.lent.wash.push(0),
        _ => history.lent.windows.push(0),
    }
    let answer = history.call(&[0, 1], &[0, 1], work_len);
    history.lent = lent;
    answer
}

// Events from the state on, at times with one that is refused.
fn some_events(random: &mut Random, history: &History) -> Vec<(u8, u64)> {
    let count = random.between(0, 6);
    let mut events = script(random, history, count);
    if random.once_in(6) {
        let at = random.between(0, events.len());
        let minute = events.get(at).map_or(0, |&(_, minute)| minute);
        let odd = match random.below(3) {
            0 => (random.between(4, 255) as u8, minute),
            1 => (0, MINUTES + random.below(2) as u64),
            _ => (0, minute / 2),
        };
        events.insert(at, odd);
    }
    events
}

fn walk(random: &mut Random, history: &mut History, lent: &Lent, calls: usize) -> Joined {
    let slots = slots_for(random, lent);
    history.begin(lent, slots);
    let mut joined = Joined::default();
    for _ in 0..calls {
        if random.once_in(10) {
            let answer = declined(random, history);
            history.known_true(answer.state.is_none(), "no state");
            known(history, &joined);
        }
        let events = some_events(random, history);
        let answer = history.feed(&events);
        joined.join(&events, answer);
        known(history, &joined);
    }
    joined
}

pub fn walks(random: &mut Random, history: &mut History) {
    let lent = lent(random);
    let calls = random.between(1, 6);
    walk(random, history, &lent, calls);
}

pub fn walks_with_changes(random: &mut Random, history: &mut History) {
    let windows = changing(random);
    let lent = lent_of(random, windows);
    let calls = random.between(2, 6);
    walk(random, history, &lent, calls);
}

// The joined events at once, and a beginning of them.
pub fn pieces_and_at_once(random: &mut Random, history: &mut History) {
    let windows = changing(random);
    let lent = lent_of(random, windows);
    let calls = random.between(2, 4);
    let joined = walk(random, history, &lent, calls);
    let slots = history.slots();
    for cut in [joined.0.len(), random.between(0, joined.0.len())] {
        let beginning = Joined(joined.0[..cut].to_vec());
        history.begin(&lent, slots);
        history.feed(&beginning.0);
        history.known(0, 0);
        known(history, &beginning);
    }
}

// Minutes at the bounds of the timetable only: before, at and after each, in any week.
pub fn at_the_bounds(random: &mut Random, history: &mut History) {
    let windows = changing(random);
    let lent = lent_of(random, windows);
    let slots = slots_for(random, &lent);
    history.begin(&lent, slots);
    let mut joined = Joined::default();
    let mut week = 0;
    for _ in 0..random.between(3, 8) {
        let bound = *random.pick(&lent.windows) as u64;
        let mut minute = week + bound + random.below(3) as u64;
        minute = minute.saturating_sub(1);
        if let Timed::Started { minute: last, .. } = history.state {
            while minute < last {
                week += WEEK;
                minute += WEEK;
            }
        }
        let event = (event_at(random, history, minute), minute);
        let answer = history.feed(&[event]);
        joined.join(&[event], answer);
        known(history, &joined);
        if answer.refusal.is_some_and(|refusal| refusal.number == CLOCK_BACK) {
            history.known_true(false, "no clock goes back");
        }
    }
}

// Several hundred events in one call.
pub fn long_calls(random: &mut Random, history: &mut History) {
    for _ in 0..4 {
        let windows = changing(random);
        let lent = lent_of(random, windows);
        history.begin(&lent, (start_slots(&lent) + 20).min(256));
        let mut joined = Joined::default();
        let mut ahead = copy(history);
        let mut events = Vec::new();
        // a state may be such that every event is refused
        for _ in 0..400 {
            let minute = next_minute(random, &ahead);
            let event = (event_at(random, &ahead, minute), minute);
            if events.len() < 300 && ahead.feed(&[event]).refusal.is_none() {
                events.push(event);
            }
        }
        let answer = history.feed(&events);
        joined.join(&events, answer);
        history.known(0, 0);
        known(history, &joined);
    }
}
