// Calls whose stored answer is wrong on purpose in one number: a test program must find each wrong.

use super::history::History;
use super::operations::Timed;
use super::timetable::MINUTES;
use super::worked::*;
use crate::monitor::examples::{K7, K8};
use crate::operations::WORK;
use crate::random::beside;
use crate::worked::TABLE_B;

// The numbers of an answer, by their index.
#[derive(Clone, Copy, PartialEq, Eq)]
pub enum Field {
    Number,
    Place,
    Has,
    Started,
    Taken,
    Count,
    Peak,
    Failed,
    At,
    Minute,
    Digest,
    Kept,
}
use Field::*;

// What may be stored in place of a number.
fn others(field: Field, given: u64) -> Vec<u64> {
    match (field, given) {
        // a refusal as a result, and as another
        (Number, 1..) => vec![0, given + 1, given - 1],
        (Has | Started | Failed | Kept, _) => vec![1 - given],
        _ => beside(given),
    }
    .into_iter()
    .filter(|&other| other != given)
    .collect()
}

type Call = fn(&mut History);

const WINDOWS: [u16; 2] = [100, 200];

// A monitor on table B at minute 99, which has taken this many events.
fn entered(history: &mut History, events: &[u8]) {
    history.begin(&lent(&WINDOWS), 1);
    let text = history.text.len();
    history.feed(&events.iter().map(|&event| (event, 99)).collect::<Vec<_>>());
    history.text.truncate(text);
}

// ---- each kind of answer

const CALLS: [Call; 20] = [
    // not started, and nothing to take
    |history| {
        history.begin(&lent(&WINDOWS), 1);
        history.feed(&[]);
    },
    // the first event, on either drawing; running and failed
    |history| {
        history.begin(&lent(&WINDOWS), 1);
        history.feed(&[(0, 99)]);
    },
    |history| {
        history.begin(&lent(&WINDOWS), 1);
        history.feed(&[(3, 100), (0, 101)]);
    },
    |history| {
        history.begin(&with(&[TABLE_B], &K7, &WINDOWS), 2);
        history.feed(&[(0, 100), (1, 150)]);
    },
    // more events, a start in the midst, a call without events
    |history| {
        entered(history, &[0]);
        history.feed(&[(1, 99), (0, 99)]);
    },
    |history| {
        entered(history, &[0]);
        history.feed(&[(3, 100), (3, 100)]);
    },
    |history| {
        entered(history, &[0, 1]);
        history.feed(&[(3, 100)]);
    },
    |history| {
        entered(history, &[0, 1]);
        history.feed(&[(0, 200)]);
    },
    |history| {
        entered(history, &[0]);
        history.feed(&[]);
    },
    // wrong lengths
    |history| {
        entered(history, &[0]);
        history.call(&[1], &[99], WORK + 1);
    },
    |history| {
        entered(history, &[0]);
        history.call(&[1], &[99, 99], WORK);
    },
    // the tables, the timetable, the state
    |history| {
        entered(history, &[0]);
        history.lent.everyday.pop();
        history.feed(&[(1, 99)]);
    },
    |history| {
        entered(history, &[0]);
        history.lent.wash.pop();
        history.feed(&[(1, 99)]);
    },
    |history| {
        entered(history, &[0]);
        history.lent.windows.push(201);
        history.feed(&[(1, 99)]);
    },
    |history| {
        entered(history, &[0]);
        history.areas[0][0] = 1;
        history.feed(&[(1, 99)]);
    },
    // 17, with events before it and without
    |history| {
        entered(history, &[0]);
        history.feed(&[(1, 99), (3, 100), (3, 99)]);
    },
    |history| {
        history.begin(&lent(&WINDOWS), 1);
        history.feed(&[(0, MINUTES)]);
    },
    // crowded settling, 11, 13
    |history| {
        history.begin(&with(&[TABLE_B], &K7, &WINDOWS), 1);
        history.feed(&[(0, 99), (0, 100)]);
    },
    |history| {
        entered(history, &[0, 1]);
        history.feed(&[(3, 150), (4, 150)]);
    },
    |history| {
        history.begin(&with(&[TABLE_B], &K8, &WINDOWS), 1);
        history.feed(&[(0, 99), (0, 100)]);
    },
];

pub fn wrong_in(history: &mut History, field: Field) {
    for call in CALLS {
        let mut given = History::new();
        call(&mut given);
        let at = field as usize;
        for other in others(field, given.stored()[at]) {
            call(history);
            history.store(at, other);
        }
    }
}

// The state that stands after a call is another than before it in some of these.
pub fn states() -> Vec<Timed> {
    let mut history = History::new();
    let mut states = Vec::new();
    for call in CALLS {
        call(&mut history);
        states.push(history.state);
    }
    states
}
