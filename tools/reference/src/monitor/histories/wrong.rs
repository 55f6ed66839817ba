// Calls whose stored answer is wrong on purpose in one number: a test program must find each wrong.
// Each stands in a history of its own, whose state is set and not reached by calls.

use crate::monitor::examples::{list_of, K7, K8};
use crate::monitor::history::{Fill, History};
use crate::monitor::state::Record;
use crate::monitor::tables::repeating;
use crate::operations::WORK;
use crate::random::beside;
use crate::worked::*;

// The numbers of an answer.
#[derive(Clone, Copy)]
pub enum Field {
    Number,
    Place,
    Has,
    Taken,
    Count,
    Peak,
    Failed,
    At,
    First,
    Second,
    Digest,
    Further,
    Kept,
    Area,
    Length,
}
use Field::*;

// The index of a number in the answer of a call, by its letter.
fn index(field: Field, letter: char) -> Option<usize> {
    match (letter, field) {
        ('v', Area) => Some(0),
        ('v', Length) => Some(1),
        ('v', _) | (_, Area | Length) => None,
        (_, Number) => Some(0),
        (_, Place) => Some(1),
        ('o', First) => Some(2),
        ('o', Second) => Some(3),
        ('o', Digest) => Some(4),
        ('o', Kept) => Some(5),
        ('o', _) | (_, First | Second) => None,
        ('d', Further) => Some(9),
        ('d', Kept) => Some(10),
        (_, Further) => None,
        (_, Has) => Some(2),
        (_, Taken) => Some(3),
        (_, Count) => Some(4),
        (_, Peak) => Some(5),
        (_, Failed) => Some(6),
        (_, At) => Some(7),
        (_, Digest) => Some(8),
        (_, Kept) => Some(9),
    }
}

// What may be stored in place of a number.
fn others(field: Field, given: u64) -> Vec<u64> {
    match (field, given) {
        // a refusal as a result
        (Number, 1..) => vec![0, given + 1],
        (Has | Failed | Kept | Area, _) => vec![1 - given],
        // a bit more or less at either end; where there is one, a bit less
        (First | Second, 0) => vec![1, 1 << 63],
        (First | Second, _) => vec![given ^ 1, given ^ 1 << 63, given & (given - 1)],
        (Length, 1..) => vec![0, given - 1, given + 16],
        _ => beside(given),
    }
}

// A monitor with so many slots after these events.
fn enter_lent(history: &mut History, slots: usize, list: &[u16], events: &[u8]) {
    let mut made = History::new();
    made.begin(list, slots);
    made.open(&[]);
    made.feed(events);
    history.table(list);
    history.lend(16 * slots, 16 * slots, Fill::Zeros);
    history.restore(made.record, &made.areas());
}

fn enter(history: &mut History, list: &[u16], events: &[u8]) {
    enter_lent(history, 1, list, events);
}

fn table_b() -> Vec<u16> {
    list_of(&[TABLE_B])
}

fn disturb(history: &mut History) {
    history.set_record(Record { count: 2, ..history.record });
}

fn disturb_peak(history: &mut History) {
    history.set_record(Record { peak: 2, ..history.record });
}

// ---- each call with each kind of answer

type Call = fn(&mut History);

const CALLS: [Call; 39] = [
    // Open: running, failed, a wrong length, a refused table, crowded
    |history| {
        history.begin(&table_b(), 1);
        history.open(&[]);
    },
    |history| {
        history.begin(&list_of(&[TWO_SETS, "01 00 01"]), 1);
        history.open(&[]);
    },
    |history| {
        history.begin(&table_b(), 1);
        history.open_work(&[], WORK - 1);
    },
    |history| {
        history.begin(&table_b()[..15], 1);
        history.open(&[]);
    },
    |history| {
        history.begin(&list_of(&K7), 1);
        history.open(&[]);
    },
    // with a list: running with a peak above the last count, failed, stopped: strange, crowded
    |history| {
        history.begin(&list_of(&K8), 2);
        history.open(&[0, 0]);
    },
    |history| {
        history.begin(&table_b(), 1);
        history.open(&[0, 0, 1]);
    },
    |history| {
        history.begin(&table_b(), 1);
        history.open(&[0, 3]);
    },
    |history| {
        history.begin(&list_of(&K8), 1);
        history.open(&[0]);
    },
    // Feed: running, failed, each with a peak above the last count; a wrong length, a refused table,
    // disturbed, by the peak too, and stopped: strange, strange after failure, crowded
    |history| {
        enter(history, &table_b(), &[0]);
        history.feed(&[1, 0]);
    },
    |history| {
        enter(history, &table_b(), &[0]);
        history.feed(&[0, 1]);
    },
    |history| {
        enter_lent(history, 2, &list_of(&K7), &[0]);
        history.feed(&[1]);
    },
    |history| {
        enter_lent(history, 3, &list_of(&K8), &[0]);
        history.feed(&[0, 0]);
    },
    |history| {
        enter(history, &table_b(), &[0]);
        history.feed_work(&[1], WORK + 1);
    },
    |history| {
        enter(history, &table_b(), &[0]);
        history.other_table(&table_b()[..15]);
        history.feed(&[1]);
    },
    |history| {
        enter(history, &table_b(), &[0]);
        disturb(history);
        history.feed(&[1]);
    },
    |history| {
        enter(history, &table_b(), &[0]);
        disturb_peak(history);
        history.feed(&[1]);
    },
    |history| {
        enter(history, &table_b(), &[]);
        history.feed(&[0, 1, 3]);
    },
    |history| {
        enter(history, &table_b(), &[]);
        history.feed(&[0, 2, 3]);
    },
    |history| {
        enter(history, &list_of(&K8), &[]);
        history.feed(&[0]);
    },
    // Try: running, failed, with a peak above the last count; a wrong length, a further area's, a
    // refused table, disturbed, by the peak too, and stopped: strange, crowded
    |history| {
        enter(history, &table_b(), &[0]);
        history.try_feed(&[1, 0]);
    },
    |history| {
        enter(history, &table_b(), &[0]);
        history.try_feed(&[0, 1]);
    },
    |history| {
        enter_lent(history, 2, &list_of(&K7), &[0]);
        history.try_feed(&[1]);
    },
    |history| {
        enter(history, &table_b(), &[0]);
        history.try_work(&[1], WORK + 1, [16, 16]);
    },
    |history| {
        enter(history, &table_b(), &[0]);
        history.try_work(&[1], WORK, [16, 32]);
    },
    |history| {
        enter(history, &table_b(), &[0]);
        history.other_table(&table_b()[..15]);
        history.try_feed(&[1]);
    },
    |history| {
        enter(history, &table_b(), &[0]);
        disturb(history);
        history.try_feed(&[1]);
    },
    |history| {
        enter(history, &table_b(), &[0]);
        disturb_peak(history);
        history.try_feed(&[1]);
    },
    |history| {
        enter(history, &table_b(), &[]);
        history.try_feed(&[0, 1, 3]);
    },
    |history| {
        enter(history, &list_of(&K8), &[]);
        history.try_feed(&[0]);
    },
    // Offer: running, with bits in both words too, failed, a wrong length, disturbed, by the peak too
    |history| {
        enter(history, &repeating(128, &[63, 64, 127]).list(), &[127]);
        history.offer();
    },
    |history| {
        enter(history, &table_b(), &[0]);
        history.offer();
    },
    |history| {
        enter(history, &table_b(), &[1]);
        history.offer();
    },
    |history| {
        enter(history, &table_b(), &[0]);
        history.offer_work(WORK - 1);
    },
    |history| {
        enter(history, &table_b(), &[0]);
        disturb(history);
        history.offer();
    },
    |history| {
        enter(history, &table_b(), &[0]);
        disturb_peak(history);
        history.offer();
    },
    // View: area 0, area 1, nothing
    |history| {
        enter(history, &table_b(), &[]);
        history.view();
    },
    |history| {
        enter(history, &table_b(), &[0]);
        history.view();
    },
    |history| {
        enter(history, &table_b(), &[1]);
        history.view();
    },
];

fn letter(history: &History) -> char {
    let line = history.text.lines().last().expect("a call");
    line.chars().next().expect("a letter")
}

pub fn wrong_in(history: &mut History, field: Field) {
    for call in CALLS {
        let mut given = History::new();
        call(&mut given);
        let Some(at) = index(field, letter(&given)) else { continue };
        // the empty part is the same in both areas
        if matches!(field, Area) && given.stored()[1] == 0 {
            continue;
        }
        for other in others(field, given.stored()[at]) {
            call(history);
            history.store(at, other);
        }
    }
}
