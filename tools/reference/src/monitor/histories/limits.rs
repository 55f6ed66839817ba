// Long tables, long calls, and the counter at its end.

use super::walks::*;
use crate::generate::{definition, long_table};
use crate::monitor::examples::list_of;
use crate::monitor::history::{Fill, History};
use crate::monitor::state::Record;
use crate::random::Random;
use crate::refusal::*;
use crate::table::*;
use crate::worked::TABLE_B;

// 16,384 bytes stand, one more is 2, right after 9.
pub fn long_tables(random: &mut Random, history: &mut History) {
    let body =
        |called| prefix(plain(0), choice(prefix(plain(1), Term::Stop), Term::Call(called)));
    let mut long = |numbers: usize, called: u16| {
        long_table(random, numbers, vec![definition(0, body(called))]).list()
    };
    let (stands, too_long, reference) =
        (long(MOST_BYTES, 0), long(MOST_BYTES + 1, 0), long(MOST_BYTES + 1, 1));
    history.begin(&stands, 2);
    history.open(&[]);
    history.known_record(0, 1, 1, None);
    history.offer();
    history.feed(&[0, 63]);
    history.known(0, 0);
    history.other_table(&too_long);
    history.feed(&[64]);
    history.known(TOO_LONG, 0);
    history.try_feed(&[64]);
    history.known(TOO_LONG, 0);
    history.offer();
    history.known(TOO_LONG, 0);
    history.open(&[]);
    history.known(TOO_LONG, 0);
    history.other_table(&reference);
    history.feed(&[64]);
    history.known(WRONG_REFERENCE, MOST_BYTES);
}

// The place of a strange event after 5,000 others.
pub fn long_calls(history: &mut History) {
    history.begin(&list_of(&[TABLE_B]), 1);
    history.open(&[]);
    let mut events: Vec<u8> = [0, 1].repeat(2_500);
    events.push(3);
    history.feed(&events);
    history.known(UNKNOWN_EVENT, 5_000);
    history.known_record(5_000, 1, 1, None);
    history.feed(&[1, 3]);
    history.known(UNKNOWN_EVENT, 1);
    history.known_record(5_001, 0, 1, Some(5_001));
    history.feed(&[2; 300]);
    history.known_record(5_301, 0, 1, Some(5_001));
}

// A state whose taken is raised to the end, parity kept.
pub fn counter(random: &mut Random, history: &mut History) {
    let made = prepared(random, |_, _| true);
    enter(history, &made);
    // 2^64 - 1 is odd
    let away = 2 * random.below(3) as u64 + (1 - history.record.taken % 2);
    let taken = u64::MAX - away;
    history.set_record(Record { taken, ..history.record });
    history.offer();
    let mut left = away;
    for _ in 0..random.between(2, 4) {
        let residuals = residuals_of(&made.terms, history);
        let count = random.between(0, 4);
        let events = guided(random, &made.terms, &residuals, made.slots, count);
        match history.feed(&events).refusal {
            None => left -= events.len() as u64,
            Some(refusal) => {
                if refusal.number == COUNTER_FULL {
                    history.known(COUNTER_FULL, left as usize);
                    history.known_true(history.record.taken == u64::MAX, "taken is 2^64 - 1");
                }
                left -= refusal.place as u64;
            }
        }
        history.known_not(INCONSISTENT);
        history.known_true(history.record.taken == u64::MAX - left, "taken and left");
    }
    history.offer();
    history.known(0, 0);
    history.view();
    // failed, and then counted to the end
    if history.record.failed.is_none() && random.once_in(2) {
        let length = 16 * made.slots;
        history.lend(length, length, Fill::Zeros);
        let taken = u64::MAX - random.below(3) as u64;
        let failed = Some(taken - random.below(9) as u64);
        let peak = random.between(0, made.slots) as u64;
        history.set_record(Record { taken, count: 0, peak, failed });
        let events = vec![0; random.between(0, 4)];
        let left = (u64::MAX - taken) as usize;
        history.feed(&events);
        if events.len() > left {
            history.known(COUNTER_FULL, left);
        } else {
            history.known(0, 0);
        }
        history.feed(&[255]);
        history.known(UNKNOWN_EVENT, 0);
        history.known_true(history.record.peak == peak, "the peak stays");
        history.offer();
    }
}
