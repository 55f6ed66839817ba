// Cases of the sheet that are drawn, clause by clause; the answer is known from the way each was
// made, but in `near_limits`, `random_changes` and `random_bytes`.

use super::book::*;
use super::cases::Case;
use super::drawn::*;
use super::faults::*;
use super::limits::*;
use super::numbers::bytes_of;
use crate::cases::change;
use crate::random::Random;
use crate::refusal::*;

// ---- bad records

// A bad record between good ones: so many before it and after it.
fn around(random: &mut Random, reason: &Reason, before: usize, after: usize) -> Vec<u8> {
    let first = records_from(random, before, 0, u64::MAX / 2);
    let bad = (reason.make)(random, first.last().map(|record| record.lot));
    let rest = records_from(random, after, 0, u64::MAX / 2);
    [bytes_of_book(&first), bad, bytes_of_book(&rest)].concat()
}

// How many records stand before and after the bad one, case by case: it is the only one, the first,
// the last, the one in the middle, any.
fn neighbours(random: &mut Random, case: usize, reason: &Reason) -> (usize, usize) {
    let (before, after) = match case % 5 {
        0 => (0, 0),
        1 => (0, random.between(1, 6)),
        2 => (random.between(1, 6), 0),
        3 => {
            let side = random.between(1, 5);
            (side, side)
        }
        _ => (random.between(0, 9), random.between(0, 9)),
    };
    (before.max(reason.second as usize), after)
}

pub fn bad(random: &mut Random, case: usize, reason: &Reason) -> Case {
    let (before, after) = neighbours(random, case, reason);
    let book = around(random, reason, before, after);
    refused(random, book, (BAD_BOOK, before))
}

// The book ends in a record: before or within each of its numbers.
pub fn cut_short(random: &mut Random, case: usize) -> Case {
    let before = random.between(0, 6);
    let first = records(random, before);
    let last = cut(random, first.last().map(|record| record.lot), case % 4);
    refused(random, [bytes_of_book(&first), last].concat(), (BAD_BOOK, before))
}

// ---- two faults

// Of two bad records the first is told.
pub fn two_bad_records(random: &mut Random) -> Case {
    let [first, second] = [random.below(REASONS.len()), random.below(REASONS.len())];
    let before = random.between(1, 5);
    let between = random.between(1, 5);
    let one = around(random, &REASONS[first], before, between);
    let other = (REASONS[second].make)(random, Some(1_000));
    refused(random, [one, other].concat(), (BAD_BOOK, before))
}

// A record that is bad in two ways is told once.
pub fn two_reasons(random: &mut Random) -> Case {
    let before = random.between(1, 5);
    let first = records(random, before);
    let lot = first.last().map_or(0, |record| record.lot);
    let bad = match random.below(4) {
        // neither ascending nor marked
        0 => record(lot, 5, 2, 0).bytes(),
        // a place above taken while running
        1 => record(LOT_TOO_WIDE - 1, 5, RUNNING, 6).bytes(),
        // too wide twice
        2 => record(u64::MAX, PLACE_TOO_WIDE, FAILED, PLACE_TOO_WIDE).bytes(),
        // not ascending, and cut short
        _ => [bytes_of(lot), vec![0x80]].concat(),
    };
    refused(random, [bytes_of_book(&first), bad].concat(), (BAD_BOOK, before))
}

// The sum is over the bound before the bad record, or with it.
pub fn bad_and_sum(random: &mut Random) -> Case {
    let reason = random.below(REASONS.len());
    let before = random.between(2, 6);
    let over = 1 + random.below(9) as u128;
    let first = with_total(random, before, u64::MAX as u128 + over);
    let bad = (REASONS[reason].make)(random, first.last().map(|record| record.lot));
    refused(random, [bytes_of_book(&first), bad].concat(), (BAD_BOOK, before))
}

// ---- the sum, and the output

pub fn sum_over(random: &mut Random) -> Case {
    let count = random.between(2, 12);
    let most = u64::MAX as u128;
    let total = most + 1 + number(random, u64::MAX - 1) as u128;
    let book = bytes_of_book(&with_total(random, count, total));
    refused(random, book, (TOTAL_TOO_LARGE, 0))
}

pub fn output_short(random: &mut Random) -> Case {
    let count = random.between(0, 12);
    let records = records(random, count);
    let out_len = random.below(sheet_bytes(count));
    Case::known(bytes_of_book(&records), out_len, (WRONG_LENGTH, 0))
}

// ---- anything

pub fn small_books(random: &mut Random) -> Case {
    let count = random.between(0, 6);
    let records = records(random, count);
    given(random, &records)
}

pub fn middle_books(random: &mut Random) -> Case {
    let count = random.between(7, 40);
    let records = records(random, count);
    given(random, &records)
}

const BOUNDS: [u64; 16] = [
    0,
    0,
    1,
    1,
    2,
    127,
    128,
    PLACE_TOO_WIDE - 1,
    PLACE_TOO_WIDE,
    LOT_TOO_WIDE - 1,
    LOT_TOO_WIDE,
    1 << 32,
    (1 << 63) - 1,
    1 << 63,
    u64::MAX - 1,
    u64::MAX,
];

// Each number is any bound; mostly the lots ascend and have room, the marks are marks, and the
// places are within taken.
pub fn near_limits(random: &mut Random) -> Case {
    let count = random.between(1, 4);
    let mut records: Vec<Record> = (0..count)
        .map(|_| {
            let [lot, taken, mark, place] = [0; 4].map(|_| *random.pick(&BOUNDS));
            let lot = if random.once_in(4) { lot } else { lot % LOT_TOO_WIDE };
            let mark = if random.once_in(8) { mark } else { mark % 2 };
            let place = if random.once_in(4) { place } else { place.min(taken) };
            let place = if mark == 0 && !random.once_in(8) { 0 } else { place };
            record(lot, taken, mark, place)
        })
        .collect();
    if !random.once_in(4) {
        records.sort_by_key(|record| record.lot);
        records.dedup_by_key(|record| record.lot);
    }
    Case::unknown(bytes_of_book(&records), random.below(300))
}

pub fn random_changes(random: &mut Random) -> Case {
    let count = random.between(1, 6);
    let mut book = bytes_of_book(&records(random, count));
    change(random, &mut book, |random| match random.below(3) {
        0 => random.below(256) as u8,
        _ => random.below(3) as u8,
    });
    Case::unknown(book, random.below(400))
}

pub fn random_bytes(random: &mut Random) -> Case {
    let size = random.between(0, 24);
    let book = (0..size).map(|i| match random.below(8) {
        0 => random.below(256) as u8,
        // ascending lots, small marks
        _ => [i as u8, 3, 1, 2][i % 4] % (1 + random.below(40) as u8),
    });
    Case::unknown(book.collect(), random.below(400))
}
