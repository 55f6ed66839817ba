// Bytes of a record with one known fault, reason by reason (02, W2, refusal 14: "cut short, a
// malformed number or one above 2^64-1, lots not strictly ascending, a mark other than 0 or 1, a
// place above taken or not 0 while running, a number too wide for its columns").
//     Reason, REASONS     the bytes of a bad record after one of that lot, or first
//     cut                 the same for a record that the book ends in

use super::book::*;
use super::drawn::{number, records_from};
use super::numbers::bytes_of;
use crate::random::Random;

// The lot of the record before, if there is one.
pub type Before = Option<u64>;

pub struct Reason {
    pub name: &'static str,
    pub make: fn(&mut Random, Before) -> Vec<u8>,
    // whether there must be a record before
    pub second: bool,
}

const fn reason(name: &'static str, make: fn(&mut Random, Before) -> Vec<u8>) -> Reason {
    Reason { name, make, second: false }
}

pub const REASONS: [Reason; 20] = [
    reason("padded_lot", |random, before| in_number(random, before, 0, padded)),
    reason("padded_taken", |random, before| in_number(random, before, 1, padded)),
    reason("padded_mark", |random, before| in_number(random, before, 2, padded)),
    reason("padded_place", |random, before| in_number(random, before, 3, padded)),
    reason("above_lot", |random, before| in_number(random, before, 0, above)),
    reason("above_taken", |random, before| in_number(random, before, 1, above)),
    reason("above_mark", |random, before| in_number(random, before, 2, above)),
    reason("above_place", |random, before| in_number(random, before, 3, above)),
    reason("eleven_lot", |random, before| in_number(random, before, 0, eleven)),
    reason("eleven_taken", |random, before| in_number(random, before, 1, eleven)),
    reason("eleven_mark", |random, before| in_number(random, before, 2, eleven)),
    reason("eleven_place", |random, before| in_number(random, before, 3, eleven)),
    Reason { name: "lot_again", make: lot_again, second: true },
    Reason { name: "lot_below", make: lot_below, second: true },
    reason("mark_other", mark_other),
    reason("mark_cut_to_bits", mark_cut_to_bits),
    reason("place_above_taken", place_above_taken),
    reason("place_while_running", place_while_running),
    reason("wide_lot", wide_lot),
    reason("wide_place", wide_place),
];

// A good record after one of that lot.
pub fn good(random: &mut Random, before: Before) -> Record {
    let least = before.map_or(0, |lot| (lot + 1).min(LOT_TOO_WIDE - 1));
    records_from(random, 1, least, u64::MAX)[0]
}

// ---- a number that is not written as it must be

fn in_number(
    random: &mut Random,
    before: Before,
    at: usize,
    form: fn(&mut Random, u64) -> Vec<u8>,
) -> Vec<u8> {
    let numbers = good(random, before).numbers();
    let written = |i: usize| bytes_of(numbers[i]);
    let bad = form(random, numbers[at]);
    (0..4).flat_map(|i| if i == at { bad.clone() } else { written(i) }).collect()
}

// More bytes than the fewest, ten at most: groups of 0 on top.
fn padded(random: &mut Random, n: u64) -> Vec<u8> {
    let mut bytes = bytes_of(n);
    if bytes.len() == 10 {
        bytes = bytes_of(n >> 1);
    }
    let count = random.between(bytes.len() + 1, 10);
    *bytes.last_mut().expect("a byte") += 128;
    bytes.resize(count - 1, 128);
    bytes.push(0);
    bytes
}

// Ten bytes, of which the tenth is above 01.
fn above(random: &mut Random, n: u64) -> Vec<u8> {
    let mut bytes: Vec<u8> = match random.below(4) {
        0 => vec![0x80; 9],
        1 => vec![0xFF; 9],
        // the low bits are those of a number that would be good
        _ => (0..9).map(|i| (n >> (7 * i)) as u8 | 128).collect(),
    };
    bytes.push(if random.once_in(2) { 2 } else { random.between(2, 127) as u8 });
    bytes
}

// A tenth byte after which another follows.
fn eleven(random: &mut Random, n: u64) -> Vec<u8> {
    let mut bytes: Vec<u8> = (0..10).map(|i| (n >> (7 * i).min(63)) as u8 | 128).collect();
    bytes[9] = 128 + random.below(2) as u8;
    bytes.push(random.below(2) as u8);
    bytes
}

// ---- a number that may not stand there

fn lot_again(random: &mut Random, before: Before) -> Vec<u8> {
    let lot = before.expect("a record before");
    Record { lot, ..good(random, None) }.bytes()
}

// 0 where no lot is below.
fn lot_below(random: &mut Random, before: Before) -> Vec<u8> {
    let before = before.expect("a record before");
    let most = before.saturating_sub(1);
    let lot = if random.once_in(2) { most } else { number(random, most) };
    Record { lot, ..good(random, None) }.bytes()
}

fn mark_other(random: &mut Random, before: Before) -> Vec<u8> {
    let mark = *random.pick(&[2, 2, 3, 48, 49, 127, 128, 255, u64::MAX]);
    Record { mark, place: 0, ..good(random, before) }.bytes()
}

// A mark whose low bits are 0 or 1.
fn mark_cut_to_bits(random: &mut Random, before: Before) -> Vec<u8> {
    let low = random.below(2) as u64;
    let mark = (1 << *random.pick(&[1, 7, 8, 16, 31, 32, 63])) + low;
    let record = good(random, before);
    let place = if low == 0 { 0 } else { record.place };
    Record { mark, place, ..record }.bytes()
}

fn place_above_taken(random: &mut Random, before: Before) -> Vec<u8> {
    let taken = number(random, PLACE_TOO_WIDE - 2);
    let place = match random.below(3) {
        0 => taken + 1,
        1 => PLACE_TOO_WIDE - 1,
        _ => taken + 1 + number(random, PLACE_TOO_WIDE - 2 - taken),
    };
    Record { taken, mark: FAILED, place, ..good(random, before) }.bytes()
}

fn place_while_running(random: &mut Random, before: Before) -> Vec<u8> {
    let record = good(random, before);
    let taken = record.taken.max(1);
    let most = taken.min(PLACE_TOO_WIDE - 1);
    let place = if random.once_in(2) { 1 } else { number(random, most).max(1) };
    Record { taken, mark: RUNNING, place, ..record }.bytes()
}

fn wide_lot(random: &mut Random, before: Before) -> Vec<u8> {
    let lot = match random.below(3) {
        0 => LOT_TOO_WIDE,
        1 => u64::MAX,
        _ => LOT_TOO_WIDE + number(random, u64::MAX - LOT_TOO_WIDE),
    };
    Record { lot, ..good(random, before) }.bytes()
}

fn wide_place(random: &mut Random, before: Before) -> Vec<u8> {
    let taken = PLACE_TOO_WIDE + number(random, u64::MAX - PLACE_TOO_WIDE);
    let place = match random.below(3) {
        0 => PLACE_TOO_WIDE,
        1 => taken,
        _ => PLACE_TOO_WIDE + number(random, taken - PLACE_TOO_WIDE),
    };
    Record { taken, mark: FAILED, place, ..good(random, before) }.bytes()
}

// ---- a record that the book ends in

// It ends before number `at` or within it.
pub fn cut(random: &mut Random, before: Before, at: usize) -> Vec<u8> {
    let numbers = good(random, before).numbers();
    let mut bytes: Vec<u8> = numbers[..at].iter().flat_map(|&n| bytes_of(n)).collect();
    let number = bytes_of(numbers[at]);
    // none of the record's bytes would be none of the record
    let least = if at == 0 { 1 } else { 0 };
    if at > 0 || number.len() > 1 {
        bytes.extend(&number[..random.between(least, number.len() - 1)]);
    } else {
        bytes.push(128 + random.below(128) as u8);
    }
    bytes
}
