// Books that are good, from a seed.
//     number        a number up to a bound, of any length
//     records       some good records, whose sum is below 2^64
//     with_total    some good records whose sum is so much

use super::book::*;
use crate::random::Random;

// At most `most`; each length in bits is as likely, and so are the bounds together.
pub fn number(random: &mut Random, most: u64) -> u64 {
    match random.below(16) {
        0 => 0,
        1 => most,
        _ => {
            let bits = random.between(1, 64);
            let n = random.next() >> (64 - bits);
            if n <= most {
                n
            } else {
                n % (most + 1)
            }
        }
    }
}

// Ascending lots, close together or far apart, from `least` on.
fn lots(random: &mut Random, count: usize, least: u64) -> Vec<u64> {
    let close = random.once_in(3);
    let mut next = least;
    (0..count)
        .map(|i| {
            let room = (LOT_TOO_WIDE - next) / (count - i) as u64 - 1;
            let lot = next + number(random, if close { room.min(2) } else { room });
            next = lot + 1;
            lot
        })
        .collect()
}

// A record's mark and place.
fn judged(random: &mut Random, lot: u64, taken: u64) -> Record {
    if random.once_in(2) {
        return Record { lot, taken, mark: RUNNING, place: 0 };
    }
    let place = number(random, taken.min(PLACE_TOO_WIDE - 1));
    Record { lot, taken, mark: FAILED, place }
}

// Good records from a lot on; of all takens the sum is at most `most`.
pub fn records_from(random: &mut Random, count: usize, least: u64, most: u64) -> Vec<Record> {
    let mut left = most;
    let lots = lots(random, count, least);
    let small = random.once_in(2);
    lots.into_iter()
        .enumerate()
        .map(|(i, lot)| {
            let room = left / (count - i) as u64;
            let taken = number(random, if small { room.min(5_000) } else { room });
            left -= taken;
            judged(random, lot, taken)
        })
        .collect()
}

pub fn records(random: &mut Random, count: usize) -> Vec<Record> {
    records_from(random, count, 0, u64::MAX)
}

// Good records whose sum is `total`; each taken is below 2^64.
pub fn with_total(random: &mut Random, count: usize, total: u128) -> Vec<Record> {
    let mut left = total;
    let lots = lots(random, count, 0);
    lots.into_iter()
        .enumerate()
        .map(|(i, lot)| {
            let after = (count - i - 1) as u128;
            let least = left.saturating_sub(after * u64::MAX as u128);
            let most = left.min(u64::MAX as u128);
            let room = (most - least) as u64;
            let taken = if after == 0 { most } else { least + number(random, room) as u128 };
            left -= taken;
            judged(random, lot, taken as u64)
        })
        .collect()
}
