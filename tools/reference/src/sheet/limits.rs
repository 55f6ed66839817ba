// Cases of the sheet at each limit, whose answers are known.
//     given, refused      a case of a book that is good, or is not

use super::book::*;
use super::cases::{Case, MOST_BOOK, MOST_OUTPUT};
use super::drawn::*;
use super::print::LINE_BYTES;
use crate::random::Random;
use crate::refusal::*;

pub fn sheet_bytes(count: usize) -> usize {
    LINE_BYTES * (count + 1)
}

// A book that is good, with an output that is long enough, in any way.
pub fn given(random: &mut Random, records: &[Record]) -> Case {
    let count = sheet_bytes(records.len());
    let more = *random.pick(&[0, 0, 1, 48, 49, 100]);
    Case::known(bytes_of_book(records), count + more, (0, count))
}

// A refused book, with any output: 1 comes last.
pub fn refused(random: &mut Random, book: Vec<u8>, answer: (u8, usize)) -> Case {
    let out_len = *random.pick(&[0, 1, 48, 49, 98, 200, 1_000, 2_000]);
    Case::known(book, out_len, answer)
}

pub fn record(lot: u64, taken: u64, mark: u64, place: u64) -> Record {
    Record { lot, taken, mark, place }
}

// ---- numbers at their bounds

// In taken, the first and the last number of each count of bytes; and in lot and place, as far as
// these go.
pub fn limit_bytes(random: &mut Random) -> Vec<Case> {
    let ends = (0..10).flat_map(|bytes: u32| {
        let first = 1u64.checked_shl(7 * bytes).filter(|&n| n > 1).unwrap_or(0);
        let last = 1u64.checked_shl(7 * bytes + 7).map_or(u64::MAX, |n| n - 1);
        [first, last]
    });
    let mut cases = Vec::new();
    for n in ends {
        let lot = n.min(LOT_TOO_WIDE - 1);
        let place = n.min(PLACE_TOO_WIDE - 1);
        cases.push(given(random, &[record(7, n, RUNNING, 0)]));
        cases.push(given(random, &[record(lot, n, FAILED, place)]));
    }
    cases
}

// A tenth byte at each side of 01, and the groups below it empty and full, in each number.
pub fn limit_tenth_byte(random: &mut Random) -> Vec<Case> {
    let mut cases = Vec::new();
    for low in [0x80, 0xFF] {
        for tenth in [0x00, 0x01, 0x02, 0x03, 0x7F, 0x80, 0x81] {
            let number = [&[low; 9][..], &[tenth]].concat();
            for at in 0..4 {
                let mut parts = [vec![0], vec![0], vec![1], vec![0]];
                parts[at] = number.clone();
                let book = parts.concat();
                // as taken it is a number; it is too wide for the others, and no mark
                let good = tenth == 1 && at == 1;
                let answer = if good { (0, sheet_bytes(1)) } else { (BAD_BOOK, 0) };
                cases.push(match good {
                    true => Case::known(book, sheet_bytes(1), answer),
                    false => refused(random, book, answer),
                });
            }
        }
    }
    cases
}

// 10^10 and 10^8, and the numbers beside them.
pub fn limit_columns(random: &mut Random) -> Vec<Case> {
    let mut cases = Vec::new();
    for lot in [LOT_TOO_WIDE - 2, LOT_TOO_WIDE - 1] {
        cases.push(given(random, &[record(lot, 1, RUNNING, 0)]));
        cases.push(given(random, &[record(3, 2, FAILED, 1), record(lot, 1, FAILED, 1)]));
    }
    for lot in [LOT_TOO_WIDE, LOT_TOO_WIDE + 1, 1 << 34, 1 << 35, 1 << 63, u64::MAX] {
        let first = bytes_of_book(&[record(lot, 1, RUNNING, 0)]);
        cases.push(refused(random, first, (BAD_BOOK, 0)));
        let second = bytes_of_book(&[record(3, 2, FAILED, 1), record(lot, 1, FAILED, 1)]);
        cases.push(refused(random, second, (BAD_BOOK, 1)));
    }
    for place in [PLACE_TOO_WIDE - 2, PLACE_TOO_WIDE - 1] {
        for taken in [place, place + 1, u64::MAX] {
            cases.push(given(random, &[record(3, taken, FAILED, place)]));
        }
    }
    for place in [PLACE_TOO_WIDE, PLACE_TOO_WIDE + 1, 1 << 27, 1 << 32, u64::MAX] {
        for taken in [place, u64::MAX] {
            let book = bytes_of_book(&[record(3, taken, FAILED, place)]);
            cases.push(refused(random, book, (BAD_BOOK, 0)));
        }
    }
    cases
}

// Numbers of each count of digits, the first and the last, in each column and in the sum.
pub fn digits(random: &mut Random) -> Vec<Case> {
    let mut cases = Vec::new();
    for count in 1..=20u32 {
        let first = if count == 1 { 0 } else { 10u64.pow(count - 1) };
        let last = 10u64.checked_pow(count).map_or(u64::MAX, |n| n - 1);
        let middle = 1_234_567_890_123_456_789 % last.max(2);
        for n in [first, last, middle] {
            let lot = n.min(LOT_TOO_WIDE - 1);
            let place = n.min(PLACE_TOO_WIDE - 1);
            cases.push(given(random, &[record(lot, n, FAILED, place)]));
        }
        cases.push(given(random, &[record(1, first, RUNNING, 0), record(2, 0, FAILED, 0)]));
        cases.push(given(random, &[record(1, 1, FAILED, 1), record(2, last - 1, RUNNING, 0)]));
    }
    cases
}

// ---- the sum

pub fn limit_sum(random: &mut Random) -> Vec<Case> {
    let most = u64::MAX as u128;
    let mut cases = Vec::new();
    for count in [2, 2, 3, 5, 20] {
        for total in [most - 1, most] {
            let records = with_total(random, count, total);
            cases.push(given(random, &records));
        }
        // one above; what a sum of 64 bits would take for 0, for 1, for the largest
        for total in [most + 1, most + 2, 2 * most, 2 * most - 1, most * count as u128] {
            let book = bytes_of_book(&with_total(random, count, total));
            let long = sheet_bytes(count);
            for out_len in [0, long - 1, long, long + 60] {
                cases.push(Case::known(book.clone(), out_len, (TOTAL_TOO_LARGE, 0)));
            }
        }
    }
    cases
}

// ---- the output's length

pub fn output_lengths(random: &mut Random) -> Vec<Case> {
    let mut cases = Vec::new();
    for count in [0, 1, 2, 3, 7, 20] {
        let records = records(random, count);
        let (book, bytes) = (bytes_of_book(&records), sheet_bytes(count));
        for more in [0, 1, 2, 48, 49, 50, 500] {
            cases.push(Case::known(book.clone(), bytes + more, (0, bytes)));
        }
        for less in [1, 2, 48, 49, bytes - 1, bytes] {
            cases.push(Case::known(book.clone(), bytes - less, (WRONG_LENGTH, 0)));
        }
    }
    cases
}

// ---- records

// A book cut at each of its bytes: between records it is a shorter book.
pub fn cut_at_each_byte(random: &mut Random) -> Vec<Case> {
    let records = [
        record(0, 5, RUNNING, 0),
        record(300, 1 << 40, FAILED, 70_000),
        record(LOT_TOO_WIDE - 1, 1 << 63, FAILED, PLACE_TOO_WIDE - 1),
    ];
    let book = bytes_of_book(&records);
    let ends = [0, 1, 2, 3].map(|count| bytes_of_book(&records[..count]).len());
    (0..=book.len())
        .map(|end| {
            let whole = ends.iter().rposition(|&at| at <= end).expect("0 is an end");
            match ends[whole] == end {
                true => given(random, &records[..whole]),
                false => refused(random, book[..end].to_vec(), (BAD_BOOK, whole)),
            }
        })
        .collect()
}

// So many short records: of ascending lots, each with 1 taken.
fn short_records(count: usize) -> Vec<Record> {
    (0..count as u64).map(|lot| record(lot, 1, RUNNING, 0)).collect()
}

pub fn many_records(random: &mut Random) -> Vec<Case> {
    let most = MOST_OUTPUT / LINE_BYTES - 1;
    let mut cases = Vec::new();
    for count in [100, 255, 256, 257, most] {
        let records = records(random, count);
        let (book, bytes) = (bytes_of_book(&records), sheet_bytes(count));
        cases.push(Case::known(book.clone(), bytes, (0, bytes)));
        cases.push(Case::known(book.clone(), bytes - 1, (WRONG_LENGTH, 0)));
        let bad = [&book[..], &record(0, 0, 0, 0).bytes()].concat();
        cases.push(Case::known(bad, MOST_OUTPUT, (BAD_BOOK, count)));
    }
    let most_records = short_records(3_300);
    let book = bytes_of_book(&most_records);
    assert!(book.len() + 4 <= MOST_BOOK, "a book within the bounds of its file");
    cases.push(Case::known(book.clone(), MOST_OUTPUT, (WRONG_LENGTH, 0)));
    let bad = [&book[..], &[0, 0, 0, 0]].concat();
    cases.push(Case::known(bad, MOST_OUTPUT, (BAD_BOOK, 3_300)));
    cases
}
