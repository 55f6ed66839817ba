// The records of a lot book. 02, W2: "one record per lot, in numbers of seven-bit groups (here up to
// ten bytes): lot, taken, 0 for running or 1 for failed, place (0 if running)".
//     Record, bytes_of_book     four numbers, and the bytes of some records
//     records_of                the records of a book, or 14 at the index of the first that is bad

use super::numbers::{bytes_of, number_at};
use crate::refusal::*;

#[derive(Clone, Copy, Debug, PartialEq, Eq)]
pub struct Record {
    pub lot: u64,
    pub taken: u64,
    pub mark: u64,
    pub place: u64,
}

pub const RUNNING: u64 = 0;
pub const FAILED: u64 = 1;

// "lot in columns 1 to 10", "place 41 to 48": the first numbers that are too wide. Every number of
// 64 bits has room in "taken 12 to 31".
pub const LOT_TOO_WIDE: u64 = 10_000_000_000;
pub const PLACE_TOO_WIDE: u64 = 100_000_000;

impl Record {
    pub fn numbers(&self) -> [u64; 4] {
        [self.lot, self.taken, self.mark, self.place]
    }

    pub fn bytes(&self) -> Vec<u8> {
        self.numbers().into_iter().flat_map(bytes_of).collect()
    }
}

pub fn bytes_of_book(records: &[Record]) -> Vec<u8> {
    records.iter().flat_map(Record::bytes).collect()
}

// Four numbers from `at` on, and the place past them.
fn record_at(book: &[u8], at: usize) -> Option<(Record, usize)> {
    let (lot, next) = number_at(book, at)?;
    let (taken, next) = number_at(book, next)?;
    let (mark, next) = number_at(book, next)?;
    let (place, next) = number_at(book, next)?;
    Some((Record { lot, taken, mark, place }, next))
}

// Whether a record may stand after another, or first.
fn is_good(record: &Record, before: Option<&Record>) -> bool {
    // "lots not strictly ascending"
    let ascends = before.is_none_or(|before| before.lot < record.lot);
    // "a mark other than 0 or 1"
    let marked = record.mark == RUNNING || record.mark == FAILED;
    // "a place above taken or not 0 while running"
    let placed = record.place <= record.taken && (record.mark != RUNNING || record.place == 0);
    // "a number too wide for its columns"
    let fits = record.lot < LOT_TOO_WIDE && record.place < PLACE_TOO_WIDE;
    ascends && marked && placed && fits
}

// "Records are checked first to last"; "14 bad book, placed at the record's index"
pub fn records_of(book: &[u8]) -> Result<Vec<Record>, Refusal> {
    let mut records: Vec<Record> = Vec::new();
    let mut at = 0;
    while at < book.len() {
        match record_at(book, at) {
            Some((record, next)) if is_good(&record, records.last()) => {
                records.push(record);
                at = next;
            }
            _ => return refuse(BAD_BOOK, records.len()),
        }
    }
    Ok(records)
}
