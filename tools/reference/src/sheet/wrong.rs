// Cases whose stored answer is wrong on purpose in one number: a test program must find each wrong.

use super::book::bytes_of_book;
use super::cases::Case;
use super::drawn::records;
use crate::random::{beside, Random};
use crate::worked::hex;

// The numbers of an answer, by their index.
const NUMBER: usize = 0;
const VALUE: usize = 1;
const OUTPUT: usize = 2;

// A book with each kind of answer: a sheet in an output of its length, and in a longer one; an
// output that is short; a book cut short; an output that is empty.
fn calls(book: &[u8], count: usize) -> Vec<Case> {
    let bytes = 49 * (count + 1);
    let cut = book[..book.len() - 1].to_vec();
    vec![
        Case::unknown(book.to_vec(), bytes),
        Case::unknown(book.to_vec(), bytes + 30),
        Case::unknown(book.to_vec(), bytes - 1),
        Case::unknown(cut, bytes + 30),
        Case::unknown(book.to_vec(), 0),
    ]
}

// A sum of 2^64.
const TOO_MUCH: &str =
    "00 80 80 80 80 80 80 80 80 80 01 00 00  01 80 80 80 80 80 80 80 80 80 01 00 00";

// What may be stored in place of a number.
fn others(at: usize, given: u64) -> Vec<u64> {
    match (at, given) {
        // a sheet as a refusal; a refusal as another, and as a sheet
        (NUMBER, 0) => vec![1, 14, 15],
        (NUMBER, 1) => vec![0, 14, 15],
        (NUMBER, 14) => vec![0, 1, 15],
        (NUMBER, _) => vec![0, 1, 14],
        _ => beside(given),
    }
}

fn wrong_in(random: &mut Random, at: usize) -> Vec<Case> {
    let mut cases = vec![Case::unknown(hex(TOO_MUCH), 200)];
    for count in [1, 4, 9] {
        let book = bytes_of_book(&records(random, count));
        cases.extend(calls(&book, count));
    }
    let wrong = |case: &Case| {
        let others = others(at, case.given()[at]);
        let stored =
            others.into_iter().map(|other| Case { wrong: Some((at, other)), ..case.clone() });
        stored.collect::<Vec<Case>>()
    };
    cases.iter().flat_map(wrong).collect()
}

pub fn wrong_number(random: &mut Random) -> Vec<Case> {
    wrong_in(random, NUMBER)
}

pub fn wrong_value(random: &mut Random) -> Vec<Case> {
    wrong_in(random, VALUE)
}

pub fn wrong_output(random: &mut Random) -> Vec<Case> {
    wrong_in(random, OUTPUT)
}
