// The test data of the lot sheet: a text file, one case per line. `FORMAT` says how to read it.
//     Case        a book, the output's length, and the answer where it is known
//     groups      all groups for a seed and a number of drawn cases
//     file        the whole file, or the first case whose known answer is not the one given
//     summary     what the test program prints of it

use super::faults::REASONS;
use super::limits::*;
use super::made::*;
use super::print::{sheet, Outcome};
use super::worked;
use super::wrong::*;
use crate::case::{digest, joined};
use crate::random::Random;
use crate::summary::{head, printed, spaced};

// Where the file comes from, but for the seed and the count.
const SOURCE: &str = "\
# Lot books, and the sheet of each.
# Written by tools/reference, another implementation of 02, W2; groups named worked_* have answers
# worked by hand from it. The command, in tools/reference:
#     cargo run --release --offline -- sheets --seed ";

const FORMAT: &str = "\
# One case per line, fields separated by one space, numbers in decimal:
#     s OUTLEN : b b .. = NUMBER VALUE OUTPUT
# These bytes are the book; no number stands between `:` and `=` where it is empty. NUMBER is 0
# for a sheet, and VALUE is then its count of bytes; else NUMBER is the refusal's, and VALUE its
# place.
# Before a call byte i of the output is 255 - i mod 251. OUTPUT is a digest of the whole output
# after it: from 1, for each byte n
#     d := (d * 16777619 + n) mod 4294967291
# Where a group begins with `# wrong` instead of `# group`, each stored answer is wrong on purpose
# in one number, and a test program must find it wrong.
# A book has at most 16,500 bytes, and so has an output.
";

pub const MOST_BOOK: usize = 16_500;
pub const MOST_OUTPUT: usize = 16_500;

#[derive(Clone, Debug)]
pub struct Case {
    pub book: Vec<u8>,
    pub out_len: usize,
    // 0 and the count of bytes, or the refusal's number and place
    pub known: Option<(u8, usize)>,
    pub text: Option<String>,
    // a stored number that is wrong on purpose: its index, and what is stored
    pub wrong: Option<(usize, u64)>,
}

pub struct Group {
    pub name: &'static str,
    pub cases: Vec<Case>,
}

impl Case {
    pub fn known(book: Vec<u8>, out_len: usize, answer: (u8, usize)) -> Case {
        Case { known: Some(answer), ..Case::unknown(book, out_len) }
    }

    pub fn unknown(book: Vec<u8>, out_len: usize) -> Case {
        Case { book, out_len, known: None, text: None, wrong: None }
    }

    // What is given by this implementation: NUMBER VALUE OUTPUT.
    pub fn given(&self) -> [u64; 3] {
        let Outcome { answer, output } = sheet(&self.book, self.out_len);
        let (number, value) = match answer {
            Ok(count) => (0, count),
            Err(refusal) => (refusal.number, refusal.place),
        };
        let rest = (output.len()..self.out_len).map(|i| 255 - i as u64 % 251);
        let left = digest(1, output.iter().map(|&byte| byte as u64).chain(rest));
        [number as u64, value as u64, left]
    }

    fn line(&self, stored: &[u64; 3]) -> String {
        format!("s {} :{} ={}", self.out_len, joined(&self.book), joined(stored))
    }

    // What is not as it is known, if anything.
    fn fault(&self, given: &[u64; 3]) -> Option<String> {
        let answer = (given[0] as u8, given[1] as usize);
        if let Some(known) = self.known.filter(|known| *known != answer) {
            return Some(format!("known {known:?}, given {answer:?}"));
        }
        let output = String::from_utf8(sheet(&self.book, self.out_len).output);
        let text = self.text.as_ref().filter(|text| Ok((*text).clone()) != output);
        text.map(|text| format!("known {text:?}, given {output:?}"))
    }
}

// All groups; `count` is the number of cases in those that are drawn at random without an end.
pub fn groups(seed: u64, count: usize) -> Vec<Group> {
    let mut groups = worked::groups();
    let mut add = |name: &'static str, make: &dyn Fn(&mut Random) -> Vec<Case>| {
        groups.push(Group { name, cases: make(&mut Random::named(seed, name)) });
    };
    add("limit_bytes", &limit_bytes);
    add("limit_tenth_byte", &limit_tenth_byte);
    add("limit_columns", &limit_columns);
    add("limit_sum", &limit_sum);
    add("digits", &digits);
    add("output_lengths", &output_lengths);
    add("cut_at_each_byte", &cut_at_each_byte);
    add("many_records", &many_records);
    // the rest is drawn: a hundred parts, each group so many
    let part = |parts: usize| (count * parts).div_ceil(100);
    for reason in &REASONS {
        add(reason.name, &|random| (0..part(2)).map(|case| bad(random, case, reason)).collect());
    }
    add("cut_short", &|random| (0..part(6)).map(|case| cut_short(random, case)).collect());
    let drawn: [(&'static str, usize, fn(&mut Random) -> Case); 10] = [
        ("two_bad_records", 8, two_bad_records),
        ("two_reasons", 2, two_reasons),
        ("bad_and_sum", 6, bad_and_sum),
        ("sum_over", 4, sum_over),
        ("output_short", 4, output_short),
        ("small_books", 8, small_books),
        ("middle_books", 3, middle_books),
        ("near_limits", 8, near_limits),
        ("random_changes", 8, random_changes),
        ("random_bytes", 3, random_bytes),
    ];
    for (name, parts, make) in drawn {
        add(name, &|random| (0..part(parts)).map(|_| make(random)).collect());
    }
    add("stored_number", &wrong_number);
    add("stored_value", &wrong_value);
    add("stored_output", &wrong_output);
    groups
}

pub fn file(seed: u64, count: usize) -> Result<String, String> {
    let mut text = format!("{SOURCE}{seed} --count {count}\n{FORMAT}");
    for Group { name, cases } in groups(seed, count) {
        text += &head(name, cases.iter().all(|case| case.wrong.is_some()));
        for (i, case) in cases.iter().enumerate() {
            let mut stored = case.given();
            if let Some(fault) = case.fault(&stored) {
                return Err(format!("group {name}: case {}: {fault}", i + 1));
            }
            if let Some((at, other)) = case.wrong {
                stored[at] = other;
            }
            text += &case.line(&stored);
            text.push('\n');
        }
    }
    Ok(text)
}

pub fn summary(text: &str) -> Result<String, String> {
    printed(text, case_of)
}

// `s OUTLEN : b b .. = NUMBER VALUE OUTPUT`
fn case_of(line: &str) -> Option<bool> {
    let (before, answer) = line.strip_prefix('s')?.split_once(" =")?;
    let (head, book) = before.split_once(" :")?;
    let bytes = spaced(book)?.iter().all(|word| word.parse::<u8>().is_ok());
    (bytes && spaced(head)?.len() == 1 && spaced(answer)?.len() == 3).then_some(true)
}
