// Tests of the sheet over many books: its lines read back, its answers by their conditions, and the
// stored data file.

use super::book::*;
use super::cases::*;
use super::drawn;
use super::print::*;
use super::wrong::*;
use crate::random::Random;
use crate::refusal::*;
use crate::stored;
use std::collections::BTreeSet;

// The number in columns `first` to `last`, counted from 1: right aligned, with spaces before it.
fn number_in(line: &str, first: usize, last: usize) -> u64 {
    let digits = line[first - 1..last].trim_start_matches(' ');
    assert!(digits.bytes().all(|byte| byte.is_ascii_digit()), "{line:?}");
    assert!(digits == "0" || !digits.starts_with('0'), "{line:?}");
    digits.parse().expect("a number")
}

// A line's record; all that is not a number or the word is a space.
fn record_in(line: &str) -> Record {
    assert_eq!(line.len(), 48);
    for column in [11, 32, 40] {
        assert_eq!(line.as_bytes()[column - 1], b' ', "{line:?}");
    }
    let mark = match &line[32..39] {
        "running" => RUNNING,
        "failed " => FAILED,
        other => panic!("{other:?}"),
    };
    let [lot, taken, place] = [(1, 10), (12, 31), (41, 48)].map(|(a, b)| number_in(line, a, b));
    Record { lot, taken, mark, place }
}

fn total_in(line: &str) -> u64 {
    assert_eq!(line.len(), 48);
    assert_eq!((&line[..11], &line[31..]), ("TOTAL      ", "                 "));
    number_in(line, 12, 31)
}

// good books are read, and their sheets say just what is in them
#[test]
fn lines_are_read_back() {
    let mut random = Random::new(1);
    for i in 0..2_000 {
        let records = drawn::records(&mut random, i % 40);
        let book = bytes_of_book(&records);
        assert_eq!(records_of(&book), Ok(records.clone()));
        let count = 49 * (records.len() + 1);
        let Outcome { answer, output } = sheet(&book, count);
        assert_eq!(answer, Ok(count));
        let text = String::from_utf8(output).expect("a text");
        let lines: Vec<&str> = text.strip_suffix('\n').expect("a line").split('\n').collect();
        let (last, lines) = lines.split_last().expect("a last line");
        assert_eq!(lines.iter().map(|line| record_in(line)).collect::<Vec<_>>(), records);
        assert_eq!(total_in(last), records.iter().map(|record| record.taken).sum::<u64>());
    }
}

#[test]
fn totals_are_as_drawn() {
    let mut random = Random::new(2);
    for count in 2..12 {
        let total = u64::MAX as u128 + count as u128;
        let records = drawn::with_total(&mut random, count, total);
        assert_eq!(records.iter().map(|record| record.taken as u128).sum::<u128>(), total);
        let answer = sheet(&bytes_of_book(&records), 0).answer;
        assert_eq!(answer, refuse(TOTAL_TOO_LARGE, 0));
    }
}

// not too long, within the bounds that its head names, with every answer, and with books that are
// refused at their first, a middle and their last record
#[test]
fn data_file() {
    let text = stored::text("sheet_test/data/sheets.txt");
    assert!(text.len() < 2_000_000, "{}", text.len());
    assert!(summary(&text).expect("a file of cases").ends_with("\nok\n"));
    let (text, _) = text.split_once("# wrong ").expect("answers that are wrong on purpose");
    let mut answers = BTreeSet::new();
    let mut cases = 0;
    for line in text.lines().filter(|line| line.starts_with("s ")) {
        let numbers = stored::numbers(line);
        let [number, value, _] = numbers[numbers.len() - 3..] else { panic!("{line}") };
        assert!(numbers.len() - 4 <= MOST_BOOK && numbers[0] as usize <= MOST_OUTPUT);
        answers.insert((number, if number == 14 { value.min(9) } else { 0 }));
        cases += 1;
    }
    assert!(cases >= 1_500, "{cases}");
    let due = (0..=9).map(|place| (14, place)).chain([(0, 0), (1, 0), (15, 0)]);
    assert_eq!(answers, due.collect());
}

// what is stored wrong on purpose is wrong
#[test]
fn wrong_cases() {
    let mut random = Random::new(1);
    for make in [wrong_number, wrong_value, wrong_output] {
        let cases = make(&mut random);
        assert!(cases.len() >= 20);
        for case in cases {
            let (at, other) = case.wrong.expect("a wrong number");
            assert_ne!(case.given()[at], other);
        }
    }
}

#[test]
fn cases_are_counted() {
    let text =
        "# head\n# group a\ns 49 : = 0 49 7\ns 0 : 1 2 = 14 0 1\n# wrong b\ns 0 : = 0 0 1\n";
    assert_eq!(summary(text), Ok("a 2\nb 1 of 1 wrong, first 1\nok\n".to_string()));
    for line in ["", "s : = 1 0 1", "s 1 : = 1 0", "s 1 : 256 = 1 0 1", "r 1 : = 1 0 1"] {
        assert!(summary(&format!("# group a\n{line}\n")).is_err(), "{line}");
    }
}
