// Cases worked by hand from the words of 01: their answers stand here, and are not this
// implementation's. Bytes are hexadecimal.

use crate::case::{Call, Case, Group};
use crate::generate::definition;
use crate::numbers::bytes_of_list;
use crate::operations::{READ_OUTPUT, WORK};
use crate::table::*;

pub fn hex(text: &str) -> Vec<u8> {
    text.split_whitespace()
        .map(|byte| u8::from_str_radix(byte, 16).expect("hexadecimal"))
        .collect()
}

// A = 3, one set, {0}
pub const ONE_SET: &str = "03 01 00 01 00";
// A = 3, sets {0} and {1}
pub const TWO_SETS: &str = "03 02 00 01 00 00 01 01";
// A = 3, sets {0}, {1} and {}
pub const THREE_SETS: &str = "03 03 00 01 00 00 01 01 00 00";
pub const TABLE_B: &str = "03 02 00 01 00 00 01 01 01 00 02 00 02 01 05 00";

struct Cases(Vec<Case>);

impl Cases {
    fn read(&mut self, bytes: &[u8], out_len: usize, work_len: usize, answer: (u8, usize)) {
        let call = Call::Read { bytes: bytes.to_vec(), out_len, work_len };
        self.0.push(Case::known(call, answer));
    }

    fn write(&mut self, list: &[u16], out_len: usize, work_len: usize, answer: (u8, usize)) {
        let call = Call::Write { list: list.to_vec(), out_len, work_len };
        self.0.push(Case::known(call, answer));
    }

    fn check(&mut self, list: &[u16], answer: (u8, usize)) {
        self.0.push(Case::known(Call::Check { list: list.to_vec() }, answer));
    }

    // An accepted table with this many terms.
    fn stands_bytes(&mut self, bytes: &[u8], terms: usize) {
        let list: Vec<u16> = bytes.iter().map(|&byte| byte as u16).collect();
        self.read(bytes, READ_OUTPUT, WORK, (0, bytes.len()));
        self.write(&list, bytes.len(), WORK, (0, bytes.len()));
        self.check(&list, (0, terms));
    }

    fn stands(&mut self, parts: &[&str], terms: usize) {
        self.stands_bytes(&hex(&parts.join(" ")), terms);
    }

    // A table refused; where all numbers are single bytes, the list of them too.
    fn refused_bytes(&mut self, bytes: &[u8], number: u8, place: usize) {
        self.read(bytes, READ_OUTPUT, WORK, (number, place));
        if bytes.iter().all(|&byte| byte < 128) {
            let list: Vec<u16> = bytes.iter().map(|&byte| byte as u16).collect();
            self.write(&list, READ_OUTPUT, WORK, (number, place));
            self.check(&list, (number, place));
        }
    }

    fn refused(&mut self, parts: &[&str], number: u8, place: usize) {
        self.refused_bytes(&hex(&parts.join(" ")), number, place);
    }
}

fn group(name: &'static str, fill: impl Fn(&mut Cases)) -> Group {
    let mut cases = Cases(Vec::new());
    fill(&mut cases);
    Group { name, cases: cases.0 }
}

pub fn groups() -> Vec<Group> {
    vec![
        group("worked_numbers", numbers),
        group("worked_tables", tables),
        group("worked_references", references),
        group("worked_hands", widths),
        group("worked_openings", branches),
        group("worked_lengths", lengths),
        group("drawings", drawings),
    ]
}

fn numbers(cases: &mut Cases) {
    cases.refused(&[""], 3, 0);
    cases.refused(&["80"], 3, 1);
    cases.refused(&["80 80"], 3, 2);
    cases.refused(&["80 00"], 4, 0);
    cases.refused(&["80 80 00"], 4, 0);
    cases.refused(&["FF FF 84"], 4, 0);
    cases.refused(&["FF FF 04"], 4, 0);
    cases.refused(&["FF FF 03"], 5, 0);
    cases.refused(&["80 80 01"], 5, 0);
    // 128, 127 and 129 as the alphabet's size (02, W6)
    cases.refused(&["80 01"], 3, 2);
    cases.refused(&["7F"], 3, 1);
    cases.refused(&["81 01"], 5, 0);
    cases.check(&[65_535], (5, 0));
    cases.check(&[16_384], (5, 0));
}

// The body of `count` prefixes {0} and STOP.
pub fn nested(count: usize) -> String {
    "02 00 ".repeat(count) + "00"
}

// A choice of `count` of these, halved again and again.
pub fn chosen(count: usize, one: &str) -> String {
    if count == 1 {
        return one.to_string();
    }
    format!("03 {} {}", chosen(count / 2, one), chosen(count - count / 2, one))
}

// A parallel over set 0 of `count` of these.
pub fn beside(count: usize, one: &str) -> String {
    "04 00 ".repeat(count - 1) + &[one].repeat(count).join(" ")
}

fn tables(cases: &mut Cases) {
    // 33 deep, and an input that ends just before the 33rd kind
    cases.refused(&[ONE_SET, "01 00", &"02 00 ".repeat(40)], 5, 71);
    cases.refused(&[ONE_SET, "01 00", &"02 00 ".repeat(32)], 3, 71);
    // 32 definitions of 32 terms are 1,024; an input that ends just before the 1,025th; that one
    let full = "00 02 00 ".to_string() + &chosen(16, "01");
    let head = hex(&format!("{ONE_SET} 20"));
    let mut bytes = head.clone();
    for _ in 0..32 {
        bytes.extend(hex(&full));
    }
    assert_eq!((hex(&full).len(), bytes.len()), (34, 1_094));
    cases.stands_bytes(&bytes, 1_024);
    // the last term, at 1,093, made a choice: its left side is the 1,025th
    bytes[1_093] = 3;
    cases.refused_bytes(&bytes, 3, 1_094);
    bytes.extend(hex("01 01"));
    cases.refused_bytes(&bytes, 5, 1_094);
    // rows
    cases.refused(&["03 01 00 02 01 01 01 00 00"], 5, 5);
    cases.refused(&["03 01 00 02 01 00 01 00 00"], 5, 5);
    cases.refused(&["03 01 00 04"], 5, 3);
    cases.refused(&["03 01 00 04 00 01 02 03 01 00 00"], 5, 3);
    cases.refused(&["03 01 00 01 03 01 00 00"], 5, 4);
    // a prefix without sets
    cases.refused(&["03 00 01 00 02 00 00"], 5, 5);
    // the order: the whole first pass, then 6, then 7
    cases.refused(&[ONE_SET, "01 00 02 00 05 AC 02 00"], 6, 12);
    cases.refused(&[ONE_SET, "02 00 02 00 05 AC 02 00 06"], 5, 13);
    cases.refused(&[ONE_SET, "01 00 02 00 05 AC 02"], 7, 10);
    cases.refused(&[ONE_SET, "01 00 02 00 05 AC"], 3, 11);
    cases.refused(&[ONE_SET, "01 00 02 00 05 AC 00"], 4, 10);
}

fn references(cases: &mut Cases) {
    let by_row = "03 01 01 01 01 01 00 00 01 00 02 00";
    cases.refused(&[by_row, "04 00"], 5, 12);
    cases.refused(&[by_row, "00 00"], 7, 12);
    cases.refused(&[by_row, "03 00"], 7, 12);
    // a call under a parallel, a prefix in between
    let two = [ONE_SET, "02 00 02 00 00"];
    cases.refused(&[two[0], two[1], "00 04 00 02 00 05 00 00"], 7, 16);
    cases.stands(&[two[0], two[1], "01 04 00 02 00 05 00 00"], 6);
    // calls of themselves, and of a higher number
    cases.refused(&[ONE_SET, "01 00 05 00"], 7, 8);
    cases.stands(&[ONE_SET, "01 00 02 00 05 00"], 2);
    cases.stands(&[ONE_SET, "02 00 02 00 05 01 00 00"], 3);
    cases.refused(&[ONE_SET, "02 00 03 00 05 01 00 00"], 7, 10);
    cases.stands(&["03 01 00 01 00 03 00 02 00 05 01 00 00 01 05 00"], 4);
}

fn widths(cases: &mut Cases) {
    // FAIL counts: eight STOPs beside FAIL, at level 2
    let nine = format!("04 00 {} 01", beside(8, "00"));
    cases.refused(&[ONE_SET, "01 02", &nine], 8, 2);
    cases.stands(&[ONE_SET, "01 02", &beside(8, "00")], 15);
    cases.refused(&[ONE_SET, "01 07", &beside(9, "00")], 8, 7);
    cases.refused(&[ONE_SET, "01 00", &beside(9, "00")], 8, 0);
    // the level's width, not the called body's
    let level_0 = format!("00 {} 00 02 00 00", beside(8, "00"));
    cases.refused(&[ONE_SET, "03", &level_0, "01 04 00 05 01 00"], 8, 1);
    // a call to its own level counts 1
    let called = format!("00 {} 00 02 00 05 00", beside(8, "00"));
    cases.stands(&[ONE_SET, "02", &called], 17);
}

fn branches(cases: &mut Cases) {
    // doomed by FAIL: no opening
    cases.stands(&[ONE_SET, "01 00 04 00", &chosen(257, "00"), "01"], 515);
    // the follower comes before the body that it calls
    cases.refused(&[ONE_SET, "02 00 02 00 05 01 00", &chosen(257, "00")], 9, 1);
    cases.refused(&[ONE_SET, "01 00 02 00", &chosen(257, "00")], 9, 1);
    // 0 openings, and 8^31 paths to them
    let mut calls = hex(&format!("{ONE_SET} 20 00 01"));
    for i in 0..31 {
        calls.extend(hex(&format!("00 {}", chosen(8, &format!("05 {i:02X}")))));
    }
    assert_eq!(calls.len(), 752);
    cases.stands_bytes(&calls, 1 + 31 * 15);
    // FAIL beside seven calls of 256 openings
    let seven =
        format!("{ONE_SET} 02 00 {} 01 04 00 01 {}", chosen(256, "00"), beside(7, "05 00"));
    assert_eq!(hex(&seven).len(), 548);
    cases.stands(&[&seven], 511 + 15);
    // eight leaves, each with a follower of 256 openings
    let eight = format!("01 {}", beside(8, "05 01"));
    let different = format!("{ONE_SET} 03 00 {} 00 02 00 05 00 {eight}", chosen(256, "00"));
    assert_eq!(hex(&different).len(), 554);
    cases.stands(&[&different], 511 + 2 + 15);
    let same = format!("{ONE_SET} 04 00 00 00 {} 00 02 00 05 01", chosen(256, "05 00"));
    cases.stands(&[&same, "01", &beside(8, "05 02")], 1 + 511 + 2 + 15);
}

fn lengths(cases: &mut Cases) {
    let bytes = hex(TABLE_B);
    let list: Vec<u16> = bytes.iter().map(|&byte| byte as u16).collect();
    let mut zero_after = list.clone();
    zero_after.push(0);
    cases.write(&zero_after, 16, WORK, (6, 16));
    cases.check(&zero_after, (6, 16));
    for out_len in [0, 1, 16, 16_383, 16_385] {
        cases.read(&bytes, out_len, WORK, (1, 0));
    }
    for work_len in [0, 1, 8_191, 8_193] {
        cases.read(&bytes, READ_OUTPUT, work_len, (1, 0));
        cases.read(&[], READ_OUTPUT, work_len, (1, 0));
        cases.write(&list, 16, work_len, (1, 0));
        cases.write(&[], 16, work_len, (1, 0));
    }
    for out_len in [0, 1, 15] {
        cases.write(&list, out_len, WORK, (1, 0));
    }
    for out_len in [16, 17, 8_192, 16_384, 16_385] {
        cases.write(&list, out_len, WORK, (0, 16));
    }
    // a table's refusal comes before the short output
    cases.write(&[], 0, WORK, (3, 0));
    cases.write(&[0], 0, WORK, (5, 0));
    cases.write(&zero_after, 0, WORK, (6, 16));
}

fn drawings(cases: &mut Cases) {
    cases.stands(&[TABLE_B], 3);
    // K4 to K12
    cases.stands(&[TWO_SETS, "01 00 02 00 01"], 2);
    cases.stands(&[THREE_SETS, "01 00 04 02 00 01"], 3);
    cases.stands(&[TWO_SETS, "01 00 03 01 02 00 00"], 4);
    cases.stands(&[TWO_SETS, "01 00 03 02 00 00 02 00 02 01 00"], 6);
    cases.stands(&[THREE_SETS, "01 00 04 02 02 00 00 02 00 00"], 5);
    cases.stands(&[THREE_SETS, "01 00 04 00 02 00 00 02 00 00"], 5);
    cases.stands(&[THREE_SETS, "01 00 04 02 02 00 01 02 01 00"], 5);
    cases.stands(&["03 02 00 02 00 01 01 01 01 01 00 00 01 00 02 00 02 01 00 00"], 3);
    // "a body nested 32 deep is read, 33 deep is 5; 256 openings stand, 257 is 9"
    cases.stands(&[ONE_SET, "01 00", &nested(31)], 32);
    cases.refused(&[ONE_SET, "01 00", &nested(32)], 5, 71);
    cases.stands(&[ONE_SET, "01 00", &chosen(256, "00")], 511);
    cases.refused(&[ONE_SET, "01 00", &chosen(257, "00")], 9, 0);
    // tables whose residuals tell wrong monitors apart
    cases.stands(&["03 02 00 02 00 01 00 00 01 00 04 01 02 00 00 02 00 00"], 5);
    cases.stands(
        &[
            "03 03 00 02 00 01 01 01 01 01 00 00 00 01 01",
            "01 00 02 00 04 01 00 02 02 02 02 00 02 02 00",
        ],
        7,
    );
    cases.stands(&["03 02 00 01 00 00 00 02 00 02 00 05 00 01 04 01 05 00 05 00"], 5);
}

// A = 64 and 64 sets of 64 full rows: 266,309 numbers with a body of one. Too long for the data
// file.
pub fn full_table(body: Term) -> Vec<u16> {
    let rows = vec![(0..64).collect::<Row>(); 64];
    let sets = vec![Set::Rows(rows); 64];
    Table { alphabet: 64, sets, definitions: vec![definition(0, body)] }.list()
}

// The bytes of the same.
pub fn full_table_bytes(body: Term) -> Vec<u8> {
    bytes_of_list(&full_table(body))
}

#[cfg(test)]
mod tests {
    use super::*;
    use crate::operations::{check, read, write};
    use crate::refusal::Refusal;

    #[test]
    fn answers_worked_by_hand() {
        for group in groups() {
            for case in &group.cases {
                let given = case.given();
                assert_eq!(case.known_numbers(), Some([given[0], given[1]]), "{}", group.name);
            }
        }
    }

    // places are not 16 bits wide, and on a list 3 to 9 come before 2
    #[test]
    fn lists_above_65_535() {
        let stop = full_table(Term::Stop);
        assert_eq!(stop.len(), 266_309);
        assert_eq!(check(&stop), Err(Refusal { number: 2, place: 0 }));
        let call = full_table(Term::Call(9));
        assert_eq!(check(&call), Err(Refusal { number: 7, place: 266_309 }));
        assert_eq!(write(&call, 0, WORK).answer, Err(Refusal { number: 7, place: 266_309 }));
        let bytes = full_table_bytes(Term::Call(9));
        assert_eq!(read(&bytes, READ_OUTPUT, WORK).answer, Err(Refusal { number: 2, place: 0 }));
        let mut more = stop.clone();
        more.resize(300_000, 7);
        assert_eq!(check(&more), Err(Refusal { number: 6, place: 266_309 }));
        let cut = &stop[..stop.len() - 1];
        assert_eq!(check(cut), Err(Refusal { number: 3, place: 266_308 }));
        let mut wrong = stop.clone();
        wrong[266_308] = 6;
        assert_eq!(check(&wrong), Err(Refusal { number: 5, place: 266_308 }));
    }

    #[test]
    fn output_and_work() {
        let bytes = hex(TABLE_B);
        let list: Vec<u16> = bytes.iter().map(|&byte| byte as u16).collect();
        let done = read(&bytes, READ_OUTPUT, WORK);
        assert_eq!(done.output[..16], list[..]);
        assert!(done.output.len() == READ_OUTPUT && done.output[16..].iter().all(|&n| n == 0));
        assert!(!done.work_kept);
        let refused = read(&bytes[..15], READ_OUTPUT, WORK);
        assert_eq!(refused.output, vec![0; READ_OUTPUT]);
        assert!(!refused.work_kept);
        let wrong = read(&bytes, 5, WORK);
        assert!(wrong.output.is_empty() && wrong.work_kept);
        let short = write(&list, 15, WORK);
        assert!(short.output.is_empty() && !short.work_kept);
        assert_eq!(write(&list, 16, WORK).output, bytes);
        assert!(write(&list, 16, 5).work_kept);
    }
}
