// Cases whose stored answer is wrong on purpose in one number: a test program must find each wrong.

use crate::case::*;
use crate::generate::{small, SMALL};
use crate::numbers::bytes_of_list;
use crate::operations::{READ_OUTPUT, WORK};
use crate::random::{beside, Random};
use crate::worked::{hex, TABLE_B};

// The numbers of an answer, by their index; the check has no output.
#[derive(Clone, Copy, PartialEq, Eq)]
enum Field {
    Number,
    Place,
    Output,
    Work,
}

fn index(field: Field, call: &Call) -> Option<usize> {
    match (field, call) {
        (Field::Number, _) => Some(0),
        (Field::Place, _) => Some(1),
        (Field::Output, Call::Check { .. }) => None,
        (Field::Output, _) | (Field::Work, Call::Check { .. }) => Some(2),
        (Field::Work, _) => Some(3),
    }
}

// Each call with each kind of answer: a result; a wrong length, with the work area kept and, where
// only Write's output is short, zero; a table that is refused.
fn calls(bytes: &[u8]) -> Vec<Call> {
    let list: Vec<u16> = bytes.iter().map(|&byte| byte as u16).collect();
    let read = |kept: usize, out_len, work_len| Call::Read {
        bytes: bytes[..kept].to_vec(),
        out_len,
        work_len,
    };
    let write = |kept: usize, out_len, work_len| Call::Write {
        list: list[..kept].to_vec(),
        out_len,
        work_len,
    };
    let all = bytes.len();
    vec![
        read(all, READ_OUTPUT, WORK),
        read(all, READ_OUTPUT - 1, WORK),
        read(all, READ_OUTPUT, WORK + 1),
        read(all - 1, READ_OUTPUT, WORK),
        write(all, all, WORK),
        write(all, all + 20, WORK),
        write(all, all + 20, WORK - 1),
        write(all, all - 1, WORK),
        write(all - 1, all + 20, WORK),
        Call::Check { list: list.clone() },
        Call::Check { list: list[..all - 1].to_vec() },
    ]
}

// What may be stored in place of a number.
fn others(field: Field, given: u64) -> Vec<u64> {
    match (field, given) {
        // a result as a refusal; a refusal as another, and as a result
        (Field::Number, 0) => vec![1, 5],
        (Field::Number, _) => vec![0, given + 1],
        (Field::Place | Field::Output, _) => beside(given),
        // a work area that is kept is also one that is not zero
        (Field::Work, 0) => vec![1, 2],
        (Field::Work, 1) => vec![0],
        (Field::Work, _) => vec![0, 1],
    }
}

fn wrong_in(random: &mut Random, field: Field) -> Vec<Case> {
    let tables = [hex(TABLE_B), bytes_of_list(&small(random, SMALL).list())];
    let mut cases = Vec::new();
    for call in tables.iter().flat_map(|bytes| calls(bytes)) {
        let Some(at) = index(field, &call) else { continue };
        let case = Case::unknown(call);
        for other in others(field, case.given()[at]) {
            cases.push(Case { wrong: Some((at, other)), ..case.clone() });
        }
    }
    cases
}

pub fn wrong_number(random: &mut Random) -> Vec<Case> {
    wrong_in(random, Field::Number)
}

pub fn wrong_place(random: &mut Random) -> Vec<Case> {
    wrong_in(random, Field::Place)
}

pub fn wrong_output(random: &mut Random) -> Vec<Case> {
    wrong_in(random, Field::Output)
}

pub fn wrong_work(random: &mut Random) -> Vec<Case> {
    wrong_in(random, Field::Work)
}
