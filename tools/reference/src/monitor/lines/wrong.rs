// Inputs whose stored answer is wrong on purpose in one number: a test program must find each
// wrong.

use super::{input_of, Case, RIGHT};
use crate::monitor::examples::{list_of, K7, K8};
use crate::numbers::bytes_of_list;
use crate::random::{beside, Random};
use crate::worked::{hex, TABLE_B};
use std::ops::Range;

fn input(parts: &[&str], events: &[u8]) -> Vec<u8> {
    input_of(&bytes_of_list(&list_of(parts)), events)
}

// One of each line, and of a refusal at each place: running, failed, a strange event, a refused
// table, a loose length.
fn inputs() -> [Vec<u8>; 5] {
    let mut over = hex(TABLE_B);
    over.push(0);
    [
        input(&[TABLE_B], &[0, 1, 0, 1, 0]),
        input(&[TABLE_B], &[0, 1, 0, 0, 1]),
        input(&[TABLE_B], &[0, 1, 0, 1, 3]),
        input_of(&over, &[0, 1]),
        hex("80 00"),
    ]
}

// Each number of the answer within these, stored otherwise.
fn wrong_in(cases: Vec<Case>, fields: Range<usize>) -> Vec<Case> {
    let mut wrong = Vec::new();
    for case in cases {
        let given = case.numbers(&case.line());
        for at in fields.clone() {
            let others = match at {
                0 | 3 => vec![(given[at] + 1) % 3, (given[at] + 2) % 3],
                6.. => vec![1 - given[at]],
                _ => beside(given[at]),
            };
            for other in others {
                wrong.push(Case { wrong: Some((at, other)), ..case.clone() });
            }
        }
    }
    wrong
}

// Each input, and one with a wrong length of what is lent.
fn cases(random: &mut Random) -> Vec<Case> {
    let mut cases = Vec::from(inputs().map(|input| Case::new(random, input)));
    for which in 0..4 {
        let mut lengths = RIGHT;
        lengths[which] -= 1;
        cases.push(Case { lengths, ..cases[0].clone() });
    }
    cases
}

pub fn wrong_at_once(random: &mut Random) -> Vec<Case> {
    wrong_in(cases(random), 0..3)
}

pub fn wrong_in_pieces(random: &mut Random) -> Vec<Case> {
    wrong_in(cases(random), 3..6)
}

pub fn wrong_kept(random: &mut Random) -> Vec<Case> {
    wrong_in(cases(random), 6..10)
}

// Also crowded at the start, and by an event.
pub fn wrong_fewer_slots(random: &mut Random) -> Vec<Case> {
    let mut inputs = Vec::from(inputs());
    inputs.push(input(&K7, &[0]));
    inputs.push(input(&K8, &[0]));
    let few = |input| Case { slots: 1, ..Case::new(random, input) };
    wrong_in(inputs.into_iter().map(few).collect(), 0..3)
}
