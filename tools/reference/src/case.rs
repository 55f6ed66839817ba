// One case of test data: a call and, where it is known beforehand, its answer.
//     Case, Group         a case, and cases that try the same thing
//     digest              one number for what stands in a buffer
//     all_of_fault, all_of_table      a fault or an accepted table as Read, Write and check

use crate::damage::Fault;
use crate::numbers::bytes_of_list;
use crate::operations::*;
use crate::random::Random;
use crate::refusal::*;
use crate::table::*;

#[derive(Clone, Debug)]
pub enum Call {
    Read { bytes: Vec<u8>, out_len: usize, work_len: usize },
    Write { list: Vec<u16>, out_len: usize, work_len: usize },
    Check { list: Vec<u16> },
}

#[derive(Clone, Debug)]
pub struct Case {
    pub call: Call,
    pub known: Option<(u8, usize)>,
    // a stored number that is wrong on purpose: its index, and what is stored
    pub wrong: Option<(usize, u64)>,
}

pub struct Group {
    pub name: &'static str,
    pub cases: Vec<Case>,
}

// What a digest of these becomes by each number after them, which is below 2^32.
pub fn digest(first: u64, numbers: impl IntoIterator<Item = u64>) -> u64 {
    numbers.into_iter().fold(first, |d, n| (d * 16_777_619 + n) % 4_294_967_291)
}

// An output as it was lent, but for what it begins with.
fn output<T: Into<u64> + Copy>(begins: &[T], length: usize, junk: fn(u64) -> u64) -> u64 {
    let rest = (begins.len()..length).map(|i| junk(i as u64));
    digest(1, begins.iter().map(|&n| n.into()).chain(rest))
}

// The work area: 0 if it is zero, 1 if it is kept, 2 if it holds an index.
const ZERO: u64 = 0;
const KEPT: u64 = 1;
const INDEX: u64 = 2;

impl Case {
    pub fn known(call: Call, answer: (u8, usize)) -> Self {
        Case { call, known: Some(answer), wrong: None }
    }

    pub fn unknown(call: Call) -> Self {
        Case { call, known: None, wrong: None }
    }

    pub fn known_numbers(&self) -> Option<[u64; 2]> {
        self.known.map(|(number, place)| [number as u64, place as u64])
    }

    // What is given by this implementation: NUMBER PLACE OUTPUT WORK, of the check
    // NUMBER PLACE WORK.
    pub fn given(&self) -> Vec<u64> {
        let numbers = |answer: Answer| match answer {
            Ok(count) => [0, count as u64],
            Err(refusal) => [refusal.number as u64, refusal.place as u64],
        };
        let work = |kept: bool| if kept { KEPT } else { ZERO };
        match &self.call {
            Call::Read { bytes, out_len, work_len } => {
                let Outcome { answer, output: begins, work_kept } =
                    read(bytes, *out_len, *work_len);
                let left = output(&begins, *out_len, |i| 65_535 - i % 16_411);
                [&numbers(answer)[..], &[left, work(work_kept)]].concat()
            }
            Call::Write { list, out_len, work_len } => {
                let Outcome { answer, output: begins, work_kept } =
                    write(list, *out_len, *work_len);
                let left = output(&begins, *out_len, |i| 255 - i % 251);
                [&numbers(answer)[..], &[left, work(work_kept)]].concat()
            }
            Call::Check { list } => {
                let answer = check(list);
                let left = if answer.is_ok() { INDEX } else { ZERO };
                [&numbers(answer)[..], &[left]].concat()
            }
        }
    }

    pub fn input_len(&self) -> usize {
        match &self.call {
            Call::Read { bytes, .. } => bytes.len(),
            Call::Write { list, .. } | Call::Check { list } => list.len(),
        }
    }

    pub fn line(&self, stored: &[u64]) -> String {
        let (head, input) = match &self.call {
            Call::Read { bytes, out_len, work_len } => {
                (format!("r {out_len} {work_len} :"), joined(bytes))
            }
            Call::Write { list, out_len, work_len } => {
                (format!("w {out_len} {work_len} :"), joined(list))
            }
            Call::Check { list } => ("c :".to_string(), joined(list)),
        };
        format!("{head}{input} ={}", joined(stored))
    }
}

// Each number with a space before it.
pub fn joined<T: std::fmt::Display>(numbers: &[T]) -> String {
    numbers.iter().map(|n| format!(" {n}")).collect()
}

// ---- cases of tables and faults

pub fn read_of(bytes: Vec<u8>) -> Call {
    Call::Read { bytes, out_len: READ_OUTPUT, work_len: WORK }
}

pub fn write_of(list: Vec<u16>) -> Call {
    Call::Write { list, out_len: READ_OUTPUT, work_len: WORK }
}

// The byte place of a list place.
pub fn byte_place(list: &[u16], place: usize) -> usize {
    bytes_of_list(&list[..place]).len()
}

// A fault as Read, Write and check.
pub fn all_of_fault(fault: &Fault) -> Vec<Case> {
    let (number, place) = (fault.number, fault.place);
    let in_list = (TRUNCATED..=WRONG_REFERENCE).contains(&number);
    let at = if in_list { byte_place(&fault.list, place) } else { place };
    vec![
        Case::known(read_of(bytes_of_list(&fault.list)), (number, at)),
        Case::known(write_of(fault.list.clone()), (number, place)),
        Case::known(Call::Check { list: fault.list.clone() }, (number, place)),
    ]
}

pub fn one_of_fault(random: &mut Random, fault: &Fault) -> Case {
    random.pick(&all_of_fault(fault)).clone()
}

// An accepted table as Read, Write and check.
pub fn all_of_table(table: &Table) -> Vec<Case> {
    let list = table.list();
    let bytes = bytes_of_list(&list);
    let (count, numbers) = (bytes.len(), list.len());
    vec![
        Case::known(read_of(bytes), (0, numbers)),
        Case::known(
            Call::Write { list: list.clone(), out_len: count, work_len: WORK },
            (0, count),
        ),
        Case::known(Call::Check { list }, (0, table.term_count())),
    ]
}

pub fn one_of_table(random: &mut Random, table: &Table) -> Case {
    random.pick(&all_of_table(table)).clone()
}
