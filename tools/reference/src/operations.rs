// Read, Write and the check of a number list (01, "Operations", "When the monitor declines").
//     Outcome     the answer, and what stands in the output and the work area afterwards

use crate::judge::*;
use crate::numbers::bytes_of_list;
use crate::reader::*;
use crate::refusal::*;
use crate::table::*;

pub const READ_OUTPUT: usize = 16_384;
pub const WORK: usize = 8_192;

// A count, or a refusal.
pub type Answer = Result<usize, Refusal>;

#[derive(Clone, Debug, PartialEq, Eq)]
pub struct Outcome<T> {
    pub answer: Answer,
    // What the output begins with; what comes after it is kept.
    pub output: Vec<T>,
    // The work area as it was; otherwise it is all zero.
    pub work_kept: bool,
}

fn outcome<T>(answer: Answer, output: Vec<T>) -> Outcome<T> {
    Outcome { answer, output, work_kept: false }
}

fn wrong_length<T>() -> Outcome<T> {
    Outcome { work_kept: true, ..outcome(refuse(WRONG_LENGTH, 0), Vec::new()) }
}

// "6; 7 from the left; 8; 9" after 3 to 5.
fn judge(source: impl Source) -> Result<Table, Refusal> {
    let Placed { table, places } = read_table(source)?;
    if let Some(at) = wrong_reference(&table) {
        return refuse(WRONG_REFERENCE, places[at]);
    }
    if let Some(level) = wide_level(&table) {
        return refuse(TOO_WIDE, level);
    }
    if let Some(term) = branching_term(&table) {
        return refuse(TOO_MANY_BRANCHES, term);
    }
    Ok(table)
}

// The table of these bytes: 2 first.
pub fn table_of_bytes(bytes: &[u8]) -> Result<Table, Refusal> {
    if bytes.len() > MOST_BYTES {
        return refuse(TOO_LONG, 0);
    }
    judge(Bytes::new(bytes))
}

// The table of this list: 2 "right after 9".
pub fn table_of_list(list: &[u16]) -> Result<Table, Refusal> {
    let table = judge(List::new(list))?;
    if bytes_of_list(list).len() > MOST_BYTES {
        return refuse(TOO_LONG, 0);
    }
    Ok(table)
}

// Read: the table's numbers, zeros after; zeros alone on 2 to 9.
pub fn read(bytes: &[u8], out_len: usize, work_len: usize) -> Outcome<u16> {
    if out_len != READ_OUTPUT || work_len != WORK {
        return wrong_length();
    }
    let mut output = vec![0; READ_OUTPUT];
    match table_of_bytes(bytes) {
        Err(refusal) => outcome(Err(refusal), output),
        Ok(table) => {
            let list = table.list();
            output[..list.len()].copy_from_slice(&list);
            outcome(Ok(list.len()), output)
        }
    }
}

// Write: the table's bytes. "Write's short output is 1, last of all", with the work area zero.
pub fn write(list: &[u16], out_len: usize, work_len: usize) -> Outcome<u8> {
    if work_len != WORK {
        return wrong_length();
    }
    if let Err(refusal) = table_of_list(list) {
        return outcome(Err(refusal), Vec::new());
    }
    let bytes = bytes_of_list(list);
    if out_len < bytes.len() {
        return outcome(refuse(WRONG_LENGTH, 0), Vec::new());
    }
    outcome(Ok(bytes.len()), bytes)
}

// The check of a list: the number of the table's terms.
pub fn check(list: &[u16]) -> Answer {
    Ok(table_of_list(list)?.term_count())
}
