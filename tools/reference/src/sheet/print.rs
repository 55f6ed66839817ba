// The lines of a sheet. 02, W2: "each record on a line of 48 characters and line feed: lot in
// columns 1 to 10, taken 12 to 31, verdict word 33 to 39, place 41 to 48, numbers right aligned,
// words left, spaces elsewhere".
//     line, total_line     a record's line, and the last
//     sheet                what the operation answers, and what its output then begins with

use super::book::{records_of, Record, RUNNING};
use crate::refusal::*;

pub const LINE_BYTES: usize = 49;

// Columns are counted from 1.
fn put(line: &mut [u8], column: usize, text: &str) {
    line[column - 1..column - 1 + text.len()].copy_from_slice(text.as_bytes());
}

fn put_right(line: &mut [u8], last_column: usize, number: u64) {
    let text = number.to_string();
    put(line, last_column + 1 - text.len(), &text);
}

fn blank() -> Vec<u8> {
    [&[b' '; 48][..], b"\n"].concat()
}

pub fn line(record: &Record) -> Vec<u8> {
    let mut line = blank();
    put_right(&mut line, 10, record.lot);
    put_right(&mut line, 31, record.taken);
    put(&mut line, 33, if record.mark == RUNNING { "running" } else { "failed" });
    put_right(&mut line, 48, record.place);
    line
}

// "A last line, as long, has `TOTAL` in 1 to 5 and the sum of taken in 12 to 31"
pub fn total_line(total: u64) -> Vec<u8> {
    let mut line = blank();
    put(&mut line, 1, "TOTAL");
    put_right(&mut line, 31, total);
    line
}

// The answer, and what the output begins with: nothing on a refusal, and all after it is kept.
pub struct Outcome {
    pub answer: Result<usize, Refusal>,
    pub output: Vec<u8>,
}

fn lines(book: &[u8], out_len: usize) -> Result<Vec<u8>, Refusal> {
    // "Records are checked first to last, then the sum, then the output's length (1)"
    let records = records_of(book)?;
    let total: u128 = records.iter().map(|record| record.taken as u128).sum();
    let Ok(total) = u64::try_from(total) else {
        return refuse(TOTAL_TOO_LARGE, 0);
    };
    let mut lines: Vec<u8> = records.iter().flat_map(line).collect();
    lines.extend(total_line(total));
    if out_len < lines.len() {
        return refuse(WRONG_LENGTH, 0);
    }
    Ok(lines)
}

// "output after it is kept, the byte count given"; "a refusal writes nothing"
pub fn sheet(book: &[u8], out_len: usize) -> Outcome {
    match lines(book, out_len) {
        Ok(output) => Outcome { answer: Ok(output.len()), output },
        Err(refusal) => Outcome { answer: Err(refusal), output: Vec::new() },
    }
}
