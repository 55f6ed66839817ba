// The program and its line (01, "The program and its lines"): "a number, that many table bytes,
// then events, one byte each. 256 slots."
//     line        what the program prints
//     peak        the record's peak after the events taken, which the line does not have
//     trace       what the program that prints a line for each event prints

use super::operations::{open, take, Answer, MOST_AREA};
use super::residual::{after_all, resolve_last, Residuals, SLOT};
use super::state::Record;
use super::terms::Terms;
use crate::numbers::{number_at, Reading};
use crate::operations::{read, table_of_list, READ_OUTPUT, WORK};
use crate::refusal::*;
use crate::table::MOST_BYTES;

pub fn line(input: &[u8]) -> String {
    line_lent(input, MOST_AREA)
}

// The same with areas of so many words, which is no matter of the program.
pub fn line_lent(input: &[u8], area_len: usize) -> String {
    match judged(input, area_len) {
        Ok(line) => line,
        Err(Refusal { number, place }) => format!("refused {number} {place}"),
    }
}

// The table's bytes and the events. "The length number uses 3 and 4 with place 0; a length over
// 16,384 is 2; input ending within the table is 3, at the number of table bytes there; all before
// Read."
pub fn parts(input: &[u8]) -> Result<(&[u8], &[u8]), Refusal> {
    let (length, first) = match number_at(input, 0) {
        Reading::Truncated => return refuse(TRUNCATED, 0),
        Reading::Malformed => return refuse(MALFORMED, 0),
        Reading::Number { value, next } => (value as usize, next),
    };
    if length > MOST_BYTES {
        return refuse(TOO_LONG, 0);
    }
    let rest = &input[first..];
    if rest.len() < length {
        return refuse(TRUNCATED, rest.len());
    }
    Ok(rest.split_at(length))
}

// None where no monitor was opened.
pub fn peak(input: &[u8]) -> Option<u64> {
    let answer = fed(input, MOST_AREA).ok()?;
    answer.record.map(|record| record.peak)
}

// What Open answers with the input's events, or a refusal before it.
fn fed(input: &[u8], area_len: usize) -> Result<Answer, Refusal> {
    let (bytes, events) = parts(input)?;
    let table = read(bytes, READ_OUTPUT, WORK);
    let list = &table.output[..table.answer?];
    let areas = [vec![0; area_len], vec![0; area_len]];
    Ok(open(list, &areas, events, WORK).answer)
}

fn judged(input: &[u8], area_len: usize) -> Result<String, Refusal> {
    let answer = fed(input, area_len)?;
    if let Some(refusal) = answer.refusal {
        return Err(refusal);
    }
    let record = answer.record.expect("a record without a refusal");
    Ok(match record.failed {
        Some(place) => format!("failed {place} {}", record.taken),
        None => format!("running {} {}", record.taken, record.count),
    })
}

// The lines of an input: `start - ..`, then `event EVENT ..` after each event, with the events
// taken, the verdict with its place (0 while running), the residuals, the peak and the events
// permitted next, by Offer's words; a refusal is the last.
pub fn trace(input: &[u8]) -> String {
    let mut lines = String::new();
    if let Err(Refusal { number, place }) = traced(input, &mut lines) {
        lines += &format!("refused {number} {place}\n");
    }
    lines
}

// The table is judged once, and each event is taken as Feed takes it.
fn traced(input: &[u8], lines: &mut String) -> Result<(), Refusal> {
    let (bytes, events) = parts(input)?;
    let table = read(bytes, READ_OUTPUT, WORK);
    let list = &table.output[..table.answer?];
    let fresh = [vec![0; MOST_AREA], vec![0; MOST_AREA]];
    let opened = open(list, &fresh, &[], WORK).answer;
    if let Some(refusal) = opened.refusal {
        return Err(refusal);
    }
    let mut record = opened.record.expect("a record without a refusal");
    let terms = Terms::of(&table_of_list(list)?);
    let mut residuals = resolve_last(&terms);
    *lines += &format!("start - {}\n", shown(&terms, record, &residuals));
    for (place, &event) in events.iter().enumerate() {
        let taken = take(&terms, record, &residuals, event as u16, MOST_AREA / SLOT);
        (record, residuals) = taken.map_err(|number| Refusal { number, place })?;
        *lines += &format!("event {event} {}\n", shown(&terms, record, &residuals));
    }
    Ok(())
}

// What a line shows: "bit e is set exactly when the residuals after e, crowded or not, are not
// empty".
fn shown(terms: &Terms, record: Record, residuals: &Residuals) -> String {
    let Record { taken, count, peak, failed } = record;
    let verdict = match failed {
        Some(place) => format!("failed {place}"),
        None => "running 0".to_string(),
    };
    let goes_on = |event: &u16| !after_all(terms, residuals, *event, MOST_AREA / SLOT).is_none();
    let permitted = (0..terms.alphabet).filter(goes_on);
    let permitted: String = permitted.map(|event| format!(" {event}")).collect();
    format!("{taken} {verdict} {count} {peak}{permitted}")
}
