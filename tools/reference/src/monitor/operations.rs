// Open (02, W7), Feed, Offer and View (01, "Operations", "When the monitor declines"; the record's
// peak: 02, W1) and Try (02, W4): for every input the whole outcome: the answer, both areas, and
// whether the work area is kept.
//     Answer      a record; a refusal; a refusal with a record
//     Outcome     an answer and what stands in the lent areas afterwards

use super::residual::*;
use super::state::*;
use super::terms::Terms;
use crate::operations::{table_of_list, WORK};
use crate::refusal::*;

pub const MOST_AREA: usize = 4_096;

#[derive(Clone, Copy, Debug, PartialEq, Eq)]
pub struct Answer {
    pub refusal: Option<Refusal>,
    pub record: Option<Record>,
}

#[derive(Clone, Debug, PartialEq, Eq)]
pub struct Outcome<T> {
    pub answer: T,
    pub areas: Areas,
    // The work area as it was; otherwise it is all zero.
    pub work_kept: bool,
}

// "Lent areas 0 and 1: u64 words, equal lengths, a multiple of 16 from 16 to 4,096. The work
// area .. is 8,192 u64 words"
pub(crate) fn measured(areas: &Areas, work_len: usize) -> bool {
    let length = areas[0].len();
    areas[1].len() == length
        && length % SLOT == 0
        && (SLOT..=MOST_AREA).contains(&length)
        && work_len == WORK
}

// Refusals 1 to 9.
fn judged(list: &[u16], areas: &Areas, work_len: usize) -> Result<Terms, Refusal> {
    if !measured(areas, work_len) {
        return refuse(WRONG_LENGTH, 0);
    }
    Ok(Terms::of(&table_of_list(list)?))
}

// Refusals 1 to 10: the terms, and the residuals held.
fn judged_state(
    list: &[u16],
    record: Record,
    areas: &Areas,
    work_len: usize,
) -> Result<(Terms, Residuals), Refusal> {
    let terms = judged(list, areas, work_len)?;
    match held(&terms, record, areas) {
        Some(residuals) => Ok((terms, residuals)),
        None => refuse(INCONSISTENT, 0),
    }
}

// "Refusals 1 to 10 return number and place only and keep areas"; the work area is kept on 1.
fn refused<T>(answer: T, refusal: Refusal, areas: &Areas) -> Outcome<T> {
    Outcome { answer, areas: areas.clone(), work_kept: refusal.number == WRONG_LENGTH }
}

fn refused_only(refusal: Refusal) -> Answer {
    Answer { refusal: Some(refusal), record: None }
}

// Open: "Start and the first Feed become one operation, Open, with a list of events"; "Start settles
// the last definition into area 0, zeroes area 1, taken 0."
pub fn open(list: &[u16], areas: &Areas, events: &[u8], work_len: usize) -> Outcome<Answer> {
    let terms = match judged(list, areas, work_len) {
        Ok(terms) => terms,
        Err(refusal) => return refused(refused_only(refusal), refusal, areas),
    };
    let length = areas[0].len();
    match Results::of(resolve_last(&terms), length / SLOT) {
        // "crowded while settling answers as Start's did": "Start crowded (place 0) zeroes both
        // areas and returns no record."
        Results::Many => Outcome {
            answer: refused_only(Refusal { number: CAPACITY_EXCEEDED, place: 0 }),
            areas: [vec![0; length], vec![0; length]],
            work_kept: false,
        },
        // "Refusals 11 to 13 during the list answer as Feed's"
        Results::Few(residuals) => {
            let failed = residuals.is_empty().then_some(0);
            let count = residuals.len() as u64;
            let record = Record { taken: 0, count, peak: count, failed };
            through(&terms, record, residuals, events, length)
        }
    }
}

// Feed: "per event 11, 12, 13"; what stands after the events taken.
pub fn feed(
    list: &[u16],
    record: Record,
    areas: &Areas,
    events: &[u8],
    work_len: usize,
) -> Outcome<Answer> {
    match judged_state(list, record, areas, work_len) {
        Ok((terms, residuals)) => through(&terms, record, residuals, events, areas[0].len()),
        Err(refusal) => refused(refused_only(refusal), refusal, areas),
    }
}

// The events from the first, until one is refused, on areas of that length.
fn through(
    terms: &Terms,
    mut record: Record,
    mut residuals: Residuals,
    events: &[u8],
    length: usize,
) -> Outcome<Answer> {
    let mut refusal = None;
    for (place, &event) in events.iter().enumerate() {
        match take(terms, record, &residuals, event as u16, length / SLOT) {
            Ok(next) => (record, residuals) = next,
            Err(number) => {
                refusal = Some(Refusal { number, place });
                break;
            }
        }
    }
    let mut areas = [vec![0; length], vec![0; length]];
    areas[record.present()] = area(&residuals, length);
    Outcome { answer: Answer { refusal, record: Some(record) }, areas, work_kept: false }
}

// One event: the record and the residuals after it, or the number of its refusal.
pub(crate) fn take(
    terms: &Terms,
    record: Record,
    residuals: &Residuals,
    event: u16,
    slots: usize,
) -> Result<(Record, Residuals), u8> {
    if event >= terms.alphabet {
        return Err(UNKNOWN_EVENT);
    }
    if record.taken == u64::MAX {
        return Err(COUNTER_FULL);
    }
    let taken = record.taken + 1;
    match after_all(terms, residuals, event, slots) {
        Results::Many => Err(CAPACITY_EXCEEDED),
        Results::Few(next) => {
            // "An empty set means failed, at taken with that event counted"; "Later events are
            // taken; the place stays."
            let failed = record.failed.or(next.is_empty().then_some(taken));
            let count = next.len() as u64;
            // "the largest residual count since Start, the present one included"
            let peak = record.peak.max(count);
            Ok((Record { taken, count, peak, failed }, next))
        }
    }
}

// Try: "takes what Feed takes and two further areas of the same length, and gives Feed's answer,
// refusals included. The further areas end as Feed would leave a copy of the first two, and the
// first two are kept. On refusals 1 to 10 the further areas are kept too." The areas of the outcome
// are the further ones.
pub fn try_feed(
    list: &[u16],
    record: Record,
    areas: &Areas,
    further: &Areas,
    events: &[u8],
    work_len: usize,
) -> Outcome<Answer> {
    if (0..2).any(|area| further[area].len() != areas[area].len()) {
        let refusal = Refusal { number: WRONG_LENGTH, place: 0 };
        return refused(refused_only(refusal), refusal, further);
    }
    let copy = areas.clone();
    let fed = feed(list, record, &copy, events, work_len);
    match fed.answer.refusal {
        Some(refusal) if refusal.number <= INCONSISTENT => {
            Outcome { areas: further.clone(), ..fed }
        }
        _ => fed,
    }
}

// 02, W6: "Offer gives two words, events 0 to 63 in the first"
pub type EventBits = [u64; 2];

// The word of an event, and its bit there.
fn bit_of(event: u16) -> (usize, u16) {
    (event as usize / 64, event % 64)
}

pub fn is_offered(bits: EventBits, event: u16) -> bool {
    let (word, bit) = bit_of(event);
    bits[word] >> bit & 1 == 1
}

// Offer: "bit e is set exactly when the residuals after e, crowded or not, are not empty; 0 after
// failure; areas kept"
pub fn offer(
    list: &[u16],
    record: Record,
    areas: &Areas,
    work_len: usize,
) -> Outcome<Result<EventBits, Refusal>> {
    let (terms, residuals) = match judged_state(list, record, areas, work_len) {
        Ok(judged) => judged,
        Err(refusal) => return refused(Err(refusal), refusal, areas),
    };
    let goes_on =
        |event: &u16| !after_all(&terms, &residuals, *event, MOST_AREA / SLOT).is_none();
    let mut bits = [0; 2];
    for (word, bit) in (0..terms.alphabet).filter(goes_on).map(bit_of) {
        bits[word] |= 1 << bit;
    }
    Outcome { answer: Ok(bits), areas: areas.clone(), work_kept: false }
}

// The area and the number of its first words that View hands back: "If count × 16 exceeds that
// area, or after failure, it is the empty beginning of area 0."
pub fn view(record: Record, lengths: [usize; 2]) -> (usize, usize) {
    let present = record.present();
    let words = record.count as u128 * SLOT as u128;
    if words > lengths[present] as u128 || record.failed.is_some() {
        return (0, 0);
    }
    (present, words as usize)
}
