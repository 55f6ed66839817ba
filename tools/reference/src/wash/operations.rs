// Feed in wash hours (02, W5): for every input the whole outcome: the answer, both areas, and
// whether the work area is kept.
//     Timed       not started; or a record and the last event's minute
//     Lent        the two tables and the timetable
//     Answer      a state; a refusal; a refusal with a state

use super::timetable::*;
use crate::monitor::operations::{measured, take, Outcome};
use crate::monitor::residual::*;
use crate::monitor::state::*;
use crate::monitor::terms::Terms;
use crate::operations::table_of_list;
use crate::refusal::*;

#[derive(Clone, Copy, Debug, PartialEq, Eq)]
pub enum Timed {
    NotStarted,
    Started { record: Record, minute: u64 },
}

#[derive(Clone, Debug, PartialEq, Eq)]
pub struct Lent {
    pub everyday: Vec<u16>,
    pub wash: Vec<u16>,
    pub windows: Vec<u16>,
}

#[derive(Clone, Copy, Debug, PartialEq, Eq)]
pub struct Answer {
    pub refusal: Option<Refusal>,
    pub state: Option<Timed>,
}

// Both tables' terms, and the timetable.
struct Drawings<'a> {
    everyday: Terms,
    wash: Terms,
    windows: &'a [u16],
}

impl Drawings<'_> {
    fn in_force(&self, minute: u64) -> &Terms {
        match in_force(self.windows, minute) {
            Drawing::Everyday => &self.everyday,
            Drawing::Wash => &self.wash,
        }
    }
}

// "16 bad timetable, after both tables, the everyday one first"
fn judged(lent: &Lent) -> Result<Drawings<'_>, Refusal> {
    let everyday = Terms::of(&table_of_list(&lent.everyday)?);
    let wash = Terms::of(&table_of_list(&lent.wash)?);
    if !good(&lent.windows) {
        return refuse(BAD_TIMETABLE, 0);
    }
    Ok(Drawings { everyday, wash, windows: &lent.windows })
}

// "10 (read on the drawing in force at the last event's minute; before the first event, only zero
// areas)": the residuals held.
fn standing(drawings: &Drawings, state: Timed, areas: &Areas) -> Result<Residuals, Refusal> {
    let held = match state {
        Timed::NotStarted => {
            let zero = areas.iter().flatten().all(|&word| word == 0);
            zero.then(Residuals::new)
        }
        Timed::Started { record, minute } => held(drawings.in_force(minute), record, areas),
    };
    held.map_or(refuse(INCONSISTENT, 0), Ok)
}

// The record and residuals of a start on a drawing: "taken 0"; none if it is crowded.
fn fresh(terms: &Terms, slots: usize) -> Option<(Record, Residuals)> {
    let residuals = resolve_last(terms);
    let count = residuals.len() as u64;
    let failed = residuals.is_empty().then_some(0);
    let record = Record { taken: 0, count, peak: count, failed };
    (residuals.len() <= slots).then_some((record, residuals))
}

// One event: the state and the residuals after it, or the number of its refusal.
fn take_timed(
    drawings: &Drawings,
    state: Timed,
    residuals: &Residuals,
    (event, minute): (u8, u64),
    slots: usize,
) -> Result<(Timed, Residuals), u8> {
    // "17 clock back, a minute below the last or 2^48 or more, checked before crowded settling"
    let below = matches!(state, Timed::Started { minute: last, .. } if minute < last);
    if below || minute >= MINUTES {
        return Err(CLOCK_BACK);
    }
    let terms = drawings.in_force(minute);
    // "The monitor starts with its first event"; "starts afresh .. on the drawing now in force"
    let starts = match state {
        Timed::NotStarted => true,
        Timed::Started { minute: last, .. } => changes(drawings.windows, last, minute),
    };
    let (record, residuals) = match state {
        Timed::Started { record, .. } if !starts => (record, residuals.clone()),
        _ => fresh(terms, slots).ok_or(CAPACITY_EXCEEDED)?,
    };
    // "Crowded settling, then 11 to 13, are met on the drawing and count so reached"
    let (record, residuals) = take(terms, record, &residuals, event as u16, slots)?;
    Ok((Timed::Started { record, minute }, residuals))
}

// The areas of a state that holds these residuals.
fn areas_of(state: Timed, residuals: &Residuals, length: usize) -> Areas {
    let mut areas = [vec![0; length], vec![0; length]];
    if let Timed::Started { record, .. } = state {
        areas[record.present()] = area(residuals, length);
    }
    areas
}

pub fn timed_feed(
    lent: &Lent,
    state: Timed,
    areas: &Areas,
    events: &[u8],
    minutes: &[u64],
    work_len: usize,
) -> Outcome<Answer> {
    // "16 and later numbers but 17 return and keep what 10 does"; the work area is kept on 1
    let refused = |refusal: Refusal| Outcome {
        answer: Answer { refusal: Some(refusal), state: None },
        areas: areas.clone(),
        work_kept: refusal.number == WRONG_LENGTH,
    };
    if !measured(areas, work_len) || events.len() != minutes.len() {
        return refused(Refusal { number: WRONG_LENGTH, place: 0 });
    }
    let drawings = match judged(lent) {
        Ok(drawings) => drawings,
        Err(refusal) => return refused(refusal),
    };
    let mut residuals = match standing(&drawings, state, areas) {
        Ok(residuals) => residuals,
        Err(refusal) => return refused(refusal),
    };
    let length = areas[0].len();
    let mut state = state;
    let mut refusal = None;
    for (place, event) in events.iter().copied().zip(minutes.iter().copied()).enumerate() {
        match take_timed(&drawings, state, &residuals, event, length / SLOT) {
            Ok(next) => (state, residuals) = next,
            // "both placed and answered like 11"; "a refused event restores all of before"
            Err(number) => {
                refusal = Some(Refusal { number, place });
                break;
            }
        }
    }
    let answer = Answer { refusal, state: Some(state) };
    Outcome { answer, areas: areas_of(state, &residuals, length), work_kept: false }
}
