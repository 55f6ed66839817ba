// A monitor in plain Rust, as one writes it for speed: the same operations, records and areas as
// document 01 has them, the table judged into an index in the work area once in each call, rows as
// masks, no heap.
//     parse       the list to the index: refusals 3, 5 and 6
//     judge       refusals 7, 8, 9 and 2
//     index       what the index has
//     state       refusal 10
//     slots       slots in an area, ascending
//     step        from one set of residuals to the next
// Two more are plain but for how they go through a call's events:
//     Once        settles each follower once in a call
//     automaton   looks up what becomes of a set of residuals that was met in the call

mod automaton;
mod index;
mod judge;
mod parse;
mod slots;
mod state;
mod step;

use crate::monitor::*;
use index::Index;
use slots::Slots;
use step::{resolve, Scratch, Step};

// How the events of a call are gone through: of an index, from a record and its areas.
type Run = fn(Index, Record, &mut [u64], &mut [u64], &[u8]) -> Answer;

pub struct Plain;

impl Monitor for Plain {
    fn name(&self) -> &str {
        "plain"
    }

    fn open(&self, list: &[u16], lent: Lent, events: &[u8]) -> Answer {
        open(list, lent, events, fed)
    }

    fn feed(&self, list: &[u16], record: Record, lent: Lent, events: &[u8]) -> Answer {
        feed(list, record, lent, events, fed)
    }
}

pub struct Once;

impl Monitor for Once {
    fn name(&self) -> &str {
        "once"
    }

    fn open(&self, list: &[u16], lent: Lent, events: &[u8]) -> Answer {
        open(list, lent, events, fed_once)
    }

    fn feed(&self, list: &[u16], record: Record, lent: Lent, events: &[u8]) -> Answer {
        feed(list, record, lent, events, fed_once)
    }
}

pub struct Automaton;

impl Monitor for Automaton {
    fn name(&self) -> &str {
        "automaton"
    }

    fn open(&self, list: &[u16], lent: Lent, events: &[u8]) -> Answer {
        open(list, lent, events, automaton::fed)
    }

    fn feed(&self, list: &[u16], record: Record, lent: Lent, events: &[u8]) -> Answer {
        feed(list, record, lent, events, automaton::fed)
    }
}

fn refusal(number: u8, place: usize) -> Refusal {
    Refusal { number, place }
}

// Refusal 1: of the lengths of the areas, and the work area.
fn measured(a: usize, b: usize, work: &mut [u64]) -> Option<&mut [u64; WORK]> {
    let fits = a == b && a % SLOT == 0 && (SLOT..=MOST_AREA).contains(&a);
    work.try_into().ok().filter(|_| fits)
}

fn open(list: &[u16], Lent { area0, area1, work }: Lent, events: &[u8], run: Run) -> Answer {
    let Some(work) = measured(area0.len(), area1.len(), work) else {
        return Answer::Refused(refusal(1, 0));
    };
    let answer = match judge::judge(list, work) {
        Err(refusal) => Answer::Refused(refusal),
        Ok(()) => {
            let index = Index::of(work);
            match settled(index, area0, area1) {
                Some(record) => run(index, record, area0, area1, events),
                None => Answer::Refused(refusal(13, 0)),
            }
        }
    };
    work.fill(0);
    answer
}

// The residuals of the last definition into area 0; none where they exceed its slots.
fn settled(index: Index, area0: &mut [u64], area1: &mut [u64]) -> Option<Record> {
    area0.fill(0);
    area1.fill(0);
    let body = index.body(index.definitions() - 1);
    let mut slots = Slots::of(area0);
    for i in 0..index.branches(body) {
        let mut slot = [0; SLOT];
        slot[0] = resolve(index, body, 0, i, &mut slot, 1) as u64 - 1;
        if !slots.insert(&slot) {
            area0.fill(0);
            return None;
        }
    }
    let count = slots.count as u64;
    Some(Record { taken: 0, count, peak: count, failed: (count == 0).then_some(0) })
}

fn feed(list: &[u16], record: Record, lent: Lent, events: &[u8], run: Run) -> Answer {
    let Lent { area0, area1, work } = lent;
    let Some(work) = measured(area0.len(), area1.len(), work) else {
        return Answer::Refused(refusal(1, 0));
    };
    let answer = match judge::judge(list, work) {
        Err(refusal) => Answer::Refused(refusal),
        Ok(()) => {
            let index = Index::of(work);
            if state::agrees(index, record, area0, area1) {
                run(index, record, area0, area1, events)
            } else {
                Answer::Refused(refusal(10, 0))
            }
        }
    };
    work.fill(0);
    answer
}

// Event by event.
fn fed(
    index: Index,
    record: Record,
    area0: &mut [u64],
    area1: &mut [u64],
    events: &[u8],
) -> Answer {
    fed_with(index, record, area0, area1, events, &mut Scratch::new())
}

// The same, with the results of followers kept from event to event.
fn fed_once(
    index: Index,
    record: Record,
    area0: &mut [u64],
    area1: &mut [u64],
    events: &[u8],
) -> Answer {
    fed_with(index, record, area0, area1, events, &mut Scratch::keeping())
}

// 11, 12, 13.
fn fed_with(
    index: Index,
    mut record: Record,
    area0: &mut [u64],
    area1: &mut [u64],
    events: &[u8],
    scratch: &mut Scratch,
) -> Answer {
    let alphabet = index.alphabet();
    let (mut present, mut other) =
        if record.taken % 2 == 0 { (area0, area1) } else { (area1, area0) };
    for (place, &event) in events.iter().enumerate() {
        if event as u64 >= alphabet {
            return Answer::Stopped(refusal(11, place), record);
        }
        if record.taken == u64::MAX {
            return Answer::Stopped(refusal(12, place), record);
        }
        let used = record.count as usize * SLOT;
        let slots = Slots::of(other);
        let mut step = Step { index, event: event as u64, slots, scratch };
        let fits = step.all(&present[..used]);
        let count = step.slots.count;
        if !fits {
            clear(other, count);
            return Answer::Stopped(refusal(13, place), record);
        }
        record = after(record, count as u64);
        clear(present, used / SLOT);
        std::mem::swap(&mut present, &mut other);
    }
    Answer::Given(record)
}

// The record after an event, with so many residuals.
fn after(mut record: Record, count: u64) -> Record {
    record.taken += 1;
    record.count = count;
    record.peak = record.peak.max(count);
    if count == 0 && record.failed.is_none() {
        record.failed = Some(record.taken);
    }
    record
}

// Zeroes so many slots.
fn clear(area: &mut [u64], count: usize) {
    for slot in area.chunks_exact_mut(SLOT).take(count) {
        slot.copy_from_slice(&[0; SLOT]);
    }
}
