// The record's peak (02, W1): "the largest residual count since Start, the present one included".
//     worked_peaks            worked by hand
//     peaks ..                histories, whose peak is known from the events that were joined
//     peak_below_count ..     given states whose peak is wrong, alone and beside other faults
//     odd_peaks               given states whose peak no history has, and that stand

use super::damaged::*;
use super::walks::*;
use crate::monitor::examples::*;
use crate::monitor::history::{Fill, History};
use crate::monitor::residual::*;
use crate::monitor::state::Record;
use crate::monitor::tables;
use crate::monitor::terms::Terms;
use crate::operations::WORK;
use crate::random::Random;
use crate::refusal::*;
use crate::worked::*;

const LAST: u64 = u64::MAX;

// ---- worked by hand

// Events of a call; its refusal's number and place, or 0 0; and the record after it: taken,
// count, peak, the place of failure.
type Call<'a> = (&'a [u8], (u8, usize), (u64, u64, u64, Option<u64>));

fn calls(history: &mut History, calls: &[Call]) {
    for &(events, (number, place), (taken, count, peak, failed)) in calls {
        history.feed(events);
        history.known(number, place);
        history.known_record(taken, count, peak, failed);
    }
}

fn fresh(history: &mut History, parts: &[&str], slots: usize, count: u64, failed: Option<u64>) {
    history.begin(&list_of(parts), slots);
    history.open(&[]);
    history.known_record(0, count, count, failed);
}

pub fn worked_peaks(history: &mut History) {
    worked_histories(history);
    worked_crowded(history);
    worked_given(history);
    worked_failed(history);
    worked_order(history);
}

fn worked_histories(history: &mut History) {
    // table B holds one residual, and after failure none
    fresh(history, &[TABLE_B], 2, 1, None);
    calls(
        history,
        &[
            (&[0], (0, 0), (1, 1, 1, None)),
            (&[], (0, 0), (1, 1, 1, None)),
            (&[1, 0], (0, 0), (3, 1, 1, None)),
            (&[0], (0, 0), (4, 0, 1, Some(4))),
            (&[1, 1, 1], (0, 0), (7, 0, 1, Some(4))),
        ],
    );
    // STOP beside FAIL: failed before any event, so that the peak is 0 and stays
    fresh(history, &[THREE_SETS, "01 00 04 02 00 01"], 1, 0, Some(0));
    calls(history, &[(&[0, 1], (0, 0), (2, 0, 0, Some(0))), (&[3], (11, 0), (2, 0, 0, Some(0)))]);
    // K7: two prefixes at the start count, though one residual is held later, or none
    fresh(history, &K7, 2, 2, None);
    calls(
        history,
        &[
            (&[0], (0, 0), (1, 2, 2, None)),
            (&[1], (0, 0), (2, 1, 2, None)),
            (&[], (0, 0), (2, 1, 2, None)),
            (&[9], (11, 0), (2, 1, 2, None)),
            (&[0], (0, 0), (3, 0, 2, Some(3))),
            (&[0, 1], (0, 0), (5, 0, 2, Some(3))),
            (&[1, 3], (11, 1), (6, 0, 2, Some(3))),
        ],
    );
    // K8: two after 0, one after 0,0; "since Start": an Open begins again
    fresh(history, &K8, 2, 1, None);
    calls(history, &[(&[0], (0, 0), (1, 2, 2, None)), (&[0], (0, 0), (2, 1, 2, None))]);
    history.open(&[]);
    history.known_record(0, 1, 1, None);
    // within one call the counts between its events count too
    calls(history, &[(&[0, 0], (0, 0), (2, 1, 2, None)), (&[0], (0, 0), (3, 0, 2, Some(3)))]);
    history.open(&[]);
    calls(history, &[(&[0, 0, 0, 0], (0, 0), (4, 0, 2, Some(3)))]);
    // fewer slots than the peak are lent from then on, though the count fits
    fresh(history, &K8, 2, 1, None);
    calls(history, &[(&[0, 0], (0, 0), (2, 1, 2, None))]);
    history.lend(16, 16, Fill::Kept);
    history.feed(&[]);
    history.known(INCONSISTENT, 0);
    history.offer();
    history.known(INCONSISTENT, 0);
    history.lend(32, 32, Fill::Kept);
    calls(history, &[(&[], (0, 0), (2, 1, 2, None))]);
    // 256 slots, all of them held at the start
    let all = chosen(256, "00");
    fresh(history, &[ONE_SET, "01 00", &all], 256, 256, None);
    calls(history, &[(&[0, 0], (0, 0), (2, 0, 256, Some(1)))]);
}

// A crowded event is not taken, and its residuals do not count.
fn worked_crowded(history: &mut History) {
    fresh(history, &K8, 1, 1, None);
    calls(
        history,
        &[
            (&[0], (13, 0), (0, 1, 1, None)),
            (&[0, 0], (13, 0), (0, 1, 1, None)),
            (&[1], (0, 0), (1, 0, 1, Some(1))),
            (&[0], (0, 0), (2, 0, 1, Some(1))),
        ],
    );
    // a to STOP, or to three of a to STOP side by side: 1, 2 after 0, 3 after 0,0 and 0,0,0, 1
    let grows = [THREE_SETS, "01 00 02 00 03 04 02 02 00 00 04 02 02 00 00 02 00 00 00"];
    fresh(history, &grows, 3, 1, None);
    calls(
        history,
        &[
            (&[0], (0, 0), (1, 2, 2, None)),
            (&[0], (0, 0), (2, 3, 3, None)),
            (&[0], (0, 0), (3, 3, 3, None)),
            (&[0], (0, 0), (4, 1, 3, None)),
            (&[0], (0, 0), (5, 0, 3, Some(5))),
        ],
    );
    fresh(history, &grows, 2, 1, None);
    calls(
        history,
        &[
            (&[0, 0, 0], (13, 1), (1, 2, 2, None)),
            (&[0], (13, 0), (1, 2, 2, None)),
            (&[], (0, 0), (1, 2, 2, None)),
            (&[1], (0, 0), (2, 0, 2, Some(2))),
        ],
    );
    fresh(history, &grows, 1, 1, None);
    calls(history, &[(&[0], (13, 0), (0, 1, 1, None)), (&[2, 5], (11, 1), (1, 0, 1, Some(1)))]);
    // 2 at the start and after 0, 1 after 0,1, then 3: the peak is above the count that was held
    let falls =
        [THREE_SETS, "01 00 03 02 00 00 02 00 02 01 04 02 02 00 00 04 02 02 00 00 02 00 00"];
    fresh(history, &falls, 2, 2, None);
    calls(
        history,
        &[
            (&[0, 1, 0], (13, 2), (2, 1, 2, None)),
            (&[0], (13, 0), (2, 1, 2, None)),
            (&[1], (0, 0), (3, 0, 2, Some(3))),
        ],
    );
    fresh(history, &falls, 4, 2, None);
    calls(
        history,
        &[
            (&[0, 1], (0, 0), (2, 1, 2, None)),
            (&[0, 0], (0, 0), (4, 3, 3, None)),
            (&[0, 7], (11, 1), (5, 1, 3, None)),
        ],
    );
    // the counter is full: 12 before 13, and the peak stays
    fresh(history, &grows, 3, 1, None);
    calls(history, &[(&[0], (0, 0), (1, 2, 2, None))]);
    history.set_record(Record { taken: LAST, ..history.record });
    calls(
        history,
        &[
            (&[0], (12, 0), (LAST, 2, 2, None)),
            (&[1], (12, 0), (LAST, 2, 2, None)),
            (&[3], (11, 0), (LAST, 2, 2, None)),
        ],
    );
}

// K7 at its start holds two: with four slots a peak of 2 to 4 stands.
fn worked_given(history: &mut History) {
    for peak in [2, 3, 4] {
        fresh(history, &K7, 4, 2, None);
        history.set_record(Record { peak, ..history.record });
        calls(history, &[(&[], (0, 0), (0, 2, peak, None))]);
        let bits = history.offer();
        history.known_true(bits == [1, 0], "event 0 alone is offered");
        let viewed = history.view();
        history.known_true(viewed == (0, 32), "two slots of area 0");
        calls(
            history,
            &[
                (&[0, 1], (0, 0), (2, 1, peak, None)),
                (&[4], (11, 0), (2, 1, peak, None)),
                (&[0, 0], (0, 0), (4, 0, peak, Some(3))),
            ],
        );
    }
    let wrong = [
        0,
        1,
        5,
        6,
        16,
        32,
        64,
        258,
        65_538,
        1 << 32,
        (1 << 32) + 2,
        1 << 60,
        (1 << 60) + 2,
        1 << 63,
        LAST - 1,
        LAST,
    ];
    for peak in wrong {
        fresh(history, &K7, 4, 2, None);
        history.set_record(Record { peak, ..history.record });
        // 10 comes before 11
        for events in [&[][..], &[0], &[3]] {
            history.feed(events);
            history.known(INCONSISTENT, 0);
        }
        history.offer();
        history.known(INCONSISTENT, 0);
        let viewed = history.view();
        history.known_true(viewed == (0, 32), "two slots of area 0");
        history.set_record(Record { peak: 2, ..history.record });
        calls(history, &[(&[0], (0, 0), (1, 2, 2, None))]);
    }
    // a peak given above the count grows when the count passes it, and not before
    for peak in [1, 2] {
        fresh(history, &K8, 2, 1, None);
        history.set_record(Record { peak, ..history.record });
        calls(
            history,
            &[
                (&[], (0, 0), (0, 1, peak, None)),
                (&[0], (0, 0), (1, 2, 2, None)),
                (&[0], (0, 0), (2, 1, 2, None)),
            ],
        );
    }
}

// After failure, too, the peak is at most the slots; nothing else is asked of it.
fn worked_failed(history: &mut History) {
    let mut at = |taken: u64, place: u64, peak: u64, known: u8| {
        history.table(&list_of(&[TABLE_B]));
        history.lend(32, 32, Fill::Zeros);
        history.set_record(Record { taken, count: 0, peak, failed: Some(place) });
        history.feed(&[]);
        history.known(known, 0);
        history.known_record(taken, 0, peak, Some(place));
        history.offer();
        history.known(known, 0);
        let viewed = history.view();
        history.known_true(viewed == (0, 0), "nothing is held");
        if taken < LAST && known == 0 {
            history.feed(&[0]);
            history.known_record(taken + 1, 0, peak, Some(place));
        }
    };
    for (taken, place) in [(0, 0), (3, 3), (3, 0), (5, 2), (LAST - 1, 7), (LAST, LAST)] {
        for peak in [0, 1, 2] {
            at(taken, place, peak, 0);
        }
        for peak in [3, 32, 1 << 32, 1 << 60, LAST] {
            at(taken, place, peak, INCONSISTENT);
        }
        // a place above taken as well
        if place < LAST {
            at(place, place + 1, 1, INCONSISTENT);
            at(place, place + 1, 3, INCONSISTENT);
        }
    }
}

// Refusals 1 to 9 come before the peak's.
fn worked_order(history: &mut History) {
    let b = list_of(&[TABLE_B]);
    for peak in [0, 3, LAST] {
        fresh(history, &[TABLE_B], 2, 1, None);
        history.set_record(Record { peak, ..history.record });
        history.feed_work(&[0], WORK - 1);
        history.known(WRONG_LENGTH, 0);
        history.offer_work(WORK + 1);
        history.known(WRONG_LENGTH, 0);
        history.lend(32, 16, Fill::Kept);
        history.feed(&[0]);
        history.known(WRONG_LENGTH, 0);
        history.lend(32, 32, Fill::Kept);
        history.other_table(&b[..15]);
        history.feed(&[0]);
        history.known(TRUNCATED, 15);
        history.offer();
        history.known(TRUNCATED, 15);
        history.other_table(&b);
        history.feed(&[0]);
        history.known(INCONSISTENT, 0);
        // Open takes no record
        history.open(&[]);
        history.known_record(0, 1, 1, None);
        // beside a word in the other area, and beside a count that is wrong as well
        history.set_record(Record { peak, ..history.record });
        history.set_words(1, 31, &[1]);
        history.feed(&[0]);
        history.known(INCONSISTENT, 0);
        history.set_words(1, 31, &[0]);
        for count in [0, 2, LAST] {
            history.set_record(Record { count, ..history.record });
            history.feed(&[0]);
            history.known(INCONSISTENT, 0);
        }
    }
}

// ---- drawn histories

// How many residuals there are after each beginning of the events, the empty one first.
fn counts(terms: &Terms, residuals: &Residuals, events: &[u8]) -> Vec<u64> {
    let mut residuals = residuals.clone();
    let mut counts = vec![residuals.len() as u64];
    for &event in events {
        let Results::Few(next) = after_all(terms, &residuals, event as u16, 256) else {
            unreachable!("more than 256 residuals fit no area")
        };
        residuals = next;
        counts.push(residuals.len() as u64);
    }
    counts
}

// "the greatest count over all beginnings of the joined events"
fn greatest(terms: &Terms, joined: &[u8]) -> u64 {
    counts(terms, &resolve_last(terms), joined).into_iter().max().expect("the start")
}

// Of a fed list the events that were taken.
fn joined_of(events: &[u8], refusal: Option<Refusal>) -> &[u8] {
    match refusal {
        None => events,
        Some(Refusal { number: UNKNOWN_EVENT..=CAPACITY_EXCEEDED, place }) => &events[..place],
        Some(_) => &[],
    }
}

// Events whose counts fall after their peak, on a table of several residuals.
fn falling(random: &mut Random) -> (Vec<u16>, Terms, Vec<u8>) {
    loop {
        let table = match random.below(3) {
            0 => tables::any(random),
            _ => tables::wide_loops(random),
        };
        let terms = Terms::of(&table);
        let start = resolve_last(&terms);
        if start.len() > 40 {
            continue;
        }
        let count = random.between(2, 9);
        let mut events = guided(random, &terms, &start, 40, count);
        // the last one may be more than that
        events.pop();
        let counts = counts(&terms, &start, &events);
        let (last, peak) = (counts[counts.len() - 1], counts.iter().max().expect("the start"));
        if last < *peak && *peak > 1 && (last > 0 || random.once_in(4)) {
            return (table.list(), terms, events);
        }
    }
}

// In pieces, with calls that are refused between them; the last count is below the peak.
pub fn peaks(random: &mut Random, history: &mut History) {
    let (list, terms, events) = falling(random);
    let slots = greatest(&terms, &events) as usize + random.below(3);
    history.begin(&list, slots);
    history.open(&[]);
    let mut taken: Vec<u8> = Vec::new();
    while taken.len() < events.len() {
        let rest = &events[taken.len()..];
        let mut piece = rest[..random.between(0, rest.len())].to_vec();
        if random.once_in(3) {
            piece.push(random.between(terms.alphabet as usize, 255) as u8);
            piece.extend(rest);
        }
        let work_len = if random.once_in(8) { WORK - 1 } else { WORK };
        let fed = history.feed_work(&piece, work_len);
        taken.extend(joined_of(&piece, fed.refusal));
        let same = history.record.taken == taken.len() as u64 && events.starts_with(&taken);
        history.known_true(same, "the events that were taken");
        let peak = greatest(&terms, &taken);
        history.known_true(history.record.peak == peak, "greatest over all beginnings");
        if random.once_in(3) {
            history.offer();
        }
    }
    history.known_true(history.record.count < history.record.peak, "the count fell");
    history.view();
    // goes on, whatever comes
    for _ in 0..random.between(0, 3) {
        let next = event(random, &terms, &residuals_of(&terms, history));
        let fed = history.feed(&[next]);
        taken.extend(joined_of(&[next], fed.refusal));
        let peak = greatest(&terms, &taken);
        history.known_true(history.record.peak == peak, "greatest over all beginnings");
    }
}

// As many slots as the peak; then what does not fit, and what does.
pub fn peaks_at_slots(random: &mut Random, history: &mut History) {
    let (list, terms, events) = falling(random);
    let slots = greatest(&terms, &events);
    history.begin(&list, slots as usize);
    history.open(&[]);
    let at = random.between(0, events.len());
    history.feed(&events[..at]);
    history.known(0, 0);
    history.feed(&events[at..]);
    history.known(0, 0);
    history.known_true(history.record.peak == slots, "all slots were held");
    history.offer();
    for event in 0..terms.alphabet.min(4) {
        let (record, areas) = (history.record, history.areas());
        history.feed(&[event as u8]);
        history.known_not(INCONSISTENT);
        history.known_true(history.record.peak == slots, "no more than all slots");
        history.restore(record, &areas);
    }
    // one slot fewer is too few on the way there
    if slots > 1 {
        let few = slots as usize - 1;
        history.lend(16 * few, 16 * few, Fill::Junk);
        if history.open(&[]).record.is_none() {
            history.known(CAPACITY_EXCEEDED, 0);
            return;
        }
        let fed = history.feed(&events);
        history.known_number(CAPACITY_EXCEEDED);
        let peak = greatest(&terms, joined_of(&events, fed.refusal));
        history.known_true(history.record.peak == peak, "without the crowded event");
    }
}

pub fn peaks_after_failure(random: &mut Random, history: &mut History) {
    let (made, wrong) = loop {
        let made = prepared(random, |_, _| true);
        let permitted = permitted(&made.terms, &made.residuals);
        let wrong = (0..made.terms.alphabet as u8).find(|event| !permitted.contains(event));
        if let Some(wrong) = wrong {
            break (made, wrong);
        }
    };
    enter(history, &made);
    let place = made.events.len() as u64 + 1;
    let mut taken = place;
    history.feed(&[wrong]);
    history.known_record(taken, 0, made.peak, Some(place));
    for _ in 0..random.between(1, 3) {
        let mut events: Vec<u8> = (0..random.between(0, 5))
            .map(|_| random.below(made.terms.alphabet as usize) as u8)
            .collect();
        taken += events.len() as u64;
        if random.once_in(3) {
            events.push(random.between(made.terms.alphabet as usize, 255) as u8);
        }
        history.feed(&events);
        history.known_record(taken, 0, made.peak, Some(place));
        history.offer();
    }
    history.view();
}

// ---- given states

fn below(random: &mut Random, n: u64) -> u64 {
    match random.below(3) {
        0 => 0,
        1 => n - 1,
        _ => random.below(n as usize) as u64,
    }
}

fn far_above(random: &mut Random, slots: u64) -> u64 {
    match random.below(8) {
        0 => 1 << 60,
        1 => (1 << 60) + slots,
        2 => (1 << 32) + slots,
        3 => 16 * slots,
        _ => above(random, slots),
    }
}

pub fn peak_below_count(random: &mut Random, history: &mut History) {
    let state = state(random, history, any);
    let peak = below(random, state.record.count);
    history.set_record(Record { peak, ..state.record });
    disturbed(random, history, &state);
}

pub fn peak_above_slots(random: &mut Random, history: &mut History) {
    let state =
        if random.once_in(3) { failed(random, history) } else { state(random, history, any) };
    let peak = far_above(random, state.made.slots as u64);
    history.set_record(Record { peak, ..state.record });
    disturbed(random, history, &state);
}

// With another fault beside the peak.
pub fn peak_and_more(random: &mut Random, history: &mut History) {
    let state = state(random, history, any);
    let slots = state.made.slots as u64;
    let Record { taken, count, .. } = state.record;
    let peak = match random.once_in(2) {
        true => below(random, count),
        false => far_above(random, slots),
    };
    let record = Record { peak, ..state.record };
    let length = 16 * state.made.slots;
    match random.below(6) {
        // failed, above taken or with residuals held
        0 => history.set_record(Record { failed: Some(above(random, taken)), ..record }),
        1 => history.set_record(Record { failed: Some(taken), ..record }),
        // a count that is not that of the slots
        2 => history.set_record(Record { count: count + 1, ..record }),
        3 => history.set_record(Record { count: far_above(random, slots), ..record }),
        // a word that is not zero in the other area, or after the slots
        4 => {
            history.set_record(record);
            history.set_words(1 - record.present(), random.below(length), &[1]);
        }
        _ => {
            history.set_record(record);
            let at = random.between(16 * count as usize, length - 1);
            history.set_words(record.present(), at, &[1]);
        }
    }
    disturbed(random, history, &state);
}

// A peak from the count to the slots stands; after failure one from 0 on.
pub fn odd_peaks(random: &mut Random, history: &mut History) {
    if random.once_in(4) {
        let state = failed(random, history);
        let Record { taken, peak, failed, .. } = state.record;
        let alphabet = state.made.terms.alphabet as usize;
        let events: Vec<u8> =
            (0..random.between(1, 4)).map(|_| random.below(alphabet) as u8).collect();
        history.feed(&events);
        history.known_record(taken + events.len() as u64, 0, peak, failed);
        history.offer();
        history.view();
        return;
    }
    let State { made, record, .. } = state(random, history, any);
    let slots = made.slots as u64;
    let peak = match random.below(4) {
        0 => record.count,
        1 => slots,
        _ => random.between(record.count as usize, made.slots) as u64,
    };
    history.set_record(Record { peak, ..record });
    history.feed(&[]);
    history.known_record(record.taken, record.count, peak, None);
    history.offer();
    history.known(0, 0);
    history.view();
    let mut joined = Vec::new();
    for _ in 0..random.between(1, 3) {
        let residuals = residuals_of(&made.terms, history);
        let count = random.between(1, 3);
        let events = guided(random, &made.terms, &residuals, made.slots, count);
        let fed = history.feed(&events);
        history.known_not(INCONSISTENT);
        joined.extend(joined_of(&events, fed.refusal));
        let counts = counts(&made.terms, &made.residuals, &joined);
        let most = counts.into_iter().max().expect("the first");
        let known = history.record.peak == peak.max(most);
        history.known_true(known, "the larger of the given peak and the counts since");
    }
}
