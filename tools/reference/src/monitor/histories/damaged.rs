// Disturbed states, clause by clause (01: "Disturbed: ..", "A valid slot is .."): a running or
// failed state is changed so that just this clause is met, refused with 10 by each call, put back,
// and goes on.

use super::states::*;
use super::walks::*;
use crate::monitor::history::{Fill, History};
use crate::monitor::residual::*;
use crate::monitor::state::{reach, Areas, Record, MOST_REACH};
use crate::monitor::terms::{Kind, Terms};
use crate::random::Random;
use crate::refusal::INCONSISTENT;

pub(super) struct State {
    pub made: Prepared,
    pub record: Record,
    pub areas: Areas,
}

pub(super) fn any(_: &Terms, _: &Residuals) -> bool {
    true
}

// A running state for which `want` holds.
pub(super) fn state(
    random: &mut Random,
    history: &mut History,
    want: impl Fn(&Terms, &Residuals) -> bool,
) -> State {
    let made = prepared(random, want);
    enter(history, &made);
    State { made, record: history.record, areas: history.areas() }
}

// Every call says 10; View shows what the record says; put back, it goes on.
pub(super) fn disturbed(random: &mut Random, history: &mut History, state: &State) {
    if random.once_in(2) {
        history.feed(&[]);
        history.known(INCONSISTENT, 0);
    }
    // 10 comes before 11
    let any_event = random.below(state.made.terms.alphabet as usize + 1) as u8;
    history.feed(&[any_event]);
    history.known(INCONSISTENT, 0);
    history.offer();
    history.known(INCONSISTENT, 0);
    history.view();
    history.restore(state.record, &state.areas);
    let next = event(random, &state.made.terms, &state.made.residuals);
    history.feed(&[next]);
    history.known_not(INCONSISTENT);
}

// ---- the record

// A number above n, often just above it.
pub(super) fn above(random: &mut Random, n: u64) -> u64 {
    match random.below(4) {
        0 => u64::MAX,
        1 => (n + 1).max(random.next() >> random.below(60)),
        _ => n + 1,
    }
}

// A failed state: areas zero, and any peak up to the slots.
pub(super) fn failed(random: &mut Random, history: &mut History) -> State {
    let made = prepared(random, any);
    let length = 16 * made.slots;
    history.table(&made.list);
    history.lend(length, length, Fill::Zeros);
    let taken = random.next() >> random.between(1, 63);
    let place = match random.below(3) {
        0 => 0,
        1 => taken,
        _ => random.next() % (taken + 1),
    };
    let peak = match random.below(3) {
        0 => 0,
        1 => made.slots as u64,
        _ => random.between(0, made.slots) as u64,
    };
    history.set_record(Record { taken, count: 0, peak, failed: Some(place) });
    history.feed(&[random.below(made.terms.alphabet as usize) as u8]);
    history.known_record(taken + 1, 0, peak, Some(place));
    let areas = history.areas();
    State { made, record: history.record, areas }
}

pub fn place_above_taken(random: &mut Random, history: &mut History) {
    let state = failed(random, history);
    let failed = Some(above(random, state.record.taken));
    history.set_record(Record { failed, ..state.record });
    disturbed(random, history, &state);
    // and at 0, where an Open that fails has it
    if random.once_in(4) {
        history.set_record(Record { taken: 0, failed: Some(1), ..state.record });
        disturbed(random, history, &state);
    }
}

pub fn held_after_failure(random: &mut Random, history: &mut History) {
    if random.once_in(2) {
        // a count and no slots
        let state = failed(random, history);
        let count = if random.once_in(2) { 1 } else { above(random, 0) };
        history.set_record(counted(state.record, count));
        disturbed(random, history, &state);
        return;
    }
    // slots, with their count or without
    let state = state(random, history, any);
    let failed = Some(random.below(state.record.taken as usize + 1) as u64);
    let count = if random.once_in(2) { 0 } else { state.record.count };
    history.set_record(Record { failed, count, ..state.record });
    disturbed(random, history, &state);
}

pub fn count_zero(random: &mut Random, history: &mut History) {
    let state = state(random, history, any);
    history.set_record(Record { count: 0, ..state.record });
    if random.once_in(2) {
        // with nothing held
        let zeros = [vec![0; 16 * state.made.slots], vec![0; 16 * state.made.slots]];
        history.restore(history.record, &zeros);
    }
    disturbed(random, history, &state);
}

pub fn count_above_slots(random: &mut Random, history: &mut History) {
    let state = state(random, history, any);
    let count = match random.below(4) {
        0 => 1 << 60,
        1 => (1 << 60) + state.record.count,
        2 => 1 << 32,
        _ => above(random, state.made.slots as u64),
    };
    history.set_record(counted(state.record, count));
    disturbed(random, history, &state);
}

// One more or fewer than the slots that stand there.
pub fn count_beside_slots(random: &mut Random, history: &mut History) {
    let state = state(random, history, any);
    let count = state.record.count;
    let count = if count > 1 && random.once_in(2) { count - 1 } else { count + 1 };
    history.set_record(counted(state.record, count));
    disturbed(random, history, &state);
}

// ---- the present area

fn two_or_more(_: &Terms, residuals: &Residuals) -> bool {
    residuals.len() > 1
}

fn slots_of(state: &State) -> Vec<Vec<u64>> {
    let held = 16 * state.record.count as usize;
    state.areas[state.record.present()][..held].chunks(16).map(|slot| slot.to_vec()).collect()
}

// These slots instead, then zeros.
fn put(history: &mut History, state: &State, slots: &[Vec<u64>], count: u64) {
    let mut areas = state.areas.clone();
    let mut area = slots.concat();
    area.resize(16 * state.made.slots, 0);
    areas[state.record.present()] = area;
    history.restore(counted(state.record, count), &areas);
}

pub fn not_ascending(random: &mut Random, history: &mut History) {
    let state = state(random, history, two_or_more);
    let mut slots = slots_of(&state);
    let one = random.below(slots.len() - 1);
    let two = if random.once_in(2) { one + 1 } else { random.between(one + 1, slots.len() - 1) };
    slots.swap(one, two);
    put(history, &state, &slots, state.record.count);
    disturbed(random, history, &state);
}

pub fn equal_slots(random: &mut Random, history: &mut History) {
    let state = state(random, history, any);
    let mut slots = slots_of(&state);
    let one = random.below(slots.len());
    if slots.len() > 1 && random.once_in(2) {
        // in the place of a neighbour
        let two = if one > 0 { one - 1 } else { 1 };
        slots[two] = slots[one].clone();
    } else {
        slots.insert(one, slots[one].clone());
    }
    put(history, &state, &slots, slots.len() as u64);
    disturbed(random, history, &state);
}

// One slot of the present area changed, one that `change` can change so.
fn change(
    random: &mut Random,
    history: &mut History,
    state: &State,
    change: impl Fn(&mut Random, &mut Vec<u64>) -> bool,
) {
    let mut slots = slots_of(state);
    loop {
        let one = random.below(slots.len());
        let mut slot = slots[one].clone();
        if change(random, &mut slot) {
            slots[one] = slot;
            break;
        }
    }
    put(history, state, &slots, state.record.count);
    disturbed(random, history, state);
}

pub fn node_count(random: &mut Random, history: &mut History) {
    let state = state(random, history, any);
    change(random, history, &state, |random, slot| {
        let count = slot[0];
        let other = match random.below(7) {
            0 => 0,
            1 => count - 1,
            2 => count + 1,
            3 => count + (1 << 32),
            4 => 16 * count,
            5 => u64::MAX,
            _ => random.between(1, 20) as u64,
        };
        slot[0] = other;
        other != count
    });
}

// The place of a node in a slot.
fn node_place(random: &mut Random, slot: &[u64]) -> usize {
    random.between(1, slot[0] as usize)
}

fn term_in(word: u64) -> usize {
    (word >> TERM_AT) as usize
}

pub fn unknown_term(random: &mut Random, history: &mut History) {
    let state = state(random, history, any);
    let terms = state.made.terms.terms.len() as u64;
    change(random, history, &state, |random, slot| {
        let at = node_place(random, slot);
        let term = match random.below(5) {
            0 | 1 => terms,
            2 => 1 << 32,
            3 => (1 << (64 - TERM_AT)) - 1,
            _ => terms + random.below(2_000) as u64,
        };
        slot[at] = (slot[at] & ((1 << TERM_AT) - 1)) + (term << TERM_AT);
        true
    });
}

// FAIL, a choice or a call in the place of a node.
pub fn wrong_kind(random: &mut Random, history: &mut History) {
    let no_node =
        |kind: &Kind| matches!(kind, Kind::Fail | Kind::Choice { .. } | Kind::Call { .. });
    let state = state(random, history, |terms, _| !terms_where(terms, no_node).is_empty());
    let others = terms_where(&state.made.terms, no_node);
    change(random, history, &state, |random, slot| {
        let at = node_place(random, slot);
        slot[at] = (*random.pick(&others) as u64) << TERM_AT;
        true
    });
}

pub fn leaf_missing(random: &mut Random, history: &mut History) {
    let state = state(random, history, |_, residuals| residuals.iter().any(is_pair));
    change(random, history, &state, |_, slot| {
        let count = slot[0] as usize;
        slot[count] = 0;
        slot[0] -= 1;
        count > 1
    });
}

// Some tree does not fill its slot.
fn room_in_slot(_: &Terms, residuals: &Residuals) -> bool {
    residuals.iter().any(|residual| words(residual).len() < SLOT - 1)
}

pub fn leaf_too_many(random: &mut Random, history: &mut History) {
    let state = state(random, history, room_in_slot);
    change(random, history, &state, |random, slot| {
        let count = slot[0] as usize;
        if count == 15 {
            return false;
        }
        slot[count + 1] = if random.once_in(3) { slot[1] } else { slot[count] };
        slot[0] += 1;
        true
    });
}

pub fn words_after_tree(random: &mut Random, history: &mut History) {
    let state = state(random, history, room_in_slot);
    change(random, history, &state, |random, slot| {
        let count = slot[0] as usize;
        if count == 15 {
            return false;
        }
        let at = if random.once_in(2) { 15 } else { random.between(count + 1, 15) };
        slot[at] = if random.once_in(2) { 1 } else { slot[count].max(1) };
        true
    });
}

fn with_digit(word: u64, i: usize, digit: u64) -> u64 {
    (word & !(DIGIT_MOST << digit_at(i))) + (digit << digit_at(i))
}

// Whether some node has from `least` to `most` prefixes around it.
fn enclosed(residuals: &Residuals, terms: &Terms, least: usize, most: usize) -> bool {
    let within = |word: &u64| (least..=most).contains(&terms.terms[term_in(*word)].enclosing);
    residuals.iter().any(|residual| words(residual).iter().any(within))
}

pub fn digit_at_alphabet(random: &mut Random, history: &mut History) {
    let state = state(random, history, |terms, residuals| {
        u64::from(terms.alphabet) <= DIGIT_MOST && enclosed(residuals, terms, 1, 32)
    });
    let terms = &state.made.terms;
    change(random, history, &state, |random, slot| {
        let at = node_place(random, slot);
        let enclosing = terms.terms[term_in(slot[at])].enclosing.min(4);
        if enclosing == 0 {
            return false;
        }
        let alphabet = terms.alphabet as usize;
        let most = DIGIT_MOST as usize;
        let digit = if random.once_in(2) { alphabet } else { random.between(alphabet, most) };
        slot[at] = with_digit(slot[at], random.below(enclosing), digit as u64);
        true
    });
}

pub fn digit_beyond_prefixes(random: &mut Random, history: &mut History) {
    let state = state(random, history, |terms, residuals| {
        terms.alphabet > 1 && enclosed(residuals, terms, 0, 3)
    });
    let terms = &state.made.terms;
    change(random, history, &state, |random, slot| {
        let at = node_place(random, slot);
        let enclosing = terms.terms[term_in(slot[at])].enclosing;
        if enclosing > 3 {
            return false;
        }
        let i = if random.once_in(2) { enclosing } else { random.between(enclosing, 3) };
        let digit = random.between(1, terms.alphabet as usize - 1) as u64;
        slot[at] = with_digit(slot[at], i, digit);
        true
    });
}

// Trees of at most eight leaves whose reach is above 8.
pub fn reach_above_8(random: &mut Random, history: &mut History) {
    let made = prepared_of(random, far_reaching, |terms, residuals| {
        let reaching = |term: usize| terms.terms[term].reach;
        residuals.len() < 9
            && !parallel_terms(terms).is_empty()
            && leaf_terms(terms).into_iter().any(|term| reaching(term) > 1)
    });
    let tree = (0..1_000).find_map(|_| {
        let leaves = random.between(2, 8);
        let tree = any_tree(random, &made.terms, leaves);
        (reach(&made.terms, &tree) > MOST_REACH).then_some(tree)
    });
    let Some(tree) = tree else { return reach_above_8(random, history) };
    enter(history, &made);
    let state = State { record: history.record, areas: history.areas(), made };
    hold(history, &Residuals::from([tree]));
    disturbed(random, history, &state);
}

// A word that is not zero after the slots.
pub fn words_after_count(random: &mut Random, history: &mut History) {
    let state = state(random, history, any);
    let (held, length) = (16 * state.record.count as usize, 16 * state.made.slots);
    let at = match random.below(3) {
        0 => held,
        1 => length - 1,
        _ => random.between(held, length - 1),
    };
    let word = if random.once_in(2) { 1 } else { random.next() | 1 };
    history.set_words(state.record.present(), at, &[word]);
    disturbed(random, history, &state);
}

// A word that is not zero in the other area, after failure too.
pub fn other_area(random: &mut Random, history: &mut History) {
    let state =
        if random.once_in(3) { failed(random, history) } else { state(random, history, any) };
    let length = 16 * state.made.slots;
    let at = match random.below(3) {
        0 => 0,
        1 => length - 1,
        _ => random.below(length),
    };
    let word = if random.once_in(2) { 1 } else { random.next() | 1 };
    history.set_words(1 - state.record.present(), at, &[word]);
    disturbed(random, history, &state);
}

// One event more or fewer is said to be taken; with the areas swapped as well it is fine.
pub fn wrong_parity(random: &mut Random, history: &mut History) {
    let state = state(random, history, any);
    let taken = match state.record.taken {
        0 => 1,
        taken => [taken - 1, taken + 1, taken + 1_001][random.below(3)],
    };
    let record = Record { taken, ..state.record };
    history.set_record(record);
    disturbed(random, history, &state);
    if random.once_in(2) {
        history.lend(16 * state.made.slots, 16 * state.made.slots, Fill::Zeros);
        let [zero, one] = state.areas.clone();
        history.restore(record, &[one, zero]);
        history.feed(&[]);
        history.known(0, 0);
        let next = event(random, &state.made.terms, &state.made.residuals);
        history.feed(&[next]);
        history.known_not(INCONSISTENT);
        history.offer();
    }
}
