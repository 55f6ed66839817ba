// Tests over many generated tables: feeding in pieces and at once, fresh monitors, Offer, the
// trace sets, and residuals counted with repeats.

use super::operations::*;
use super::residual::*;
use super::state::*;
use super::tables;
use super::terms::{Kind, Terms};
use super::traces;
use crate::generate::{small, MIDDLE, SMALL};
use crate::operations::WORK;
use crate::random::Random;
use crate::refusal::*;
use crate::table::Table;
use std::collections::BTreeSet;

pub(super) fn zero_areas(slots: usize) -> Areas {
    [vec![0; 16 * slots], vec![0; 16 * slots]]
}

pub(super) fn any_table(random: &mut Random) -> Table {
    match random.below(8) {
        0..=2 => small(random, SMALL),
        3 => small(random, MIDDLE),
        4 => tables::wide_loops(random),
        5 => tables::remembering(random),
        6 => tables::lively(random, SMALL),
        _ => tables::lively(random, MIDDLE),
    }
}

pub(super) fn any_events(random: &mut Random, alphabet: u16, most: usize) -> Vec<u8> {
    (0..random.between(0, most)).map(|_| random.below(alphabet as usize) as u8).collect()
}

// Events that keep the monitor running where there are any, mostly.
pub(super) fn guided_events(random: &mut Random, table: &Table, most: usize) -> Vec<u8> {
    let terms = Terms::of(table);
    let mut residuals = resolve_last(&terms);
    let mut events = Vec::new();
    for _ in 0..random.between(0, most) {
        let permitted: Vec<u16> = (0..table.alphabet)
            .filter(|e| !after_all(&terms, &residuals, *e, 256).is_none())
            .collect();
        let event = if permitted.is_empty() || random.once_in(12) {
            random.below(table.alphabet as usize) as u16
        } else {
            *random.pick(&permitted)
        };
        events.push(event as u8);
        match after_all(&terms, &residuals, event, 256) {
            Results::Few(next) => residuals = next,
            Results::Many => break,
        }
    }
    events
}

// An Open and pieces, refused ones included, leave what one Open on the joined events leaves; no
// call of a history is refused with 2 to 10.
#[test]
fn pieces_and_at_once() {
    let mut random = Random::new(21);
    let (mut refused, mut begun_refused) = (0, 0);
    for _ in 0..6_000 {
        let table = any_table(&mut random);
        let list = table.list();
        let slots = *random.pick(&[1, 2, 3, 8, 256]);
        let areas = [vec![7; 16 * slots], vec![u64::MAX; 16 * slots]];
        let mut first = guided_events(&mut random, &table, 4);
        if random.once_in(4) {
            first.push(random.between(table.alphabet as usize, 255) as u8);
            first.extend(any_events(&mut random, table.alphabet, 3));
        }
        let opened = open(&list, &areas, &first, WORK);
        let Some(mut record) = opened.answer.record else {
            assert_eq!(opened.answer.refusal.unwrap().number, CAPACITY_EXCEEDED);
            assert_eq!(opened.areas, zero_areas(slots));
            continue;
        };
        let mut areas = opened.areas;
        let mut joined = first;
        if let Some(refusal) = opened.answer.refusal {
            joined.truncate(refusal.place);
            begun_refused += 1;
        }
        for _ in 0..random.between(0, 5) {
            let mut events = guided_events(&mut random, &table, 5);
            if random.once_in(4) {
                events.push(random.between(table.alphabet as usize, 255) as u8);
                events.extend(any_events(&mut random, table.alphabet, 3));
            }
            let work_len = if random.once_in(8) { random.below(8_300) } else { WORK };
            let fed = feed(&list, record, &areas, &events, work_len);
            match fed.answer.refusal {
                None => joined.extend(events),
                Some(Refusal { number: WRONG_LENGTH, .. }) => {
                    assert!(work_len != WORK && fed.work_kept && fed.areas == areas);
                }
                Some(refusal) => {
                    assert!((UNKNOWN_EVENT..=CAPACITY_EXCEEDED).contains(&refusal.number));
                    joined.extend(&events[..refusal.place]);
                    refused += 1;
                }
            }
            record = fed.answer.record.unwrap_or(record);
            areas = fed.areas;
        }
        let lent = [vec![9; 16 * slots], vec![3; 16 * slots]];
        let once = open(&list, &lent, &joined, WORK);
        assert_eq!(once.answer, Answer { refusal: None, record: Some(record) });
        assert_eq!(once.areas, areas);
        assert_eq!(record.taken, joined.len() as u64);
    }
    assert!(refused > 1_000 && begun_refused > 300, "{refused} {begun_refused}");
}

// Offer's bit e is set exactly when e keeps the monitor running or is too much for its slots.
#[test]
fn offered_events() {
    let mut random = Random::new(22);
    let (mut set, mut unset) = (0, 0);
    for _ in 0..8_000 {
        let table = any_table(&mut random);
        let list = table.list();
        let slots = *random.pick(&[1, 2, 8, 256]);
        let started = open(&list, &zero_areas(slots), &[], WORK);
        let Some(fresh) = started.answer.record else { continue };
        let events = guided_events(&mut random, &table, 6);
        let fed = feed(&list, fresh, &started.areas, &events, WORK);
        let record = fed.answer.record.unwrap();
        let offered = offer(&list, record, &fed.areas, WORK);
        assert_eq!((&offered.areas, offered.work_kept), (&fed.areas, false));
        let bits = offered.answer.unwrap();
        // strange events have no bit, and are refused
        assert!((table.alphabet..128).all(|event| !is_offered(bits, event)));
        for event in 0..table.alphabet as u8 {
            let bit = is_offered(bits, event.into());
            let next = feed(&list, record, &fed.areas, &[event], WORK).answer;
            let goes_on = match next.refusal {
                // more residuals than slots are not none
                Some(refusal) if refusal.number == CAPACITY_EXCEEDED => true,
                Some(_) => false,
                None => next.record.unwrap().failed.is_none(),
            };
            assert_eq!(bit, goes_on);
            if bit {
                set += 1;
            } else {
                unset += 1;
            }
        }
        let (area, length) = view(record, [16 * slots; 2]);
        if record.failed.is_some() {
            assert_eq!((area, length, bits), (0, 0, [0; 2]));
        } else {
            assert_eq!(area, record.taken as usize % 2);
            assert_eq!(length, 16 * record.count as usize);
        }
    }
    assert!(set > 3_000 && unset > 3_000, "{set} {unset}");
}

// Running exactly when the trace set holds the list; failed at the length of its shortest
// beginning outside.
#[test]
fn verdicts_are_those_of_traces() {
    let mut random = Random::new(23);
    let (mut running, mut failed) = (0, 0);
    for i in 0..12_000 {
        let table = any_table(&mut random);
        let list = table.list();
        let started = open(&list, &zero_areas(256), &[], WORK);
        let Some(fresh) = started.answer.record else { continue };
        let events = match i % 3 {
            0 => any_events(&mut random, table.alphabet, 5),
            _ => guided_events(&mut random, &table, 6),
        };
        let fed = feed(&list, fresh, &started.areas, &events, WORK);
        if fed.answer.refusal.is_some() {
            continue;
        }
        let list: Vec<u16> = events.iter().map(|&e| e as u16).collect();
        let outside = (0..=list.len()).find(|&n| !traces::holds(&table, &list[..n]));
        let record = fed.answer.record.unwrap();
        assert_eq!(record.failed, outside.map(|n| n as u64));
        match outside {
            None => running += 1,
            Some(_) => failed += 1,
        }
    }
    assert!(running > 3_000 && failed > 3_000);
}

// ---- residuals with repeats, in the order of the words; none where there are too many

const MOST_REPEATS: usize = 3_000;

pub(super) fn resolve_plainly(
    terms: &Terms,
    term: usize,
    memory: Memory,
) -> Option<Vec<Residual>> {
    let node = Node { term, memory };
    let made = match *terms.kind(term) {
        Kind::Stop | Kind::Prefix { .. } => vec![Residual::Leaf(node)],
        Kind::Fail => vec![],
        Kind::Choice { left, right } => {
            let mut made = resolve_plainly(terms, left, memory)?;
            made.extend(resolve_plainly(terms, right, memory)?);
            made
        }
        Kind::Parallel { left, right, .. } => pairs_plainly(
            node,
            resolve_plainly(terms, left, memory)?,
            resolve_plainly(terms, right, memory)?,
        )?,
        Kind::Call { definition } => resolve_plainly(terms, terms.bodies[definition], [0; 4])?,
    };
    (made.len() <= MOST_REPEATS).then_some(made)
}

fn pairs_plainly(
    node: Node,
    lefts: Vec<Residual>,
    rights: Vec<Residual>,
) -> Option<Vec<Residual>> {
    if lefts.len() * rights.len() > MOST_REPEATS {
        return None;
    }
    let mut made = Vec::new();
    for left in &lefts {
        for right in &rights {
            made.push(Residual::Pair(node, left.clone().into(), right.clone().into()));
        }
    }
    Some(made)
}

pub(super) fn after_plainly(
    terms: &Terms,
    residual: &Residual,
    event: u16,
) -> Option<Vec<Residual>> {
    match residual {
        Residual::Leaf(Node { term, memory }) => match terms.kind(*term) {
            Kind::Prefix { set, follower } if terms.holds(set, *memory, event) => {
                resolve_plainly(terms, *follower, [event, memory[0], memory[1], memory[2]])
            }
            _ => Some(vec![]),
        },
        Residual::Pair(node, left, right) => {
            let lefts = after_plainly(terms, left, event)?;
            let rights = after_plainly(terms, right, event)?;
            let Kind::Parallel { set, .. } = terms.kind(node.term) else { unreachable!() };
            if terms.holds(set, node.memory, event) {
                return pairs_plainly(*node, lefts, rights);
            }
            let mut made = pairs_plainly(*node, lefts, vec![(**right).clone()])?;
            made.extend(pairs_plainly(*node, vec![(**left).clone()], rights)?);
            Some(made)
        }
    }
}

#[test]
fn residuals_without_repeats() {
    let mut random = Random::new(24);
    let mut compared = 0;
    for _ in 0..6_000 {
        let table = any_table(&mut random);
        let terms = Terms::of(&table);
        let last = *terms.bodies.last().unwrap();
        let Some(plain) = resolve_plainly(&terms, last, [0; 4]) else { continue };
        let mut residuals: Residuals = plain.into_iter().collect();
        assert_eq!(residuals, resolve_last(&terms));
        assert_eq!(residuals.is_empty(), terms.terms[last].doomed);
        for event in guided_events(&mut random, &table, 6) {
            let each = residuals.iter().map(|r| after_plainly(&terms, r, event as u16));
            let Some(plain) = each.collect::<Option<Vec<_>>>() else { break };
            let next: Residuals = plain.concat().into_iter().collect();
            for most in [1, 2, 5, next.len().max(1) - 1, next.len(), 256] {
                let results = after_all(&terms, &residuals, event as u16, most);
                assert_eq!(results, Results::of(next.clone(), most));
            }
            if next.len() > 256 {
                break;
            }
            residuals = next;
            // their words are as different as they are, and each slot is a valid one
            let slots: BTreeSet<Slot> = residuals.iter().map(slot).collect();
            assert_eq!(slots.len(), residuals.len());
            for one in &residuals {
                assert_eq!(super::state::residual(&terms, &slot(one)).as_ref(), Some(one));
            }
            compared += 1;
        }
    }
    assert!(compared > 10_000);
}
