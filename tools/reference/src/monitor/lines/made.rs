// Inputs of the program, drawn.

use super::{input_of, Case, RIGHT};
use crate::case::byte_place;
use crate::cases::loose_forms;
use crate::damage::CLAUSES;
use crate::generate::*;
use crate::monitor::examples::list_of;
use crate::monitor::histories::walks::{guided, permitted};
use crate::monitor::residual::*;
use crate::monitor::tables;
use crate::monitor::terms::Terms;
use crate::numbers::{bytes_of, bytes_of_list};
use crate::random::Random;
use crate::refusal::*;
use crate::table::*;
use crate::worked::{hex, TABLE_B};

fn some_bytes(random: &mut Random, most: usize) -> Vec<u8> {
    (0..random.between(0, most)).map(|_| random.below(256) as u8).collect()
}

// ---- the length number

pub fn length_loose(random: &mut Random) -> Case {
    let forms = loose_forms(random, 16);
    let rest = some_bytes(random, 30);
    let input = [&random.pick(&forms)[..], &rest].concat();
    Case::new(random, input).known("refused 4 0")
}

pub fn length_too_long(random: &mut Random) -> Case {
    let length = match random.below(3) {
        0 => 16_385,
        1 => 65_535,
        _ => random.between(16_385, 65_535),
    };
    let rest = some_bytes(random, 30);
    Case::new(random, [&bytes_of(length as u16)[..], &rest].concat()).known("refused 2 0")
}

pub fn length_cut(random: &mut Random) -> Case {
    let length = random.between(128, 65_535) as u16;
    let bytes = bytes_of(length);
    let kept = random.between(0, bytes.len() - 1);
    Case::new(random, bytes[..kept].to_vec()).known("refused 3 0")
}

// ---- tables

fn events_of(random: &mut Random, table: &Table, count: usize) -> Vec<u8> {
    let terms = Terms::of(table);
    let residuals = resolve_last(&terms);
    guided(random, &terms, &residuals, 256, count)
}

fn drawn_input(random: &mut Random, most: usize) -> Vec<u8> {
    let table = tables::any(random);
    let count = random.between(0, most);
    input_of(&bytes_of_list(&table.list()), &events_of(random, &table, count))
}

// An input that ends within the table.
fn cut_at(random: &mut Random, bytes: &[u8], kept: usize) -> Case {
    let input = [&bytes_of(bytes.len() as u16)[..], &bytes[..kept]].concat();
    Case::new(random, input).known(&format!("refused 3 {kept}"))
}

pub fn cut_at_each_byte(random: &mut Random) -> Vec<Case> {
    let bytes = hex(TABLE_B);
    (0..bytes.len()).map(|kept| cut_at(random, &bytes, kept)).collect()
}

pub fn cut_in_table(random: &mut Random) -> Case {
    let bytes = bytes_of_list(&tables::any(random).list());
    let kept = random.below(bytes.len());
    cut_at(random, &bytes, kept)
}

pub fn refused_tables(random: &mut Random) -> Case {
    let fault = loop {
        let fault = random.pick(&CLAUSES).1(random);
        if fault.list.len() <= 2_000 {
            break fault;
        }
    };
    let in_list = (TRUNCATED..=WRONG_REFERENCE).contains(&fault.number);
    let place = if in_list { byte_place(&fault.list, fault.place) } else { fault.place };
    let input = input_of(&bytes_of_list(&fault.list), &some_bytes(random, 20));
    Case::new(random, input).known(&format!("refused {} {place}", fault.number))
}

// The last events of an alphabet, at both sides of a word's end, and the first beyond (02, W6).
pub fn worked_events(random: &mut Random) -> Vec<Case> {
    let mut cases = Vec::new();
    for (alphabet, last) in [(63, 62), (64, 63), (65, 64), (127, 126), (128, 127)] {
        let bytes = bytes_of_list(&tables::repeating(alphabet, &[0, last]).list());
        let (last, beyond) = (last as u8, alphabet as u8);
        let mut case = |events: &[u8], line: &str| {
            cases.push(Case::new(random, input_of(&bytes, events)).known(line));
        };
        case(&[last, 0, last], "running 3 1");
        case(&[last, 1, last], "failed 2 3");
        case(&[0, last, beyond, last], "refused 11 2");
        case(&[beyond], "refused 11 0");
    }
    cases
}

// 16,384 bytes of table, and events at both sides of the front's end; one byte more is 2.
pub fn long_tables(random: &mut Random) -> Vec<Case> {
    let body = prefix(plain(0), choice(prefix(plain(1), Term::Stop), Term::Call(0)));
    let bytes = long_table(random, MOST_BYTES, vec![definition(0, body)]).list();
    let bytes = bytes_of_list(&bytes);
    let mut cases: Vec<Case> = [0, 1, 5, 3_000]
        .map(|count| {
            let input = input_of(&bytes, &vec![0; count]);
            Case::new(random, input)
        })
        .into();
    cases.push(Case::new(random, input_of(&bytes, &[64])).known("refused 11 0"));
    cases.push(cut_at(random, &bytes, bytes.len() - 1));
    let long = [&bytes_of(16_385)[..], &bytes, &[0]].concat();
    cases.push(Case::new(random, long).known("refused 2 0"));
    cases
}

// ---- anything

pub fn random_bytes(random: &mut Random) -> Case {
    let mut input = some_bytes(random, 60);
    if let Some(first) = input.first_mut() {
        *first %= 40;
    }
    Case::new(random, input)
}

// An input with some bytes changed, added or dropped.
pub fn changed_inputs(random: &mut Random) -> Case {
    let mut input = drawn_input(random, 30);
    crate::cases::change(random, &mut input, |random| match random.below(3) {
        0 => random.below(256) as u8,
        _ => random.below(8) as u8,
    });
    Case::new(random, input)
}

// ---- events

pub fn walks(random: &mut Random) -> Case {
    let input = drawn_input(random, 60);
    Case::new(random, input)
}

// An event that the alphabet does not have, and others after it.
pub fn strange_events(random: &mut Random) -> Case {
    let table = tables::any(random);
    let count = random.between(0, 40);
    let mut events = events_of(random, &table, count);
    let place = events.len();
    events.push(random.between(table.alphabet as usize, 255) as u8);
    events.extend(some_bytes(random, 10));
    let case = Case::new(random, input_of(&bytes_of_list(&table.list()), &events));
    let crowded = case.line().starts_with("refused 13 ");
    if crowded {
        case
    } else {
        case.known(&format!("refused 11 {place}"))
    }
}

// Loops beside each other, up to an event after which they are more than 256.
pub fn too_many_residuals(random: &mut Random) -> Case {
    loop {
        let table = tables::wide_loops(random);
        let terms = Terms::of(&table);
        let mut residuals = resolve_last(&terms);
        let mut events = Vec::new();
        for _ in 0..12 {
            let wide = (0..terms.alphabet)
                .map(|e| (after_all(&terms, &residuals, e, 256), e))
                .max_by_key(|(results, _)| match results {
                    Results::Few(next) => next.len(),
                    Results::Many => 257,
                });
            let (results, event) = wide.expect("an event");
            events.push(event as u8);
            match results {
                Results::Few(next) => residuals = next,
                Results::Many => {
                    let place = events.len() - 1;
                    events.extend(some_bytes(random, 5));
                    let input = input_of(&bytes_of_list(&table.list()), &events);
                    return Case::new(random, input).known(&format!("refused 13 {place}"));
                }
            }
        }
    }
}

// Permitted events for as long as there are any, and others after that; none if there are more
// than forty residuals on the way.
fn permitted_events(random: &mut Random, table: &Table, count: usize) -> Option<Vec<u8>> {
    let terms = Terms::of(table);
    let mut residuals = resolve_last(&terms);
    let mut events = Vec::new();
    while events.len() < count {
        let permitted = permitted(&terms, &residuals);
        let event = match permitted.is_empty() {
            true => random.below(terms.alphabet as usize) as u8,
            false => *random.pick(&permitted),
        };
        events.push(event);
        let Results::Few(next) = after_all(&terms, &residuals, event as u16, 40) else {
            return None;
        };
        residuals = next;
    }
    Some(events)
}

// A table and so many events, running to their end but once in four.
fn long_walk(random: &mut Random, count: usize) -> Vec<u8> {
    let any = random.once_in(4);
    loop {
        let table = tables::any(random);
        let bytes = bytes_of_list(&table.list());
        let runs = |events: Vec<u8>| {
            let input = input_of(&bytes, &events);
            let running = crate::monitor::program::line(&input).starts_with("running ");
            (any || running).then_some(input)
        };
        let begins = permitted_events(random, &table, 300).and_then(runs).is_some();
        if !begins {
            continue;
        }
        if let Some(input) = permitted_events(random, &table, count).and_then(runs) {
            return input;
        }
    }
}

pub fn long_walks(random: &mut Random) -> Case {
    let count = random.between(10_000, 14_000);
    let input = long_walk(random, count);
    Case::new(random, input)
}

// More events than one piece of the program holds: table B to its end, to a wrong event, to a
// strange one, and drawn tables.
pub fn long_inputs(random: &mut Random) -> Vec<Case> {
    let bytes = bytes_of_list(&list_of(&[TABLE_B]));
    let steady: Vec<u8> = [0, 1].repeat(45_000);
    let at = |place: usize, event: u8| {
        let mut events = steady.clone();
        events[place] = event;
        input_of(&bytes, &events)
    };
    let mut cases = vec![
        Case::new(random, input_of(&bytes, &steady)).known("running 90000 1"),
        Case::new(random, at(81_920, 2)).known("failed 81921 90000"),
        Case::new(random, at(81_919, 3)).known("refused 11 81919"),
    ];
    for _ in 0..2 {
        let input = long_walk(random, 70_000);
        cases.push(Case::new(random, input));
    }
    cases
}

// ---- what is lent

pub fn wrong_lengths(random: &mut Random) -> Case {
    let input = drawn_input(random, 10);
    let mut lengths = RIGHT;
    let which = random.below(4);
    let most = [16_500, 4_200, 4_200, 8_300][which];
    lengths[which] = match random.below(4) {
        0 => 0,
        1 => RIGHT[which] - 1,
        2 => RIGHT[which] + 1,
        _ => random.between(0, most),
    };
    if lengths == RIGHT {
        return wrong_lengths(random);
    }
    Case { lengths, ..Case::new(random, input) }.known("refused 1 0")
}

pub fn fewer_slots(random: &mut Random) -> Case {
    let input = drawn_input(random, 30);
    let slots = random.between(1, 12);
    Case { slots, ..Case::new(random, input) }
}
