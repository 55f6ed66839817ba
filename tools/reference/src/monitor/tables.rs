// Seeded tables for histories: accepted, and mostly with something to follow.
//     lively          a drawn table whose monitor opens and goes on
//     remembering     nested prefixes whose sets depend on the events taken
//     wide_loops      loops beside each other, with many residuals
//     full_alphabet   A = 64 or 128, with sets that tell the upper events apart
//     repeating       one event of a few, over and over

use super::operations::{offer, open, MOST_AREA};
use crate::generate::*;
use crate::operations::{check, WORK};
use crate::random::Random;
use crate::table::*;

// Whether the monitor opens on it, and some event is permitted.
pub fn goes_on(table: &Table) -> bool {
    let list = table.list();
    let started = open(&list, &[vec![0; MOST_AREA], vec![0; MOST_AREA]], &[], WORK);
    match started.answer.record {
        Some(record) => {
            offer(&list, record, &started.areas, WORK).answer.unwrap_or([0; 2]) != [0; 2]
        }
        None => false,
    }
}

pub fn lively(random: &mut Random, bounds: Bounds) -> Table {
    loop {
        let table = small(random, bounds);
        let small_enough = table.list().len() <= 300;
        if small_enough && (goes_on(&table) || random.once_in(300)) {
            return table;
        }
    }
}

// A row with most events of the alphabet.
fn full_row(random: &mut Random, alphabet: u16) -> Row {
    (0..alphabet).filter(|_| !random.once_in(4)).collect()
}

// Row v holds v and some others, or v + 1 and some others: it tells the parameters apart.
fn rows(random: &mut Random, alphabet: u16) -> Set {
    let shift = random.below(2) as u16;
    let part = random.between(2, 4);
    let row = |random: &mut Random, v: u16| -> Row {
        (0..alphabet).filter(|e| *e == (v + shift) % alphabet || random.once_in(part)).collect()
    };
    Set::Rows((0..alphabet).map(|v| row(random, v)).collect())
}

pub fn remembering(random: &mut Random) -> Table {
    accepted(|| {
        let alphabet = random.between(2, 5) as u16;
        let mut sets = vec![Set::Plain((0..alphabet).collect())];
        sets.push(Set::Plain(full_row(random, alphabet)));
        for _ in 0..random.between(1, 3) {
            sets.push(rows(random, alphabet));
        }
        let definitions = (0..random.between(1, 2))
            .map(|i| definition(0, chain(random, &sets, i, 0, 7 - i, false)))
            .collect();
        Table { alphabet, sets, definitions }
    })
}

// A chain of prefixes with `prefixes` around it, with choices and parallels here and there.
fn chain(
    random: &mut Random,
    sets: &[Set],
    definition: usize,
    prefixes: usize,
    left: usize,
    under_parallel: bool,
) -> Term {
    if left == 0 || (prefixes > 3 && random.once_in(6)) {
        let call = !under_parallel && prefixes > 0 && random.once_in(2);
        return if call { Term::Call(definition as u16) } else { Term::Stop };
    }
    // plain sets first, then those by a parameter, which is often the farthest
    let by_row = prefixes > 0 && !random.once_in(4);
    let set = if by_row { random.between(2, sets.len() - 1) } else { random.below(2) };
    let most = prefixes.min(4);
    let parameter = by_row.then(|| match random.once_in(3) {
        true => most as u16 - 1,
        false => random.below(most) as u16,
    });
    let set = SetReference { set: set as u16, parameter };
    match random.below(12) {
        0 => choice(
            chain(random, sets, definition, prefixes, left / 2, under_parallel),
            chain(random, sets, definition, prefixes, left - 1, under_parallel),
        ),
        1 => parallel(
            set,
            chain(random, sets, definition, prefixes, left / 2, true),
            chain(random, sets, definition, prefixes, left - 1, true),
        ),
        _ => prefix(set, chain(random, sets, definition, prefixes + 1, left - 1, under_parallel)),
    }
}

// Level 0: a few loops; level 1: several of them beside each other.
pub fn wide_loops(random: &mut Random) -> Table {
    accepted(|| {
        let alphabet = random.between(2, 4) as u16;
        let mut sets = vec![Set::Plain((0..alphabet).collect()), Set::Plain(vec![])];
        for _ in 0..random.between(1, 3) {
            sets.push(Set::Plain(row(random, alphabet)));
        }
        let loops = random.between(1, 3);
        let mut definitions = Vec::new();
        for i in 0..loops {
            let mut body = looped(random, &sets, i);
            if random.once_in(3) {
                body = choice(body, looped(random, &sets, i));
            }
            if random.once_in(4) {
                let set = plain(random.below(sets.len()) as u16);
                body = parallel(set, prefix(plain(0), Term::Stop), prefix(plain(0), Term::Stop));
            }
            definitions.push(definition(0, body));
        }
        let mut body = Term::Call(random.below(loops) as u16);
        for _ in 0..random.between(1, 4) {
            let set = plain(random.below(sets.len()) as u16);
            let side = match random.below(4) {
                0 => prefix(plain(0), Term::Call(random.below(loops) as u16)),
                _ => Term::Call(random.below(loops) as u16),
            };
            body = if random.once_in(2) {
                parallel(set, body, side)
            } else {
                parallel(set, side, body)
            };
        }
        definitions.push(definition(1, body));
        Table { alphabet, sets, definitions }
    })
}

// One to three prefixes, then a call of the definition, STOP, or a choice of these.
fn looped(random: &mut Random, sets: &[Set], definition: usize) -> Term {
    let end = |random: &mut Random| match random.once_in(4) {
        true => Term::Stop,
        false => Term::Call(definition as u16),
    };
    let mut term = end(random);
    for _ in 0..random.between(1, 3) {
        if random.once_in(3) {
            term = choice(term, end(random));
        }
        term = prefix(plain(random.below(sets.len()) as u16), term);
    }
    term
}

// Rows at the upper end, a set by a parameter with few events in each row.
pub fn full_alphabet(random: &mut Random, alphabet: u16) -> Table {
    let last = alphabet as usize - 1;
    accepted(|| {
        let upper: Row = (random.between(last - 8, last) as u16..alphabet).collect();
        let few = |random: &mut Random, v: u16| -> Row {
            let mut row: Row = vec![alphabet - 1 - v, v, random.below(last + 1) as u16];
            row.sort();
            row.dedup();
            row
        };
        let sets = vec![
            Set::Plain((0..alphabet).collect()),
            Set::Plain(upper),
            Set::Rows((0..alphabet).map(|v| few(random, v)).collect()),
        ];
        let by = |k: u16| SetReference { set: 2, parameter: Some(k) };
        let last = random.below(3) as u16;
        let inner = prefix(by(0), prefix(by(last.min(1)), prefix(by(last), Term::Call(0))));
        let body = match random.below(3) {
            0 => prefix(plain(0), inner),
            1 => prefix(plain(1), choice(inner, prefix(plain(0), Term::Stop))),
            _ => choice(prefix(plain(0), inner), prefix(plain(1), Term::Stop)),
        };
        let mut definitions = vec![definition(0, body)];
        if random.once_in(2) {
            let set = plain(random.below(2) as u16);
            definitions.push(definition(1, parallel(set, Term::Call(0), Term::Call(0))));
        }
        Table { alphabet, sets, definitions }
    })
}

// One event of these, over and over.
pub fn repeating(alphabet: u16, events: &[u16]) -> Table {
    let sets = vec![Set::Plain(events.to_vec())];
    Table { alphabet, sets, definitions: vec![definition(0, prefix(plain(0), Term::Call(0)))] }
}

// Any of these.
pub fn any(random: &mut Random) -> Table {
    match random.below(8) {
        0 | 1 => lively(random, SMALL),
        2 => lively(random, MIDDLE),
        3..=5 => wide_loops(random),
        _ => remembering(random),
    }
}

// Whether a list is accepted.
pub fn stands(list: &[u16]) -> bool {
    check(list).is_ok()
}
