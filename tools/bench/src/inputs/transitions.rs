// Residual sets that recur, but whose transitions are many, or of which one comes late.

use super::*;
use reference::random::Random;

pub fn inputs() -> Vec<Input> {
    vec![
        cycle(
            "few sets, many transitions",
            "eight definitions that each take any of 128 events and call the next; events at random",
            any_of(EVENTS),
            vec![],
            at_random(),
        ),
        cycle(
            "each pair once",
            "the same table; each of 1,024 pairs of a set and an event once, and again",
            any_of(EVENTS),
            vec![],
            each_pair(),
        ),
        cycle(
            "late set",
            "A = 2; a loop of 63 sets, twenty times, then one by a 64th, and again; one residual, one leaf",
            detour(),
            vec![],
            late(),
        ),
    ]
}

const EVENTS: u16 = 128;
const SETS: u16 = 8;

// Eight times any event -> the next.
fn any_of(events: u16) -> Vec<u16> {
    let sets = vec![Set::Plain((0..events).collect())];
    let next = |i: u16| definition(0, prefix(plain(0), Term::Call((i + 1) % SETS)));
    Table { alphabet: events, sets, definitions: (0..SETS).map(next).collect() }.list()
}

fn at_random() -> Vec<u8> {
    let mut random = Random::new(6);
    (0..8_000).map(|_| random.below(EVENTS.into()) as u8).collect()
}

fn each_pair() -> Vec<u8> {
    (0..EVENTS * SETS).map(|i| (i / SETS) as u8).collect()
}

// 31 times {0} -> {0} -> the next, but the last of these {0, 1} -> {0} -> the next; then {0} -> and
// again, which is where it begins. What is remembered of the 1 makes one set more than the 63.
fn detour() -> Vec<u16> {
    let sets = vec![Set::Plain(vec![0]), Set::Plain(vec![0, 1])];
    let mut definitions: Vec<Definition> =
        (0..30).map(|i| definition(0, chain(&[0, 0], Term::Call(i + 1)))).collect();
    definitions.push(definition(0, chain(&[1, 0], Term::Call(31))));
    definitions.push(definition(0, chain(&[0], Term::Call(0))));
    Table { alphabet: 2, sets, definitions }.list()
}

fn late() -> Vec<u8> {
    let mut events = vec![0; 63 * 21];
    events[63 * 20 + 61] = 1;
    events
}
