// Lanes of a packing line: loops of a few events, alone and side by side.

use super::*;
use reference::monitor::examples::list_of;
use reference::random::Random;
use reference::worked::TABLE_B;

// A lane's events in order, each one of these.
type Steps = Vec<Vec<u8>>;

pub fn inputs() -> Vec<Input> {
    let apart: Vec<Steps> = (0..8).map(|i| lane(3 * i)).collect();
    vec![
        cycle(
            "two events",
            "01's table B: {0}, {1}, and again; one residual, one leaf",
            list_of(&[TABLE_B]),
            vec![],
            vec![0, 1],
        ),
        cycle(
            "one lane",
            "stamped, then dropped and closed, or cracked out; one or two residuals, one leaf each",
            one_lane(),
            vec![],
            cracked_now_and_then(),
        ),
        cycle(
            "eight lanes",
            "eight lanes of three events each, over {}, at random; one residual, eight leaves",
            lanes(&[]),
            vec![],
            interleaved(&apart, &[]),
        ),
        cycle(
            "eight lanes, one pallet",
            "the same, and an event that all take together after each of their rounds",
            lanes(&[24]),
            vec![],
            interleaved(&apart, &[24]),
        ),
    ]
}

// Three events from one on; the second is one of two.
fn lane(first: u8) -> Steps {
    vec![vec![first], vec![first + 1, first + 2], vec![first]]
}

// P = {0} -> ({1} -> {2} -> P choice {3} -> P)
fn one_lane() -> Vec<u16> {
    let sets = (0..4).map(|e| Set::Plain(vec![e])).collect();
    let body =
        prefix(plain(0), choice(chain(&[1, 2], Term::Call(0)), chain(&[3], Term::Call(0))));
    Table { alphabet: 4, sets, definitions: vec![definition(0, body)] }.list()
}

fn cracked_now_and_then() -> Vec<u8> {
    let mut random = Random::new(1);
    let mut events = Vec::new();
    for _ in 0..2_000 {
        events.push(0);
        match random.once_in(10) {
            true => events.push(3),
            false => events.extend([1, 2]),
        }
    }
    if events.len() % 2 == 1 {
        events.extend([0, 1, 2]);
    }
    events
}

// Eight loops, each {e} -> {e + 1, e + 2} -> {e} -> and again, e = 0, 3, .. 21, over `common`; an
// event of `common` comes before the loop begins again.
fn lanes(common: &[u16]) -> Vec<u16> {
    let mut sets = vec![Set::Plain(common.to_vec())];
    let mut definitions = Vec::new();
    for i in 0..8 {
        sets.push(Set::Plain(vec![3 * i]));
        sets.push(Set::Plain(vec![3 * i + 1, 3 * i + 2]));
        let set = 2 * i + 1;
        let mut steps = vec![set, set + 1, set];
        steps.extend(common.iter().map(|_| 0));
        definitions.push(definition(0, chain(&steps, Term::Call(i))));
    }
    definitions.push(definition(1, beside(plain(0), (0..8).map(Term::Call).collect())));
    Table { alphabet: 25, sets, definitions }.list()
}

// Rounds of the lanes, interleaved at random, and then the common events.
fn interleaved(lanes: &[Steps], common: &[u8]) -> Vec<u8> {
    let mut random = Random::new(2);
    let mut events = Vec::new();
    for _ in 0..200 {
        let mut done = vec![0; lanes.len()];
        let rounds = if common.is_empty() { 5 } else { 1 };
        while done.iter().zip(lanes).any(|(&d, steps)| d < rounds * steps.len()) {
            let i = random.below(lanes.len());
            if done[i] < rounds * lanes[i].len() {
                events.push(*random.pick(&lanes[i][done[i] % lanes[i].len()]));
                done[i] += 1;
            }
        }
        events.extend(common);
    }
    events
}
