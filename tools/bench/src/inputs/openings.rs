// Lanes over {} whose definitions open into the same residual several times: one leaf moves at an
// event, beside others that wait.

use super::*;
use reference::random::Random;

pub fn inputs() -> Vec<Input> {
    vec![
        cycle(
            "stress: 6 equal, one lane",
            "P = {0} -> 6 times Q, Q = {1} -> 6 times P; one residual, one leaf with 6 equal openings",
            lanes(1, 2, 6),
            vec![],
            turns(1, 2),
        ),
        cycle(
            "stress: 8 equal, eight lanes",
            "eight lanes of three definitions, each {e} -> 8 times the next, over {}; one residual",
            lanes(8, 3, 8),
            vec![],
            turns(8, 3),
        ),
        cycle(
            "stress: 32 equal, four lanes",
            "four lanes of three definitions, each {e} -> 32 times the next, over {}; one residual",
            lanes(4, 3, 32),
            vec![],
            turns(4, 3),
        ),
    ]
}

// k lanes over {}: lane i is of the definitions from d * i on, each of which takes its own number
// and then is n times the next of its lane.
fn lanes(k: u16, d: u16, n: usize) -> Vec<u16> {
    let mut sets = vec![Set::Plain(vec![])];
    sets.extend((0..k * d).map(|e| Set::Plain(vec![e])));
    let mut definitions = Vec::new();
    for number in 0..k * d {
        let next = number / d * d + (number + 1) % d;
        definitions.push(definition(0, prefix(plain(number + 1), times(n, Term::Call(next)))));
    }
    let starts = (0..k).map(|i| Term::Call(d * i)).collect();
    definitions.push(definition(1, beside(plain(0), starts)));
    Table { alphabet: k * d, sets, definitions }.list()
}

// A choice of n times the same.
fn times(n: usize, term: Term) -> Term {
    if n == 1 {
        return term;
    }
    choice(times(n / 2, term.clone()), times(n - n / 2, term))
}

// The lanes' events, each lane's in order, at random among each other; twenty rounds of each.
fn turns(k: usize, d: usize) -> Vec<u8> {
    let mut random = Random::new(5);
    let mut done = vec![0; k];
    let mut events = Vec::new();
    while events.len() < 20 * k * d {
        let i = random.below(k);
        if done[i] < 20 * d {
            events.push((d * i + done[i] % d) as u8);
            done[i] += 1;
        }
    }
    events
}
