// Many residuals at a time, and residuals that remember events.

use super::*;
use reference::random::Random;

pub fn inputs() -> Vec<Input> {
    vec![
        cycle(
            "a hundred trees",
            "six lanes of the same three events, over {}; 60 to 90 residuals, six leaves each",
            same_lanes(),
            vec![0, 0, 0, 0, 1, 1],
            vec![2, 0, 1],
        ),
        cycle(
            "a hundred leaves",
            "25 loops of four events, each at its four places; 100 residuals, one leaf each",
            phases(),
            vec![0, 0, 0, 0],
            vec![0, 0, 0, 0],
        ),
        cycle(
            "ever different",
            "four lanes that remember, over {}; about ninety residuals, four leaves each, in ever other sets",
            marked_lanes(),
            vec![],
            ever_different(),
        ),
        cycle(
            "remembered",
            "A = 64; each event one of a row by an event up to four back; one residual, one leaf",
            remembered(MARKS),
            vec![],
            recalled(MARKS.into()),
        ),
        cycle(
            "remembered, 128 events",
            "A = 128; the same with twice the events; one residual, one leaf",
            remembered(128),
            vec![],
            recalled(128),
        ),
        cycle(
            "remembered by two",
            "two such lanes, over {}, taking turns at random; one residual, two leaves",
            remembered_by_two(),
            vec![],
            recalled_by_two(),
        ),
        cycle(
            "equal choices",
            "remembered beside two loops that choose between equals; one residual, in ever other sets",
            remembered_beside(Term::Call(0)),
            vec![],
            recalled(MARKS.into()),
        ),
        cycle(
            "two choices",
            "the same, between an event more and none; four residuals, in ever other sets",
            remembered_beside(prefix(plain(0), Term::Call(0))),
            vec![],
            recalled(MARKS.into()),
        ),
    ]
}

// Six times {0} -> {1} -> {2} -> and again. With two lanes at each place there are 90 ways.
fn same_lanes() -> Vec<u16> {
    let mut sets: Vec<Set> = (0..3).map(|e| Set::Plain(vec![e])).collect();
    sets.push(Set::Plain(vec![]));
    let definitions = vec![
        definition(0, chain(&[0, 1, 2], Term::Call(0))),
        definition(1, beside(plain(3), (0..6).map(|_| Term::Call(0)).collect())),
    ];
    Table { alphabet: 3, sets, definitions }.list()
}

// 25 loops of four events {0}; the start chooses a loop and a delay of 0 to 3 events.
fn phases() -> Vec<u16> {
    let sets = vec![Set::Plain(vec![0])];
    let mut definitions = Vec::new();
    let mut starts = Vec::new();
    for i in 0..25 {
        definitions.push(definition(0, chain(&[0, 0, 0, 0], Term::Call(i))));
        for delay in 0..4 {
            starts.push(chain(&vec![0; delay], Term::Call(i)));
        }
    }
    definitions.push(definition(0, balanced(starts)));
    Table { alphabet: 1, sets, definitions }.list()
}

const LANES: u16 = 4;
// The events of one step of a lane.
const STEP: u16 = 16;

// Four times x of the first 16 events -> one of the next 16 -> 32 and x -> and again.
fn marked_lanes() -> Vec<u16> {
    let again = |v: u16| if v < STEP { vec![2 * STEP + v] } else { vec![] };
    let sets = vec![
        Set::Plain((0..STEP).collect()),
        Set::Plain((STEP..2 * STEP).collect()),
        Set::Rows((0..3 * STEP).map(again).collect()),
        Set::Plain(vec![]),
    ];
    let lane = prefix(plain(0), prefix(plain(1), prefix(by(2, 1), Term::Call(0))));
    let lanes = beside(plain(3), (0..LANES).map(|_| Term::Call(0)).collect());
    Table {
        alphabet: 3 * STEP,
        sets,
        definitions: vec![definition(0, lane), definition(1, lanes)],
    }
    .list()
}

// Two lanes wait for their second step and one for its last; then six times a second step, a last
// and a first one: which lane took which event is open, and up to 192 residuals say so. Then all
// lanes come back to where they began.
fn ever_different() -> Vec<u8> {
    let mut random = Random::new(5);
    let mut events = Vec::new();
    let steps = [&[0, 0, 0, 1][..], &[1, 2, 0].repeat(6), &[1, 1, 2, 2, 2]].concat();
    for _ in 0..100 {
        // the first events of lanes after their first step, and after their second
        let (mut first, mut second): (Vec<u8>, Vec<u8>) = (Vec::new(), Vec::new());
        for &step in &steps {
            let mark = loop {
                let mark = random.below(STEP.into()) as u8;
                if step > 0 || !first.contains(&mark) && !second.contains(&mark) {
                    break mark;
                }
            };
            let mark = match step {
                0 => {
                    first.push(mark);
                    mark
                }
                1 => {
                    second.extend(first.pop());
                    mark
                }
                _ => second.pop().expect("a lane after its second step"),
            };
            events.push(step * STEP as u8 + mark);
        }
    }
    events
}

// A choice of these, nested as little as can be.
fn balanced(mut terms: Vec<Term>) -> Term {
    if terms.len() == 1 {
        return terms.remove(0);
    }
    let right = terms.split_off(terms.len() / 2);
    choice(balanced(terms), balanced(right))
}

// Set `of` by the event that the k-th enclosing prefix took.
fn by(of: u16, k: u16) -> SetReference {
    SetReference { set: of, parameter: Some(k) }
}

const MARKS: u16 = 64;

// All; row v is v alone; row v is the four events after v.
fn mark_sets(marks: u16) -> Vec<Set> {
    let after = |v: u16| {
        let mut row: Row = (1..5).map(|i| (v + i) % marks).collect();
        row.sort();
        row
    };
    vec![
        Set::Plain((0..marks).collect()),
        Set::Rows((0..marks).map(|v| vec![v]).collect()),
        Set::Rows((0..marks).map(after).collect()),
    ]
}

// x in all, y after x, x again, y again, one after x, and again
fn recalling(call: u16) -> Term {
    let last = prefix(by(2, 3), Term::Call(call));
    prefix(plain(0), prefix(by(2, 0), prefix(by(1, 1), prefix(by(1, 1), last))))
}

fn remembered(marks: u16) -> Vec<u16> {
    let definitions = vec![definition(0, recalling(0))];
    Table { alphabet: marks, sets: mark_sets(marks), definitions }.list()
}

// Beside it, over all events, twice Q = any event -> Q choice another term: a step of it has no moves.
fn remembered_beside(other: Term) -> Vec<u16> {
    let definitions = vec![
        definition(0, prefix(plain(0), choice(Term::Call(0), other))),
        definition(0, recalling(1)),
        definition(1, beside(plain(0), vec![Term::Call(0), Term::Call(0), Term::Call(1)])),
    ];
    Table { alphabet: MARKS, sets: mark_sets(MARKS), definitions }.list()
}

fn recalled(marks: usize) -> Vec<u8> {
    let mut random = Random::new(3);
    (0..1_000).flat_map(|_| round(&mut random, marks)).collect()
}

fn round(random: &mut Random, marks: usize) -> [u8; 5] {
    let x = random.below(marks);
    let mut after = || (x + random.between(1, 4)) % marks;
    let (y, last) = (after(), after());
    [x, y, x, y, last].map(|e| e as u8)
}

// All events of one lane are below 32, those of the other are not.
fn remembered_by_two() -> Vec<u16> {
    let mut sets = mark_sets(MARKS);
    sets.push(Set::Plain(vec![]));
    let half = |low: u16| {
        let row = |v: u16| -> Row { (low..low + 32).filter(|e| (e + v) % 8 < 2).collect() };
        Set::Rows((0..MARKS).map(row).collect())
    };
    sets.extend([Set::Plain((0..32).collect()), Set::Plain((32..64).collect())]);
    sets.extend([half(0), half(32)]);
    let lane = |i: u16| {
        let own = prefix(by(6 + i, 3), Term::Call(i));
        let own = prefix(by(6 + i, 0), prefix(by(1, 1), prefix(by(1, 1), own)));
        definition(0, prefix(plain(4 + i), own))
    };
    let both = beside(plain(3), vec![Term::Call(0), Term::Call(1)]);
    let definitions = vec![lane(0), lane(1), definition(1, both)];
    Table { alphabet: MARKS, sets, definitions }.list()
}

fn recalled_by_two() -> Vec<u8> {
    let mut random = Random::new(4);
    let mut rounds: [Vec<u8>; 2] = [Vec::new(), Vec::new()];
    for (lane, events) in rounds.iter_mut().enumerate() {
        let low = 32 * lane;
        for _ in 0..1_000 {
            let x = random.between(low, low + 31);
            let mut own = || loop {
                let e = random.between(low, low + 31);
                if (e + x) % 8 < 2 {
                    return e;
                }
            };
            let (y, last) = (own(), own());
            events.extend([x, y, x, y, last].map(|e| e as u8));
        }
    }
    // taking turns at random
    let [mut a, mut b] = rounds.map(|events| events.into_iter());
    let mut events = Vec::new();
    loop {
        let (first, second) = if random.once_in(2) { (&mut a, &mut b) } else { (&mut b, &mut a) };
        match first.next().or_else(|| second.next()) {
            Some(event) => events.push(event),
            None => return events,
        }
    }
}
