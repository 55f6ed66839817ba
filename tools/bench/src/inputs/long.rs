// Tables near their limits, which each call judges.

use super::*;

pub fn inputs() -> Vec<Input> {
    vec![
        cycle(
            "long table",
            "A = 64, 28 sets of 64 rows, 1,000 terms, 15,000 numbers; one residual, one leaf",
            long(64, 28, 2, 6),
            vec![],
            vec![0, 1],
        ),
        cycle(
            "3,072 rows",
            "A = 127, 24 sets of 127 rows and 24 of one, 1,000 terms, 12,600 numbers; one residual, one leaf",
            long(127, 24, 24, 2),
            vec![],
            vec![0, 1],
        ),
    ]
}

// Of set s, row v: so many events of one residue by 8; set 0 has row 0 {0, 8, ..} and so on.
fn rows(alphabet: u16, s: u16, events: u16) -> Set {
    let row = |v: u16| -> Row { (0..events).map(|i| (s + v) % 8 + 8 * i).collect() };
    Set::Rows((0..alphabet).map(row).collect())
}

// P = {0} -> {1} -> P, and 31 definitions that nothing calls
fn long(alphabet: u16, many: u16, single: u16, events: u16) -> Vec<u16> {
    let mut sets: Vec<Set> = (0..many).map(|s| rows(alphabet, s, events)).collect();
    sets.extend((0..single).map(|e| Set::Plain(vec![e])));
    let by = |set: u16, k: u16| SetReference { set, parameter: Some(k) };
    let body = |d: u16| {
        let deep =
            (0..28).rev().fold(Term::Stop, |term, i| prefix(by((d + i) % many, i % 3), term));
        let deep = prefix(plain(many), prefix(plain(many), prefix(plain(many), deep)));
        definition(d % 8, deep)
    };
    let mut definitions: Vec<Definition> = (0..31).map(body).collect();
    definitions.push(definition(0, chain(&[many, many + 1], Term::Call(31))));
    Table { alphabet, sets, definitions }.list()
}
