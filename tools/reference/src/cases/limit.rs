// Tables at each limit, which are accepted, and some just beyond it.

use crate::case::*;
use crate::damage::*;
use crate::generate::*;
use crate::random::Random;
use crate::refusal::*;
use crate::role::{roles, Role};
use crate::table::*;

pub fn limit_alphabet(random: &mut Random) -> Vec<Case> {
    let mut cases = Vec::new();
    for alphabet in [1, 2, 63, 64, 65, 127, 128] {
        let full: Row = (0..alphabet).collect();
        let last: Row = vec![alphabet - 1];
        let rows = (0..alphabet).map(|v| if v % 2 == 0 { vec![v] } else { vec![] }).collect();
        let sets = vec![Set::Plain(full), Set::Plain(last), Set::Rows(rows)];
        let inner = prefix(SetReference { set: 2, parameter: Some(0) }, Term::Call(0));
        let definitions = vec![definition(0, prefix(plain(0), inner))];
        cases.extend(all_of_table(&Table { alphabet, sets, definitions }));
    }
    let list = vec![129, 0, 1, 0, 0];
    cases.extend(all_of_fault(&Fault { list, number: OUT_OF_RANGE, place: 0 }));
    // an event in each place of a full row of 64, one too high
    for _ in 0..6 {
        let mut list = vec![64, 1, 0, 64];
        list.extend(0..64);
        list.extend([1, 0, 0]);
        let place = 4 + random.below(64);
        list[place] = 64;
        cases.extend(all_of_fault(&Fault { list, number: OUT_OF_RANGE, place }));
    }
    cases
}

pub fn limit_sets(random: &mut Random) -> Vec<Case> {
    let mut cases = Vec::new();
    for alphabet in [1u16, 2, 3] {
        let sets: Vec<Set> = (0..64).map(|_| set(random, alphabet)).collect();
        let plain_sets = sets.iter().map(|set| Set::Plain(set.rows()[0].clone())).collect();
        for sets in [sets, plain_sets] {
            let reference = |set: u16| SetReference {
                set,
                parameter: (sets[set as usize].kind() == 1).then_some(0),
            };
            let first = (0..64).find(|&set| sets[set].kind() == 0).expect("a plain set") as u16;
            let body = prefix(reference(first), prefix(reference(63), Term::Stop));
            let definitions = vec![definition(0, body)];
            cases.extend(all_of_table(&Table { alphabet, sets, definitions }));
        }
    }
    // 64 full rows of 64
    let sets = vec![Set::Plain((0..64).collect()); 64];
    let definitions = vec![definition(0, prefix(plain(63), Term::Stop))];
    cases.extend(all_of_table(&Table { alphabet: 64, sets, definitions }));
    cases
}

pub fn limit_definitions(random: &mut Random) -> Vec<Case> {
    let mut cases = Vec::new();
    for _ in 0..6 {
        let bounds = Bounds { definitions: 64, depth: 5, ..SMALL };
        let table = accepted(|| loop {
            let mut table = draft(random, bounds);
            table.definitions.truncate(32);
            if table.definitions.len() == 32 {
                return table;
            }
        });
        cases.extend(all_of_table(&table));
    }
    // a chain of calls through all definitions, and one call too high
    let bodies = (0..32).map(|i| match i {
        0 => definition(0, Term::Stop),
        _ => definition(0, choice(Term::Call(i - 1), Term::Fail)),
    });
    let chain = with_bodies(bodies.collect());
    cases.extend(all_of_table(&chain));
    let mut list = chain.list();
    let place = roles(&chain).iter().rposition(|role| matches!(role, Role::Called { .. }));
    let place = place.expect("a call");
    list[place] = 31;
    cases.extend(all_of_fault(&Fault { list, number: WRONG_REFERENCE, place }));
    cases
}

pub fn limit_terms(random: &mut Random) -> Vec<Case> {
    let mut cases = Vec::new();
    for _ in 0..6 {
        cases.extend(all_of_table(&accepted(|| terms_table(random, MOST_TERMS))));
    }
    cases
}

// The 1,025th term, and an input that ends before it.
pub fn terms_above_1024(random: &mut Random) -> Vec<Case> {
    let mut cases = Vec::new();
    for _ in 0..6 {
        let fault = off_scale_terms(random);
        cases.extend(all_of_fault(&fault));
        let list = fault.list[..fault.place].to_vec();
        cases.extend(all_of_fault(&Fault { list, number: TRUNCATED, place: fault.place }));
    }
    cases
}

pub fn limit_depth(random: &mut Random) -> Vec<Case> {
    let mut cases = Vec::new();
    for _ in 0..20 {
        cases.extend(all_of_table(&accepted(|| deep_table(random, MOST_DEPTH))));
    }
    cases
}

pub fn limit_hands(random: &mut Random) -> Vec<Case> {
    let mut cases = Vec::new();
    for level in 0..=MOST_LEVEL {
        for _ in 0..4 {
            cases.extend(all_of_table(&accepted(|| wide_table(random, level, 8))));
        }
    }
    cases
}

pub fn limit_openings(random: &mut Random) -> Vec<Case> {
    let mut cases = Vec::new();
    for i in 0..16 {
        let table = accepted(|| branches_table(random, 256, i % 2 == 0).0);
        cases.push(one_of_table(random, &table));
    }
    // more than 256 that FAIL makes none of
    for _ in 0..4 {
        let branches = random.between(257, 400);
        let big = branching(random, branches, 4, &[]);
        let doomed = parallel(plain(0), Term::Fail, big);
        cases.push(one_of_table(random, &with_bodies(vec![definition(0, doomed)])));
    }
    cases
}
