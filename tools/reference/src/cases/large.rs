// Alphabets of more than 64 events (02, W6): tables at their limits, and just beyond them. Their
// numbers from 128 on are of two bytes, so byte places and list places differ.

use crate::case::*;
use crate::damage::*;
use crate::generate::*;
use crate::numbers::bytes_of_list;
use crate::operations::WORK;
use crate::random::Random;
use crate::refusal::*;
use crate::table::*;

// So many sets of kind 1, whose rows have few events.
fn families(random: &mut Random, alphabet: u16, count: usize) -> Vec<Set> {
    let row = |random: &mut Random, v: u16| match random.below(40) {
        0 => vec![v],
        1 => vec![alphabet - 1],
        _ => Vec::new(),
    };
    (0..count).map(|_| Set::Rows((0..alphabet).map(|v| row(random, v)).collect())).collect()
}

// Some of kind 0, in some of the places.
fn with_plain(random: &mut Random, mut sets: Vec<Set>, alphabet: u16, count: usize) -> Vec<Set> {
    for _ in 0..count {
        let row = vec![random.below(alphabet as usize) as u16];
        sets.insert(random.between(0, sets.len()), Set::Plain(row));
    }
    sets
}

fn table_of(alphabet: u16, sets: Vec<Set>) -> Table {
    Table { alphabet, sets, definitions: vec![definition(0, Term::Stop)] }
}

// The table's list up to the kind of one set more, which passes the bound; then what is given.
fn one_set_more(table: &Table, kind: u16, after: &[u16]) -> Fault {
    let mut list = table.list();
    list.truncate(table.first_level() - 1);
    list[1] += 1;
    let place = list.len();
    list.push(kind);
    list.extend(after);
    Fault { list, number: OUT_OF_RANGE, place }
}

// "all rows together number at most 3,072, else 5 at the kind of the set that passes it"
pub fn limit_rows(random: &mut Random) -> Vec<Case> {
    let mut cases = Vec::new();
    for (alphabet, of_rows, of_one) in [(128, 24, 0), (128, 23, 40), (65, 47, 17), (96, 32, 0)] {
        let sets = families(random, alphabet, of_rows);
        let sets = with_plain(random, sets, alphabet, of_one);
        cases.push(one_of_table(random, &table_of(alphabet, sets)));
    }
    // 3,072 rows, and one set more of either kind or of none; nothing stands after its kind, or
    // a row, or a number that is out of range
    for alphabet in [128, 96] {
        let full = table_of(alphabet, families(random, alphabet, 3_072 / alphabet as usize));
        for kind in [0, 1, 2] {
            for after in [&[][..], &[0, 1, 0, 0], &[65_535]] {
                cases.push(one_of_fault(random, &one_set_more(&full, kind, after)));
            }
        }
        // the kind itself is missing
        let mut fault = one_set_more(&full, 0, &[]);
        fault.list.truncate(fault.place);
        let fault = Fault { number: TRUNCATED, ..fault };
        cases.push(one_of_fault(random, &fault));
    }
    // a row of kind 0 before 23 families: with one family more there are 3,073
    let mut after_one = vec![Set::Plain(vec![127])];
    after_one.extend(families(random, 128, 23));
    let after_one = table_of(128, after_one);
    for after in [&[][..], &[0], &[65_535]] {
        cases.push(one_of_fault(random, &one_set_more(&after_one, 1, after)));
    }
    // 3,055 rows, and 16 of one behind them: a family of 65 more passes
    let most = families(random, 65, 47);
    cases.push(one_of_fault(random, &one_set_more(&table_of(65, most.clone()), 1, &[0])));
    let mut nearly = most;
    nearly.extend(vec![Set::Plain(vec![64]); 16]);
    cases.push(one_of_fault(random, &one_set_more(&table_of(65, nearly), 1, &[0])));
    // at most 64 events: 4,096 rows stand as before
    for alphabet in [64, 63] {
        let table = table_of(alphabet, families(random, alphabet, 64));
        cases.push(one_of_table(random, &table));
    }
    cases
}

// Events beside the ends of the two words of a row, alone and together, in each kind of set.
pub fn large_events(random: &mut Random) -> Vec<Case> {
    let mut cases = Vec::new();
    for alphabet in [65u16, 66, 127, 128] {
        let ends: Row =
            [0, 62, 63, 64, 65, 126, 127].into_iter().filter(|&e| e < alphabet).collect();
        let rows = (0..alphabet).map(|v| if ends.contains(&v) { ends.clone() } else { vec![v] });
        let mut sets: Vec<Set> = ends.iter().map(|&e| Set::Plain(vec![e])).collect();
        sets.push(Set::Plain(ends.clone()));
        sets.push(Set::Plain((0..alphabet).collect()));
        sets.push(Set::Rows(rows.collect()));
        let last = sets.len() as u16 - 1;
        let inner = prefix(SetReference { set: last, parameter: Some(0) }, Term::Call(0));
        let definitions = vec![definition(0, prefix(plain(last - 1), inner))];
        let table = Table { alphabet, sets, definitions };
        cases.extend(all_of_table(&table));
        // an event that is none, and one that does not ascend, in the row of all events
        let list = table.list();
        let full = 2 + 3 * ends.len() + 2 + ends.len();
        assert!(list[full] == 0 && list[full + 1] == alphabet);
        for (at, event) in [(alphabet - 1, alphabet), (64, 63), (64, 128)] {
            let mut list = list.clone();
            let place = full + 2 + at as usize;
            list[place] = event;
            // 128 at 64 is in range where the alphabet is larger; then the next does not ascend
            let place = if event < alphabet && event > at { place + 1 } else { place };
            let fault = Fault { list, number: OUT_OF_RANGE, place };
            cases.push(one_of_fault(random, &fault));
        }
    }
    cases
}

// A = 128, and one set of full rows, one of so many events, and empty ones: its bytes.
fn nearly_full(bytes: usize) -> Table {
    // two bytes for A, and one each for the counts of sets and definitions, the kind, the level
    // and the body; 130 for each full row, one for each other's count
    let full = (bytes - 7 - 3) / 130;
    let left = bytes - 7 - full * 130 - (128 - full);
    let mut rows = vec![(0..128).collect::<Row>(); full];
    rows.push((0..left as u16).collect());
    rows.resize(128, Row::new());
    table_of(128, vec![Set::Rows(rows)])
}

// "2 (its bytes would be too many)": fewer numbers than bytes, so a list of fewer than 16,384
// numbers can be too long, and Write's output too short for it though it has as many places.
pub fn large_bytes(_: &mut Random) -> Vec<Case> {
    let most = nearly_full(MOST_BYTES);
    let list = most.list();
    let bytes = bytes_of_list(&list);
    assert!(bytes.len() == MOST_BYTES && list.len() < MOST_BYTES);
    let mut cases = all_of_table(&most);
    let short = |out_len| Call::Write { list: list.clone(), out_len, work_len: WORK };
    cases.push(Case::known(short(list.len()), (WRONG_LENGTH, 0)));
    cases.push(Case::known(short(MOST_BYTES - 1), (WRONG_LENGTH, 0)));
    let over = nearly_full(MOST_BYTES + 1).list();
    assert!(over.len() < MOST_BYTES);
    cases.extend(all_of_fault(&Fault { list: over, number: TOO_LONG, place: 0 }));
    // what is left over stands at another place in the bytes than in the list
    let mut trailing = nearly_full(MOST_BYTES - 1).list();
    let place = trailing.len();
    trailing.push(0);
    cases.extend(all_of_fault(&Fault { list: trailing, number: TRAILING_INPUT, place }));
    cases
}

// Small tables of large alphabets, with faults that have other places in bytes and in lists.
pub fn large_small(random: &mut Random) -> Vec<Case> {
    let mut cases = Vec::new();
    for _ in 0..40 {
        let alphabet = *random.pick(&[65, 100, 127, 128, 128, 128]);
        let full: Row = (0..alphabet).collect();
        let some = row(random, alphabet);
        let sets = vec![Set::Plain(full), Set::Plain(some), Set::Plain(vec![alphabet - 1])];
        let body = prefix(plain(0), prefix(plain(1), Term::Call(0)));
        let table = Table { alphabet, sets, definitions: vec![definition(0, body)] };
        cases.push(one_of_table(random, &table));
        let list = table.list();
        let place = random.below(list.len());
        let cut = Fault { list: list[..place].to_vec(), number: TRUNCATED, place };
        cases.push(one_of_fault(random, &cut));
        let place = list.len() - 1;
        let mut call = list;
        call[place] = 1;
        let fault = Fault { list: call, number: WRONG_REFERENCE, place };
        cases.push(one_of_fault(random, &fault));
    }
    cases
}
