// Tests over many generated tables: round trips, and the known answers of faults.

use crate::cases::*;
use crate::damage::*;
use crate::generate::*;
use crate::numbers::bytes_of_list;
use crate::operations::*;
use crate::random::Random;
use crate::stored;
use crate::table::*;

// Read after Write gives the list back, and Write after Read the bytes.
fn round_trip(table: &Table) {
    let list = table.list();
    let written = write(&list, MOST_BYTES, WORK);
    let count = written.answer.expect("an accepted table");
    assert_eq!(written.output.len(), count);
    let read_back = read(&written.output, READ_OUTPUT, WORK);
    assert_eq!(read_back.answer, Ok(list.len()));
    assert_eq!(read_back.output[..list.len()], list[..]);
    assert!(read_back.output[list.len()..].iter().all(|&n| n == 0));
    let again = write(&read_back.output[..list.len()], MOST_BYTES, WORK);
    assert_eq!(again.output, written.output);
    assert_eq!(table_of_list(&list).as_ref(), Ok(table));
    // a number of an accepted table is one byte, but for an alphabet or a row of 128 events
    let two_bytes = list.iter().filter(|&&n| n == 128).count();
    assert!(list.iter().all(|&n| n <= 128) && count == list.len() + two_bytes);
}

#[test]
fn round_trips() {
    let mut random = Random::new(11);
    for i in 0..6_000 {
        round_trip(&small(&mut random, if i % 3 == 0 { MIDDLE } else { SMALL }));
    }
    for level in 0..=MOST_LEVEL {
        round_trip(&accepted(|| wide_table(&mut random, level, 8)));
    }
    round_trip(&accepted(|| terms_table(&mut random, MOST_TERMS)));
    round_trip(&accepted(|| deep_table(&mut random, MOST_DEPTH)));
    round_trip(&accepted(|| branches_table(&mut random, 256, true).0));
    let large = Bounds { alphabet: 128, ..SMALL };
    for _ in 0..200 {
        round_trip(&small(&mut random, large));
    }
    let long = long_table(&mut random, MOST_BYTES, vec![definition(0, Term::Stop)]);
    assert_eq!(long.list().len(), MOST_BYTES);
    round_trip(&long);
}

// Whatever bytes are accepted, they are what Write makes of what Read gave.
#[test]
fn changed_bytes_round_trip() {
    let mut random = Random::new(12);
    let mut stood = 0;
    for _ in 0..60_000 {
        let mut bytes = bytes_of_list(&small(&mut random, SMALL).list());
        for _ in 0..random.between(1, 2) {
            let at = random.below(bytes.len());
            let most = if random.once_in(2) { 4 } else { 256 };
            bytes[at] = random.below(most) as u8;
        }
        if let Ok(table) = table_of_bytes(&bytes) {
            assert_eq!(write(&table.list(), MOST_BYTES, WORK).output, bytes);
            stood += 1;
        }
    }
    assert!(stood > 5_000);
}

// Each fault is met first, on the list and on its bytes.
#[test]
fn faults_are_met() {
    for seed in 0..3 {
        file(seed, 3_000).expect("known answers");
    }
    let mut random = Random::new(13);
    for (name, make) in CLAUSES {
        for _ in 0..400 {
            let fault = make(&mut random);
            let refusal = check(&fault.list).expect_err(name);
            assert_eq!((refusal.number, refusal.place), (fault.number, fault.place), "{name}");
        }
    }
}

// The stored file: not too long, few long lines.
#[test]
fn data_file() {
    let text = stored::text("table_test/data/tables.txt");
    assert!(text.len() < 4_000_000);
    let inputs: Vec<usize> = text
        .lines()
        .filter(|line| !line.starts_with('#'))
        .map(|line| line.split(" = ").next().map_or(0, |call| stored::numbers(call).len()))
        .collect();
    // the lengths of Read's and Write's output and work area are counted too
    assert!(inputs.iter().all(|&numbers| numbers <= MOST_INPUT + 2));
    assert!(inputs.iter().filter(|&&numbers| numbers > LONG_LINE).count() <= MOST_LONG_LINES);
    assert!(inputs.len() >= 3_000);
}

// What is stored wrong on purpose is wrong.
#[test]
fn wrong_cases() {
    let mut wrong = 0;
    for group in groups(1, 0) {
        for case in group.cases.iter().filter(|case| case.wrong.is_some()) {
            let (at, other) = case.wrong.expect("a wrong number");
            assert_ne!(case.given()[at], other, "{}", group.name);
            wrong += 1;
        }
    }
    assert!(wrong >= 100);
}
