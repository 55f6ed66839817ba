// Two faults at once, in the order of refusals; and random changes, whose answers are this
// implementation's alone.

use crate::case::*;
use crate::damage::*;
use crate::generate::*;
use crate::numbers::bytes_of_list;
use crate::random::Random;
use crate::reader::{read_table, List};
use crate::refusal::*;
use crate::table::*;

// 3 to 6: the leftmost, and at one number 3, then 4, then 5; 6 before 7 to 9.
pub fn two_faults_in_reading(random: &mut Random) -> Case {
    loop {
        let (name, make) = *random.pick(&CLAUSES);
        let mut fault = make(random);
        if fault.list.len() > 400 {
            continue;
        }
        let (number, place) = (fault.number, fault.place);
        match random.below(5) {
            // cut short right after the number that is out of range
            0 if number == OUT_OF_RANGE => fault.list.truncate(place + 1),
            // a loose number after it
            1 if number == OUT_OF_RANGE => {
                let mut bytes = bytes_of_list(&fault.list[..place + 1]);
                let at = byte_place(&fault.list, place);
                bytes.extend([0x80, 0x00]);
                bytes.extend(bytes_of_list(&fault.list[place + 1..]));
                return Case::known(read_of(bytes), (number, at));
            }
            // another one out of range after it
            2 if number == OUT_OF_RANGE && place + 1 < fault.list.len() => {
                let after = random.between(place + 1, fault.list.len() - 1);
                fault.list[after] = 65_535;
            }
            // something left over, with 7 to 9 in the table
            3 if number >= WRONG_REFERENCE => {
                let place = fault.list.len();
                fault.list.push(above(random, 0));
                fault = Fault { number: TRAILING_INPUT, place, ..fault };
            }
            // a definition too few, with 7 to 9 in the table
            4 if number >= WRONG_REFERENCE && name != "reference_missing_definition" => {
                let table = table_read(&fault.list);
                if table.definitions.len() < 32 {
                    fault.list[table.first_level() - 1] += 1;
                    let place = fault.list.len();
                    fault = Fault { number: TRUNCATED, place, ..fault };
                }
            }
            _ => continue,
        }
        return one_of_fault(random, &fault);
    }
}

// The table of a list that meets none of 3 to 6.
pub fn table_read(list: &[u16]) -> Table {
    match read_table(List::new(list)) {
        Ok(placed) => placed.table,
        Err(refusal) => unreachable!("{refusal:?} on a list that is read"),
    }
}

// 7, then 8, then 9, the lowest of each: a table with one of these and another definition after
// it.
pub fn two_faults_after_reading(random: &mut Random) -> Case {
    loop {
        let (name, make) = *random.pick(&CLAUSES);
        let fault = make(random);
        if fault.number < WRONG_REFERENCE || name == "reference_missing_definition" {
            continue;
        }
        let mut table = table_read(&fault.list);
        let added = table.definitions.len();
        // the terms added refer to sets 0 to 2, without a parameter
        if added == 32 || table.sets.iter().take(3).filter(|set| set.kind() == 0).count() < 3 {
            continue;
        }
        let level = random.below(8) as u16;
        let many = |random: &mut Random| branching(random, 17, 1, &[]);
        let (number, body) = match random.below(3) {
            0 => (WRONG_REFERENCE, Term::Call(added as u16)),
            1 => (TOO_WIDE, wide(random, 9, 12)),
            _ => (TOO_MANY_BRANCHES, parallel(plain(0), many(random), many(random))),
        };
        let before = table.term_count();
        table.definitions.push(definition(level, body));
        if table.term_count() > MOST_TERMS {
            continue;
        }
        let list = table.list();
        let place = match number {
            WRONG_REFERENCE => list.len() - 1,
            TOO_WIDE => level as usize,
            _ => before,
        };
        // the lower number first; of two alike the lower place
        let first = (number, place).min((fault.number, fault.place));
        return one_of_fault(random, &Fault { list, number: first.0, place: first.1 });
    }
}

// Width, branches or depth about the limit.
pub fn near_limits(random: &mut Random) -> Case {
    let table = match random.below(6) {
        0 => {
            let (branches, follower) = (random.between(254, 259), random.once_in(2));
            branches_table(random, branches, follower).0
        }
        1 | 2 => {
            let depth = random.between(30, 34);
            deep_table(random, depth)
        }
        _ => {
            let (level, width) = (random.below(8) as u16, random.between(7, 10));
            wide_table(random, level, width)
        }
    };
    Case::unknown(random.pick(&calls_of(table.list())).clone())
}

// A draft whose references need not stand.
pub fn wild_references(random: &mut Random) -> Case {
    let bounds = if random.once_in(4) { MIDDLE } else { SMALL };
    let list = draft(random, Bounds { wild: true, ..bounds }).list();
    Case::unknown(random.pick(&calls_of(list)).clone())
}

pub fn calls_of(list: Vec<u16>) -> Vec<Call> {
    vec![read_of(bytes_of_list(&list)), write_of(list.clone()), Call::Check { list }]
}

// A table with some numbers changed, added, dropped or repeated.
pub fn change<T: Copy>(random: &mut Random, list: &mut Vec<T>, new: impl Fn(&mut Random) -> T) {
    for _ in 0..random.between(1, 3) {
        if list.is_empty() {
            return;
        }
        let at = random.below(list.len());
        match random.below(5) {
            0 | 1 => list[at] = new(random),
            2 => {
                let value = new(random);
                list.insert(at, value);
            }
            3 => {
                list.remove(at);
            }
            _ => {
                let to = random.between(at, list.len().min(at + 8));
                let part = list[at..to].to_vec();
                let to = random.below(list.len());
                list.splice(to..to, part);
            }
        }
    }
}

pub fn changed_bytes(random: &mut Random) -> Case {
    let mut bytes = bytes_of_list(&small(random, SMALL).list());
    change(random, &mut bytes, |random| {
        let value = random.below(256) as u8;
        if random.once_in(2) {
            value % 8
        } else {
            value
        }
    });
    Case::unknown(read_of(bytes))
}

pub fn changed_list(random: &mut Random) -> Case {
    let mut list = small(random, SMALL).list();
    change(random, &mut list, |random| match random.below(3) {
        0 => above(random, 0),
        _ => random.below(8) as u16,
    });
    Case::unknown(random.pick(&calls_of(list)).clone())
}
