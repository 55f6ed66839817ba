// Inputs: cut short, written loosely, with something left over; and lent lengths.

use crate::case::*;
use crate::damage::*;
use crate::generate::*;
use crate::numbers::bytes_of_list;
use crate::operations::{READ_OUTPUT, WORK};
use crate::random::Random;
use crate::refusal::*;
use crate::role::{roles, Role};
use crate::table::*;
use crate::worked;

// Some tables with two sets, one of them by rows, and a parameter and a call in their terms.
pub fn telling_tables(random: &mut Random, count: usize) -> Vec<Table> {
    let mut tables = Vec::new();
    while tables.len() < count {
        let table = small(random, SMALL);
        let roles = roles(&table);
        let parameter = roles.iter().any(|role| matches!(role, Role::Parameter { .. }));
        let call = roles.iter().any(|role| matches!(role, Role::Called { .. }));
        if parameter && call && (24..48).contains(&roles.len()) {
            tables.push(table);
        }
    }
    tables
}

pub fn cut_short_at_each_byte(random: &mut Random) -> Vec<Case> {
    let mut cases = Vec::new();
    let mut lists = vec![bytes_as_list(&worked::hex(worked::TABLE_B))];
    lists.extend(telling_tables(random, 5).iter().map(Table::list));
    for list in lists {
        for place in 0..list.len() {
            let list = list[..place].to_vec();
            let fault = Fault { list, number: TRUNCATED, place };
            let mut all = all_of_fault(&fault);
            cases.push(all.swap_remove(0));
            cases.push(one_of_fault(random, &fault));
        }
    }
    // within a number: one or two bytes of it are there
    for table in telling_tables(random, 2) {
        let bytes = bytes_of_list(&table.list());
        for place in 0..bytes.len() {
            for begun in [&[0x80][..], &[0xFF, 0x80], &[0x80, 0xFF]] {
                let cut = [&bytes[..place], begun].concat();
                let answer = (TRUNCATED, cut.len());
                cases.push(Case::known(read_of(cut), answer));
            }
        }
    }
    cases
}

pub fn bytes_as_list(bytes: &[u8]) -> Vec<u16> {
    bytes.iter().map(|&byte| byte as u16).collect()
}

// A number written loosely, by the low seven bits of its value.
pub fn loose_forms(random: &mut Random, low: u8) -> Vec<Vec<u8>> {
    let first = low | 0x80;
    let second = 0x80 | random.below(128) as u8;
    vec![
        vec![first, 0x00],
        vec![first, 0x80, 0x00],
        vec![first, second, 0x00],
        vec![first, second, 0x04],
        vec![first, second, 0x80],
        vec![first, second, 0x84],
        vec![first, second, random.between(4, 255) as u8],
        vec![0xFF, 0xFF, 0x04],
        vec![0xFF, 0xFF, 0xFF],
    ]
}

// In the place of each number, with the rest of the table after it or at the input's end.
pub fn loose_at_each_number(random: &mut Random) -> Vec<Case> {
    let mut cases = Vec::new();
    for table in telling_tables(random, 2) {
        let bytes = bytes_of_list(&table.list());
        for place in 0..bytes.len() {
            for form in loose_forms(random, bytes[place]) {
                let mut damaged = [&bytes[..place], &form[..]].concat();
                if random.once_in(2) {
                    damaged.extend(&bytes[place + 1..]);
                }
                cases.push(Case::known(read_of(damaged), (MALFORMED, place)));
            }
        }
    }
    cases
}

// What follows a table is not read as numbers.
pub fn left_over_bytes(random: &mut Random) -> Vec<Case> {
    let mut cases = Vec::new();
    let mut tables: Vec<Vec<u8>> = vec![worked::hex(worked::TABLE_B)];
    for _ in 0..7 {
        tables.push(bytes_of_list(&small(random, SMALL).list()));
    }
    for bytes in &tables {
        let place = bytes.len();
        let mut rests = loose_forms(random, 0);
        rests.extend([vec![0], vec![5], vec![0x7F], vec![0x80], vec![0x80, 0x80], vec![0x80, 1]]);
        rests.extend([bytes.clone(), vec![0; 40], vec![0xFF; 40]]);
        for rest in rests {
            let over = [&bytes[..], &rest[..]].concat();
            cases.push(Case::known(read_of(over), (TRAILING_INPUT, place)));
        }
    }
    cases
}

// Lent lengths: 1 before all else, but last of all for Write's output.
pub fn wrong_measure(random: &mut Random) -> Vec<Case> {
    let mut cases = Vec::new();
    for i in 0..40 {
        let mut list = small(random, SMALL).list();
        let mut known = None;
        if i % 2 == 0 {
            let fault = CLAUSES[random.below(CLAUSES.len())].1(random);
            known = Some((fault.number, fault.place));
            list = fault.list;
        }
        let bytes = bytes_of_list(&list);
        let wrong_out = *random.pick(&[0, 1, bytes.len(), 8_192, 16_383, 16_385, 16_400]);
        let wrong_work = *random.pick(&[0, 1, 4_096, 8_191, 8_193, 8_300]);
        let short = random.below(bytes.len() + 1).saturating_sub(1);
        let mut refused = |call| cases.push(Case::known(call, (WRONG_LENGTH, 0)));
        let read_with =
            |out_len, work_len| Call::Read { bytes: bytes.clone(), out_len, work_len };
        refused(read_with(wrong_out, WORK));
        refused(read_with(READ_OUTPUT, wrong_work));
        refused(read_with(wrong_out, wrong_work));
        let write_with =
            |out_len, work_len| Call::Write { list: list.clone(), out_len, work_len };
        refused(write_with(READ_OUTPUT, wrong_work));
        refused(write_with(short, wrong_work));
        let answer = known.unwrap_or((WRONG_LENGTH, 0));
        cases.push(Case::known(write_with(short, WORK), answer));
        let count = bytes.len();
        for out_len in [count, count + 1, READ_OUTPUT, 16_500] {
            cases.push(Case::known(write_with(out_len, WORK), known.unwrap_or((0, count))));
        }
    }
    cases
}
