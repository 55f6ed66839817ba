// Tables of 16,384 bytes and a little more: refusal 2, and what comes before it.

use super::MOST_INPUT;
use crate::case::*;
use crate::damage::*;
use crate::generate::*;
use crate::numbers::bytes_of_list;
use crate::operations::WORK;
use crate::random::Random;
use crate::refusal::*;
use crate::table::*;

// A long table that is accepted, its length apart.
pub fn long(random: &mut Random, numbers: usize) -> Table {
    let body = prefix(plain(0), prefix(plain(1), Term::Stop));
    long_table(random, numbers, vec![definition(0, body)])
}

pub fn limit_bytes(random: &mut Random) -> Vec<Case> {
    let mut cases = Vec::new();
    cases.extend(all_of_table(&long(random, MOST_BYTES)));
    cases.push(all_of_table(&long(random, MOST_BYTES - 1)).remove(0));
    let list = long(random, MOST_BYTES).list();
    let short = Call::Write { list, out_len: MOST_BYTES - 1, work_len: WORK };
    cases.push(Case::known(short, (WRONG_LENGTH, 0)));
    // cut short at the end of a full input
    let mut cut = long(random, MOST_BYTES + 60).list();
    cut.truncate(MOST_BYTES);
    let fault = Fault { list: cut, number: TRUNCATED, place: MOST_BYTES };
    cases.push(all_of_fault(&fault).remove(0));
    // left over in a full input
    let mut over = long(random, MOST_BYTES - 1).list();
    over.push(0);
    let fault = Fault { list: over, number: TRAILING_INPUT, place: MOST_BYTES - 1 };
    cases.push(all_of_fault(&fault).remove(0));
    cases.push(Case::known(read_of(vec![0; MOST_BYTES]), (OUT_OF_RANGE, 0)));
    cases
}

// On bytes 2 comes before all but 1.
pub fn long_bytes(random: &mut Random) -> Vec<Case> {
    let too_long = |bytes| Case::known(read_of(bytes), (TOO_LONG, 0));
    let mut left_over = bytes_of_list(&small(random, SMALL).list());
    left_over.resize(MOST_BYTES + 1, 0);
    let table = bytes_of_list(&long(random, MOST_BYTES + 1).list());
    let mut loose = table.clone();
    loose[..2].copy_from_slice(&[0x80, 0x00]);
    let wrong = Call::Read { bytes: vec![0; MOST_BYTES + 1], out_len: 16_383, work_len: WORK };
    vec![
        too_long(table),
        too_long(bytes_of_list(&long(random, MOST_INPUT).list())),
        too_long(left_over),
        too_long(loose),
        too_long(vec![0; MOST_BYTES + 1]),
        Case::known(wrong, (WRONG_LENGTH, 0)),
    ]
}

// On a list 2 comes right after 9.
pub fn long_list(random: &mut Random) -> Vec<Case> {
    let list = long(random, MOST_BYTES + 1).list();
    let last = list.len() - 1;
    let mut cases = all_of_fault(&Fault { list: list.clone(), number: TOO_LONG, place: 0 });
    cases.remove(0);
    let short = Call::Write { list: list.clone(), out_len: 0, work_len: WORK };
    cases.push(Case::known(short, (TOO_LONG, 0)));
    let no_work = Call::Write { list: list.clone(), out_len: 0, work_len: WORK - 1 };
    cases.push(Case::known(no_work, (WRONG_LENGTH, 0)));
    // 5, 6 and 7 at the end, 3 behind the 16,385th number
    let mut kind = list.clone();
    kind[last] = 6;
    let mut over = list.clone();
    over.push(65_535);
    let mut call = list.clone();
    call[last] = 5;
    call.push(1);
    let mut cut = list.clone();
    cut[last] = 3;
    // 8 and 9
    let wide_body = wide(random, 9, 12);
    let wide = long_table(random, MOST_BYTES + 1, vec![definition(4, wide_body)]);
    let (branching, term) = branches_table(random, 257, true);
    let branching = long_table(random, MOST_BYTES + 1, branching.definitions);
    for (list, number, place) in [
        (kind, OUT_OF_RANGE, last),
        (over, TRAILING_INPUT, last + 1),
        (call, WRONG_REFERENCE, last + 1),
        (cut, TRUNCATED, last + 1),
        (wide.list(), TOO_WIDE, 4),
        (branching.list(), TOO_MANY_BRANCHES, term),
    ] {
        let call = if random.once_in(2) { write_of(list) } else { Call::Check { list } };
        cases.push(Case::known(call, (number, place)));
    }
    cases
}
