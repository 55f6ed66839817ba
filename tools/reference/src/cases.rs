// The test data of tables: a text file, one case per line. `HEAD` says how to read it.
//     groups      all groups for a seed and a number of drawn cases
//     file        the whole file, or the first case whose known answer is not the one given

mod input;
mod large;
mod length;
mod limit;
mod mixed;
mod wrong;

pub use input::loose_forms;
pub use mixed::change;

use crate::case::*;
use crate::damage::CLAUSES;
use crate::generate::{small, MIDDLE, SMALL};
use crate::random::Random;
use crate::summary::head;
use crate::worked;
use input::*;
use large::*;
use length::*;
use limit::*;
use mixed::*;
use wrong::*;

// Where the file comes from, but for the seed and the count.
const SOURCE: &str = "\
# Tables: answers of Read, Write and the list check.
# Written by tools/reference, another implementation of 01 and of 02, W6; groups named worked_* and
# drawings have answers worked by hand from these. The command, in tools/reference:
#     cargo run --release --offline -- cases --seed ";

pub const HEAD: &str = "\
# One case per line, fields separated by one space, numbers in decimal:
#     r OUTLEN WORKLEN : b b .. = NUMBER PLACE OUTPUT WORK    Read of these bytes
#     w OUTLEN WORKLEN : n n .. = NUMBER PLACE OUTPUT WORK    Write of this number list
#     c : n n .. = NUMBER PLACE WORK                          the check of this number list
# No number stands between `:` and `=` where the input is empty. NUMBER is 0 for a result, else
# the refusal's; PLACE is the refusal's place, or for a result r: the count of numbers, w: the
# count of bytes, c: the number of terms.
# Before a call word i of the work area is 2^64 - 1 - i, number i of Read's output
# 65535 - i mod 16411, byte i of Write's 255 - i mod 251. OUTPUT is a digest of the output after
# it: from 1, for each number or byte n
#     d := (d * 16777619 + n) mod 4294967291
# WORK is 0 if the work area must be all zero, 1 if it must stand as it was, 2 if it must hold an
# index and so is not all zero.
# Where a group begins with `# wrong` instead of `# group`, each stored answer is wrong on purpose
# in one number, and a test program must find it wrong.
# A table with an alphabet of 128, or a row of 128 events, has fewer numbers than bytes.
# An input has at most 16,500 numbers, an output at most 16,500, a work area at most 8,300.
";

pub const LONG_LINE: usize = 4_000;
pub const MOST_LONG_LINES: usize = 40;
pub const MOST_INPUT: usize = 16_500;

// All groups; `count` is the number of cases in those that are drawn at random without an end.
pub fn groups(seed: u64, count: usize) -> Vec<Group> {
    let mut groups = worked::groups();
    let mut add = |name: &'static str, make: &dyn Fn(&mut Random) -> Vec<Case>| {
        groups.push(Group { name, cases: make(&mut Random::named(seed, name)) });
    };
    add("limit_alphabet", &limit_alphabet);
    add("limit_sets", &limit_sets);
    add("limit_definitions", &limit_definitions);
    add("limit_terms", &limit_terms);
    add("limit_depth", &limit_depth);
    add("limit_hands", &limit_hands);
    add("limit_openings", &limit_openings);
    add("limit_bytes", &limit_bytes);
    add("limit_rows", &limit_rows);
    add("large_events", &large_events);
    add("large_bytes", &large_bytes);
    add("large_small", &large_small);
    add("long_bytes", &long_bytes);
    add("long_list", &long_list);
    add("terms_above_1024", &terms_above_1024);
    add("cut_short_at_each_byte", &cut_short_at_each_byte);
    add("loose_at_each_number", &loose_at_each_number);
    add("left_over_bytes", &left_over_bytes);
    add("wrong_measure", &wrong_measure);
    // the rest is drawn: a hundred parts, each group so many
    let part = |parts: usize| (count * parts).div_ceil(100);
    for (name, make) in CLAUSES {
        let parts = if name.starts_with("openings") { 1 } else { 2 };
        add(name, &|random| {
            (0..part(parts))
                .map(|_| {
                    let fault = make(random);
                    one_of_fault(random, &fault)
                })
                .collect()
        });
    }
    add("two_faults_in_reading", &|random| drawn(random, part(6), two_faults_in_reading));
    add("two_faults_after_reading", &|random| drawn(random, part(4), two_faults_after_reading));
    add("near_limits", &|random| drawn(random, part(4), near_limits));
    add("accepted_small", &|random| {
        drawn(random, part(12), |random| {
            let table = small(random, SMALL);
            one_of_table(random, &table)
        })
    });
    add("accepted_middle", &|random| {
        drawn(random, part(4), |random| {
            let table = small(random, MIDDLE);
            one_of_table(random, &table)
        })
    });
    add("wild_references", &|random| drawn(random, part(6), wild_references));
    add("random_changes_of_bytes", &|random| drawn(random, part(8), changed_bytes));
    add("random_changes_of_lists", &|random| drawn(random, part(8), changed_list));
    add("stored_number", &wrong_number);
    add("stored_place", &wrong_place);
    add("stored_output", &wrong_output);
    add("stored_work", &wrong_work);
    groups
}

fn drawn(random: &mut Random, count: usize, make: fn(&mut Random) -> Case) -> Vec<Case> {
    (0..count).map(|_| make(random)).collect()
}

// The whole file; or what is wrong with its first wrong case.
pub fn file(seed: u64, count: usize) -> Result<String, String> {
    let mut text = format!("{SOURCE}{seed} --count {count}\n");
    text += HEAD;
    for Group { name, cases } in groups(seed, count) {
        text += &head(name, cases.iter().all(|case| case.wrong.is_some()));
        for case in &cases {
            let mut stored = case.given();
            if case.known_numbers().is_some_and(|known| known != stored[..2]) {
                let line: String = case.line(&stored).chars().take(200).collect();
                return Err(format!("group {name}: known {:?}, given: {line}", case.known));
            }
            if let Some((at, other)) = case.wrong {
                stored[at] = other;
            }
            text += &case.line(&stored);
            text.push('\n');
        }
    }
    Ok(text)
}
