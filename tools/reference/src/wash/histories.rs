// The test data of the wash hours: a text file of calls, in groups. `history::FORMAT` says how to
// read it.
//     groups      all groups for a seed and a number of drawn histories
//     file        the whole file, or the first answer that is not the known one
//     summary     what the test program prints of it

use super::drawn::REASONS;
use super::events::*;
use super::history::{History, ANSWER, FORMAT};
use super::refused::*;
use super::walks::*;
use super::worked;
use super::wrong::{wrong_in, Field};
use crate::random::Random;
use crate::summary::{head, printed, spaced};

// Where the file comes from, but for the seed and the count.
const SOURCE: &str = "\
# Calls of Feed in wash hours.
# Written by tools/reference, another implementation of 01 and of 02, W1, W5 and W6; in groups named
# worked_* the refusals and records are worked by hand from these, digests are not. The command, in
# tools/reference:
#     cargo run --release --offline -- washes --seed ";

pub struct Group {
    pub name: &'static str,
    // each answer is wrong on purpose
    pub wrong: bool,
    pub history: History,
}

type Make = fn(&mut Random, &mut History);
type Worked = fn(&mut History);

const WORKED: [(&str, Worked); 9] = [
    ("worked_timetables", worked::timetables),
    ("worked_changes", worked::changes_of_drawing),
    ("worked_no_change", worked::no_change),
    ("worked_fresh_starts", worked::fresh_starts),
    ("worked_crowded_starts", worked::crowded_starts),
    ("worked_places", worked::places),
    ("worked_order", worked::order),
    ("worked_standing", worked::standing),
    ("worked_alphabets", worked::large_alphabets),
];

// The groups that are drawn: a hundred parts, each group so many.
const DRAWN: [(&str, usize, Make); 20] = [
    ("wrong_lengths", 6, wrong_lengths),
    ("refused_everyday", 4, refused_everyday),
    ("refused_wash", 4, refused_wash),
    ("refused_both", 4, refused_both),
    ("disturbed_before_first", 3, disturbed_before_first),
    ("disturbed", 5, disturbed),
    ("disturbed_on_one_drawing", 4, disturbed_on_one_drawing),
    ("two_faults", 8, two_faults),
    ("clock_back", 6, clock_back),
    ("large_minutes", 4, large_minute),
    ("crowded_first", 3, crowded_first),
    ("crowded_restart", 6, crowded_restart),
    ("crowded_events", 4, crowded_events),
    ("strange_events", 5, strange_events),
    ("counter", 5, counter),
    ("failed_starts", 5, failed_starts),
    ("at_the_bounds", 6, at_the_bounds),
    ("walks", 6, walks),
    ("walks_with_changes", 8, walks_with_changes),
    ("pieces_and_at_once", 6, pieces_and_at_once),
];

// The groups of answers that are wrong on purpose.
const WRONG: [(&str, Field); ANSWER] = [
    ("stored_number", Field::Number),
    ("stored_place", Field::Place),
    ("stored_has", Field::Has),
    ("stored_started", Field::Started),
    ("stored_taken", Field::Taken),
    ("stored_count", Field::Count),
    ("stored_peak", Field::Peak),
    ("stored_failed", Field::Failed),
    ("stored_at", Field::At),
    ("stored_minute", Field::Minute),
    ("stored_digest", Field::Digest),
    ("stored_kept", Field::Kept),
];

pub fn groups(seed: u64, count: usize) -> Vec<Group> {
    let mut groups = Vec::new();
    let mut add = |name: &'static str, make: &dyn Fn(&mut Random, &mut History)| {
        let mut history = History::new();
        make(&mut Random::named(seed, name), &mut history);
        groups.push(Group { name, wrong: false, history });
    };
    let part = |parts: usize| (count * parts).div_ceil(100);
    for (name, make) in WORKED {
        add(name, &|_, history| make(history));
    }
    add("long_tables", &long_tables);
    add("long_timetables", &long_timetables);
    add("long_calls", &long_calls);
    for (name, reason) in REASONS {
        add(name, &|random, history| {
            (0..part(1)).for_each(|_| bad_timetable(random, history, reason))
        });
    }
    for (name, parts, make) in DRAWN {
        add(name, &|random, history| (0..part(parts)).for_each(|_| make(random, history)));
    }
    for (name, field) in WRONG {
        let mut history = History::new();
        wrong_in(&mut history, field);
        groups.push(Group { name, wrong: true, history });
    }
    groups
}

pub fn file(seed: u64, count: usize) -> Result<String, String> {
    let mut text = format!("{SOURCE}{seed} --count {count}\n");
    text += FORMAT;
    for Group { name, wrong, history } in groups(seed, count) {
        if let Some(found) = history.wrong {
            return Err(format!("group {name}: {found}"));
        }
        text += &head(name, wrong);
        text += &history.text;
    }
    Ok(text)
}

pub fn summary(text: &str) -> Result<String, String> {
    printed(text, case_of)
}

// `f WORK LENGTH0 LENGTH1 FILL STATE : .. = NUMBER PLACE HAS STATE DIGEST KEPT`, with seven lists.
fn case_of(line: &str) -> Option<bool> {
    let (before, answer) = line.strip_prefix('f')?.split_once(" =")?;
    let parts: Vec<Vec<&str>> = before.split(" :").map(spaced).collect::<Option<_>>()?;
    let right = parts.len() == 8 && parts[0].len() == 11 && spaced(answer)?.len() == ANSWER;
    right.then_some(true)
}
