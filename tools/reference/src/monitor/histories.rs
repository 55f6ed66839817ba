// The test data of the monitor: a text file of histories, in groups. `history::FORMAT` says how
// to read it.
//     groups      all groups for a seed and a number of drawn histories
//     file        the whole file, or the first answer that is not the known one

mod damaged;
mod lengths;
mod limits;
mod opens;
mod peaks;
mod states;
mod tries;
pub(crate) mod walks;
mod worked;
mod wrong;

use super::history::{History, FORMAT};
use crate::random::Random;
use crate::summary::head;
use damaged::*;
use lengths::*;
use limits::*;
use opens::*;
use peaks::*;
use states::*;
use tries::*;
use walks::*;
use worked::*;
use wrong::{wrong_in, Field};

// Where the file comes from, but for the seed and the count.
const SOURCE: &str = "\
# Histories of the monitor: answers of Open, Feed, Try, Offer and View.
# Written by tools/reference, another implementation of 01 and of 02, W1, W4, W6 and W7; in groups
# named worked_* the verdicts and refusals are worked by hand from these, and so are bits and words
# in worked_events and worked_rows; other bits, and digests, are not. The command, in tools/reference:
#     cargo run --release --offline -- histories --seed ";

pub struct Group {
    pub name: &'static str,
    // each answer is wrong on purpose
    pub wrong: bool,
    pub history: History,
}

type Make = fn(&mut Random, &mut History);

// The groups that are drawn: a hundred parts, each group so many.
const DRAWN: [(&str, usize, Make); 56] = [
    ("wrong_lengths_open", 2, wrong_lengths_open),
    ("wrong_lengths_midway", 3, wrong_lengths_midway),
    ("garbage_before_open", 2, garbage_before_open),
    ("refused_tables", 8, refused_tables),
    ("disturbed_place_above_taken", 2, place_above_taken),
    ("disturbed_held_after_failure", 2, held_after_failure),
    ("disturbed_count_zero", 2, count_zero),
    ("disturbed_count_above_slots", 2, count_above_slots),
    ("disturbed_count_beside_slots", 2, count_beside_slots),
    ("disturbed_not_ascending", 2, not_ascending),
    ("disturbed_equal_slots", 2, equal_slots),
    ("disturbed_node_count", 2, node_count),
    ("disturbed_unknown_term", 2, unknown_term),
    ("disturbed_kind", 2, wrong_kind),
    ("disturbed_leaf_missing", 2, leaf_missing),
    ("disturbed_leaf_too_many", 2, leaf_too_many),
    ("disturbed_words_after_tree", 2, words_after_tree),
    ("disturbed_digit_at_alphabet", 2, digit_at_alphabet),
    ("disturbed_digit_beyond_prefixes", 2, digit_beyond_prefixes),
    ("disturbed_reach_above_8", 2, reach_above_8),
    ("disturbed_words_after_count", 2, words_after_count),
    ("disturbed_other_area", 2, other_area),
    ("disturbed_parity", 2, wrong_parity),
    ("disturbed_peak_below_count", 2, peak_below_count),
    ("disturbed_peak_above_slots", 3, peak_above_slots),
    ("disturbed_peak_and_more", 3, peak_and_more),
    ("odd_sides_swapped", 2, sides_swapped),
    ("odd_any_trees", 6, any_trees),
    ("odd_peaks", 5, odd_peaks),
    ("random_words", 4, random_words),
    ("other_table", 3, other_table),
    ("counter", 4, counter),
    ("crowded_settling", 3, crowded_settling),
    ("crowded_midway", 4, crowded_midway),
    ("strange_events", 3, strange_events),
    ("peaks", 6, peaks),
    ("peaks_at_slots", 3, peaks_at_slots),
    ("peaks_after_failure", 3, peaks_after_failure),
    ("pieces_and_at_once", 6, pieces_and_at_once),
    ("alphabet_64", 3, alphabet_64),
    ("alphabet_128", 3, alphabet_128),
    ("offers_128", 2, offers_128),
    ("memory_0_to_3", 6, memory_0_to_3),
    ("offers", 4, offers),
    ("walks", 8, walks),
    ("tried_and_fed", 6, tried_and_fed),
    ("tried_lengths", 3, tried_lengths),
    ("tried_refused_tables", 4, tried_refused_tables),
    ("tried_disturbed", 3, tried_disturbed),
    ("tried_crowded", 4, tried_crowded),
    ("tried_counter", 2, tried_counter),
    ("tried_after_failure", 2, tried_after_failure),
    ("opened_and_fed", 5, opened_and_fed),
    ("opened_midway", 5, opened_midway),
    ("opened_crowded_settling", 3, opened_crowded_settling),
    ("opened_crowded_first", 3, opened_crowded_first),
];

// The groups of answers that are wrong on purpose.
const WRONG: [(&str, Field); 15] = [
    ("stored_number", Field::Number),
    ("stored_place", Field::Place),
    ("stored_has", Field::Has),
    ("stored_taken", Field::Taken),
    ("stored_count", Field::Count),
    ("stored_peak", Field::Peak),
    ("stored_failed", Field::Failed),
    ("stored_at", Field::At),
    ("stored_first", Field::First),
    ("stored_second", Field::Second),
    ("stored_digest", Field::Digest),
    ("stored_further", Field::Further),
    ("stored_kept", Field::Kept),
    ("stored_area", Field::Area),
    ("stored_length", Field::Length),
];

pub fn groups(seed: u64, count: usize) -> Vec<Group> {
    let mut groups = Vec::new();
    let mut add = |name: &'static str, make: &dyn Fn(&mut Random, &mut History)| {
        let mut history = History::new();
        make(&mut Random::named(seed, name), &mut history);
        groups.push(Group { name, wrong: false, history });
    };
    add("worked_drawings", &|_, history| worked_drawings(history));
    add("worked_readings", &|_, history| worked_readings(history));
    add("worked_stress", &|_, history| worked_stress(history));
    add("worked_counter", &|_, history| worked_counter(history));
    add("worked_slots", &|_, history| worked_slots(history));
    add("worked_view", &|_, history| worked_view(history));
    add("worked_lengths", &|_, history| worked_lengths(history));
    add("worked_peaks", &|_, history| worked_peaks(history));
    add("worked_try", &|_, history| worked_try(history));
    add("worked_events", &|_, history| worked_events(history));
    add("worked_rows", &|_, history| worked_rows(history));
    add("worked_open", &|_, history| worked_open(history));
    add("long_tables", &long_tables);
    add("long_calls", &|_, history| long_calls(history));
    for (name, parts, make) in DRAWN {
        add(name, &|random, history| {
            for _ in 0..(count * parts).div_ceil(100) {
                make(random, history);
            }
        });
    }
    for (name, field) in WRONG {
        let mut history = History::new();
        wrong_in(&mut history, field);
        groups.push(Group { name, wrong: true, history });
    }
    groups
}

pub fn file(seed: u64, count: usize) -> Result<String, String> {
    let mut text = format!("{SOURCE}{seed} --count {count}\n");
    text += FORMAT;
    for Group { name, wrong, history } in groups(seed, count) {
        if let Some(found) = history.wrong {
            return Err(format!("group {name}: {found}"));
        }
        text += &head(name, wrong);
        text += &history.text;
    }
    Ok(text)
}

#[cfg(test)]
mod tests {
    use super::*;
    use crate::monitor::history::{BUFFER, MOST_EVENTS};
    use crate::monitor::replay::replay;
    use crate::monitor::summary::summary;
    use crate::stored;

    // not too long, within the bounds that its head names, and the same again
    #[test]
    fn data_file() {
        let text = stored::text("monitor_test/data/histories.txt");
        assert!(text.len() < 6_000_000, "{}", text.len());
        assert_eq!(replay(&text), summary(&text));
        let mut histories = 0;
        for line in text.lines().filter(|line| !line.starts_with('#')) {
            let (call, _) = line.split_once(" =").unwrap_or((line, ""));
            let numbers = stored::numbers(call);
            match &line[..1] {
                "t" => {
                    assert!(numbers.len() <= 16_500);
                    histories += 1;
                }
                "u" => assert!(numbers.len() <= 16_500),
                "b" | "f" => assert!(numbers.len() - 1 <= MOST_EVENTS && numbers[0] <= 8_300),
                "d" => {
                    assert!(numbers.len() - 3 <= MOST_EVENTS && numbers[0] <= 8_300);
                    assert!(numbers[1..3].iter().all(|&length| length <= BUFFER as u64));
                }
                "o" => assert!(numbers[0] <= 8_300),
                "a" => assert!(numbers[..2].iter().all(|&length| length <= BUFFER as u64)),
                _ => {}
            }
        }
        assert!(histories >= 2_000, "{histories}");
    }

    #[test]
    fn known_answers() {
        for seed in 2..4 {
            file(seed, 600).expect("known answers");
        }
    }

    // every refusal is met by every call that has it, and each verdict
    #[test]
    fn every_refusal() {
        let text = stored::text("monitor_test/data/histories.txt");
        let (text, _) = text.split_once("# wrong ").expect("answers that are wrong on purpose");
        for call in ["b", "f", "d", "o"] {
            for number in (1..=13).filter(|&n| n != 4) {
                let has = match call {
                    // its record is new, so that 10 and 12 are not met
                    "b" => number != 10 && number != 12,
                    "f" | "d" => true,
                    _ => number <= 10,
                };
                let met = text.lines().filter(|line| line.starts_with(call)).any(|line| {
                    let (_, answer) = line.split_once("= ").expect("an answer");
                    answer.starts_with(&format!("{number} "))
                });
                assert_eq!(met, has, "{call} {number}");
            }
        }
    }
}
