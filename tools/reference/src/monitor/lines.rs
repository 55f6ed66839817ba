// The test data of the program's line: a text file of inputs, in groups. `FORMAT` says how to
// read it.
//     Case        an input, what is lent, the size of a piece, and the line where it is known
//     groups      all groups for a seed and a number of drawn inputs
//     file        the whole file, or the first line that is not the known one
//     summary     what the test program prints of it

mod made;
mod wrong;

use super::examples::{drawings, readings, stress, Example, HEADS};
use super::program::{line, line_lent, parts};
use crate::case::joined;
use crate::numbers::{bytes_of, bytes_of_list};
use crate::operations::table_of_bytes;
use crate::random::Random;
use crate::summary::{head, printed, spaced};
use crate::worked::hex;
use made::*;
use std::fmt::Write;
use wrong::*;

// Where the file comes from, but for the seed and the count.
const SOURCE: &str = "\
# Inputs of the program, and the line of each.
# Written by tools/reference, another implementation of 01 and of 02, W6; in groups named worked_*
# the lines are worked by hand from these. The command, in tools/reference:
#     cargo run --release --offline -- lines --seed ";

const FORMAT: &str = "\
# A case is a few lines, fields separated by one space, numbers in decimal:
#     i b b ..                    bytes of the input, after those of the `i` lines before
#     l LIST AREA0 AREA1 WORK     the lengths of what is lent, if not 16384 4096 4096 8192
#     s SLOTS                     Read and Open with so many slots, instead of the line
#     c PIECE = KIND A B KIND A B LIST AREA0 AREA1 WORK
#                                 the case: its line at once, and with its events in pieces of
#                                 PIECE bytes; what its front keeps
#     c PIECE = KIND A B          the case, after an `s` line
# KIND is 0 for the line `running A B`, 1 for `failed A B`, 2 for `refused A B`.
# LIST, AREA0, AREA1 and WORK are 1 if the list, an area or the work area must stand as it was
# lent, once the front is opened and no event is fed: number i of the list was 65535 - i mod 16411,
# word i of the others 2^64 - 1 - i. They are 0 if it must not.
# Where a group begins with `# wrong` instead of `# group`, each stored answer is wrong on purpose
# in one number, and a test program must find it wrong.
# An input has at most 100,000 bytes, an `i` line at most 8,000; of what is lent the list has at
# most 16,500 numbers, an area 4,200 words, the work area 8,300.
";

pub const MOST_INPUT: usize = 100_000;
const MOST_IN_LINE: usize = 8_000;
pub const RIGHT: [usize; 4] = [16_384, 4_096, 4_096, 8_192];

#[derive(Clone)]
pub struct Case {
    pub input: Vec<u8>,
    pub lengths: [usize; 4],
    pub slots: usize,
    pub piece: usize,
    pub known: Option<String>,
    // a stored number that is wrong on purpose: its index, and what is stored
    pub wrong: Option<(usize, u64)>,
}

pub struct Group {
    pub name: &'static str,
    pub cases: Vec<Case>,
}

// A table's bytes and events as an input.
pub fn input_of(bytes: &[u8], events: &[u8]) -> Vec<u8> {
    [&bytes_of(bytes.len() as u16), bytes, events].concat()
}

impl Case {
    pub fn new(random: &mut Random, input: Vec<u8>) -> Case {
        let most = if input.len() < 2_000 { 1 } else { 7 };
        let piece = *random.pick(&[most, 7, 16, 97, 1_000, 4_096, 65_536]);
        Case { input, lengths: RIGHT, slots: 256, piece, known: None, wrong: None }
    }

    pub fn known(mut self, line: &str) -> Case {
        self.known = Some(line.to_string());
        self
    }

    fn of_example(random: &mut Random, example: Example) -> Case {
        let input = input_of(&bytes_of_list(&example.list), &example.events);
        let case = Case::new(random, input).known(example.line);
        Case { slots: example.slots, ..case }
    }

    // The line given by this implementation.
    pub fn line(&self) -> String {
        if self.lengths != RIGHT {
            "refused 1 0".to_string()
        } else if self.slots != 256 {
            line_lent(&self.input, 16 * self.slots)
        } else {
            line(&self.input)
        }
    }

    // What opening the front keeps of the list, both areas and the work area: all of them before
    // Read; the areas where Read refuses the table; nothing where a monitor was opened.
    fn kept(&self) -> [u64; 4] {
        if self.lengths != RIGHT {
            return [1; 4];
        }
        match parts(&self.input) {
            Err(_) => [1; 4],
            Ok((bytes, _)) if table_of_bytes(bytes).is_err() => [0, 1, 1, 0],
            Ok(_) => [0; 4],
        }
    }

    // The numbers after `=`, of a case with this line.
    fn numbers(&self, line: &str) -> Vec<u64> {
        let (word, numbers) = line.split_once(' ').expect("a word and numbers");
        let kind = ["running", "failed", "refused"].iter().position(|kind| *kind == word);
        let mut told = vec![kind.expect("a word of the line") as u64];
        told.extend(numbers.split(' ').map(|number| number.parse::<u64>().expect("a number")));
        if self.slots != 256 {
            return told;
        }
        [&told[..], &told, &self.kept()].concat()
    }

    fn text(&self, stored: &[u64]) -> String {
        let mut text = String::new();
        for part in self.input.chunks(MOST_IN_LINE) {
            writeln!(text, "i{}", joined(part)).expect("a string takes any text");
        }
        if self.lengths != RIGHT {
            writeln!(text, "l{}", joined(&self.lengths)).expect("a string takes any text");
        }
        if self.slots != 256 {
            writeln!(text, "s {}", self.slots).expect("a string takes any text");
        }
        writeln!(text, "c {} ={}", self.piece, joined(stored)).expect("a string takes any text");
        text
    }
}

type Make = fn(&mut Random) -> Case;

// The groups that are drawn: a hundred parts, each group so many.
const DRAWN: [(&str, usize, Make); 13] = [
    ("length_loose", 4, length_loose),
    ("length_too_long", 4, length_too_long),
    ("length_cut", 2, length_cut),
    ("cut_in_table", 8, cut_in_table),
    ("refused_tables", 20, refused_tables),
    ("random_bytes", 6, random_bytes),
    ("changed_inputs", 12, changed_inputs),
    ("strange_events", 8, strange_events),
    ("too_many_residuals", 6, too_many_residuals),
    ("walks", 20, walks),
    ("wrong_lengths", 5, wrong_lengths),
    ("fewer_slots", 5, fewer_slots),
    ("long_walks", 6, long_walks),
];

pub fn groups(seed: u64, count: usize) -> Vec<Group> {
    let mut groups = Vec::new();
    let mut add = |name: &'static str, make: &dyn Fn(&mut Random) -> Vec<Case>| {
        groups.push(Group { name, cases: make(&mut Random::named(seed, name)) });
    };
    let all = |random: &mut Random, examples: Vec<Example>| {
        examples.into_iter().map(|e| Case::of_example(random, e)).collect()
    };
    add("worked_heads", &|random| {
        HEADS.map(|(bytes, line)| Case::new(random, hex(bytes)).known(line)).into()
    });
    add("worked_drawings", &|random| all(random, drawings()));
    add("worked_readings", &|random| all(random, readings()));
    add("worked_stress", &|random| all(random, stress()));
    add("cut_at_each_byte", &cut_at_each_byte);
    add("worked_events", &worked_events);
    add("long_tables", &long_tables);
    add("long_inputs", &long_inputs);
    for (name, parts, make) in DRAWN {
        add(name, &|random| (0..(count * parts).div_ceil(100)).map(|_| make(random)).collect());
    }
    add("stored_at_once", &wrong_at_once);
    add("stored_in_pieces", &wrong_in_pieces);
    add("stored_kept", &wrong_kept);
    add("stored_fewer_slots", &wrong_fewer_slots);
    groups
}

pub fn file(seed: u64, count: usize) -> Result<String, String> {
    let mut text = format!("{SOURCE}{seed} --count {count}\n{FORMAT}");
    for Group { name, cases } in groups(seed, count) {
        text += &head(name, cases.iter().all(|case| case.wrong.is_some()));
        for (i, case) in cases.iter().enumerate() {
            let line = case.line();
            if let Some(known) = case.known.as_ref().filter(|known| **known != line) {
                return Err(format!("group {name}: case {}: known {known}, given {line}", i + 1));
            }
            let mut stored = case.numbers(&line);
            if let Some((at, other)) = case.wrong {
                stored[at] = other;
            }
            text += &case.text(&stored);
        }
    }
    Ok(text)
}

pub fn summary(text: &str) -> Result<String, String> {
    printed(text, case_of)
}

// Whether a line is the case itself; none if it is no line of one.
fn case_of(line: &str) -> Option<bool> {
    let (letter, rest) = line.split_at_checked(1)?;
    let parts: Vec<Vec<&str>> = rest.split(" =").map(spaced).collect::<Option<_>>()?;
    let lengths: Vec<usize> = parts.iter().map(|part| part.len()).collect();
    match (letter, lengths.as_slice()) {
        ("i", [_]) | ("l", [4]) | ("s", [1]) => Some(false),
        ("c", [1, 3 | 10]) => Some(true),
        _ => None,
    }
}

#[cfg(test)]
mod tests {
    use super::*;
    use crate::stored;
    use std::collections::BTreeSet;

    // not too long, within the bounds that its head names, and with every refusal that the program
    // can give
    #[test]
    fn data_file() {
        let text = stored::text("drawings_test/data/lines.txt");
        assert!(text.len() < 6_000_000, "{}", text.len());
        assert!(summary(&text).expect("a file of cases").ends_with("\nok\n"));
        let (text, _) = text.split_once("# wrong ").expect("lines that are wrong on purpose");
        let (mut sizes, mut size, mut refusals) = (Vec::new(), 0, BTreeSet::new());
        for line in text.lines() {
            let numbers = stored::numbers(line);
            match &line[..1] {
                "i" => {
                    assert!(numbers.len() <= MOST_IN_LINE);
                    size += numbers.len();
                }
                "c" => {
                    sizes.push(std::mem::take(&mut size));
                    refusals.extend((numbers[1] == 2).then_some(numbers[2]));
                }
                _ => {}
            }
        }
        assert!(sizes.len() >= 400, "{}", sizes.len());
        assert!(sizes.iter().all(|&size| size <= MOST_INPUT));
        assert!(sizes.iter().filter(|&&size| size > 10_000).count() >= 20);
        assert!(sizes.iter().filter(|&&size| size > 70_000).count() >= 3);
        assert_eq!(refusals, BTreeSet::from([1, 2, 3, 4, 5, 6, 7, 8, 9, 11, 13]));
    }

    // what is stored wrong on purpose is wrong
    #[test]
    fn wrong_cases() {
        let mut random = Random::new(1);
        for make in [wrong_at_once, wrong_in_pieces, wrong_kept, wrong_fewer_slots] {
            let cases = make(&mut random);
            assert!(cases.len() >= 20);
            for case in cases {
                let (at, other) = case.wrong.expect("a wrong number");
                assert_ne!(case.numbers(&case.line())[at], other);
            }
        }
    }

    #[test]
    fn cases_are_counted() {
        let text = "# head\n# group a\ni 16 3\ns 1\nc 7 = 2 3 1\n\
                    # group b\nl 1 2 3 4\nc 1 = 2 1 0 2 1 0 1 1 1 1\n\
                    # wrong c\ni 16 3\nc 7 = 2 3 1 2 3 2 1 1 1 1\n";
        assert_eq!(summary(text), Ok("a 1\nb 1\nc 1 of 1 wrong, first 1\nok\n".to_string()));
        assert!(summary("# group a\nx 1\n").is_err());
        assert!(summary("# group a\nc 1 = 2 1 0 2\n").is_err());
        assert!(summary("i 1\n# group a\n").is_err());
    }
}
