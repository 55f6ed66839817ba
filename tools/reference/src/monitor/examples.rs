// Examples worked by hand from the words of 01: their lines stand here, and are not this
// implementation's. Tables are hexadecimal.
//     Example     a table, slots, events, and the line of the program after them
//     drawings    K1 to K12 and others of 01            HEADS    inputs that are cut or loose
//     readings    tables that tell wrong monitors apart
//     stress      tables on which a plain search does not end

use crate::worked::*;

pub struct Example {
    pub list: Vec<u16>,
    pub slots: usize,
    pub events: Vec<u8>,
    pub line: &'static str,
}

pub fn list_of(parts: &[&str]) -> Vec<u16> {
    hex(&parts.join(" ")).into_iter().map(u16::from).collect()
}

fn example(parts: &[&str], events: &[u8], line: &'static str) -> Example {
    lent(256, parts, events, line)
}

fn lent(slots: usize, parts: &[&str], events: &[u8], line: &'static str) -> Example {
    Example { list: list_of(parts), slots, events: events.to_vec(), line }
}

// a to STOP, choice, a to b to STOP
pub const K7: [&str; 2] = [TWO_SETS, "01 00 03 02 00 00 02 00 02 01 00"];
// a to STOP, parallel over {}, itself
pub const K8: [&str; 2] = [THREE_SETS, "01 00 04 02 02 00 00 02 00 00"];
pub const K9: [&str; 2] = [THREE_SETS, "01 00 04 00 02 00 00 02 00 00"];
pub const K11: &str = "03 02 00 02 00 01 01 01 01 01 00 00 01 00 02 00 02 01 00 00";

pub fn drawings() -> Vec<Example> {
    let k4 = [TWO_SETS, "01 00 02 00 01"];
    let k5 = [THREE_SETS, "01 00 04 02 00 01"];
    let k6 = [TWO_SETS, "01 00 03 01 02 00 00"];
    let k10 = [THREE_SETS, "01 00 04 02 02 00 01 02 01 00"];
    vec![
        example(&[TABLE_B], &[0, 0], "failed 2 2"),     // K1
        example(&[TABLE_B], &[2], "failed 1 1"),        // K2
        example(&[TABLE_B], &[0, 1, 0], "running 3 1"), // K3
        example(&k4, &[0], "failed 1 1"),               // K4
        example(&k5, &[], "failed 0 0"),                // K5
        example(&k5, &[0, 1], "failed 0 2"),
        example(&k6, &[0], "running 1 1"), // K6
        example(&k6, &[], "running 0 1"),
        example(&K7, &[], "running 0 2"),
        example(&K7, &[0], "running 1 2"), // K7
        example(&K7, &[0, 1], "running 2 1"),
        example(&K7, &[0, 0], "failed 2 2"),
        example(&K8, &[0], "running 1 2"), // K8
        example(&K8, &[0, 0], "running 2 1"),
        example(&K8, &[0, 0, 0], "failed 3 3"),
        example(&K9, &[0], "running 1 1"), // K9
        example(&K9, &[0, 0], "failed 2 2"),
        example(&k10, &[1, 0], "failed 2 2"), // K10
        example(&k10, &[1], "running 1 1"),
        example(&k10, &[0], "failed 1 1"),
        example(&[K11], &[0, 1], "running 2 1"), // K11
        example(&[K11], &[0, 0], "failed 2 2"),  // K12
        example(&[K11], &[1, 0], "running 2 1"),
        example(&[K11], &[1, 1], "failed 2 2"),
        example(&[K11], &[2], "failed 1 1"),
        // "K7 with one slot is crowded, place 0": its two prefixes at the start
        lent(1, &K7, &[], "refused 13 0"),
        lent(2, &K7, &[0], "running 1 2"),
        // K8 with one slot is crowded after its event
        lent(1, &K8, &[0], "refused 13 0"),
        // "a body nested 32 deep is read, 33 deep is 5"
        example(&[ONE_SET, "01 00", &nested(31)], &[0; 31], "running 31 1"),
        example(&[ONE_SET, "01 00", &nested(31)], &[0; 32], "failed 32 32"),
        example(&[ONE_SET, "01 00", &nested(32)], &[0], "refused 5 71"),
        // "256 openings stand, 257 is 9"
        example(&[ONE_SET, "01 00", &chosen(256, "00")], &[], "running 0 256"),
        lent(255, &[ONE_SET, "01 00", &chosen(256, "00")], &[], "refused 13 0"),
        example(&[ONE_SET, "01 00", &chosen(257, "00")], &[], "refused 9 0"),
        // more of table B
        example(&[TABLE_B], &[0, 0, 1], "failed 2 3"),
        example(&[TABLE_B], &[0, 1, 3], "refused 11 2"),
        example(&[TABLE_B], &[], "running 0 1"),
    ]
}

pub fn readings() -> Vec<Example> {
    // def 0 = a -> call 1, def 1 = STOP, def 2 = call 0: a follower calls a higher number
    let upwards = "03 01 00 01 00 03 00 02 00 05 01 00 00 01 05 00";
    // x in {0,1} to STOP, twice, over {}: STOP keeps its memory
    let stops = "03 02 00 02 00 01 00 00 01 00 04 01 02 00 00 02 00 00";
    // x in {0,1}, then (1 -> 1 -> STOP) parallel over row x of ({1},{0},{}) (1 -> STOP)
    let kept = "03 03 00 02 00 01 01 01 01 01 00 00 00 01 01 \
                01 00 02 00 04 01 00 02 02 02 02 00 02 02 00";
    // P = a -> P, P beside P over {}: both sides give the pair itself
    let both = "03 02 00 01 00 00 00 02 00 02 00 05 00 01 04 01 05 00 05 00";
    // x, then y of row x, then a call of a body that starts with a memory of zeros:
    // x in {0,1} -> call 0, def 0 = y in {0,1} -> row y of ({0},{1},{}) -> STOP
    let fresh = "03 02 00 02 00 01 01 01 00 01 01 00 02 \
                 00 02 00 02 01 00 00 00 02 00 05 00";
    // the k-th enclosing prefix: five events, then row k of them ({0},{1},{2})
    let nth = |k: &str| {
        format!(
            "03 02 00 03 00 01 02 01 01 00 01 01 01 02 01 00 {} 02 01 {k} 00",
            "02 00 ".repeat(5)
        )
    };
    let openings = format!("01 00 04 00 {} 01", chosen(257, "00"));
    vec![
        example(&[upwards], &[0], "running 1 1"),
        example(&[upwards], &[0, 0], "failed 2 2"),
        example(&[stops], &[0, 1], "running 2 2"),
        example(&[stops], &[0, 0], "running 2 1"),
        example(&[kept], &[0, 1], "running 2 1"),
        example(&[kept], &[0, 1, 1], "failed 3 3"),
        example(&[kept], &[1, 1], "running 2 2"),
        example(&[kept], &[1, 1, 1, 1], "running 4 1"),
        example(&[kept], &[1, 1, 1, 1, 1], "failed 5 5"),
        lent(1, &[both], &[0], "running 1 1"),
        lent(1, &[both], &[0, 0, 0, 0], "running 4 1"),
        example(&[fresh], &[1, 0, 0], "running 3 1"),
        example(&[fresh], &[1, 0, 1], "failed 3 3"),
        example(&[fresh], &[1, 1, 1], "running 3 1"),
        example(&[&nth("00")], &[0, 1, 2, 0, 1, 1], "running 6 1"),
        example(&[&nth("00")], &[0, 1, 2, 0, 1, 0], "failed 6 6"),
        example(&[&nth("01")], &[0, 1, 2, 0, 1, 0], "running 6 1"),
        example(&[&nth("02")], &[0, 1, 2, 0, 1, 2], "running 6 1"),
        example(&[&nth("03")], &[0, 1, 2, 0, 1, 1], "running 6 1"),
        example(&[&nth("03")], &[1, 0, 2, 0, 1, 0], "running 6 1"),
        example(&[&nth("03")], &[1, 0, 2, 0, 1, 1], "failed 6 6"),
        // 257 STOPs beside FAIL: accepted, and failed at the start
        example(&[ONE_SET, &openings], &[], "failed 0 0"),
        // a refused table is refused before any event is looked at
        example(&[TABLE_B, "00"], &[9], "refused 6 16"),
    ]
}

// Two leaves of {0} with so many different STOPs behind them, synchronised.
fn two_leaves(left: usize, right: usize) -> String {
    format!("01 00 04 00 02 00 {} 02 00 {}", chosen(left, "00"), chosen(right, "00"))
}

pub fn stress() -> Vec<Example> {
    // P = a -> P choice a -> P, eight of them
    let twice = |set: &str| {
        let eight = format!("04 {set} ").repeat(7) + &"05 00 ".repeat(8);
        format!("03 02 00 01 00 00 00 02 00 03 02 00 05 00 02 00 05 00 01 {eight}")
    };
    // eight times {0} -> 256 times the same STOP, over {0}
    let same = format!("04 00 00 00 {} 00 02 00 05 01 01", chosen(256, "05 00"));
    let same = format!("{ONE_SET} {same} {}", beside(8, "05 02"));
    // eight times {0} -> 256 different STOPs, over {0}; and seven of them and STOP
    let different = format!("{ONE_SET} 03 00 {} 00 02 00 05 00 01", chosen(256, "00"));
    let eight = format!("{different} {}", beside(8, "05 01"));
    let seven = format!("{different} 04 00 {} 00", beside(7, "05 01"));
    // the same eight over {}: each event moves one leaf
    let apart = format!("03 02 00 01 00 00 00 03 00 {} 00 02 00 05 00 01", chosen(256, "00"));
    let apart = format!("{apart} {}{}", "04 01 ".repeat(7), "05 01 ".repeat(8));
    // FAIL beside seven calls of 256 openings
    let beside_fail =
        format!("{ONE_SET} 02 00 {} 01 04 00 01 {}", chosen(256, "00"), beside(7, "05 00"));
    // FAIL, and 31 definitions of eight calls each
    let mut chain = format!("{ONE_SET} 20 00 01");
    for i in 0..31 {
        chain += &format!(" 00 {}", chosen(8, &format!("05 {i:02X}")));
    }
    // P = {0} -> 8 times P: the results of one leaf are all the same
    let eight_equal = format!("{ONE_SET} 02 00 02 00 05 01 00 {}", chosen(8, "05 00"));
    // P, Q = {0} -> 6 times P or Q: they are two by turns
    let by_turns = "03 00 02 00 05 02 00 02 00 05 02 00";
    let by_turns = format!("{ONE_SET} {by_turns} {}", chosen(6, "03 05 00 05 01"));
    // {0} -> 16 times the same STOP
    let one_stop = format!("{ONE_SET} 03 00 00 00 {} 00 02 00 05 01", chosen(16, "05 00"));
    // P = {0} -> 8 times P beside Q = {1} -> Q, over {}
    let equal = format!("00 02 00 05 01 00 {}", chosen(8, "05 00"));
    let beside_loop = format!("{THREE_SETS} 04 {equal} 00 02 01 05 02 01 04 02 05 00 05 02");
    // the same P beside {0} -> 16 different STOPs, over {}: each event moves one of them
    let beside_many =
        format!("{THREE_SETS} 04 {equal} 00 02 00 {} 01 04 02 05 00 05 02", chosen(16, "00"));
    vec![
        example(&[&eight_equal], &[0, 0, 0], "running 3 1"),
        example(&[&eight_equal], &[0, 1], "failed 2 2"),
        lent(1, &[&eight_equal], &[0, 0], "running 2 1"),
        example(&[&by_turns], &[0, 0, 0], "running 3 2"),
        lent(1, &[&by_turns], &[], "refused 13 0"),
        example(&[&one_stop], &[0], "running 1 1"),
        example(&[&one_stop], &[0, 0], "failed 2 2"),
        example(&[&beside_loop], &[0, 1, 0, 0], "running 4 1"),
        example(&[&beside_loop], &[1, 2], "failed 2 2"),
        example(&[&beside_many], &[0], "running 1 17"),
        example(&[&beside_many], &[0, 0, 0], "running 3 17"),
        lent(16, &[&beside_many], &[0], "refused 13 0"),
        example(&[&twice("01")], &[0, 0, 0], "running 3 256"),
        example(&[&twice("01")], &[], "running 0 256"),
        lent(255, &[&twice("01")], &[], "refused 13 0"),
        example(&[&twice("00")], &[0, 0, 0], "running 3 256"),
        lent(255, &[&twice("00")], &[], "refused 13 0"),
        example(&[&same], &[0], "running 1 1"),
        example(&[&same], &[0, 0], "failed 2 2"),
        lent(1, &[&same], &[0], "running 1 1"),
        example(&[&eight], &[0], "refused 13 0"),
        example(&[&seven], &[0], "failed 1 1"),
        lent(1, &[&seven], &[0], "failed 1 1"),
        example(&[&apart], &[0], "refused 13 0"),
        example(&[&apart], &[1], "failed 1 1"),
        example(&[&beside_fail], &[0], "failed 0 1"),
        example(&[&chain], &[0], "failed 0 1"),
        example(&[ONE_SET, &two_leaves(16, 16)], &[0], "running 1 256"),
        lent(255, &[ONE_SET, &two_leaves(16, 16)], &[0], "refused 13 0"),
        example(&[ONE_SET, &two_leaves(16, 17)], &[0], "refused 13 0"),
        example(&[ONE_SET, &two_leaves(1, 256)], &[0], "running 1 256"),
    ]
}

// Whole inputs that end within the table or have something wrong with the length number.
pub const HEADS: [(&str, &str); 13] = [
    ("", "refused 3 0"),
    ("80", "refused 3 0"),
    ("FF FF", "refused 3 0"),
    ("80 00", "refused 4 0"),
    ("FF FF 04", "refused 4 0"),
    ("81 80 01", "refused 2 0"),
    ("FF FF 03", "refused 2 0"),
    ("80 80 01", "refused 3 0"),
    ("10 03 02", "refused 3 2"),
    ("10 00 00 00", "refused 3 3"),
    ("00", "refused 3 0"),
    ("00 01", "refused 3 0"),
    ("01 03", "refused 3 1"),
];

pub fn all() -> Vec<Example> {
    [drawings(), readings(), stress()].into_iter().flatten().collect()
}

#[cfg(test)]
mod tests {
    use super::*;
    use crate::monitor::history::History;
    use crate::monitor::program::{line, peak};
    use crate::numbers::{bytes_of, bytes_of_list};

    // The line of the program, where the example is lent 256 slots.
    fn program_line(list: &[u16], events: &[u8]) -> String {
        let bytes = bytes_of_list(list);
        line(&[bytes_of(bytes.len() as u16), bytes, events.to_vec()].concat())
    }

    #[test]
    fn lines_worked_by_hand() {
        for (i, Example { list, slots, events, line }) in all().into_iter().enumerate() {
            if slots == 256 {
                assert_eq!(program_line(&list, &events), line, "example {i}");
            }
            // in one call, and event by event
            let mut history = History::new();
            history.begin(&list, slots);
            if history.open(&[]).refusal.is_none() {
                history.feed(&events);
            }
            history.known_line(line);
            history.begin(&list, slots);
            let mut refused = history.open(&[]).refusal.is_some();
            for event in &events {
                refused = refused || history.feed(&[*event]).refusal.is_some();
            }
            if !refused {
                history.known_line(line);
            }
            assert_eq!(history.wrong, None, "example {i}");
        }
    }

    #[test]
    fn the_program() {
        let b = hex(TABLE_B);
        let whole = |events: &[u8]| line(&[&[0x10], &b[..], events].concat());
        assert_eq!(whole(&[0, 1, 0]), "running 3 1");
        assert_eq!(whole(&[0, 1, 3]), "refused 11 2");
        assert_eq!(whole(&[0, 0, 1]), "failed 2 3");
        let mut long: Vec<u8> = [0, 1].repeat(2_500);
        long.push(3);
        assert_eq!(whole(&long), "refused 11 5000");
        for (input, expected) in HEADS {
            assert_eq!(line(&hex(input)), expected, "{input}");
            assert_eq!(peak(&hex(input)), None, "{input}");
        }
        // of the events taken: neither a strange one nor one that leaves 272 residuals
        let peak_of = |parts: &[&str], events: &[u8]| {
            let bytes = hex(&parts.join(" "));
            peak(&[bytes_of(bytes.len() as u16), bytes, events.to_vec()].concat())
        };
        assert_eq!(peak_of(&[TABLE_B], &[0, 0, 1]), Some(1));
        assert_eq!(peak_of(&K7, &[0, 1]), Some(2));
        assert_eq!(peak_of(&K8, &[0, 0, 3]), Some(2));
        assert_eq!(peak_of(&[ONE_SET, &two_leaves(16, 17)], &[0]), Some(1));
    }
}
