// Accepted tables that are made to hurt: many results, results with many repeats, results beside a
// side that has none.

use super::*;
use reference::monitor::examples::list_of;
use reference::worked::{beside, chosen, ONE_SET};

pub fn inputs() -> Vec<Input> {
    let mut inputs = vec![
        cycle(
            "stress: 16 each",
            "P = a -> P choice a -> P, eight over {}; 256 residuals, each with 16 results",
            twice("01"),
            vec![],
            vec![0, 0],
        ),
        cycle(
            "stress: 256 each",
            "the same over {0}; 256 residuals, each with the same 256 results",
            twice("00"),
            vec![],
            vec![0, 0],
        ),
        cycle(
            "stress: repeats",
            "P = {0} -> 256 times P, eight over {0}; one residual, eight leaves with 256 repeats",
            repeats(),
            vec![],
            vec![0, 0],
        ),
        cycle(
            "stress: equal openings",
            "the same, through eight definitions, each twice the one before",
            doubled(),
            vec![],
            vec![0, 0],
        ),
        cycle(
            "stress: repeats, one lane",
            "P = {0} -> 256 times P, alone; one residual, one leaf with 256 repeats",
            repeats_alone(256),
            vec![],
            vec![0, 0],
        ),
        cycle(
            "stress: 16 repeats, one lane",
            "P = {0} -> 16 times P, alone; one residual, one leaf with 16 repeats",
            repeats_alone(16),
            vec![],
            vec![0, 0],
        ),
        cycle(
            "stress: two by turns",
            "P, Q = {0} -> 128 times P or Q, alone; two residuals, each with 256 results by turns",
            by_turns(),
            vec![],
            vec![0, 0],
        ),
    ];
    inputs.extend(fresh());
    inputs
}

fn fresh() -> [Input; 6] {
    let different = format!("{ONE_SET} 03 00 {} 00 02 00 05 00 01", chosen(256, "00"));
    let fail =
        format!("{ONE_SET} 02 00 {} 01 04 00 01 {}", chosen(256, "00"), beside(7, "05 00"));
    let mut chain = format!("{ONE_SET} 20 00 01");
    for i in 0..31 {
        chain += &format!(" 00 {}", chosen(8, &format!("05 {i:02X}")));
    }
    let same = format!("04 00 00 00 {} 00 02 00 05 01 01", chosen(256, "05 00"));
    let input = |name, says, list: String, events: &[u8]| Input {
        name,
        says,
        list: list_of(&[&list]),
        slots: SLOTS,
        way: Way::Fresh(events.to_vec()),
    };
    [
        input(
            "stress: same STOP",
            "eight times {0} -> 256 times the same STOP, over {0}; two events, failed",
            format!("{ONE_SET} {same} {}", beside(8, "05 02")),
            &[0, 0],
        ),
        input(
            "stress: crowded",
            "eight times {0} -> 256 different STOPs, over {0}; one event, crowded",
            format!("{different} {}", beside(8, "05 01")),
            &[0],
        ),
        input(
            "stress: beside STOP",
            "seven of these and STOP, over {0}; one event, failed",
            format!("{different} 04 00 {} 00", beside(7, "05 01")),
            &[0],
        ),
        input(
            "stress: beside FAIL",
            "FAIL beside seven calls of 256 branches; failed before its event",
            fail,
            &[0],
        ),
        input(
            "stress: chain of FAIL",
            "FAIL, and 31 definitions of eight calls each; failed before its event",
            chain,
            &[0],
        ),
        input(
            "stress: long paths",
            "a hundred {0} -> five calls through 30 choices each, to 200 different STOPs; one event",
            paths(),
            &[0],
        ),
    ]
}

// def 0 = {0} -> call 8, def i = call i - 1 choice call i - 1, def 9 (level 1) = eight times call 0
// over {0}
fn doubled() -> Vec<u16> {
    let mut table = "0A 00 02 00 05 08".to_string();
    for i in 0..8 {
        table += &format!(" 00 {}", chosen(2, &format!("05 {i:02X}")));
    }
    list_of(&[&format!("{ONE_SET} {table} 01 {}", beside(8, "05 00"))])
}

// def 0 = 200 STOPs; defs 1 to 5 = 30 nested FAIL choice, then the one before; def 6 = a hundred
// times {0} -> call 5
fn paths() -> String {
    let mut table = format!("{ONE_SET} 07 00 {}", chosen(200, "00"));
    for i in 0..5 {
        table += &format!(" 00 {}05 {i:02X}", "03 01 ".repeat(30));
    }
    table + &format!(" 00 {}", chosen(100, "02 00 05 05"))
}

// P = a -> P choice a -> P, eight of them over a set
fn twice(set: &str) -> Vec<u16> {
    let eight = format!("04 {set} ").repeat(7) + &"05 00 ".repeat(8);
    list_of(&[&format!("03 02 00 01 00 00 00 02 00 03 02 00 05 00 02 00 05 00 01 {eight}")])
}

// def 0 = {0} -> call 1, def 1 = `count` times call 0
fn repeats_alone(count: usize) -> Vec<u16> {
    list_of(&[&format!("{ONE_SET} 02 00 02 00 05 01 00 {}", chosen(count, "05 00"))])
}

// defs 0 and 1 = {0} -> call 2, def 2 = 128 times call 0 choice call 1
fn by_turns() -> Vec<u16> {
    let table = "03 00 02 00 05 02 00 02 00 05 02 00";
    list_of(&[&format!("{ONE_SET} {table} {}", chosen(128, "03 05 00 05 01"))])
}

// def 0 = {0} -> call 1, def 1 = 256 times call 0, def 2 (level 1) = eight times call 0 over {0}
fn repeats() -> Vec<u16> {
    let table =
        format!("03 00 02 00 05 01 00 {} 01 {}", chosen(256, "05 00"), beside(8, "05 00"));
    list_of(&[&format!("{ONE_SET} {table}")])
}
