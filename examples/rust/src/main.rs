//! The monitor from Rust: table B of document 01 is read, a monitor is opened and fed `0 1 0` in pieces, and each
//! answer is checked. Then areas are sized for another table: by the peak of a trial lot. It prints a line for each
//! call, the same as `../c/main.c`, and ends with status 1 at the first answer that is not the expected one. With the
//! word `lots` it prints a lot sheet, as `../c/sheet.c` does. In the repository's root:
//!
//!     tools/build monitor_c
//!     cargo run --release --offline --manifest-path examples/rust/Cargo.toml
//!     cargo run --release --offline --manifest-path examples/rust/Cargo.toml -- lots
mod cspe;
mod lots;

use cspe::{Monitor, Refusal, State, Table, Verdict, SLOT_WORDS};
use std::process::exit;

const SLOTS: usize = 4;
const MOST_SLOTS: usize = 256;

const TABLE_B: [u8; 16] = [3, 2, 0, 1, 0, 0, 1, 1, 1, 0, 2, 0, 2, 1, 5, 0];

// drawing K8 of document 01: prefix {0} to STOP, twice, side by side
const TABLE_K8: [u8; 20] = [3, 3, 0, 1, 0, 0, 1, 1, 0, 0, 1, 0, 4, 2, 2, 0, 0, 2, 0, 0];

// drawing K7: prefix {0} to STOP, or prefix {0} to prefix {1} to STOP
const TABLE_K7: [u8; 19] = [3, 2, 0, 1, 0, 0, 1, 1, 1, 0, 3, 2, 0, 0, 2, 0, 2, 1, 0];

fn expect(holds: bool, what: &str) {
    if !holds {
        eprintln!("not as expected: {what}");
        exit(1);
    }
}

/// A result, which must be there.
fn given<T>(result: Result<T, Refusal>, what: &str) -> T {
    result.unwrap_or_else(|refusal| {
        eprintln!("not as expected: {what}: {refusal:?}");
        exit(1);
    })
}

/// Prints a state, which must be the one given.
fn show(call: &str, state: State, taken: u64, residuals: u64, verdict: Verdict, peak: u64) {
    expect(state == State { taken, residuals, peak, verdict }, call);
    match verdict {
        Verdict::Running => {
            println!("{call}: running, {taken} taken, {residuals} held, peak {peak}")
        }
        Verdict::Failed(place) => {
            println!("{call}: failed at {place}, {taken} taken, peak {peak}")
        }
    }
}

/// Prints a refusal, which must be the one given.
fn show_refusal<T>(call: &str, result: Result<T, Refusal>, number: u32, place: u64) {
    expect(result.err() == Some(Refusal { number, place }), call);
    println!("{call}: refused {number} at {place}");
}

/// A monitor that took all of its events.
fn opened<'t>(table: &'t Table, slots: usize, events: &[u8], what: &str) -> Monitor<'t> {
    let (monitor, refusal) = given(Monitor::open(table, slots, events), what);
    expect(refusal.is_none(), what);
    monitor
}

/// Prints the events that may come next, as two words of bits: of an alphabet of 3 the second is 0.
fn show_offer(monitor: &mut Monitor, due: u64) {
    let [first, second] = given(monitor.offer(), "offer");
    expect([first, second] == [due, 0], "offer");
    println!("offer: {first} {second}");
}

fn show_view(monitor: &Monitor, words_due: usize, area_due: usize) {
    let (slots, area) = monitor.view();
    expect(slots.len() == words_due && area == area_due, "view");
    println!("view: {} words of area {area}", slots.len());
    for slot in slots.chunks(SLOT_WORDS) {
        // a slot's first word is how many nodes the residual has; then the nodes, the term in the bits from 28 on
        println!("    nodes: {}, term of the first: {}", slot[0], slot[1] >> 28);
    }
}

fn read_and_write() -> Table {
    let table = given(Table::read(&TABLE_B), "read");
    expect(table.numbers().len() == TABLE_B.len(), "how many numbers are read");
    println!("read: {} numbers", table.numbers().len());
    let bytes = given(table.write(), "write");
    expect(bytes == TABLE_B, "what is written");
    println!("write: {} bytes", bytes.len());
    table
}

fn follow(table: &Table) -> Monitor<'_> {
    show_refusal("open without slots", Monitor::open(table, 0, &[]), 1, 0);
    let mut monitor = opened(table, SLOTS, &[], "open");
    show("open", monitor.state(), 0, 1, Verdict::Running, 1);
    show_offer(&mut monitor, 1);

    let events = [0, 1, 0];
    let state = given(monitor.feed(&events[..1]), "feed of the first piece");
    show("feed 0", state, 1, 1, Verdict::Running, 1);
    show_offer(&mut monitor, 2);
    let state = given(monitor.feed(&events[1..]), "feed of the second piece");
    show("feed 1 0", state, 3, 1, Verdict::Running, 1);
    show_offer(&mut monitor, 2);
    show_view(&monitor, SLOT_WORDS, 1);
    monitor
}

/// What events would do, before they are fed; the monitor stays as it is.
fn ask_first(monitor: &mut Monitor) {
    let copy = given(monitor.try_feed(&[1, 1]), "try of events that are not permitted");
    expect(copy.state().verdict == Verdict::Failed(5), "where they fail");
    println!("try 1 1: would fail at 5");
    let copy = given(monitor.try_feed(&[1, 0]), "try of events that are permitted");
    expect(copy.state().verdict == Verdict::Running, "they are permitted");
    println!("try 1 0: would run, {} taken", copy.state().taken);
    show_refusal("try 3", monitor.try_feed(&[3]), 11, 0);
    expect(monitor.state().taken == 3, "the monitor is as it was");
}

fn refuse_and_fail(table: &Table, mut monitor: Monitor) {
    // 3 is no event of an alphabet of 3: the event before it is taken, and the record is the one after it
    show_refusal("feed 1 3 0", monitor.feed(&[1, 3, 0]), 11, 1);
    show("the record", monitor.state(), 4, 1, Verdict::Running, 1);

    let state = given(monitor.feed(&[1]), "feed of an event that is not offered");
    show("feed 1", state, 5, 0, Verdict::Failed(5), 1);
    show_offer(&mut monitor, 0);
    show_view(&monitor, 0, 0);

    // a word of the areas that no call has written
    let mut parts = monitor.parts().clone();
    parts.areas[0][0] = 1;
    show_refusal("feed with a changed area", Monitor::resume(table, parts).feed(&[1]), 10, 0);

    let short = &TABLE_B[..TABLE_B.len() - 1];
    show_refusal("read without the last byte", Table::read(short), 3, short.len() as u64);
}

/// The areas of a table, sized by a trial lot: the largest areas, and then as many slots as the peak.
fn size_areas() {
    let lot = [0, 0];
    let table = given(Table::read(&TABLE_K8), "read of another table");
    let state = opened(&table, MOST_SLOTS, &lot, "open with 256 slots and a trial lot").state();
    show("trial lot with 256 slots", state, 2, 1, Verdict::Running, 2);
    let slots = state.peak as usize;

    let state = opened(&table, slots, &lot, "open with the peak's slots").state();
    show("the same with 2 slots", state, 2, 1, Verdict::Running, 2);

    // one slot less: the first event is refused, which does not move the peak, and there is a monitor
    let (monitor, refusal) =
        given(Monitor::open(&table, slots - 1, &lot), "open with a slot less");
    show_refusal("the same with 1 slot", refusal.map_or(Ok(()), Err), 13, 0);
    show("the record", monitor.state(), 0, 1, Verdict::Running, 1);

    // two residuals before any event, and one slot: the same number and place, and no monitor
    let table = given(Table::read(&TABLE_K7), "read of a third table");
    let refused = Monitor::open(&table, 1, &lot);
    show_refusal("a table that begins with 2, and 1 slot", refused, 13, 0);
    show("the record is kept", monitor.state(), 0, 1, Verdict::Running, 1);
}

fn main() {
    if std::env::args().nth(1).as_deref() == Some("lots") {
        lots::print();
    } else {
        let table = read_and_write();
        let mut monitor = follow(&table);
        ask_first(&mut monitor);
        refuse_and_fail(&table, monitor);
        size_areas();
    }
    println!("ok");
}
