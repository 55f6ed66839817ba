// Histories worked by hand from 01: each answer that is checked here stands in the source.

use super::states::counted;
use crate::generate::definition;
use crate::monitor::examples::*;
use crate::monitor::history::{Fill, History};
use crate::monitor::residual::{digit_at, node_word, Node};
use crate::monitor::state::Record;
use crate::monitor::tables::repeating;
use crate::operations::WORK;
use crate::refusal::UNKNOWN_EVENT;
use crate::table::*;
use crate::worked::*;

// An example in one call and, if it is not refused, event by event.
fn example(history: &mut History, example: Example) {
    let Example { list, slots, events, line } = example;
    history.begin(&list, slots);
    if history.open(&[]).refusal.is_some() {
        history.known_line(line);
        history.offer();
        history.view();
        return;
    }
    let refused = history.feed(&events).refusal.is_some();
    history.known_line(line);
    history.offer();
    history.view();
    if refused {
        return;
    }
    history.lend(16 * slots, 16 * slots, Fill::Junk);
    history.open(&[]);
    for event in &events {
        history.feed(&[*event]);
    }
    history.known_line(line);
    history.feed(&[]);
    history.known_line(line);
}

pub fn worked_drawings(history: &mut History) {
    for one in drawings() {
        example(history, one);
    }
}

pub fn worked_readings(history: &mut History) {
    for one in readings() {
        example(history, one);
    }
    // a second call, after five events: the place counts the events of its call
    history.begin(&list_of(&[TABLE_B]), 1);
    history.open(&[]);
    history.feed(&[0, 1, 0, 1, 0]);
    history.known_record(5, 1, 1, None);
    history.feed(&[0, 9]);
    history.known(11, 1);
    history.known_record(6, 0, 1, Some(6));
    // K8 with one slot: crowded by 0, failed by 1, and 0 is offered all the same
    history.begin(&list_of(&K8), 1);
    history.open(&[]);
    let bits = history.offer();
    history.known_true(bits == [1, 0], "event 0 alone is offered");
    history.feed(&[0]);
    history.known(13, 0);
    history.known_record(0, 1, 1, None);
    history.feed(&[1, 0]);
    history.known_record(2, 0, 1, Some(1));
}

pub fn worked_stress(history: &mut History) {
    for one in stress() {
        example(history, one);
    }
}

const LAST: u64 = u64::MAX;

// B with taken at its end: 2^64 - 1 is odd, so that area 1 is the present one.
pub fn worked_counter(history: &mut History) {
    let table = list_of(&[TABLE_B]);
    let mut at =
        |taken: u64, events: &[u8], known: (u8, usize), after: (u64, u64, Option<u64>)| {
            history.begin(&table, 2);
            history.open(&[]);
            if taken % 2 == 1 {
                history.feed(&[0]);
            }
            history.set_record(Record { taken, ..history.record });
            history.feed(events);
            history.known(known.0, known.1);
            history.known_record(after.0, after.1, 1, after.2);
            history.offer();
            history.view();
        };
    at(LAST, &[], (0, 0), (LAST, 1, None));
    at(LAST, &[3], (11, 0), (LAST, 1, None));
    at(LAST, &[1], (12, 0), (LAST, 1, None));
    at(LAST, &[0], (12, 0), (LAST, 1, None));
    at(LAST, &[1, 3], (12, 0), (LAST, 1, None));
    at(LAST - 1, &[], (0, 0), (LAST - 1, 1, None));
    at(LAST - 1, &[0], (0, 0), (LAST, 1, None));
    at(LAST - 1, &[0, 1], (12, 1), (LAST, 1, None));
    at(LAST - 1, &[1], (0, 0), (LAST, 0, Some(LAST)));
    at(LAST - 1, &[1, 0], (12, 1), (LAST, 0, Some(LAST)));
    at(LAST - 1, &[1, 200], (11, 1), (LAST, 0, Some(LAST)));
    at(LAST - 2, &[1, 0], (0, 0), (LAST, 1, None));
    at(LAST - 2, &[0, 0], (0, 0), (LAST, 0, Some(LAST - 1)));
    // 12 comes before 13: K8 with one slot
    history.begin(&list_of(&K8), 1);
    history.open(&[]);
    history.set_record(Record { taken: LAST - 1, ..history.record });
    history.feed(&[0]);
    history.known(13, 0);
    history.begin(&list_of(&K8), 1);
    history.open(&[]);
    let slot = history.lent(0).to_vec();
    history.set_words(0, 0, &[0; 16]);
    history.set_words(1, 0, &slot);
    history.set_record(Record { taken: LAST, ..history.record });
    history.feed(&[0]);
    history.known(12, 0);
    let bits = history.offer();
    history.known_true(bits == [1, 0], "event 0 alone is offered");
}

// A node word, memory 0.
fn of(term: usize) -> u64 {
    node_word(Node { term, memory: [0; 4] })
}

// K8: parallel 0, prefix 1, STOP 2, prefix 3, STOP 4; its residual, and others in its place.
pub fn worked_slots(history: &mut History) {
    let mut with = |slots: &[&[u64]], count: u64, known: u8| {
        history.begin(&list_of(&K8), 8);
        history.open(&[]);
        for (i, slot) in slots.iter().enumerate() {
            history.set_words(0, 16 * i, slot);
        }
        history.set_record(counted(history.record, count));
        history.feed(&[]);
        history.known(known, 0);
        history.feed(&[0]);
        history.known(known, 0);
        history.offer();
        history.view();
    };
    // its own; sides swapped; the same side twice; other terms under it; a pair in a pair; a leaf
    with(&[&[3, of(0), of(1), of(3)]], 1, 0);
    with(&[&[3, of(0), of(3), of(1)]], 1, 0);
    with(&[&[3, of(0), of(1), of(1)]], 1, 0);
    with(&[&[3, of(0), of(4), of(1)]], 1, 0);
    with(&[&[5, of(0), of(0), of(1), of(3), of(1)]], 1, 0);
    with(&[&[1, of(3), 0, 0]], 1, 0);
    with(&[&[1, of(4), 0, 0]], 1, 0);
    // smaller trees come first
    with(&[&[1, of(3), 0, 0], &[3, of(0), of(1), of(3)]], 2, 0);
    with(&[&[3, of(0), of(1), of(3)], &[1, of(3)]], 2, 10);
    with(&[&[3, of(0), of(1), of(3)], &[3, of(0), of(1), of(3)]], 2, 10);
    with(&[&[3, of(0), of(1), of(3)], &[3, of(0), of(3), of(1)]], 2, 0);
    with(&[&[3, of(0), of(3), of(1)], &[3, of(0), of(1), of(3)]], 2, 10);
    // a count that is not that of the slots
    with(&[&[3, of(0), of(1), of(3)], &[3, of(0), of(3), of(1)]], 1, 10);
    with(&[&[3, of(0), of(1), of(3)]], 2, 10);
    with(&[&[3, of(0), of(1), of(3)]], 0, 10);
    with(&[&[3, of(0), of(1), of(3)]], 8, 10);
    with(&[&[3, of(0), of(1), of(3)]], 9, 10);
    with(&[&[3, of(0), of(1), of(3)]], 1 << 60, 10);
    with(&[&[3, of(0), of(1), of(3)]], (1 << 60) + 1, 10);
    // trees that are none
    with(&[&[0, of(0), of(1), of(3)]], 1, 10);
    with(&[&[2, of(0), of(1), of(3)]], 1, 10);
    with(&[&[2, of(0), of(1), 0]], 1, 10);
    with(&[&[4, of(0), of(1), of(3)]], 1, 10);
    with(&[&[3, of(0), of(1), of(3), 1]], 1, 10);
    with(&[&[16, of(0), of(1), of(3)]], 1, 10);
    with(&[&[u64::MAX, of(0), of(1), of(3)]], 1, 10);
    with(&[&[(1 << 32) + 3, of(0), of(1), of(3)]], 1, 10);
    with(&[&[3, of(0), of(1), of(5)]], 1, 10);
    with(&[&[3, of(0), of(1), of(1 << 32)]], 1, 10);
    with(&[&[3, of(0), of(1), u64::MAX]], 1, 10);
    with(&[&[2, of(1), of(3), 0]], 1, 10);
    // memory: STOP 2 has one prefix around it, prefix 1 none
    let digit = |term: usize, i: usize, m: u64| of(term) + (m << digit_at(i));
    with(&[&[1, digit(2, 0, 2), 0, 0]], 1, 0);
    with(&[&[1, digit(2, 0, 3), 0, 0]], 1, 10);
    with(&[&[1, digit(2, 1, 1), 0, 0]], 1, 10);
    with(&[&[1, digit(2, 2, 1), 0, 0]], 1, 10);
    with(&[&[1, digit(2, 3, 1), 0, 0]], 1, 10);
    with(&[&[1, digit(1, 0, 1), 0, 0]], 1, 10);
    with(&[&[3, digit(0, 0, 1), of(1), of(3)]], 1, 10);
    // eight leaves stand, nine do not fit: 15 nodes and 17
    let mut eight = vec![15];
    eight.extend([of(0); 7]);
    eight.extend([of(1); 8]);
    with(&[&eight], 1, 0);
    eight[15] = of(0);
    with(&[&eight], 1, 10);
    // def 0 = eight STOPs, def 1 = a -> call 0 (prefix 15): its reach is 8, its hand is 1
    let reach = format!("02 00 {} 00 02 00 05 00", beside(8, "00"));
    let reach = list_of(&[ONE_SET, &reach]);
    for (slot, known) in [
        ([1, of(15), 0, 0], 0),
        ([3, of(0), of(15), of(7)], 10),
        ([3, of(0), of(7), of(15)], 10),
        ([3, of(0), of(7), of(8)], 0),
    ] {
        history.begin(&reach, 1);
        history.open(&[]);
        history.known_record(0, 1, 1, None);
        history.set_words(0, 0, &slot);
        history.feed(&[]);
        history.known(known, 0);
        history.feed(&[0]);
        history.known(known, 0);
        history.offer();
    }
    // FAIL, choice and call are no nodes: FAIL 1, choice 0 of K6; call 2 of B
    for (parts, term) in
        [(&[TWO_SETS, "01 00 03 01 02 00 00"][..], 0), (&[TWO_SETS, "01 00 03 01 02 00 00"], 1)]
    {
        history.begin(&list_of(parts), 1);
        history.open(&[]);
        history.set_words(0, 1, &[of(term)]);
        history.feed(&[]);
        history.known(10, 0);
        history.set_words(0, 1, &[of(2)]);
        history.feed(&[0]);
        history.known_record(1, 1, 1, None);
    }
    history.begin(&list_of(&[TABLE_B]), 1);
    history.open(&[]);
    history.set_words(0, 1, &[of(2)]);
    history.feed(&[]);
    history.known(10, 0);
    // failed: at most at taken, nothing held
    for (taken, count, at, known) in [
        (0, 0, 0, 0),
        (5, 0, 0, 0),
        (5, 0, 5, 0),
        (5, 0, 6, 10),
        (5, 1, 5, 10),
        (0, 0, 1, 10),
        (u64::MAX, 0, u64::MAX, 0),
        (0, 0, u64::MAX, 10),
    ] {
        history.table(&list_of(&[TABLE_B]));
        history.lend(32, 32, Fill::Zeros);
        history.set_record(Record { taken, count, peak: count, failed: Some(at) });
        history.feed(&[]);
        history.known(known, 0);
        history.offer();
        history.known(known, 0);
        history.view();
        for area in 0..2 {
            history.set_words(area, 31, &[1]);
            history.feed(&[0]);
            history.known(10, 0);
            history.set_words(area, 31, &[0]);
        }
    }
}

// View: any lengths, any record.
pub fn worked_view(history: &mut History) {
    history.table(&[]);
    let mut at = |lengths: [usize; 2], record: (u64, u64, Option<u64>), known: (usize, usize)| {
        history.lend(lengths[0], lengths[1], Fill::Junk);
        let (taken, count, failed) = record;
        // View takes no notice of the peak
        for peak in [count, 0, LAST] {
            history.set_record(Record { taken, count, peak, failed });
            let viewed = history.view();
            history.known_true(viewed == known, &format!("view {known:?}"));
        }
    };
    at([16, 16], (0, 1, None), (0, 16));
    at([16, 16], (1, 1, None), (1, 16));
    at([16, 32], (0, 2, None), (0, 0));
    at([16, 32], (1, 2, None), (1, 32));
    at([32, 16], (0, 2, None), (0, 32));
    at([32, 16], (1, 2, None), (0, 0));
    at([31, 47], (0, 1, None), (0, 16));
    at([31, 47], (0, 2, None), (0, 0));
    at([31, 47], (1, 2, None), (1, 32));
    at([31, 47], (1, 3, None), (0, 0));
    at([0, 0], (0, 1, None), (0, 0));
    at([0, 0], (0, 0, None), (0, 0));
    at([16, 16], (1, 0, None), (1, 0));
    at([0, 16], (1, 1, None), (1, 16));
    at([4_160, 4_160], (0, 260, None), (0, 4_160));
    at([4_160, 4_160], (1, 261, None), (0, 0));
    at([16, 16], (0, 1, Some(0)), (0, 0));
    at([16, 16], (1, 1, Some(1)), (0, 0));
    at([16, 16], (7, 0, Some(9)), (0, 0));
    // counts whose product with 16 is above 2^64
    at([16, 16], (0, 1 << 60, None), (0, 0));
    at([16, 16], (1, (1 << 60) + 1, None), (0, 0));
    at([4_096, 4_096], (u64::MAX, u64::MAX, None), (0, 0));
    at([4_096, 4_096], (u64::MAX, 256, None), (1, 4_096));
    at([4_096, 4_096], (u64::MAX - 1, 257, None), (0, 0));
}

// Refusal 1 comes before all others, and keeps all that is lent.
pub fn worked_lengths(history: &mut History) {
    let b = list_of(&[TABLE_B]);
    for lengths in [
        [0, 0],
        [15, 15],
        [17, 17],
        [24, 24],
        [16, 32],
        [32, 16],
        [16, 17],
        [0, 16],
        [4_096, 4_080],
        [4_112, 4_112],
        [4_097, 4_097],
    ] {
        for list in [&b[..], &[]] {
            history.table(list);
            history.lend(lengths[0], lengths[1], Fill::Junk);
            history.open(&[]);
            history.known(1, 0);
            history.feed(&[9]);
            history.known(1, 0);
            history.offer();
            history.known(1, 0);
            history.view();
        }
    }
    for work_len in [0, 1, 16, 8_191, 8_193, 8_300] {
        history.begin(&b, 1);
        history.open_work(&[], work_len);
        history.known(1, 0);
        history.open(&[]);
        history.known_record(0, 1, 1, None);
        history.feed_work(&[0], work_len);
        history.known(1, 0);
        history.offer_work(work_len);
        history.known(1, 0);
        history.feed_work(&[0], WORK);
        history.known_record(1, 1, 1, None);
    }
    for slots in [1, 2, 255, 256] {
        history.begin(&b, slots);
        history.open(&[]);
        history.known_record(0, 1, 1, None);
        history.feed(&[0, 1, 0]);
        history.known_record(3, 1, 1, None);
        history.view();
    }
}

// 02, W6: "A may be 1 to 128"; "Offer gives two words, events 0 to 63 in the first"; words of a
// memory of 127 and 63 in each place.
pub fn worked_events(history: &mut History) {
    let cases: [(u16, &[u16], [u64; 2]); 6] = [
        (1, &[0], [1, 0]),
        (64, &[0, 63], [(1 << 63) + 1, 0]),
        (65, &[63, 64], [1 << 63, 1]),
        (127, &[0, 64, 126], [1, (1 << 62) + 1]),
        (128, &[63, 64, 127], [1 << 63, (1 << 63) + 1]),
        (128, &[1, 66], [2, 4]),
    ];
    for (alphabet, events, bits) in cases {
        history.begin(&repeating(alphabet, events).list(), 1);
        history.open(&[]);
        history.known_record(0, 1, 1, None);
        let offered = history.offer();
        history.known_true(offered == bits, "these events are offered");
        let taken: Vec<u8> = events.iter().map(|&event| event as u8).collect();
        history.feed(&taken);
        history.known_record(taken.len() as u64, 1, 1, None);
        history.feed(&[alphabet as u8]);
        history.known(UNKNOWN_EVENT, 0);
        if alphabet > 1 {
            // 2 is in none of the sets
            history.feed(&[2]);
            history.known_record(taken.len() as u64 + 1, 0, 1, Some(taken.len() as u64 + 1));
            let offered = history.offer();
            history.known_true(offered == [0, 0], "nothing is offered after failure");
        }
    }
    let body = (0..5).fold(Term::Stop, |term, _| prefix(plain(0), term));
    let sets = vec![Set::Plain(vec![63, 127])];
    let five = Table { alphabet: 128, sets, definitions: vec![definition(0, body)] };
    history.begin(&five.list(), 1);
    history.open(&[]);
    for (event, word) in [
        (127, (1 << 28) + (127 << 21)),
        (63, (2 << 28) + (63 << 21) + (127 << 14)),
        (127, (3 << 28) + (127 << 21) + (63 << 14) + (127 << 7)),
        (127, (4 << 28) + (127 << 21) + (127 << 14) + (63 << 7) + 127),
        (127, (5 << 28) + (127 << 21) + (127 << 14) + (127 << 7) + 63),
    ] {
        history.feed(&[event]);
        let present = history.record.present();
        history.known_true(history.lent(present)[..2] == [1, word], "this word stands");
    }
    history.view();
    history.feed(&[128]);
    history.known(UNKNOWN_EVENT, 0);
}

// The last rows that there may be: 3,072 with 65 events, and with 64 events as many as stand beside
// a set of one row. All rows are empty but the first set's and the last; a family's last row is that
// of the last event, which the first prefix takes.
pub fn worked_rows(history: &mut History) {
    for (alphabet, plain_sets, bits) in [(65u16, 17, [1, 1]), (64, 1, [(1 << 63) + 1, 0])] {
        let last = alphabet - 1;
        let mut sets = vec![Set::Plain(vec![last]); plain_sets];
        sets.resize(64, Set::Rows(vec![vec![]; alphabet as usize]));
        if let Some(Set::Rows(rows)) = sets.last_mut() {
            rows[last as usize] = vec![0, last];
        }
        let recalled = prefix(SetReference { set: 63, parameter: Some(0) }, Term::Call(0));
        let definitions = vec![definition(0, prefix(plain(0), recalled))];
        history.begin(&Table { alphabet, sets, definitions }.list(), 1);
        history.open(&[]);
        history.feed(&[last as u8]);
        let offered = history.offer();
        history.known_true(offered == bits, "the last row's events are offered");
        history.feed(&[0, last as u8, last as u8]);
        history.known_record(4, 1, 1, None);
        history.feed(&[0]);
        history.known_record(5, 0, 1, Some(5));
    }
}
