// Histories: lines of test data, each a call with its answer, or a change of what the next calls
// are lent. `FORMAT` says how to read them.
//     History     the table, record and areas as the lines so far left them, and the lines
//     digest      one number for the words of both areas

use super::operations::*;
use super::state::{Areas, Record};
use crate::case::{self, joined};
use crate::operations::WORK;
use crate::refusal::Refusal;

pub const FORMAT: &str = "\
# One line each, fields separated by one space, numbers in decimal and below 2^64:
#     t n n ..                    a history begins: this number list is lent as the table, and
#                                 the record is 0 0 0 0 0
#     u n n ..                    this number list is lent from here on; all else stands
#     a LENGTH0 LENGTH1 FILL      areas 0 and 1 of so many words are lent from here on, each the
#                                 beginning of a buffer of 4,160 words. FILL 0: all words of both
#                                 buffers become 0; 1: word j of buffer i becomes
#                                 2^64 - 1 - j - 8192 i; 2: they stay
#     r TAKEN COUNT PEAK FAILED AT
#                                 the record: FAILED 0 is running (AT is then 0), 1 failed at AT
#     x AREA INDEX w w ..         the words of buffer AREA from INDEX on become these
#     b WORK e e .. = NUMBER PLACE HAS TAKEN COUNT PEAK FAILED AT DIGEST KEPT Open of these events
#     f WORK e e .. = NUMBER PLACE HAS TAKEN COUNT PEAK FAILED AT DIGEST KEPT Feed of these events
#     d WORK LENGTH0 LENGTH1 e e ..
#             = NUMBER PLACE HAS TAKEN COUNT PEAK FAILED AT DIGEST FURTHER KEPT
#                                 Try of these events, with further areas of these lengths, where
#                                 word j of further area i is 2^64 - 1 - j - 8192 (i + 2) before
#     o WORK = NUMBER PLACE FIRST SECOND DIGEST KEPT                          Offer
#     v = AREA LENGTH                                                         View
# A list may have no number. WORK is the length of the lent work area; fill it with what is not 0.
# NUMBER and PLACE are 0 0 for a result, else the refusal's. HAS is 1 if a record is handed back,
# which is the record of the next call; else it is 0, so are the five numbers after it, and the
# record that went in stands. PEAK is the largest COUNT since it was opened, the present one
# included. FIRST and SECOND, a bit for each event, are 0 on a refusal. DIGEST is of the lent words
# of area 0 and then of area 1 after the call: from 1, for each word w
#     d := (d * 16777619 + w mod 2^32) mod 4294967291
#     d := (d * 16777619 + w div 2^32) mod 4294967291
# After Try the record that went in is that of the next call, and FURTHER is the digest of the
# further areas. KEPT is 1 if the work area must stand as it was, 0 if all its words must be 0.
# What View hands back is the first LENGTH words of area AREA.
# Where a group begins with `# wrong` instead of `# group`, the answer of each call is wrong on
# purpose in one number, and a test program must find it wrong.
# A table has at most 16,500 numbers, a call at most 5,100 events, each below 256, an area at most
# 4,160 words, a work area at most 8,300.
";

pub const BUFFER: usize = 4_160;
pub const MOST_EVENTS: usize = 5_100;

#[derive(Clone, Copy, PartialEq, Eq)]
pub enum Fill {
    Zeros,
    Junk,
    Kept,
}

pub struct History {
    pub list: Vec<u16>,
    pub record: Record,
    pub lengths: [usize; 2],
    buffers: Areas,
    pub text: String,
    pub histories: usize,
    pub calls: usize,
    // the answer of the last call: a refusal's number and place, or 0 0
    last: (u8, usize),
    // the first answer that was not the known one
    pub wrong: Option<String>,
}

pub fn digest(areas: &[&[u64]]) -> u64 {
    let words = areas.iter().flat_map(|area| area.iter());
    case::digest(1, words.flat_map(|word| [word % (1 << 32), word >> 32]))
}

fn junk(area: usize, index: usize) -> u64 {
    u64::MAX - index as u64 - 8_192 * area as u64
}

fn record_fields(record: Record) -> String {
    let Record { taken, count, peak, failed } = record;
    format!("{taken} {count} {peak} {} {}", failed.is_some() as u8, failed.unwrap_or(0))
}

fn numbered(refusal: Option<Refusal>) -> (u8, usize) {
    refusal.map_or((0, 0), |refusal| (refusal.number, refusal.place))
}

const ZERO: Record = Record { taken: 0, count: 0, peak: 0, failed: None };

impl History {
    pub fn new() -> History {
        History {
            list: Vec::new(),
            record: ZERO,
            lengths: [0; 2],
            buffers: [vec![0; BUFFER], vec![0; BUFFER]],
            text: String::new(),
            histories: 0,
            calls: 0,
            last: (0, 0),
            wrong: None,
        }
    }

    fn line(&mut self, line: String) {
        self.text += &line;
        self.text.push('\n');
    }

    // ---- what is lent

    // A new history on a table, with areas of so many slots full of junk.
    pub fn begin(&mut self, list: &[u16], slots: usize) {
        self.table(list);
        self.lend(16 * slots, 16 * slots, Fill::Junk);
    }

    pub fn table(&mut self, list: &[u16]) {
        self.histories += 1;
        self.list = list.to_vec();
        self.record = ZERO;
        self.line(format!("t{}", joined(list)));
    }

    pub fn other_table(&mut self, list: &[u16]) {
        self.list = list.to_vec();
        self.line(format!("u{}", joined(list)));
    }

    pub fn lend(&mut self, length_0: usize, length_1: usize, fill: Fill) {
        self.lengths = [length_0, length_1];
        if fill != Fill::Kept {
            for area in 0..2 {
                for index in 0..BUFFER {
                    let zeros = fill == Fill::Zeros;
                    self.buffers[area][index] = if zeros { 0 } else { junk(area, index) };
                }
            }
        }
        self.line(format!("a {length_0} {length_1} {}", fill as u8));
    }

    pub fn set_record(&mut self, record: Record) {
        self.record = record;
        self.line(format!("r {}", record_fields(record)));
    }

    pub fn set_words(&mut self, area: usize, index: usize, words: &[u64]) {
        self.buffers[area][index..index + words.len()].copy_from_slice(words);
        self.line(format!("x {area} {index}{}", joined(words)));
    }

    pub fn lent(&self, area: usize) -> &[u64] {
        &self.buffers[area][..self.lengths[area]]
    }

    pub fn areas(&self) -> Areas {
        [self.lent(0).to_vec(), self.lent(1).to_vec()]
    }

    // The whole state again, as it was.
    pub fn restore(&mut self, record: Record, areas: &Areas) {
        if self.record != record {
            self.set_record(record);
        }
        for area in 0..2 {
            let first = (0..areas[area].len()).find(|&i| areas[area][i] != self.lent(area)[i]);
            let last = (0..areas[area].len()).rfind(|&i| areas[area][i] != self.lent(area)[i]);
            if let (Some(first), Some(last)) = (first, last) {
                self.set_words(area, first, &areas[area][first..=last]);
            }
        }
    }

    // ---- calls

    pub fn open(&mut self, events: &[u8]) -> Answer {
        self.open_work(events, WORK)
    }

    pub fn open_work(&mut self, events: &[u8], work_len: usize) -> Answer {
        let outcome = open(&self.list, &self.areas(), events, work_len);
        self.answered(format!("b {work_len}{}", joined(events)), outcome)
    }

    pub fn feed(&mut self, events: &[u8]) -> Answer {
        self.feed_work(events, WORK)
    }

    pub fn feed_work(&mut self, events: &[u8], work_len: usize) -> Answer {
        let outcome = feed(&self.list, self.record, &self.areas(), events, work_len);
        self.answered(format!("f {work_len}{}", joined(events)), outcome)
    }

    pub fn try_feed(&mut self, events: &[u8]) -> Outcome<Answer> {
        self.try_work(events, WORK, self.lengths)
    }

    pub fn try_work(
        &mut self,
        events: &[u8],
        work_len: usize,
        lengths: [usize; 2],
    ) -> Outcome<Answer> {
        let further =
            [0, 1].map(|area| (0..lengths[area]).map(|index| junk(area + 2, index)).collect());
        let outcome =
            try_feed(&self.list, self.record, &self.areas(), &further, events, work_len);
        let fields = self.answer_fields(outcome.answer);
        let [first, further] = [&self.areas(), &outcome.areas].map(|[a, b]| digest(&[a, b]));
        let [length_0, length_1] = lengths;
        let call = format!("d {work_len} {length_0} {length_1}{}", joined(events));
        let kept = outcome.work_kept as u8;
        self.called(format!("{call} = {fields} {first} {further} {kept}"));
        outcome
    }

    pub fn offer(&mut self) -> EventBits {
        self.offer_work(WORK)
    }

    pub fn offer_work(&mut self, work_len: usize) -> EventBits {
        let outcome = offer(&self.list, self.record, &self.areas(), work_len);
        self.last = numbered(outcome.answer.err());
        let [first, second] = outcome.answer.unwrap_or([0; 2]);
        let (number, place) = self.last;
        let rest = self.stand(&outcome.areas, outcome.work_kept);
        self.called(format!("o {work_len} = {number} {place} {first} {second} {rest}"));
        [first, second]
    }

    pub fn view(&mut self) -> (usize, usize) {
        let (area, length) = view(self.record, self.lengths);
        self.called(format!("v = {area} {length}"));
        (area, length)
    }

    fn called(&mut self, line: String) {
        self.calls += 1;
        self.line(line);
    }

    fn answered(&mut self, call: String, outcome: Outcome<Answer>) -> Answer {
        let fields = self.answer_fields(outcome.answer);
        let rest = self.stand(&outcome.areas, outcome.work_kept);
        self.called(format!("{call} = {fields} {rest}"));
        self.record = outcome.answer.record.unwrap_or(self.record);
        outcome.answer
    }

    // `NUMBER PLACE HAS` and a record's numbers.
    fn answer_fields(&mut self, Answer { refusal, record }: Answer) -> String {
        self.last = numbered(refusal);
        let (number, place) = self.last;
        let fields = record_fields(record.unwrap_or(ZERO));
        format!("{number} {place} {} {fields}", record.is_some() as u8)
    }

    // The areas as a call left them; their digest, and whether the work area is kept.
    fn stand(&mut self, areas: &Areas, work_kept: bool) -> String {
        for area in 0..2 {
            let length = self.lengths[area];
            self.buffers[area][..length].copy_from_slice(&areas[area]);
        }
        format!("{} {}", digest(&[&areas[0], &areas[1]]), work_kept as u8)
    }

    // ---- answers that are wrong on purpose

    // The numbers of the last call's answer.
    pub fn stored(&self) -> Vec<u64> {
        let (_, answer) = self.text.trim_end().rsplit_once("= ").expect("a call");
        answer.split(' ').map(|word| word.parse().expect("a number")).collect()
    }

    // Another number in their place, by its index.
    pub fn store(&mut self, at: usize, other: u64) {
        let mut stored = self.stored();
        assert_ne!(stored[at], other);
        stored[at] = other;
        let call = self.text.rfind("= ").expect("a call");
        self.text.truncate(call + 1);
        self.line(joined(&stored));
    }

    // ---- known answers

    // The last call's answer is known to be this: 0 0 for a result.
    pub fn known(&mut self, number: u8, place: usize) {
        if self.last != (number, place) {
            self.report(format!("known {number} {place}"));
        }
    }

    pub fn known_number(&mut self, number: u8) {
        if self.last.0 != number {
            self.report(format!("known {number}"));
        }
    }

    pub fn known_not(&mut self, number: u8) {
        if self.last.0 == number {
            self.report(format!("known not to be {number}"));
        }
    }

    // What was found to be false of the last call.
    pub fn known_true(&mut self, stands: bool, what: &str) {
        if !stands {
            self.report(format!("known: {what}"));
        }
    }

    pub fn known_record(&mut self, taken: u64, count: u64, peak: u64, failed: Option<u64>) {
        if self.record != (Record { taken, count, peak, failed }) {
            self.report(format!("known record {taken} {count} {peak} {failed:?}"));
        }
    }

    // The state as a line of the program.
    pub fn known_line(&mut self, line: &str) {
        let given = match (self.last, self.record) {
            ((0, _), Record { taken, failed: Some(place), .. }) => {
                format!("failed {place} {taken}")
            }
            ((0, _), Record { taken, count, .. }) => format!("running {taken} {count}"),
            ((number, place), _) => format!("refused {number} {place}"),
        };
        if given != line {
            self.report(format!("known `{line}`"));
        }
    }

    fn report(&mut self, what: String) {
        let line = self.text.lines().last().unwrap_or("");
        let line: String = line.chars().take(200).collect();
        self.wrong.get_or_insert(format!("{what}, given: {line}"));
    }
}

impl Default for History {
    fn default() -> Self {
        History::new()
    }
}
