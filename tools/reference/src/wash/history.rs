// Histories of calls in wash hours: lines of test data, each a whole call with its answer. `FORMAT`
// says how to read them.
//     History     the tables, the timetable, the state and the areas, and the lines so far

use super::operations::*;
use crate::case::joined;
use crate::monitor::history::digest;
use crate::monitor::operations::Outcome;
use crate::monitor::state::{Areas, Record};
use crate::operations::WORK;

pub const FORMAT: &str = "\
# One call per line, fields separated by one space, numbers in decimal and below 2^64:
#     f WORK LENGTH0 LENGTH1 FILL STATE : n n .. : n n .. : n n .. : e e .. : m m ..
#             : w w .. : w w .. = NUMBER PLACE HAS STATE DIGEST KEPT
# The lists are the everyday table, the wash table, the timetable, the events, their minutes, and
# the first words of area 0 and of area 1; a list may have no number. STATE is seven numbers,
#     STARTED TAKEN COUNT PEAK FAILED AT MINUTE
# all 0 before the first event; else STARTED is 1, FAILED is 0 for running (AT is then 0) or 1 for
# failed at AT, and MINUTE is the last event's. WORK is the length of the lent work area, which is
# to be filled with what is not 0; LENGTH0 and LENGTH1 those of the areas. Words of an area that
# are not listed are 0 where FILL is 0; where it is 1, word j is 2^64 - 1 - j.
# NUMBER and PLACE are 0 0 for a result, else the refusal's. HAS is 1 if a state is handed back,
# which is the STATE after it; else it is 0, and so are these seven. DIGEST is of the words of area
# 0 and then of area 1 after the call: from 1, for each word w
#     d := (d * 16777619 + w mod 2^32) mod 4294967291
#     d := (d * 16777619 + w div 2^32) mod 4294967291
# KEPT is 1 if the work area must stand as it was, 0 if all its words must be 0.
# Where a group begins with `# wrong` instead of `# group`, the answer of each call is wrong on
# purpose in one number, and a test program must find it wrong.
# A table has at most 16,500 numbers, a timetable at most 8,300, each below 2^16; a call has at most
# 400 events, each below 2^8, and as many minutes; an area at most 4,160 words, a work area at most
# 8,300; a line at most 65,000 characters.
";

pub const MOST_TABLE: usize = 16_500;
pub const MOST_WINDOWS: usize = 8_300;
pub const MOST_EVENTS: usize = 400;
pub const MOST_AREA: usize = 4_160;
pub const MOST_WORK: usize = 8_300;
pub const MOST_LINE: usize = 65_000;

// The numbers of an answer, by their index: NUMBER, PLACE, HAS, seven of the state, DIGEST, KEPT.
pub const ANSWER: usize = 12;

pub struct History {
    pub lent: Lent,
    pub state: Timed,
    pub areas: Areas,
    // the words that are not set are junk
    junk: bool,
    pub text: String,
    pub calls: usize,
    // the answer of the last call: a refusal's number and place, or 0 0
    pub last: (u8, usize),
    // the first answer that was not the known one
    pub wrong: Option<String>,
}

fn junk(index: usize) -> u64 {
    u64::MAX - index as u64
}

fn state_fields(state: Timed) -> String {
    let Timed::Started { record, minute } = state else { return "0 0 0 0 0 0 0".to_string() };
    let Record { taken, count, peak, failed } = record;
    let (is_failed, at) = (failed.is_some() as u8, failed.unwrap_or(0));
    format!("1 {taken} {count} {peak} {is_failed} {at} {minute}")
}

impl History {
    pub fn new() -> History {
        History {
            lent: Lent { everyday: vec![], wash: vec![], windows: vec![] },
            state: Timed::NotStarted,
            areas: [vec![], vec![]],
            junk: false,
            text: String::new(),
            calls: 0,
            last: (0, 0),
            wrong: None,
        }
    }

    // ---- what is lent

    // A history begins: not started, with areas of so many slots, all zero.
    pub fn begin(&mut self, lent: &Lent, slots: usize) {
        self.lent = lent.clone();
        self.state = Timed::NotStarted;
        self.areas = [vec![0; 16 * slots], vec![0; 16 * slots]];
        self.junk = false;
    }

    // Areas of these lengths, full of junk.
    pub fn litter(&mut self, lengths: [usize; 2]) {
        self.areas = [0, 1].map(|area| (0..lengths[area]).map(junk).collect());
        self.junk = true;
    }

    // A state as it was.
    pub fn restore(&mut self, state: Timed, areas: &Areas) {
        self.state = state;
        self.areas = areas.clone();
        self.junk = false;
    }

    pub fn slots(&self) -> usize {
        self.areas[0].len() / 16
    }

    // The words of an area up to the last that is not as it was filled.
    fn set_words(&self, area: usize) -> &[u64] {
        let words = &self.areas[area];
        let filled = |i: usize| if self.junk { junk(i) } else { 0 };
        let last = (0..words.len()).rfind(|&i| words[i] != filled(i));
        &words[..last.map_or(0, |last| last + 1)]
    }

    // ---- calls

    pub fn feed(&mut self, events: &[(u8, u64)]) -> Answer {
        let (events, minutes): (Vec<u8>, Vec<u64>) = events.iter().copied().unzip();
        self.call(&events, &minutes, WORK)
    }

    pub fn call(&mut self, events: &[u8], minutes: &[u64], work_len: usize) -> Answer {
        let outcome = timed_feed(&self.lent, self.state, &self.areas, events, minutes, work_len);
        let Lent { everyday, wash, windows } = &self.lent;
        let lists = [joined(everyday), joined(wash), joined(windows)];
        let brought = [joined(events), joined(minutes)];
        let words = [joined(self.set_words(0)), joined(self.set_words(1))];
        let lists: String = [&lists[..], &brought, &words]
            .concat()
            .iter()
            .map(|list| format!(" :{list}"))
            .collect();
        let [one, two] = [0, 1].map(|area| self.areas[area].len());
        let head = format!("f {work_len} {one} {two} {}", self.junk as u8);
        let before = state_fields(self.state);
        let stored = self.stand(outcome.clone());
        self.text += &format!("{head} {before}{lists} = {stored}\n");
        self.calls += 1;
        outcome.answer
    }

    // What a call left, and its answer as it is stored.
    fn stand(&mut self, outcome: Outcome<Answer>) -> String {
        let Answer { refusal, state } = outcome.answer;
        self.last = refusal.map_or((0, 0), |refusal| (refusal.number, refusal.place));
        let (number, place) = self.last;
        let has = state.is_some() as u8;
        let fields = state_fields(state.unwrap_or(Timed::NotStarted));
        self.state = state.unwrap_or(self.state);
        self.areas = outcome.areas;
        let digest = digest(&[&self.areas[0], &self.areas[1]]);
        format!("{number} {place} {has} {fields} {digest} {}", outcome.work_kept as u8)
    }

    // ---- answers that are wrong on purpose

    // The numbers of the last call's answer.
    pub fn stored(&self) -> Vec<u64> {
        let (_, answer) = self.text.trim_end().rsplit_once("= ").expect("a call");
        answer.split(' ').map(|word| word.parse().expect("a number")).collect()
    }

    // Another number in their place, by its index.
    pub fn store(&mut self, at: usize, other: u64) {
        let mut stored = self.stored();
        assert_ne!(stored[at], other);
        stored[at] = other;
        let call = self.text.rfind("= ").expect("a call");
        self.text.truncate(call + 1);
        self.text += &joined(&stored);
        self.text.push('\n');
    }

    // ---- known answers

    // The last call's answer is known to be this: 0 0 for a result.
    pub fn known(&mut self, number: u8, place: usize) {
        if self.last != (number, place) {
            self.report(format!("known {number} {place}"));
        }
    }

    // What was found to be false of the last call.
    pub fn known_true(&mut self, stands: bool, what: &str) {
        if !stands {
            self.report(format!("known: {what}"));
        }
    }

    pub fn known_not_started(&mut self) {
        let zero = self.areas.iter().flatten().all(|&word| word == 0);
        let stands = self.state == Timed::NotStarted && zero;
        self.known_true(stands, "not started, and zero areas");
    }

    pub fn known_state(&mut self, record: Record, minute: u64) {
        if self.state != (Timed::Started { record, minute }) {
            self.report(format!("known {record:?} at {minute}"));
        }
    }

    // Record and areas are as they were.
    pub fn known_same(&mut self, state: Timed, areas: &Areas) {
        let same = self.state == state && self.areas == *areas;
        self.known_true(same, "all as it was");
    }

    fn report(&mut self, what: String) {
        let line = self.text.lines().last().unwrap_or("");
        let (call, answer) = line.rsplit_once(" =").unwrap_or((line, ""));
        let call: String = call.chars().take(300).collect();
        self.wrong.get_or_insert(format!("{what}, given:{answer} of {call}"));
    }
}

impl Default for History {
    fn default() -> Self {
        History::new()
    }
}
