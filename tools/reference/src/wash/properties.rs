// Tests of the wash hours: the changes of a timetable against their definition, the joined events
// against the words, and the stored data file.

use super::drawn::*;
use super::histories::*;
use super::history::*;
use super::operations::*;
use super::timetable::*;
use super::walks::Joined;
use super::wrong;
use crate::monitor::operations::open;
use crate::operations::WORK;
use crate::random::Random;
use crate::refusal::*;
use crate::stored;
use std::collections::BTreeSet;

// Every minute of the interval, however long.
fn changes_by_words(windows: &[u16], last: u64, present: u64) -> bool {
    (last + 1..=present).any(|m| in_force(windows, m) != in_force(windows, m - 1))
}

#[test]
fn a_week_of_minutes_tells() {
    let mut random = Random::new(1);
    for _ in 0..200 {
        let windows = timetable(&mut random);
        assert!(good(&windows), "{windows:?}");
        let last = random.next() % (1 << 20);
        let present = last + random.next() % (3 * WEEK);
        let due = changes_by_words(&windows, last, present);
        assert_eq!(changes(&windows, last, present), due, "{windows:?} {last} {present}");
    }
}

#[test]
fn bad_timetables_are_bad() {
    let mut random = Random::new(1);
    for (name, reason) in REASONS {
        for _ in 0..300 {
            let windows = reason(&mut random);
            assert!(!good(&windows), "{name} {windows:?}");
        }
    }
}

// The words of the request: the call stops before an event whose minute is below the last joined
// one's or 2^48 or more; whose fresh start has more residuals than slots; that is not below the
// alphabet of the drawing then in force; or that leaves more residuals than slots.
fn joined_by_words(lent: &Lent, slots: usize, calls: &[Vec<(u8, u64)>]) -> Joined {
    let length = 16 * slots;
    let zero = [vec![0; length], vec![0; length]];
    let mut joined: Vec<(u8, u64)> = Vec::new();
    for events in calls {
        for &(event, minute) in events {
            let last = joined.last().map(|&(_, last)| last);
            if minute >= MINUTES || last.is_some_and(|last| minute < last) {
                break;
            }
            let list = match in_force(&lent.windows, minute) {
                Drawing::Everyday => &lent.everyday,
                Drawing::Wash => &lent.wash,
            };
            let mut since: Vec<u8> = vec![event];
            let mut at = minute;
            for &(event, minute) in joined.iter().rev() {
                if changes_by_words(&lent.windows, minute, at) {
                    break;
                }
                since.insert(0, event);
                at = minute;
            }
            if open(list, &zero, &since, WORK).answer.refusal.is_some() {
                break;
            }
            joined.push((event, minute));
        }
    }
    Joined(joined)
}

#[test]
fn joined_events() {
    let mut random = Random::new(1);
    for _ in 0..60 {
        let windows = timetable(&mut random);
        let lent = lent_of(&mut random, windows);
        let mut history = History::new();
        let slots = slots_for(&mut random, &lent);
        history.begin(&lent, slots);
        let mut calls = Vec::new();
        for _ in 0..4 {
            let count = random.between(0, 4);
            let mut events = script(&mut random, &history, count);
            // within a few weeks, so that every minute can be looked at
            events.retain(|&(_, minute)| minute < 4 * WEEK);
            if random.once_in(3) {
                events.push((random.below(6) as u8, random.next() % (4 * WEEK)));
            }
            history.feed(&events);
            calls.push(events);
        }
        let joined = joined_by_words(&lent, slots, &calls);
        let (state, areas) = joined.state(&lent, 16 * slots);
        assert_eq!((history.state, &history.areas), (state, &areas));
    }
}

#[test]
fn known_answers() {
    for seed in 2..4 {
        file(seed, 300).expect("known answers");
    }
}

// not too long, within the bounds that its head names, and with every refusal
#[test]
fn data_file() {
    let text = stored::text("wash_test/data/washes.txt");
    assert!(text.len() < 4_000_000, "{}", text.len());
    assert!(summary(&text).expect("a file of calls").ends_with("\nok\n"));
    let (text, _) = text.split_once("# wrong ").expect("answers that are wrong on purpose");
    let mut met = BTreeSet::new();
    let mut calls = 0;
    for line in text.lines().filter(|line| line.starts_with("f ")) {
        assert!(line.len() <= MOST_LINE);
        let (call, answer) = line.split_once(" =").expect("an answer");
        let lists: Vec<Vec<u64>> = call.split(" :").map(stored::numbers).collect();
        let most = [MOST_TABLE, MOST_TABLE, MOST_WINDOWS, MOST_EVENTS, MOST_EVENTS];
        assert!(lists[1..6].iter().zip(most).all(|(list, most)| list.len() <= most));
        let [work_len, one, two] = [0, 1, 2].map(|i| lists[0][i] as usize);
        assert!(work_len <= MOST_WORK && one <= MOST_AREA && two <= MOST_AREA);
        let answer = stored::numbers(answer);
        // the number, whether a state came with it, whether it had started
        met.insert((answer[0] as u8, answer[2], lists[0][4], answer[3]));
        calls += 1;
    }
    assert!(calls >= 2_000, "{calls}");
    let mut due = BTreeSet::from([(0, 1, 0, 0), (0, 1, 0, 1), (0, 1, 1, 1)]);
    for number in [WRONG_LENGTH, INCONSISTENT, BAD_TIMETABLE] {
        due.extend([(number, 0, 0, 0), (number, 0, 1, 0)]);
    }
    // of the tables' refusals it does not matter whether it had started
    let of_table = |number: u8| (TOO_LONG..=TOO_MANY_BRANCHES).contains(&number);
    let tables: BTreeSet<u8> = met.iter().map(|case| case.0).filter(|&n| of_table(n)).collect();
    assert_eq!(tables, BTreeSet::from([2, 3, 5, 6, 7, 8, 9]));
    met.retain(|case| !of_table(case.0));
    for number in [UNKNOWN_EVENT, CAPACITY_EXCEEDED, CLOCK_BACK] {
        due.extend([(number, 1, 0, 0), (number, 1, 0, 1), (number, 1, 1, 1)]);
    }
    due.insert((COUNTER_FULL, 1, 1, 1));
    assert_eq!(due.difference(&met).collect::<Vec<_>>(), Vec::<&(u8, u64, u64, u64)>::new());
    assert_eq!(met.difference(&due).collect::<Vec<_>>(), Vec::<&(u8, u64, u64, u64)>::new());
}

// what is stored wrong on purpose is wrong, of each field and of states of every kind
#[test]
fn wrong_cases() {
    let groups = groups(1, 1);
    let wrong: Vec<&Group> = groups.iter().filter(|group| group.wrong).collect();
    assert_eq!(wrong.len(), ANSWER);
    assert!(wrong.iter().all(|group| group.history.calls >= 20));
    let states = wrong::states();
    assert!(states.contains(&Timed::NotStarted));
    assert!(states.iter().any(|state| *state != Timed::NotStarted));
}

#[test]
fn cases_are_counted() {
    let call = "f 1 2 3 0 0 0 0 0 0 0 0 : 3 : : : : : : = 1 0 0 0 0 0 0 0 0 0 1 1";
    let text = format!("# head\n# group a\n{call}\n# wrong b\n{call}\n");
    assert_eq!(summary(&text), Ok("a 1\nb 1 of 1 wrong, first 1\nok\n".to_string()));
    for line in ["", "f : = 1", &call[..call.len() - 2], &call.replacen(" :", "", 1), "g 1"] {
        assert!(summary(&format!("# group a\n{line}\n")).is_err(), "{line}");
    }
}
