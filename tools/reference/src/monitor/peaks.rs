// Tests of the record's peak (02, W1) over many generated tables and over the stored data.

use super::operations::*;
use super::properties::*;
use super::residual::*;
use super::state::*;
use super::terms::Terms;
use crate::operations::WORK;
use crate::random::Random;
use crate::refusal::*;
use crate::stored;

// Residuals with repeats, made a set; none where they are too many to be listed.
fn after_list(terms: &Terms, list: &[u8]) -> Option<Residuals> {
    let last = *terms.bodies.last().expect("a definition");
    let plain = resolve_plainly(terms, last, [0; 4])?;
    list.iter().try_fold(plain.into_iter().collect::<Residuals>(), |residuals, &event| {
        let each = residuals.iter().map(|one| after_plainly(terms, one, event as u16));
        Some(each.collect::<Option<Vec<_>>>()?.concat().into_iter().collect())
    })
}

// 01, "Joined events": a call "stops before an event that is A or more, .. or that would give the
// list more residuals than there are slots". Taken from the words, not from the answers; no list
// is near 2^64 long here.
fn join(terms: &Terms, slots: usize, joined: &mut Vec<u8>, events: &[u8]) -> Option<()> {
    for &event in events {
        if event as u16 >= terms.alphabet {
            break;
        }
        joined.push(event);
        if after_list(terms, joined)?.len() > slots {
            joined.pop();
            break;
        }
    }
    Some(())
}

// "the greatest count over all beginnings of the joined events", each followed from the start
fn greatest(terms: &Terms, joined: &[u8]) -> Option<u64> {
    let counts = (0..=joined.len()).map(|n| Some(after_list(terms, &joined[..n])?.len() as u64));
    counts.collect::<Option<Vec<_>>>()?.into_iter().max()
}

// "after a list of calls the greatest count over all beginnings of the joined events"
#[test]
fn greatest_over_all_beginnings() {
    let mut random = Random::new(31);
    let (mut compared, mut fell, mut full, mut refused) = (0, 0, 0, 0);
    for _ in 0..5_000 {
        let table = any_table(&mut random);
        let (list, terms) = (table.list(), Terms::of(&table));
        let slots = *random.pick(&[1, 2, 3, 5, 8, 256]);
        let started = open(&list, &zero_areas(slots), &[], WORK);
        let Some(mut record) = started.answer.record else { continue };
        assert_eq!(record.peak, record.count);
        let (mut areas, mut joined) = (started.areas, Vec::new());
        for _ in 0..random.between(0, 5) {
            let mut events = guided_events(&mut random, &table, 4);
            if random.once_in(4) {
                events.push(random.between(table.alphabet as usize, 255) as u8);
                events.extend(any_events(&mut random, table.alphabet, 3));
            }
            let work_len = if random.once_in(8) { random.below(8_192) } else { WORK };
            let fed = feed(&list, record, &areas, &events, work_len);
            if work_len == WORK && join(&terms, slots, &mut joined, &events).is_none() {
                break;
            }
            record = fed.answer.record.unwrap_or(record);
            areas = fed.areas;
            let Some(greatest) = greatest(&terms, &joined) else { break };
            assert_eq!(record.peak, greatest);
            compared += 1;
            fell += (record.count < record.peak && record.failed.is_none()) as usize;
            full += (record.peak == slots as u64 && slots > 1) as usize;
            let number = fed.answer.refusal.map(|refusal| refusal.number);
            refused += (number == Some(CAPACITY_EXCEEDED)) as usize;
        }
    }
    let met = [compared, fell, full, refused];
    assert!(compared > 8_000 && met[1..].iter().all(|&n| n > 200), "{met:?}");
}

// "A record whose peak is below its count, or above the slots, is disturbed", whatever else
// stands; any other peak stands.
#[test]
fn disturbed_by_its_peak() {
    let mut random = Random::new(32);
    let mut met = [0; 4];
    for _ in 0..2_000 {
        let table = any_table(&mut random);
        let list = table.list();
        let slots = *random.pick(&[1, 2, 3, 8]);
        let started = open(&list, &zero_areas(slots), &[], WORK);
        let Some(fresh) = started.answer.record else { continue };
        let events = guided_events(&mut random, &table, 5);
        let fed = feed(&list, fresh, &started.areas, &events, WORK);
        let record = fed.answer.record.expect("a record");
        let slots = slots as u64;
        let peaks = (0..slots + 3).chain([16 * slots, 1 << 32, 1 << 60, u64::MAX]);
        for peak in peaks {
            let given = Record { peak, ..record };
            let wrong = peak < given.count || slots < peak;
            let again = feed(&list, given, &fed.areas, &[], WORK);
            let offered = offer(&list, given, &fed.areas, WORK).answer;
            let refusal = wrong.then_some(Refusal { number: INCONSISTENT, place: 0 });
            assert_eq!(again.answer.refusal, refusal);
            assert_eq!(again.answer.record, (!wrong).then_some(given));
            assert_eq!(again.areas, fed.areas);
            assert_eq!(offered.err(), refusal);
            assert_eq!(
                view(given, [16 * slots as usize; 2]),
                view(record, [16 * slots as usize; 2])
            );
            met[2 * record.failed.is_some() as usize + wrong as usize] += 1;
        }
    }
    assert!(met.iter().all(|&n| n > 500), "{met:?}");
}

// From a state that stands each call leaves one that stands; the peak is the larger of the one
// given and the counts since, and a refused event and those after failure do not move it.
#[test]
fn kept_from_any_state() {
    let mut random = Random::new(33);
    let (mut moved, mut refused, mut failed) = (0, 0, 0);
    for _ in 0..6_000 {
        let table = any_table(&mut random);
        let list = table.list();
        let slots = *random.pick(&[2, 3, 8, 256]);
        let started = open(&list, &zero_areas(slots), &[], WORK);
        let Some(mut record) = started.answer.record else { continue };
        let mut areas = started.areas;
        if random.once_in(2) {
            record.peak = random.between(record.count as usize, slots) as u64;
        }
        for event in guided_events(&mut random, &table, 8) {
            let fed = feed(&list, record, &areas, &[event], WORK);
            let next = fed.answer.record.expect("a record");
            match fed.answer.refusal {
                None => assert_eq!(next.peak, record.peak.max(next.count)),
                Some(_) => assert_eq!((next, &fed.areas), (record, &areas)),
            }
            if record.failed.is_some() {
                assert_eq!(next.peak, record.peak);
                failed += 1;
            }
            moved += (next.peak > record.peak) as usize;
            refused += fed.answer.refusal.is_some() as usize;
            (record, areas) = (next, fed.areas);
            let again = feed(&list, record, &areas, &[], WORK);
            assert_eq!(again.answer, Answer { refusal: None, record: Some(record) });
        }
    }
    assert!(moved > 300 && refused > 300 && failed > 300, "{moved} {refused} {failed}");
}

// What the stored histories meet: the answers' records, and the given ones.
#[test]
fn stored_peaks() {
    let text = stored::text("monitor_test/data/histories.txt");
    let (text, _) = text.split_once("# wrong ").expect("answers that are wrong on purpose");
    let mut met = [0; 8];
    let mut slots = 0;
    for line in text.lines() {
        if line.starts_with("a ") {
            slots = stored::numbers(line)[0] / 16;
        }
        if !line.starts_with(['f', 's']) {
            continue;
        }
        let (_, answer) = line.split_once("= ").expect("an answer");
        let [number, _, has, _, count, peak, failed, ..] = stored::numbers(answer)[..] else {
            panic!("{line}")
        };
        if has == 0 {
            continue;
        }
        met[0] += (failed == 0 && count < peak) as usize;
        met[1] += (peak == slots && slots > 1) as usize;
        met[2] += (number == 13 && peak < slots) as usize;
        met[3] += (number == 13 && peak == slots) as usize;
        met[4] += (failed == 1 && peak > 1) as usize;
        met[5] += (failed == 1 && peak == 0) as usize;
        met[6] += (number == 11 && count < peak) as usize;
        met[7] += (number == 12 && count < peak) as usize;
    }
    assert!(met.iter().all(|&n| n > 20), "{met:?}");
}
