// The proved monitor, through the static library for C.

use crate::monitor::*;

#[path = "../../../examples/rust/src/cspe/library.rs"]
#[allow(dead_code)]
mod library;

// The words of a record.
const WORDS: usize = 5;

pub struct Proved;

impl Monitor for Proved {
    fn name(&self) -> &str {
        "proved"
    }

    fn open(&self, list: &[u16], lent: Lent, events: &[u8]) -> Answer {
        let mut record = [0; WORDS];
        let (mut place, mut opened) = (0, 0);
        // each pointer is that of a slice and goes with its length; no two slices overlap
        let number = unsafe {
            library::cspe_open(
                list.as_ptr(),
                list.len(),
                record.as_mut_ptr(),
                record.len(),
                lent.area0.as_mut_ptr(),
                lent.area0.len(),
                lent.area1.as_mut_ptr(),
                lent.area1.len(),
                events.as_ptr(),
                events.len(),
                lent.work.as_mut_ptr(),
                lent.work.len(),
                &mut place,
                &mut opened,
            )
        };
        given(number, place, record, opened == 1)
    }

    fn feed(&self, list: &[u16], record: Record, lent: Lent, events: &[u8]) -> Answer {
        let Record { taken, count, peak, failed } = record;
        let mut record = [taken, count, failed.is_some() as u64, failed.unwrap_or(0), peak];
        let mut place = 0;
        // as above
        let number = unsafe {
            library::cspe_feed(
                list.as_ptr(),
                list.len(),
                record.as_mut_ptr(),
                record.len(),
                lent.area0.as_mut_ptr(),
                lent.area0.len(),
                lent.area1.as_mut_ptr(),
                lent.area1.len(),
                events.as_ptr(),
                events.len(),
                lent.work.as_mut_ptr(),
                lent.work.len(),
                &mut place,
            )
        };
        given(number, place, record, number > 10)
    }
}

// The answer by the refusal's number and whether there is a record: 0 has one.
fn given(number: u32, place: u64, words: [u64; WORDS], has: bool) -> Answer {
    let [taken, count, failed, at, peak] = words;
    let record = Record { taken, count, peak, failed: (failed != 0).then_some(at) };
    let refusal = Refusal { number: number as u8, place: place as usize };
    match number {
        0 => Answer::Given(record),
        _ if has => Answer::Stopped(refusal, record),
        _ => Answer::Refused(refusal),
    }
}
