// The reference as a monitor: it makes its areas anew, which are then copied to the lent ones.

use crate::monitor::*;
use reference::monitor::operations as naive;
use reference::monitor::state::Record as NaiveRecord;

pub struct Naive;

impl Monitor for Naive {
    fn name(&self) -> &str {
        "reference"
    }

    fn open(&self, list: &[u16], lent: Lent, events: &[u8]) -> Answer {
        let areas = [lent.area0.to_vec(), lent.area1.to_vec()];
        given(naive::open(list, &areas, events, lent.work.len()), lent)
    }

    fn feed(&self, list: &[u16], record: Record, lent: Lent, events: &[u8]) -> Answer {
        let areas = [lent.area0.to_vec(), lent.area1.to_vec()];
        let Record { taken, count, peak, failed } = record;
        let record = NaiveRecord { taken, count, peak, failed };
        given(naive::feed(list, record, &areas, events, lent.work.len()), lent)
    }
}

fn given(outcome: naive::Outcome<naive::Answer>, lent: Lent) -> Answer {
    lent.area0.copy_from_slice(&outcome.areas[0]);
    lent.area1.copy_from_slice(&outcome.areas[1]);
    if !outcome.work_kept {
        lent.work.fill(0);
    }
    let refusal = outcome.answer.refusal.map(|r| Refusal { number: r.number, place: r.place });
    let record = outcome.answer.record.map(|record| {
        let NaiveRecord { taken, count, peak, failed } = record;
        Record { taken, count, peak, failed }
    });
    match (refusal, record) {
        (None, Some(record)) => Answer::Given(record),
        (Some(refusal), None) => Answer::Refused(refusal),
        (Some(refusal), Some(record)) => Answer::Stopped(refusal, record),
        (None, None) => unreachable!("a record or a refusal"),
    }
}
