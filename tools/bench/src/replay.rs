// Whether a monitor answers as the reference does: the calls of Open and Feed in a file of
// histories (tools/reference/README.md), made of it. Try, Offer and View are left out.

use crate::monitor::*;
use reference::monitor::history::{digest, BUFFER};
use reference::summary::group;

struct Replay<'a> {
    monitor: &'a dyn Monitor,
    list: Vec<u16>,
    record: Record,
    lengths: [usize; 2],
    buffers: [Vec<u64>; 2],
}

// The number of calls; or the first line whose answer is another one, or is not where it is stored
// wrong on purpose.
pub fn replay(monitor: &dyn Monitor, text: &str) -> Result<usize, String> {
    let mut replay = Replay {
        monitor,
        list: Vec::new(),
        record: ZERO,
        lengths: [0; 2],
        buffers: [vec![0; BUFFER], vec![0; BUFFER]],
    };
    let (mut calls, mut wrong) = (0, false);
    for (i, line) in text.lines().enumerate() {
        if line.starts_with('#') {
            wrong = group(line).map_or(wrong, |(_, wrong)| wrong);
            continue;
        }
        let (done, stored) = line.split_once('=').unwrap_or((line, ""));
        let fields: Vec<&str> = done.split_whitespace().collect();
        let numbers: Option<Vec<u64>> = fields[1..].iter().map(|f| f.parse().ok()).collect();
        let numbers = numbers.ok_or(format!("line {}: not numbers", i + 1))?;
        if let Some(answer) = replay.line(fields[0], &numbers) {
            calls += 1;
            if (answer != stored.trim()) != wrong {
                return Err(format!("line {}: {answer}, not{stored}", i + 1));
            }
        }
    }
    Ok(calls)
}

const ZERO: Record = Record { taken: 0, count: 0, peak: 0, failed: None };

impl Replay<'_> {
    // Does what the line says; of a call, its answer as the line has it.
    fn line(&mut self, kind: &str, numbers: &[u64]) -> Option<String> {
        match kind {
            "t" | "u" => {
                self.list = numbers.iter().map(|&n| n as u16).collect();
                if kind == "t" {
                    self.record = ZERO;
                }
            }
            "a" => self.lend(numbers[0] as usize, numbers[1] as usize, numbers[2]),
            "r" => {
                let [taken, count, peak, failed, at] = numbers[..] else {
                    panic!("a record of five numbers")
                };
                let failed = (failed == 1).then_some(at);
                self.record = Record { taken, count, peak, failed };
            }
            "x" => {
                let words = &mut self.buffers[numbers[0] as usize][numbers[1] as usize..];
                words[..numbers.len() - 2].copy_from_slice(&numbers[2..]);
            }
            "b" | "f" => {
                let events: Vec<u8> = numbers[1..].iter().map(|&e| e as u8).collect();
                return Some(self.call(kind == "b", numbers[0] as usize, &events));
            }
            _ => {}
        }
        None
    }

    fn lend(&mut self, length0: usize, length1: usize, fill: u64) {
        self.lengths = [length0, length1];
        for (i, buffer) in self.buffers.iter_mut().enumerate().filter(|_| fill != 2) {
            for (j, word) in buffer.iter_mut().enumerate() {
                *word = if fill == 0 { 0 } else { u64::MAX - j as u64 - 8_192 * i as u64 };
            }
        }
    }

    // Open, or Feed, of events.
    fn call(&mut self, opens: bool, work_len: usize, events: &[u8]) -> String {
        let filled = vec![7; work_len];
        let mut work = filled.clone();
        let [buffer0, buffer1] = &mut self.buffers;
        let area0 = &mut buffer0[..self.lengths[0]];
        let area1 = &mut buffer1[..self.lengths[1]];
        let lent = Lent { area0, area1, work: &mut work };
        let answer = if opens {
            self.monitor.open(&self.list, lent, events)
        } else {
            self.monitor.feed(&self.list, self.record, lent, events)
        };
        let (refusal, record) = match answer {
            Answer::Given(record) => (None, Some(record)),
            Answer::Refused(refusal) => (Some(refusal), None),
            Answer::Stopped(refusal, record) => (Some(refusal), Some(record)),
        };
        self.record = record.unwrap_or(self.record);
        let (number, place) = refusal.map_or((0, 0), |r| (r.number, r.place));
        let Record { taken, count, peak, failed } = record.unwrap_or(ZERO);
        let has = record.is_some() as u8;
        let (is, at) = (failed.is_some() as u8, failed.unwrap_or(0));
        let kept = match (work == filled, work.iter().all(|&w| w == 0)) {
            (true, _) => "1",
            (false, true) => "0",
            (false, false) => "neither",
        };
        let digest =
            digest(&[&self.buffers[0][..self.lengths[0]], &self.buffers[1][..self.lengths[1]]]);
        format!("{number} {place} {has} {taken} {count} {peak} {is} {at} {digest} {kept}")
    }
}

#[cfg(test)]
mod tests {
    use super::*;
    use crate::plain::{Automaton, Once, Plain};
    use reference::monitor::histories;

    #[test]
    fn plain_answers_as_the_reference() {
        for seed in 1..4 {
            let text = histories::file(seed, 4_000).expect("known answers");
            for monitor in [&Plain as &dyn Monitor, &Once, &Automaton] {
                let calls = replay(monitor, &text).unwrap_or_else(|wrong| panic!("{wrong}"));
                assert!(calls > 10_000, "{calls}");
            }
        }
    }
}
