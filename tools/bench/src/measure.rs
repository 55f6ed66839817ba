// Events per second of processor time: calls of Feed, made for some time, of one monitor and one
// input.
//     Block       how many events a call has
//     measured    of several monitors in turn, several times
//     feed        so many events, not measured

use crate::clock::Clock;
use crate::inputs::{Input, Way};
use crate::monitor::*;
use std::time::Duration;

#[derive(Clone, Copy, Debug, PartialEq, Eq)]
pub enum Block {
    Of(usize),
    // one call, of as many events as the first monitor takes in the time, at most a million
    Long,
}

const LONGEST: usize = 1_000_000;

// Of a monitor: its best rate, and how many times as long it takes as the first one.
#[derive(Clone, Copy, Debug)]
pub struct Measured {
    pub rate: f64,
    pub times: f64,
}

// What a row's monitors are all fed, fixed before any is measured.
#[derive(Clone, Copy)]
enum Calls<'a> {
    // each from the fresh monitor
    Fresh(&'a [u8]),
    // so many events each, through the cycle again and again
    Of(&'a [u8], usize),
    // one, of so many times the cycle
    Long(&'a [u8], usize),
}

// So many rounds, in which the monitors take turns, so that what else the machine does meets them
// alike: the best rate, and the median of the rounds' ratios.
pub fn measured(
    monitors: &[&dyn Monitor],
    input: &Input,
    block: Block,
    time: Duration,
    rounds: usize,
) -> Vec<Measured> {
    let calls = match (&input.way, block) {
        (Way::Fresh(events), _) => Calls::Fresh(events),
        (Way::Cycle { cycle, .. }, Block::Of(count)) => Calls::Of(cycle, count),
        (Way::Cycle { cycle, .. }, Block::Long) => {
            Calls::Long(cycle, Fed::led(monitors[0], input).often(cycle, time))
        }
    };
    let round = || monitors.iter().map(|monitor| rate(*monitor, input, calls, time)).collect();
    let rounds: Vec<Vec<f64>> = (0..rounds).map(|_| round()).collect();
    let of = |i: usize| Measured {
        rate: rounds.iter().map(|rates| rates[i]).fold(0.0, f64::max),
        times: median(rounds.iter().map(|rates| rates[0] / rates[i]).collect()),
    };
    (0..monitors.len()).map(of).collect()
}

fn median(mut numbers: Vec<f64>) -> f64 {
    numbers.sort_by(f64::total_cmp);
    let n = numbers.len();
    (numbers[(n - 1) / 2] + numbers[n / 2]) / 2.0
}

fn rate(monitor: &dyn Monitor, input: &Input, calls: Calls, time: Duration) -> f64 {
    let mut fed = Fed::led(monitor, input);
    let (taken, passed) = match calls {
        Calls::Fresh(events) => fed.fresh(events, time),
        Calls::Of(cycle, count) => fed.calls(cycle, count, time),
        Calls::Long(cycle, often) => fed.long(cycle, often),
    };
    assert!(passed > Duration::ZERO, "{}: no time passed", input.name);
    taken as f64 / passed.as_secs_f64()
}

// Makes calls until there were so many events or more, or one long call of them; how many there
// were. The same each time, whatever the machine: for a count of instructions.
pub fn feed(monitor: &dyn Monitor, input: &Input, block: Block, events: usize) -> usize {
    let mut fed = Fed::led(monitor, input);
    let mut taken = 0;
    match (&input.way, block) {
        (Way::Fresh(each), _) => {
            let areas = fed.areas.clone();
            while taken < events {
                fed.call(each);
                fed.areas.clone_from(&areas);
                taken += each.len();
            }
        }
        (Way::Cycle { cycle, .. }, Block::Of(count)) => {
            let mut around = Around::new(cycle, count);
            while taken < events {
                fed.feed(around.next());
                taken += count;
            }
        }
        (Way::Cycle { cycle, .. }, Block::Long) => {
            let long = cycle.repeat(events.div_ceil(cycle.len()));
            fed.feed(&long);
            taken = long.len();
        }
    }
    taken
}

// The events of one call after the other, through a cycle.
struct Around {
    events: Vec<u8>,
    around: usize,
    count: usize,
    at: usize,
}

impl Around {
    fn new(cycle: &[u8], count: usize) -> Self {
        let events = cycle.iter().copied().cycle().take(cycle.len() + count - 1).collect();
        Around { events, around: cycle.len(), count, at: 0 }
    }

    fn next(&mut self) -> &[u8] {
        let at = self.at;
        self.at = (at + self.count) % self.around;
        &self.events[at..at + self.count]
    }
}

// A monitor that is fed.
struct Fed<'a> {
    monitor: &'a dyn Monitor,
    list: &'a [u16],
    record: Record,
    areas: [Vec<u64>; 2],
    work: Vec<u64>,
}

impl<'a> Fed<'a> {
    fn open(monitor: &'a dyn Monitor, input: &'a Input) -> Self {
        let mut areas = [vec![0; input.slots * SLOT], vec![0; input.slots * SLOT]];
        let mut work = vec![0; WORK];
        let [area0, area1] = &mut areas;
        let Answer::Given(record) =
            monitor.open(&input.list, Lent { area0, area1, work: &mut work }, &[])
        else {
            panic!("{}: not opened", input.name);
        };
        Fed { monitor, list: &input.list, record, areas, work }
    }

    // Opened, and led to where the input's cycle begins.
    fn led(monitor: &'a dyn Monitor, input: &'a Input) -> Self {
        let mut fed = Fed::open(monitor, input);
        if let Way::Cycle { lead, .. } = &input.way {
            fed.feed(lead);
        }
        fed
    }

    fn call(&mut self, events: &[u8]) -> Answer {
        let [area0, area1] = &mut self.areas;
        let lent = Lent { area0, area1, work: &mut self.work };
        self.monitor.feed(self.list, self.record, lent, events)
    }

    // A call that is not refused, and keeps the monitor running.
    fn feed(&mut self, events: &[u8]) {
        match self.call(events) {
            Answer::Given(record) if record.failed.is_none() => self.record = record,
            answer => panic!("{}: {answer:?}", self.monitor.name()),
        }
    }

    fn timed(&mut self, events: &[u8]) -> Duration {
        let clock = Clock::start();
        self.feed(events);
        clock.passed()
    }

    // How often the cycle goes into one call that takes the time: the fastest of three does, so
    // that a call that is slow by chance does not end the search.
    fn often(&mut self, cycle: &[u8], time: Duration) -> usize {
        let most = LONGEST.div_ceil(cycle.len());
        let mut often = 1;
        loop {
            let events = cycle.repeat(often);
            let passed = (0..3).map(|_| self.timed(&events)).min().expect("three");
            if passed >= time || often >= most {
                return often;
            }
            let more = time.as_secs_f64() / passed.as_secs_f64().max(1e-9);
            often = ((often as f64 * more * 1.1) as usize).clamp(often + 1, most.max(often + 1));
        }
    }

    // Calls of so many events, through the cycle again and again. The clock is asked after 1, 3, 7
    // calls and so on, so that asking it costs nothing.
    fn calls(&mut self, cycle: &[u8], count: usize, time: Duration) -> (usize, Duration) {
        let mut around = Around::new(cycle, count);
        let (mut taken, mut turns) = (0, 1);
        let clock = Clock::start();
        loop {
            for _ in 0..turns {
                self.feed(around.next());
            }
            taken += count * turns;
            turns *= 2;
            let passed = clock.passed();
            if passed >= time {
                return (taken, passed);
            }
        }
    }

    // One call.
    fn long(&mut self, cycle: &[u8], often: usize) -> (usize, Duration) {
        let events = cycle.repeat(often);
        (events.len(), self.timed(&events))
    }

    // Calls with the same events from the same state; to restore the areas is not timed.
    fn fresh(&mut self, events: &[u8], time: Duration) -> (usize, Duration) {
        let areas = self.areas.clone();
        let (mut taken, mut passed) = (0, Duration::ZERO);
        while passed < time {
            let clock = Clock::start();
            self.call(events);
            passed += clock.passed();
            taken += events.len();
            self.areas.clone_from(&areas);
        }
        (taken, passed)
    }
}

#[cfg(test)]
mod tests {
    use super::*;
    use crate::inputs;
    use crate::plain::Plain;
    use std::cell::RefCell;

    // Plain, slower in each call, with the number of events of each of its calls.
    struct Slower {
        each: Duration,
        calls: RefCell<Vec<usize>>,
    }

    impl Monitor for Slower {
        fn name(&self) -> &str {
            "slower"
        }

        fn open(&self, list: &[u16], lent: Lent, events: &[u8]) -> Answer {
            Plain.open(list, lent, events)
        }

        fn feed(&self, list: &[u16], record: Record, lent: Lent, events: &[u8]) -> Answer {
            self.calls.borrow_mut().push(events.len());
            let clock = Clock::start();
            while clock.passed() < self.each {}
            Plain.feed(list, record, lent, events)
        }
    }

    // a monitor whose calls take longer than the time is fed the long call of the first all the
    // same, and not a short one
    #[test]
    fn long_calls_are_the_same_for_all() {
        let time = Duration::from_millis(2);
        let input = inputs::all().into_iter().find(|input| input.name == "long table").unwrap();
        let slower = |each| Slower { each, calls: RefCell::new(Vec::new()) };
        let (first, second) = (slower(Duration::ZERO), slower(2 * time));
        let of = measured(&[&first, &second], &input, Block::Long, time, 3);
        let (first, second) = (first.calls.into_inner(), second.calls.into_inner());
        assert!(first.ends_with(&second[1..2]) && second[1] > 1_000, "{first:?} {second:?}");
        assert!(of[1].times > 1.5 && of[1].times < 20.0, "{of:?}");
    }

    #[test]
    fn events_are_those_asked_for() {
        for input in inputs::all().iter().filter(|input| !input.name.starts_with("stress")) {
            assert!(feed(&Plain, input, Block::Of(16), 64) == 64, "{}", input.name);
            assert!(feed(&Plain, input, Block::Long, 64) >= 64, "{}", input.name);
        }
    }
}
