// Tables with events to feed.
//     Input       a table, slots, and how it is fed
//     all         every input, by name

mod lanes;
mod long;
mod openings;
mod residuals;
mod stress;
mod transitions;

use reference::table::*;

pub struct Input {
    pub name: &'static str,
    // what it is, for a reader
    pub says: &'static str,
    pub list: Vec<u16>,
    pub slots: usize,
    pub way: Way,
}

// How an input is fed.
pub enum Way {
    // from a fresh monitor the lead once, then the cycle over and over: it goes on running
    Cycle { lead: Vec<u8>, cycle: Vec<u8> },
    // each call from a fresh monitor, with these events
    Fresh(Vec<u8>),
}

pub const SLOTS: usize = 256;

pub fn all() -> Vec<Input> {
    let mut inputs = lanes::inputs();
    inputs.extend(residuals::inputs());
    inputs.extend(long::inputs());
    inputs.extend(transitions::inputs());
    inputs.extend(stress::inputs());
    inputs.extend(openings::inputs());
    inputs
}

fn cycle(
    name: &'static str,
    says: &'static str,
    list: Vec<u16>,
    lead: Vec<u8>,
    cycle: Vec<u8>,
) -> Input {
    Input { name, says, list, slots: SLOTS, way: Way::Cycle { lead, cycle } }
}

fn definition(level: u16, body: Term) -> Definition {
    Definition { level, body }
}

// These sides one beside the other, nested to the right.
fn beside(set: SetReference, mut sides: Vec<Term>) -> Term {
    let last = sides.pop().expect("a side");
    sides.into_iter().rev().fold(last, |right, left| parallel(set.clone(), left, right))
}

// Prefixes over plain sets, one after another, and a last term.
fn chain(sets: &[u16], last: Term) -> Term {
    sets.iter().rev().fold(last, |follower, &set| prefix(plain(set), follower))
}

#[cfg(test)]
mod tests {
    use super::*;
    use crate::monitor::*;
    use crate::naive::Naive;
    use crate::plain::{Automaton, Once, Plain};

    fn fed(monitor: &dyn Monitor, input: &Input, events: &[&[u8]]) -> (Answer, Vec<u64>) {
        let mut areas = [vec![0; input.slots * SLOT], vec![0; input.slots * SLOT]];
        let mut work = vec![0; WORK];
        let [area0, area1] = &mut areas;
        let lent = Lent { area0, area1, work: &mut work };
        let mut answer = monitor.open(&input.list, lent, &[]);
        for events in events {
            let Answer::Given(record) = answer else { panic!("{}: {answer:?}", input.name) };
            let lent = Lent { area0, area1, work: &mut work };
            answer = monitor.feed(&input.list, record, lent, events);
        }
        (answer, areas.concat())
    }

    // the monitors agree on the inputs; a cycle goes on, from the same residuals each time
    #[test]
    fn inputs_are_as_they_say() {
        for input in all() {
            match &input.way {
                Way::Cycle { lead, cycle } => {
                    let some = &cycle[..cycle.len().min(200)];
                    let plain = fed(&Plain, &input, &[lead, some]);
                    for other in [&Naive as &dyn Monitor, &Once, &Automaton] {
                        assert!(plain == fed(other, &input, &[lead, some]), "{}", input.name);
                    }
                    let (before, held) = fed(&Plain, &input, &[lead, cycle]);
                    let (after, again) = fed(&Plain, &input, &[lead, cycle, cycle]);
                    let half = held.len() / 2;
                    let swapped = [&held[half..], &held[..half]].concat();
                    assert!(again == held || again == swapped, "{}", input.name);
                    let (Answer::Given(a), Answer::Given(b)) = (before, after) else {
                        panic!("{}: {before:?} {after:?}", input.name)
                    };
                    assert!(a.failed.is_none() && a.count == b.count, "{}", input.name);
                }
                Way::Fresh(events) => {
                    let plain = fed(&Plain, &input, &[events]);
                    for other in [&Naive as &dyn Monitor, &Once, &Automaton] {
                        assert!(plain == fed(other, &input, &[events]), "{}", input.name);
                    }
                }
            }
        }
    }
}
