// Refusals 7, 8, 9 and 2 of a parsed table.

use super::index::*;
use super::parse::parse;
use super::refusal;
use crate::monitor::{Refusal, WORK};

const MOST_BYTES: usize = 16_384;

pub fn judge(list: &[u16], work: &mut [u64; WORK]) -> Result<(), Refusal> {
    parse(list, work)?;
    references(work)?;
    widths(work)?;
    branches(work)?;
    let bytes: usize = list.iter().map(|&n| bytes_of(n)).sum();
    if bytes > MOST_BYTES {
        return Err(refusal(2, 0));
    }
    Ok(())
}

fn bytes_of(number: u16) -> usize {
    1 + (number >= 1 << 7) as usize + (number >= 1 << 14) as usize
}

fn references(work: &[u64; WORK]) -> Result<(), Refusal> {
    let definitions = work[DEFINITIONS] as usize;
    for n in 0..work[COUNT] as usize {
        let term = Term(work[TERMS + n]);
        let place = reach(work, n) as usize;
        if term.kind() == CALL {
            if !call_fits(work, term, definitions) {
                return Err(refusal(7, place + 1));
            }
        } else if term.parameter() > term.prefixes() {
            return Err(refusal(7, place + 2));
        }
    }
    Ok(())
}

fn call_fits(work: &[u64; WORK], term: Term, definitions: usize) -> bool {
    let called = term.target();
    if called >= definitions {
        return false;
    }
    let own = work[LEVELS + term.own()];
    let level = work[LEVELS + called];
    level + term.under_parallel() as u64 <= own && (term.prefixes() > 0 || called < term.own())
}

// The widths (01: hands) of the levels, lowest first; then the reach of each term.
fn widths(work: &mut [u64; WORK]) -> Result<(), Refusal> {
    let mut of_level = [0; 8];
    for level in 0..8 {
        for d in 0..work[DEFINITIONS] as usize {
            if work[LEVELS + d] == level as u64 {
                let body = work[BODIES + d] as usize;
                let end = work[BODIES + d + 1] as usize;
                let mut calls = of_level;
                calls[level] = 1;
                for n in (body..end).rev() {
                    set_reach(work, n, width(work, n, &calls));
                }
                of_level[level] = of_level[level].max(reach(work, body));
            }
        }
        if of_level[level] > 8 {
            return Err(refusal(8, level));
        }
    }
    for n in (0..work[COUNT] as usize).rev() {
        set_reach(work, n, width(work, n, &of_level));
    }
    Ok(())
}

fn width(work: &[u64; WORK], n: usize, calls: &[u64; 8]) -> u64 {
    let term = Term(work[TERMS + n]);
    match term.kind() {
        PREFIX => reach(work, n + 1),
        CHOICE => reach(work, n + 1).max(reach(work, term.right())),
        PARALLEL => reach(work, n + 1) + reach(work, term.right()),
        CALL => calls[work[LEVELS + term.target()] as usize],
        _ => 1,
    }
}

// The branches (01: openings) of each term: a body's calls that no prefix guards are of lower
// definitions, so that the bodies are right after a round; the calls behind prefixes after another.
fn branches(work: &mut [u64; WORK]) -> Result<(), Refusal> {
    let terms = work[COUNT] as usize;
    for d in 0..work[DEFINITIONS] as usize {
        for n in (work[BODIES + d] as usize..work[BODIES + d + 1] as usize).rev() {
            set_branches(work, n);
        }
    }
    for n in (0..terms).rev() {
        set_branches(work, n);
    }
    for n in 0..terms {
        let term = Term(work[TERMS + n]);
        if term.entry() && term.branches() > 256 {
            return Err(refusal(9, n));
        }
    }
    Ok(())
}

fn set_branches(work: &mut [u64; WORK], n: usize) {
    let term = Term(work[TERMS + n]);
    let of = |n: usize| Term(work[TERMS + n]).branches();
    let branches = match term.kind() {
        FAIL => 0,
        CHOICE => 257.min(of(n + 1) + of(term.right())),
        PARALLEL => 257.min(of(n + 1) * of(term.right())),
        CALL => of(work[BODIES + term.target()] as usize),
        _ => 1,
    };
    work[TERMS + n] = term.with_branches(branches).0;
}

#[cfg(test)]
mod tests {
    use super::*;
    use reference::table::Term as Drawn;
    use reference::worked::full_table;

    // A list of 266,310 numbers, whose last names no definition.
    #[test]
    fn places_are_not_16_bits_wide() {
        let refused = judge(&full_table(Drawn::Call(9)), &mut [0; WORK]);
        assert!(refused == Err(refusal(7, 266_309)), "{refused:?}");
    }
}
