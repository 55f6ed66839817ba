// Refusals 7 to 9 on a table that was read (01, "Numbers and table": references, hands,
// openings).
//     wrong_reference     the list place of the first number that breaks a reference rule
//     wide_level          the lowest level whose width (01: hands) is above 8
//     level_widths        the widths of all levels
//     branching_term      the lowest body or follower whose branches (01: openings) are above 256
// Widths and branches are saturating: only whether they are 0, and how they stand to 8 and 256,
// counts.

use crate::table::*;

pub const MOST_WIDTH: u128 = 8;
pub const MOST_BRANCHES: u128 = 256;

// Where a term stands in its definition.
#[derive(Clone, Copy)]
struct Context {
    definition: usize,
    prefixes: usize,
    under_parallel: bool,
}

pub fn wrong_reference(table: &Table) -> Option<usize> {
    let mut at = table.first_level();
    for (definition, Definition { body, .. }) in table.definitions.iter().enumerate() {
        let context = Context { definition, prefixes: 0, under_parallel: false };
        match references_of(table, body, at + 1, context) {
            Ok(next) => at = next,
            Err(wrong) => return Some(wrong),
        }
    }
    None
}

// The place after the term, whose kind stands at `at`; or the place of its first wrong
// reference.
fn references_of(table: &Table, term: &Term, at: usize, here: Context) -> Result<usize, usize> {
    match term {
        Term::Stop | Term::Fail => Ok(at + 1),
        Term::Prefix(set, follower) => {
            let at = set_reference(set, at + 1, here)?;
            references_of(table, follower, at, Context { prefixes: here.prefixes + 1, ..here })
        }
        Term::Choice(left, right) => {
            let at = references_of(table, left, at + 1, here)?;
            references_of(table, right, at, here)
        }
        Term::Parallel(set, left, right) => {
            let at = set_reference(set, at + 1, here)?;
            let sides = Context { under_parallel: true, ..here };
            let at = references_of(table, left, at, sides)?;
            references_of(table, right, at, sides)
        }
        Term::Call(called) => {
            if call_stands(table, *called as usize, here) {
                Ok(at + 2)
            } else {
                Err(at + 1)
            }
        }
    }
}

// "k is below the count of enclosing prefixes"
fn set_reference(set: &SetReference, at: usize, here: Context) -> Result<usize, usize> {
    match set.parameter {
        None => Ok(at + 1),
        Some(k) if (k as usize) < here.prefixes => Ok(at + 2),
        Some(_) => Err(at + 1),
    }
}

// "A call names an existing definition, of its own or a lower level; under a parallel, of a
// strictly lower level. A call with no prefix around it names a lower definition number."
fn call_stands(table: &Table, called: usize, here: Context) -> bool {
    let Some(definition) = table.definitions.get(called) else {
        return false;
    };
    let own = table.definitions[here.definition].level;
    definition.level <= own
        && (!here.under_parallel || definition.level < own)
        && (here.prefixes > 0 || called < here.definition)
}

pub fn wide_level(table: &Table) -> Option<usize> {
    level_widths(table).iter().position(|&width| width > MOST_WIDTH)
}

// The width of each level, "the largest among its bodies".
pub fn level_widths(table: &Table) -> Vec<u128> {
    let mut widths: Vec<u128> = Vec::new();
    for level in 0..=MOST_LEVEL {
        let bodies = table.definitions.iter().filter(|definition| definition.level == level);
        let width = bodies.map(|d| width_of(table, &d.body, level, &widths)).max().unwrap_or(0);
        widths.push(width);
    }
    widths
}

// "STOP and FAIL 1; prefix those of its follower; choice the larger; parallel the sum; call to
// its own level 1, to a lower level that level's hands"
fn width_of(table: &Table, term: &Term, own: u16, lower: &[u128]) -> u128 {
    match term {
        Term::Stop | Term::Fail => 1,
        Term::Prefix(_, follower) => width_of(table, follower, own, lower),
        Term::Choice(left, right) => {
            width_of(table, left, own, lower).max(width_of(table, right, own, lower))
        }
        Term::Parallel(_, left, right) => {
            let left = width_of(table, left, own, lower);
            left.saturating_add(width_of(table, right, own, lower))
        }
        Term::Call(called) => match table.definitions[*called as usize].level {
            level if level == own => 1,
            level => lower[level as usize],
        },
    }
}

pub fn branching_term(table: &Table) -> Option<usize> {
    // a body's calls that no prefix guards are of lower definitions
    let mut bodies: Vec<u128> = Vec::new();
    for definition in &table.definitions {
        bodies.push(branches_of(&definition.body, &bodies));
    }
    let mut number = 0;
    for definition in &table.definitions {
        match branching_in(&definition.body, number, true, &bodies) {
            Ok(next) => number = next,
            Err(term) => return Some(term),
        }
    }
    None
}

// "STOP 1, FAIL 0, prefix 1, choice the sum, parallel the product; the openings of a call are
// those of the definition called"
fn branches_of(term: &Term, bodies: &[u128]) -> u128 {
    match term {
        Term::Stop => 1,
        Term::Fail => 0,
        Term::Prefix(..) => 1,
        Term::Choice(left, right) => {
            branches_of(left, bodies).saturating_add(branches_of(right, bodies))
        }
        Term::Parallel(_, left, right) => {
            branches_of(left, bodies).saturating_mul(branches_of(right, bodies))
        }
        Term::Call(called) => bodies[*called as usize],
    }
}

// "Each body and each prefix's follower has at most 256": the number after the term's last, or
// that of the first of these in it, the term itself included if it is `judged`, with more.
fn branching_in(
    term: &Term,
    number: usize,
    judged: bool,
    bodies: &[u128],
) -> Result<usize, usize> {
    if judged && branches_of(term, bodies) > MOST_BRANCHES {
        return Err(number);
    }
    match term {
        Term::Stop | Term::Fail | Term::Call(_) => Ok(number + 1),
        Term::Prefix(_, follower) => branching_in(follower, number + 1, true, bodies),
        Term::Choice(left, right) | Term::Parallel(_, left, right) => {
            let next = branching_in(left, number + 1, false, bodies)?;
            branching_in(right, next, false, bodies)
        }
    }
}
