// Tables with one known fault, made from accepted ones: for each clause of each refusal, a
// table that meets just that refusal at a known place first.
//     Fault       a list, the refusal that it meets, and the list place (level, term) where
//     CLAUSES     a maker of faults for each clause, with the name of its group

use crate::generate::*;
use crate::random::Random;
use crate::refusal::*;
use crate::role::*;
use crate::table::*;

pub struct Fault {
    pub list: Vec<u16>,
    pub number: u8,
    // in the list for 3 to 7, else a level, a term or 0
    pub place: usize,
}

pub type Maker = fn(&mut Random) -> Fault;

pub const CLAUSES: [(&str, Maker); 25] = [
    ("cut_short", cut_short),
    ("off_scale_alphabet", off_scale_alphabet),
    ("off_scale_set_count", off_scale_set_count),
    ("off_scale_set_kind", off_scale_set_kind),
    ("off_scale_row_count", off_scale_row_count),
    ("off_scale_event", off_scale_event),
    ("off_scale_order", off_scale_order),
    ("off_scale_equal_events", off_scale_equal_events),
    ("off_scale_definition_count", off_scale_definition_count),
    ("off_scale_level", off_scale_level),
    ("off_scale_kind", off_scale_kind),
    ("off_scale_set_number", off_scale_set_number),
    ("off_scale_set_number_no_sets", off_scale_set_number_no_sets),
    ("off_scale_parameter", off_scale_parameter),
    ("off_scale_depth", off_scale_depth),
    ("left_over", left_over),
    ("reference_parameter", reference_parameter),
    ("reference_missing_definition", reference_missing_definition),
    ("reference_higher_level", reference_higher_level),
    ("reference_same_level_under_parallel", reference_same_level_under_parallel),
    ("reference_unguarded_own_number", reference_unguarded_own_number),
    ("reference_unguarded_higher_number", reference_unguarded_higher_number),
    ("hands_above_8", hands_above_8),
    ("openings_above_256_body", openings_above_256_body),
    ("openings_above_256_follower", openings_above_256_follower),
];

// A number from `least` upwards, often at an edge.
pub fn above(random: &mut Random, least: u16) -> u16 {
    let edges = [least, least, least + 1, 127, 128, 255, 256, 16_383, 16_384, 65_534, 65_535];
    let edge = *random.pick(&edges);
    if edge >= least && !random.once_in(6) {
        edge
    } else {
        random.between(least as usize, 65_535) as u16
    }
}

// The place of a number with this role in an accepted table.
fn find(random: &mut Random, want: impl Fn(&Table, Role) -> bool) -> (Table, usize) {
    loop {
        let bounds = if random.once_in(3) { MIDDLE } else { SMALL };
        let table = small(random, bounds);
        let places: Vec<usize> = roles(&table)
            .iter()
            .enumerate()
            .filter(|(_, role)| want(&table, **role))
            .map(|(place, _)| place)
            .collect();
        if !places.is_empty() {
            let place = *random.pick(&places);
            return (table, place);
        }
    }
}

// Such a number, set to a value that is out of its range.
fn out_of_range(
    random: &mut Random,
    want: impl Fn(&Table, Role) -> bool,
    value: impl Fn(&mut Random, &Table, Role) -> u16,
) -> Fault {
    let (table, place) = find(random, want);
    let role = roles(&table)[place];
    let mut list = table.list();
    list[place] = value(random, &table, role);
    Fault { list, number: OUT_OF_RANGE, place }
}

// ---- 3

fn cut_short(random: &mut Random) -> Fault {
    let mut list = small(random, SMALL).list();
    let place = random.below(list.len());
    list.truncate(place);
    Fault { list, number: TRUNCATED, place }
}

// ---- 5

// 0, or from `least` upwards.
fn zero_or_above(random: &mut Random, least: u16) -> u16 {
    if random.once_in(3) {
        0
    } else {
        above(random, least)
    }
}

fn off_scale_alphabet(random: &mut Random) -> Fault {
    out_of_range(
        random,
        |_, role| role == Role::Alphabet,
        |random, _, _| zero_or_above(random, MOST_ALPHABET + 1),
    )
}

fn off_scale_set_count(random: &mut Random) -> Fault {
    out_of_range(random, |_, role| role == Role::SetCount, |random, _, _| above(random, 65))
}

fn off_scale_set_kind(random: &mut Random) -> Fault {
    out_of_range(random, |_, role| role == Role::SetKind, |random, _, _| above(random, 2))
}

fn off_scale_row_count(random: &mut Random) -> Fault {
    let value = |random: &mut Random, table: &Table, _| above(random, table.alphabet + 1);
    out_of_range(random, |_, role| role == Role::RowCount, value)
}

fn off_scale_event(random: &mut Random) -> Fault {
    let value = |random: &mut Random, table: &Table, _| above(random, table.alphabet);
    out_of_range(random, |_, role| matches!(role, Role::Event { .. }), value)
}

// The event before this one in its row.
fn event_before(role: Role) -> u16 {
    match role {
        Role::Event { before: Some(event) } => event,
        _ => unreachable!("only such roles are chosen"),
    }
}

fn off_scale_order(random: &mut Random) -> Fault {
    let want = |_: &Table, role| matches!(role, Role::Event { before: Some(1..) });
    out_of_range(random, want, |random, _, role| random.below(event_before(role) as usize) as u16)
}

fn off_scale_equal_events(random: &mut Random) -> Fault {
    let want = |_: &Table, role| matches!(role, Role::Event { before: Some(_) });
    out_of_range(random, want, |_, _, role| event_before(role))
}

fn off_scale_definition_count(random: &mut Random) -> Fault {
    let want = |_: &Table, role| role == Role::DefinitionCount;
    out_of_range(random, want, |random, _, _| zero_or_above(random, 33))
}

fn off_scale_level(random: &mut Random) -> Fault {
    out_of_range(random, |_, role| role == Role::Level, |random, _, _| above(random, 8))
}

fn off_scale_kind(random: &mut Random) -> Fault {
    let want = |_: &Table, role| matches!(role, Role::Kind { .. });
    out_of_range(random, want, |random, _, _| above(random, 6))
}

fn off_scale_set_number(random: &mut Random) -> Fault {
    let value = |random: &mut Random, table: &Table, _| above(random, table.sets.len() as u16);
    out_of_range(random, |_, role| role == Role::SetNumber, value)
}

// A prefix or a parallel in a table without sets.
fn off_scale_set_number_no_sets(random: &mut Random) -> Fault {
    let want = |table: &Table, role| {
        table.sets.is_empty() && matches!(role, Role::Kind { leaf: true, .. })
    };
    let (table, kind) = find(random, want);
    let mut list = table.list();
    list[kind] = if random.once_in(2) { 2 } else { 4 };
    list.insert(kind + 1, if random.once_in(2) { 0 } else { above(random, 0) });
    list.insert(kind + 2, 0);
    Fault { list, number: OUT_OF_RANGE, place: kind + 1 }
}

fn off_scale_parameter(random: &mut Random) -> Fault {
    let want = |_: &Table, role| matches!(role, Role::Parameter { .. });
    out_of_range(random, want, |random, _, _| above(random, 4))
}

fn off_scale_depth(random: &mut Random) -> Fault {
    let deeper = if random.once_in(2) { 0 } else { random.between(1, 10) };
    let table = deep_table(random, MOST_DEPTH + 1 + deeper);
    let too_deep = |role: &Role| matches!(role, Role::Kind { depth: 33, .. });
    let place = roles(&table).iter().position(too_deep).expect("a spine that deep");
    Fault { list: table.list(), number: OUT_OF_RANGE, place }
}

// A table with more than 1,024 terms: too long a line to be a clause of the usual number of
// cases.
pub fn off_scale_terms(random: &mut Random) -> Fault {
    let more = if random.once_in(2) { 1 } else { random.between(2, 100) };
    let table = terms_table(random, MOST_TERMS + more);
    let roles = roles(&table);
    let kinds = roles.iter().enumerate().filter(|(_, role)| matches!(role, Role::Kind { .. }));
    let (place, _) = kinds.skip(MOST_TERMS).next().expect("more than 1,024 terms");
    Fault { list: table.list(), number: OUT_OF_RANGE, place }
}

// ---- 6

fn left_over(random: &mut Random) -> Fault {
    let mut list = small(random, SMALL).list();
    let place = list.len();
    for _ in 0..random.between(1, 4) {
        list.push(if random.once_in(2) { 0 } else { above(random, 0) });
    }
    Fault { list, number: TRAILING_INPUT, place }
}

// ---- 7

fn reference_parameter(random: &mut Random) -> Fault {
    let want = |_: &Table, role| match role {
        Role::Parameter { place } => place.prefixes < 4,
        _ => false,
    };
    let (table, place) = find(random, want);
    let mut list = table.list();
    if let Role::Parameter { place: Place { prefixes, .. } } = roles(&table)[place] {
        list[place] = random.between(prefixes, 3) as u16;
    }
    Fault { list, number: WRONG_REFERENCE, place }
}

// A leaf or a call, made a call of another definition for which `wrong` holds.
fn wrong_call(random: &mut Random, wrong: impl Fn(&Table, Place, usize) -> bool) -> Fault {
    let choices = |table: &Table, place| -> Vec<usize> {
        (0..table.definitions.len()).filter(|&called| wrong(table, place, called)).collect()
    };
    let want = |table: &Table, role| match role {
        Role::Kind { leaf: true, place, .. } | Role::Called { place } => {
            !choices(table, place).is_empty()
        }
        _ => false,
    };
    let (table, at) = find(random, want);
    let mut list = table.list();
    match roles(&table)[at] {
        Role::Kind { place, .. } => {
            list[at] = 5;
            list.insert(at + 1, *random.pick(&choices(&table, place)) as u16);
            Fault { list, number: WRONG_REFERENCE, place: at + 1 }
        }
        Role::Called { place } => {
            list[at] = *random.pick(&choices(&table, place)) as u16;
            Fault { list, number: WRONG_REFERENCE, place: at }
        }
        _ => unreachable!("only such roles are chosen"),
    }
}

fn level(table: &Table, definition: usize) -> u16 {
    table.definitions[definition].level
}

fn reference_missing_definition(random: &mut Random) -> Fault {
    let (table, place) = find(random, |_, role| matches!(role, Role::Called { .. }));
    let mut list = table.list();
    list[place] = above(random, table.definitions.len() as u16);
    Fault { list, number: WRONG_REFERENCE, place }
}

// Guarded or of a lower number, so that only the level is wrong.
fn reference_higher_level(random: &mut Random) -> Fault {
    wrong_call(random, |table, place, called| {
        (place.prefixes > 0 || called < place.definition)
            && level(table, called) > level(table, place.definition)
    })
}

fn reference_same_level_under_parallel(random: &mut Random) -> Fault {
    wrong_call(random, |table, place, called| {
        place.under_parallel
            && (place.prefixes > 0 || called < place.definition)
            && level(table, called) == level(table, place.definition)
    })
}

fn reference_unguarded_own_number(random: &mut Random) -> Fault {
    wrong_call(random, |_, place, called| {
        place.prefixes == 0 && !place.under_parallel && called == place.definition
    })
}

// Of a level that may be called, so that only the number is wrong.
fn reference_unguarded_higher_number(random: &mut Random) -> Fault {
    wrong_call(random, |table, place, called| {
        let (own, its) = (level(table, place.definition), level(table, called));
        place.prefixes == 0
            && called > place.definition
            && (its < own || (its == own && !place.under_parallel))
    })
}

// ---- 8 and 9

fn hands_above_8(random: &mut Random) -> Fault {
    let level = random.below(8) as u16;
    let width = if random.once_in(2) { 9 } else { random.between(9, 20) };
    let list = wide_table(random, level, width).list();
    Fault { list, number: TOO_WIDE, place: level as usize }
}

fn openings_above_256(random: &mut Random, follower: bool) -> Fault {
    let branches = if random.once_in(2) { 257 } else { random.between(257, 300) };
    let (table, place) = branches_table(random, branches, follower);
    Fault { list: table.list(), number: TOO_MANY_BRANCHES, place }
}

fn openings_above_256_body(random: &mut Random) -> Fault {
    openings_above_256(random, false)
}

fn openings_above_256_follower(random: &mut Random) -> Fault {
    openings_above_256(random, true)
}
