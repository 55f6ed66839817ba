// The trace sets of terms (000, Figure 2; 01, "Meaning by traces"), straight from the figure and
// apart from the residuals: a trace set is kept as the term or the operation that it is of, and
// asked for emptiness and for what follows an event.
//     holds       whether a term's trace set holds a list

use crate::table::*;
use std::rc::Rc;

// A term whose variables stand for the events of its environment, the nearest prefix's last.
#[derive(Clone)]
pub enum Traces<'a> {
    None,
    Of(&'a Term, Rc<Vec<u16>>),
    Union(Rc<Traces<'a>>, Rc<Traces<'a>>),
    Parallel(&'a Row, Rc<Traces<'a>>, Rc<Traces<'a>>),
}

fn row<'a>(table: &'a Table, set: &SetReference, environment: &[u16]) -> &'a Row {
    match &table.sets[set.set as usize] {
        Set::Plain(row) => row,
        Set::Rows(rows) => {
            let k = set.parameter.expect("a parameter") as usize;
            &rows[environment[environment.len() - 1 - k] as usize]
        }
    }
}

fn union<'a>(left: Traces<'a>, right: Traces<'a>) -> Traces<'a> {
    match (left, right) {
        (Traces::None, other) | (other, Traces::None) => other,
        (left, right) => Traces::Union(Rc::new(left), Rc::new(right)),
    }
}

// Equation (1): empty if either side is.
fn parallel<'a>(
    table: &'a Table,
    row: &'a Row,
    left: Traces<'a>,
    right: Traces<'a>,
) -> Traces<'a> {
    if is_empty(table, &left) || is_empty(table, &right) {
        return Traces::None;
    }
    Traces::Parallel(row, Rc::new(left), Rc::new(right))
}

pub fn is_empty(table: &Table, traces: &Traces) -> bool {
    match traces {
        Traces::None => true,
        Traces::Union(left, right) => is_empty(table, left) && is_empty(table, right),
        Traces::Parallel(_, left, right) => is_empty(table, left) || is_empty(table, right),
        Traces::Of(term, environment) => match term {
            Term::Stop | Term::Prefix(..) => false,
            Term::Fail => true,
            Term::Choice(left, right) => {
                let of = |term| Traces::Of(term, environment.clone());
                is_empty(table, &of(left)) && is_empty(table, &of(right))
            }
            Term::Parallel(_, left, right) => {
                let of = |term| Traces::Of(term, environment.clone());
                is_empty(table, &of(left)) || is_empty(table, &of(right))
            }
            Term::Call(definition) => {
                is_empty(table, &of_definition(table, *definition as usize))
            }
        },
    }
}

// T(e): the traces that start with e, without it.
pub fn after<'a>(table: &'a Table, traces: &Traces<'a>, event: u16) -> Traces<'a> {
    match traces {
        Traces::None => Traces::None,
        Traces::Union(left, right) => {
            union(after(table, left, event), after(table, right, event))
        }
        Traces::Parallel(row, left, right) => after_parallel(table, row, left, right, event),
        Traces::Of(term, environment) => {
            let of = |term: &'a Term| Traces::Of(term, environment.clone());
            match term {
                Term::Stop | Term::Fail => Traces::None,
                Term::Prefix(set, follower) if row(table, set, environment).contains(&event) => {
                    let mut environment = (**environment).clone();
                    environment.push(event);
                    Traces::Of(follower, Rc::new(environment))
                }
                Term::Prefix(..) => Traces::None,
                Term::Choice(left, right) => {
                    union(after(table, &of(left), event), after(table, &of(right), event))
                }
                Term::Parallel(set, left, right) => {
                    let row = row(table, set, environment);
                    after_parallel(table, row, &of(left), &of(right), event)
                }
                Term::Call(definition) => {
                    after(table, &of_definition(table, *definition as usize), event)
                }
            }
        }
    }
}

// Equation (2), where neither side is empty.
fn after_parallel<'a>(
    table: &'a Table,
    row: &'a Row,
    left: &Traces<'a>,
    right: &Traces<'a>,
    event: u16,
) -> Traces<'a> {
    if is_empty(table, left) || is_empty(table, right) {
        return Traces::None;
    }
    if row.contains(&event) {
        return parallel(table, row, after(table, left, event), after(table, right, event));
    }
    union(
        parallel(table, row, after(table, left, event), right.clone()),
        parallel(table, row, left.clone(), after(table, right, event)),
    )
}

// "A call holds what the body holds."
pub fn of_definition(table: &Table, definition: usize) -> Traces<'_> {
    Traces::Of(&table.definitions[definition].body, Rc::new(Vec::new()))
}

pub fn of_last(table: &Table) -> Traces<'_> {
    of_definition(table, table.definitions.len() - 1)
}

// A trace set is prefix-closed: it holds the empty trace unless it is empty.
pub fn holds(table: &Table, list: &[u16]) -> bool {
    let mut traces = of_last(table);
    for &event in list {
        traces = after(table, &traces, event);
    }
    !is_empty(table, &traces)
}
