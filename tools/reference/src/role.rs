// What each number of a table is: the roles of its list, in order. Made from the tree alone, so
// that a number can be changed with known effect.

use crate::table::*;

#[derive(Clone, Copy, Debug, PartialEq, Eq)]
pub enum Role {
    Alphabet,
    SetCount,
    SetKind,
    RowCount,
    Event { before: Option<u16> },
    DefinitionCount,
    Level,
    Kind { leaf: bool, depth: usize, place: Place },
    SetNumber,
    Parameter { place: Place },
    Called { place: Place },
}

// Where a term stands in its definition.
#[derive(Clone, Copy, Debug, PartialEq, Eq)]
pub struct Place {
    pub definition: usize,
    pub prefixes: usize,
    pub under_parallel: bool,
}

pub fn roles(table: &Table) -> Vec<Role> {
    let mut roles = vec![Role::Alphabet, Role::SetCount];
    for set in &table.sets {
        roles.push(Role::SetKind);
        for row in set.rows() {
            roles.push(Role::RowCount);
            for i in 0..row.len() {
                roles.push(Role::Event { before: (i > 0).then(|| row[i - 1]) });
            }
        }
    }
    roles.push(Role::DefinitionCount);
    for (definition, Definition { body, .. }) in table.definitions.iter().enumerate() {
        roles.push(Role::Level);
        let place = Place { definition, prefixes: 0, under_parallel: false };
        term(body, 1, place, &mut roles);
    }
    roles
}

fn term(this: &Term, depth: usize, place: Place, roles: &mut Vec<Role>) {
    let leaf = matches!(this, Term::Stop | Term::Fail);
    roles.push(Role::Kind { leaf, depth, place });
    match this {
        Term::Stop | Term::Fail => {}
        Term::Prefix(set, follower) => {
            reference(set, place, roles);
            term(follower, depth + 1, Place { prefixes: place.prefixes + 1, ..place }, roles);
        }
        Term::Choice(left, right) => {
            term(left, depth + 1, place, roles);
            term(right, depth + 1, place, roles);
        }
        Term::Parallel(set, left, right) => {
            reference(set, place, roles);
            let place = Place { under_parallel: true, ..place };
            term(left, depth + 1, place, roles);
            term(right, depth + 1, place, roles);
        }
        Term::Call(_) => roles.push(Role::Called { place }),
    }
}

fn reference(set: &SetReference, place: Place, roles: &mut Vec<Role>) {
    roles.push(Role::SetNumber);
    if set.parameter.is_some() {
        roles.push(Role::Parameter { place });
    }
}
