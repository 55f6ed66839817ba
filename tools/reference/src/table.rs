// The abstract table (01, "Numbers and table"; 02, W6): alphabet, sets, definitions with their term
// trees; and the list of its numbers.

// 02, W6: "A may be 1 to 128"; "With A above 64, all rows together number at most 3,072"
pub const MOST_ALPHABET: u16 = 128;
pub const LARGE_ABOVE: u16 = 64;
pub const MOST_LARGE_ROWS: usize = 3_072;
pub const MOST_SETS: u16 = 64;
pub const MOST_DEFINITIONS: u16 = 32;
pub const MOST_LEVEL: u16 = 7;
pub const MOST_PARAMETER: u16 = 3;
pub const MOST_KIND: u16 = 5;
pub const MOST_TERMS: usize = 1_024;
pub const MOST_DEPTH: usize = 32;
pub const MOST_BYTES: usize = 16_384;

#[derive(Clone, Debug, PartialEq, Eq)]
pub struct Table {
    pub alphabet: u16,
    pub sets: Vec<Set>,
    pub definitions: Vec<Definition>,
}

// A row is its events, ascending.
pub type Row = Vec<u16>;

#[derive(Clone, Debug, PartialEq, Eq)]
pub enum Set {
    Plain(Row),     // kind 0
    Rows(Vec<Row>), // kind 1: row v is the set for parameter v
}

#[derive(Clone, Debug, PartialEq, Eq)]
pub struct Definition {
    pub level: u16,
    pub body: Term,
}

#[derive(Clone, Debug, PartialEq, Eq)]
pub enum Term {
    Stop,
    Fail,
    Prefix(SetReference, Box<Term>),
    Choice(Box<Term>, Box<Term>),
    Parallel(SetReference, Box<Term>, Box<Term>),
    Call(u16),
}

// A set number and, for a kind 1 set, a parameter.
#[derive(Clone, Debug, PartialEq, Eq)]
pub struct SetReference {
    pub set: u16,
    pub parameter: Option<u16>,
}

pub fn prefix(set: SetReference, follower: Term) -> Term {
    Term::Prefix(set, Box::new(follower))
}

pub fn choice(left: Term, right: Term) -> Term {
    Term::Choice(Box::new(left), Box::new(right))
}

pub fn parallel(set: SetReference, left: Term, right: Term) -> Term {
    Term::Parallel(set, Box::new(left), Box::new(right))
}

// The reference to a kind 0 set.
pub fn plain(set: u16) -> SetReference {
    SetReference { set, parameter: None }
}

impl Term {
    // The number of terms in it, itself included.
    pub fn size(&self) -> usize {
        match self {
            Term::Stop | Term::Fail | Term::Call(_) => 1,
            Term::Prefix(_, follower) => 1 + follower.size(),
            Term::Choice(left, right) | Term::Parallel(_, left, right) => {
                1 + left.size() + right.size()
            }
        }
    }

    fn write(&self, list: &mut Vec<u16>) {
        match self {
            Term::Stop => list.push(0),
            Term::Fail => list.push(1),
            Term::Prefix(set, follower) => {
                list.push(2);
                set.write(list);
                follower.write(list);
            }
            Term::Choice(left, right) => {
                list.push(3);
                left.write(list);
                right.write(list);
            }
            Term::Parallel(set, left, right) => {
                list.push(4);
                set.write(list);
                left.write(list);
                right.write(list);
            }
            Term::Call(definition) => list.extend([5, *definition]),
        }
    }
}

impl SetReference {
    fn write(&self, list: &mut Vec<u16>) {
        list.push(self.set);
        list.extend(self.parameter);
    }
}

impl Set {
    pub fn rows(&self) -> &[Row] {
        match self {
            Set::Plain(row) => std::slice::from_ref(row),
            Set::Rows(rows) => rows,
        }
    }

    pub fn kind(&self) -> u16 {
        match self {
            Set::Plain(_) => 0,
            Set::Rows(_) => 1,
        }
    }
}

impl Table {
    pub fn term_count(&self) -> usize {
        self.definitions.iter().map(|definition| definition.body.size()).sum()
    }

    // The place of the first definition's level among the table's numbers.
    pub fn first_level(&self) -> usize {
        let rows = self.sets.iter().flat_map(|set| set.rows());
        3 + self.sets.len() + rows.map(|row| 1 + row.len()).sum::<usize>()
    }

    // The table's numbers, in the order of its bytes.
    pub fn list(&self) -> Vec<u16> {
        let mut list = vec![self.alphabet, self.sets.len() as u16];
        for set in &self.sets {
            list.push(set.kind());
            for row in set.rows() {
                list.push(row.len() as u16);
                list.extend(row);
            }
        }
        list.push(self.definitions.len() as u16);
        for definition in &self.definitions {
            list.push(definition.level);
            definition.body.write(&mut list);
        }
        list
    }
}
