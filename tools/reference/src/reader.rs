// The reader of tables, from bytes or from a list of numbers: refusals 3 to 5 at each number
// from the left, then 6 (01, "When the monitor declines").
//     Source          where numbers come from, and their places
//     read_table      the table, with the place of each of its numbers

use crate::numbers::{number_at, Reading};
use crate::refusal::*;
use crate::table::*;

pub trait Source {
    // The next number and its place; 3 or 4 where there is none.
    fn next(&mut self) -> Result<(u16, usize), Refusal>;
    // The place of the first input not yet taken, if there is any.
    fn rest(&self) -> Option<usize>;
}

pub struct Bytes<'a> {
    bytes: &'a [u8],
    at: usize,
}

pub struct List<'a> {
    list: &'a [u16],
    at: usize,
}

impl<'a> Bytes<'a> {
    pub fn new(bytes: &'a [u8]) -> Self {
        Bytes { bytes, at: 0 }
    }
}

impl<'a> List<'a> {
    pub fn new(list: &'a [u16]) -> Self {
        List { list, at: 0 }
    }
}

impl Source for Bytes<'_> {
    fn next(&mut self) -> Result<(u16, usize), Refusal> {
        let place = self.at;
        match number_at(self.bytes, place) {
            Reading::Truncated => refuse(TRUNCATED, self.bytes.len()),
            Reading::Malformed => refuse(MALFORMED, place),
            Reading::Number { value, next } => {
                self.at = next;
                Ok((value, place))
            }
        }
    }

    fn rest(&self) -> Option<usize> {
        (self.at < self.bytes.len()).then_some(self.at)
    }
}

impl Source for List<'_> {
    fn next(&mut self) -> Result<(u16, usize), Refusal> {
        let place = self.at;
        let Some(&value) = self.list.get(place) else {
            return refuse(TRUNCATED, self.list.len());
        };
        self.at += 1;
        Ok((value, place))
    }

    fn rest(&self) -> Option<usize> {
        (self.at < self.list.len()).then_some(self.at)
    }
}

// A table as it stood in its input: `places[i]` is where its number i stood.
pub struct Placed {
    pub table: Table,
    pub places: Vec<usize>,
}

struct Reader<S> {
    source: S,
    places: Vec<usize>,
    terms: usize,
}

pub fn read_table(source: impl Source) -> Result<Placed, Refusal> {
    let mut reader = Reader { source, places: Vec::new(), terms: 0 };
    let table = reader.table()?;
    match reader.source.rest() {
        Some(place) => refuse(TRAILING_INPUT, place),
        None => Ok(Placed { table, places: reader.places }),
    }
}

impl<S: Source> Reader<S> {
    // The next number: 3 or 4 by the source, then 5 where it is out of its range.
    fn number(&mut self, in_range: impl Fn(u16) -> bool) -> Result<u16, Refusal> {
        let (value, place) = self.source.next()?;
        self.places.push(place);
        if !in_range(value) {
            return refuse(OUT_OF_RANGE, place);
        }
        Ok(value)
    }

    fn table(&mut self) -> Result<Table, Refusal> {
        let alphabet = self.number(|n| 1 <= n && n <= MOST_ALPHABET)?;
        let mut sets = Vec::new();
        for _ in 0..self.number(|n| n <= MOST_SETS)? {
            let rows = sets.iter().map(|set: &Set| set.rows().len()).sum();
            sets.push(self.set(alphabet, rows)?);
        }
        let mut definitions = Vec::new();
        for _ in 0..self.number(|n| 1 <= n && n <= MOST_DEFINITIONS)? {
            let level = self.number(|n| n <= MOST_LEVEL)?;
            let body = self.term(&sets, 1)?;
            definitions.push(Definition { level, body });
        }
        Ok(Table { alphabet, sets, definitions })
    }

    // 02, W6: "With A above 64, all rows together number at most 3,072, else 5 at the kind of the
    // set that passes it"; so many rows stand before it
    fn set(&mut self, alphabet: u16, before: usize) -> Result<Set, Refusal> {
        let rows = |kind| before + if kind == 0 { 1 } else { alphabet as usize };
        let fits = |kind| alphabet <= LARGE_ABOVE || rows(kind) <= MOST_LARGE_ROWS;
        if self.number(|kind| kind <= 1 && fits(kind))? == 0 {
            return Ok(Set::Plain(self.row(alphabet)?));
        }
        let mut rows = Vec::new();
        for _ in 0..alphabet {
            rows.push(self.row(alphabet)?);
        }
        Ok(Set::Rows(rows))
    }

    // "a count, 0 to A, then that many events, strictly ascending"
    fn row(&mut self, alphabet: u16) -> Result<Row, Refusal> {
        let mut row: Row = Vec::new();
        for _ in 0..self.number(|count| count <= alphabet)? {
            let before = row.last().copied();
            let event = self.number(|e| e < alphabet && before.map_or(true, |b| b < e))?;
            row.push(event);
        }
        Ok(row)
    }

    // "at most 1,024, nested at most 32 deep (a body is at depth 1)"
    fn term(&mut self, sets: &[Set], depth: usize) -> Result<Term, Refusal> {
        let room = self.terms < MOST_TERMS && depth <= MOST_DEPTH;
        let kind = self.number(|kind| room && kind <= MOST_KIND)?;
        self.terms += 1;
        Ok(match kind {
            0 => Term::Stop,
            1 => Term::Fail,
            2 => {
                let set = self.set_reference(sets)?;
                prefix(set, self.term(sets, depth + 1)?)
            }
            3 => {
                let left = self.term(sets, depth + 1)?;
                choice(left, self.term(sets, depth + 1)?)
            }
            4 => {
                let set = self.set_reference(sets)?;
                let left = self.term(sets, depth + 1)?;
                parallel(set, left, self.term(sets, depth + 1)?)
            }
            // "A called definition that does not exist is 7"
            _ => Term::Call(self.number(|_| true)?),
        })
    }

    // "a set number that does not exist is 5"; "for a kind 1 set, a parameter k, 0 to 3"
    fn set_reference(&mut self, sets: &[Set]) -> Result<SetReference, Refusal> {
        let set = self.number(|n| (n as usize) < sets.len())?;
        let parameter = match sets[set as usize] {
            Set::Plain(_) => None,
            Set::Rows(_) => Some(self.number(|k| k <= MOST_PARAMETER)?),
        };
        Ok(SetReference { set, parameter })
    }
}
