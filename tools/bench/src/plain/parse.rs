// A number list to the index: refusals 3, 5 and 6.

use super::index::*;
use super::refusal;
use crate::monitor::{Refusal, WORK};

struct Parser<'a> {
    list: &'a [u16],
    at: usize,
    work: &'a mut [u64; WORK],
    sets: usize,
    terms: usize,
}

// Where a term stands: bits of its word.
#[derive(Clone, Copy)]
struct Spot(u64);

impl Spot {
    const PARALLEL: u64 = 1 << 6;
    const ENTRY: u64 = 1 << 7;
    const PREFIX: u64 = 1 << 8;

    fn follower(self) -> Self {
        Spot((self.0 | Self::ENTRY) + Self::PREFIX)
    }

    fn side(self) -> Self {
        Spot(self.0 & !Self::ENTRY)
    }

    fn beside(self) -> Self {
        Spot(self.side().0 | Self::PARALLEL)
    }
}

pub fn parse(list: &[u16], work: &mut [u64; WORK]) -> Result<(), Refusal> {
    let mut parser = Parser { list, at: 0, work, sets: 0, terms: 0 };
    let alphabet = parser.number(1, 128)?;
    parser.sets = parser.number(0, 64)? as usize;
    parser.rows(alphabet)?;
    let definitions = parser.number(1, 32)? as usize;
    for d in 0..definitions {
        let level = parser.number(0, 7)?;
        parser.work[LEVELS + d] = level as u64;
        parser.work[BODIES + d] = parser.terms as u64;
        parser.term(32, Spot(Spot::ENTRY | (d as u64) << 14))?;
    }
    if parser.at < list.len() {
        return Err(refusal(6, parser.at));
    }
    let terms = parser.terms as u64;
    work[BODIES + definitions] = terms;
    work[ALPHABET] = alphabet as u64;
    work[DEFINITIONS] = definitions as u64;
    work[COUNT] = terms;
    Ok(())
}

impl Parser<'_> {
    fn number(&mut self, low: u16, high: u16) -> Result<u16, Refusal> {
        let Some(&number) = self.list.get(self.at) else {
            return Err(refusal(3, self.list.len()));
        };
        if number < low || number > high {
            return Err(refusal(5, self.at));
        }
        self.at += 1;
        Ok(number)
    }

    fn rows(&mut self, alphabet: u16) -> Result<(), Refusal> {
        let large = alphabet as u64 > MASK_BITS;
        let mut row = 0;
        for s in 0..self.sets {
            let place = self.at;
            let kind = self.number(0, 1)?;
            self.work[SETS + s] = (row as u64) << 1 | kind as u64;
            let count = if kind == 0 { 1 } else { alphabet as usize };
            if large && row + count > HIGH {
                return Err(refusal(5, place));
            }
            for _ in 0..count {
                let mask = self.row(alphabet)?;
                self.work[row] = mask as u64;
                if large {
                    self.work[HIGH + row] = (mask >> MASK_BITS) as u64;
                }
                row += 1;
            }
        }
        Ok(())
    }

    fn row(&mut self, alphabet: u16) -> Result<u128, Refusal> {
        let mut mask = 0;
        let mut low = 0;
        for _ in 0..self.number(0, alphabet)? {
            let event = self.number(low, alphabet - 1)?;
            mask |= 1 << event;
            low = event + 1;
        }
        Ok(mask)
    }

    // A set reference: the bits of its row and parameter.
    fn reference(&mut self) -> Result<u64, Refusal> {
        let at = self.at;
        let set = self.number(0, u16::MAX)? as usize;
        if set >= self.sets {
            return Err(refusal(5, at));
        }
        let word = self.work[SETS + set];
        let parameter = if word & 1 == 0 { 0 } else { self.number(0, 3)? as u64 + 1 };
        Ok(word >> 1 << 30 | parameter << 3)
    }

    // A term, with room for so many levels of terms.
    fn term(&mut self, deep: usize, spot: Spot) -> Result<(), Refusal> {
        let place = self.at;
        if deep == 0 || self.terms >= 1_024 {
            return Err(refusal(if place < self.list.len() { 5 } else { 3 }, place));
        }
        let kind = self.number(0, 5)? as u64;
        let n = self.terms;
        self.terms += 1;
        let bits = match kind {
            PREFIX => {
                let set = self.reference()?;
                self.term(deep - 1, spot.follower())?;
                set
            }
            CHOICE => self.sides(deep - 1, spot.side())?,
            PARALLEL => {
                let set = self.reference()?;
                set | self.sides(deep - 1, spot.beside())?
            }
            CALL => (self.number(0, u16::MAX)? as u64) << 30,
            _ => 0,
        };
        self.work[TERMS + n] = kind | spot.0 | bits;
        set_reach(self.work, n, place as u64);
        Ok(())
    }

    // Two sides: the bits of the right one's number.
    fn sides(&mut self, deep: usize, spot: Spot) -> Result<u64, Refusal> {
        self.term(deep, spot)?;
        let right = self.terms as u64;
        self.term(deep, spot)?;
        Ok(right << 19)
    }
}
