// Slots in an area: ascending, each once, then zeros.

use crate::monitor::SLOT;
use std::cmp::Ordering;

pub struct Slots<'a> {
    area: &'a mut [u64],
    pub count: usize,
}

impl<'a> Slots<'a> {
    // An area that holds none.
    pub fn of(area: &'a mut [u64]) -> Self {
        Slots { area, count: 0 }
    }

    // Holds a slot, unless it is held already; false where it is new and has no room.
    pub fn insert(&mut self, slot: &[u64; SLOT]) -> bool {
        let nodes = slot[0] as usize;
        let used = &slot[..=nodes];
        let (mut low, mut high) = (0, self.count);
        while low < high {
            let middle = (low + high) / 2;
            match used.cmp(&self.area[middle * SLOT..][..=nodes]) {
                Ordering::Less => high = middle,
                Ordering::Equal => return true,
                Ordering::Greater => low = middle + 1,
            }
        }
        let end = self.count * SLOT;
        if end == self.area.len() {
            return false;
        }
        let place = low * SLOT;
        if place < end {
            self.area.copy_within(place..end, place + SLOT);
        }
        let words: [u64; SLOT] = std::array::from_fn(|j| if j <= nodes { slot[j] } else { 0 });
        self.area[place..place + SLOT].copy_from_slice(&words);
        self.count += 1;
        true
    }
}
