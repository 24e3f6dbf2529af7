//! The handle table of one process, as a list of places that are filled or not, with those below its end that aren't in a set.

use super::id::Id;

pub const INHERIT: u32 = 1;

/// Numbers that are free.
pub trait Free: Default {
    fn least(&self) -> Option<u32>;
    fn take(&mut self, number: u32);
    fn give_back(&mut self, number: u32);
}

#[derive(Clone, Copy)]
pub struct Entry {
    pub id: Id,
    pub rights: u32,
    pub flags: u32,
}

#[derive(Default)]
pub struct Table<F> {
    pub places: Vec<Option<Entry>>,
    pub free: F,
}

impl<F: Free> Table<F> {
    pub fn entry(&self, value: u32) -> Option<Entry> {
        *self.places.get((value / 4).wrapping_sub(1) as usize)?
    }

    pub fn is_full(&self, limit: u32) -> bool {
        self.free.least().is_none() && self.places.len() >= limit as usize
    }

    /// The value of the new entry, or none where the table has as many as it may.
    pub fn place(&mut self, entry: Entry, limit: u32) -> Option<u32> {
        if let Some(place) = self.free.least() {
            self.free.take(place);
            self.places[place as usize] = Some(entry);
            return Some(4 * (place + 1));
        }
        let place = self.places.len() as u32;
        if place >= limit {
            return None;
        }
        self.places.push(Some(entry));
        Some(4 * (place + 1))
    }

    /// The entries with a flag, at their values.
    pub fn with(&self, flag: u32) -> Table<F> {
        let flagged = |place: &Option<Entry>| place.filter(|entry| entry.flags & flag != 0);
        let len = self.places.iter().rposition(|place| flagged(place).is_some()).map_or(0, |last| last + 1);
        let places: Vec<Option<Entry>> = self.places[..len].iter().map(flagged).collect();
        let mut free = F::default();
        for (place, entry) in places.iter().enumerate() {
            if entry.is_none() {
                free.give_back(place as u32);
            }
        }
        Table { places, free }
    }

    pub fn remove(&mut self, value: u32) -> Option<Entry> {
        if value < 4 {
            return None;
        }
        let place = value / 4 - 1;
        let entry = self.places.get_mut(place as usize)?.take()?;
        self.free.give_back(place);
        Some(entry)
    }
}
