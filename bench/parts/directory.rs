//! A directory of names: rows in the order of entry, with holes where names went, and a table of their places by hash. A name
//! is looked up as it stands, with no copy, and its hash is that of the kit's default hasher.

use super::id::Id;

/// A name of 16 bytes.
pub fn text(number: u32) -> [u8; 16] {
    format!("event-{number:010}").into_bytes().try_into().unwrap()
}

/// The namespace that all sessions share; each session's own has its number.
pub const GLOBAL: u64 = 1 << 32;

/// A name with its object.
pub struct Row {
    hash: u64,
    space: u64,
    base: Vec<u8>,
    id: Id,
}

impl Row {
    pub fn is(&self, space: u64, base: &[u8]) -> bool {
        self.space == space && self.base == base
    }

    pub fn is_of(&self, id: Id) -> bool {
        self.id == id
    }
}

/// A place in the table is 0 where it is empty, else one above the place of a row.
pub struct Directory {
    table: Vec<u32>,
    rows: Vec<Option<Row>>,
    count: usize,
}

const MULTIPLIER: u64 = 0x9E37_79B9_7F4A_7C15;

#[inline(always)]
fn fold(a: u64, b: u64) -> u64 {
    let wide = u128::from(a) * u128::from(b);
    (wide as u64) ^ ((wide >> 64) as u64)
}

#[inline(always)]
fn word(bytes: &[u8], at: usize) -> u64 {
    u64::from_le_bytes(bytes[at..at + 8].try_into().unwrap())
}

#[inline(always)]
fn half(bytes: &[u8], at: usize) -> u64 {
    u64::from(u32::from_le_bytes(bytes[at..at + 4].try_into().unwrap()))
}

/// The namespace is one write of eight bytes, the text another: sixteen bytes at a time by one wide product.
pub fn hash_of(space: u64, base: &[u8]) -> u64 {
    let mut state = fold(0x243F_6A88_85A3_08D3 ^ space, MULTIPLIER ^ 16);
    let len = base.len();
    if len <= 8 {
        let short = match len {
            4.. => half(base, 0) | half(base, len - 4) << 32,
            1.. => u64::from(base[0]) | u64::from(base[len / 2]) << 8 | u64::from(base[len - 1]) << 16,
            0 => 0,
        };
        return fold(state ^ short, MULTIPLIER ^ (2 * len as u64));
    }
    state = state.wrapping_add(len as u64);
    let mut at = 0;
    while len - at > 16 {
        state = fold(word(base, at) ^ state, word(base, at + 8) ^ MULTIPLIER);
        at += 16;
    }
    fold(word(base, len.saturating_sub(16)) ^ state, word(base, len - 8) ^ MULTIPLIER)
}

impl Directory {
    pub fn new() -> Directory {
        Directory { table: vec![0; 8], rows: Vec::new(), count: 0 }
    }

    fn next(&self, at: usize) -> usize {
        (at + 1) & (self.table.len() - 1)
    }

    fn home(&self, hash: u64) -> usize {
        hash as usize & (self.table.len() - 1)
    }

    /// Where the table has the row of this hash that is wanted: its place there, and the row's.
    #[inline(always)]
    fn seek(&self, hash: u64, is_wanted: impl Fn(&Row) -> bool) -> Option<(usize, usize)> {
        let mut at = self.home(hash);
        while self.table[at] != 0 {
            let place = self.table[at] as usize - 1;
            if let Some(row) = &self.rows[place] {
                if row.hash == hash && is_wanted(row) {
                    return Some((at, place));
                }
            }
            at = self.next(at);
        }
        None
    }

    fn list(&mut self, hash: u64, place: usize) {
        let mut at = self.home(hash);
        while self.table[at] != 0 {
            at = self.next(at);
        }
        self.table[at] = place as u32 + 1;
    }

    /// Closes the holes, and lists all rows in a table of `len` places.
    fn settle(&mut self, len: usize) {
        self.rows.retain(Option::is_some);
        self.table.clear();
        self.table.resize(len, 0);
        for place in 0..self.rows.len() {
            if let Some(hash) = self.rows[place].as_ref().map(|row| row.hash) {
                self.list(hash, place);
            }
        }
    }

    #[inline(always)]
    pub fn find(&self, hash: u64, space: u64, base: &[u8]) -> Option<Id> {
        let (_, place) = self.seek(hash, |row| row.is(space, base))?;
        self.rows[place].as_ref().map(|row| row.id)
    }

    #[inline(always)]
    pub fn enter(&mut self, hash: u64, space: u64, base: &[u8], id: Id) {
        self.rows.push(Some(Row { hash, space, base: base.to_vec(), id }));
        self.count += 1;
        if self.count * 8 <= self.table.len() * 7 {
            self.list(hash, self.rows.len() - 1);
        } else {
            self.settle(self.table.len() * 2);
        }
    }

    pub fn len(&self) -> usize {
        self.count
    }

    /// The namespace, the object and the rest of the text of each name, in the order of entry.
    pub fn rows(&self) -> impl Iterator<Item = (u64, Id, &[u8])> {
        self.rows.iter().flatten().map(|row| (row.space, row.id, row.base.as_slice()))
    }

    /// The row of this hash that is wanted leaves.
    #[inline(always)]
    pub fn remove(&mut self, hash: u64, is_wanted: impl Fn(&Row) -> bool) -> Option<Id> {
        let (mut hole, place) = self.seek(hash, is_wanted)?;
        let row = self.rows[place].take()?;
        let mask = self.table.len() - 1;
        let mut at = self.next(hole);
        while self.table[at] != 0 {
            if let Some(other) = &self.rows[self.table[at] as usize - 1] {
                let home = self.home(other.hash);
                if (at.wrapping_sub(home) & mask) >= (at.wrapping_sub(hole) & mask) {
                    self.table[hole] = self.table[at];
                    hole = at;
                }
            }
            at = self.next(at);
        }
        self.table[hole] = 0;
        self.count -= 1;
        if self.count < self.rows.len() / 2 {
            self.settle(self.table.len());
        }
        Some(row.id)
    }
}
