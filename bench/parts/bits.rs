//! Free numbers by three levels of bits, each of which tells which words below it aren't 0.

use super::table::Free;

#[derive(Default)]
pub struct Bits {
    top: u64,
    middle: Vec<u64>,
    low: Vec<u64>,
}

impl Free for Bits {
    fn least(&self) -> Option<u32> {
        if self.top == 0 {
            return None;
        }
        let group = self.top.trailing_zeros();
        let word = 64 * group + self.middle[group as usize].trailing_zeros();
        Some(64 * word + self.low[word as usize].trailing_zeros())
    }

    fn take(&mut self, number: u32) {
        let (word, group) = (number as usize / 64, number as usize / 4096);
        self.low[word] &= !(1 << (number % 64));
        if self.low[word] == 0 {
            self.middle[group] &= !(1 << (word % 64));
            if self.middle[group] == 0 {
                self.top &= !(1 << group);
            }
        }
    }

    fn give_back(&mut self, number: u32) {
        let (word, group) = (number as usize / 64, number as usize / 4096);
        if self.low.len() <= word {
            self.low.resize(word + 1, 0);
            self.middle.resize(group + 1, 0);
        }
        self.low[word] |= 1 << (number % 64);
        self.middle[group] |= 1 << (word % 64);
        self.top |= 1 << group;
    }
}
