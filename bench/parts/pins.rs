//! Pins and releases on bare words: a load, the verdict on the word, a compare-exchange and a fetch-sub.

use super::id::Id;
use std::hint::black_box;
use std::sync::atomic::{AtomicU64, Ordering::SeqCst};

const LIVE: u64 = 1 << 30;

const CLOSING: u64 = 3 << 30;

const RETIRED: u64 = 2 << 30;

const PHASE: u64 = 3 << 30;

// A line for each slot, with room for its descriptor beside its pin word.
const WORDS_A_SLOT: usize = 8;

pub enum Refused {
    NoSuchSlot,
    Unborn,
    Stale,
    PinsFull,
    Busy,
}

pub struct Words {
    words: Vec<AtomicU64>,
    slots: u32,
    max_pins: u32,
}

impl Words {
    pub fn new(slots: u32, max_pins: u32) -> Words {
        let words = (0..slots as usize * WORDS_A_SLOT).map(|_| AtomicU64::new(1 << 32)).collect();
        Words { words, slots, max_pins }
    }

    pub fn publish(&self, slot: u32) {
        self.words[slot as usize * WORDS_A_SLOT].fetch_or(LIVE, SeqCst);
    }

    fn try_pin(&self, id: Id) -> Result<(), Refused> {
        if id.slot >= self.slots {
            return Err(Refused::NoSuchSlot);
        }
        let word = &self.words[id.slot as usize * WORDS_A_SLOT];
        let found = word.load(SeqCst);
        let (generation, phase, pins) = ((found >> 32) as u32, found & PHASE, (found % LIVE) as u32);
        let born = phase == RETIRED || id.generation <= generation;
        if !born || (phase == 0 && generation == id.generation) {
            return Err(Refused::Unborn);
        }
        if id.generation < generation || phase == CLOSING || phase == RETIRED {
            return Err(Refused::Stale);
        }
        if pins == self.max_pins {
            return Err(Refused::PinsFull);
        }
        match word.compare_exchange(found, found + 1, SeqCst, SeqCst) {
            Ok(_) => Ok(()),
            Err(_) => Err(Refused::Busy),
        }
    }

    pub fn pin(&self, id: Id) -> Result<(), Refused> {
        loop {
            match self.try_pin(id) {
                Err(Refused::Busy) => {}
                settled => return settled,
            }
        }
    }

    pub fn release(&self, id: Id) {
        self.words[id.slot as usize * WORDS_A_SLOT].fetch_sub(1, SeqCst);
    }

    /// Pins a slot's first object and lets it go, so many times.
    pub fn spin(&self, slot: u32, pairs: u64) {
        let id = black_box(Id { slot, generation: 1 });
        for _ in 0..pairs {
            if self.pin(id).is_err() {
                panic!("the slot is live");
            }
            self.release(id);
        }
    }
}
