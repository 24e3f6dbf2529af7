//! The objects in their slots, and which mutexes each thread owns.
//!
//! A slot's generation and phase stand beside its object, on one cache line, and in a word that readers on other threads could pin.

use super::answers::{Fault, Kind};
use super::body::Body;
use std::sync::atomic::{AtomicU64, Ordering::SeqCst};

#[derive(Default)]
pub struct Object {
    pub birth: u64,
    pub kind: Kind,
    pub manual: bool,
    pub max: u32,
    pub grant: u32,
    pub handles: u32,
    /// How many blocks of waits there are for it, and the place of the first one.
    pub blocks: u32,
    pub first: u32,
    pub body: Body,
    pub is_named: bool,
    /// The hash of its name, if it has one.
    pub hash: u64,
}

#[derive(Clone, Copy, PartialEq, Eq)]
pub enum Phase {
    Free,
    Live,
    Closing,
    Retired,
}

#[repr(align(64))]
pub struct Slot {
    pub generation: u32,
    pub phase: Phase,
    /// Where the phase is live or closing.
    pub object: Object,
}

impl Slot {
    pub fn has_object(&self) -> bool {
        matches!(self.phase, Phase::Live | Phase::Closing)
    }
}

const _: () = assert!(size_of::<Slot>() == 64);

const LIVE: u64 = 1 << 30;

const CLOSING: u64 = 3 << 30;

const PINS: u64 = LIVE - 1;

/// What an abandoned mutex adds to the code of a wait.
const ABANDONED: u32 = 128;

pub struct Objects {
    pub slots: Vec<Slot>,
    /// A word for each slot, and behind them a descriptor for each.
    words: Vec<AtomicU64>,
    /// By thread, the slots of the mutexes that it owns.
    pub owned: Vec<Vec<u32>>,
}

impl Objects {
    pub fn new(slots: u32) -> Objects {
        let slot = || Slot { generation: 1, phase: Phase::Free, object: Object::default() };
        let words = (0..2 * slots as usize).map(|_| AtomicU64::new(1 << 32)).collect();
        Objects { slots: (0..slots).map(|_| slot()).collect(), words, owned: vec![Vec::new()] }
    }

    /// A free slot is live, with the descriptor of its object.
    #[inline(always)]
    pub fn publish(&mut self, slot: usize, kind: Kind, manual: bool, max: u32) {
        let descr = kind.code() | u64::from(manual) << 2 | u64::from(max) << 3;
        self.words[self.slots.len() + slot].store(descr, SeqCst);
        self.words[slot].fetch_or(LIVE, SeqCst);
        self.slots[slot].phase = Phase::Live;
    }

    /// A slot as a savestate says it.
    pub fn restore(&mut self, slot: u32, generation: u32, phase: Phase, descr: u64, object: Object) {
        let at = slot as usize;
        let code = match phase {
            Phase::Free => 0,
            Phase::Live => LIVE,
            Phase::Closing => CLOSING,
            Phase::Retired => 2 << 30,
        };
        self.words[self.slots.len() + at] = AtomicU64::new(descr);
        self.words[at] = AtomicU64::new(u64::from(generation) << 32 | code);
        self.slots[at] = Slot { generation, phase, object };
    }

    /// A closing slot is free at the next generation, or retired, unless it is pinned; then how often.
    pub fn reclaim(&mut self, slot: u32, max_gen: u32) -> Result<Phase, u32> {
        let place = &mut self.slots[slot as usize];
        let closing = u64::from(place.generation) << 32 | CLOSING;
        let (phase, next) = if place.generation < max_gen {
            (Phase::Free, u64::from(place.generation + 1) << 32)
        } else {
            (Phase::Retired, u64::from(place.generation) << 32 | 2 << 30)
        };
        if let Err(found) = self.words[slot as usize].compare_exchange(closing, next, SeqCst, SeqCst) {
            return Err((found & PINS) as u32);
        }
        place.phase = phase;
        place.generation += u32::from(phase == Phase::Free);
        Ok(phase)
    }

    /// The object of a slot that has one, or had it.
    pub fn look(&self, slot: u32) -> &Object {
        &self.slots[slot as usize].object
    }

    pub fn object(&mut self, slot: u32) -> &mut Object {
        &mut self.slots[slot as usize].object
    }

    /// What it adds to the code of a wait.
    #[inline(always)]
    pub fn acquire(&mut self, thread: u32, slot: u32) -> u32 {
        let object = self.object(slot);
        if object.kind == Kind::Mutex {
            return self.own(thread, slot);
        }
        object.body.signals -= u32::from(!object.manual);
        0
    }

    #[inline(never)]
    fn own(&mut self, thread: u32, slot: u32) -> u32 {
        let body = &mut self.object(slot).body;
        let Body { owner, recursion, abandoned, .. } = *body;
        *body = Body { signals: 0, owner: thread, recursion: recursion + 1, abandoned: false };
        if owner == 0 {
            self.owned[thread as usize].push(slot);
        }
        if abandoned { ABANDONED } else { 0 }
    }

    /// The code of a wait for all.
    pub fn acquire_all(&mut self, thread: u32, slots: impl Iterator<Item = u32>) -> u32 {
        slots.fold(0, |code, slot| code | self.acquire(thread, slot))
    }

    fn disown(&mut self, thread: u32, slot: u32) {
        let owned = &mut self.owned[thread as usize];
        if let Some(at) = owned.iter().position(|other| *other == slot) {
            owned.swap_remove(at);
        }
    }

    /// A mutex is owned once less. Whether nobody owns it now.
    pub fn unlock(&mut self, thread: u32, slot: u32) -> Result<bool, Fault> {
        let Object { kind: Kind::Mutex, body, .. } = self.object(slot) else {
            return Err(Fault::Handle);
        };
        if body.owner != thread {
            return Err(Fault::NotOwner);
        }
        body.recursion -= 1;
        if body.recursion > 0 {
            return Ok(false);
        }
        (body.signals, body.owner) = (1, 0);
        self.disown(thread, slot);
        Ok(true)
    }

    /// The mutexes that a thread owns are abandoned; their slots.
    pub fn abandon(&mut self, thread: u32) -> Vec<u32> {
        let slots = std::mem::take(&mut self.owned[thread as usize]);
        for slot in &slots {
            self.object(*slot).body = Body::of_mutex(None, 0, true);
        }
        slots
    }

    /// Nothing refers to it any more.
    #[inline(never)]
    fn end(&mut self, slot: u32) {
        self.words[slot as usize].fetch_or(CLOSING, SeqCst);
        let place = &mut self.slots[slot as usize];
        place.phase = Phase::Closing;
        let owner = std::mem::take(&mut place.object.body).owner;
        if owner != 0 {
            self.disown(owner, slot);
        }
    }

    /// Whether it was the last handle of an object that has a name; then its hash.
    #[inline(always)]
    pub fn handle_left(&mut self, slot: u32) -> Option<u64> {
        let object = self.object(slot);
        object.handles -= 1;
        if object.handles > 0 {
            return None;
        }
        let hash = object.is_named.then_some(object.hash);
        if object.blocks == 0 {
            self.end(slot);
        }
        hash
    }

    /// How many blocks it had before.
    #[inline(always)]
    pub fn block_came(&mut self, slot: u32, place: u32) -> u32 {
        let object = self.object(slot);
        if object.blocks == 0 {
            object.first = place;
        }
        object.blocks += 1;
        object.blocks - 1
    }

    /// How many blocks it has yet.
    #[inline(always)]
    pub fn block_left(&mut self, slot: u32) -> u32 {
        let object = self.object(slot);
        object.blocks -= 1;
        let left = object.blocks;
        if left | object.handles == 0 {
            self.end(slot);
        }
        left
    }
}
