//! Waits: each at its thread, with a block for each object that it lists. The blocks of an object are a ring, by rising number.
//!
//! A block's place is made of its thread and its index in the list. No place is 0, and no thread.

use super::answers::{Fault, Mode, WAIT_TIMEOUT};
use super::id::Id;
use super::objects::{Object, Objects};
use std::collections::BTreeMap;

/// How many bits of a place are the index.
const INDEX_BITS: u32 = 6;

fn thread_of(place: u32) -> u32 {
    place >> INDEX_BITS
}

fn index_of(place: u32) -> u32 {
    place % (1 << INDEX_BITS)
}

/// A wait's place in the ring of an object, where a lone block is before and behind itself.
#[derive(Clone, Copy, Default)]
struct Block {
    slot: u32,
    before: u32,
    behind: u32,
}

#[derive(Clone, Copy, Default)]
enum State {
    #[default]
    Answered,
    Pending(Mode),
}

/// A thread with its wait, on one cache line.
#[derive(Default)]
#[repr(align(64))]
pub struct Thread {
    /// Its process, or 0 once it has ended.
    pub process: u32,
    /// The number of its wait, or 0.
    wait: u32,
    state: State,
    code: u32,
    /// The block of a wait for one object.
    block: Block,
    /// The blocks of a wait for several; none of a wait for one.
    blocks: Vec<Block>,
    /// The threads whose answers come before and behind this one's.
    earlier: u32,
    later: u32,
}

const _: () = assert!(size_of::<Thread>() == 64);

impl Thread {
    pub fn of(process: u32) -> Thread {
        Thread { process, ..Thread::default() }
    }

    pub fn waits(&self) -> bool {
        self.wait != 0
    }

    fn blocks(&self) -> &[Block] {
        if self.blocks.is_empty() { std::slice::from_ref(&self.block) } else { &self.blocks }
    }

    /// Its blocks are counted off their objects. Whether some of these have others, whose rings they are still in.
    #[inline(always)]
    fn drop_blocks(&self, objects: &mut Objects) -> bool {
        self.blocks().iter().fold(0, |others, block| others | objects.block_left(block.slot)) > 0
    }
}

/// A wait as a savestate says it: what it is pending for, or the code that it is answered with.
pub struct Shown {
    pub number: u32,
    pub thread: u32,
    pub pending: Option<(Mode, Vec<Id>)>,
    pub code: u32,
}

/// The threads and their waits, whose numbers rise from 1.
pub struct Waits {
    limit: u32,
    given: u32,
    pub threads: Vec<Thread>,
    /// By the low bits of its number, the thread of the last wait that has them.
    recent: Vec<u32>,
    /// By its number, the thread of a wait that is no longer among those.
    old: BTreeMap<u32, u32>,
    /// The threads whose answers aren't taken, by rising number of their waits: the first and the last.
    first: u32,
    last: u32,
    /// By its number, the thread of a wait that was answered when a greater one already was.
    late: BTreeMap<u32, u32>,
}

impl Waits {
    /// With room for so many threads.
    pub fn new(limit: u32, most: u32) -> Waits {
        let mut threads = Vec::with_capacity(most as usize + 1);
        threads.push(Thread::default());
        let recent = vec![0; most.next_power_of_two() as usize];
        let (old, late) = (BTreeMap::new(), BTreeMap::new());
        Waits { limit, given: 0, threads, recent, old, first: 0, last: 0, late }
    }

    fn at(&mut self, thread: u32) -> &mut Thread {
        &mut self.threads[thread as usize]
    }

    fn block(&mut self, place: u32) -> &mut Block {
        let thread = self.at(thread_of(place));
        if thread.blocks.is_empty() { &mut thread.block } else { &mut thread.blocks[index_of(place) as usize] }
    }

    fn recent(&mut self, number: u32) -> &mut u32 {
        let mask = self.recent.len() - 1;
        &mut self.recent[number as usize & mask]
    }

    /// The thread's wait gets the next number.
    #[inline(always)]
    fn enter(&mut self, thread: u32, state: State) -> u32 {
        self.given += 1;
        let number = self.given;
        let before = std::mem::replace(self.recent(number), thread);
        if before != 0 {
            self.old.insert(self.threads[before as usize].wait, before);
        }
        let at = self.at(thread);
        (at.wait, at.state) = (number, state);
        number
    }

    #[inline(always)]
    fn found(&self, number: u32) -> Result<u32, Fault> {
        let thread = self.recent[number as usize & (self.recent.len() - 1)];
        if thread != 0 && self.threads[thread as usize].wait == number {
            return Ok(thread);
        }
        self.old.get(&number).copied().ok_or(Fault::Parameter)
    }

    /// The thread waits no more.
    #[inline(always)]
    fn leave(&mut self, thread: u32) {
        let number = std::mem::take(&mut self.at(thread).wait);
        let recent = self.recent(number);
        if *recent == thread {
            *recent = 0;
        } else {
            self.old.remove(&number);
        }
    }

    /// The wait's number.
    #[inline(always)]
    pub fn add(&mut self, objects: &mut Objects, thread: u32, mode: Mode, slots: &[u32]) -> Result<u32, Fault> {
        if self.given >= self.limit {
            return Err(Fault::Limit);
        }
        let number = self.enter(thread, State::Pending(mode));
        let at = &mut self.threads[thread as usize];
        let blocks = match slots {
            [_] => {
                at.blocks.clear();
                std::slice::from_mut(&mut at.block)
            }
            _ => {
                at.blocks.resize(slots.len(), Block::default());
                &mut at.blocks
            }
        };
        let mut others = 0;
        for (index, (block, slot)) in blocks.iter_mut().zip(slots).enumerate() {
            let place = thread << INDEX_BITS | index as u32;
            *block = Block { slot: *slot, before: place, behind: place };
            others |= objects.block_came(*slot, place);
        }
        if others > 0 {
            self.join(objects, thread);
        }
        Ok(number)
    }

    /// The blocks of a thread that aren't the first of their objects come last there.
    #[inline(never)]
    fn join(&mut self, objects: &Objects, thread: u32) {
        for index in 0..self.at(thread).blocks().len() {
            let place = thread << INDEX_BITS | index as u32;
            let first = objects.look(self.block(place).slot).first;
            if first != place {
                let last = std::mem::replace(&mut self.block(first).before, place);
                self.block(last).behind = place;
                let block = self.block(place);
                (block.before, block.behind) = (last, first);
            }
        }
    }

    /// The blocks of a thread that aren't alone leave the rings of their objects.
    #[inline(never)]
    fn part(&mut self, objects: &mut Objects, thread: u32) {
        for index in 0..self.at(thread).blocks().len() {
            let place = thread << INDEX_BITS | index as u32;
            let Block { slot, before, behind } = *self.block(place);
            if behind != place {
                self.block(before).behind = behind;
                self.block(behind).before = before;
                let object = objects.object(slot);
                if object.first == place {
                    object.first = behind;
                }
            }
        }
    }

    pub fn given(&self) -> u32 {
        self.given
    }

    pub fn shown(&self, objects: &Objects) -> Vec<Shown> {
        let id = |block: &Block| Id { slot: block.slot, generation: objects.slots[block.slot as usize].generation };
        let shown = |(thread, at): (usize, &Thread)| Shown {
            number: at.wait,
            thread: thread as u32,
            pending: match at.state {
                State::Pending(mode) => Some((mode, at.blocks().iter().map(id).collect())),
                State::Answered => None,
            },
            code: at.code,
        };
        self.threads.iter().enumerate().filter(|(_, at)| at.waits()).map(shown).collect()
    }

    /// The numbers up to this one are given to nobody.
    pub fn skip_to(&mut self, number: u32) {
        self.given = number;
    }

    pub fn add_answered(&mut self, thread: u32, code: u32) {
        self.enter(thread, State::Answered);
        self.at(thread).code = code;
        self.note_answer(thread);
    }

    #[inline(never)]
    fn note_answer(&mut self, thread: u32) {
        let (last, number) = (self.last, self.at(thread).wait);
        match last {
            0 => self.first = thread,
            _ if self.at(last).wait < number => self.at(last).later = thread,
            _ => {
                self.late.insert(number, thread);
                return;
            }
        }
        self.last = thread;
        let at = self.at(thread);
        (at.earlier, at.later) = (last, 0);
    }

    /// The least wait that is answered and not taken, which is over with that: its thread and the code.
    pub fn take_answered(&mut self) -> Option<(u32, u32)> {
        let thread = match self.late.first_key_value() {
            Some((number, thread)) if self.first == 0 || *number < self.threads[self.first as usize].wait => *thread,
            _ => self.first,
        };
        (thread != 0).then(|| (thread, self.take(thread)))
    }

    /// An answer is taken, or goes with its thread.
    #[inline(always)]
    fn take(&mut self, thread: u32) -> u32 {
        let Thread { wait, code, earlier, later, .. } = self.threads[thread as usize];
        self.leave(thread);
        if self.late.is_empty() || self.late.remove(&wait).is_none() {
            match earlier {
                0 => self.first = later,
                _ => self.at(earlier).later = later,
            }
            match later {
                0 => self.last = earlier,
                _ => self.at(later).earlier = earlier,
            }
        }
        code
    }

    pub fn is_pending(&self, number: u32) -> bool {
        self.found(number).is_ok_and(|thread| matches!(self.threads[thread as usize].state, State::Pending(_)))
    }

    /// The waits for a slot take effect, by rising number, as long as it has something to take.
    pub fn settle_after(&mut self, objects: &mut Objects, slot: u32) {
        let Object { first, blocks, .. } = *objects.look(slot);
        match blocks {
            0 => {}
            1 => self.reach(objects, slot, first),
            _ => self.settle_ring(objects, slot, first, blocks),
        }
    }

    #[inline(never)]
    fn settle_ring(&mut self, objects: &mut Objects, slot: u32, first: u32, blocks: u32) {
        let mut place = first;
        for _ in 0..blocks {
            if objects.look(slot).body.signals == 0 {
                return;
            }
            let behind = self.block(place).behind;
            self.reach(objects, slot, place);
            place = behind;
        }
    }

    /// What a block is for may be taken. A wait that has another block there may be answered already, and nothing else is
    /// signaled that a wait for any is for.
    #[inline(always)]
    fn reach(&mut self, objects: &mut Objects, slot: u32, place: u32) {
        let thread = thread_of(place);
        match self.at(thread).state {
            State::Pending(Mode::Any) => {
                let code = index_of(place) + objects.acquire(thread, slot);
                self.answer(objects, thread, code);
            }
            _ => self.take_effect(objects, thread),
        }
    }

    fn waiters(&mut self, objects: &Objects, slot: u32, found: &mut Vec<(u32, u32)>) {
        let Object { first: mut place, blocks, .. } = *objects.look(slot);
        for _ in 0..blocks {
            let thread = thread_of(place);
            found.push((self.at(thread).wait, thread));
            place = self.block(place).behind;
        }
    }

    /// The same for several slots.
    pub fn settle(&mut self, objects: &mut Objects, slots: &[u32]) {
        match slots {
            [] => {}
            [slot] => self.settle_after(objects, *slot),
            _ => {
                let mut found = Vec::new();
                slots.iter().for_each(|slot| self.waiters(objects, *slot, &mut found));
                found.sort_unstable();
                found.dedup();
                found.into_iter().for_each(|(_, thread)| self.take_effect(objects, thread));
            }
        }
    }

    /// A pending wait is answered where it is ready.
    #[inline(never)]
    fn take_effect(&mut self, objects: &mut Objects, thread: u32) {
        let at = &self.threads[thread as usize];
        let is_signaled = |block: &Block| objects.look(block.slot).body.signaled_for(thread);
        let code = match at.state {
            State::Pending(Mode::Any) => match at.blocks().iter().position(is_signaled) {
                Some(index) => index as u32 + objects.acquire(thread, at.blocks()[index].slot),
                None => return,
            },
            State::Pending(Mode::All) if at.blocks().iter().all(is_signaled) => {
                objects.acquire_all(thread, at.blocks().iter().map(|block| block.slot))
            }
            _ => return,
        };
        self.answer(objects, thread, code);
    }

    /// A pending wait is answered.
    #[inline(always)]
    fn answer(&mut self, objects: &mut Objects, thread: u32, code: u32) {
        let at = &mut self.threads[thread as usize];
        (at.state, at.code) = (State::Answered, code);
        let has_others = at.drop_blocks(objects);
        if self.last == 0 {
            (self.first, self.last) = (thread, thread);
            (at.earlier, at.later) = (0, 0);
        } else {
            self.note_answer(thread);
        }
        if has_others {
            self.part(objects, thread);
        }
    }

    /// The code of a wait, which is over with that, or none while it is pending.
    pub fn take_result(&mut self, number: u32) -> Result<Option<u32>, Fault> {
        let thread = self.found(number)?;
        Ok(match self.at(thread).state {
            State::Answered => Some(self.take(thread)),
            State::Pending(_) => None,
        })
    }

    pub fn expire(&mut self, objects: &mut Objects, number: u32) -> Result<(), Fault> {
        let thread = self.found(number)?;
        let State::Pending(_) = self.at(thread).state else {
            return Err(Fault::Parameter);
        };
        self.answer(objects, thread, WAIT_TIMEOUT);
        Ok(())
    }

    /// A thread ends, and its wait with it.
    pub fn end(&mut self, objects: &mut Objects, thread: u32) {
        let at = &self.threads[thread as usize];
        match at.state {
            _ if !at.waits() => {}
            State::Answered => _ = self.take(thread),
            State::Pending(_) => {
                if at.drop_blocks(objects) {
                    self.part(objects, thread);
                }
                self.leave(thread);
            }
        }
        *self.at(thread) = Thread::default();
    }
}
