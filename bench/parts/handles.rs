//! Handles are duplicated and closed, and what they name is set, reset, released and counted.

use super::answers::{Fault, Kind, MODIFY_STATE, Reclaim, Reply, within};
use super::creating::flags_of;
use super::id::Id;
use super::manager::Manager;
use super::objects::{Object, Phase};
use super::table::{Entry, Free};

const CLOSE_SOURCE: u32 = 1;
const SAME_ACCESS: u32 = 2;

impl Manager {
    pub(crate) fn duplicated(
        &mut self,
        thread: u32,
        source: u32,
        handle: u32,
        target: Option<u32>,
        mask: u32,
        inherit: bool,
        options: u32,
    ) -> Result<Reply, Fault> {
        self.caller(thread)?;
        let closes = options & CLOSE_SOURCE != 0;
        if !self.is_live(source) || options > 3 || (target.is_none() && !closes) {
            return Err(Fault::Parameter);
        }
        let entry = self.found(source, handle)?;
        let answer = match target {
            Some(target) => self.copied(entry, target, mask, inherit, options),
            None => Ok(Reply::Closed),
        };
        if closes {
            self.remove(source, handle)?;
        }
        answer
    }

    fn copied(&mut self, entry: Entry, target: u32, mask: u32, inherit: bool, options: u32) -> Result<Reply, Fault> {
        if !self.is_live(target) {
            return Err(Fault::Parameter);
        }
        let id = entry.id;
        let mut rights = entry.rights;
        if options & SAME_ACCESS == 0 {
            if !within(mask, entry.rights | self.objects.look(id.slot).grant) {
                return Err(Fault::Access);
            }
            rights = mask;
        }
        let handle = self.placed(target, Entry { id, rights, flags: flags_of(inherit) })?;
        Ok(Reply::Duplicated { handle, id })
    }

    pub(crate) fn closed(&mut self, thread: u32, handle: u32) -> Result<Reply, Fault> {
        let process = self.caller(thread)?;
        self.remove(process, handle)?;
        Ok(Reply::Closed)
    }

    fn remove(&mut self, process: u32, handle: u32) -> Result<(), Fault> {
        let id = self.process(process)?.table.remove(handle).ok_or(Fault::Handle)?.id;
        self.handle_left(id);
        Ok(())
    }

    #[inline(always)]
    pub(crate) fn handle_left(&mut self, id: Id) {
        if let Some(hash) = self.objects.handle_left(id.slot) {
            self.names.remove(hash, |row| row.is_of(id));
        }
    }

    #[inline(always)]
    pub(crate) fn changed(&mut self, thread: u32, handle: u32, is_set: bool) -> Result<Reply, Fault> {
        let process = self.caller(thread)?;
        let entry = self.found(process, handle)?;
        let Object { kind: Kind::Event, body, blocks, .. } = self.objects.object(entry.id.slot) else {
            return Err(Fault::Handle);
        };
        if !within(MODIFY_STATE, entry.rights) {
            return Err(Fault::Access);
        }
        body.signals = u32::from(is_set);
        if is_set && *blocks > 0 {
            self.waits.settle_after(&mut self.objects, entry.id.slot);
        }
        Ok(Reply::Done)
    }

    pub(crate) fn host_signaled(&mut self, id: Id, is_set: bool) -> Result<Reply, Fault> {
        let slot = self.objects.slots.get(id.slot as usize).ok_or(Fault::Handle)?;
        if !slot.has_object() || slot.generation != id.generation {
            return Err(Fault::Handle);
        }
        let Object { kind: Kind::Host(_), body, handles, blocks, .. } = self.objects.object(id.slot) else {
            return Err(Fault::Handle);
        };
        if *handles == 0 && *blocks == 0 {
            return Err(Fault::Handle);
        }
        body.signals = u32::from(is_set);
        if is_set && *blocks > 0 {
            self.waits.settle_after(&mut self.objects, id.slot);
        }
        Ok(Reply::Done)
    }

    pub(crate) fn posted(&mut self, thread: u32, handle: u32, more: i32) -> Result<Reply, Fault> {
        let process = self.caller(thread)?;
        if more <= 0 {
            return Err(Fault::Parameter);
        }
        let entry = self.found(process, handle)?;
        let Object { kind: Kind::Semaphore, max, body, blocks, .. } = self.objects.object(entry.id.slot) else {
            return Err(Fault::Handle);
        };
        if !within(MODIFY_STATE, entry.rights) {
            return Err(Fault::Access);
        }
        let count = body.signals;
        if *max - count < more as u32 {
            return Err(Fault::TooManyPosts);
        }
        body.signals += more as u32;
        if *blocks > 0 {
            self.waits.settle_after(&mut self.objects, entry.id.slot);
        }
        Ok(Reply::Previous { count })
    }

    pub(crate) fn unlocked(&mut self, thread: u32, handle: u32) -> Result<Reply, Fault> {
        let process = self.caller(thread)?;
        let entry = self.found(process, handle)?;
        if self.objects.unlock(thread, entry.id.slot)? {
            self.waits.settle_after(&mut self.objects, entry.id.slot);
        }
        Ok(Reply::Done)
    }

    pub(crate) fn reaped(&mut self, slot: u32) -> Result<Reply, Fault> {
        if self.limits.slots <= slot {
            return Err(Fault::Parameter);
        }
        let place = &mut self.objects.slots[slot as usize];
        if place.phase != Phase::Closing {
            return Err(Fault::Handle);
        }
        let id = Id { slot, generation: place.generation };
        let pins = self.held.iter().filter(|held| held.slot == slot).count() as u32;
        if pins > 0 {
            return Ok(Reply::Reaped { id, outcome: Reclaim::Held { pins } });
        }
        let outcome = match self.objects.reclaim(slot, self.limits.max_gen) {
            Ok(Phase::Free) => Reclaim::Freed,
            Ok(_) => Reclaim::Retired,
            Err(pins) => return Ok(Reply::Reaped { id, outcome: Reclaim::Held { pins } }),
        };
        if outcome == Reclaim::Freed {
            self.vacant.give_back(slot);
        }
        Ok(Reply::Reaped { id, outcome })
    }

    pub(crate) fn counted(&self, id: Id) -> Result<Reply, Fault> {
        let slot = self.objects.slots.get(id.slot as usize).ok_or(Fault::Parameter)?;
        if !slot.has_object() || slot.generation != id.generation {
            return Err(Fault::Handle);
        }
        let Object { handles, blocks, .. } = slot.object;
        Ok(Reply::CountsAre { handles, waits: u64::from(blocks), hold: u32::from(handles == 0 && blocks == 0) })
    }
}
