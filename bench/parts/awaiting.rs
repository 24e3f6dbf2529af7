//! A thread waits for a list of handles.

use super::answers::{Fault, Mode, Reply, SYNCHRONIZE, Timeout, WAIT_TIMEOUT, within};
use super::manager::Manager;

const MAXIMUM_WAIT_OBJECTS: usize = 64;

/// Whether a list has a number twice, these bits aside. Most lists rise.
fn has_twice(numbers: &[u32], aside: u32) -> bool {
    let is_less = |pair: &[u32]| pair[0] | aside < pair[1];
    if numbers.windows(2).fold(true, |rises, pair| rises & is_less(pair)) {
        return false;
    }
    let mut sorted = [0; MAXIMUM_WAIT_OBJECTS];
    let sorted = &mut sorted[..numbers.len()];
    sorted.copy_from_slice(numbers);
    sorted.sort_unstable();
    !sorted.windows(2).all(is_less)
}

impl Manager {
    #[inline(always)]
    pub(crate) fn waited_for_one(
        &mut self,
        thread: u32,
        mode: Mode,
        timeout: Timeout,
        handle: u32,
    ) -> Result<Reply, Fault> {
        let process = self.caller(thread)?;
        let entry = self.found(process, handle)?;
        if !within(SYNCHRONIZE, entry.rights) {
            return Err(Fault::Access);
        }
        let slot = entry.id.slot;
        let body = &self.objects.look(slot).body;
        if body.signaled_for(thread) {
            if !body.has_room(thread, self.limits.max_recursion) {
                return Err(Fault::Limit);
            }
            return Ok(Reply::Code { code: self.objects.acquire(thread, slot) });
        }
        self.wait_on(thread, mode, timeout, &[slot])
    }

    #[inline(always)]
    pub(crate) fn waited_for_some(
        &mut self,
        thread: u32,
        mode: Mode,
        timeout: Timeout,
        handles: &[u32],
    ) -> Result<Reply, Fault> {
        let process = self.caller(thread)?;
        if handles.is_empty() || handles.len() > MAXIMUM_WAIT_OBJECTS || has_twice(handles, 3) {
            return Err(Fault::Parameter);
        }
        let mut slots = [0; MAXIMUM_WAIT_OBJECTS];
        let slots = &mut slots[..handles.len()];
        let table = &self.processes[process as usize].as_ref().ok_or(Fault::Parameter)?.table;
        let (mut rights, mut has_room) = (SYNCHRONIZE, true);
        let (mut signaled, mut first) = (0, usize::MAX);
        for (index, (slot, handle)) in slots.iter_mut().zip(handles).enumerate() {
            let entry = table.entry(*handle).ok_or(Fault::Handle)?;
            *slot = entry.id.slot;
            rights &= entry.rights;
            let body = &self.objects.look(entry.id.slot).body;
            if body.signaled_for(thread) {
                has_room &= body.has_room(thread, self.limits.max_recursion);
                signaled += 1;
                first = first.min(index);
            }
        }
        if rights == 0 {
            return Err(Fault::Access);
        }
        if mode == Mode::All && has_twice(slots, 0) {
            return Err(Fault::Parameter);
        }
        if !has_room {
            return Err(Fault::Limit);
        }
        let code = match mode {
            Mode::Any if signaled > 0 => first as u32 + self.objects.acquire(thread, slots[first]),
            Mode::All if signaled == slots.len() => self.objects.acquire_all(thread, slots.iter().copied()),
            _ => return self.wait_on(thread, mode, timeout, slots),
        };
        Ok(Reply::Code { code })
    }

    /// A wait that isn't ready.
    #[inline(always)]
    fn wait_on(&mut self, thread: u32, mode: Mode, timeout: Timeout, slots: &[u32]) -> Result<Reply, Fault> {
        if timeout == Timeout::Zero {
            return Ok(Reply::Code { code: WAIT_TIMEOUT });
        }
        let wait = self.waits.add(&mut self.objects, thread, mode, slots)?;
        Ok(Reply::Pending { wait })
    }

    pub(crate) fn result(&mut self, wait: u32) -> Result<Reply, Fault> {
        Ok(self.waits.take_result(wait)?.map_or(Reply::Pending { wait }, |code| Reply::Code { code }))
    }

    /// The least wait that is answered: its thread and the code. It is over then.
    pub fn take_answered(&mut self) -> Option<(u32, u32)> {
        self.waits.take_answered()
    }
}
