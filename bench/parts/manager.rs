//! An object manager by hand, with the calls of crates/ob_manager: the same answers, the same refusals in the same order, and
//! the same counters. The compiler may inline its calls, as it may those of the other side.

use super::answers::{Fault, Kind, Limits, Make, Mode, Reply, Timeout};
use super::bits::Bits;
use super::directory::Directory;
use super::id::Id;
use super::objects::Objects;
use super::table::{Entry, Free, Table};
use super::waiting::{Thread, Waits};

pub struct Process {
    pub session: u32,
    /// Its threads, by rising number.
    pub threads: Vec<u32>,
    pub table: Table<Bits>,
}

/// Processes and threads are numbered from 1.
pub struct Manager {
    pub(crate) limits: Limits,
    pub(crate) processes: Vec<Option<Process>>,
    pub(crate) objects: Objects,
    pub(crate) vacant: Bits,
    pub(crate) births: u64,
    /// Who holds an object against its slot being taken back.
    pub(crate) held: Vec<Id>,
    pub(crate) names: Directory,
    pub(crate) waits: Waits,
}

impl Manager {
    pub fn new(limits: Limits) -> Manager {
        let mut vacant = Bits::default();
        (0..limits.slots).for_each(|slot| vacant.give_back(slot));
        Manager {
            limits,
            processes: vec![None],
            objects: Objects::new(limits.slots),
            vacant,
            births: 0,
            held: Vec::new(),
            names: Directory::new(),
            waits: Waits::new(limits.waits, limits.threads),
        }
    }

    pub fn spawn(&mut self, session: u32) -> Reply {
        self.added(session, Table::default()).into()
    }

    pub fn child(&mut self, thread: u32, inherit: bool) -> Reply {
        self.child_of(thread, inherit).into()
    }

    pub fn thread(&mut self, process: u32) -> Reply {
        self.started(process).into()
    }

    pub fn create_event(&mut self, thread: u32, make: &Make<'_>, manual: bool, set: bool) -> Reply {
        self.event(thread, make, manual, set).into()
    }

    pub fn create_mutex(&mut self, thread: u32, make: &Make<'_>, owned: bool) -> Reply {
        self.mutex(thread, make, owned).into()
    }

    pub fn create_semaphore(&mut self, thread: u32, make: &Make<'_>, initial: i32, max: i32) -> Reply {
        self.semaphore(thread, make, initial, max).into()
    }

    pub fn create_host(&mut self, thread: u32, make: &Make<'_>, of: u8, manual: bool, signaled: bool) -> Reply {
        self.host(thread, make, of, manual, signaled).into()
    }

    pub fn signal_host(&mut self, id: Id, signaled: bool) -> Reply {
        self.host_signaled(id, signaled).into()
    }

    pub fn open_named(&mut self, thread: u32, kind: Kind, mask: u32, inherit: bool, text: &[u8]) -> Reply {
        self.opened(thread, kind, mask, inherit, text).into()
    }

    /// The options are 1 to close the source and 2 for its rights.
    pub fn duplicate(
        &mut self,
        thread: u32,
        source: u32,
        handle: u32,
        target: Option<u32>,
        mask: u32,
        inherit: bool,
        options: u32,
    ) -> Reply {
        self.duplicated(thread, source, handle, target, mask, inherit, options).into()
    }

    pub fn close(&mut self, thread: u32, handle: u32) -> Reply {
        self.closed(thread, handle).into()
    }

    pub fn set_event(&mut self, thread: u32, handle: u32) -> Reply {
        self.changed(thread, handle, true).into()
    }

    pub fn reset_event(&mut self, thread: u32, handle: u32) -> Reply {
        self.changed(thread, handle, false).into()
    }

    pub fn release_semaphore(&mut self, thread: u32, handle: u32, count: i32) -> Reply {
        self.posted(thread, handle, count).into()
    }

    pub fn release_mutex(&mut self, thread: u32, handle: u32) -> Reply {
        self.unlocked(thread, handle).into()
    }

    pub fn wait(&mut self, thread: u32, mode: Mode, timeout: Timeout, handles: &[u32]) -> Reply {
        match handles {
            [handle] => self.waited_for_one(thread, mode, timeout, *handle).into(),
            _ => self.wait_for_some(thread, mode, timeout, handles),
        }
    }

    #[inline(never)]
    fn wait_for_some(&mut self, thread: u32, mode: Mode, timeout: Timeout, handles: &[u32]) -> Reply {
        self.waited_for_some(thread, mode, timeout, handles).into()
    }

    pub fn wait_result(&mut self, wait: u32) -> Reply {
        self.result(wait).into()
    }

    pub fn is_pending(&self, wait: u32) -> bool {
        self.waits.is_pending(wait)
    }

    pub fn expire(&mut self, wait: u32) -> Reply {
        self.waits.expire(&mut self.objects, wait).map(|()| Reply::Expired { wait }).into()
    }

    pub fn end_thread(&mut self, thread: u32) -> Reply {
        self.ended(thread).into()
    }

    pub fn exit(&mut self, process: u32) -> Reply {
        self.exited(process).into()
    }

    pub fn reap(&mut self, slot: u32) -> Reply {
        self.reaped(slot).into()
    }

    pub fn counts(&self, id: Id) -> Reply {
        self.counted(id).into()
    }

    pub fn resolve(&self, process: u32, handle: u32) -> Result<Id, Fault> {
        let process = self.processes.get(process as usize).and_then(Option::as_ref).ok_or(Fault::Parameter)?;
        Ok(process.table.entry(handle).ok_or(Fault::Handle)?.id)
    }

    pub(crate) fn thread_at(&self, thread: u32) -> Result<&Thread, Fault> {
        let thread = self.waits.threads.get(thread as usize).ok_or(Fault::Parameter)?;
        if thread.process == 0 {
            return Err(Fault::Parameter);
        }
        Ok(thread)
    }

    pub(crate) fn caller(&self, thread: u32) -> Result<u32, Fault> {
        let thread = self.thread_at(thread)?;
        if thread.waits() {
            return Err(Fault::Busy);
        }
        Ok(thread.process)
    }

    pub(crate) fn is_live(&self, process: u32) -> bool {
        self.processes.get(process as usize).is_some_and(Option::is_some)
    }

    pub(crate) fn process(&mut self, process: u32) -> Result<&mut Process, Fault> {
        self.processes[process as usize].as_mut().ok_or(Fault::Parameter)
    }

    pub(crate) fn found(&self, process: u32, handle: u32) -> Result<Entry, Fault> {
        let process = self.processes[process as usize].as_ref().ok_or(Fault::Parameter)?;
        process.table.entry(handle).ok_or(Fault::Handle)
    }
}
