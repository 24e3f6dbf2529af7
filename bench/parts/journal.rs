//! A manager behind a lock, with the journal of its calls.

use super::answers::{Kind, Make, Mode, Reply, Timeout};
use super::id::Id;
use super::manager::Manager;
use std::sync::{Condvar, Mutex};

#[derive(Clone)]
pub struct Making {
    pub name: Option<Vec<u8>>,
    pub inherit: bool,
    pub access: Option<u32>,
    pub grant: Option<u32>,
}

impl Making {
    fn make(&self) -> Make<'_> {
        Make { name: self.name.as_deref(), inherit: self.inherit, access: self.access, grant: self.grant }
    }
}

/// A call with what it is given.
#[derive(Clone)]
pub enum Call {
    Spawn { session: u32 },
    Child { thread: u32, inherit: bool },
    StartThread { process: u32 },
    MakeEvent { thread: u32, make: Making, manual: bool, set: bool },
    MakeMutex { thread: u32, make: Making, owned: bool },
    MakeSemaphore { thread: u32, make: Making, initial: i32, max: i32 },
    OpenNamed { thread: u32, kind: Kind, mask: u32, inherit: bool, text: Vec<u8> },
    Duplicate { thread: u32, source: u32, handle: u32, target: Option<u32>, mask: u32, inherit: bool, options: u32 },
    CloseHandle { thread: u32, handle: u32 },
    SetEvent { thread: u32, handle: u32 },
    ResetEvent { thread: u32, handle: u32 },
    ReleaseSemaphore { thread: u32, handle: u32, count: i32 },
    ReleaseMutex { thread: u32, handle: u32 },
    WaitFor { thread: u32, mode: Mode, timeout: Timeout, handles: Vec<u32> },
    WaitResult { wait: u32 },
    Expire { wait: u32 },
    EndThread { thread: u32 },
    Exit { process: u32 },
    Reap { slot: u32 },
    Counts { id: Id },
}

impl Manager {
    fn apply(&mut self, call: &Call) -> Reply {
        match *call {
            Call::Spawn { session } => self.spawn(session),
            Call::Child { thread, inherit } => self.child(thread, inherit),
            Call::StartThread { process } => self.thread(process),
            Call::MakeEvent { thread, ref make, manual, set } => self.create_event(thread, &make.make(), manual, set),
            Call::MakeMutex { thread, ref make, owned } => self.create_mutex(thread, &make.make(), owned),
            Call::MakeSemaphore { thread, ref make, initial, max } => {
                self.create_semaphore(thread, &make.make(), initial, max)
            }
            Call::OpenNamed { thread, kind, mask, inherit, ref text } => {
                self.open_named(thread, kind, mask, inherit, text)
            }
            Call::Duplicate { thread, source, handle, target, mask, inherit, options } => {
                self.duplicate(thread, source, handle, target, mask, inherit, options)
            }
            Call::CloseHandle { thread, handle } => self.close(thread, handle),
            Call::SetEvent { thread, handle } => self.set_event(thread, handle),
            Call::ResetEvent { thread, handle } => self.reset_event(thread, handle),
            Call::ReleaseSemaphore { thread, handle, count } => self.release_semaphore(thread, handle, count),
            Call::ReleaseMutex { thread, handle } => self.release_mutex(thread, handle),
            Call::WaitFor { thread, mode, timeout, ref handles } => self.wait(thread, mode, timeout, handles),
            Call::WaitResult { wait } => self.wait_result(wait),
            Call::Expire { wait } => self.expire(wait),
            Call::EndThread { thread } => self.end_thread(thread),
            Call::Exit { process } => self.exit(process),
            Call::Reap { slot } => self.reap(slot),
            Call::Counts { id } => self.counts(id),
        }
    }
}

pub struct Entry {
    lane: u32,
    call: Call,
    reply: Reply,
}

pub struct Lane {
    number: u32,
    list: Vec<Entry>,
}

impl Lane {
    pub fn number(&self) -> u32 {
        self.number
    }
}

struct Book {
    manager: Manager,
    journal: Vec<Entry>,
    /// How many lanes wait for a change.
    blocked: u32,
}

impl Book {
    fn enacted(&mut self, lane: u32, call: &Call, copy: Call) -> Reply {
        let reply = self.manager.apply(call);
        self.journal.push(Entry { lane, call: copy, reply });
        reply
    }
}

pub struct Shared {
    book: Mutex<Book>,
    changed: Condvar,
    lanes: u32,
}

impl Shared {
    pub fn new(manager: Manager) -> Shared {
        let book = Mutex::new(Book { manager, journal: Vec::new(), blocked: 0 });
        Shared { book, changed: Condvar::new(), lanes: 0 }
    }

    pub fn lane(&mut self) -> Lane {
        self.lanes += 1;
        Lane { number: self.lanes - 1, list: Vec::new() }
    }

    pub fn call(&self, lane: &mut Lane, call: Call) -> Reply {
        let copy = call.clone();
        let mut book = self.book.lock().unwrap();
        let reply = book.enacted(lane.number, &call, copy);
        let is_awaited = book.blocked > 0;
        drop(book);
        if is_awaited {
            self.changed.notify_all();
        }
        lane.list.push(Entry { lane: lane.number, call, reply });
        reply
    }

    /// Waits until a wait is answered, and takes its result.
    pub fn block(&self, lane: &mut Lane, wait: u32) -> Reply {
        let call = Call::WaitResult { wait };
        let mut book = self.book.lock().unwrap();
        book.blocked += 1;
        while book.manager.is_pending(wait) {
            book = self.changed.wait(book).unwrap();
        }
        book.blocked -= 1;
        let reply = book.enacted(lane.number, &call, call.clone());
        drop(book);
        lane.list.push(Entry { lane: lane.number, call, reply });
        reply
    }
}
