//! The object layer of the NT kernel as Win32 programs see it: events, mutexes, semaphores and timers, the handle tables of many
//! simulated processes, names and waits, for programs that run others. This is a safe binding of the C library; what each call does
//! and refuses `obman.h` says, and the guide to a host's loop is docs/EMBEDDING.md there.
//!
//! ```
//! use obman::{Create, Limits, Manager, Outcome, Waited, INFINITE};
//!
//! # fn main() -> Result<(), obman::Error> {
//! let mut m = Manager::new(&Limits::default())?;
//! let (a, b) = (m.spawn(1)?, m.spawn(1)?); // two processes of session 1, each with a thread
//! let event = m.create_event(a.thread, &Create::named("Local\\ready"), false, false)?.opening();
//! let again = m.open_event(b.thread, obman::SYNCHRONIZE, false, "ready")?;
//!
//! // b waits: the call answers at once that the wait is pending, and gives its number
//! let Waited::Pending(_wait) = m.wait(b.thread, false, INFINITE, &[again.handle])? else { unreachable!() };
//! m.set_event(a.thread, event.handle)?;
//!
//! // behind each call a host takes the answers of waits, and what ended
//! for answer in m.answers() {
//!     assert_eq!((answer.thread, answer.outcome), (b.thread, Outcome::Signaled(0)));
//! }
//! # Ok(())
//! # }
//! ```

#![warn(missing_docs)]

pub mod sys;

use std::fmt;
use std::sync::atomic::{AtomicU64, Ordering};

/// A process and a thread of it.
pub use sys::om_member as Member;
/// An object for its whole life: its slot, and the slot's generation, from 1.
pub use sys::om_object as Object;
/// A handle and the object that it names.
pub use sys::om_opening as Opening;
/// A handle with what it names, its rights and its flags.
pub use sys::om_entry as Entry;
/// What a handle names, with what the host keeps there.
pub use sys::om_handle_info as HandleInfo;
/// What can still come before a call is refused for want of it: vacant slots, numbers of processes and of threads, handles of a process.
pub use sys::om_room as Room;
/// What refers to an object: handles, places of pending waits, and a hold of 1 where there is neither.
pub use sys::om_references as References;

/// The right to set, reset, release, or set for a moment.
pub const MODIFY_STATE: u32 = 0x2;
/// The right to read who may do what, which each generic right has.
pub const READ_CONTROL: u32 = 0x0002_0000;
/// The right to wait.
pub const SYNCHRONIZE: u32 = 0x0010_0000;
/// All rights of an event.
pub const EVENT_ALL_ACCESS: u32 = 0x001F_0003;
/// All rights of a mutex.
pub const MUTEX_ALL_ACCESS: u32 = 0x001F_0001;
/// All rights of a semaphore.
pub const SEMAPHORE_ALL_ACCESS: u32 = 0x001F_0003;
/// All rights of a timer.
pub const TIMER_ALL_ACCESS: u32 = 0x001F_0003;
/// All rights of an object of the host's own.
pub const HOST_ALL_ACCESS: u32 = 0x001F_FFFF;
/// All rights of the kind, which each call refuses with 5 in this generic form, as the three that follow: [`map_access`].
pub const GENERIC_ALL: u32 = 0x1000_0000;
/// To wait for it.
pub const GENERIC_EXECUTE: u32 = 0x2000_0000;
/// To change its state.
pub const GENERIC_WRITE: u32 = 0x4000_0000;
/// To query its state.
pub const GENERIC_READ: u32 = 0x8000_0000;
/// Children inherit the handle.
pub const HANDLE_FLAG_INHERIT: u32 = 1;
/// The handle is closed with its process alone.
pub const HANDLE_FLAG_PROTECT_FROM_CLOSE: u32 = 2;
/// A duplicate closes its source.
pub const DUPLICATE_CLOSE_SOURCE: u32 = 1;
/// A duplicate has the rights of its source.
pub const DUPLICATE_SAME_ACCESS: u32 = 2;
/// The milliseconds of a wait without end.
pub const INFINITE: u32 = u32::MAX;
/// The moment until which a wait lasts for good.
pub const FOREVER: i64 = 0x7FFF_FFFF_FFFF_FFFF;

/// Until when a wait of so many milliseconds lasts, as [`Manager::wait_until`], [`Manager::sleep`] and [`Manager::signal_and_wait`] take it.
pub fn due_in(milliseconds: u32) -> i64 {
    if milliseconds == INFINITE {
        FOREVER
    } else {
        -10_000 * i64::from(milliseconds)
    }
}
/// The most bytes of a recorded line, with its line feed.
pub const LINE_MOST: u32 = 4098;
/// Which release this binding is of, 1.2.0: two decimal digits each for the second number and the third.
pub const VERSION: u32 = 10200;

/// Which release the library is of, as [`VERSION`] says it of this binding.
pub fn version() -> u32 {
    unsafe { sys::om_version() }
}

macro_rules! errors {
    ($($name:ident = $number:literal, $win32:literal;)*) => {
        /// Why a call was refused: a Win32 system error code.
        #[derive(Clone, Copy, Debug, PartialEq, Eq, Hash)]
        #[repr(u32)]
        pub enum Error {
            $(#[doc = $win32] $name = $number,)*
        }

        impl Error {
            /// Each of them.
            pub const ALL: &'static [Error] = &[$(Error::$name),*];

            /// The Win32 name.
            pub fn name(self) -> &'static str {
                match self {
                    $(Error::$name => $win32,)*
                }
            }

            fn of(status: u32) -> Error {
                match status {
                    $($number => Error::$name,)*
                    _ => unreachable!("the library answered with {status}"),
                }
            }
        }
    };
}

errors! {
    FileNotFound = 2, "ERROR_FILE_NOT_FOUND";
    PathNotFound = 3, "ERROR_PATH_NOT_FOUND";
    AccessDenied = 5, "ERROR_ACCESS_DENIED";
    InvalidHandle = 6, "ERROR_INVALID_HANDLE";
    NotEnoughMemory = 8, "ERROR_NOT_ENOUGH_MEMORY";
    InvalidData = 13, "ERROR_INVALID_DATA";
    InvalidParameter = 87, "ERROR_INVALID_PARAMETER";
    InsufficientBuffer = 122, "ERROR_INSUFFICIENT_BUFFER";
    Busy = 170, "ERROR_BUSY";
    FilenameExcedRange = 206, "ERROR_FILENAME_EXCED_RANGE";
    NoMoreItems = 259, "ERROR_NO_MORE_ITEMS";
    NotOwner = 288, "ERROR_NOT_OWNER";
    TooManyPosts = 298, "ERROR_TOO_MANY_POSTS";
    NotFound = 1168, "ERROR_NOT_FOUND";
    NoSystemResources = 1450, "ERROR_NO_SYSTEM_RESOURCES";
    NotEnoughQuota = 1816, "ERROR_NOT_ENOUGH_QUOTA";
}

impl Error {
    /// The Win32 number.
    pub fn number(self) -> u32 {
        self as u32
    }
}

impl fmt::Display for Error {
    fn fmt(&self, f: &mut fmt::Formatter<'_>) -> fmt::Result {
        write!(f, "{} ({})", self.name(), self.number())
    }
}

impl std::error::Error for Error {}

/// The Win32 name of a number that a call answers, or of `WAIT_TIMEOUT` or `WAIT_IO_COMPLETION`, for logs; "unknown" for another.
pub fn error_name(number: u32) -> &'static str {
    match number {
        0 => "ERROR_SUCCESS",
        183 => "ERROR_ALREADY_EXISTS",
        192 => "WAIT_IO_COMPLETION",
        258 => "WAIT_TIMEOUT",
        997 => "ERROR_IO_PENDING",
        _ => Error::ALL.iter().find(|error| error.number() == number).map_or("unknown", |error| error.name()),
    }
}

/// An access mask with the rights of a kind (`om_card`'s number: an event 0, a mutex 1, a semaphore 2, a timer 3, a host's object 256 and its type)
/// in the place of generic ones, as NT maps them (`om_map_access`).
pub fn map_access(kind: u32, mask: u32) -> u32 {
    let (is_host, has_state) = (kind > 4, kind != 1 && kind <= 4);
    let all = if is_host { HOST_ALL_ACCESS } else if has_state { EVENT_ALL_ACCESS } else { MUTEX_ALL_ACCESS };
    let generic = [
        (GENERIC_READ, READ_CONTROL | u32::from(!is_host)),
        (GENERIC_WRITE, READ_CONTROL | if has_state { MODIFY_STATE } else { 0 }),
        (GENERIC_EXECUTE, READ_CONTROL | SYNCHRONIZE),
        (GENERIC_ALL, all),
    ];
    generic.iter().filter(|(bit, _)| mask & bit != 0).fold(mask & 0x0FFF_FFFF, |rights, (_, of_kind)| rights | of_kind)
}

/// The NTSTATUS of a number that a call answers, or of `WAIT_TIMEOUT` or `WAIT_IO_COMPLETION` (`om_nt_status`).
pub fn nt_status(number: u32) -> u32 {
    match number {
        0 => 0x0000_0000,
        2 => 0xC000_0034,
        3 => 0xC000_003A,
        5 => 0xC000_0022,
        6 => 0xC000_0008,
        8 => 0xC000_0017,
        87 => 0xC000_000D,
        183 => 0x4000_0000,
        206 => 0xC000_0106,
        192 => 0x0000_00C0,
        258 => 0x0000_0102,
        288 => 0xC000_0046,
        298 => 0xC000_0047,
        997 => 0x0000_0103,
        1450 => 0xC000_009A,
        _ => 0xC000_0001,
    }
}

const ALREADY_EXISTS: u32 = 183;
const IO_PENDING: u32 = 997;

/// How much a manager may hold.
#[derive(Clone, Copy, Debug, PartialEq, Eq, Hash)]
pub struct Limits {
    /// Objects at a time: 1 to 65,536.
    pub slots: u32,
    /// Process numbers ever given, or processes at a time where numbers come back ([`Manager::new_reusing`]): 1 to 65,536.
    pub processes: u32,
    /// Thread numbers ever given, or threads at a time where numbers come back: 1 to 65,536.
    pub threads: u32,
    /// Handles of one process at a time: 1 to 16,384.
    pub handles: u32,
    /// Numbers of pending waits ever given, from 1. Where numbers come back it limits nothing.
    pub waits: u32,
    /// Pins of one slot: 1 to 1,073,741,823.
    pub max_pins: u32,
    /// The last generation of a slot, from 1.
    pub max_gen: u32,
    /// How often a thread may own a mutex: 1 to 2,147,483,647.
    pub max_recursion: u32,
}

impl Limits {
    /// The greatest limits, for a host that runs for long over [`Manager::new`]: numbers of processes, threads and pending waits are given
    /// once there. A manager reserves 14 MiB from the start, nearly all for its slots.
    pub const MOST: Limits = Limits {
        slots: 65_536,
        processes: 65_536,
        threads: 65_536,
        handles: 16_384,
        waits: u32::MAX,
        max_pins: 1_073_741_823,
        max_gen: u32::MAX,
        max_recursion: 2_147_483_647,
    };

    fn raw(&self) -> sys::om_limits {
        let Limits { slots, processes, threads, handles, waits, max_pins, max_gen, max_recursion } = *self;
        sys::om_limits { slots, processes, threads, handles, waits, max_pins, max_gen, max_recursion }
    }

    fn of(raw: sys::om_limits) -> Limits {
        let sys::om_limits { slots, processes, threads, handles, waits, max_pins, max_gen, max_recursion } = raw;
        Self { slots, processes, threads, handles, waits, max_pins, max_gen, max_recursion }
    }
}

impl Default for Limits {
    /// What serves most guests.
    fn default() -> Limits {
        Limits { slots: 64, processes: 64, threads: 256, handles: 1_024, waits: 1_000_000, ..Limits::MOST }
    }
}

/// What a create asks for. The default is no name, a handle that isn't inherited, and all rights.
#[derive(Clone, Copy, Debug, Default)]
pub struct Create<'a> {
    /// The name: UTF-8 text or other bytes.
    pub name: Option<&'a [u8]>,
    /// Children inherit the handle.
    pub inherit: bool,
    /// The rights of the handle, or all of the kind.
    pub access: Option<u32>,
    /// The rights that opens of a new object may get, or all of the kind.
    pub grant: Option<u32>,
}

impl<'a> Create<'a> {
    /// An object with this name, and all else by default.
    pub fn named(name: &'a (impl AsRef<[u8]> + ?Sized)) -> Create<'a> {
        Create { name: Some(name.as_ref()), ..Create::default() }
    }

    fn making(&self) -> (sys::om_making, &'a [u8]) {
        let making = sys::om_making {
            access: self.access.unwrap_or(0),
            grant: self.grant.unwrap_or(0),
            named: self.name.is_some(),
            inherit: self.inherit,
            has_access: self.access.is_some(),
            has_grant: self.grant.is_some(),
        };
        (making, self.name.unwrap_or(b""))
    }
}

/// What a create found.
#[derive(Clone, Copy, Debug, PartialEq, Eq)]
pub enum Created {
    /// A new object.
    New(Opening),
    /// An object that had the name already (183, `ERROR_ALREADY_EXISTS`).
    Existed(Opening),
}

impl Created {
    /// The handle, whichever it is.
    pub fn opening(self) -> Opening {
        match self {
            Created::New(opening) | Created::Existed(opening) => opening,
        }
    }
}

/// How a wait ended.
#[derive(Clone, Copy, Debug, PartialEq, Eq, Hash)]
pub enum Outcome {
    /// The object of this index satisfied it, or with index 0 all did.
    Signaled(u32),
    /// The same, and that was an abandoned mutex; of a wait for all one of them was.
    Abandoned(u32),
    /// Its time was up.
    TimedOut,
    /// An alert ended it.
    Alerted,
}

impl Outcome {
    fn of(code: u32) -> Outcome {
        match code {
            258 => Outcome::TimedOut,
            192 => Outcome::Alerted,
            128.. => Outcome::Abandoned(code - 128),
            _ => Outcome::Signaled(code),
        }
    }

    /// The number that Win32 has for it: `WAIT_OBJECT_0`, `WAIT_ABANDONED_0` and an index, `WAIT_TIMEOUT` or `WAIT_IO_COMPLETION`.
    pub fn code(self) -> u32 {
        match self {
            Outcome::Signaled(index) => index,
            Outcome::Abandoned(index) => 128 + index,
            Outcome::TimedOut => 258,
            Outcome::Alerted => 192,
        }
    }
}

/// How a wait stands.
#[derive(Clone, Copy, Debug, PartialEq, Eq, Hash)]
pub enum Waited {
    /// It is over.
    Over(Outcome),
    /// It is pending, with this number: that of its thread, where numbers come back.
    Pending(u32),
}

/// The answer of a wait that was pending: its thread may make calls again.
#[derive(Clone, Copy, Debug, PartialEq, Eq, Hash)]
pub struct Answer {
    /// The wait, which is over.
    pub wait: u32,
    /// Its thread.
    pub thread: u32,
    /// How it ended.
    pub outcome: Outcome,
}

/// What a pending wait is for.
#[derive(Clone, Debug, PartialEq, Eq, Hash)]
pub struct WaitedFor {
    /// The thread that waits.
    pub thread: u32,
    /// All objects together satisfy it, else each of them.
    pub all: bool,
    /// The moment at which its time is up, in units of 100 ns, if it ever is.
    pub deadline: Option<u64>,
    /// The objects, in the order of the handles.
    pub objects: Vec<Object>,
}

/// What became of a slot whose object ended.
#[derive(Clone, Copy, Debug, PartialEq, Eq, Hash)]
pub enum Slot {
    /// It is free for another object.
    Freed,
    /// It had its last generation, and is never used again.
    Retired,
    /// So many pins hold it.
    Held(u32),
}

/// An object that ended, and what became of its slot.
#[derive(Clone, Copy, Debug, PartialEq, Eq, Hash)]
pub struct Reaped {
    /// The object.
    pub object: Object,
    /// Its slot.
    pub slot: Slot,
}

fn reaped(r: sys::om_reaping) -> Reaped {
    let slot = match r.outcome {
        0 => Slot::Freed,
        1 => Slot::Retired,
        _ => Slot::Held(r.pins),
    };
    Reaped { object: r.object, slot }
}

/// A kind of objects, as which one was created. One of the host's own is told as an event.
#[derive(Clone, Copy, Debug, PartialEq, Eq, Hash)]
pub enum Kind {
    /// An event; one that is `manual` stays set until it is reset.
    Event {
        /// Whether it is reset by hand.
        manual: bool,
    },
    /// A mutex.
    Mutex,
    /// A semaphore.
    Semaphore {
        /// Its maximum.
        max: u32,
    },
    /// A timer; one that is `manual` stays signaled until it is set again.
    Timer {
        /// Whether it stays signaled.
        manual: bool,
    },
}

fn kind_of(kind: u32, max: u32, manual: bool) -> Kind {
    match kind {
        0 => Kind::Event { manual },
        1 => Kind::Mutex,
        2 => Kind::Semaphore { max },
        _ => Kind::Timer { manual },
    }
}

/// What an object was created as.
#[derive(Clone, Copy, Debug, PartialEq, Eq, Hash)]
pub struct Card {
    /// Its kind.
    pub kind: Kind,
    /// The rights that opens may get.
    pub grant: u32,
}

fn card_of(d: sys::om_description) -> Card {
    Card { kind: kind_of(d.kind, d.max, d.manual), grant: d.grant }
}

/// What state an object is in.
#[derive(Clone, Copy, Debug, PartialEq, Eq, Hash)]
pub enum State {
    /// An event.
    Event {
        /// Whether it is set.
        set: bool,
    },
    /// A mutex.
    Mutex {
        /// The thread that owns it.
        owner: Option<u32>,
        /// How often.
        recursion: u32,
        /// Whether its last owner ended, and nobody has acquired it since.
        abandoned: bool,
    },
    /// A semaphore.
    Semaphore {
        /// Its count.
        count: u32,
        /// Its maximum.
        max: u32,
    },
    /// A timer.
    Timer {
        /// Whether it is signaled.
        signaled: bool,
        /// The moment for which it is set, in units of 100 ns.
        due: Option<u64>,
    },
    /// An object of the host's own.
    Host {
        /// Its type, which the host chose.
        object_type: u8,
        /// Whether it is signaled.
        signaled: bool,
    },
    /// No handle and no pending wait refers to it any more.
    Ended,
}

fn state_of(s: sys::om_object_state) -> State {
    match s.kind {
        0 => State::Event { set: s.signaled },
        1 => State::Mutex { owner: (s.owner > 0).then_some(s.owner), recursion: s.count, abandoned: s.abandoned },
        2 => State::Semaphore { count: s.count, max: s.max },
        3 => State::Timer { signaled: s.signaled, due: s.has_due.then_some(s.due) },
        4 => State::Ended,
        kind => State::Host { object_type: (kind - 256) as u8, signaled: s.signaled },
    }
}

/// A name, as the directory has it.
#[derive(Clone, Debug, PartialEq, Eq)]
pub struct Name {
    /// The object.
    pub object: Object,
    /// The session of the namespace, or 0 for the global one.
    pub session: u32,
    /// The name without its prefix.
    pub base: Vec<u8>,
}

/// What a call writes into a room, which is made as long as the call says that it needs.
fn whole(mut call: impl FnMut(&mut Vec<u8>, &mut usize) -> u32) -> Result<Vec<u8>, Error> {
    let mut told: Vec<u8> = Vec::new();
    loop {
        let mut written = 0;
        let status = call(&mut told, &mut written);
        if status == Error::InsufficientBuffer.number() {
            told.resize(written, 0);
            continue;
        }
        done(status)?;
        told.truncate(written);
        return Ok(told);
    }
}

fn done(status: u32) -> Result<(), Error> {
    if status == 0 {
        return Ok(());
    }
    Err(Error::of(status))
}

/// The value that a call writes where it answers with 0.
fn told<T: Default>(call: impl FnOnce(&mut T) -> u32) -> Result<T, Error> {
    let mut value = T::default();
    done(call(&mut value)).map(|()| value)
}

fn created(call: impl FnOnce(&mut Opening) -> u32) -> Result<Created, Error> {
    let mut opening = Opening::default();
    match call(&mut opening) {
        ALREADY_EXISTS => Ok(Created::Existed(opening)),
        status => done(status).map(|()| Created::New(opening)),
    }
}

fn waited(call: impl FnOnce(&mut u32) -> u32) -> Result<Waited, Error> {
    let mut answer = 0;
    match call(&mut answer) {
        IO_PENDING => Ok(Waited::Pending(answer)),
        status => done(status).map(|()| Waited::Over(Outcome::of(answer))),
    }
}

/// A number, where it isn't 0.
fn some(number: u32) -> Option<u32> {
    (number > 0).then_some(number)
}

static MANAGERS: AtomicU64 = AtomicU64::new(0);

/// A manager. It makes one call at a time: to share it between threads, put it behind a lock.
pub struct Manager {
    m: sys::om_manager,
    number: u64,
}

// Nothing in it belongs to a thread.
unsafe impl Send for Manager {}

impl Drop for Manager {
    fn drop(&mut self) {
        unsafe { sys::om_free(self.m) }
    }
}

impl fmt::Debug for Manager {
    fn fmt(&self, f: &mut fmt::Formatter<'_>) -> fmt::Result {
        f.debug_struct("Manager").finish_non_exhaustive()
    }
}

fn made(call: impl FnOnce(&mut sys::om_manager) -> u32) -> Result<Manager, Error> {
    let mut m = sys::om_manager { at: std::ptr::null_mut() };
    done(call(&mut m))?;
    Ok(Manager { m, number: MANAGERS.fetch_add(1, Ordering::Relaxed) })
}

impl Manager {
    /// A manager with no process, which gives each number of a process, a thread and a wait once.
    pub fn new(limits: &Limits) -> Result<Manager, Error> {
        made(|m| unsafe { sys::om_new(&limits.raw(), m) })
    }

    /// The same, and its numbers come back: a new process or thread has the least number that no live one has, and a wait is called by the
    /// number of its thread.
    pub fn new_reusing(limits: &Limits) -> Result<Manager, Error> {
        Manager::new_with(limits, true, false)
    }

    /// The same, whose numbers come back or not, and which takes a handle twice in a wait for any, as NT does, or not.
    pub fn new_with(limits: &Limits, reuse: bool, repeats: bool) -> Result<Manager, Error> {
        made(|m| unsafe { sys::om_new_with(&limits.raw(), reuse, repeats, m) })
    }

    /// The manager of a savestate. [`Error::InvalidData`] for other bytes.
    pub fn load(saved: &[u8]) -> Result<Manager, Error> {
        made(|m| unsafe { sys::om_load(saved.as_ptr().cast(), saved.len(), m) })
    }

    /// A guest's process begins in a session, with its first thread.
    pub fn spawn(&mut self, session: u32) -> Result<Member, Error> {
        told(|member| unsafe { sys::om_spawn(&mut self.m, session, member) })
    }

    /// A thread begins a process of its own process's session, which with `inherit` has its inheritable handles.
    pub fn child(&mut self, thread: u32, inherit: bool) -> Result<Member, Error> {
        told(|member| unsafe { sys::om_child(&mut self.m, thread, inherit, member) })
    }

    /// The same with those of the inheritable handles alone that are listed: the process begins with all, and the others are closed.
    /// [`Error::InvalidParameter`] for a handle that isn't there or isn't inheritable.
    pub fn child_with(&mut self, thread: u32, handles: &[u32]) -> Result<Member, Error> {
        let parent = self.process_of(thread).unwrap_or(0);
        if !handles.iter().all(|it| self.handle(parent, *it).is_ok_and(|it| it.flags & HANDLE_FLAG_INHERIT != 0)) {
            return Err(Error::InvalidParameter);
        }
        let made = self.child(thread, true)?;
        let is_listed = |it: &u32| handles.iter().any(|listed| listed & !3 == *it);
        let others: Vec<u32> = self.handles(made.process).map(|it| it.handle).filter(|it| !is_listed(it)).collect();
        for other in others {
            self.set_handle_flags(made.thread, other, HANDLE_FLAG_PROTECT_FROM_CLOSE, 0)?;
            self.close(made.thread, other)?;
        }
        Ok(made)
    }

    /// A thread begins in a process.
    pub fn thread(&mut self, process: u32) -> Result<u32, Error> {
        told(|thread| unsafe { sys::om_thread(&mut self.m, process, thread) })
    }

    /// A thread ends, and with the last one its process.
    pub fn end_thread(&mut self, thread: u32) -> Result<(), Error> {
        done(unsafe { sys::om_end_thread(&mut self.m, thread) })
    }

    /// A process ends.
    pub fn exit(&mut self, process: u32) -> Result<(), Error> {
        done(unsafe { sys::om_exit(&mut self.m, process) })
    }

    /// A new event, or the one that has the name.
    pub fn create_event(&mut self, thread: u32, of: &Create<'_>, manual: bool, set: bool) -> Result<Created, Error> {
        let (making, name) = of.making();
        created(|o| unsafe {
            sys::om_create_event(&mut self.m, thread, &making, name.as_ptr(), name.len(), manual, set, o)
        })
    }

    /// A new mutex, or the one that has the name.
    pub fn create_mutex(&mut self, thread: u32, of: &Create<'_>, owned: bool) -> Result<Created, Error> {
        let (making, name) = of.making();
        created(|o| unsafe { sys::om_create_mutex(&mut self.m, thread, &making, name.as_ptr(), name.len(), owned, o) })
    }

    /// A new semaphore, or the one that has the name.
    pub fn create_semaphore(&mut self, thread: u32, of: &Create<'_>, initial: i32, max: i32) -> Result<Created, Error> {
        let (making, name) = of.making();
        created(|o| unsafe {
            sys::om_create_semaphore(&mut self.m, thread, &making, name.as_ptr(), name.len(), initial, max, o)
        })
    }

    /// A new timer, or the one that has the name.
    pub fn create_timer(&mut self, thread: u32, of: &Create<'_>, manual: bool) -> Result<Created, Error> {
        let (making, name) = of.making();
        created(|o| unsafe { sys::om_create_timer(&mut self.m, thread, &making, name.as_ptr(), name.len(), manual, o) })
    }

    /// A new object of the host's own, such as a thread or a file, of a type that the host chooses, or the one that has the name. One
    /// that is `manual` stays signaled until the host resets it. `of` says what its type has of rights.
    pub fn create_host(
        &mut self,
        thread: u32,
        of: &Create<'_>,
        object_type: u8,
        manual: bool,
        signaled: bool,
    ) -> Result<Created, Error> {
        let (making, name) = of.making();
        created(|o| unsafe {
            sys::om_create_host(&mut self.m, thread, &making, name.as_ptr(), name.len(), object_type, manual, signaled, o)
        })
    }

    /// A handle to the event of a name.
    pub fn open_event(&mut self, thread: u32, access: u32, inherit: bool, name: impl AsRef<[u8]>) -> Result<Opening, Error> {
        let name = name.as_ref();
        told(|o| unsafe { sys::om_open_event(&mut self.m, thread, access, inherit, name.as_ptr(), name.len(), o) })
    }

    /// A handle to the mutex of a name.
    pub fn open_mutex(&mut self, thread: u32, access: u32, inherit: bool, name: impl AsRef<[u8]>) -> Result<Opening, Error> {
        let name = name.as_ref();
        told(|o| unsafe { sys::om_open_mutex(&mut self.m, thread, access, inherit, name.as_ptr(), name.len(), o) })
    }

    /// A handle to the semaphore of a name.
    pub fn open_semaphore(&mut self, thread: u32, access: u32, inherit: bool, name: impl AsRef<[u8]>) -> Result<Opening, Error> {
        let name = name.as_ref();
        told(|o| unsafe { sys::om_open_semaphore(&mut self.m, thread, access, inherit, name.as_ptr(), name.len(), o) })
    }

    /// A handle to the timer of a name.
    pub fn open_timer(&mut self, thread: u32, access: u32, inherit: bool, name: impl AsRef<[u8]>) -> Result<Opening, Error> {
        let name = name.as_ref();
        told(|o| unsafe { sys::om_open_timer(&mut self.m, thread, access, inherit, name.as_ptr(), name.len(), o) })
    }

    /// A handle to the object of the host's own of a type and a name.
    pub fn open_host(
        &mut self,
        thread: u32,
        object_type: u8,
        access: u32,
        inherit: bool,
        name: impl AsRef<[u8]>,
    ) -> Result<Opening, Error> {
        let name = name.as_ref();
        told(|o| unsafe {
            sys::om_open_host(&mut self.m, thread, object_type, access, inherit, name.as_ptr(), name.len(), o)
        })
    }

    /// A handle of the process `target` to what a handle of the process `source` names.
    #[allow(clippy::too_many_arguments)]
    pub fn duplicate(
        &mut self,
        thread: u32,
        source: u32,
        handle: u32,
        target: u32,
        access: u32,
        inherit: bool,
        options: u32,
    ) -> Result<Opening, Error> {
        told(|o| unsafe { sys::om_duplicate(&mut self.m, thread, source, handle, target, access, inherit, options, o) })
    }

    /// Closes a handle.
    pub fn close(&mut self, thread: u32, handle: u32) -> Result<(), Error> {
        done(unsafe { sys::om_close(&mut self.m, thread, handle) })
    }

    /// A handle's flags.
    pub fn handle_flags(&mut self, thread: u32, handle: u32) -> Result<u32, Error> {
        told(|flags| unsafe { sys::om_handle_flags(&mut self.m, thread, handle, flags) })
    }

    /// The flags in the mask become what they are in `flags`.
    pub fn set_handle_flags(&mut self, thread: u32, handle: u32, mask: u32, flags: u32) -> Result<(), Error> {
        done(unsafe { sys::om_set_handle_flags(&mut self.m, thread, handle, mask, flags) })
    }

    /// What a handle of a process names.
    pub fn resolve(&mut self, process: u32, handle: u32) -> Result<Object, Error> {
        told(|object| unsafe { sys::om_resolve(&mut self.m, process, handle, object) })
    }

    /// Sets an event.
    pub fn set_event(&mut self, thread: u32, handle: u32) -> Result<(), Error> {
        done(unsafe { sys::om_set_event(&mut self.m, thread, handle) })
    }

    /// Resets an event.
    pub fn reset_event(&mut self, thread: u32, handle: u32) -> Result<(), Error> {
        done(unsafe { sys::om_reset_event(&mut self.m, thread, handle) })
    }

    /// Sets an event, so that who waits for it may go on, and resets it.
    pub fn pulse_event(&mut self, thread: u32, handle: u32) -> Result<(), Error> {
        done(unsafe { sys::om_pulse_event(&mut self.m, thread, handle) })
    }

    /// Raises a semaphore's count, and says what it was.
    pub fn release_semaphore(&mut self, thread: u32, handle: u32, count: i32) -> Result<u32, Error> {
        told(|before| unsafe { sys::om_release_semaphore(&mut self.m, thread, handle, count, before) })
    }

    /// Releases a mutex once.
    pub fn release_mutex(&mut self, thread: u32, handle: u32) -> Result<(), Error> {
        done(unsafe { sys::om_release_mutex(&mut self.m, thread, handle) })
    }

    /// Signals an object of the host's own, or resets it.
    pub fn signal_host(&mut self, object: Object, signaled: bool) -> Result<(), Error> {
        done(unsafe { sys::om_signal_host(&mut self.m, object.slot, object.generation, signaled) })
    }

    /// Sets a timer for a moment in units of 100 ns, or below 0 for so many units from now.
    pub fn set_timer(&mut self, thread: u32, handle: u32, due: i64) -> Result<(), Error> {
        done(unsafe { sys::om_set_timer(&mut self.m, thread, handle, due) })
    }

    /// The same with a period in milliseconds, 0 for none: it is signaled each time, and due again.
    pub fn set_periodic_timer(&mut self, thread: u32, handle: u32, due: i64, period: i32) -> Result<(), Error> {
        done(unsafe { sys::om_set_periodic_timer(&mut self.m, thread, handle, due, period) })
    }

    /// Takes a timer's moment away, and its period.
    pub fn cancel_timer(&mut self, thread: u32, handle: u32) -> Result<(), Error> {
        done(unsafe { sys::om_cancel_timer(&mut self.m, thread, handle) })
    }

    /// It is this moment now, in units of 100 ns.
    pub fn tick(&mut self, now: u64) -> Result<(), Error> {
        done(unsafe { sys::om_tick(&mut self.m, now) })
    }

    /// It is this moment now, by a tick to each moment before it at which something is due, in their order, and one to it.
    pub fn advance(&mut self, now: u64) -> Result<(), Error> {
        done(unsafe { sys::om_advance(&mut self.m, now) })
    }

    /// The moment of the last tick.
    pub fn now(&mut self) -> u64 {
        unsafe { sys::om_now(&mut self.m) }
    }

    /// Those with which it was made, or those of the manager that was saved.
    pub fn limits(&mut self) -> Limits {
        let mut limits = Limits::default().raw();
        done(unsafe { sys::om_limits_of(&mut self.m, &mut limits) }).expect("limits are always told");
        Limits::of(limits)
    }

    /// What can still come; `handles` is of a process, and 0 where it isn't live.
    pub fn room(&mut self, process: u32) -> Room {
        told(|room| unsafe { sys::om_room_of(&mut self.m, process, room) }).expect("room is always told")
    }

    /// The next moment that a tick can reach at which a timer or a wait is due.
    pub fn next_due(&mut self) -> Option<u64> {
        told(|moment| unsafe { sys::om_next_due(&mut self.m, moment) }).ok()
    }

    /// A thread waits for any or all of 1 to 64 objects, for so many milliseconds.
    pub fn wait(&mut self, thread: u32, all: bool, milliseconds: u32, handles: &[u32]) -> Result<Waited, Error> {
        waited(|answer| unsafe {
            sys::om_wait(&mut self.m, thread, all, milliseconds, handles.as_ptr(), handles.len(), answer)
        })
    }

    /// The same until a moment in units of 100 ns, or below 0 for so many units from now, and for good until [`FOREVER`].
    pub fn wait_until(&mut self, thread: u32, all: bool, due: i64, handles: &[u32]) -> Result<Waited, Error> {
        waited(|answer| unsafe {
            sys::om_wait_until(&mut self.m, thread, all, due, handles.as_ptr(), handles.len(), answer)
        })
    }

    /// Signals the object of one handle and waits for that of another until such a moment, as one call.
    pub fn signal_and_wait(&mut self, thread: u32, signal: u32, handle: u32, due: i64) -> Result<Waited, Error> {
        waited(|answer| unsafe { sys::om_signal_and_wait(&mut self.m, thread, signal, handle, due, answer) })
    }

    /// Waits for nothing until such a moment.
    pub fn sleep(&mut self, thread: u32, due: i64) -> Result<Waited, Error> {
        waited(|answer| unsafe { sys::om_sleep(&mut self.m, thread, due, answer) })
    }

    /// Takes the answer of one wait.
    pub fn wait_result(&mut self, wait: u32) -> Result<Waited, Error> {
        waited(|answer| unsafe { sys::om_wait_result(&mut self.m, wait, answer) })
    }

    /// A pending wait's time is up.
    pub fn expire(&mut self, wait: u32) -> Result<(), Error> {
        done(unsafe { sys::om_expire(&mut self.m, wait) })
    }

    /// A pending wait ends for what was queued to its thread, as an alertable one does.
    pub fn alert(&mut self, wait: u32) -> Result<(), Error> {
        done(unsafe { sys::om_alert(&mut self.m, wait) })
    }

    /// Whether a wait is pending.
    pub fn is_pending(&mut self, wait: u32) -> bool {
        unsafe { sys::om_is_pending(&mut self.m, wait) }
    }

    /// Takes the answers of all waits that were answered, in the order in which they began: behind each call.
    pub fn answers(&mut self) -> impl Iterator<Item = Answer> + '_ {
        std::iter::from_fn(move || {
            let (mut answer, mut count) = (sys::om_answer::default(), 0);
            unsafe { sys::om_take_answered(&mut self.m, &mut answer, 1, &mut count) };
            let sys::om_answer { wait, thread, code } = answer;
            (count > 0).then(|| Answer { wait, thread, outcome: Outcome::of(code) })
        })
    }

    /// Takes back the slots of all objects that ended, by rising slot; those that are pinned are told too.
    pub fn ended(&mut self) -> Vec<Reaped> {
        let mut all = vec![sys::om_reaping::default(); 32];
        let mut ended = Vec::new();
        loop {
            let mut count = 0;
            unsafe { sys::om_take_ended(&mut self.m, all.as_mut_ptr(), all.len(), &mut count) };
            let held = all[..count].iter().filter(|r| r.outcome == 2).count();
            ended.retain(|r: &Reaped| !matches!(r.slot, Slot::Held(_)));
            ended.extend(all[..count].iter().copied().map(reaped));
            if count < all.len() {
                ended.sort_by_key(|r| r.object.slot);
                return ended;
            }
            all.resize(32 + 2 * held, sys::om_reaping::default());
        }
    }

    /// Takes back one slot.
    pub fn reap(&mut self, slot: u32) -> Result<Reaped, Error> {
        told(|r| unsafe { sys::om_reap(&mut self.m, slot, r) }).map(reaped)
    }

    /// What an object was created as.
    pub fn card(&mut self, o: Object) -> Result<Card, Error> {
        told(|d| unsafe { sys::om_card(&mut self.m, o.slot, o.generation, d) }).map(card_of)
    }

    /// What state an object is in.
    pub fn state(&mut self, o: Object) -> Result<State, Error> {
        told(|s| unsafe { sys::om_state(&mut self.m, o.slot, o.generation, s) }).map(state_of)
    }

    /// What state the object is in that a handle of a process names: in front of a call, what was before.
    pub fn handle_state(&mut self, process: u32, handle: u32) -> Result<State, Error> {
        told(|s| unsafe { sys::om_handle_state(&mut self.m, process, handle, s) }).map(state_of)
    }

    /// What refers to an object.
    pub fn counts(&mut self, o: Object) -> Result<References, Error> {
        told(|r| unsafe { sys::om_counts(&mut self.m, o.slot, o.generation, r) })
    }

    /// A handle of a process, with its rights and flags.
    pub fn handle(&mut self, process: u32, handle: u32) -> Result<Entry, Error> {
        told(|entry| unsafe { sys::om_handle(&mut self.m, process, handle, entry) })
    }

    /// What a handle of a process names, with what the host keeps there.
    pub fn query_handle(&mut self, process: u32, handle: u32) -> Result<HandleInfo, Error> {
        told(|info| unsafe { sys::om_query_handle(&mut self.m, process, handle, info) })
    }

    /// Keeps 64 bits of the host's own at an object.
    pub fn set_object_data(&mut self, o: Object, data: u64) -> Result<(), Error> {
        done(unsafe { sys::om_set_object_data(&mut self.m, o.slot, o.generation, data) })
    }

    /// Keeps 64 bits of the host's own at a thread.
    pub fn set_thread_data(&mut self, thread: u32, data: u64) -> Result<(), Error> {
        done(unsafe { sys::om_set_thread_data(&mut self.m, thread, data) })
    }

    /// Keeps 64 bits of the host's own at a process.
    pub fn set_process_data(&mut self, process: u32, data: u64) -> Result<(), Error> {
        done(unsafe { sys::om_set_process_data(&mut self.m, process, data) })
    }

    /// What the host keeps at an object, or 0.
    pub fn object_data(&mut self, o: Object) -> u64 {
        unsafe { sys::om_object_data(&mut self.m, o.slot, o.generation) }
    }

    /// What the host keeps at a thread, or 0.
    pub fn thread_data(&mut self, thread: u32) -> u64 {
        unsafe { sys::om_thread_data(&mut self.m, thread) }
    }

    /// What the host keeps at a process, or 0.
    pub fn process_data(&mut self, process: u32) -> u64 {
        unsafe { sys::om_process_data(&mut self.m, process) }
    }

    /// The session of a process.
    pub fn session_of(&mut self, process: u32) -> Result<u32, Error> {
        told(|session| unsafe { sys::om_session_of(&mut self.m, process, session) })
    }

    /// The process of a live thread.
    pub fn process_of(&mut self, thread: u32) -> Option<u32> {
        some(unsafe { sys::om_process_of(&mut self.m, thread) })
    }

    /// A thread's wait that is pending, or whose answer wasn't taken.
    pub fn wait_of(&mut self, thread: u32) -> Option<u32> {
        some(unsafe { sys::om_wait_of(&mut self.m, thread) })
    }

    /// What a wait is for, where it is pending.
    pub fn objects_waited_for(&mut self, wait: u32) -> Option<WaitedFor> {
        let (mut objects, mut count) = (vec![Object::default(); 64], 0);
        let sys::om_pending { deadline, thread, all, has_deadline } = told(|p| unsafe {
            sys::om_objects_waited_for(&mut self.m, wait, p, objects.as_mut_ptr(), objects.len(), &mut count)
        })
        .ok()?;
        objects.truncate(count);
        Some(WaitedFor { thread, all, deadline: has_deadline.then_some(deadline), objects })
    }

    /// All live processes, by rising number.
    pub fn processes(&mut self) -> impl Iterator<Item = u32> + '_ {
        let mut after = 0;
        std::iter::from_fn(move || {
            after = some(unsafe { sys::om_next_process(&mut self.m, after) })?;
            Some(after)
        })
    }

    /// All live threads of a process, by rising number.
    pub fn threads(&mut self, process: u32) -> impl Iterator<Item = u32> + '_ {
        let mut after = 0;
        std::iter::from_fn(move || {
            after = some(unsafe { sys::om_next_thread(&mut self.m, process, after) })?;
            Some(after)
        })
    }

    /// All handles of a process, by rising value.
    pub fn handles(&mut self, process: u32) -> impl Iterator<Item = Entry> + '_ {
        let mut after = 0;
        std::iter::from_fn(move || {
            let entry: Entry = told(|e| unsafe { sys::om_next_handle(&mut self.m, process, after, e) }).ok()?;
            after = entry.handle;
            Some(entry)
        })
    }

    /// All objects, by rising slot.
    pub fn objects(&mut self) -> impl Iterator<Item = Object> + '_ {
        let mut from = 0;
        std::iter::from_fn(move || {
            let object: Object = told(|o| unsafe { sys::om_next_object(&mut self.m, from, o) }).ok()?;
            from = object.slot + 1;
            Some(object)
        })
    }

    /// All names, in the order in which their objects were made.
    pub fn names(&mut self) -> impl Iterator<Item = Name> + '_ {
        let mut at = 0;
        std::iter::from_fn(move || {
            let mut base = vec![0; 260];
            let row: sys::om_row =
                told(|row| unsafe { sys::om_directory_at(&mut self.m, at, base.as_mut_ptr(), base.len(), row) }).ok()?;
            at += 1;
            base.truncate(row.length as usize);
            Some(Name { object: row.object, session: row.session, base })
        })
    }

    /// What has a name in a session, without an open: as a handle with all rights that an open can get.
    pub fn find(&mut self, session: u32, name: impl AsRef<[u8]>) -> Result<HandleInfo, Error> {
        let name = name.as_ref();
        told(|info| unsafe { sys::om_find(&mut self.m, session, name.as_ptr(), name.len(), info) })
    }

    /// The name of an object, as long as it has handles; none where it has no name.
    pub fn name_of(&mut self, o: Object) -> Result<Option<Name>, Error> {
        let mut base = vec![0; 260];
        let row: sys::om_row =
            told(|row| unsafe { sys::om_name_of(&mut self.m, o.slot, o.generation, base.as_mut_ptr(), base.len(), row) })?;
        base.truncate(row.length as usize);
        Ok((row.length > 0).then_some(Name { object: row.object, session: row.session, base }))
    }

    /// How many names objects have.
    pub fn directory_len(&mut self) -> usize {
        unsafe { sys::om_directory_len(&mut self.m) }
    }

    /// Records each call that changes something or may be refused from now on, or no more.
    pub fn record(&mut self, on: bool) -> Result<(), Error> {
        done(unsafe { sys::om_record(&mut self.m, on) })
    }

    /// Takes what was recorded since: lines of a script, each call with its answer behind `#` in the next line.
    pub fn recorded(&mut self) -> Vec<u8> {
        let (mut all, mut count) = (Vec::new(), 0);
        loop {
            let from = all.len();
            all.resize(from + 16 * LINE_MOST as usize, 0);
            unsafe { sys::om_take_record(&mut self.m, all[from..].as_mut_ptr(), all.len() - from, &mut count) };
            all.truncate(from + count);
            if count == 0 {
                return all;
            }
        }
    }

    /// The whole manager as bytes, from which [`load`](Manager::load) makes it again; but for what is pinned and recorded.
    pub fn save(&mut self) -> Result<Vec<u8>, Error> {
        whole(|bytes, written| unsafe { sys::om_save(&mut self.m, bytes.as_mut_ptr().cast(), bytes.len(), written) })
    }

    /// All that the manager holds, as lines that a person reads: processes, threads and their waits, handles, objects, deadlocks.
    pub fn dump(&mut self) -> Result<String, Error> {
        let told = whole(|text, written| unsafe { sys::om_dump(&mut self.m, text.as_mut_ptr().cast(), text.len(), written) })?;
        Ok(String::from_utf8_lossy(&told).into_owned())
    }

    /// A reader, which pins objects on any thread without this manager.
    pub fn reader(&mut self) -> Result<Reader, Error> {
        let mut r = sys::om_reader { at: std::ptr::null_mut() };
        done(unsafe { sys::om_reader_new(&mut self.m, &mut r) })?;
        Ok(Reader { r, of: self.number })
    }

    /// What an object that a reader of this manager pins was created as, also when it has ended. 87 for a reader of another manager.
    pub fn inspect(&mut self, reader: &mut Reader, o: Object) -> Result<Card, Error> {
        if reader.of != self.number {
            return Err(Error::InvalidParameter);
        }
        told(|d| unsafe { sys::om_inspect(&mut self.m, &mut reader.r, o.slot, o.generation, d) }).map(card_of)
    }
}

/// Who pins objects without their manager. It lets all go at its end, which may be after the manager's.
pub struct Reader {
    r: sys::om_reader,
    of: u64,
}

// Nothing in it belongs to a thread.
unsafe impl Send for Reader {}

impl Drop for Reader {
    fn drop(&mut self) {
        unsafe { sys::om_reader_free(self.r) }
    }
}

impl Reader {
    /// Pins an object's slot once more, in one try: [`Error::Busy`] where another thread changed it meanwhile.
    pub fn pin(&mut self, o: Object) -> Result<(), Error> {
        done(unsafe { sys::om_reader_pin(&mut self.r, o.slot, o.generation) })
    }

    /// Lets one pin go.
    pub fn unpin(&mut self, o: Object) -> Result<(), Error> {
        done(unsafe { sys::om_reader_unpin(&mut self.r, o.slot, o.generation) })
    }

    /// Whether it pins an object.
    pub fn holds(&mut self, o: Object) -> bool {
        unsafe { sys::om_reader_holds(&mut self.r, o.slot, o.generation) }
    }

    /// The kind of an object that it pins.
    pub fn describe(&mut self, o: Object) -> Result<Kind, Error> {
        told(|d: &mut sys::om_descriptor| unsafe { sys::om_reader_describe(&mut self.r, o.slot, o.generation, d) })
            .map(|d| kind_of(d.kind, d.max, d.manual))
    }
}

/// Answers a whole script over a manager of its own, as the program `obman` does.
pub fn script(limits: &Limits, script: &[u8]) -> Result<Vec<u8>, Error> {
    let limits = limits.raw();
    let mut answers = vec![0; 2 * script.len() + 256];
    loop {
        let mut written = 0;
        let status = unsafe {
            sys::om_script(&limits, script.as_ptr(), script.len(), answers.as_mut_ptr(), answers.len(), &mut written)
        };
        if status == Error::InsufficientBuffer.number() {
            answers.resize(written, 0);
            continue;
        }
        done(status)?;
        answers.truncate(written);
        return Ok(answers);
    }
}
