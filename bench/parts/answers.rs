//! What calls are asked and what they answer.

use super::id::Id;

pub const MODIFY_STATE: u32 = 2;
pub const SYNCHRONIZE: u32 = 0x0010_0000;
pub const WAIT_TIMEOUT: u32 = 258;

#[derive(Clone, Copy, Debug, PartialEq, Eq)]
pub enum Fault {
    NotFound,
    NamePath,
    Access,
    Handle,
    Parameter,
    Busy,
    NameLong,
    NotOwner,
    TooManyPosts,
    Limit,
}

impl Fault {
    pub fn code(self) -> u32 {
        match self {
            Fault::NotFound => 2,
            Fault::NamePath => 3,
            Fault::Access => 5,
            Fault::Handle => 6,
            Fault::Parameter => 87,
            Fault::Busy => 170,
            Fault::NameLong => 206,
            Fault::NotOwner => 288,
            Fault::TooManyPosts => 298,
            Fault::Limit => 1450,
        }
    }
}

#[derive(Clone, Copy, Debug, Default, PartialEq, Eq)]
pub enum Kind {
    #[default]
    Event,
    Mutex,
    Semaphore,
    /// Of the host's own, of a type.
    Host(u8),
}

impl Kind {
    pub fn all_access(self) -> u32 {
        match self {
            Kind::Event | Kind::Semaphore => 0x001F_0003,
            Kind::Mutex => 0x001F_0001,
            Kind::Host(_) => 0x001F_FFFF,
        }
    }

    /// As a descriptor has it: a host's object is told as an event.
    pub fn code(self) -> u64 {
        match self {
            Kind::Event | Kind::Host(_) => 0,
            Kind::Mutex => 1,
            Kind::Semaphore => 2,
        }
    }
}

#[derive(Clone, Copy, Debug, PartialEq, Eq)]
pub enum Mode {
    Any,
    All,
}

#[derive(Clone, Copy, Debug, PartialEq, Eq)]
pub enum Timeout {
    Zero,
    Infinite,
}

#[derive(Clone, Copy, Debug, PartialEq, Eq)]
pub enum Reclaim {
    Freed,
    Retired,
    Held { pins: u32 },
}

#[derive(Clone, Copy, Debug)]
pub enum Reply {
    Spawned { process: u32, thread: u32 },
    Started { thread: u32 },
    Made { handle: u32, id: Id },
    Exists { handle: u32, id: Id },
    Opened { handle: u32, id: Id },
    Duplicated { handle: u32, id: Id },
    Closed,
    Done,
    Previous { count: u32 },
    Code { code: u32 },
    Pending { wait: u32 },
    Expired { wait: u32 },
    Ended { thread: u32 },
    Exited { process: u32 },
    Reaped { id: Id, outcome: Reclaim },
    CountsAre { handles: u32, waits: u64, hold: u32 },
    Refused(Fault),
}

impl From<Result<Reply, Fault>> for Reply {
    fn from(answer: Result<Reply, Fault>) -> Reply {
        answer.unwrap_or_else(Reply::Refused)
    }
}

#[derive(Clone, Copy)]
pub struct Make<'a> {
    pub name: Option<&'a [u8]>,
    pub inherit: bool,
    pub access: Option<u32>,
    pub grant: Option<u32>,
}

#[derive(Clone, Copy)]
pub struct Limits {
    pub slots: u32,
    pub processes: u32,
    pub threads: u32,
    pub handles: u32,
    pub waits: u32,
    pub max_gen: u32,
    pub max_recursion: u32,
}

impl Limits {
    pub const DEFAULT: Limits = Limits {
        slots: 64,
        processes: 64,
        threads: 256,
        handles: 1_024,
        waits: 1_000_000,
        max_gen: u32::MAX,
        max_recursion: 2_147_483_647,
    };

    pub const MOST: Limits = Limits {
        slots: 65_536,
        processes: 65_536,
        threads: 65_536,
        handles: 16_384,
        waits: u32::MAX,
        max_gen: u32::MAX,
        max_recursion: 2_147_483_647,
    };
}

pub fn within(asked: u32, held: u32) -> bool {
    asked & !held == 0
}
