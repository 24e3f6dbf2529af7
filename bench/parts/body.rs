//! What an object is now.

pub const RECURSION_MAX: u32 = 2_147_483_647;

/// Of an object that has ended, and of what its kind doesn't have, all is 0.
#[derive(Clone, Copy, Default)]
pub struct Body {
    /// How often it may be taken: the count of a semaphore, 1 of an event that is set and of a mutex that nobody owns.
    pub signals: u32,
    /// The thread that owns a mutex, or 0.
    pub owner: u32,
    pub recursion: u32,
    pub abandoned: bool,
}

impl Body {
    pub fn of_mutex(owner: Option<u32>, recursion: u32, abandoned: bool) -> Body {
        Body { signals: u32::from(owner.is_none()), owner: owner.unwrap_or(0), recursion, abandoned }
    }

    pub fn signaled_for(&self, thread: u32) -> bool {
        self.signals > 0 || self.owner == thread
    }

    pub fn has_room(&self, thread: u32, max_recursion: u32) -> bool {
        self.owner != thread || self.recursion < max_recursion
    }
}
