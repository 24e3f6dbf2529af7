//! What is done in a round in a manager of its own.

use super::answers::{Fault, Limits, Make, Mode, Reply, Timeout};
use super::directory::text;
use super::given::{done, given, plain, refusal};
use super::id::Id;
use super::manager::Manager;

/// How many objects a process makes before the next one does.
pub const HANDLES: u32 = 15_000;

/// A named event that stays, and its one handle.
pub struct Live {
    pub process: u32,
    pub thread: u32,
    pub handle: u32,
    pub id: Id,
    pub text: [u8; 16],
}

pub fn live_events(manager: &mut Manager, count: u32) -> Result<Vec<Live>, Fault> {
    let (mut process, mut thread) = (0, 0);
    let mut events = Vec::new();
    for number in 0..count {
        if number % HANDLES == 0 {
            (process, thread) = spawned(manager.spawn(1))?;
        }
        let text = text(number);
        let (handle, id) = given(manager.create_event(thread, &plain(Some(&text)), false, false))?;
        events.push(Live { process, thread, handle, id, text });
    }
    Ok(events)
}

/// A manager for a case that needs more than events with names, and who makes its calls.
pub struct Home {
    pub manager: Manager,
    pub process: u32,
    pub thread: u32,
    pub other: u32,
    pub handles: Vec<u32>,
}

pub trait Case {
    /// The manager, beside so many objects, handles or waits.
    fn home(count: u32) -> Result<Home, Fault>;

    /// A number of the answers, which depends on what was done.
    fn round(home: &mut Home) -> Result<u32, Fault>;
}

pub fn rounds_at<C: Case>(home: &mut Home, rounds: u32) -> Result<u64, Fault> {
    let mut sum = 0;
    for _ in 0..rounds {
        sum += u64::from(C::round(home)?);
    }
    Ok(sum)
}

pub fn spawned(reply: Reply) -> Result<(u32, u32), Fault> {
    match reply {
        Reply::Spawned { process, thread } => Ok((process, thread)),
        _ => Err(refusal(reply)),
    }
}

pub fn started(reply: Reply) -> Result<u32, Fault> {
    match reply {
        Reply::Started { thread } => Ok(thread),
        _ => Err(refusal(reply)),
    }
}

fn ended(reply: Reply) -> Result<u32, Fault> {
    match reply {
        Reply::Ended { thread } => Ok(thread),
        _ => Err(refusal(reply)),
    }
}

fn exited(reply: Reply) -> Result<u32, Fault> {
    match reply {
        Reply::Exited { process } => Ok(process),
        _ => Err(refusal(reply)),
    }
}

pub fn code_of(reply: Reply) -> Result<u32, Fault> {
    match reply {
        Reply::Code { code } => Ok(code),
        _ => Err(refusal(reply)),
    }
}

pub fn pending(reply: Reply) -> Result<u32, Fault> {
    match reply {
        Reply::Pending { wait } => Ok(wait),
        _ => Err(refusal(reply)),
    }
}

/// A process with two threads and ten unnamed events. The sum of its handles.
pub fn small_guest(manager: &mut Manager) -> Result<u32, Fault> {
    let (process, thread) = spawned(manager.spawn(1))?;
    started(manager.thread(process))?;
    (0..10).try_fold(0, |sum, _| Ok(sum + given(manager.create_event(thread, &plain(None), false, false))?.0))
}

impl Home {
    pub fn empty() -> Result<Home, Fault> {
        let mut manager = Manager::new(Limits::MOST);
        let (process, thread) = spawned(manager.spawn(1))?;
        Ok(Home { manager, process, thread, other: 0, handles: Vec::new() })
    }

    fn add_event(&mut self, manual: bool, set: bool) -> Result<(), Fault> {
        let (handle, _) = given(self.manager.create_event(self.thread, &plain(None), manual, set))?;
        self.handles.push(handle);
        Ok(())
    }

    /// Events that are reset by hand, each of them set or the last alone.
    fn add_events(&mut self, count: u32, are_set: bool) -> Result<(), Fault> {
        (1..=count).try_for_each(|number| self.add_event(true, are_set || number == count))
    }

    fn add_waiter(&mut self) -> Result<(), Fault> {
        self.add_event(false, false)?;
        self.other = started(self.manager.thread(self.process))?;
        Ok(())
    }

    fn last(&self) -> u32 {
        self.handles.last().map_or(0, |handle| *handle)
    }

    /// One more than the code of a wait for all handles of the process.
    fn wait_at_once(&mut self, mode: Mode) -> Result<u32, Fault> {
        Ok(code_of(self.manager.wait(self.thread, mode, Timeout::Zero, &self.handles))? + 1)
    }

    /// The last thread waits for the last event; the number of its wait.
    fn wait_for_last(&mut self) -> Result<u32, Fault> {
        let handle = self.last();
        pending(self.manager.wait(self.other, Mode::Any, Timeout::Infinite, &[handle]))
    }
}

/// A wait for any of some events, of which the last alone is set.
pub struct WaitForAny;

impl Case for WaitForAny {
    fn home(count: u32) -> Result<Home, Fault> {
        let mut home = Home::empty()?;
        home.add_events(count, false)?;
        Ok(home)
    }

    fn round(home: &mut Home) -> Result<u32, Fault> {
        home.wait_at_once(Mode::Any)
    }
}

/// A wait for all of some events, which are set.
pub struct WaitForAll;

impl Case for WaitForAll {
    fn home(count: u32) -> Result<Home, Fault> {
        let mut home = Home::empty()?;
        home.add_events(count, true)?;
        Ok(home)
    }

    fn round(home: &mut Home) -> Result<u32, Fault> {
        home.wait_at_once(Mode::All)
    }
}

/// A wait for any of some events becomes pending, the last of them is set, and the answer is taken.
pub struct WaitForSome;

impl Case for WaitForSome {
    fn home(count: u32) -> Result<Home, Fault> {
        let mut home = Home::empty()?;
        (0..count).try_for_each(|_| home.add_event(false, false))?;
        home.other = started(home.manager.thread(home.process))?;
        Ok(home)
    }

    fn round(home: &mut Home) -> Result<u32, Fault> {
        let wait = pending(home.manager.wait(home.other, Mode::Any, Timeout::Infinite, &home.handles))?;
        let handle = home.last();
        done(home.manager.set_event(home.thread, handle))?;
        code_of(home.manager.wait_result(wait))
    }
}

/// A thread waits for an event, another sets it, and the answer is taken, beside waits of other threads for other events.
pub struct WaitAndSet;

impl Case for WaitAndSet {
    fn home(count: u32) -> Result<Home, Fault> {
        let mut home = Home::empty()?;
        for _ in 0..count {
            home.add_waiter()?;
            home.wait_for_last()?;
        }
        home.add_waiter()?;
        Ok(home)
    }

    fn round(home: &mut Home) -> Result<u32, Fault> {
        let wait = home.wait_for_last()?;
        let handle = home.last();
        done(home.manager.set_event(home.thread, handle))?;
        Ok(code_of(home.manager.wait_result(wait))? + 1)
    }
}

/// An event is set and reset for which threads wait, each together with one of its own that is never set.
pub struct SetAndReset;

impl Case for SetAndReset {
    fn home(count: u32) -> Result<Home, Fault> {
        let mut home = Home::empty()?;
        home.add_event(false, false)?;
        for _ in 0..count {
            home.add_waiter()?;
            let both = [home.handles[0], home.last()];
            pending(home.manager.wait(home.other, Mode::All, Timeout::Infinite, &both))?;
        }
        Ok(home)
    }

    fn round(home: &mut Home) -> Result<u32, Fault> {
        done(home.manager.set_event(home.thread, home.handles[0]))?;
        done(home.manager.reset_event(home.thread, home.handles[0]))?;
        Ok(1)
    }
}

/// A child that inherits some handles, and its end.
pub struct ChildAndExit;

impl Case for ChildAndExit {
    fn home(count: u32) -> Result<Home, Fault> {
        let mut home = Home::empty()?;
        let make = Make { inherit: true, ..plain(None) };
        for _ in 0..count {
            given(home.manager.create_event(home.thread, &make, false, false))?;
        }
        Ok(home)
    }

    fn round(home: &mut Home) -> Result<u32, Fault> {
        let (process, _) = spawned(home.manager.child(home.thread, true))?;
        exited(home.manager.exit(process))
    }
}

/// Named events, and a mutex that is made last, by the process that made the last of them.
fn home_among(count: u32) -> Result<Home, Fault> {
    let mut home = Home::empty()?;
    let events = live_events(&mut home.manager, count)?;
    if let Some(event) = events.last() {
        (home.process, home.thread) = (event.process, event.thread);
    }
    let (mutex, _) = given(home.manager.create_mutex(home.thread, &plain(None), false))?;
    home.handles.push(mutex);
    Ok(home)
}

/// A thread, and its end.
pub struct ThreadAndEnd;

impl Case for ThreadAndEnd {
    fn home(count: u32) -> Result<Home, Fault> {
        home_among(count)
    }

    fn round(home: &mut Home) -> Result<u32, Fault> {
        let thread = started(home.manager.thread(home.process))?;
        ended(home.manager.end_thread(thread))
    }
}

/// A thread that comes to own the mutex that was made last, and its end.
pub struct OwnerAndEnd;

impl Case for OwnerAndEnd {
    fn home(count: u32) -> Result<Home, Fault> {
        home_among(count)
    }

    fn round(home: &mut Home) -> Result<u32, Fault> {
        let mutex = home.last();
        let thread = started(home.manager.thread(home.process))?;
        code_of(home.manager.wait(thread, Mode::Any, Timeout::Zero, &[mutex]))?;
        ended(home.manager.end_thread(thread))
    }
}
