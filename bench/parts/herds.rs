//! Threads that all wait for one object, and are released one by one or all together.

use super::answers::{Fault, Mode, Timeout};
use super::cases::{Home, code_of, pending, started};
use super::given::{done, given, plain};

#[derive(Clone, Copy, PartialEq, Eq)]
pub enum Herd {
    Event,
    Halves,
    Semaphore,
    Mutex,
    ManualEvent,
}

pub const HERDS: [Herd; 5] = [Herd::Event, Herd::Halves, Herd::Semaphore, Herd::Mutex, Herd::ManualEvent];

impl Herd {
    pub fn name(&self) -> &'static str {
        match self {
            Herd::Event => "herd at an event",
            Herd::Halves => "herd at an event, half for all",
            Herd::Semaphore => "herd at a semaphore",
            Herd::Mutex => "herd at a mutex",
            Herd::ManualEvent => "herd at a manual event",
        }
    }

    fn mode(&self, at: usize) -> Mode {
        if *self == Herd::Halves && at % 2 == 1 { Mode::All } else { Mode::Any }
    }
}

/// The threads of a process that wait for one object.
pub struct Gathered {
    home: Home,
    herd: Herd,
    handle: u32,
    threads: Vec<u32>,
    waits: Vec<u32>,
}

impl Gathered {
    pub fn new(herd: Herd, count: u32) -> Result<Gathered, Fault> {
        let mut home = Home::empty()?;
        let (manager, thread) = (&mut home.manager, home.thread);
        let made = match herd {
            Herd::Event | Herd::Halves => manager.create_event(thread, &plain(None), false, false),
            Herd::Semaphore => manager.create_semaphore(thread, &plain(None), 0, i32::MAX),
            Herd::Mutex => manager.create_mutex(thread, &plain(None), true),
            Herd::ManualEvent => manager.create_event(thread, &plain(None), true, false),
        };
        let (handle, _) = given(made)?;
        let threads = (0..count).map(|_| started(manager.thread(home.process))).collect::<Result<Vec<_>, _>>()?;
        Ok(Gathered { home, herd, handle, threads, waits: vec![0; count as usize] })
    }

    fn release(&mut self, at: usize, owner: u32) -> Result<(), Fault> {
        let (manager, thread) = (&mut self.home.manager, self.home.thread);
        match self.herd {
            Herd::Event | Herd::Halves => done(manager.set_event(thread, self.handle)),
            Herd::Semaphore => {
                let _ = manager.release_semaphore(thread, self.handle, 1);
                Ok(())
            }
            Herd::Mutex => done(manager.release_mutex(owner, self.handle)),
            Herd::ManualEvent if at == 0 => done(manager.set_event(thread, self.handle)),
            Herd::ManualEvent => Ok(()),
        }
    }

    fn end(&mut self, owner: u32) -> Result<(), Fault> {
        let (manager, thread) = (&mut self.home.manager, self.home.thread);
        match self.herd {
            Herd::Mutex => {
                done(manager.release_mutex(owner, self.handle))?;
                code_of(manager.wait(thread, Mode::Any, Timeout::Zero, &[self.handle])).map(|_| ())
            }
            Herd::ManualEvent => done(manager.reset_event(thread, self.handle)),
            _ => Ok(()),
        }
    }

    fn round(&mut self) -> Result<u64, Fault> {
        for (at, thread) in self.threads.iter().enumerate() {
            let waited = self.home.manager.wait(*thread, self.herd.mode(at), Timeout::Infinite, &[self.handle]);
            self.waits[at] = pending(waited)?;
        }
        let (mut sum, mut owner) = (0, self.home.thread);
        for at in 0..self.threads.len() {
            self.release(at, owner)?;
            sum += u64::from(code_of(self.home.manager.wait_result(self.waits[at]))?) + 1;
            owner = self.threads[at];
        }
        self.end(owner)?;
        Ok(sum)
    }

    pub fn rounds(&mut self, count: u32) -> Result<u64, Fault> {
        (0..count).try_fold(0, |sum, _| Ok(sum + self.round()?))
    }
}
