//! A host: one guest sets a timer and hands out work when it fires, another works. The time is virtual.
use obman::{Create, Error, Limits, Manager, Member, Waited, INFINITE};

#[derive(PartialEq)]
enum Role { Foreman, Worker }

struct Guest {
    me: Member,
    role: Role,
    rounds: u32,
    has_waited: bool,
    is_asleep: bool,
    is_over: bool,
}

struct Host {
    m: Manager,
    timer: u32,
    work: u32,
}

impl Host {
    /// Whether the guest has what it waits for: at once, or now that its wait was answered.
    fn has(&mut self, g: &mut Guest, handle: u32) -> Result<bool, Error> {
        g.is_asleep = !g.has_waited && matches!(self.m.wait(g.me.thread, false, INFINITE, &[handle])?, Waited::Pending(_));
        g.has_waited = g.is_asleep;
        Ok(!g.is_asleep)
    }

    /// A step of a guest, which is one call or two.
    fn step(&mut self, g: &mut Guest) -> Result<(), Error> {
        let (handle, rounds) = if g.role == Role::Foreman { (self.timer, 2) } else { (self.work, 4) };
        if g.role == Role::Foreman && !g.has_waited {
            self.m.set_timer(g.me.thread, self.timer, -50_000)?;
        }
        if !self.has(g, handle)? {
            return Ok(());
        }
        match g.role {
            Role::Foreman => self.m.release_semaphore(g.me.thread, self.work, 2).map(|_| ())?,
            Role::Worker => println!("work at {} ms", self.m.now() / 10_000),
        }
        g.rounds += 1;
        g.is_over = g.rounds == rounds;
        if g.is_over { self.m.exit(g.me.process) } else { Ok(()) }
    }

    /// Behind each call: who was answered goes on, and the slots of what ended are free again.
    fn look_round(&mut self, guests: &mut [Guest]) {
        for answer in self.m.answers() {
            guests.iter_mut().filter(|g| g.me.thread == answer.thread).for_each(|g| g.is_asleep = false);
        }
        for ended in self.m.ended() {
            println!("s{}.{} ended", ended.object.slot, ended.object.generation);
        }
    }
}

fn main() -> Result<(), Error> {
    let mut m = Manager::new(&Limits::default())?;
    let first = m.spawn(1)?;
    let inherited = Create { inherit: true, ..Create::default() };
    let timer = m.create_timer(first.thread, &inherited, false)?.opening().handle;
    let work = m.create_semaphore(first.thread, &inherited, 0, 4)?.opening().handle;
    let mut guests = Vec::new();
    for role in [Role::Foreman, Role::Worker] {
        guests.push(Guest { me: m.child(first.thread, true)?, role, rounds: 0, has_waited: false, is_asleep: false, is_over: false });
    }
    m.exit(first.process)?;
    let mut host = Host { m, timer, work };
    loop {
        let at = guests.iter().position(|g| !g.is_asleep && !g.is_over);
        match (at, host.m.next_due()) {
            (Some(at), _) => host.step(&mut guests[at])?,
            (None, Some(moment)) => host.m.tick(moment)?,
            (None, None) => return Ok(()),
        }
        host.look_round(&mut guests);
    }
}
