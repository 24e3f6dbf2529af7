//! The rounds of bench/calls.c but those that it says are its own, over a manager by hand in plain Rust.

mod parts;

use parts::answers::{Fault, Kind, Limits, MODIFY_STATE, Mode, Reply, Timeout};
use parts::cases::{
    Case, ChildAndExit, HANDLES, Live, OwnerAndEnd, SetAndReset, ThreadAndEnd, WaitAndSet, WaitForAll, WaitForAny, WaitForSome,
    code_of, live_events, pending, rounds_at, spawned, started,
};
use parts::directory::text;
use parts::given::{done, given, plain, refusal};
use parts::herds::{Gathered, HERDS};
use parts::manager::Manager;
use std::time::{Duration, Instant};

/// Prime to each number of events, so that a walk by it comes to each of them.
const STRIDE: usize = 7919;

/// How many events come and go in a batch.
const BATCH: u32 = 256;

/// The option of a duplicate that gives it the rights of its source.
const SAME_ACCESS: u32 = 2;

/// How many batches there are; how many rounds other cases have, and those of processes and threads in each of so many
/// managers; and how many waits a herd has in all.
const BATCHES: u32 = 1000;
const ROUNDS: u32 = 1_000_000;
const LIVES: u32 = 1000;
const MANAGERS: u32 = 20;
const WAITS: u32 = 240_000;

fn open_and_close(manager: &mut Manager, event: &Live) -> Result<u32, Fault> {
    let (handle, _) = given(manager.open_named(event.thread, Kind::Event, MODIFY_STATE, false, &event.text))?;
    done(manager.close(event.thread, handle))?;
    Ok(handle)
}

fn set_and_reset(manager: &mut Manager, event: &Live) -> Result<u32, Fault> {
    done(manager.set_event(event.thread, event.handle))?;
    done(manager.reset_event(event.thread, event.handle))?;
    Ok(1)
}

fn duplicate_and_close(manager: &mut Manager, event: &Live) -> Result<u32, Fault> {
    let (thread, process) = (event.thread, event.process);
    let reply = manager.duplicate(thread, process, event.handle, Some(process), 0, false, SAME_ACCESS);
    let (handle, _) = given(reply)?;
    done(manager.close(thread, handle))?;
    Ok(handle)
}

fn set_and_wait(manager: &mut Manager, event: &Live) -> Result<u32, Fault> {
    done(manager.set_event(event.thread, event.handle))?;
    Ok(code_of(manager.wait(event.thread, Mode::Any, Timeout::Zero, &[event.handle]))? + 1)
}

fn counts(manager: &mut Manager, event: &Live) -> Result<u32, Fault> {
    let reply = manager.counts(event.id);
    let Reply::CountsAre { handles, .. } = reply else {
        return Err(refusal(reply));
    };
    Ok(handles)
}

fn resolve(manager: &mut Manager, event: &Live) -> Result<u32, Fault> {
    Ok(manager.resolve(event.process, event.handle)?.slot)
}

/// The sum of the rounds, from event to event.
#[inline(always)]
fn rounds(
    manager: &mut Manager,
    events: &[Live],
    round: impl Fn(&mut Manager, &Live) -> Result<u32, Fault>,
) -> Result<u64, Fault> {
    let step = STRIDE % events.len();
    let mut at = 0;
    let mut sum = 0;
    for _ in 0..ROUNDS {
        sum += u64::from(round(manager, &events[at])?);
        at += step + (sum >> 63) as usize;
        if at >= events.len() {
            at -= events.len();
        }
    }
    Ok(sum)
}

fn report(case: &str, count: usize, rounds: u32, taken: Duration, sum: u64) {
    println!("{case}, {count}: {rounds} in {}, {sum}", taken.as_nanos());
}

/// A manager and its events, and the names that come and go.
struct Scene {
    manager: Manager,
    events: Vec<Live>,
    texts: Vec<[u8; 16]>,
}

impl Scene {
    fn new(count: u32) -> Result<Scene, Fault> {
        let mut manager = Manager::new(Limits::MOST);
        let events = live_events(&mut manager, count)?;
        Ok(Scene { manager, events, texts: (count..count + BATCH).map(text).collect() })
    }

    fn measure(&mut self, case: &str, round: impl Fn(&mut Manager, &Live) -> Result<u32, Fault>) -> Result<(), Fault> {
        let started = Instant::now();
        let sum = rounds(&mut self.manager, &self.events, round)?;
        report(case, self.events.len(), ROUNDS, started.elapsed(), sum);
        Ok(())
    }

    fn make(&mut self, thread: u32, is_named: bool, slots: &mut Vec<u32>) -> Result<(), Fault> {
        for text in &self.texts {
            let name = is_named.then_some(text.as_slice());
            let (handle, id) = given(self.manager.create_event(thread, &plain(name), false, false))?;
            done(self.manager.close(thread, handle))?;
            slots.push(id.slot);
        }
        Ok(())
    }

    fn reap(&mut self, slots: &[u32]) -> Result<u64, Fault> {
        let mut sum = 0;
        for slot in slots {
            let reply = self.manager.reap(*slot);
            let Reply::Reaped { id, .. } = reply else {
                return Err(refusal(reply));
            };
            sum += u64::from(id.slot);
        }
        Ok(sum)
    }

    fn come_and_go(&mut self, made: &str, reaped: &str, is_named: bool) -> Result<(), Fault> {
        let thread = self.events.last().map_or(0, |event| event.thread);
        let (mut making, mut reaping, mut sum) = (Duration::ZERO, Duration::ZERO, 0);
        let mut slots = Vec::new();
        for _ in 0..BATCHES {
            slots.clear();
            let started = Instant::now();
            self.make(thread, is_named, &mut slots)?;
            making += started.elapsed();
            let started = Instant::now();
            sum += self.reap(&slots)?;
            reaping += started.elapsed();
        }
        report(made, self.events.len(), BATCHES * BATCH, making, sum);
        report(reaped, self.events.len(), BATCHES * BATCH, reaping, sum);
        Ok(())
    }
}

fn run(count: u32) -> Result<(), Fault> {
    let mut scene = Scene::new(count)?;
    scene.come_and_go("create and close, unnamed", "reap, unnamed", false)?;
    scene.come_and_go("create and close, named", "reap, named", true)?;
    scene.measure("open and close", open_and_close)?;
    scene.measure("set and reset", set_and_reset)?;
    scene.measure("counts", counts)?;
    scene.measure("resolve", resolve)?;
    scene.measure("duplicate and close", duplicate_and_close)?;
    scene.measure("set and wait", set_and_wait)
}

/// So many rounds in each of so many managers, which are made outside of what is timed.
fn measure_anew<C: Case>(case: &str, count: u32, managers: u32, rounds: u32) -> Result<(), Fault> {
    let (mut taken, mut sum) = (Duration::ZERO, 0);
    for _ in 0..managers {
        let mut home = C::home(count)?;
        let started = Instant::now();
        sum += rounds_at::<C>(&mut home, rounds)?;
        taken += started.elapsed();
    }
    report(case, count as usize, managers * rounds, taken, sum);
    Ok(())
}

fn measure_wait<C: Case>(case: &str, count: u32) -> Result<(), Fault> {
    measure_anew::<C>(case, count, 1, ROUNDS)
}

fn measure_life<C: Case>(case: &str, count: u32) -> Result<(), Fault> {
    measure_anew::<C>(case, count, MANAGERS, LIVES)
}

/// Guests of which each waits for an event of its own, in processes with a thread that never waits.
struct Crowd {
    manager: Manager,
    /// Who sets it, who waits for it, and its handle.
    guests: Vec<(u32, u32, u32)>,
    /// By thread.
    places: Vec<usize>,
}

impl Crowd {
    fn new(count: u32) -> Result<Crowd, Fault> {
        let places = vec![0; Limits::MOST.threads as usize + 1];
        let mut crowd = Crowd { manager: Manager::new(Limits::MOST), guests: Vec::new(), places };
        let (mut process, mut host) = (0, 0);
        for number in 0..count {
            if number % HANDLES == 0 {
                (process, host) = spawned(crowd.manager.spawn(1))?;
            }
            let guest = started(crowd.manager.thread(process))?;
            let (handle, _) = given(crowd.manager.create_event(host, &plain(None), false, false))?;
            crowd.places[guest as usize] = number as usize;
            crowd.guests.push((host, guest, handle));
            crowd.wait_again(number as usize)?;
        }
        Ok(crowd)
    }

    fn wait_again(&mut self, place: usize) -> Result<(), Fault> {
        let (_, guest, handle) = self.guests[place];
        pending(self.manager.wait(guest, Mode::Any, Timeout::Infinite, &[handle])).map(|_| ())
    }

    /// A guest's event is set, its answer is taken, and it waits again.
    fn take_turns(&mut self, rounds: u32) -> Result<u64, Fault> {
        let (count, mut at, mut sum) = (self.guests.len(), 0, 0);
        for _ in 0..rounds {
            let (host, _, handle) = self.guests[at];
            done(self.manager.set_event(host, handle))?;
            while let Some((thread, code)) = self.manager.take_answered() {
                let place = self.places[thread as usize];
                self.wait_again(place)?;
                at = (place + STRIDE % count) % count;
                sum += u64::from(code) + 1;
            }
        }
        Ok(sum)
    }
}

fn run_crowd(count: u32) -> Result<(), Fault> {
    let mut crowd = Crowd::new(count)?;
    let started = Instant::now();
    let sum = crowd.take_turns(ROUNDS)?;
    report("set, answer, wait again", count as usize, ROUNDS, started.elapsed(), sum);
    Ok(())
}

fn run_waits() -> Result<(), Fault> {
    measure_wait::<WaitForAny>("wait for any", 64)?;
    measure_wait::<WaitForAll>("wait for all", 64)?;
    measure_wait::<WaitForSome>("wait for any, set and result", 64)?;
    measure_wait::<WaitAndSet>("wait, set and result, waits beside", 0)?;
    measure_wait::<WaitAndSet>("wait, set and result, waits beside", 10000)?;
    [16, 1000].into_iter().try_for_each(run_busy)
}

/// An event for which so many threads wait, each together with another.
fn run_busy(count: u32) -> Result<(), Fault> {
    measure_anew::<SetAndReset>("set and reset, waits for all", count, 1, WAITS / count)
}

/// So many threads that all wait for one object.
fn run_herds(count: u32) -> Result<(), Fault> {
    for herd in HERDS {
        let rounds = (WAITS / count).max(1);
        let mut gathered = Gathered::new(herd, count)?;
        let started = Instant::now();
        let sum = gathered.rounds(rounds)?;
        report(herd.name(), count as usize, rounds * count, started.elapsed(), sum);
    }
    Ok(())
}

fn run_children(handles: u32) -> Result<(), Fault> {
    measure_life::<ChildAndExit>("child and exit, handles", handles)
}

fn run_threads(count: u32) -> Result<(), Fault> {
    measure_life::<ThreadAndEnd>("thread and end", count)?;
    measure_life::<OwnerAndEnd>("thread, mutex and end", count)
}

fn main() -> Result<(), Fault> {
    [16, 1000, 60000].into_iter().try_for_each(run)?;
    run_waits()?;
    [1, 1000, 16000, 60000].into_iter().try_for_each(run_herds)?;
    [16, 1000].into_iter().try_for_each(run_children)?;
    [1, 16, 1000, 60000].into_iter().try_for_each(run_crowd)?;
    [16, 60000].into_iter().try_for_each(run_threads)
}
