//! A manager by hand in plain Rust behind a lock, with the journal of its calls and a list of them for each lane; and
//! members that make the calls of their scripts at once.

mod parts;

use parts::answers::{Limits, Reply};
use parts::journal::{Call, Lane, Making, Shared};
use parts::manager::Manager;
use parts::runs::{measure, on_threads};
use std::time::Instant;

/// Calls of each member in a run.
const CALLS: u64 = 20_000;

/// How many events there are.
const EVENTS: u32 = 64;

fn event() -> Call {
    let make = Making { name: None, inherit: false, access: None, grant: None };
    Call::MakeEvent { thread: 1, make, manual: true, set: false }
}

/// Threads 1 to 8 of one process, and the events, with one handle for each.
fn prepared() -> (Shared, Lane) {
    let mut shared = Shared::new(Manager::new(Limits::DEFAULT));
    let mut lane = shared.lane();
    shared.call(&mut lane, Call::Spawn { session: 1 });
    for _ in 0..7 {
        shared.call(&mut lane, Call::StartThread { process: 1 });
    }
    for _ in 0..EVENTS {
        shared.call(&mut lane, event());
    }
    (shared, lane)
}

/// The thread of a lane sets its event.
fn set(lane: u32) -> Call {
    Call::SetEvent { thread: lane % 8 + 1, handle: lane % 8 * 4 + 4 }
}

/// Who makes the calls of a script, each of which it keeps, and its answers.
struct Member {
    lane: Lane,
    script: Vec<Call>,
    seen: Vec<Reply>,
}

/// Nanoseconds until members have made the calls of their scripts at once, their threads' start and end included.
fn driven(count: u64) -> u128 {
    let (mut shared, _first) = prepared();
    let mut members: Vec<Member> = (0..count)
        .map(|_| {
            let lane = shared.lane();
            let script = (0..CALLS).map(|_| set(lane.number())).collect();
            Member { lane, script, seen: Vec::new() }
        })
        .collect();
    let began = Instant::now();
    members.iter_mut().for_each(|member| member.seen.reserve(member.script.len()));
    on_threads(&mut members, |member| {
        for call in &member.script {
            member.seen.push(shared.call(&mut member.lane, call.clone()));
        }
    });
    let taken = began.elapsed().as_nanos();
    assert!(members.iter().all(|member| member.seen.iter().all(|reply| matches!(reply, Reply::Done))));
    taken
}

fn main() {
    // The most first: then the allocator keeps memory, and the others don't wait for pages of it.
    for (case, count) in [("eight members", 8), ("four members", 4), ("two members", 2), ("one member", 1)] {
        measure(case, CALLS * count, || Some(driven(count)));
    }
}
