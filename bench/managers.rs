//! The cases of bench/managers.c over a manager by hand in plain Rust.

mod parts;

use parts::answers::{Fault, Limits};
use parts::cases::small_guest;
use parts::manager::Manager;
use std::hint::black_box;
use std::time::Instant;

const MANAGERS: usize = 1000;

const PAGE: u64 = 4096;

/// How many bytes this process has in memory.
fn resident() -> u64 {
    let statm = std::fs::read_to_string("/proc/self/statm").unwrap();
    statm.split(' ').nth(1).unwrap().parse::<u64>().unwrap() * PAGE
}

fn run_together() -> Result<(), Fault> {
    let mut managers = Vec::with_capacity(MANAGERS);
    let (mut sum, before, started) = (0, resident(), Instant::now());
    for _ in 0..MANAGERS {
        let mut manager = Manager::new(Limits::MOST);
        sum += small_guest(&mut manager)?;
        managers.push(manager);
    }
    let (taken, bytes) = (started.elapsed().as_nanos(), resident() - before);
    println!("a thousand with small guests: {MANAGERS} in {taken}, {sum}");
    println!("a thousand with small guests, resident bytes: {MANAGERS} in {bytes}, {sum}");
    Ok(())
}

fn run_in_turn(what: &str, rounds: u32, limits: Limits) {
    let started = Instant::now();
    for _ in 0..rounds {
        drop(black_box(Manager::new(limits)));
    }
    println!("made and ended, {what}: {rounds} in {}", started.elapsed().as_nanos());
}

fn main() -> Result<(), Fault> {
    run_together()?;
    run_in_turn("the default limits", 10_000, Limits::DEFAULT);
    run_in_turn("1,024 slots and 4,096 threads", 2_000, Limits { slots: 1_024, threads: 4_096, ..Limits::DEFAULT });
    run_in_turn("the greatest limits", 200, Limits::MOST);
    Ok(())
}
