//! Runs of several threads at once. The middle one of the times of many short runs counts.

use std::thread;

const RUNS: usize = 61;

/// Does the work of each item on a thread of its own, of which the calling one is the first.
pub fn on_threads<T: Send, S: Send>(items: &mut [T], work: impl Fn(&mut T) -> S + Sync) -> Vec<S> {
    let work = &work;
    thread::scope(|scope| {
        let (own, others) = items.split_first_mut().unwrap();
        let others: Vec<_> = others.iter_mut().map(|item| scope.spawn(move || work(item))).collect();
        let own = work(own);
        others.into_iter().map(|thread| thread.join().unwrap()).chain(Some(own)).collect()
    })
}

/// Prints the middle of the times that count, for so many rounds a run, or that none counts.
pub fn measure(case: &str, rounds: u64, run: impl Fn() -> Option<u128>) {
    let mut times: Vec<u128> = (0..RUNS).filter_map(|_| run()).collect();
    times.sort_unstable();
    match times.get(times.len() / 2) {
        Some(time) => println!("{case}: {rounds} in {time}"),
        None => println!("{case}: 0 in 0"),
    }
}
