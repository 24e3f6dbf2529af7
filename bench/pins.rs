//! Pins and releases on bare words, of several threads at once.

mod parts;

use parts::pins::Words;
use parts::runs::{measure, on_threads};
use std::sync::atomic::{AtomicU64, Ordering::SeqCst};
use std::time::Instant;

// Pairs of each thread in a run.
const PAIRS: u64 = 40000;

const APART: [u32; 4] = [64, 128, 192, 256];

const NEAR: [u32; 4] = [8, 9, 10, 11];

/// From the first thread that begins to the last that ends; none where they weren't all at work for more than half of it.
fn run(words: &Words, slots: &[u32]) -> Option<u128> {
    let (ready, origin) = (AtomicU64::new(0), Instant::now());
    let spans = on_threads(&mut slots.to_vec(), |slot| {
        ready.fetch_add(1, SeqCst);
        while ready.load(SeqCst) < slots.len() as u64 {}
        let began = origin.elapsed().as_nanos();
        words.spin(*slot, PAIRS);
        (began, origin.elapsed().as_nanos())
    });
    let (begins, ends) = (spans.iter().map(|span| span.0), spans.iter().map(|span| span.1));
    let taken = ends.clone().max()? - begins.clone().min()?;
    (taken / 2 < ends.min()?.saturating_sub(begins.max()?)).then_some(taken)
}

fn measure_at(case: &str, words: &Words, slots: &[u32]) {
    measure(case, PAIRS * slots.len() as u64, || run(words, slots));
}

fn main() {
    let words = Words::new(65536, 1073741823);
    for slot in APART.iter().chain(&NEAR) {
        words.publish(*slot);
    }
    measure_at("one thread", &words, &APART[..1]);
    measure_at("two threads, one Id", &words, &[APART[0]; 2]);
    measure_at("four threads, one Id", &words, &[APART[0]; 4]);
    measure_at("two threads, Ids apart", &words, &APART[..2]);
    measure_at("four threads, Ids apart", &words, &APART);
    measure_at("two threads, neighbouring Ids", &words, &NEAR[..2]);
    measure_at("four threads, neighbouring Ids", &words, &NEAR);
}
