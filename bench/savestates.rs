//! What bench/savestates.c measures but the copy, by a manager by hand in plain Rust.

mod parts;

use parts::answers::{Kind, Limits, Make, Mode, Reply, Timeout};
use parts::cases::small_guest;
use parts::manager::Manager;
use parts::saving;
use std::time::Instant;

fn fill(m: &mut Manager) {
    let hosts: Vec<(u32, u32)> = (0..20)
        .map(|_| match m.spawn(1) {
            Reply::Spawned { process, thread } => (process, thread),
            other => panic!("{other:?}"),
        })
        .collect();
    for i in 0..60_000 {
        let name = format!("object {i}");
        let make = Make { name: Some(name.as_bytes()), inherit: false, access: None, grant: None };
        let made = m.create_event(hosts[i / 15_000].1, &make, false, false);
        assert!(matches!(made, Reply::Made { .. }), "{made:?}");
    }
    for (p, host) in hosts[4..].iter().enumerate() {
        for i in 0..1_000 {
            let name = format!("object {}", (p * 1_000 + i * 7) % 60_000);
            let opened = m.open_named(host.1, Kind::Event, 0x001f_0003, false, name.as_bytes());
            assert!(matches!(opened, Reply::Opened { .. }), "{opened:?}");
        }
    }
    for i in 0..10_000 {
        let Reply::Started { thread } = m.thread(hosts[4 + i % 16].0) else { panic!("no thread") };
        let waited = m.wait(thread, Mode::Any, Timeout::Infinite, &[4 + 4 * (i as u32 % 1_000)]);
        assert!(matches!(waited, Reply::Pending { .. }), "{waited:?}");
    }
}

fn measure(of: &str, m: Manager) {
    let (mut save, mut load) = (u128::MAX, u128::MAX);
    let mut bytes = Vec::new();
    for _ in 0..5 {
        let started = Instant::now();
        bytes = saving::save(&m);
        save = save.min(started.elapsed().as_nanos());
        let started = Instant::now();
        let again = saving::load(&bytes).expect("a savestate");
        load = load.min(started.elapsed().as_nanos());
        assert!(saving::save(&again) == bytes);
    }
    let digest: String = bytes[bytes.len() - 32..].iter().map(|byte| format!("{byte:02x}")).collect();
    for (case, taken) in [("save", save), ("load", load)] {
        println!("{case}{of}, {} bytes: 1 in {taken}, {digest}", bytes.len());
    }
}

fn main() {
    let mut m = Manager::new(Limits::MOST);
    fill(&mut m);
    measure("", m);
    let mut m = Manager::new(Limits::MOST);
    small_guest(&mut m).expect("a small guest");
    measure(" of a small guest", m);
}
