//! The binding against the library: what is refused, what waits, what a host is told.

use obman::{script, Answer, Create, Created, Error, Kind, Limits, Manager, Outcome, Room, Slot, State, Waited, WaitedFor, HANDLE_FLAG_PROTECT_FROM_CLOSE, INFINITE};
use std::sync::{Arc, Mutex};

fn pending(waited: Waited) -> u32 {
    match waited {
        Waited::Pending(wait) => wait,
        Waited::Over(outcome) => panic!("a wait is over: {outcome:?}"),
    }
}

#[test]
fn a_child_inherits_and_sets_what_its_parent_waits_for() -> Result<(), Error> {
    let mut m = Manager::new(&Limits::default())?;
    let parent = m.spawn(1)?;
    let of = Create { inherit: true, ..Create::named("ready") };
    let event = m.create_event(parent.thread, &of, false, false)?.opening();
    let child = m.child(parent.thread, true)?;
    assert_eq!(m.resolve(child.process, event.handle)?, event.object);
    let wait = pending(m.wait(parent.thread, false, INFINITE, &[event.handle])?);
    assert_eq!(m.close(parent.thread, event.handle), Err(Error::Busy));
    m.set_event(child.thread, event.handle)?;
    let answers: Vec<Answer> = m.answers().collect();
    assert_eq!(answers, [Answer { wait, thread: parent.thread, outcome: Outcome::Signaled(0) }]);
    assert_eq!(m.wait_result(wait), Err(Error::InvalidParameter));
    Ok(())
}

#[test]
fn a_child_inherits_what_is_listed() -> Result<(), Error> {
    let mut m = Manager::new(&Limits::default())?;
    let parent = m.spawn(1)?;
    let inherited = Create { inherit: true, ..Create::default() };
    let one = m.create_event(parent.thread, &inherited, false, false)?.opening().handle;
    let other = m.create_event(parent.thread, &inherited, false, false)?.opening().handle;
    let own = m.create_event(parent.thread, &Create::default(), false, false)?.opening().handle;
    m.set_handle_flags(parent.thread, one, HANDLE_FLAG_PROTECT_FROM_CLOSE, HANDLE_FLAG_PROTECT_FROM_CLOSE)?;
    let child = m.child_with(parent.thread, &[other + 1])?;
    assert_eq!(m.handles(child.process).map(|it| it.handle).collect::<Vec<u32>>(), [other]);
    let child = m.child_with(parent.thread, &[])?;
    assert_eq!(m.handles(child.process).count(), 0);
    assert_eq!(m.child_with(parent.thread, &[own]), Err(Error::InvalidParameter));
    assert_eq!(m.child_with(parent.thread, &[other, 400]), Err(Error::InvalidParameter));
    assert_eq!(m.processes().count(), 3);
    Ok(())
}

#[test]
fn who_waits_for_whom_is_told() -> Result<(), Error> {
    let mut m = Manager::new(&Limits::default())?;
    let (first, second) = (m.spawn(1)?, m.spawn(1)?);
    let mutex = m.create_mutex(first.thread, &Create::named("m"), true)?.opening();
    let again = m.open_mutex(second.thread, obman::SYNCHRONIZE, false, "m")?;
    let event = m.create_event(second.thread, &Create::default(), true, true)?.opening();
    let wait = pending(m.wait(second.thread, true, 3, &[event.handle, again.handle])?);
    assert_eq!(m.wait_of(second.thread), Some(wait));
    let objects = vec![event.object, mutex.object];
    assert_eq!(m.objects_waited_for(wait), Some(WaitedFor { thread: second.thread, all: true, deadline: Some(30_000), objects }));
    m.expire(wait)?;
    assert_eq!(m.objects_waited_for(wait), None);
    assert_eq!(m.answers().count(), 1);
    let wait = pending(m.wait(second.thread, false, INFINITE, &[again.handle])?);
    let waited = m.objects_waited_for(wait).expect("a pending wait");
    assert_eq!((waited.all, waited.deadline, waited.objects.len()), (false, None, 1));
    assert!(matches!(m.state(waited.objects[0])?, State::Mutex { owner: Some(owner), .. } if owner == first.thread));
    Ok(())
}

#[test]
fn times_and_waits_are_those_of_windows() -> Result<(), Error> {
    let mut m = Manager::new(&Limits::default())?;
    let first = m.spawn(1)?;
    let second = m.thread(first.process)?;
    let event = m.create_event(first.thread, &Create::default(), false, false)?.opening();
    let mutex = m.create_mutex(first.thread, &Create::default(), true)?.opening();
    let timer = m.create_timer(first.thread, &Create::default(), false)?.opening();
    let asleep = pending(m.sleep(second, obman::FOREVER)?);
    m.alert(asleep)?;
    assert_eq!(m.answers().collect::<Vec<_>>(), [Answer { wait: asleep, thread: second, outcome: Outcome::Alerted }]);
    assert_eq!(m.sleep(second, obman::due_in(0))?, Waited::Over(Outcome::TimedOut));
    let wait = pending(m.wait_until(second, false, 5, &[mutex.handle])?);
    assert_eq!(m.signal_and_wait(first.thread, mutex.handle, event.handle, 0)?, Waited::Over(Outcome::TimedOut));
    assert_eq!(m.wait_result(wait)?, Waited::Over(Outcome::Signaled(0)));
    assert_eq!(m.signal_and_wait(first.thread, mutex.handle, event.handle, 0), Err(Error::NotOwner));
    let wait = pending(m.signal_and_wait(second, mutex.handle, event.handle, obman::due_in(INFINITE))?);
    m.pulse_event(first.thread, event.handle)?;
    assert_eq!(m.wait_result(wait)?, Waited::Over(Outcome::Signaled(0)));
    assert_eq!(m.wait_until(first.thread, true, -1, &[mutex.handle])?, Waited::Over(Outcome::Signaled(0)));
    m.set_periodic_timer(first.thread, timer.handle, -5, 1)?;
    assert_eq!(m.set_periodic_timer(first.thread, timer.handle, 5, -1), Err(Error::InvalidParameter));
    m.tick(25_000)?;
    assert_eq!((m.wait(second, false, 0, &[timer.handle])?, m.next_due()), (Waited::Over(Outcome::Signaled(0)), Some(30_005)));
    let mut again = Manager::load(&m.save()?)?;
    again.tick(30_005)?;
    assert_eq!((again.wait(second, false, 0, &[timer.handle])?, again.next_due()), (Waited::Over(Outcome::Signaled(0)), Some(40_005)));
    Ok(())
}

#[test]
fn a_handle_may_stand_twice() -> Result<(), Error> {
    let mut m = Manager::new_with(&Limits::default(), false, true)?;
    let thread = m.spawn(1)?.thread;
    let event = m.create_event(thread, &Create::default(), false, true)?.opening();
    assert_eq!(m.wait(thread, false, 0, &[event.handle; 2])?, Waited::Over(Outcome::Signaled(0)));
    assert_eq!(m.wait(thread, true, 0, &[event.handle; 2]), Err(Error::InvalidParameter));
    Ok(())
}

#[test]
fn numbers_come_back() -> Result<(), Error> {
    let mut m = Manager::new_reusing(&Limits { threads: 2, waits: 1, ..Limits::default() })?;
    let first = m.spawn(1)?;
    let event = m.create_event(first.thread, &Create::default(), false, false)?.opening();
    for _ in 0..1_000 {
        let second = m.thread(first.process)?;
        assert_eq!((second, m.thread(first.process)), (2, Err(Error::NoSystemResources)));
        assert_eq!(m.room(0), Room { slots: 63, processes: 63, threads: 0, handles: 0, waits: u32::MAX });
        let wait = pending(m.wait(second, false, INFINITE, &[event.handle])?);
        assert_eq!((wait, m.wait_of(second), m.is_pending(second)), (second, Some(second), true));
        m.set_event(first.thread, event.handle)?;
        assert_eq!(m.answers().collect::<Vec<_>>(), [Answer { wait, thread: second, outcome: Outcome::Signaled(0) }]);
        m.end_thread(second)?;
    }
    let mut again = Manager::load(&m.save()?)?;
    assert_eq!(again.room(first.process), Room { slots: 63, processes: 63, threads: 1, handles: 1_023, waits: u32::MAX });
    assert_eq!((again.thread(first.process)?, again.limits()), (2, m.limits()));
    Ok(())
}

#[test]
fn a_mutex_is_abandoned() -> Result<(), Error> {
    let mut m = Manager::new(&Limits::default())?;
    let (first, second) = (m.spawn(1)?, m.spawn(1)?);
    let mutex = m.create_mutex(first.thread, &Create::named("Local\\m"), true)?.opening();
    let Created::Existed(again) = m.create_mutex(second.thread, &Create::named("m"), true)? else {
        panic!("the mutex is there");
    };
    assert_eq!(again.object, mutex.object);
    assert_eq!(m.release_mutex(second.thread, again.handle), Err(Error::NotOwner));
    m.exit(first.process)?;
    assert_eq!(m.state(mutex.object)?, State::Mutex { owner: None, recursion: 0, abandoned: true });
    assert_eq!(m.wait(second.thread, false, 0, &[again.handle])?, Waited::Over(Outcome::Abandoned(0)));
    let owned = State::Mutex { owner: Some(second.thread), recursion: 1, abandoned: false };
    assert_eq!(m.handle_state(second.process, again.handle)?, owned);
    assert_eq!(m.handle_state(second.process, again.handle + 4), Err(Error::InvalidHandle));
    assert_eq!(m.handle_state(first.process, mutex.handle), Err(Error::InvalidParameter));
    m.release_mutex(second.thread, again.handle)
}

#[test]
fn a_timer_fires_and_a_wait_runs_out_of_time() -> Result<(), Error> {
    let mut m = Manager::new(&Limits::default())?;
    let (first, second) = (m.spawn(1)?, m.spawn(1)?);
    let timer = m.create_timer(first.thread, &Create::default(), true)?.opening();
    let over = m.create_event(second.thread, &Create::default(), true, false)?.opening();
    assert_eq!((m.next_due(), m.limits()), (None, Limits::default()));
    m.set_timer(first.thread, timer.handle, -10_000)?;
    pending(m.wait(first.thread, false, INFINITE, &[timer.handle])?);
    pending(m.wait(second.thread, false, 2, &[over.handle])?);
    for outcome in [Outcome::Signaled(0), Outcome::TimedOut] {
        let moment = m.next_due().expect("something is due");
        m.tick(moment)?;
        assert_eq!(m.answers().map(|answer| answer.outcome).collect::<Vec<_>>(), [outcome]);
    }
    assert_eq!((m.next_due(), m.now()), (None, 20_000));
    assert_eq!((m.tick(19_999), m.advance(19_999)), (Err(Error::InvalidParameter), Err(Error::InvalidParameter)));
    // the wait's time is up before the timer comes
    m.set_timer(first.thread, timer.handle, 40_000)?;
    pending(m.wait(first.thread, false, 1, &[timer.handle])?);
    m.advance(50_000)?;
    assert_eq!(m.answers().map(|answer| answer.outcome).collect::<Vec<_>>(), [Outcome::TimedOut]);
    assert_eq!((m.next_due(), m.now()), (None, 50_000));
    Ok(())
}

#[test]
fn walks_come_to_all_that_there_is() -> Result<(), Error> {
    let mut m = Manager::new(&Limits::default())?;
    let (first, second) = (m.spawn(1)?, m.spawn(2)?);
    let thread = m.thread(first.process)?;
    let event = m.create_event(first.thread, &Create::named("a"), true, true)?.opening();
    let semaphore = m.create_semaphore(first.thread, &Create::default(), 1, 3)?.opening();
    assert_eq!(m.processes().collect::<Vec<_>>(), [first.process, second.process]);
    assert_eq!(m.threads(first.process).collect::<Vec<_>>(), [first.thread, thread]);
    assert_eq!(m.handles(first.process).map(|entry| entry.handle).collect::<Vec<_>>(), [event.handle, semaphore.handle]);
    assert_eq!(m.objects().collect::<Vec<_>>(), [event.object, semaphore.object]);
    assert_eq!(m.names().map(|name| name.base).collect::<Vec<_>>(), [b"a".to_vec()]);
    assert_eq!(m.name_of(event.object)?.map(|name| name.base), Some(b"a".to_vec()));
    assert_eq!((m.name_of(semaphore.object)?, m.find(1, "b"), m.find(2, "a")), (None, Err(Error::FileNotFound), Err(Error::FileNotFound)));
    let found = m.find(1, "Local\\a")?;
    assert_eq!((found.object, found.kind, found.access), (event.object, 0, obman::EVENT_ALL_ACCESS));
    assert_eq!(m.state(semaphore.object)?, State::Semaphore { count: 1, max: 3 });
    assert_eq!(m.handle(first.process, event.handle)?.access, obman::EVENT_ALL_ACCESS);
    assert_eq!((m.session_of(second.process)?, m.process_of(thread)), (2, Some(first.process)));
    Ok(())
}

#[test]
fn a_reader_holds_a_slot_behind_its_managers_back() -> Result<(), Error> {
    let mut m = Manager::new(&Limits::default())?;
    let mut other = Manager::new(&Limits::default())?;
    let member = m.spawn(1)?;
    let event = m.create_event(member.thread, &Create::default(), true, false)?.opening();
    let mut reader = m.reader()?;
    reader.pin(event.object)?;
    assert_eq!(reader.describe(event.object)?, Kind::Event { manual: true });
    assert_eq!(m.inspect(&mut reader, event.object)?.kind, Kind::Event { manual: true });
    assert_eq!(other.inspect(&mut reader, event.object), Err(Error::InvalidParameter));
    m.close(member.thread, event.handle)?;
    assert_eq!(m.ended().iter().map(|ended| ended.slot).collect::<Vec<_>>(), [Slot::Held(1)]);
    reader.unpin(event.object)?;
    assert_eq!(m.ended().iter().map(|ended| ended.slot).collect::<Vec<_>>(), [Slot::Freed]);
    assert_eq!(reader.unpin(event.object), Err(Error::InvalidHandle));
    Ok(())
}

#[test]
fn what_ended_is_told_once_however_many_are_pinned() -> Result<(), Error> {
    let mut m = Manager::new(&Limits { slots: 200, ..Limits::default() })?;
    let member = m.spawn(1)?;
    let mut readers = (0..7).map(|_| m.reader()).collect::<Result<Vec<_>, _>>()?;
    let mut made = Vec::new();
    for at in 0..200 {
        made.push(m.create_event(member.thread, &Create::default(), false, false)?.opening());
        if at % 2 == 0 {
            readers[at / 32].pin(made[at].object)?;
        }
    }
    for one in made {
        m.close(member.thread, one.handle)?;
    }
    let told: Vec<_> = m.ended().iter().map(|ended| (ended.object.slot, ended.slot)).collect();
    let due: Vec<_> = (0..200).map(|slot| (slot, if slot % 2 == 0 { Slot::Held(1) } else { Slot::Freed })).collect();
    assert_eq!(told, due);
    assert_eq!(m.ended().len(), 100);
    Ok(())
}

#[test]
fn limits_out_of_range_are_refused_and_errors_have_names() {
    assert_eq!(Manager::new(&Limits { slots: 0, ..Limits::default() }).err(), Some(Error::InvalidParameter));
    assert_eq!(Error::Busy.to_string(), "ERROR_BUSY (170)");
}

#[test]
fn a_script_is_answered() -> Result<(), Error> {
    assert_eq!(script(&Limits::default(), b"spawn 1\nevent t1 auto set\n")?, b"p1 t1\nh4 new s0.1\n");
    Ok(())
}

#[test]
fn a_record_is_a_script() -> Result<(), Error> {
    let mut m = Manager::new(&Limits::default())?;
    m.record(true)?;
    let member = m.spawn(1)?;
    m.create_event(member.thread, &Create::default(), false, false)?;
    m.record(false)?;
    m.spawn(1)?;
    assert_eq!(m.recorded(), b"spawn 1\n# p1 t1\nevent t1 auto clear\n# h4 new s0.1\n");
    assert_eq!(m.recorded(), b"");
    Ok(())
}

#[test]
fn a_savestate_is_loaded_again() -> Result<(), Error> {
    let mut m = Manager::new(&Limits::default())?;
    let member = m.spawn(1)?;
    let event = m.create_event(member.thread, &Create::default(), false, false)?.opening();
    m.wait(member.thread, false, 2, &[event.handle])?;
    let saved = m.save()?;
    let mut again = Manager::load(&saved)?;
    assert_eq!(again.save()?, saved);
    for each in [&mut m, &mut again] {
        each.tick(20_000)?;
    }
    assert_ne!(m.save()?, saved);
    assert_eq!(again.save()?, m.save()?);
    assert_eq!(Manager::load(&saved[1..]).err(), Some(Error::InvalidData));
    assert_eq!(Manager::load(&[]).err(), Some(Error::InvalidData));
    Ok(())
}

#[test]
fn threads_share_a_manager_behind_a_lock() -> Result<(), Error> {
    let m = Arc::new(Mutex::new(Manager::new(&Limits::default())?));
    let threads: Vec<_> = (0..4)
        .map(|_| {
            let m = Arc::clone(&m);
            std::thread::spawn(move || -> Result<(), Error> {
                let member = m.lock().unwrap().spawn(1)?;
                for _ in 0..1_000 {
                    let event = m.lock().unwrap().create_event(member.thread, &Create::default(), true, true)?.opening();
                    let waited = m.lock().unwrap().wait(member.thread, false, 0, &[event.handle])?;
                    assert_eq!(waited, Waited::Over(Outcome::Signaled(0)));
                    m.lock().unwrap().close(member.thread, event.handle)?;
                    let reaped = m.lock().unwrap().reap(event.object.slot)?;
                    assert_eq!((reaped.object, reaped.slot), (event.object, Slot::Freed));
                }
                Ok(())
            })
        })
        .collect();
    for thread in threads {
        thread.join().unwrap()?;
    }
    Ok(())
}

#[test]
fn a_library_of_this_release() {
    assert_eq!(obman::version(), obman::VERSION);
    assert_eq!([0, 183, 258, 87, 4].map(obman::error_name), ["ERROR_SUCCESS", "ERROR_ALREADY_EXISTS", "WAIT_TIMEOUT", "ERROR_INVALID_PARAMETER", "unknown"]);
    assert_eq!([0, 2, 6, 183, 258, 997, 1450, 13].map(obman::nt_status), [0, 0xC000_0034, 0xC000_0008, 0x4000_0000, 0x102, 0x103, 0xC000_009A, 0xC000_0001]);
    let generic = |kind| [obman::GENERIC_READ, obman::GENERIC_WRITE, obman::GENERIC_EXECUTE, obman::GENERIC_ALL].map(|mask| obman::map_access(kind, mask));
    assert_eq!(generic(0), [0x2_0001, 0x2_0002, 0x12_0000, 0x1F_0003]);
    assert_eq!(generic(1), [0x2_0001, 0x2_0000, 0x12_0000, 0x1F_0001]);
    assert_eq!([2, 3].map(generic), [generic(0); 2]);
    assert_eq!(generic(256), [0x2_0000, 0x2_0000, 0x12_0000, 0x1F_FFFF]);
    assert_eq!(obman::map_access(0, obman::SYNCHRONIZE | obman::GENERIC_READ | obman::GENERIC_WRITE), 0x12_0003);
    assert!(Manager::new(&Limits::MOST).is_ok());
}
