//! A line asks a manager.

use super::answers::{Mode, Reply, Timeout};
use super::manager::Manager;
use super::words::{Words, either, id, kind, labelled, mask, number, object_type, signed};

const CLOSE_SOURCE: u32 = 1;
const SAME_ACCESS: u32 = 2;

/// The answer to a line, or none where it is bad.
pub fn reply_to(manager: &mut Manager, line: &[u8]) -> Option<Reply> {
    let mut words = Words::of(line);
    match words.next()? {
        b"spawn" => {
            let session = number(words.next()?)?;
            words.end()?;
            Some(manager.spawn(session))
        }
        b"child" => {
            let thread = words.labelled(b't')?;
            let inherit = either(b"plain", b"inherit", words.next()?)?;
            words.end()?;
            Some(manager.child(thread, inherit))
        }
        b"thread" => Some(manager.thread(words.labelled_last(b'p')?)),
        b"event" => {
            let thread = words.labelled(b't')?;
            let manual = either(b"auto", b"manual", words.next()?)?;
            let set = either(b"clear", b"set", words.next()?)?;
            Some(manager.create_event(thread, &words.make()?, manual, set))
        }
        b"mutex" => {
            let thread = words.labelled(b't')?;
            let owned = either(b"free", b"owned", words.next()?)?;
            Some(manager.create_mutex(thread, &words.make()?, owned))
        }
        b"semaphore" => {
            let thread = words.labelled(b't')?;
            let initial = signed(words.next()?)?;
            let max = signed(words.next()?)?;
            Some(manager.create_semaphore(thread, &words.make()?, initial, max))
        }
        b"host" => {
            let thread = words.labelled(b't')?;
            let of = object_type(words.next()?)?;
            let manual = either(b"auto", b"manual", words.next()?)?;
            let signaled = either(b"clear", b"set", words.next()?)?;
            Some(manager.create_host(thread, &words.make()?, of, manual, signaled))
        }
        b"signal" => {
            let id = id(words.next()?)?;
            let signaled = either(b"clear", b"set", words.next()?)?;
            words.end()?;
            Some(manager.signal_host(id, signaled))
        }
        b"open" => {
            let thread = words.labelled(b't')?;
            let kind = kind(words.next()?)?;
            let rights = mask(words.next()?)?;
            let inherit = words.skip(b"inherit");
            Some(manager.open_named(thread, kind, rights, inherit, words.name()?))
        }
        b"dup" => dup(manager, words),
        b"close" => {
            let (thread, handle) = handle_of(words)?;
            Some(manager.close(thread, handle))
        }
        b"set" => {
            let (thread, handle) = handle_of(words)?;
            Some(manager.set_event(thread, handle))
        }
        b"reset" => {
            let (thread, handle) = handle_of(words)?;
            Some(manager.reset_event(thread, handle))
        }
        b"unlock" => {
            let (thread, handle) = handle_of(words)?;
            Some(manager.release_mutex(thread, handle))
        }
        b"release" => {
            let thread = words.labelled(b't')?;
            let handle = words.labelled(b'h')?;
            let count = signed(words.next()?)?;
            words.end()?;
            Some(manager.release_semaphore(thread, handle, count))
        }
        b"wait" => wait(manager, words),
        b"result" => Some(manager.wait_result(words.labelled_last(b'w')?)),
        b"expire" => Some(manager.expire(words.labelled_last(b'w')?)),
        b"endthread" => Some(manager.end_thread(words.labelled_last(b't')?)),
        b"exit" => Some(manager.exit(words.labelled_last(b'p')?)),
        b"reap" => Some(manager.reap(words.labelled_last(b's')?)),
        b"count" => {
            let id = id(words.next()?)?;
            words.end()?;
            Some(manager.counts(id))
        }
        _ => None,
    }
}

/// A thread and a handle.
fn handle_of(mut words: Words<'_>) -> Option<(u32, u32)> {
    Some((words.labelled(b't')?, words.labelled_last(b'h')?))
}

fn dup(manager: &mut Manager, mut words: Words<'_>) -> Option<Reply> {
    let thread = words.labelled(b't')?;
    let source = words.labelled(b'p')?;
    let handle = words.labelled(b'h')?;
    let target = match words.next()? {
        b"-" => None,
        word => Some(labelled(b'p', word)?),
    };
    let (rights, sameness) = match words.next()? {
        b"same" => (0, SAME_ACCESS),
        word => (mask(word)?, 0),
    };
    let inherit = words.skip(b"inherit");
    let closing = if words.skip(b"close") { CLOSE_SOURCE } else { 0 };
    words.end()?;
    Some(manager.duplicate(thread, source, handle, target, rights, inherit, sameness + closing))
}

/// Of a list that is too long no more than its beginning is asked for: the answer is the same.
fn wait(manager: &mut Manager, mut words: Words<'_>) -> Option<Reply> {
    let thread = words.labelled(b't')?;
    let mode = if either(b"any", b"all", words.next()?)? { Mode::All } else { Mode::Any };
    let timeout = match words.next()? {
        b"0" => Timeout::Zero,
        b"inf" | b"4294967295" => Timeout::Infinite,
        _ => return None,
    };
    let mut handles = [0; 65];
    let mut count = 0;
    while let Some(word) = words.next() {
        let handle = labelled(b'h', word)?;
        if count < handles.len() {
            handles[count] = handle;
            count += 1;
        }
    }
    Some(manager.wait(thread, mode, timeout, &handles[..count]))
}
