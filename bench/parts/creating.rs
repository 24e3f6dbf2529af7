//! Objects are created and opened.
//!
//! A name is hashed once a call, and where it leaves not at all: its object keeps the hash.

use super::answers::{Fault, Kind, Make, Reply, within};
use super::body::Body;
use super::directory::{GLOBAL, hash_of};
use super::id::Id;
use super::manager::Manager;
use super::objects::Object;
use super::table::{Entry, Free, INHERIT};

#[derive(Clone, Copy)]
struct New {
    kind: Kind,
    manual: bool,
    max: u32,
    body: Body,
}

/// What has a name: its namespace, the rest of the text, and the hash of both.
#[derive(Clone, Copy)]
struct Name<'a> {
    space: u64,
    base: &'a [u8],
    hash: u64,
}

fn parse(text: &[u8], session: u32) -> Result<Name<'_>, Fault> {
    if text.len() > 260 {
        return Err(Fault::NameLong);
    }
    if !text.iter().all(|byte| (0x20..=0x7E).contains(byte)) {
        return Err(Fault::Parameter);
    }
    let own = if session == 0 { GLOBAL } else { u64::from(session) };
    let (space, base) = if let Some(base) = text.strip_prefix(b"Global\\") {
        (GLOBAL, base)
    } else {
        (own, text.strip_prefix(b"Local\\").unwrap_or(text))
    };
    if base.is_empty() {
        return Err(Fault::Parameter);
    }
    if base.contains(&b'\\') {
        return Err(Fault::NamePath);
    }
    Ok(Name { space, base, hash: hash_of(space, base) })
}

pub fn flags_of(inherit: bool) -> u32 {
    if inherit { INHERIT } else { 0 }
}

impl Manager {
    pub(crate) fn event(&mut self, thread: u32, make: &Make<'_>, manual: bool, set: bool) -> Result<Reply, Fault> {
        let process = self.caller(thread)?;
        let body = Body { signals: u32::from(set), ..Body::default() };
        self.create(process, make, New { kind: Kind::Event, manual, max: 0, body })
    }

    pub(crate) fn mutex(&mut self, thread: u32, make: &Make<'_>, owned: bool) -> Result<Reply, Fault> {
        let process = self.caller(thread)?;
        let body = Body::of_mutex(owned.then_some(thread), u32::from(owned), false);
        let reply = self.create(process, make, New { kind: Kind::Mutex, manual: false, max: 0, body })?;
        if let Reply::Made { id, .. } = reply {
            if owned {
                self.objects.owned[thread as usize].push(id.slot);
            }
        }
        Ok(reply)
    }

    pub(crate) fn semaphore(&mut self, thread: u32, make: &Make<'_>, initial: i32, max: i32) -> Result<Reply, Fault> {
        let process = self.caller(thread)?;
        if initial < 0 || max <= 0 || max < initial {
            return Err(Fault::Parameter);
        }
        let body = Body { signals: initial as u32, ..Body::default() };
        self.create(process, make, New { kind: Kind::Semaphore, manual: false, max: max as u32, body })
    }

    pub(crate) fn host(
        &mut self,
        thread: u32,
        make: &Make<'_>,
        of: u8,
        manual: bool,
        signaled: bool,
    ) -> Result<Reply, Fault> {
        let process = self.caller(thread)?;
        let body = Body { signals: u32::from(signaled), ..Body::default() };
        self.create(process, make, New { kind: Kind::Host(of), manual, max: 0, body })
    }

    fn create(&mut self, process: u32, make: &Make<'_>, new: New) -> Result<Reply, Fault> {
        if !within(make.grant.unwrap_or(new.kind.all_access()), new.kind.all_access()) {
            return Err(Fault::Parameter);
        }
        let Some(text) = make.name else {
            return self.made(process, make, new, None);
        };
        let name = parse(text, self.process(process)?.session)?;
        let Some(id) = self.names.find(name.hash, name.space, name.base) else {
            return self.made(process, make, new, Some(name));
        };
        let rights = make.access.unwrap_or(new.kind.all_access());
        let handle = self.another_handle(process, id, new.kind, rights, make.inherit)?;
        Ok(Reply::Exists { handle, id })
    }

    fn made(&mut self, process: u32, make: &Make<'_>, new: New, name: Option<Name<'_>>) -> Result<Reply, Fault> {
        let all = new.kind.all_access();
        let rights = make.access.unwrap_or(all);
        if !within(rights, all) {
            return Err(Fault::Access);
        }
        let limit = self.limits.handles;
        let slot = self.vacant.least();
        let place = slot.unwrap_or(0) as usize;
        let id = Id { slot: place as u32, generation: self.objects.slots[place].generation };
        let table = &mut self.process(process)?.table;
        if table.is_full(limit) || slot.is_none() {
            return Err(Fault::Limit);
        }
        let entry = Entry { id, rights, flags: flags_of(make.inherit) };
        let handle = table.place(entry, limit).ok_or(Fault::Limit)?;
        self.vacant.take(id.slot);
        self.objects.publish(place, new.kind, new.manual, new.max);
        self.objects.slots[place].object = Object {
            birth: self.births,
            kind: new.kind,
            manual: new.manual,
            max: new.max,
            grant: make.grant.unwrap_or(all),
            handles: 1,
            blocks: 0,
            first: 0,
            body: new.body,
            is_named: name.is_some(),
            hash: name.map_or(0, |name| name.hash),
        };
        self.births += 1;
        if let Some(name) = name {
            self.names.enter(name.hash, name.space, name.base, id);
        }
        Ok(Reply::Made { handle, id })
    }

    fn another_handle(&mut self, process: u32, id: Id, kind: Kind, rights: u32, inherit: bool) -> Result<u32, Fault> {
        let object = self.objects.look(id.slot);
        if object.kind != kind {
            return Err(Fault::Handle);
        }
        if rights == 0 || !within(rights, object.grant) {
            return Err(Fault::Access);
        }
        let entry = Entry { id, rights, flags: flags_of(inherit) };
        self.placed(process, entry)
    }

    /// One more handle of an object that has one.
    pub(crate) fn placed(&mut self, process: u32, entry: Entry) -> Result<u32, Fault> {
        let limit = self.limits.handles;
        let handle = self.process(process)?.table.place(entry, limit).ok_or(Fault::Limit)?;
        self.objects.object(entry.id.slot).handles += 1;
        Ok(handle)
    }

    pub(crate) fn opened(
        &mut self,
        thread: u32,
        kind: Kind,
        mask: u32,
        inherit: bool,
        text: &[u8],
    ) -> Result<Reply, Fault> {
        let process = self.caller(thread)?;
        let name = parse(text, self.process(process)?.session)?;
        let id = self.names.find(name.hash, name.space, name.base).ok_or(Fault::NotFound)?;
        let handle = self.another_handle(process, id, kind, mask, inherit)?;
        Ok(Reply::Opened { handle, id })
    }
}
