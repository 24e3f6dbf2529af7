//! Savestates by hand: the bytes of docs/SAVESTATES.md, with all that a load refuses. There is no timer, and no deadline.

use super::answers::{Kind, Limits, Mode};
use super::bits::Bits;
use super::body::Body;
use super::directory::{GLOBAL, hash_of};
use super::id::Id;
use super::manager::{Manager, Process};
use super::objects::{Object, Phase};
use super::sha256::sha256;
use super::table::{Entry, Free, Table};
use super::waiting::{Shown, Thread};

const MARK: u64 = 0x1_534a_424f;

/// How often a slot may be pinned, which nothing here asks.
pub const PINS: u32 = 1_073_741_823;

fn put(out: &mut Vec<u8>, number: u32) {
    out.extend(number.to_le_bytes());
}

fn put_id(out: &mut Vec<u8>, id: Id) {
    put(out, id.slot);
    put(out, id.generation);
}

fn put_option(out: &mut Vec<u8>, number: Option<u32>) {
    out.push(u8::from(number.is_some()));
    if let Some(number) = number {
        put(out, number);
    }
}

fn put_entry(out: &mut Vec<u8>, entry: &Option<Entry>) {
    out.push(u8::from(entry.is_some()));
    if let Some(entry) = entry {
        put_id(out, entry.id);
        put(out, entry.rights);
        put(out, entry.flags);
    }
}

fn put_body(out: &mut Vec<u8>, object: &Object) {
    let Body { signals, owner, recursion, abandoned } = object.body;
    out.push(if let Kind::Host(_) = object.kind { 4 } else { object.kind.code() as u8 });
    match object.kind {
        Kind::Event => out.extend([u8::from(object.manual), signals as u8]),
        Kind::Host(of) => {
            put(out, u32::from(of));
            out.extend([u8::from(object.manual), signals as u8]);
        }
        Kind::Mutex => {
            put_option(out, (owner != 0).then_some(owner));
            put(out, recursion);
            out.push(u8::from(abandoned));
        }
        Kind::Semaphore => {
            put(out, signals);
            put(out, object.max);
        }
    }
}

fn descr_of(object: &Object) -> u64 {
    object.kind.code() | u64::from(object.manual) << 2 | u64::from(object.max) << 3
}

pub fn save(m: &Manager) -> Vec<u8> {
    let mut out = Vec::new();
    out.extend(MARK.to_le_bytes());
    let l = m.limits;
    for number in [l.slots, l.processes, l.threads, l.handles, l.waits, PINS, l.max_gen, l.max_recursion] {
        put(&mut out, number);
    }
    out.extend(0u64.to_le_bytes());
    put(&mut out, m.processes.len() as u32);
    for process in &m.processes {
        put_option(&mut out, process.as_ref().map(|process| process.session));
    }
    put(&mut out, m.waits.threads.len() as u32);
    for thread in &m.waits.threads {
        put_option(&mut out, (thread.process != 0).then_some(thread.process));
    }
    put(&mut out, m.processes.len() as u32);
    for process in &m.processes {
        let places = process.as_ref().map_or(&[][..], |process| &process.table.places);
        put(&mut out, places.len() as u32);
        places.iter().for_each(|entry| put_entry(&mut out, entry));
    }
    put_waits(&mut out, m);
    put_slots(&mut out, m);
    let digest = sha256(&out);
    out.extend(digest);
    out
}

fn put_waits(out: &mut Vec<u8>, m: &Manager) {
    let mut shown = m.waits.shown(&m.objects);
    shown.sort_unstable_by_key(|wait| wait.number);
    put(out, m.waits.given());
    put(out, shown.len() as u32);
    for Shown { number, thread, pending, code } in shown {
        put(out, number);
        put(out, thread);
        out.push(0);
        match pending {
            Some((mode, ids)) => {
                out.push(mode as u8);
                put(out, ids.len() as u32);
                ids.into_iter().for_each(|id| put_id(out, id));
            }
            None => {
                out.push(2);
                put(out, code);
            }
        }
    }
}

fn put_slots(out: &mut Vec<u8>, m: &Manager) {
    let mut names = vec![None; m.limits.slots as usize];
    m.names.rows().for_each(|(space, id, base)| names[id.slot as usize] = Some((space, base)));
    for (slot, name) in m.objects.slots.iter().zip(names) {
        put(out, slot.generation);
        out.push(u8::from(slot.phase == Phase::Retired));
        out.push(u8::from(slot.has_object()));
        if !slot.has_object() {
            continue;
        }
        let object = &slot.object;
        out.extend(object.birth.to_le_bytes());
        out.extend(descr_of(object).to_le_bytes());
        put(out, object.grant);
        out.push(u8::from(slot.phase == Phase::Live));
        if slot.phase == Phase::Live {
            put_body(out, object);
        }
        out.push(u8::from(name.is_some()));
        if let Some((space, base)) = name {
            put(out, if space == GLOBAL { 0 } else { space as u32 });
            put(out, base.len() as u32);
            out.extend(base);
        }
    }
}

struct Cursor<'a> {
    rest: &'a [u8],
}

impl<'a> Cursor<'a> {
    fn take(&mut self, n: usize) -> Option<&'a [u8]> {
        let (front, rest) = self.rest.split_at_checked(n)?;
        self.rest = rest;
        Some(front)
    }

    fn four(&mut self) -> Option<u32> {
        Some(u32::from_le_bytes(self.take(4)?.try_into().ok()?))
    }

    fn eight(&mut self) -> Option<u64> {
        Some(u64::from_le_bytes(self.take(8)?.try_into().ok()?))
    }

    fn flag(&mut self) -> Option<bool> {
        match self.take(1)? {
            [0] => Some(false),
            [1] => Some(true),
            _ => None,
        }
    }

    fn option<T>(&mut self, read: impl Fn(&mut Self) -> Option<T>) -> Option<Option<T>> {
        if self.flag()? { Some(Some(read(self)?)) } else { Some(None) }
    }

    fn list<T>(&mut self, read: impl Fn(&mut Self) -> Option<T>) -> Option<Vec<T>> {
        let mut values = Vec::new();
        for _ in 0..self.four()? {
            values.push(read(self)?);
        }
        Some(values)
    }

    fn id(&mut self) -> Option<Id> {
        Some(Id { slot: self.four()?, generation: self.four()? })
    }

    fn entry(&mut self) -> Option<Entry> {
        Some(Entry { id: self.id()?, rights: self.four()?, flags: self.four()? })
    }

    fn within(&mut self, most: u32) -> Option<u32> {
        self.four().filter(|number| (1..=most).contains(number))
    }

    fn limits(&mut self) -> Option<Limits> {
        let (slots, processes, threads) = (self.within(65_536)?, self.within(65_536)?, self.within(65_536)?);
        let (handles, waits, _) = (self.within(16_384)?, self.within(u32::MAX)?, self.within(PINS)?);
        let (max_gen, max_recursion) = (self.within(u32::MAX)?, self.within(2_147_483_647)?);
        Some(Limits { slots, processes, threads, handles, waits, max_gen, max_recursion })
    }

    fn numbers(&mut self, limit: u32) -> Option<Vec<Option<u32>>> {
        let numbers = self.list(|c| c.option(Cursor::four))?;
        (numbers.len() <= limit as usize + 1 && numbers.first() == Some(&None)).then_some(numbers)
    }

    /// A body, and the descriptor of what has it.
    fn body(&mut self) -> Option<(Body, u64)> {
        match self.take(1)? {
            [0] => {
                let (manual, set) = (self.flag()?, self.flag()?);
                Some((Body { signals: u32::from(set), ..Body::default() }, u64::from(manual) << 2))
            }
            [1] => {
                let (owner, recursion, abandoned) = (self.option(Cursor::four)?, self.four()?, self.flag()?);
                let is_right = if owner.is_some() { (1..=2_147_483_647).contains(&recursion) && !abandoned } else { recursion == 0 };
                is_right.then_some((Body::of_mutex(owner, recursion, abandoned), 1))
            }
            [2] => {
                let (count, maximum) = (self.four()?, self.four()?);
                let is_right = 0 < maximum && count <= maximum && maximum <= 2_147_483_647;
                is_right.then_some((Body { signals: count, ..Body::default() }, 2 | u64::from(maximum) << 3))
            }
            _ => None,
        }
    }

    fn name(&mut self) -> Option<(u64, &'a [u8])> {
        let (session, len) = (self.four()?, self.four()?);
        let base = self.take(len as usize)?;
        (len <= 260).then_some((if session == 0 { GLOBAL } else { u64::from(session) }, base))
    }

    fn wait(&mut self) -> Option<Shown> {
        let (number, thread) = (self.four()?, self.four()?);
        if self.flag()? {
            return None;
        }
        let (mode, pending) = match self.take(1)? {
            [0] => (Mode::Any, true),
            [1] => (Mode::All, true),
            [2] => (Mode::Any, false),
            _ => return None,
        };
        if !pending {
            return Some(Shown { number, thread, pending: None, code: self.four()? });
        }
        let ids = self.list(Cursor::id)?;
        let is_right = (1..=64).contains(&ids.len());
        is_right.then_some(Shown { number, thread, pending: Some((mode, ids)), code: 0 })
    }
}

pub fn load(bytes: &[u8]) -> Option<Manager> {
    let (text, digest) = bytes.split_at_checked(bytes.len().checked_sub(32)?)?;
    if sha256(text) != digest {
        return None;
    }
    let mut c = Cursor { rest: text };
    if c.eight()? != MARK {
        return None;
    }
    let limits = c.limits()?;
    if c.eight()? != 0 {
        return None;
    }
    let mut m = Manager::new(limits);
    let (sessions, owners) = (c.numbers(limits.processes)?, c.numbers(limits.threads)?);
    let tables = c.list(|c| c.list(|c| c.option(Cursor::entry)))?;
    if tables.len() != sessions.len() || tables.iter().any(|places| places.len() > limits.handles as usize) {
        return None;
    }
    let last = c.four()?;
    let waits = c.list(Cursor::wait)?;
    if last > limits.waits {
        return None;
    }
    let mut births = read_slots(&mut c, &mut m, &owners)?;
    if !c.rest.is_empty() {
        return None;
    }
    put_processes(&mut m, sessions, owners, tables)?;
    restore_waits(&mut m, waits, last)?;
    births.sort_unstable_by_key(|birth| birth.0);
    if births.windows(2).any(|pair| pair[0].0 == pair[1].0) || births.last().is_some_and(|birth| birth.0 >= m.births) {
        return None;
    }
    enter_names(&mut m, &births)?;
    are_bodied(&m).then_some(m)
}

type Birth<'a> = (u64, u32, Option<(u64, &'a [u8])>);

fn read_slots<'a>(c: &mut Cursor<'a>, m: &mut Manager, owners: &[Option<u32>]) -> Option<Vec<Birth<'a>>> {
    let mut births = Vec::new();
    m.objects.owned.resize(owners.len(), Vec::new());
    for slot in 0..m.limits.slots {
        let (generation, retired, is_there) = (c.four()?, c.flag()?, c.flag()?);
        if !(1..=m.limits.max_gen).contains(&generation) || retired && (is_there || generation != m.limits.max_gen) {
            return None;
        }
        m.births += u64::from(if retired || is_there { generation } else { generation - 1 });
        if !is_there {
            if retired {
                m.vacant.take(slot);
            }
            m.objects.restore(slot, generation, if retired { Phase::Retired } else { Phase::Free }, 0, Object::default());
            continue;
        }
        let (birth, descr, grant) = (c.eight()?, c.eight()?, c.four()?);
        let (body, name) = (c.option(Cursor::body)?, c.option(Cursor::name)?);
        if body.is_some_and(|(_, of)| of != descr) {
            return None;
        }
        let phase = if body.is_some() { Phase::Live } else { Phase::Closing };
        let body = body.map_or_else(Body::default, |(body, _)| body);
        let kind = [Kind::Event, Kind::Mutex, Kind::Semaphore].into_iter().nth(descr as usize & 3)?;
        if descr == 1 && phase == Phase::Live && body.signals == 0 {
            owners.get(body.owner as usize).copied().flatten()?;
            m.objects.owned[body.owner as usize].push(slot);
        }
        let hash = name.map_or(0, |(space, base)| hash_of(space, base));
        let (manual, max) = (descr & 4 != 0, (descr >> 3) as u32);
        let object = Object { birth, kind, manual, max, grant, handles: 0, blocks: 0, first: 0, body, is_named: name.is_some(), hash };
        m.vacant.take(slot);
        m.objects.restore(slot, generation, phase, descr, object);
        births.push((birth, slot, name));
    }
    Some(births)
}

fn is_there(m: &Manager, id: Id) -> bool {
    m.objects.slots.get(id.slot as usize).is_some_and(|slot| slot.generation == id.generation && slot.has_object())
}

fn put_processes(m: &mut Manager, sessions: Vec<Option<u32>>, owners: Vec<Option<u32>>, tables: Vec<Vec<Option<Entry>>>) -> Option<()> {
    m.processes.clear();
    for (session, places) in sessions.into_iter().zip(tables) {
        let mut free = Bits::default();
        for (place, entry) in places.iter().enumerate() {
            match entry {
                Some(entry) if is_there(m, entry.id) => m.objects.object(entry.id.slot).handles += 1,
                Some(_) => return None,
                None => free.give_back(place as u32),
            }
        }
        m.processes.push(session.map(|session| Process { session, threads: Vec::new(), table: Table { places, free } }));
    }
    m.waits.threads.clear();
    for (thread, owner) in owners.into_iter().enumerate() {
        if let Some(process) = owner {
            m.processes.get_mut(process as usize)?.as_mut()?.threads.push(thread as u32);
        }
        m.waits.threads.push(Thread::of(owner.unwrap_or(0)));
    }
    Some(())
}

fn restore_waits(m: &mut Manager, waits: Vec<Shown>, last: u32) -> Option<()> {
    let mut before = 0;
    for Shown { number, thread, pending, code } in waits {
        if number <= before || number > last || m.caller(thread).is_err() {
            return None;
        }
        before = number;
        m.waits.skip_to(number - 1);
        let Some((mode, ids)) = pending else {
            m.waits.add_answered(thread, code);
            continue;
        };
        let twice = |(i, id): (usize, &Id)| ids[..i].iter().any(|other| other.slot == id.slot);
        if mode == Mode::All && ids.iter().enumerate().any(twice) || !ids.iter().all(|id| is_there(m, *id)) {
            return None;
        }
        let is_signaled = |id: &Id| m.objects.look(id.slot).body.signaled_for(thread);
        let is_satisfied = if mode == Mode::Any { ids.iter().any(is_signaled) } else { ids.iter().all(is_signaled) };
        let has_room = |id: &Id| m.objects.look(id.slot).body.has_room(thread, m.limits.max_recursion);
        if is_satisfied || !ids.iter().all(has_room) {
            return None;
        }
        let slots: Vec<u32> = ids.iter().map(|id| id.slot).collect();
        m.waits.add(&mut m.objects, thread, mode, &slots).ok()?;
    }
    m.waits.skip_to(last);
    Some(())
}

fn enter_names(m: &mut Manager, births: &[Birth<'_>]) -> Option<()> {
    for (_, slot, name) in births {
        let object = m.objects.look(*slot);
        let Some((space, base)) = name.filter(|_| object.handles > 0) else {
            continue;
        };
        if m.names.find(object.hash, space, base).is_some() {
            return None;
        }
        let id = Id { slot: *slot, generation: m.objects.slots[*slot as usize].generation };
        m.names.enter(object.hash, space, base, id);
    }
    Some(())
}

fn are_bodied(m: &Manager) -> bool {
    m.objects.slots.iter().all(|slot| (slot.phase == Phase::Live) == (slot.object.handles > 0 || slot.object.blocks > 0))
}
