//! Answers, printed one behind another.

use super::answers::{Reclaim, Reply};
use super::directory::GLOBAL;
use super::id::Id;

/// Two digits at a time.
const PAIRS: &[u8; 200] = b"\
    0001020304050607080910111213141516171819202122232425262728293031323334353637383940414243444546474849\
    5051525354555657585960616263646566676869707172737475767778798081828384858687888990919293949596979899";

pub struct Printed(pub Vec<u8>);

impl Printed {
    fn text(&mut self, text: &[u8]) {
        self.0.extend_from_slice(text);
    }

    fn number(&mut self, number: u64) {
        if number < 10 {
            self.0.push(b'0' + number as u8);
            return;
        }
        let mut digits = [0; 20];
        let (mut at, mut left) = (digits.len(), number);
        while left >= 10 {
            let pair = 2 * (left % 100) as usize;
            at -= 2;
            digits[at..at + 2].copy_from_slice(&PAIRS[pair..pair + 2]);
            left /= 100;
        }
        if left > 0 {
            at -= 1;
            digits[at] = b'0' + left as u8;
        }
        self.text(&digits[at..]);
    }

    fn labelled(&mut self, label: &[u8], number: u32) {
        self.text(label);
        self.number(u64::from(number));
    }

    fn id(&mut self, id: Id) {
        self.labelled(b"s", id.slot);
        self.labelled(b".", id.generation);
    }

    fn handle(&mut self, handle: u32, how: &[u8], id: Id) {
        self.labelled(b"h", handle);
        self.text(how);
        self.id(id);
    }

    pub fn bad_line(&mut self, number: u64) {
        self.text(b"bad line ");
        self.number(number);
        self.text(b"\n");
    }

    pub fn name_count(&mut self, count: usize) {
        self.text(b"dir ");
        self.number(count as u64);
        self.text(b"\n");
    }

    pub fn named(&mut self, space: u64, id: Id, base: &[u8]) {
        if space == GLOBAL {
            self.text(b"global ");
        } else {
            self.text(b"session ");
            self.number(space);
            self.text(b" ");
        }
        self.id(id);
        self.text(b" ");
        self.text(base);
        self.text(b"\n");
    }

    pub fn reply(&mut self, reply: Reply) {
        match reply {
            Reply::Spawned { process, thread } => {
                self.labelled(b"p", process);
                self.labelled(b" t", thread);
            }
            Reply::Started { thread } => self.labelled(b"t", thread),
            Reply::Made { handle, id } => self.handle(handle, b" new ", id),
            Reply::Exists { handle, id } => self.handle(handle, b" exists ", id),
            Reply::Opened { handle, id } => self.handle(handle, b" opened ", id),
            Reply::Duplicated { handle, id } => self.handle(handle, b" dup ", id),
            Reply::Closed => self.text(b"closed"),
            Reply::Done => self.text(b"done"),
            Reply::Previous { count } => self.labelled(b"previous ", count),
            Reply::Code { code } => self.labelled(b"code ", code),
            Reply::Pending { wait } => self.labelled(b"pending w", wait),
            Reply::Expired { wait } => self.labelled(b"expired w", wait),
            Reply::Ended { thread } => self.labelled(b"ended t", thread),
            Reply::Exited { process } => self.labelled(b"exited p", process),
            Reply::Reaped { id, outcome } => {
                self.id(id);
                match outcome {
                    Reclaim::Freed => self.text(b" freed"),
                    Reclaim::Retired => self.text(b" retired"),
                    Reclaim::Held { pins } => self.labelled(b" held ", pins),
                }
            }
            Reply::CountsAre { handles, waits, hold } => {
                self.labelled(b"handles ", handles);
                self.text(b" waits ");
                self.number(waits);
                self.labelled(b" hold ", hold);
            }
            Reply::Refused(fault) => self.labelled(b"error ", fault.code()),
        }
        self.text(b"\n");
    }
}
