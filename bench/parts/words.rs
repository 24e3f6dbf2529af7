//! The words of a line, and what they say.

use super::answers::{Kind, Make};
use super::id::Id;

/// What is left of a line: none where no word is.
#[derive(Clone, Copy)]
pub struct Words<'a> {
    rest: Option<&'a [u8]>,
}

impl<'a> Words<'a> {
    pub fn of(text: &'a [u8]) -> Words<'a> {
        Words { rest: Some(text) }
    }

    pub fn next(&mut self) -> Option<&'a [u8]> {
        let rest = self.rest?;
        match rest.iter().position(|byte| *byte == b' ') {
            Some(at) => {
                self.rest = Some(&rest[at + 1..]);
                Some(&rest[..at])
            }
            None => {
                self.rest = None;
                Some(rest)
            }
        }
    }

    pub fn is_empty(&self) -> bool {
        self.rest.is_none()
    }

    /// Some where no word is left.
    pub fn end(&self) -> Option<()> {
        self.is_empty().then_some(())
    }

    /// Whether a keyword came next, which is passed.
    pub fn skip(&mut self, keyword: &[u8]) -> bool {
        let mut later = *self;
        if later.next() != Some(keyword) {
            return false;
        }
        *self = later;
        true
    }

    /// `[inherit] [access M] [grant M] [name TEXT]`
    pub fn make(mut self) -> Option<Make<'a>> {
        let inherit = self.skip(b"inherit");
        let access = self.masked(b"access")?;
        let grant = self.masked(b"grant")?;
        let name = if self.is_empty() { None } else { Some(self.name()?) };
        Some(Make { name, inherit, access, grant })
    }

    /// `[KEYWORD M]`
    fn masked(&mut self, keyword: &[u8]) -> Option<Option<u32>> {
        if !self.skip(keyword) {
            return Some(None);
        }
        mask(self.next()?).map(Some)
    }

    /// `name TEXT`
    pub fn name(mut self) -> Option<&'a [u8]> {
        if self.skip(b"name") { self.rest } else { None }
    }

    pub fn labelled(&mut self, letter: u8) -> Option<u32> {
        labelled(letter, self.next()?)
    }

    /// The last word.
    pub fn labelled_last(&mut self, letter: u8) -> Option<u32> {
        let number = self.labelled(letter)?;
        self.end()?;
        Some(number)
    }
}

pub fn number(word: &[u8]) -> Option<u32> {
    if word.is_empty() || word.len() > 10 {
        return None;
    }
    let mut value = 0u64;
    for byte in word {
        let digit = byte.wrapping_sub(b'0');
        if digit > 9 {
            return None;
        }
        value = value * 10 + u64::from(digit);
    }
    u32::try_from(value).ok()
}

pub fn signed(word: &[u8]) -> Option<i32> {
    match word {
        [b'-', digits @ ..] => i32::try_from(-i64::from(number(digits)?)).ok(),
        _ => i32::try_from(number(word)?).ok(),
    }
}

pub fn labelled(letter: u8, word: &[u8]) -> Option<u32> {
    match word {
        [first, digits @ ..] if *first == letter => number(digits),
        _ => None,
    }
}

/// `s`, a slot, a full stop, a generation.
pub fn id(word: &[u8]) -> Option<Id> {
    let at = word.iter().position(|byte| *byte == b'.')?;
    Some(Id { slot: labelled(b's', &word[..at])?, generation: number(&word[at + 1..])? })
}

pub fn mask(word: &[u8]) -> Option<u32> {
    let digits = word.strip_prefix(b"0x")?;
    if digits.is_empty() || digits.len() > 8 {
        return None;
    }
    let mut value = 0;
    for byte in digits {
        value = value << 4 | char::from(*byte).to_digit(16)?;
    }
    Some(value)
}

/// `k` and a type of a host's objects.
pub fn object_type(word: &[u8]) -> Option<u8> {
    labelled(b'k', word)?.try_into().ok()
}

pub fn kind(word: &[u8]) -> Option<Kind> {
    match word {
        b"event" => Some(Kind::Event),
        b"mutex" => Some(Kind::Mutex),
        b"semaphore" => Some(Kind::Semaphore),
        _ => Some(Kind::Host(object_type(word)?)),
    }
}

/// `false` for the first keyword, `true` for the second.
pub fn either(first: &[u8], second: &[u8], word: &[u8]) -> Option<bool> {
    if word == first {
        return Some(false);
    }
    (word == second).then_some(true)
}
