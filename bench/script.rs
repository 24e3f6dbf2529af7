//! What obman does with a script, over the manager by hand: lines from standard input, their answers to standard output, both
//! in blocks of 64 KiB. It has obman's options of limits but those of pins and recursion, each as `--slots 4`.

mod parts;

use parts::answers::Limits;
use parts::asking;
use parts::manager::Manager;
use parts::printing::Printed;
use std::io::{ErrorKind, Read, Result, StdoutLock, Write};

/// How many bytes are read at once, at most, and how many are gathered before they are written.
const BLOCK: usize = 65_536;

/// The longest answer, in bytes.
const ANSWER_MOST: usize = 512;

/// The longest text of a line, in bytes.
const TEXT_MOST: usize = 4_096;

struct Console {
    manager: Manager,
    printed: Printed,
    /// The beginning of a line whose end has not come.
    held: Vec<u8>,
    lines: u64,
    output: StdoutLock<'static>,
}

impl Console {
    fn new(limits: Limits) -> Console {
        Console {
            manager: Manager::new(limits),
            printed: Printed(Vec::with_capacity(BLOCK)),
            held: Vec::with_capacity(TEXT_MOST + 2),
            lines: 0,
            output: std::io::stdout().lock(),
        }
    }

    fn flush(&mut self) -> Result<()> {
        self.output.write_all(&self.printed.0)?;
        self.output.flush()?;
        self.printed.0.clear();
        Ok(())
    }

    /// Room for one more answer.
    #[inline(always)]
    fn make_room(&mut self) -> Result<()> {
        if self.printed.0.len() > BLOCK - ANSWER_MOST {
            return self.flush();
        }
        Ok(())
    }

    fn list(&mut self) -> Result<()> {
        self.make_room()?;
        self.printed.name_count(self.manager.names.len());
        let Console { manager, printed, output, .. } = self;
        for (space, id, base) in manager.names.rows() {
            if printed.0.len() > BLOCK - ANSWER_MOST {
                output.write_all(&printed.0)?;
                printed.0.clear();
            }
            printed.named(space, id, base);
        }
        Ok(())
    }

    fn answer(&mut self, line: &[u8]) -> Result<()> {
        self.lines += 1;
        let text = line.strip_suffix(b"\r").unwrap_or(line);
        if text.len() <= TEXT_MOST && (text.is_empty() || text[0] == b'#') {
            return Ok(());
        }
        if text == b"dir" {
            return self.list();
        }
        self.make_room()?;
        let reply = if text.len() > TEXT_MOST { None } else { asking::reply_to(&mut self.manager, text) };
        match reply {
            Some(reply) => self.printed.reply(reply),
            None => self.printed.bad_line(self.lines),
        }
        Ok(())
    }

    /// More of the line that is held, of which no more is kept than tells that it is too long.
    fn hold(&mut self, part: &[u8]) {
        let room = (TEXT_MOST + 2).saturating_sub(self.held.len());
        self.held.extend_from_slice(&part[..part.len().min(room)]);
    }

    fn answer_held(&mut self) -> Result<()> {
        let mut held = std::mem::take(&mut self.held);
        self.answer(&held)?;
        held.clear();
        self.held = held;
        Ok(())
    }

    fn take(&mut self, block: &[u8]) -> Result<()> {
        let mut rest = block;
        while let Some(at) = memchr(rest) {
            let line = &rest[..at];
            rest = &rest[at + 1..];
            if self.held.is_empty() {
                self.answer(line)?;
            } else {
                self.hold(line);
                self.answer_held()?;
            }
        }
        self.hold(rest);
        self.flush()
    }

    fn finish(&mut self) -> Result<()> {
        if !self.held.is_empty() {
            self.answer_held()?;
        }
        self.flush()
    }
}

/// The place of the first line feed, looked for eight bytes at a time.
#[inline(always)]
fn memchr(text: &[u8]) -> Option<usize> {
    const ONES: u64 = 0x0101_0101_0101_0101;
    const FEEDS: u64 = ONES * b'\n' as u64;
    let mut at = 0;
    while let Some(bytes) = text.get(at..at + 8) {
        let apart = u64::from_le_bytes(bytes.try_into().unwrap()) ^ FEEDS;
        let zeros = apart.wrapping_sub(ONES) & !apart & (ONES << 7);
        if zeros != 0 {
            return Some(at + zeros.trailing_zeros() as usize / 8);
        }
        at += 8;
    }
    text[at..].iter().position(|byte| *byte == b'\n').map(|place| at + place)
}

fn limits_of(mut args: impl Iterator<Item = String>) -> Limits {
    let mut limits = Limits::DEFAULT;
    while let (Some(option), Some(value)) = (args.next(), args.next()) {
        let limit = match option.as_str() {
            "--slots" => &mut limits.slots,
            "--processes" => &mut limits.processes,
            "--threads" => &mut limits.threads,
            "--handles" => &mut limits.handles,
            "--waits" => &mut limits.waits,
            "--max-gen" => &mut limits.max_gen,
            "--max-recursion" => &mut limits.max_recursion,
            _ => panic!("no such option: {option}"),
        };
        *limit = value.parse().expect("a number");
    }
    limits
}

fn main() -> Result<()> {
    let mut console = Console::new(limits_of(std::env::args().skip(1)));
    let mut input = std::io::stdin().lock();
    let mut block = vec![0; BLOCK];
    loop {
        match input.read(&mut block) {
            Ok(0) => return console.finish(),
            Ok(count) => console.take(&block[..count])?,
            Err(error) if error.kind() == ErrorKind::Interrupted => {}
            Err(error) => return Err(error),
        }
    }
}
