//! Processes and threads start and end.

use super::answers::{Fault, Reply};
use super::bits::Bits;
use super::manager::{Manager, Process};
use super::table::{INHERIT, Table};
use super::waiting::Thread;

impl Manager {
    fn start(&mut self, process: u32) -> u32 {
        let thread = self.waits.threads.len() as u32;
        self.waits.threads.push(Thread::of(process));
        self.objects.owned.push(Vec::new());
        thread
    }

    fn has_numbers(&self) -> bool {
        self.processes.len() as u32 <= self.limits.processes && self.waits.threads.len() as u32 <= self.limits.threads
    }

    pub(crate) fn added(&mut self, session: u32, table: Table<Bits>) -> Result<Reply, Fault> {
        if !self.has_numbers() {
            return Err(Fault::Limit);
        }
        let process = self.processes.len() as u32;
        let thread = self.start(process);
        self.processes.push(Some(Process { session, threads: vec![thread], table }));
        Ok(Reply::Spawned { process, thread })
    }

    pub(crate) fn child_of(&mut self, thread: u32, inherit: bool) -> Result<Reply, Fault> {
        let parent = self.caller(thread)?;
        if !self.has_numbers() {
            return Err(Fault::Limit);
        }
        let parent = self.processes[parent as usize].as_ref().ok_or(Fault::Parameter)?;
        let session = parent.session;
        let table = if inherit { parent.table.with(INHERIT) } else { Table::default() };
        for entry in table.places.iter().flatten() {
            self.objects.object(entry.id.slot).handles += 1;
        }
        self.added(session, table)
    }

    pub(crate) fn started(&mut self, process: u32) -> Result<Reply, Fault> {
        if !self.is_live(process) {
            return Err(Fault::Parameter);
        }
        if self.waits.threads.len() as u32 > self.limits.threads {
            return Err(Fault::Limit);
        }
        let thread = self.start(process);
        self.process(process)?.threads.push(thread);
        Ok(Reply::Started { thread })
    }

    /// A thread's wait is dropped, then its mutexes are abandoned; their slots.
    fn end_one(&mut self, thread: u32) -> Vec<u32> {
        self.waits.end(&mut self.objects, thread);
        self.objects.abandon(thread)
    }

    fn end_process(&mut self, process: u32) {
        let Some(process) = self.processes[process as usize].take() else {
            return;
        };
        for entry in process.table.places.iter().flatten() {
            self.handle_left(entry.id);
        }
    }

    pub(crate) fn ended(&mut self, thread: u32) -> Result<Reply, Fault> {
        let process = self.thread_at(thread)?.process;
        let abandoned = self.end_one(thread);
        let threads = &mut self.process(process)?.threads;
        if let Ok(at) = threads.binary_search(&thread) {
            threads.remove(at);
        }
        if threads.is_empty() {
            self.end_process(process);
        }
        self.waits.settle(&mut self.objects, &abandoned);
        Ok(Reply::Ended { thread })
    }

    pub(crate) fn exited(&mut self, process: u32) -> Result<Reply, Fault> {
        if !self.is_live(process) {
            return Err(Fault::Parameter);
        }
        let threads = std::mem::take(&mut self.process(process)?.threads);
        let mut abandoned = Vec::new();
        for thread in threads {
            abandoned.append(&mut self.end_one(thread));
        }
        self.end_process(process);
        self.waits.settle(&mut self.objects, &abandoned);
        Ok(Reply::Exited { process })
    }
}
