//! The library in a host program (host/host.c), reached over pipes.

use std::io::{self, Read, Write};
use std::process::{Child, ChildStdin, ChildStdout, Command, Stdio};

use super::frame;
use crate::call::{Answer, Call};
use crate::guarded::Unit;

/// A batch is closed once it has so many bytes; host.c has room for one call more.
const BATCH_BYTES: usize = 1 << 20;

pub struct Host {
    process: Child,
    /// Taken away to let the host end.
    input: Option<ChildStdin>,
    output: ChildStdout,
}

impl Host {
    pub fn start(program: &str) -> io::Result<Host> {
        let pipes = Command::new(program).stdin(Stdio::piped()).stdout(Stdio::piped()).spawn();
        let mut process = pipes?;
        let no_pipe = || io::Error::other("the host has no pipe");
        let output = process.stdout.take().ok_or_else(no_pipe)?;
        let input = Some(process.stdin.take().ok_or_else(no_pipe)?);
        Ok(Host { process, input, output })
    }

    /// Makes the calls, a batch at a time. The host reads a whole batch before it writes one, so
    /// neither waits for the other to read.
    pub fn make<C: Call>(&mut self, calls: &mut [C]) -> io::Result<Vec<Answer>> {
        let mut answers = Vec::with_capacity(calls.len());
        let mut rest = calls;
        while !rest.is_empty() {
            let mut batch = Vec::with_capacity(2 * BATCH_BYTES);
            let fits = rest.iter_mut().position(|call| {
                frame::put(call, &mut batch);
                batch.len() >= BATCH_BYTES
            });
            let (sent, later) = rest.split_at_mut(fits.map_or(rest.len(), |last| last + 1));
            self.exchange(&mut batch).map_err(|why| self.end(why))?;
            let mut bytes = &batch[..];
            answers.extend(sent.iter_mut().map(|call| frame::take(call, &mut bytes)));
            rest = later;
        }
        Ok(answers)
    }

    /// Sends a batch and waits for it to come back.
    fn exchange(&mut self, batch: &mut [u8]) -> io::Result<()> {
        let mut length = Vec::new();
        frame::put_word((batch.len() / u32::BYTES) as u32, &mut length);
        let input = self.input.as_mut().ok_or_else(|| io::Error::other("the host was ended"))?;
        input.write_all(&length)?;
        input.write_all(batch)?;
        self.output.read_exact(batch)
    }

    /// Ends a host that does not answer; says how it ended.
    fn end(&mut self, why: io::Error) -> io::Error {
        self.input = None;
        match self.process.wait() {
            Ok(status) => io::Error::other(format!("the host ended, {status}: {why}")),
            Err(worse) => worse,
        }
    }
}

impl Drop for Host {
    fn drop(&mut self) {
        self.input = None;
        // A host that fails has been noticed where an answer was waited for.
        let _ = self.process.wait();
    }
}
