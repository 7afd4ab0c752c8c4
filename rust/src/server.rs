//! Speaks with server.c: a batch of cases there, every slice and its guards back.

use crate::answer::After;
use crate::call::{Call, Case};
use std::io::{Error, ErrorKind, Read, Result, Write};
use std::process::{Child, ChildStdin, ChildStdout, Command, Stdio};

/// As many guard bytes stand before and after each slice.
const GUARD: usize = 16;

pub struct Server {
    child: Child,
    to: ChildStdin,
    from: ChildStdout,
}

impl Server {
    pub fn start(command: &[String]) -> Result<Server> {
        let (program, words) = command
            .split_first()
            .ok_or_else(|| Error::new(ErrorKind::InvalidInput, "no server command"))?;
        let mut child = Command::new(program)
            .args(words)
            .stdin(Stdio::piped())
            .stdout(Stdio::piped())
            .spawn()?;
        let pipes = child.stdin.take().zip(child.stdout.take());
        let (to, from) = pipes.ok_or_else(|| Error::other("the server has no pipes"))?;
        Ok(Server { child, to, from })
    }

    /// The server reads a batch to its end before it writes, so sending never waits for a reply.
    pub fn send(&mut self, cases: &[Case]) -> Result<()> {
        let mut batch = vec![0; 4];
        for case in cases {
            let (function, x, y) = request(case.call);
            batch.extend([function, case.guard]);
            batch.extend(x.to_le_bytes());
            batch.extend(y.to_le_bytes());
            for slice in &case.slices {
                batch.extend((slice.len() as u32).to_le_bytes());
                batch.extend(slice);
            }
        }
        let length = (batch.len() - 4) as u32;
        batch[..4].copy_from_slice(&length.to_le_bytes());
        self.to.write_all(&batch)?;
        self.to.flush()
    }

    /// For each case sent what the call returned, and each slice with its guards.
    pub fn receive(&mut self, cases: &[Case]) -> Result<Vec<After>> {
        let mut length = [0; 4];
        self.from.read_exact(&mut length)?;
        let mut batch = vec![0; u32::from_le_bytes(length) as usize];
        self.from.read_exact(&mut batch)?;
        let mut rest = batch.as_slice();
        let mut take = |length: usize| {
            let (taken, after) = rest
                .split_at_checked(length)
                .ok_or_else(|| Error::other("a reply is too short"))?;
            rest = after;
            Ok(taken.to_vec())
        };
        let mut after = |case: &Case| {
            let returned = take(1)? == [1];
            let slices = case
                .slices
                .iter()
                .map(|slice| take(slice.len() + 2 * GUARD));
            Ok(After {
                returned,
                slices: slices.collect::<Result<_>>()?,
            })
        };
        cases.iter().map(&mut after).collect()
    }

    /// Ends the server by ending its input.
    pub fn stop(self) -> Result<bool> {
        let Server { mut child, to, .. } = self;
        drop(to);
        Ok(child.wait()?.success())
    }
}

/// A slice between its guards, as the server sends it back.
pub fn guarded(slice: &[u8], guard: u8) -> Vec<u8> {
    let guards = [guard; GUARD];
    [&guards, slice, &guards].concat()
}

/// The slice without its guards.
pub fn inside(guarded: &[u8]) -> &[u8] {
    &guarded[GUARD..guarded.len() - GUARD]
}

/// The function's number and its two numbers x and y, as server.c has them.
fn request(call: Call) -> (u8, u64, u64) {
    match call {
        Call::Check => (0, 0, 0),
        Call::ConditionHas { condition, setting } => (1, condition, setting),
        Call::Configure { setting } => (2, setting, 0),
        Call::PlainRun { budget } => (3, u64::from(budget), 0),
        Call::SharedRun { set, budget } => (4, set, u64::from(budget)),
        Call::Meet(a, b) => (5, a, b),
        Call::Join(a, b) => (6, a, b),
        Call::TakeAway(a, b) => (7, a, b),
        Call::Has(a, s) => (8, a, s),
        Call::Count(a) => (9, a, 0),
        Call::Full(f) => (10, u64::from(f), 0),
        Call::FullRefusal(f) => (11, u64::from(f), 0),
        Call::Option(full, k) => (12, full, u64::from(k)),
        Call::Report => (13, 0, 0),
        Call::Read => (14, 0, 0),
        Call::List => (15, 0, 0),
        Call::OneHall { setting, budget } => (16, setting, u64::from(budget)),
    }
}
