//! A disk in memory, whose calls wait at a gate, fail, or take a while.

use super::SIZE;
use crate::nvme::BLOCK;
use crate::storage::jobs::Disk;
use std::collections::HashSet;
use std::io;
use std::sync::{Condvar, Mutex};
use std::thread;
use std::time::Duration;

/// What a call is on: its kind, and its first block.
pub type Call = (char, u64);

/// What calls wait at.
#[derive(Default)]
pub struct Gate {
    is_closed: bool,
    /// How many calls may pass while it is closed.
    passes: usize,
    /// The calls that have come since it was closed, in order.
    came: Vec<Call>,
}

/// A disk in memory.
#[derive(Default)]
pub struct Fake {
    pub bytes: Mutex<Vec<u8>>,
    pub calls: Mutex<Vec<Call>>,
    /// Calls that fail.
    pub refused: Mutex<HashSet<Call>>,
    pub gate: Mutex<Gate>,
    pub gate_changes: Condvar,
    /// Whether calls take a while, some longer than others.
    pub is_slow: bool,
    /// Whether writes go into the system's memory, as those of a file do.
    pub is_cached: bool,
    /// Whether the file was cut.
    pub is_cut: Mutex<bool>,
}

impl Fake {
    pub fn new(blocks: u64) -> Fake {
        let bytes = (0..blocks).flat_map(|it| vec![it as u8; SIZE]).collect();
        Fake { bytes: Mutex::new(bytes), ..Fake::default() }
    }

    fn call(&self, kind: char, place: u64, blocks: u64) -> io::Result<()> {
        let first = place / BLOCK;
        self.wait_at_gate((kind, first));
        let count = {
            let mut calls = self.calls.lock().unwrap();
            calls.push((kind, first));
            calls.len()
        };
        if self.is_slow {
            thread::sleep(Duration::from_micros(count as u64 * 7919 % 300));
        }
        let refused = self.refused.lock().unwrap();
        if (first..first + blocks.max(1)).any(|it| refused.contains(&(kind, it))) {
            return Err(io::ErrorKind::Other.into());
        }
        Ok(())
    }

    fn wait_at_gate(&self, call: Call) {
        let mut gate = self.gate.lock().unwrap();
        gate.came.push(call);
        self.gate_changes.notify_all();
        gate = self.gate_changes.wait_while(gate, |it| it.is_closed && it.passes == 0).unwrap();
        gate.passes = gate.passes.saturating_sub(1);
    }

    pub fn close(&self, is_closed: bool) {
        *self.gate.lock().unwrap() = Gate { is_closed, ..Gate::default() };
        self.gate_changes.notify_all();
    }

    /// Lets one call pass the closed gate.
    pub fn let_one_pass(&self) {
        self.gate.lock().unwrap().passes += 1;
        self.gate_changes.notify_all();
    }

    /// Waits until this many calls have come to the gate since it was closed; the last of them.
    pub fn wait_for_calls(&self, count: usize) -> Option<Call> {
        let gate = self.gate.lock().unwrap();
        self.gate_changes.wait_while(gate, |it| it.came.len() < count).unwrap().came.last().copied()
    }

    pub fn refuse(&self, kind: char, block: u64) {
        self.refused.lock().unwrap().insert((kind, block));
    }
}

impl Disk for Fake {
    fn read(&self, place: u64, room: &mut [u8]) -> io::Result<()> {
        self.call('r', place, room.len() as u64 / BLOCK)?;
        room.copy_from_slice(&self.bytes.lock().unwrap()[place as usize..place as usize + room.len()]);
        Ok(())
    }

    fn check_open(&self) -> io::Result<()> {
        if *self.is_cut.lock().unwrap() {
            return Err(io::ErrorKind::InvalidData.into());
        }
        Ok(())
    }

    fn write(&self, place: u64, bytes: &[u8]) -> io::Result<()> {
        self.call('w', place, bytes.len() as u64 / BLOCK)?;
        self.bytes.lock().unwrap()[place as usize..place as usize + bytes.len()].copy_from_slice(bytes);
        Ok(())
    }

    fn zero(&self, place: u64, count: u64) -> io::Result<()> {
        self.call('z', place, count / BLOCK)?;
        self.bytes.lock().unwrap()[place as usize..(place + count) as usize].fill(0);
        Ok(())
    }

    fn sync(&self) -> io::Result<()> {
        self.call('s', 0, 0)
    }

    fn blocks(&self) -> u64 {
        (self.bytes.lock().unwrap().len() / SIZE) as u64
    }

    fn check(&self) -> io::Result<()> {
        Ok(())
    }

    fn is_cached(&self) -> bool {
        self.is_cached
    }
}
