//! Reads: blocks that the cache lacks come from the disk, while the command that needs them waits.

use super::cache::Cache;
use super::frames::{runs, Extent, Frame, Part};
use super::jobs::Reading;
use super::Storage;
use crate::control::log::warn;
use crate::fault::{Fault, Outcome};
use nvmesim::Need;
use std::io;
use std::ops::Range;
use std::time::{Duration, Instant};

/// The least time between two warnings.
const PAUSE: Duration = Duration::from_secs(1);
/// Nothing more is read ahead with this many bytes that are. And the blocks of a read ahead.
const MOST_AHEAD: usize = 2 << 20;
const PIECE: u32 = 256;

impl Storage {
    pub(super) fn prepare_read(&mut self, extent: Extent, id: u64) -> bool {
        if self.cache.has(extent) {
            return true;
        }
        if !self.asked.contains_key(&id) {
            if !self.has_room(id, self.cache.has_room()) {
                return false;
            }
            self.ask(extent, id);
        }
        self.read_missing(extent, false);
        !self.waits_for_reads(extent, id)
    }

    /// Whether some blocks are on the way. Then the command with this number is in `ready` later.
    pub(super) fn waits_for_reads(&mut self, extent: Extent, id: u64) -> bool {
        let Storage { cache, workers, bytes_ahead, .. } = self;
        let is_coming = |frame: &Frame, part: Part| frame.coming & part.mask() != 0;
        let coming = extent.parts().find(|part| cache.of(*part).map_or(false, |frame| is_coming(frame, *part)));
        let place = match coming.and_then(|part| cache.find(part.number)) {
            Some(place) => place,
            None => return false,
        };
        cache.change(place, |frame| frame.waiting.push(id));
        if *bytes_ahead != 0 {
            *bytes_ahead -= workers.hasten(extent);
        }
        true
    }

    /// A controller is going to read blocks. If it reads in their order, the next ones are read too, unless the disk or
    /// the cache has much to do.
    pub fn read_ahead(&mut self, index: usize, need: Need) {
        let next = match need {
            Need::Read { first, blocks } => self.streams.follow(index, Extent { first, blocks }),
            _ => None,
        };
        if let Some(next) = next {
            let mut end = next.first;
            for extent in next.before(self.disk.blocks()).pieces(PIECE) {
                let may = self.failure.is_none() && self.bytes_ahead < MOST_AHEAD && self.cache.is_mostly_free();
                if !may {
                    break;
                }
                end = extent.end();
                self.bytes_ahead += self.read_missing(extent, true);
            }
            self.streams.stop(index, end);
        }
    }

    /// A command needs blocks, whose frames stay in the cache until it is executed.
    fn ask(&mut self, extent: Extent, id: u64) {
        self.asked.insert(id, extent);
        self.bytes_asked += extent.bytes();
        for part in extent.parts() {
            let place = self.frame(part.number);
            self.cache.change(place, |frame| {
                frame.users += 1;
                frame.failed &= !part.mask();
            });
        }
    }

    /// Begins to read the blocks that are neither in the cache nor on the way, nor could be read, by few calls; how many
    /// bytes they are.
    fn read_missing(&mut self, extent: Extent, is_ahead: bool) -> usize {
        let mut bytes = 0;
        let mut last: Option<(Extent, Range<usize>)> = None;
        for part in extent.parts() {
            let place = self.frame(part.number);
            let missing = self.cache.change(place, |frame| {
                let missing = frame.missing(part) & !frame.failed;
                frame.coming |= missing;
                missing
            });
            for run in runs(part.number, missing) {
                let (run, range) = (run.extent(), Cache::range(place, run));
                bytes += range.len();
                match &mut last {
                    Some((before, at)) if before.end() == run.first && self.cache.continues(at, &range) => {
                        before.blocks += run.blocks;
                        at.end = range.end;
                    }
                    _ => self.read(last.replace((run, range)), is_ahead),
                }
            }
        }
        self.read(last, is_ahead);
        bytes
    }

    /// Begins to read blocks, if there are any, into their place in the cache.
    fn read(&mut self, blocks: Option<(Extent, Range<usize>)>, is_ahead: bool) {
        if let Some((extent, range)) = blocks {
            let bytes = self.cache.borrow(range);
            self.workers.read(Reading::new(extent, bytes, is_ahead));
        }
    }

    /// The blocks that were read are in the cache, unless they were zeroed meanwhile.
    pub(super) fn finish_read(&mut self, reading: Reading, result: io::Result<()>) -> Outcome<()> {
        let Reading { extent, bytes, failed, is_ahead } = reading;
        self.bytes_ahead -= if is_ahead { extent.bytes() } else { 0 };
        self.cache.take_back(bytes);
        for part in extent.parts() {
            let (place, failed) = (self.frame(part.number), failed.of(part));
            let zeroed = self.cache.at(place).zeroed & part.mask();
            runs(part.number, zeroed).for_each(|run| self.cache.zero(place, run));
            let Storage { cache, ready, .. } = self;
            cache.change(place, |frame| {
                // If no command needs it yet, it leaves the cache before others.
                frame.is_recent &= !is_ahead || frame.users != 0 || frame.valid != 0;
                frame.coming &= !part.mask();
                frame.zeroed &= !part.mask();
                frame.valid |= part.mask() & !failed;
                frame.failed |= if is_ahead { 0 } else { failed & !zeroed };
                ready.extend(frame.waiting.drain(..));
            });
        }
        match result {
            // A command that needs these blocks reads them again.
            Err(_) if is_ahead => Ok(()),
            Err(error) if self.keeps_run => Err(Fault::Image(error)),
            Err(error) => {
                self.warn_of_read(extent, &error);
                Ok(())
            }
            Ok(()) => Ok(()),
        }
    }

    /// Warns of blocks that can't be read, not more often than once a second.
    fn warn_of_read(&mut self, extent: Extent, error: &io::Error) {
        if self.warned.map_or(true, |it| it.elapsed() >= PAUSE) {
            self.warned = Some(Instant::now());
            let Extent { first, blocks } = extent;
            warn(format_args!("{}: can't read all of {blocks} blocks from block {first} on: {error}", self.name));
        }
    }
}
