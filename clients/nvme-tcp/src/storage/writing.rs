//! Writes and zeroes: blocks that commands have changed go from the cache to the disk. A frame has one write in progress
//! at a time, and what overlaps zeroes waits for them, so newer bytes come to the disk after older ones.

use super::frames::{runs, Extent, FRAME_BYTES};
use super::jobs::{Done, Job, Writing};
use super::Storage;
use crate::fault::Outcome;
use crate::numbers::{index, to_usize};
use crate::nvme::BLOCK;
use nvmesim::Need;
use std::mem;

/// The most bytes of one write.
pub(super) const MOST_WRITTEN: usize = 1 << 20;
/// The most bytes of writes that are in progress.
const MOST_IN_PROGRESS: usize = 8 << 20;
/// A write of at most this many bytes is made at once, if the system takes it into its memory and there is one host.
const SMALL: usize = 16 << 10;
/// How many writes leave their memory to later ones.
const MOST_SPARE: usize = 8;
/// A frame keeps the memory of a list of at most this many tickets.
const MOST_KEPT: usize = 16;

/// Zeroes that are in progress, or wait for writes and other zeroes.
pub struct Zeroing {
    pub(super) extent: Extent,
    changed_by: u64,
    tickets: Vec<u64>,
    is_running: bool,
}

impl Storage {
    pub(super) fn take_written(&mut self, extent: Extent, at_hand: u64, ticket: u64) {
        let mut begin = 0;
        for part in extent.front(at_hand).parts() {
            let place = self.frame(part.number);
            if self.is_in_room {
                let bytes = begin..begin + part.range().len();
                begin = bytes.end;
                self.cache.put(place, part, &self.room[bytes]);
            } else {
                self.cache.make_valid(place, part);
            }
            let is_queued = self.cache.change(place, |frame| {
                frame.dirty |= part.mask();
                frame.changed_by = ticket;
                frame.tickets.push(ticket);
                mem::replace(&mut frame.is_queued, true)
            });
            self.ledger.add(ticket);
            if !is_queued {
                self.queued.push(place);
            }
        }
    }

    /// Zeros replace blocks in the cache, and on the disk later. Blocks that were to be written are zeros instead. Whole
    /// frames leave the cache if they can: that takes less time, and one that comes back has zeros.
    pub(super) fn take_zeros(&mut self, extent: Extent, ticket: u64) {
        // A long room, which a command had that was held, is not kept.
        if self.room.len() > MOST_WRITTEN {
            self.room = Vec::new();
        }
        let mut tickets = Vec::new();
        for part in extent.parts() {
            if self.cache.drop_whole(part) {
                continue;
            }
            if let Some(place) = self.cache.find(part.number) {
                // A thread has the bytes of blocks on the way: these are zeroed when they have come.
                let coming = self.cache.at(place).coming & part.mask();
                runs(part.number, part.mask() & !coming).for_each(|run| self.cache.zero(place, run));
                self.cache.change(place, |frame| {
                    frame.zeroed |= coming;
                    frame.dirty &= !part.mask();
                    if frame.dirty == 0 {
                        tickets.append(&mut frame.tickets);
                    }
                });
            }
        }
        let is_before =
            |it: &&mut Zeroing| !it.is_running && it.changed_by == ticket && it.extent.end() == extent.first;
        if let Some(before) = self.zeroing.iter_mut().find(is_before) {
            // The disk zeroes adjacent pieces of a command together.
            before.extent.blocks += extent.blocks;
            before.tickets.append(&mut tickets);
        } else {
            self.ledger.add(ticket);
            tickets.push(ticket);
            self.zeroing.push(Zeroing { extent, changed_by: ticket, tickets, is_running: false });
        }
    }

    /// Begins to write the frames that are queued. The system takes bytes of a file into its memory for one thread at a
    /// time. So there the next batch begins when the last one has ended: those that wait for it go together.
    pub(super) fn begin_writes(&mut self, is_alone: bool) -> Outcome<()> {
        let is_cached = self.disk.is_cached();
        if is_cached && self.bytes_written != 0 {
            return Ok(());
        }
        let mut queued = mem::take(&mut self.queued);
        queued.sort_unstable_by_key(|place| self.cache.at(*place).number);
        let mut group = Vec::new();
        for place in queued {
            // The rest waits until some of these end.
            if self.bytes_written + group.len() * FRAME_BYTES >= MOST_IN_PROGRESS {
                self.queued.push(place);
                continue;
            }
            if !self.barriers.has_passed(self.cache.at(place).changed_by) {
                self.held.push(place);
                continue;
            }
            if !self.may_write(place) {
                continue;
            }
            let number = self.cache.at(place).number;
            // A device is kept busy.
            let is_next = group.last().map_or(true, |last| self.cache.at(*last).number + 1 == number);
            if !is_next && !is_cached || (group.len() + 1) * FRAME_BYTES > MOST_WRITTEN {
                self.write(&mem::take(&mut group), is_alone)?;
            }
            group.push(place);
        }
        if !group.is_empty() {
            self.write(&group, is_alone)?;
        }
        Ok(())
    }

    /// Takes a frame out of the queue; whether it may be written now. If not, it is queued again when the work that it
    /// waits for has ended.
    fn may_write(&mut self, place: usize) -> bool {
        let (number, may) = self.cache.change(place, |frame| {
            frame.is_queued = false;
            (frame.number, frame.dirty != 0 && frame.writing == 0)
        });
        may && !self.zeroing.iter().any(|it| it.extent.frames().contains(&number))
    }

    /// Writes the dirty blocks of frames one after the other.
    fn write(&mut self, places: &[usize], is_alone: bool) -> Outcome<()> {
        let blocks: u32 = places.iter().map(|place| self.cache.at(*place).dirty.count_ones()).sum();
        let mut writing = self.spare.pop().unwrap_or_else(Writing::new);
        writing.begin(index(blocks) * to_usize(BLOCK));
        for place in places {
            let frame = self.cache.at(*place);
            runs(frame.number, frame.dirty).for_each(|part| writing.put(part, self.cache.bytes(*place, part)));
            let number = self.cache.change(*place, |frame| {
                frame.writing = mem::take(&mut frame.dirty);
                // Only one write at a time is in progress, so this list is empty.
                mem::swap(&mut frame.written, &mut frame.tickets);
                frame.number
            });
            self.writing.push(number);
        }
        writing.frames.extend_from_slice(places);
        if is_alone && writing.length <= SMALL && self.disk.is_cached() {
            let result = writing.write(&*self.disk);
            self.bytes_written += writing.length;
            return self.finish(Done { job: Job::Write(writing), result });
        }
        self.bytes_written += writing.length;
        self.workers.begin(Job::Write(writing));
        Ok(())
    }

    pub(super) fn begin_zeros(&mut self) {
        for at in 0..self.zeroing.len() {
            let extent = self.zeroing[at].extent;
            let is_held = self.zeroing[at].is_running
                || self.in_pieces == Some(self.zeroing[at].changed_by)
                || !self.barriers.has_passed(self.zeroing[at].changed_by)
                || self.zeroing[..at].iter().any(|it| it.extent.meets(extent))
                || self.writing.iter().any(|number| extent.frames().contains(number));
            if !is_held {
                self.zeroing[at].is_running = true;
                self.workers.begin(Job::Zero(extent));
            }
        }
    }

    pub(super) fn finish_write(&mut self, writing: Writing, has_succeeded: bool) {
        self.bytes_written -= writing.length;
        self.writing.retain(|number| !writing.has(*number));
        if self.options.writes_through {
            let next = self.syncs.next();
            self.unsynced.extend(writing.runs.iter().map(|it| (next, *it)));
        }
        for place in &writing.frames {
            let (is_queued, mut tickets) = self.cache.change(*place, |frame| {
                frame.writing = 0;
                let is_queued = frame.dirty == 0 || mem::replace(&mut frame.is_queued, true);
                (is_queued, mem::take(&mut frame.written))
            });
            if !is_queued {
                self.queued.push(*place);
            }
            if has_succeeded {
                self.end(&tickets);
            }
            if tickets.capacity() <= MOST_KEPT {
                tickets.clear();
                self.cache.change(*place, |frame| frame.written = tickets);
            }
        }
        if self.spare.len() < MOST_SPARE {
            self.spare.push(writing);
        }
    }

    pub(super) fn finish_zeros(&mut self, extent: Extent, has_succeeded: bool) {
        let zeroing = mem::take(&mut self.zeroing).into_iter();
        let (ended, others): (Vec<_>, Vec<_>) = zeroing.partition(|it| it.is_running && it.extent == extent);
        self.zeroing = others;
        for number in extent.frames() {
            if let Some(place) = self.cache.find(number) {
                let is_queued = self.cache.change(place, |it| it.dirty == 0 || mem::replace(&mut it.is_queued, true));
                if !is_queued {
                    self.queued.push(place);
                }
            }
        }
        if self.options.writes_through {
            self.unsynced.push((self.syncs.next(), extent));
        }
        if has_succeeded {
            ended.iter().for_each(|it| self.end(&it.tickets));
        }
    }

    /// A command was executed over blocks, and has changed none. If writes of some of them are in progress, its
    /// answer waits until they end: a kill takes back nothing that a host has read. It has a ticket then.
    pub fn follow_writes(&mut self, need: Need, index: usize) -> Option<u64> {
        let extent = match need {
            Need::Read { first, blocks } if self.failure.is_none() => Extent { first, blocks },
            _ => return None,
        };
        let Storage { cache, ledger, zeroing, unsynced, .. } = self;
        let mut ticket = None;
        let mut wait = |list: &mut Vec<u64>| {
            let number = *ticket.get_or_insert_with(|| ledger.open(index));
            ledger.add(number);
            list.push(number);
        };
        for part in extent.parts() {
            let place = match cache.find(part.number) {
                Some(place) if cache.at(place).is_ahead(part) => place,
                _ => continue,
            };
            cache.change(place, |frame| {
                let is_dirty = frame.dirty & part.mask() != 0;
                wait(if is_dirty { &mut frame.tickets } else { &mut frame.written });
            });
        }
        zeroing.iter_mut().filter(|it| it.extent.overlaps(extent)).for_each(|it| wait(&mut it.tickets));
        if ticket.is_none() && unsynced.iter().any(|(_, it)| it.overlaps(extent)) {
            ticket = Some(ledger.open(index));
        }
        ticket
    }
}
