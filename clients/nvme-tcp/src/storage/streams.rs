//! Hosts that read blocks in their order. The next blocks of such a stream are read ahead of its commands.

use super::frames::Extent;
use crate::numbers::narrow;

/// How many streams of a controller are followed: those that it has read from last.
const FOLLOWED: usize = 4;
/// Reads in order after which a stream is read ahead.
const LEAST_READS: u32 = 2;
/// The blocks that are read ahead of a stream: at first, and at most. They double until then. A stream has at most this
/// part of the cache.
const LEAST_AHEAD: u32 = 256;
const MOST_AHEAD: u32 = 2048;
const PART: u32 = 16;

/// Reads of which each begins at the block after the last one.
#[derive(Clone, Copy, Default)]
struct Stream {
    /// The block after its last read, and the one after the last that was read ahead.
    next: u64,
    end: u64,
    reads: u32,
    /// How many blocks are read ahead.
    ahead: u32,
}

impl Stream {
    fn begun(next: u64) -> Stream {
        Stream { next, end: next, reads: 1, ahead: LEAST_AHEAD }
    }

    /// Takes the next read of it: the blocks to read ahead now. Less than half of the blocks ahead are left then.
    fn take(&mut self, extent: Extent, most: u32) -> Option<Extent> {
        self.next = extent.end();
        self.end = self.end.max(self.next);
        self.reads = self.reads.saturating_add(1);
        let ahead = self.ahead.min(most);
        if self.reads <= LEAST_READS || self.end - self.next > u64::from(ahead / 2) {
            return None;
        }
        let blocks = self.next + u64::from(ahead) - self.end;
        self.ahead = most.min(2 * ahead);
        Some(Extent { first: self.end, blocks: narrow(blocks) })
    }
}

/// The streams of each controller, the one that was read from last first.
pub struct Streams {
    controllers: Vec<[Stream; FOLLOWED]>,
    /// The most blocks that are read ahead of one.
    most: u32,
}

impl Streams {
    /// Those over a cache of this many blocks.
    pub fn new(cached: usize) -> Streams {
        let most = u32::try_from(cached).map_or(MOST_AHEAD, |it| MOST_AHEAD.min(it / PART));
        Streams { controllers: Vec::new(), most }
    }

    /// A controller reads blocks: those to read ahead of it now.
    pub fn follow(&mut self, index: usize, extent: Extent) -> Option<Extent> {
        self.controllers.resize(self.controllers.len().max(index + 1), <[Stream; FOLLOWED]>::default());
        let streams = &mut self.controllers[index];
        if let Some(at) = streams.iter().position(|it| it.reads != 0 && it.next == extent.first) {
            streams[..=at].rotate_right(1);
            streams[0].take(extent, self.most)
        } else {
            streams.rotate_right(1);
            streams[0] = Stream::begun(extent.end());
            None
        }
    }

    /// What a controller has read last is read ahead up to a block now.
    pub fn stop(&mut self, index: usize, end: u64) {
        self.controllers[index][0].end = end;
    }
}

#[cfg(test)]
mod tests {
    use super::*;

    #[test]
    fn streams_are_read_ahead() {
        let mut streams = Streams::new(1 << 20);
        // Two streams of one controller, reads of another one, and reads at other places in between.
        let mut ends = [0, 1 << 20];
        for turn in 0..2000 {
            for (stream, begin) in [0, 1 << 20].into_iter().enumerate() {
                let first = begin + 8 * turn;
                if let Some(ahead) = streams.follow(0, Extent { first, blocks: 8 }) {
                    assert_eq!(ahead.first, ends[stream].max(first + 8), "nothing is read twice or left out");
                    assert!(turn >= 2 && ahead.end() <= first + 8 + u64::from(MOST_AHEAD));
                    ends[stream] = ahead.end();
                    streams.stop(0, ahead.end());
                }
                assert!(turn < 2 || ends[stream] >= first + 8 + u64::from(LEAST_AHEAD / 2));
            }
            assert_eq!(streams.follow(1, Extent { first: 8 * turn * 7919 % 65_536, blocks: 8 }), None);
            assert_eq!(streams.follow(0, Extent { first: (1 << 30) + 8 * (turn * 7919 % 65_536), blocks: 8 }), None);
        }
    }
}
