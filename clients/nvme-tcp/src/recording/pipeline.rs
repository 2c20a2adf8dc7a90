//! Writes files by threads of their own, in order, while the target's thread continues. A thread can prepare one batch
//! while another thread writes. Each batch has a number, and callers can wait until the system has all batches up to
//! it.

use std::collections::{BTreeMap, VecDeque};
use std::io;
use std::mem;
use std::sync::atomic::{AtomicU64, Ordering};
use std::sync::{Arc, Condvar, Mutex, MutexGuard, PoisonError};
use std::thread::{self, JoinHandle};
use std::time::Duration;

/// The most batches that are begun and not written.
const MOST: u64 = 8;
/// A smaller batch is written at once if no other is in progress: that is faster than to wake a thread.
const SMALL: usize = 16 << 10;
/// Number of polls at the end for unwritten batches, and the delay between them.
const LOOKS: usize = 100;
const PAUSE: Duration = Duration::from_millis(10);
/// Replaces the number of written batches after a failed write.
const FAILED: u64 = u64::MAX;

/// A batch in flight to files of this type. One thread writes at a time.
pub trait Piece<Files>: Default + Send + 'static {
    /// What is made of it before it is written. It is kept, and what was made before is written over.
    type Made: Default + Send;

    /// How many bytes there are.
    fn size(&self) -> usize;

    /// Makes of it what is written, while others are written.
    fn make(&self, made: &mut Self::Made);

    /// Writes the beginning of a batch, up to a place at which writes are fast.
    fn write_first(&self, _made: &Self::Made, _files: &mut Files) -> io::Result<()> {
        Ok(())
    }

    /// Writes the rest of a batch. If the next batch is prepared by then, part of it may be written too.
    fn write(&mut self, made: &Self::Made, next: Option<&Self::Made>, files: &mut Files) -> io::Result<()>;
}

/// The batches that no thread has taken yet, by their numbers, and whether these are the last.
struct Given<P> {
    pieces: VecDeque<(u64, P)>,
    /// How many threads wait for one.
    idle: usize,
    is_over: bool,
}

/// The prepared batches, and whether one is being written.
struct Turn<P: Piece<F>, F> {
    /// By number.
    made: BTreeMap<u64, (P, P::Made)>,
    /// Number of batches that were taken to be written.
    taken: u64,
    /// Number of batches written.
    written: u64,
    /// The number of written batches for which the target's thread waits.
    awaited: Option<u64>,
    /// Whether a thread writes. It writes the next ones too, if they were made by then.
    is_writing: bool,
    has_failed: bool,
    /// Why a batch could not be written, until the target takes it.
    failure: Option<io::Error>,
    /// Memory of what was written.
    spare: Vec<P>,
    spare_made: Vec<P::Made>,
}

impl<P: Piece<F>, F> Turn<P, F> {
    fn new() -> Self {
        Turn {
            made: BTreeMap::new(),
            taken: 0,
            written: 0,
            awaited: None,
            is_writing: false,
            has_failed: false,
            failure: None,
            spare: Vec::new(),
            spare_made: Vec::new(),
        }
    }

    /// The next batch in order, if it is prepared.
    fn next(&mut self) -> Option<(P, P::Made)> {
        let next = self.made.remove(&self.taken);
        self.taken += u64::from(next.is_some());
        next
    }

    /// Whether to wake the target's thread, which waits for `count` batches.
    fn has(&self, count: u64) -> bool {
        self.has_failed || self.written >= count
    }
}

/// The batches in progress, and the files.
struct Shared<P: Piece<F>, F> {
    given: Mutex<Given<P>>,
    has_more: Condvar,
    turn: Mutex<Turn<P, F>>,
    /// Signals that the batches for which the target's thread waits are written.
    has_awaited: Condvar,
    /// Number of batches written, or `FAILED`: read by the target's thread without a lock.
    written: AtomicU64,
    files: Mutex<F>,
}

impl<P: Piece<F>, F> Shared<P, F> {
    fn given(&self) -> MutexGuard<'_, Given<P>> {
        self.given.lock().unwrap_or_else(PoisonError::into_inner)
    }

    /// Passes a batch to the threads, and wakes one if any waits: that is a system call.
    fn give(&self, number: u64, piece: P) {
        let mut given = self.given();
        given.pieces.push_back((number, piece));
        let wakes = given.idle != 0;
        drop(given);
        if wakes {
            self.has_more.notify_one();
        }
    }

    /// Ends the threads when all batches are taken.
    fn end(&self) {
        self.given().is_over = true;
        self.has_more.notify_all();
    }

    /// The next batch and its number; `None` when the target ends.
    fn next(&self) -> Option<(u64, P)> {
        let mut given = self.given();
        while given.pieces.is_empty() && !given.is_over {
            given.idle += 1;
            given = self.has_more.wait(given).unwrap_or_else(PoisonError::into_inner);
            given.idle -= 1;
        }
        given.pieces.pop_front()
    }

    fn turn(&self) -> MutexGuard<'_, Turn<P, F>> {
        self.turn.lock().unwrap_or_else(PoisonError::into_inner)
    }

    fn files(&self) -> MutexGuard<'_, F> {
        self.files.lock().unwrap_or_else(PoisonError::into_inner)
    }

    /// Takes batches, prepares them and writes them, until the target ends.
    fn serve(&self) {
        while let Some((number, piece)) = self.next() {
            let mut made = self.turn().spare_made.pop().unwrap_or_default();
            piece.make(&mut made);
            let mut turn = self.turn();
            turn.made.insert(number, (piece, made));
            if !turn.is_writing {
                self.write(turn);
            }
        }
    }

    /// Writes the batches that are next in order, and those that are prepared meanwhile. So a thread that prepares
    /// batches never waits for one that writes, and the one that writes continues without being woken.
    fn write<'w>(&'w self, mut turn: MutexGuard<'w, Turn<P, F>>) {
        turn.is_writing = true;
        let mut next = turn.next();
        while let Some((mut piece, made)) = next {
            // After a failed write nothing is written.
            let has_failed = turn.has_failed;
            drop(turn);
            let mut result = if has_failed {
                Err(io::ErrorKind::BrokenPipe.into())
            } else {
                piece.write_first(&made, &mut self.files())
            };
            next = self.turn().next();
            if result.is_ok() {
                result = piece.write(&made, next.as_ref().map(|(_, made)| made), &mut self.files());
            }
            turn = self.turn();
            self.tell(&mut turn, result);
            turn.spare.push(piece);
            turn.spare_made.push(made);
            next = next.or_else(|| turn.next());
        }
        turn.is_writing = false;
    }

    /// A batch was written, or could not be.
    fn tell(&self, turn: &mut Turn<P, F>, result: io::Result<()>) {
        match result {
            Ok(()) => {
                turn.written += 1;
                self.written.store(turn.written, Ordering::Release);
            }
            Err(error) => {
                if !mem::replace(&mut turn.has_failed, true) {
                    turn.failure = Some(error);
                }
                self.written.store(FAILED, Ordering::Release);
            }
        }
        if turn.awaited.map_or(false, |count| turn.has(count)) {
            turn.awaited = None;
            self.has_awaited.notify_one();
        }
    }
}

/// Files and the batches in flight to them.
pub struct Pipeline<P: Piece<F>, F: Send + 'static> {
    shared: Arc<Shared<P, F>>,
    threads: Vec<JoinHandle<()>>,
    made: P::Made,
    /// Number of batches begun.
    begun: u64,
}

impl<P: Piece<F>, F: Send + 'static> Pipeline<P, F> {
    /// Starts `threads` threads with this name that write the files.
    pub fn new(name: &str, threads: usize, files: F) -> io::Result<Self> {
        let given = Mutex::new(Given { pieces: VecDeque::new(), idle: 0, is_over: false });
        let (turn, files, written) = (Mutex::new(Turn::new()), Mutex::new(files), AtomicU64::new(0));
        let (has_more, has_awaited) = (Condvar::new(), Condvar::new());
        let shared = Arc::new(Shared { given, has_more, turn, has_awaited, written, files });
        let begun = (0..threads).map(|_| {
            let shared = Arc::clone(&shared);
            thread::Builder::new().name(name.to_owned()).spawn(move || shared.serve())
        });
        let threads = begun.collect::<io::Result<Vec<_>>>()?;
        Ok(Pipeline { shared, threads, made: P::Made::default(), begun: 0 })
    }

    /// Calls a function with the files, after the batch that is being written.
    pub fn with_files<R>(&self, act: impl FnOnce(&mut F) -> R) -> R {
        act(&mut self.shared.files())
    }

    /// Writes a batch after all others and empties it: now, or a little later. It is written once the number of written
    /// batches is `begun()`. With `is_awaited` the caller waits for it next.
    pub fn begin(&mut self, piece: &mut P, is_awaited: bool) -> io::Result<()> {
        if (is_awaited || piece.size() < SMALL) && self.under_way()? == 0 {
            piece.make(&mut self.made);
            return piece.write(&self.made, None, &mut self.shared.files());
        }
        self.send(piece)
    }

    /// Passes a batch to a thread and empties it.
    pub fn send(&mut self, piece: &mut P) -> io::Result<()> {
        if self.under_way()? == MOST {
            self.wait_for(self.begun - MOST + 1)?;
        }
        let empty = self.shared.turn().spare.pop().unwrap_or_default();
        self.shared.give(self.begun, mem::replace(piece, empty));
        self.begun += 1;
        Ok(())
    }

    /// Number of batches begun.
    pub fn begun(&self) -> u64 {
        self.begun
    }

    /// How many of them the system has.
    pub fn done(&self) -> io::Result<u64> {
        match self.shared.written.load(Ordering::Acquire) {
            FAILED => Err(self.shared.turn().failure.take().unwrap_or_else(|| io::ErrorKind::BrokenPipe.into())),
            count => Ok(count),
        }
    }

    /// How many of them it has not.
    fn under_way(&self) -> io::Result<u64> {
        Ok(self.begun - self.done()?)
    }

    /// Waits until `count` batches are written.
    pub fn wait_for(&self, count: u64) -> io::Result<()> {
        if self.done()? < count {
            let mut turn = self.shared.turn();
            turn.awaited = Some(count);
            drop(self.shared.has_awaited.wait_while(turn, |turn| !turn.has(count)));
        }
        self.done().map(|_| ())
    }
}

impl<P: Piece<F>, F: Send + 'static> Drop for Pipeline<P, F> {
    /// Closes the files, unless batches in progress take longer than a second.
    fn drop(&mut self) {
        let mut looks = 0..LOOKS;
        while self.under_way().map_or(false, |count| count != 0) {
            if looks.next().is_none() {
                return;
            }
            thread::sleep(PAUSE);
        }
        self.shared.end();
        self.threads.drain(..).for_each(|it| drop(it.join()));
    }
}

#[cfg(test)]
mod tests {
    use super::*;
    use std::fs::{self, File};
    use std::io::Write;

    impl Piece<File> for Vec<u8> {
        type Made = Vec<u8>;

        fn size(&self) -> usize {
            self.len()
        }

        fn make(&self, made: &mut Vec<u8>) {
            made.clear();
            made.extend(self.iter().map(|byte| !byte));
        }

        fn write(&mut self, made: &Vec<u8>, _: Option<&Vec<u8>>, file: &mut File) -> io::Result<()> {
            file.write_all(made)?;
            self.clear();
            Ok(())
        }
    }

    #[test]
    fn pieces_are_written_in_their_order() {
        let path = std::env::temp_dir().join(format!("nvmetcp-pipeline-{}", std::process::id()));
        for threads in 1..4 {
            let mut pipeline = Pipeline::<Vec<u8>, File>::new("test", threads, File::create(&path).unwrap()).unwrap();
            let (mut wanted, mut piece) = (Vec::new(), Vec::new());
            for number in 0..200_u8 {
                let size = if number % 3 == 0 { 10 } else { SMALL << (number % 4) };
                piece.resize(size, number);
                wanted.resize(wanted.len() + size, !number);
                pipeline.begin(&mut piece, number % 7 == 0).unwrap();
                assert!(piece.is_empty() && pipeline.under_way().unwrap() <= MOST);
            }
            pipeline.wait_for(pipeline.begun()).unwrap();
            assert_eq!(pipeline.under_way().unwrap(), 0);
            assert!(fs::read(&path).unwrap() == wanted);
        }
        fs::remove_file(path).unwrap();
    }

    /// Appends a byte. A 7 can't be written.
    #[derive(Default)]
    struct Byte(u8);

    type Bytes = Arc<Mutex<Vec<u8>>>;

    impl Piece<Bytes> for Byte {
        type Made = ();

        fn size(&self) -> usize {
            1
        }

        fn make(&self, (): &mut ()) {
            thread::sleep(PAUSE / 5);
        }

        fn write(&mut self, (): &(), _: Option<&()>, files: &mut Bytes) -> io::Result<()> {
            if self.0 == 7 {
                return Err(io::ErrorKind::Other.into());
            }
            files.lock().unwrap().push(self.0);
            Ok(())
        }
    }

    #[test]
    fn nothing_is_written_after_a_failure() {
        let files = Bytes::default();
        let mut pipeline = Pipeline::<Byte, Bytes>::new("test", 2, Arc::clone(&files)).unwrap();
        (5..9).for_each(|it| pipeline.send(&mut Byte(it)).unwrap());
        assert!(pipeline.wait_for(4).is_err());
        drop(pipeline);
        assert_eq!(*files.lock().unwrap(), [5, 6]);
    }

    /// Numbers that show how they are written: the first of a batch alone, then it with the next ones.
    #[derive(Default)]
    struct Number(u64);

    type Calls = Vec<(u64, Option<Option<u64>>)>;

    impl Piece<Calls> for Number {
        type Made = u64;

        fn size(&self) -> usize {
            SMALL
        }

        fn make(&self, made: &mut u64) {
            *made = self.0;
        }

        fn write_first(&self, made: &u64, files: &mut Calls) -> io::Result<()> {
            files.push((*made, None));
            thread::sleep(PAUSE / 5);
            Ok(())
        }

        fn write(&mut self, made: &u64, next: Option<&u64>, files: &mut Calls) -> io::Result<()> {
            files.push((*made, Some(next.copied())));
            Ok(())
        }
    }

    #[test]
    fn a_piece_is_written_before_the_next() {
        let mut pipeline = Pipeline::<Number, Calls>::new("test", 2, Vec::new()).unwrap();
        (0..30).for_each(|it| pipeline.begin(&mut Number(it), false).unwrap());
        for count in [7, 30, 3] {
            pipeline.wait_for(count).unwrap();
            assert!(pipeline.with_files(|files| files.len()) as u64 >= 2 * count);
        }
        let told = pipeline.with_files(mem::take);
        for (number, calls) in (0..30).zip(told.chunks(2)) {
            let next = calls[1].1.unwrap();
            assert!(calls[0] == (number, None) && calls[1].0 == number && next.unwrap_or(number + 1) == number + 1);
        }
        assert!(told.iter().any(|(_, next)| next.flatten().is_some()) && told[59] == (29, Some(None)));
    }

    #[test]
    fn files_are_closed_at_the_end() {
        for pieces in 0..10 {
            let files = Bytes::default();
            let mut pipeline = Pipeline::<Byte, Bytes>::new("test", 2, Arc::clone(&files)).unwrap();
            (0..pieces).for_each(|_| pipeline.send(&mut Byte(0)).unwrap());
            drop(pipeline);
            assert_eq!(Arc::strong_count(&files), 1);
        }
    }

    #[test]
    fn a_failure_is_reported() {
        let mut pipeline = Pipeline::<Vec<u8>, File>::new("test", 2, File::open("/dev/null").unwrap()).unwrap();
        for size in [SMALL, 1] {
            assert!(pipeline.begin(&mut vec![1; size], false).is_err() || pipeline.wait_for(pipeline.begun()).is_err());
        }
    }
}
