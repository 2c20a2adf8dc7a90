//! Mutexes, condition variables and channels that switch fibers. An inner mutex of the standard library is never waited
//! for.

use crate::world::{self, with, Key};
use ::std::fmt;
use ::std::ops::{Deref, DerefMut};
pub use ::std::sync::*;

#[derive(Default)]
pub struct Mutex<T: ?Sized>(::std::sync::Mutex<T>);

pub struct MutexGuard<'m, T: ?Sized> {
    mutex: &'m Mutex<T>,
    guard: Option<::std::sync::MutexGuard<'m, T>>,
}

impl<T> Mutex<T> {
    pub const fn new(value: T) -> Mutex<T> {
        Mutex(::std::sync::Mutex::new(value))
    }
}

impl<T: ?Sized> Mutex<T> {
    fn key(&self) -> Key {
        Key::Address(std::ptr::addr_of!(self.0).cast::<u8>() as usize)
    }

    pub fn lock(&self) -> LockResult<MutexGuard<'_, T>> {
        world::may_yield();
        Ok(self.take())
    }

    fn take(&self) -> MutexGuard<'_, T> {
        loop {
            match self.0.try_lock() {
                Ok(guard) => return MutexGuard { mutex: self, guard: Some(guard) },
                Err(TryLockError::Poisoned(it)) => return MutexGuard { mutex: self, guard: Some(it.into_inner()) },
                Err(TryLockError::WouldBlock) => world::wait(self.key(), None),
            };
        }
    }
}

impl<T: ?Sized + fmt::Debug> fmt::Debug for Mutex<T> {
    fn fmt(&self, f: &mut fmt::Formatter<'_>) -> fmt::Result {
        self.0.fmt(f)
    }
}

impl<T: ?Sized> Deref for MutexGuard<'_, T> {
    type Target = T;

    fn deref(&self) -> &T {
        self.guard.as_ref().expect("a guard that is held")
    }
}

impl<T: ?Sized> DerefMut for MutexGuard<'_, T> {
    fn deref_mut(&mut self) -> &mut T {
        self.guard.as_mut().expect("a guard that is held")
    }
}

impl<T: ?Sized> Drop for MutexGuard<'_, T> {
    fn drop(&mut self) {
        if self.guard.take().is_some() {
            with(|it| it.wake_all(self.mutex.key()));
        }
    }
}

/// It is known by its address, so it has a byte.
#[derive(Default)]
pub struct Condvar {
    _byte: u8,
}

impl Condvar {
    pub const fn new() -> Condvar {
        Condvar { _byte: 0 }
    }

    fn key(&self) -> Key {
        Key::Address(self as *const Condvar as usize)
    }

    pub fn wait<'m, T>(&self, guard: MutexGuard<'m, T>) -> LockResult<MutexGuard<'m, T>> {
        let mutex = guard.mutex;
        drop(guard);
        // A condition variable may wake without a reason.
        if with(|it| it.happens("spurious wake", 200)) {
            world::yield_now();
        } else {
            world::wait(self.key(), None);
        }
        Ok(mutex.take())
    }

    pub fn wait_while<'m, T>(
        &self,
        guard: MutexGuard<'m, T>,
        mut condition: impl FnMut(&mut T) -> bool,
    ) -> LockResult<MutexGuard<'m, T>> {
        let mut guard = guard;
        while condition(&mut *guard) {
            guard = self.wait(guard).unwrap_or_else(PoisonError::into_inner);
        }
        Ok(guard)
    }

    pub fn notify_one(&self) {
        with(|it| it.wake_one(self.key()));
        world::may_yield();
    }

    pub fn notify_all(&self) {
        with(|it| it.wake_all(self.key()));
        world::may_yield();
    }
}

pub mod mpsc {
    //! Channels without a limit.

    use crate::world::{self, with, Key};
    use ::std::collections::VecDeque;
    use ::std::sync::atomic::{AtomicUsize, Ordering};
    pub use ::std::sync::mpsc::*;
    use ::std::sync::{Arc, Mutex, MutexGuard, PoisonError};

    struct Way<T> {
        list: Mutex<VecDeque<T>>,
        senders: AtomicUsize,
        receivers: AtomicUsize,
    }

    impl<T> Way<T> {
        fn list(&self) -> MutexGuard<'_, VecDeque<T>> {
            self.list.lock().unwrap_or_else(PoisonError::into_inner)
        }
    }

    fn key<T>(way: &Arc<Way<T>>) -> Key {
        Key::Address(Arc::as_ptr(way) as usize)
    }

    pub struct Sender<T>(Arc<Way<T>>);

    pub struct Receiver<T>(Arc<Way<T>>);

    pub fn channel<T>() -> (Sender<T>, Receiver<T>) {
        let (senders, receivers) = (AtomicUsize::new(1), AtomicUsize::new(1));
        let way = Arc::new(Way { list: Mutex::new(VecDeque::new()), senders, receivers });
        (Sender(Arc::clone(&way)), Receiver(way))
    }

    impl<T> Sender<T> {
        pub fn send(&self, value: T) -> Result<(), SendError<T>> {
            if self.0.receivers.load(Ordering::SeqCst) == 0 {
                return Err(SendError(value));
            }
            self.0.list().push_back(value);
            with(|it| it.wake_all(key(&self.0)));
            world::may_yield();
            Ok(())
        }
    }

    impl<T> Clone for Sender<T> {
        fn clone(&self) -> Self {
            self.0.senders.fetch_add(1, Ordering::SeqCst);
            Sender(Arc::clone(&self.0))
        }
    }

    impl<T> Drop for Sender<T> {
        fn drop(&mut self) {
            if self.0.senders.fetch_sub(1, Ordering::SeqCst) == 1 {
                with(|it| it.wake_all(key(&self.0)));
            }
        }
    }

    impl<T> Receiver<T> {
        pub fn try_recv(&self) -> Result<T, TryRecvError> {
            match self.0.list().pop_front() {
                Some(value) => Ok(value),
                None if self.0.senders.load(Ordering::SeqCst) == 0 => Err(TryRecvError::Disconnected),
                None => Err(TryRecvError::Empty),
            }
        }

        pub fn recv(&self) -> Result<T, RecvError> {
            loop {
                match self.try_recv() {
                    Ok(value) => return Ok(value),
                    Err(TryRecvError::Disconnected) => return Err(RecvError),
                    Err(TryRecvError::Empty) => world::wait(key(&self.0), None),
                };
            }
        }

        pub fn try_iter(&self) -> impl Iterator<Item = T> + '_ {
            ::std::iter::from_fn(move || self.try_recv().ok())
        }

        pub fn iter(&self) -> Iter<'_, T> {
            Iter(self)
        }
    }

    impl<T> Drop for Receiver<T> {
        fn drop(&mut self) {
            self.0.receivers.fetch_sub(1, Ordering::SeqCst);
        }
    }

    pub struct Iter<'r, T>(&'r Receiver<T>);

    impl<T> Iterator for Iter<'_, T> {
        type Item = T;

        fn next(&mut self) -> Option<T> {
            self.0.recv().ok()
        }
    }

    impl<'r, T> IntoIterator for &'r Receiver<T> {
        type Item = T;
        type IntoIter = Iter<'r, T>;

        fn into_iter(self) -> Iter<'r, T> {
            self.iter()
        }
    }
}
