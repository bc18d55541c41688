use std::fmt::Debug;
use std::sync::atomic::{AtomicUsize, Ordering};
use std::sync::{Mutex, PoisonError};
use std::thread;

use crate::error::Error;

/// Threads that a call may use.
///
/// [`Threads`] starts threads for a call and ends them before it returns. With the feature `rayon`, `Rayon` takes those
/// of a pool of Rayon. A program with threads of its own needs a few lines:
///
/// ```
/// use liktrob::{BabyBear, Dft, Pool};
///
/// /// Three threads, and the calling one.
/// #[derive(Debug)]
/// struct Four;
///
/// impl Pool for Four {
///     fn threads(&self) -> usize {
///         4
///     }
///
///     fn run(&self, threads: usize, work: &(dyn Fn() + Sync)) {
///         std::thread::scope(|scope| {
///             for _ in 1..threads {
///                 scope.spawn(work);
///             }
///             work();
///         });
///     }
/// }
///
/// let mut words: Vec<u32> = (0..1 << 16).collect();
/// Dft::default().on(&Four).coset_dft_in_place::<BabyBear>(&mut words, 4, 31)?;
/// # let mut expected: Vec<u32> = (0..1 << 16).collect();
/// # Dft::default().coset_dft_in_place::<BabyBear>(&mut expected, 4, 31)?;
/// # assert!(words == expected);
/// # Ok::<(), liktrob::Error>(())
/// ```
pub trait Pool: Debug + Sync {
    /// How many threads work at the same time, at most. With one, each call of [`Dft`](crate::Dft) is one call of the
    /// library.
    fn threads(&self) -> usize;

    /// Calls `work` on some threads at once, at most `threads`, and returns when each of these calls has returned.
    ///
    /// A call of `work` does parts of a transform until none is left. So one call does all, and further calls on other
    /// threads make it faster. Where there is none, the thread that called [`Dft`](crate::Dft) does all.
    fn run(&self, threads: usize, work: &(dyn Fn() + Sync));

    /// How many numbers a thread has at least: where a matrix has fewer for each of two threads, it is transformed by
    /// one call of the library. The default, 2^14, takes some 0.1 ms, a few times as long as starting a thread.
    fn grain(&self) -> usize {
        1 << 14
    }
}

/// At most so many threads, of which the calling one is the first. The others are started by each step of a call and
/// ended by it, so they pay where a call takes milliseconds. Where the system has no further thread, fewer work.
#[derive(Clone, Copy, Debug, PartialEq, Eq, Hash)]
pub struct Threads {
    most: usize,
    grain: usize,
}

impl Threads {
    /// The most threads that a call has, however many are asked for.
    pub const MOST: usize = 1024;

    /// So many threads; 0 counts as 1.
    pub const fn new(threads: usize) -> Self {
        Threads { most: threads, grain: 1 << 14 }
    }

    /// The same threads where each has at least so many numbers ([`Pool::grain`]); 0 counts as 1.
    #[must_use]
    pub const fn grain(self, numbers: usize) -> Self {
        Threads { grain: numbers, ..self }
    }
}

impl Default for Threads {
    /// The calling thread.
    fn default() -> Self {
        Threads::new(1)
    }
}

impl Pool for Threads {
    fn threads(&self) -> usize {
        self.most
    }

    fn run(&self, threads: usize, work: &(dyn Fn() + Sync)) {
        thread::scope(|scope| {
            for _ in 1..threads {
                if thread::Builder::new().spawn_scoped(scope, work).is_err() {
                    break;
                }
            }
            work();
        });
    }

    fn grain(&self) -> usize {
        self.grain
    }
}

/// The threads of Rayon's current pool: of that in whose `install` a call is made, or of the global one.
#[cfg(feature = "rayon")]
#[derive(Clone, Copy, Debug, Default, PartialEq, Eq, Hash)]
pub struct Rayon;

#[cfg(feature = "rayon")]
impl Pool for Rayon {
    fn threads(&self) -> usize {
        rayon::current_num_threads()
    }

    fn run(&self, threads: usize, work: &(dyn Fn() + Sync)) {
        rayon::scope(|scope| {
            for _ in 1..threads {
                scope.spawn(|_| work());
            }
            work();
        });
    }
}

/// How many threads of a pool have work on so many numbers.
pub fn threads_for(pool: &dyn Pool, numbers: usize) -> usize {
    let most = (numbers / pool.grain().max(1)).min(Threads::MOST);
    pool.threads().min(most).max(1)
}

/// What no thread has begun, and the outcome of what was done.
struct Queue<I> {
    items: I,
    outcome: Result<(), Error>,
}

impl<I: ExactSizeIterator> Queue<I> {
    fn is_done(&self) -> bool {
        self.items.len() == 0 || self.outcome.is_err()
    }

    fn next(&mut self) -> Option<I::Item> {
        if self.outcome.is_ok() { self.items.next() } else { None }
    }
}

/// Does the work on each item, in any order, on at most so many threads, each of which makes a scratch of its own.
/// Where there is no error, all items are done.
///
/// After an error no further item is begun. A thread whose scratch is refused does nothing; where that leaves items, it
/// is an error of memory.
///
/// # Panics
///
/// Where the work on an item panicked, also where a pool has caught that.
pub fn each<T, S>(
    pool: &dyn Pool,
    threads: usize,
    items: impl ExactSizeIterator<Item = T> + Send,
    scratch: impl Fn() -> Option<S> + Sync,
    work: impl Fn(&mut S, T) -> Result<(), Error> + Sync,
) -> Result<(), Error> {
    let threads = threads.min(items.len());
    let unfinished = AtomicUsize::new(items.len());
    let queue = Mutex::new(Queue { items, outcome: Ok(()) });
    let is_done = || queue.lock().map_or(true, |queue| queue.is_done());
    let next = || queue.lock().ok()?.next();
    let worker = || {
        if is_done() {
            return;
        }
        let Some(mut scratch) = scratch() else { return };
        while let Some(item) = next() {
            match work(&mut scratch, item) {
                Ok(()) => _ = unfinished.fetch_sub(1, Ordering::AcqRel),
                Err(error) => _ = queue.lock().map(|mut queue| queue.outcome = Err(error)),
            }
        }
    };
    if threads > 1 {
        pool.run(threads, &worker);
    }
    // The calling thread does what a pool has left.
    worker();
    let Queue { items, outcome } = queue.into_inner().unwrap_or_else(PoisonError::into_inner);
    outcome?;
    if items.len() > 0 {
        return Err(Error::Memory);
    }
    assert!(unfinished.into_inner() == 0, "a thread panicked in a part of a transform");
    Ok(())
}
