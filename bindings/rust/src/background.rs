//! A thread that writes what it is given, so that who gives it never waits for the writer.

use crate::blocks::Blocks;
use crate::error::TapeError;
use std::io::{self, ErrorKind};
use std::panic::{catch_unwind, AssertUnwindSafe};
use std::sync::atomic::{AtomicBool, AtomicU64, Ordering};
use std::sync::{Arc, Mutex, MutexGuard, PoisonError};
use std::thread::{self, JoinHandle};

/// Memory, and how many bytes of it are to be written.
struct Block {
    memory: Vec<u8>,
    length: usize,
}

/// What the thread shares with who gives. The blocks are given and written in turn.
struct Shared {
    /// A block that is free is locked by who gives alone, and one that is not by the thread alone. So no lock is waited for.
    blocks: Vec<Mutex<Block>>,
    /// How many times a block was given.
    given: AtomicU64,
    /// How many of these were written.
    written: AtomicU64,
    /// How many bytes these had.
    bytes: AtomicU64,
    /// Whether no more is given.
    ends: AtomicBool,
    /// The error of the writer, which is there before `failed` is set.
    error: Mutex<Option<io::Error>>,
    failed: AtomicBool,
}

impl Shared {
    fn block(&self, number: u64) -> &Mutex<Block> {
        &self.blocks[(number % self.blocks.len() as u64) as usize]
    }

    /// Returns the block that is given next, if it is free. By who gives.
    fn free(&self) -> Option<MutexGuard<'_, Block>> {
        let given = self.given.load(Ordering::Relaxed);
        let unwritten = given - self.written.load(Ordering::Acquire);
        if unwritten == self.blocks.len() as u64 {
            return None;
        }
        self.block(given).try_lock().ok()
    }

    /// Waits until more than so many blocks were given. Returns false if no more is given.
    fn awaits(&self, written: u64) -> bool {
        loop {
            let ends = self.ends.load(Ordering::Acquire); // before `given`, so what was given before the end is seen
            if self.given.load(Ordering::Acquire) > written {
                return true;
            }
            if ends {
                return false;
            }
            thread::park();
        }
    }

    /// Writes what is given, until no more is given. Returns the writer.
    fn write(&self, mut to: Blocks) -> io::Result<Blocks> {
        let mut written = 0;
        while self.awaits(written) {
            let block = self.block(written).lock();
            let block = block.unwrap_or_else(PoisonError::into_inner);
            to.write(&block.memory[..block.length])?;
            self.bytes.fetch_add(block.length as u64, Ordering::Release);
            drop(block);
            written += 1;
            self.written.store(written, Ordering::Release);
        }
        Ok(to)
    }

    /// Does what the thread does. Returns the writer, unless it failed or panicked.
    fn run(&self, to: Blocks) -> Option<Blocks> {
        let error = match catch_unwind(AssertUnwindSafe(|| self.write(to))) {
            Ok(Ok(to)) => return Some(to),
            Ok(Err(error)) => error,
            Err(_) => io::Error::new(ErrorKind::Other, "the writer panicked"),
        };
        *self.error.lock().unwrap_or_else(PoisonError::into_inner) = Some(error);
        self.failed.store(true, Ordering::Release);
        None
    }
}

/// The side of who gives. Dropping it waits until what was given is written.
pub(crate) struct Background {
    shared: Arc<Shared>,
    /// None after the end.
    thread: Option<JoinHandle<Option<Blocks>>>,
}

impl Background {
    /// Begins a thread with so many blocks of this size.
    pub(crate) fn new(to: Blocks, blocks: usize, size: usize) -> io::Result<Background> {
        // No zeros: the memory is touched, so nobody waits for a page later.
        let block = || Block {
            memory: vec![1; size],
            length: 0,
        };
        let shared = Arc::new(Shared {
            blocks: (0..blocks).map(|_| Mutex::new(block())).collect(),
            given: AtomicU64::new(0),
            written: AtomicU64::new(0),
            bytes: AtomicU64::new(0),
            ends: AtomicBool::new(false),
            error: Mutex::new(None),
            failed: AtomicBool::new(false),
        });
        let its = Arc::clone(&shared);
        let named = thread::Builder::new().name("cbs-record".into());
        let thread = Some(named.spawn(move || its.run(to))?);
        Ok(Background { shared, thread })
    }

    /// Has a free block filled, and gives it, unless it has no byte. `fill` returns how many it has. Returns whether a block was
    /// free. It never waits.
    ///
    /// # Errors
    ///
    /// What the writer gave, once, or what `fill` gives. Nothing is given then.
    pub(crate) fn give(
        &self,
        fill: impl FnOnce(&mut [u8]) -> Result<usize, TapeError>,
    ) -> io::Result<bool> {
        if let Some(error) = self.error() {
            return Err(error);
        }
        let mut block = match self.shared.free() {
            Some(block) => block,
            None => return Ok(false),
        };
        block.length = fill(&mut block.memory)?;
        let is_empty = block.length == 0;
        drop(block);
        if !is_empty {
            self.shared.given.fetch_add(1, Ordering::Release);
            self.wake();
        }
        Ok(true)
    }

    /// Returns the error of the writer, once.
    pub(crate) fn error(&self) -> Option<io::Error> {
        if !self.shared.failed.load(Ordering::Acquire) {
            return None;
        }
        self.shared.error.try_lock().ok()?.take()
    }

    /// Returns how many bytes were written.
    pub(crate) fn bytes(&self) -> u64 {
        self.shared.bytes.load(Ordering::Acquire)
    }

    /// Waits until what was given is written. Returns the writer, unless it failed, or this was called before.
    pub(crate) fn end(&mut self) -> Option<Blocks> {
        self.shared.ends.store(true, Ordering::Release);
        self.wake();
        self.thread.take()?.join().ok()?
    }

    fn wake(&self) {
        if let Some(thread) = &self.thread {
            thread.thread().unpark();
        }
    }
}

impl Drop for Background {
    fn drop(&mut self) {
        self.end();
    }
}
