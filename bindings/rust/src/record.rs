//! The steps of a house in a file, which `cbsrun replay FILE` makes again.
//!
//! ```
//! use cbs::record::{Recorder, Settings};
//! use cbs::{Mode, Plan};
//!
//! let mut plan = Plan::new();
//! plan.admit(2, 5, Mode::Soft)?;
//! let (mut house, mut clients) = plan.open(4, 4)?;
//! # let path = std::env::temp_dir().join("cbs-record-doc.tape");
//! let file = std::fs::File::create(&path)?;
//! let mut recorder = Recorder::new(&mut house, file, &Settings::default())?; // before the first step
//! clients[0].send("wash", 3)?;
//! for _ in 0..3 {
//!     house.turn();
//!     recorder.step(&mut house); // now and then
//! }
//! recorder.end(&mut house)?;
//! # std::fs::remove_file(&path)?;
//! # Ok::<(), Box<dyn std::error::Error>>(())
//! ```
//!
//! The file is a record with a tape: a text that says what the servers are, and then a byte or two for each step, in blocks with a
//! sum each. So a byte that is changed later is told. What [`step`](Recorder::step) wrote is in the file also if the process is
//! killed then; what it did not write is lost with the process.
//!
//! The serving thread waits for the writer, unless [`blocks`](Settings::blocks) are set: then a thread of its own writes.
//!
//! ```
//! # use cbs::record::{Recorder, Settings};
//! # use cbs::{Mode, Plan};
//! # let mut plan = Plan::new();
//! # plan.admit(2, 5, Mode::Soft)?;
//! # let (mut house, mut clients) = plan.open(4, 4)?;
//! # let file = std::io::sink();
//! let settings = Settings { blocks: 4, ..Settings::default() };
//! let mut recorder = Recorder::new(&mut house, file, &settings)?;
//! clients[0].send("wash", 3)?;
//! house.turn();
//! recorder.step(&mut house); // gives the steps to the thread, and never waits
//! recorder.end(&mut house)?; // waits for the thread
//! # Ok::<(), Box<dyn std::error::Error>>(())
//! ```

use crate::background::Background;
use crate::blocks::{Blocks, To, MOST};
use crate::error::TapeError;
use crate::ffi::Server;
use crate::house::House;
use std::fmt;
use std::io::{self, Write};
use std::time::Duration;

/// What is told of a house beside its steps, and how much memory its tape has.
#[derive(Clone, Debug, PartialEq, Eq)]
pub struct Settings {
    /// The names of the servers, by number: each of 1 to 32 letters, digits, `-` and `_`, and no two the same. A server with none
    /// is called `server-0`, by its number.
    pub names: Vec<String>,
    /// How long a tick is, at most a second, if it has a length.
    pub tick: Option<Duration>,
    /// How many bytes the steps between two writes may take, at most 16777184. A step takes 20 at most, and mostly 1 or 2.
    pub bytes: u32,
    /// How many ticks pass at least between two writes. With 0 each [`Recorder::step`] writes.
    pub every: u64,
    /// How many blocks of `bytes` bytes a thread has that writes. With 0 there is none: the serving thread writes, and waits for
    /// the writer.
    ///
    /// With blocks it never waits. A step moves what the tape has into a free block, and the thread writes that. If no block is
    /// free the bytes stay on the tape, until a later step. If the tape gets full meanwhile steps are lost, which
    /// [`House::tape_lost`] tells before the end: the file then has only the steps before. What the thread has not written is
    /// lost if the process is killed.
    ///
    /// The thread inherits the priority and the processors of the one that makes the recorder.
    pub blocks: usize,
}

/// How many bytes longer than asked for a tape is.
const MARGIN: usize = 31;

impl Default for Settings {
    fn default() -> Settings {
        Settings {
            names: Vec::new(),
            tick: None,
            bytes: 1 << 16,
            every: 0,
            blocks: 0,
        }
    }
}

/// Writes the steps of a house.
///
/// An error of the writer ends the recording, and never the house. If a thread writes, a panic of the writer is such an error.
///
/// A recorder that is dropped with no [`end`](Recorder::end) writes nothing more, and no mark. If a thread writes, the drop waits
/// until it has written what it was given.
pub struct Recorder {
    to: Option<Blocks>,
    /// The thread that writes, if one does.
    background: Option<Background>,
    error: Option<io::Error>,
    buffer: Vec<u8>,
    bytes: u64,
    every: u64,
    /// The tick from which on a step writes again.
    next: u64,
}

impl fmt::Debug for Recorder {
    fn fmt(&self, f: &mut fmt::Formatter<'_>) -> fmt::Result {
        f.debug_struct("Recorder")
            .field("error", &self.error)
            .field("bytes", &self.bytes)
            .finish_non_exhaustive()
    }
}

/// Returns the error of a name or a tick that no record may have.
fn wrong(why: String) -> io::Error {
    io::Error::new(io::ErrorKind::InvalidInput, why)
}

impl From<TapeError> for io::Error {
    fn from(error: TapeError) -> io::Error {
        let kind = match error {
            TapeError::OutOfMemory => io::ErrorKind::OutOfMemory,
            TapeError::NoTape => io::ErrorKind::NotConnected,
        };
        io::Error::new(kind, error)
    }
}

impl Settings {
    /// Returns the names of so many servers.
    fn all_names(&self, servers: usize) -> io::Result<Vec<String>> {
        let own = |server: usize| self.names.get(server).cloned();
        let names: Vec<_> = (0..servers)
            .map(|i| own(i).unwrap_or_else(|| format!("server-{i}")))
            .collect();
        let may_have = |byte: u8| byte.is_ascii_alphanumeric() || byte == b'-' || byte == b'_';
        for (server, name) in names.iter().enumerate() {
            if name.is_empty() || name.len() > 32 || !name.bytes().all(may_have) {
                return Err(wrong(format!(
                    "a name has 1 to 32 letters, digits, - and _, and not {name:?}"
                )));
            }
            if names[..server].contains(name) {
                return Err(wrong(format!("two servers are called {name}")));
            }
        }
        Ok(names)
    }

    /// Returns how many bytes the memory of the tape has.
    fn size(&self) -> io::Result<usize> {
        match self.bytes as usize + MARGIN {
            size if size <= MOST => Ok(size),
            _ => Err(wrong(format!(
                "the steps between two writes take at most {} bytes, and not {}",
                MOST - MARGIN,
                self.bytes
            ))),
        }
    }

    /// Returns the text of a record of a house with these servers and this backlog, and the byte that ends it.
    fn head(&self, rates: &[Server], backlog: usize) -> io::Result<String> {
        let mut text = String::from("record = 1\n");
        match self.tick.map(|tick| tick.as_nanos()) {
            None => {}
            Some(1_000_000_000) => text += "tick = \"1 s\"\n",
            Some(tick @ 1..=999_999_999) => text += &format!("tick = \"{tick} ns\"\n"),
            Some(tick) => return Err(wrong(format!("a tick has 1 ns to 1 s, and not {tick} ns"))),
        }
        text += &format!("bound = [1, 1]\nbacklog = {backlog}\nserver = [\n");
        for (rate, name) in rates.iter().zip(self.all_names(rates.len())?) {
            let Server {
                budget,
                period,
                mode,
            } = *rate;
            let mode = if mode == 0 { "soft" } else { "throttled" };
            text += &format!("  {{ name = \"{name}\", mode = \"{mode}\", budget = {budget}, period = {period} }},\n");
        }
        Ok(text + "]\n\x03")
    }
}

/// Returns whether a house made no step yet.
fn is_new<T>(house: &House<T>) -> bool {
    let is_untouched =
        |server| matches!(house.view(server), Ok(view) if view.accepted == 0 && !view.closed);
    house.now() == 0 && (0..house.rates().len()).all(is_untouched)
}

impl Recorder {
    /// Writes what the house is, and has it tell its steps from now on. Call this before its first step.
    ///
    /// # Errors
    ///
    /// A house that made a step before, a name or a tick that no record may have, no memory for a tape, no thread, or what the
    /// writer gave. The house is then not recorded.
    pub fn new<T>(
        house: &mut House<T>,
        to: impl Write + Send + 'static,
        settings: &Settings,
    ) -> io::Result<Recorder> {
        if !is_new(house) {
            return Err(wrong("the house made a step before".into()));
        }
        let head = settings.head(house.rates(), house.backlog())?;
        let size = settings.size()?;
        let to: To = Box::new(to);
        let to = Blocks::begin(to, &head, size)?;
        let (to, background) = match settings.blocks {
            0 => (Some(to), None),
            blocks => (None, Some(Background::new(to, blocks, size)?)),
        };
        house.record(settings.bytes)?;
        Ok(Recorder {
            to,
            background,
            error: None,
            buffer: Vec::with_capacity(size),
            bytes: 0,
            every: settings.every,
            next: 0,
        })
    }

    /// Writes the steps that the house made since the last write, if as many ticks have passed as wanted. It waits as long as
    /// one write does. If a thread writes, this gives it the steps, and never waits.
    pub fn step<T>(&mut self, house: &mut House<T>) {
        let now = house.now();
        if self.error.is_none() && now >= self.next && self.gives_or_writes(house) {
            self.next = now + self.every;
        }
    }

    /// Writes the last steps, and the mark of the end, unless a step was lost. The house goes on with no tape. If a thread
    /// writes, this waits for it.
    ///
    /// # Errors
    ///
    /// What the writer gave, now or before.
    pub fn end<T>(mut self, house: &mut House<T>) -> io::Result<()> {
        if let Some(mut background) = self.background.take() {
            self.to = background.end().filter(|_| self.error.is_none());
            if let Some(error) = background.error() {
                self.fail(error, house);
            }
        }
        self.write(house, House::end_tape);
        match self.error {
            Some(error) => Err(error),
            None => Ok(()),
        }
    }

    /// Returns the error of the writer that ended the recording, if one did. If a thread writes, a later step learns of it.
    #[must_use]
    pub fn error(&self) -> Option<&io::Error> {
        self.error.as_ref()
    }

    /// Returns how many bytes of steps were written.
    #[must_use]
    pub fn bytes(&self) -> u64 {
        let background = self.background.as_ref();
        background.map_or(self.bytes, Background::bytes)
    }

    /// Writes what the tape of a house has, or gives it to the thread. Returns false if that has no free block, or failed.
    fn gives_or_writes<T>(&mut self, house: &mut House<T>) -> bool {
        let given = match &self.background {
            Some(background) => background.give(|block| house.move_tape(block)),
            None => {
                self.write(house, House::take_tape);
                Ok(true)
            }
        };
        given.unwrap_or_else(|error| {
            self.fail(error, house);
            false
        })
    }

    /// Ends the recording.
    fn fail<T>(&mut self, error: io::Error, house: &mut House<T>) {
        self.error = Some(error);
        self.to = None;
        house.forget_tape();
    }

    /// Writes what is taken of the tape of a house in this way, unless an error ended the recording.
    fn write<T>(
        &mut self,
        house: &mut House<T>,
        take: fn(&mut House<T>, &mut Vec<u8>) -> Result<(), TapeError>,
    ) {
        let to = match &mut self.to {
            Some(to) => to,
            None => return,
        };
        self.buffer.clear();
        let taken = take(house, &mut self.buffer).map_err(io::Error::from);
        match taken.and_then(|()| to.write(&self.buffer)) {
            Ok(()) => self.bytes += self.buffer.len() as u64,
            Err(error) => self.fail(error, house),
        }
    }
}
