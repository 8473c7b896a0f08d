//! Receives and mixes AES67 and SMPTE ST 2110-30 audio, by the proved engine of Darbexum.
//!
//! ```no_run
//! # fn send(_: &[u8]) {}
//! # let (config, stream, path, octets, now) = (b"", 0, 0, [0u8; 30], 0);
//! let mut engine = darbexum::Engine::new(config)?;
//! let mut turn = engine.turn(now);
//! while let Some(datagram) = turn.next()? {
//!     send(datagram);
//! }
//! // Judged at the reading before, so the turn comes first.
//! engine.arrive(stream, path, &octets)?;
//! let mut rest = engine.close()?;
//! while let Some(datagram) = rest.next()? {
//!     send(datagram);
//! }
//! # Ok::<(), darbexum::Error>(())
//! ```
//!
//! Times are in sampling instants of 48 kHz. An engine may go to another thread; it is not `Sync`.
use darbexum_sys as sys;
use std::fmt;
use std::mem::size_of;
use std::ptr::null_mut;

pub use sys::{Counts, Output, PathCounts, Stream};

/// The greatest number of octets of an output's datagram.
pub const MAX_OCTETS: usize = 1452;

/// A failed call, by its code in `darbexum.h`. Nothing has changed.
#[derive(Clone, Debug, PartialEq, Eq)]
pub struct Error {
    pub code: i32,
    pub text: String,
}

impl Error {
    fn of(code: i32) -> Error {
        let mut room = [0; 128];
        // The room is this array.
        unsafe { sys::darbexum_fault_text(code, room.as_mut_ptr(), room.len()) };
        Error { code, text: text_in(&room) }
    }
}

impl fmt::Display for Error {
    fn fmt(&self, f: &mut fmt::Formatter<'_>) -> fmt::Result {
        f.write_str(&self.text)
    }
}

impl std::error::Error for Error {}

/// Returns the text before the first 0.
fn text_in(room: &[u8]) -> String {
    let len = room.iter().position(|octet| *octet == 0).unwrap_or(room.len());
    String::from_utf8_lossy(&room[..len]).into_owned()
}

/// What became of a datagram.
#[derive(Clone, Copy, Debug, PartialEq, Eq)]
pub enum Outcome {
    AfterClose,
    CountersFull,
    WrongSource,
    OffGrid,
    Late,
    Ahead,
    Taken,
    Double,
    Unlike,
    Restarted,
    Bad,
    WrongType,
    WrongLength,
}

use Outcome::*;
const OUTCOMES: [Outcome; 13] =
    [AfterClose, CountersFull, WrongSource, OffGrid, Late, Ahead, Taken, Double, Unlike, Restarted, Bad, WrongType, WrongLength];

/// The streams that are missing in a block.
#[derive(Clone, Copy, Debug, PartialEq, Eq)]
pub struct Missing {
    /// The number of streams of which, at some time of the block, a gain is not 0 and no packet came.
    pub streams: usize,
    /// Streams are missing, and no stream with a gain other than 0 has a packet in the block.
    pub is_empty: bool,
}

/// An engine of a configuration.
pub struct Engine {
    handle: sys::Handle,
    out: [u8; MAX_OCTETS],
    inputs: Vec<i32>,
}

// The handle is proved to go from thread to thread. Each call takes the engine mutably, so two calls never overlap.
unsafe impl Send for Engine {}

// Each `unsafe` below passes a handle that `new` opened and only `drop` frees, and memory of the length that is given.
impl Engine {
    /// Makes the engine of a configuration (TOML).
    pub fn new(config: impl AsRef<[u8]>) -> Result<Engine, Error> {
        let config = config.as_ref();
        let handle = sys::Handle { engine: null_mut() };
        let mut engine = Engine { handle, out: [0; MAX_OCTETS], inputs: Vec::new() };
        let mut text = [0; 256];
        match unsafe { sys::darbexum_open(&mut engine.handle, config.as_ptr(), config.len(), text.as_mut_ptr(), text.len()) } {
            0 => Ok(engine),
            code => Err(Error { code, text: text_in(&text) }),
        }
    }

    /// Takes a datagram of a stream that came in on a path, and returns its outcome.
    pub fn arrive(&mut self, stream: usize, path: u8, octets: &[u8]) -> Result<Outcome, Error> {
        let code = unsafe { sys::darbexum_arrive(&mut self.handle, stream, path, octets.as_ptr(), octets.len()) };
        Ok(OUTCOMES[checked(code)? as usize])
    }

    /// Moves all streams on to a clock reading. The datagrams are those of the `Datagrams`, up to its `None`.
    pub fn turn(&mut self, now: i64) -> Datagrams<'_> {
        Datagrams { engine: self, now: Some(now) }
    }

    /// Closes all streams. The datagrams that are left are those of the `Datagrams`.
    pub fn close(&mut self) -> Result<Datagrams<'_>, Error> {
        checked(unsafe { sys::darbexum_close(&mut self.handle) })?;
        Ok(Datagrams { engine: self, now: None })
    }

    /// Returns the clock reading before which no datagram comes if nothing arrives, if there is one.
    pub fn next_deadline(&mut self) -> Option<i64> {
        let mut reading = 0;
        (unsafe { sys::darbexum_next_deadline(&mut self.handle, &mut reading) } == 0).then_some(reading)
    }

    /// Returns the last clock reading, or the opening time.
    pub fn time(&mut self) -> i64 {
        let mut time = 0;
        unsafe { sys::darbexum_time(&mut self.handle, &mut time) };
        time
    }

    /// Returns the media time at which the next block begins: the first time whose gains can still change.
    pub fn next_block_start(&mut self) -> i64 {
        let mut start = 0;
        unsafe { sys::darbexum_next_block_start(&mut self.handle, &mut start) };
        start
    }

    /// Changes the gains: from `at` on these are in force, in units of 1/65,536, row by row, a row for each output channel.
    /// They replace all that was to change from then on. No datagram that was returned changes.
    pub fn change_gains(&mut self, at: i64, gains: &[i32]) -> Result<(), Error> {
        checked(unsafe { sys::darbexum_change_gains(&mut self.handle, at, gains.as_ptr(), gains.len()) })?;
        Ok(())
    }

    /// Returns true if the engine was closed and all datagrams were returned.
    pub fn settled(&mut self) -> bool {
        unsafe { sys::darbexum_settled(&mut self.handle) == 1 }
    }

    /// Returns the number of streams.
    pub fn streams(&mut self) -> usize {
        unsafe { sys::darbexum_streams(&mut self.handle) }
    }

    /// Returns the specification of the output.
    pub fn output(&mut self) -> Output {
        let mut found = Output { size: size_of::<Output>(), ..Output::default() };
        unsafe { sys::darbexum_output(&mut self.handle, &mut found) };
        found
    }

    /// Returns the specification of a stream.
    pub fn stream(&mut self, stream: usize) -> Result<Stream, Error> {
        let mut found = Stream { size: size_of::<Stream>(), ..Stream::default() };
        checked(unsafe { sys::darbexum_stream(&mut self.handle, stream, &mut found) })?;
        Ok(found)
    }

    /// Returns the counts of a stream's merge.
    pub fn counts(&mut self, stream: usize) -> Result<Counts, Error> {
        let mut found = Counts { size: size_of::<Counts>(), ..Counts::default() };
        checked(unsafe { sys::darbexum_counts(&mut self.handle, stream, &mut found) })?;
        Ok(found)
    }

    /// Returns the counts of the datagrams of a stream's path.
    pub fn path_counts(&mut self, stream: usize, path: u8) -> Result<PathCounts, Error> {
        let mut found = PathCounts { size: size_of::<PathCounts>(), ..PathCounts::default() };
        checked(unsafe { sys::darbexum_path_counts(&mut self.handle, stream, path, &mut found) })?;
        Ok(found)
    }

    /// Returns the number of saturated samples of an output channel so far.
    pub fn saturated(&mut self, channel: usize) -> Result<u64, Error> {
        let mut count = 0;
        checked(unsafe { sys::darbexum_saturated(&mut self.handle, channel, &mut count) })?;
        Ok(count)
    }

    /// Returns the samples of all channels of all streams in the block of the last datagram, before any gain: frame by
    /// frame, in each frame stream after stream. Only the first call allocates.
    pub fn inputs(&mut self) -> &[i32] {
        if self.inputs.is_empty() {
            let mut channels = 0;
            for stream in 0..self.streams() {
                channels += self.stream(stream).map_or(0, |found| found.channels as usize);
            }
            let frames = self.output().frames as usize;
            self.inputs.resize(frames * channels, 0);
        }
        unsafe { sys::darbexum_inputs(&mut self.handle, self.inputs.as_mut_ptr(), self.inputs.len()) };
        &self.inputs
    }

    /// Returns the streams that are missing in the block of the last datagram.
    pub fn missing(&mut self) -> Missing {
        let mut streams = 0;
        let code = unsafe { sys::darbexum_missing(&mut self.handle, &mut streams) };
        Missing { streams, is_empty: code == 1 }
    }
}

impl Drop for Engine {
    fn drop(&mut self) {
        unsafe { sys::darbexum_free(&mut self.handle) }
    }
}

/// The datagrams of a turn or of a close.
// No `Iterator`, since each datagram is borrowed from the engine until the next.
pub struct Datagrams<'a> {
    engine: &'a mut Engine,
    now: Option<i64>,
}

impl Datagrams<'_> {
    /// Returns the next datagram, or `None` after the last.
    #[allow(clippy::should_implement_trait)]
    pub fn next(&mut self) -> Result<Option<&[u8]>, Error> {
        let Engine { handle, out, .. } = &mut *self.engine;
        let len = match self.now {
            Some(now) => unsafe { sys::darbexum_turn(handle, now, out.as_mut_ptr(), out.len()) },
            None => unsafe { sys::darbexum_drain(handle, out.as_mut_ptr(), out.len()) },
        };
        match len {
            0 => Ok(None),
            len if len > 0 => Ok(Some(&out[..len as usize])),
            code => Err(Error::of(code as i32)),
        }
    }

    /// Returns the engine, whose `inputs` and `missing` are those of the last datagram.
    pub fn engine(&mut self) -> &mut Engine {
        self.engine
    }
}

fn checked(code: i32) -> Result<i32, Error> {
    if code < 0 {
        return Err(Error::of(code));
    }
    Ok(code)
}

/// Returns the version of the library: an octet each for the three numbers.
pub fn version() -> u32 {
    unsafe { sys::darbexum_version() }
}

#[cfg(test)]
mod tests;
