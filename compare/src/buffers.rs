//! The answer buffers that are lent to a verdict, in memory whose every byte is known beforehand.

use crate::share::OneIn;
use second::generator::Generator;

/// The lengths of the buffers, in bytes: none at all, and 128 with what stands beside it; one is longer than any answer.
pub const ROOMS: [usize; 5] = [0, 127, 128, 129, 400];

/// How many bytes of the memory stand before a buffer, and how many there are in all: no buffer reaches its end.
const BEFORE: usize = 56;
const BYTES: usize = 512;

/// The memory around a buffer, and the buffer itself.
#[derive(Clone)]
pub struct Memory([u8; BYTES]);

impl Memory {
    /// The buffer of so many bytes.
    pub fn lent(&mut self, room: usize) -> &mut [u8] {
        &mut self.0[BEFORE..BEFORE + room]
    }

    /// What the memory has to hold once these bytes are written to the front of the buffer.
    pub fn with(&self, written: &[u8]) -> Memory {
        let mut memory = self.clone();
        memory.lent(written.len()).copy_from_slice(written);
        memory
    }

    /// The first byte that is not as it has to be, in words.
    pub fn objection(&self, right: &Memory) -> Option<String> {
        if self.0 == right.0 {
            return None;
        }
        let byte = (0..BYTES).find(|&byte| self.0[byte] != right.0[byte])?;
        Some(format!(
            "byte {} of the buffer is {}, and has to be {}",
            byte as isize - BEFORE as isize,
            self.0[byte],
            right.0[byte]
        ))
    }
}

/// Lends the buffers of a set of logs: all five to each log that passes and to one in so many of the others, and one, in turn, to each
/// of the rest.
pub struct Lender {
    fills: Generator,
    all: OneIn,
    turn: usize,
}

impl Lender {
    /// No log has this index, so that what fills the memory is not what made a log.
    pub fn one_in(every: u64, seed: u64) -> Lender {
        Lender {
            fills: Generator::new(seed, u64::MAX - 1),
            all: OneIn::new(every),
            turn: 0,
        }
    }

    /// The lengths of the buffers for the next log.
    pub fn rooms(&mut self, passes: bool) -> &'static [usize] {
        if passes || self.all.has_the_next() {
            return &ROOMS;
        }
        self.turn += 1;
        std::slice::from_ref(&ROOMS[self.turn % ROOMS.len()])
    }

    /// Memory for the next log, other than for the log before: bytes from 128 on, which no answer has, so that one that was written
    /// shows, whatever is written.
    pub fn memory(&mut self) -> Memory {
        let mut bytes = random_fill(&mut self.fills);
        for byte in &mut bytes {
            *byte |= 128;
        }
        Memory(bytes)
    }
}

/// What a buffer holds before a call: any bytes, so that one that was written shows.
pub fn random_fill<const LENGTH: usize>(fills: &mut Generator) -> [u8; LENGTH] {
    let mut fill = [0; LENGTH];
    for bytes in fill.chunks_exact_mut(8) {
        bytes.copy_from_slice(&fills.bits().to_le_bytes());
    }
    fill
}
