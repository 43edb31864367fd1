//! Blocks of steps in a file, with a sum after each, so that a byte that is changed later is told.

use std::io::{self, Write};

/// Where bytes go.
pub(crate) type To = Box<dyn Write + Send>;

/// How many bytes of steps a block has at most.
pub(crate) const MOST: usize = 0xFF_FFFF;

/// Of a block, beside its steps: their length in 4 bytes before them, and a sum in 4 bytes after them.
const AROUND: usize = 8;

/// What each byte brings into a CRC-32 (RFC 1952, section 8).
const SHARES: [u32; 256] = shares();

const fn share_of(byte: u32) -> u32 {
    let mut share = byte;
    let mut bit = 0;
    while bit < 8 {
        share = match share & 1 {
            0 => share >> 1,
            _ => 0xEDB8_8320 ^ (share >> 1),
        };
        bit += 1;
    }
    share
}

const fn shares() -> [u32; 256] {
    let mut shares = [0; 256];
    let mut byte = 0;
    while byte < 256 {
        shares[byte] = share_of(byte as u32);
        byte += 1;
    }
    shares
}

/// Returns the CRC-32 of bytes, from that of the bytes before them.
fn sum_after(sum: u32, bytes: &[u8]) -> u32 {
    !bytes.iter().fold(!sum, |register, byte| {
        SHARES[(register as u8 ^ byte) as usize] ^ (register >> 8)
    })
}

/// Returns a length in three bytes, the lowest first, and one more: the four come to 255 by exclusive or.
fn length_of(steps: &[u8]) -> [u8; 4] {
    let [low, middle, high, _] = (steps.len() as u32).to_le_bytes();
    [low, middle, high, low ^ middle ^ high ^ 255]
}

/// Writes blocks.
pub(crate) struct Blocks {
    to: To,
    /// The CRC-32 of what was written, but for the sums.
    sum: u32,
    /// What is written at once.
    bytes: Vec<u8>,
}

impl Blocks {
    /// Writes the text of a record, and a block with no steps, so that the text has a sum. No block will have more than `most`
    /// bytes of steps.
    pub(crate) fn begin(to: To, text: &str, most: usize) -> io::Result<Blocks> {
        let mut bytes = Vec::with_capacity(text.len() + most + AROUND);
        bytes.extend_from_slice(text.as_bytes());
        let sum = sum_after(0, &bytes);
        let mut blocks = Blocks { to, sum, bytes };
        blocks.put(&[])?;
        Ok(blocks)
    }

    /// Writes a block with these bytes of steps, if there are some.
    pub(crate) fn write(&mut self, steps: &[u8]) -> io::Result<()> {
        self.bytes.clear();
        match steps {
            [] => Ok(()),
            steps => self.put(steps),
        }
    }

    /// Puts a block after the bytes that are there, and writes all of them.
    fn put(&mut self, steps: &[u8]) -> io::Result<()> {
        let length = length_of(steps);
        self.sum = sum_after(sum_after(self.sum, &length), steps);
        self.bytes.extend_from_slice(&length);
        self.bytes.extend_from_slice(steps);
        self.bytes.extend_from_slice(&self.sum.to_le_bytes());
        self.to.write_all(&self.bytes)?;
        self.to.flush()
    }
}
