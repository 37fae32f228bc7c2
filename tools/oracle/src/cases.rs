//! What every group of cases needs: the list that is written, the random numbers and the palette.

use std::io::{self, Write};

/// Why a group of cases stops.
pub enum End {
    /// As many cases as were asked for are written.
    Full,
    /// The output takes no more.
    Output(io::Error),
}

/// What the writing of a case gives: go on, or stop.
pub type Step = Result<(), End>;

/// A case with its header is at most this many words.
const CASE_WORDS: usize = 16384;

/// Words are handed on in portions of about this many.
const PORTION: usize = 1 << 16;

/// A list of cases on its way to the output. README.md describes the format.
pub struct List {
    output: Box<dyn Write>,
    words: Vec<u32>,
    bytes: Vec<u8>,
    left: u64,
}

impl List {
    pub fn new(output: Box<dyn Write>) -> List {
        List {
            output,
            words: Vec::new(),
            bytes: Vec::new(),
            left: 0,
        }
    }

    /// Writes the first `count` cases of a group, or all of them if they are fewer.
    pub fn group(&mut self, count: u64, write: impl FnOnce(&mut List) -> Step) -> io::Result<()> {
        self.left = count;
        match write(self) {
            Ok(()) | Err(End::Full) => Ok(()),
            Err(End::Output(error)) => Err(error),
        }
    }

    /// Writes one case.
    pub fn case(&mut self, function: u32, inputs: &[u32], answer: &[u32]) -> Step {
        self.left = self.left.checked_sub(1).ok_or(End::Full)?;
        let count = (inputs.len() + answer.len()) as u32;
        self.words.push(function + 65536 * count);
        self.words.extend_from_slice(inputs);
        self.words.extend_from_slice(answer);
        if self.words.len() >= PORTION {
            self.flush().map_err(End::Output)?;
        }
        Ok(())
    }

    /// Writes a case whose answer is to be had from the inputs alone, all of which it must take.
    pub fn asked(
        &mut self,
        function: u32,
        inputs: &[u32],
        ask: impl FnOnce(&mut &[u32]) -> Vec<u32>,
    ) -> Step {
        let mut rest = inputs;
        let answer = ask(&mut rest);
        assert!(rest.is_empty(), "too many words");
        assert!(1 + inputs.len() + answer.len() <= CASE_WORDS);
        self.case(function, inputs, &answer)
    }

    /// Hands on what is still held back.
    pub fn flush(&mut self) -> io::Result<()> {
        self.bytes.resize(4 * self.words.len(), 0);
        for (bytes, word) in self.bytes.chunks_exact_mut(4).zip(&self.words) {
            bytes.copy_from_slice(&word.to_le_bytes());
        }
        self.words.clear();
        self.output.write_all(&self.bytes)?;
        self.output.flush()
    }
}

/// 1000 * 2^-126, where lengths and determinants begin to count as different from zero.
pub const THRESHOLD: u32 = 0x057a_0000;

pub const PLUS_ZERO: u32 = 0;
pub const MINUS_ZERO: u32 = 0x8000_0000;
pub const ONE: u32 = 0x3f80_0000;
pub const MINUS_ONE: u32 = 0xbf80_0000;
pub const LEAST: u32 = 1;
pub const MINUS_LEAST: u32 = 0x8000_0001;
pub const INFINITY: u32 = 0x7f80_0000;
pub const MINUS_INFINITY: u32 = 0xff80_0000;
pub const NAN: u32 = 0x7fc0_0000;

/// Patterns at the edges of the format and of the functions.
pub const PALETTE: [u32; 16] = [
    PLUS_ZERO,
    MINUS_ZERO,
    ONE,
    MINUS_ONE,
    LEAST,
    MINUS_LEAST,
    0x007f_ffff, // the largest subnormal number
    0x0080_0000, // the smallest normal number
    THRESHOLD - 1,
    THRESHOLD,
    THRESHOLD + 1,
    0x7f7f_ffff, // the largest finite number
    0xff7f_ffff, // its negative
    INFINITY,
    MINUS_INFINITY,
    NAN,
];

/// Random numbers (splitmix64): the same for the same seed on every machine.
pub struct Random(u64);

impl Random {
    /// Each group of cases draws from a stream of its own, so that the cases of one group do not
    /// depend on how many another group writes.
    pub fn new(seed: u64, stream: u64) -> Random {
        Random(Random(seed).next() ^ Random(!stream).next())
    }

    /// A stream that begins here and leaves this one as it was, so that what is drawn from it changes
    /// nothing that is drawn after it.
    pub fn beside(&self, stream: u64) -> Random {
        Random::new(self.0, stream)
    }

    fn next(&mut self) -> u64 {
        self.0 = self.0.wrapping_add(0x9e37_79b9_7f4a_7c15);
        let mut z = self.0;
        z = (z ^ (z >> 30)).wrapping_mul(0xbf58_476d_1ce4_e5b9);
        z = (z ^ (z >> 27)).wrapping_mul(0x94d0_49bb_1331_11eb);
        z ^ (z >> 31)
    }

    /// Any word.
    pub fn word(&mut self) -> u32 {
        (self.next() >> 32) as u32
    }

    /// A number below `end`.
    pub fn below(&mut self, end: u32) -> u32 {
        ((u64::from(self.word()) * u64::from(end)) >> 32) as u32
    }

    /// Yes, once in `count` times.
    pub fn one_in(&mut self, count: u32) -> bool {
        self.below(count) == 0
    }

    /// A number from -1 up to 1, evenly spread.
    pub fn even(&mut self) -> f64 {
        f64::from(self.word() as i32) / 2147483648.0
    }

    /// A power of two with an exponent from `low` up to, but not with, `high`.
    pub fn power(&mut self, low: i32, high: i32) -> f64 {
        let exponent = low + self.below((high - low) as u32) as i32;
        f64::from_bits(((exponent + 1023) as u64) << 52)
    }
}
