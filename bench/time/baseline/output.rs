//! Bytes put one behind another, with few checks.
#![allow(dead_code)]
use crate::input::Name;
use std::io::Write;

/// Behind what was put so many bytes have room.
const SPARE: usize = 256;

/// A growing text. `room` is to be called in front of at most 256 bytes.
pub struct Out {
    bytes: Vec<u8>,
    at: usize,
}

impl Out {
    pub fn new(size: usize) -> Out {
        Out { bytes: vec![0; size + SPARE], at: 0 }
    }

    #[inline(always)]
    pub fn room(&mut self) {
        if self.bytes.len() - self.at < SPARE {
            self.grow();
        }
    }

    #[cold]
    #[inline(never)]
    fn grow(&mut self) {
        self.bytes.resize(2 * self.bytes.len(), 0);
    }

    pub fn len(&self) -> usize {
        self.at
    }

    /// Writes all to standard output and empties the text.
    pub fn write(&mut self) {
        std::io::stdout().write_all(&self.bytes[..self.at]).expect("standard output can be written");
        self.at = 0;
    }

    pub fn take_back(&mut self, many: usize) {
        self.at -= many;
    }

    /// Puts the first `many` of these bytes; those behind them are written over by what comes next.
    #[inline(always)]
    pub fn front<const N: usize>(&mut self, bytes: [u8; N], many: usize) {
        debug_assert!(many <= N && self.at + N <= self.bytes.len());
        unsafe { self.bytes.as_mut_ptr().add(self.at).cast::<[u8; N]>().write(bytes) };
        self.at += many;
    }

    #[inline(always)]
    pub fn put<const N: usize>(&mut self, bytes: &[u8; N]) {
        self.front(*bytes, N);
    }

    /// At most 32 bytes from a place on to the end.
    #[inline(always)]
    pub fn tail(&self, from: usize) -> ([u8; 32], usize) {
        debug_assert!(self.at - from <= 32 && from + 32 <= self.bytes.len());
        (unsafe { self.bytes.as_ptr().add(from).cast::<[u8; 32]>().read() }, self.at - from)
    }

    /// Puts another byte at a place in front of the end.
    #[inline(always)]
    pub fn set(&mut self, at: usize, byte: u8) {
        debug_assert!(at < self.at);
        unsafe { *self.bytes.get_unchecked_mut(at) = byte };
    }

    #[inline(always)]
    pub fn name(&mut self, name: Name) {
        self.front(name.0.to_le_bytes(), name.len());
    }

    /// Puts a number, and says how many digits it has.
    #[inline(always)]
    pub fn number(&mut self, n: u64) -> usize {
        if n >= 100_000_000 {
            return self.long_number(n);
        }
        let (digits, blank) = spelled(n as u32);
        self.front((digits >> (8 * blank)).to_le_bytes(), 8 - blank);
        8 - blank
    }

    #[inline(never)]
    fn long_number(&mut self, n: u64) -> usize {
        let front = self.number(n / 100_000_000);
        let (digits, _) = spelled((n % 100_000_000) as u32);
        self.front(digits.to_le_bytes(), 8);
        front + 8
    }
}

/// Eight digits with zeros in front, the first one lowest, and how many of those zeros don't belong to the number.
#[inline(always)]
pub fn spelled(n: u32) -> (u64, usize) {
    let n = n as u64;
    // the upper four digits below the lower four, then pairs, then single ones
    let fours = n / 10_000 + ((n % 10_000) << 32);
    let hundreds = ((fours * 10_486) >> 20) & 0x0000_007f_0000_007f;
    let pairs = hundreds + ((fours - 100 * hundreds) << 16);
    let tens = ((pairs * 103) >> 10) & 0x000f_000f_000f_000f;
    let ones = tens + ((pairs - 10 * tens) << 8);
    let blank = (ones | 1 << 56).trailing_zeros() as usize / 8;
    (ones | 0x3030_3030_3030_3030, blank)
}
