//! Reading by blocks, and the words that all texts of docs/FORMAT.md are made of: numbers and names.
#![allow(dead_code)]
use std::arch::x86_64::*;
use std::io::Read;

/// A line has at most so many bytes.
pub const LIMIT: usize = 1_048_576;

/// So many bytes are read at once.
const BLOCK: usize = 1 << 18;

/// Behind the bytes of a line so many more may be looked at, whatever they are.
pub const SPARE: usize = 64;

/// The bytes of an input, a block at a time.
pub struct Lines<R> {
    reader: R,
    /// The bytes that were read stand from `start` to `end`, and the last `SPARE` are never read into.
    pub buffer: Vec<u8>,
    pub start: usize,
    pub end: usize,
    /// What stands in front of this are whole lines; it is set by `find_whole`.
    pub whole: usize,
}

/// What comes next: a line without its LF, or why there is none.
pub enum Next {
    Line(usize, usize),
    Cut,
    TooLong,
    End,
}

impl<R: Read> Lines<R> {
    pub fn new(reader: R) -> Lines<R> {
        Lines { reader, buffer: vec![0; BLOCK + SPARE], start: 0, end: 0, whole: 0 }
    }

    /// Reads on until a whole line stands next, and looks for the last LF. False where there is none, or it is too far.
    pub fn ready(&mut self) -> bool {
        loop {
            self.find_whole();
            if self.whole > self.start {
                return true;
            }
            if self.end - self.start > LIMIT || !self.fill() {
                return false;
            }
        }
    }

    /// Looks for the last LF that was read.
    pub fn find_whole(&mut self) {
        let last = self.buffer[self.start..self.end].iter().rposition(|b| *b == b'\n');
        self.whole = last.map_or(self.start, |n| self.start + n + 1);
    }

    /// The next line of at most so many bytes.
    pub fn next(&mut self, limit: usize) -> Next {
        let mut looked = self.start;
        loop {
            if let Some(n) = find_feed(&self.buffer[looked..self.end]) {
                let (from, to) = (self.start, looked + n);
                if to - from > limit {
                    return Next::TooLong;
                }
                self.start = to + 1;
                return Next::Line(from, to);
            }
            let left = self.end - self.start;
            if left > limit {
                return Next::TooLong;
            }
            if !self.fill() {
                return if left == 0 { Next::End } else { Next::Cut };
            }
            looked = self.start + left;
        }
    }

    /// Brings what is left to the front, and gives back the room of a long line.
    pub fn tidy(&mut self) {
        self.buffer.copy_within(self.start..self.end, 0);
        self.end -= self.start;
        (self.start, self.whole) = (0, 0);
        if self.buffer.len() > 2 * BLOCK && self.end < BLOCK {
            self.buffer.truncate(BLOCK + SPARE);
            self.buffer.shrink_to_fit();
        }
    }

    /// Reads on, behind what is left. False at the end of the input.
    pub fn fill(&mut self) -> bool {
        if self.start > 0 {
            self.tidy();
        }
        if self.end + SPARE == self.buffer.len() {
            self.buffer.resize(self.end + BLOCK + SPARE, 0);
        }
        let room = self.buffer.len() - SPARE;
        let n = self.reader.read(&mut self.buffer[self.end..room]).expect("standard input can be read");
        self.end += n;
        n > 0
    }
}

/// Where the first LF of these bytes is.
pub fn find_feed(bytes: &[u8]) -> Option<usize> {
    let mut at = 0;
    while let Some(chunk) = bytes[at..].first_chunk::<16>() {
        let hits = unsafe {
            let here = _mm_loadu_si128(chunk.as_ptr().cast::<__m128i>());
            _mm_movemask_epi8(_mm_cmpeq_epi8(here, _mm_set1_epi8(b'\n' as i8)))
        };
        if hits != 0 {
            return Some(at + hits.trailing_zeros() as usize);
        }
        at += 16;
    }
    bytes[at..].iter().position(|b| *b == b'\n').map(|n| at + n)
}

/// The bytes of a buffer, looked at by place: a place in a line or right behind it, where `SPARE` more bytes stand.
#[derive(Clone, Copy)]
pub struct Text<'a>(pub &'a [u8]);

impl<'a> Text<'a> {
    #[inline(always)]
    pub fn byte(self, at: usize) -> u8 {
        debug_assert!(at < self.0.len());
        unsafe { *self.0.get_unchecked(at) }
    }

    #[inline(always)]
    pub fn bytes<const N: usize>(self, at: usize) -> [u8; N] {
        debug_assert!(at + N <= self.0.len());
        unsafe { self.0.as_ptr().add(at).cast::<[u8; N]>().read() }
    }

    #[inline(always)]
    fn eight(self, at: usize) -> u64 {
        u64::from_le_bytes(self.bytes(at))
    }

    /// Whether these bytes stand here; the place behind them.
    #[inline(always)]
    pub fn word<const N: usize>(self, at: usize, word: &[u8; N]) -> Option<usize> {
        if self.bytes(at) == *word { Some(at + N) } else { None }
    }

    /// A number in its one spelling, and the place behind it.
    #[inline(always)]
    pub fn number(self, at: usize) -> Option<(u64, usize)> {
        let (value, n) = digits(self.eight(at));
        if n == 0 || n > 1 && self.byte(at) == b'0' {
            return None;
        }
        if n == 8 { self.long_number(at + 8, value) } else { Some((value, at + n)) }
    }

    /// The same behind eight digits.
    #[inline(never)]
    fn long_number(self, at: usize, front: u64) -> Option<(u64, usize)> {
        let (value, n) = digits(self.eight(at));
        let (mut value, mut at) = (front * TENS[n] + value, at + n);
        while n == 8 {
            let digit = self.byte(at).wrapping_sub(b'0');
            if digit > 9 {
                break;
            }
            value = value.checked_mul(10)?.checked_add(digit as u64)?;
            at += 1;
        }
        Some((value, at))
    }

    #[inline(always)]
    pub fn tx(self, at: usize) -> Option<(u32, usize)> {
        let (n, at) = self.number(at)?;
        if n == 0 || n > u32::MAX as u64 { None } else { Some((n as u32, at)) }
    }

    /// A name, and the place behind it.
    #[inline(always)]
    pub fn name(self, at: usize) -> Option<(Name, usize)> {
        if !self.byte(at).is_ascii_lowercase() {
            return None;
        }
        let chunk = self.bytes(at);
        let n = name_len(&chunk);
        Some((Name(u128::from_le_bytes(chunk) & FRONTS[n]), at + n))
    }
}

/// The powers of ten that so many digits are worth.
const TENS: [u64; 9] = [1, 10, 100, 1_000, 10_000, 100_000, 1_000_000, 10_000_000, 100_000_000];

/// The value of the digits at the front of eight bytes, and how many there are.
#[inline(always)]
fn digits(word: u64) -> (u64, usize) {
    let word = word ^ 0x3030_3030_3030_3030;
    // a byte above 9 gets its top bit; those behind the first such byte don't matter
    let others = (word | word.wrapping_add(0x7676_7676_7676_7676)) & 0x8080_8080_8080_8080;
    let n = others.trailing_zeros() as usize / 8;
    if n == 0 {
        return (0, 0);
    }
    let mut value = word << (64 - 8 * n);
    value = value.wrapping_mul(10).wrapping_add(value >> 8) & 0x00ff_00ff_00ff_00ff;
    value = value.wrapping_mul(100).wrapping_add(value >> 16) & 0x0000_ffff_0000_ffff;
    (value.wrapping_mul(10_000).wrapping_add(value >> 32) & 0xffff_ffff, n)
}

/// A name in sixteen bytes, the first one lowest, with zeros behind it.
#[derive(Clone, Copy, PartialEq, Eq)]
pub struct Name(pub u128);

impl Name {
    /// Names come in the order of these.
    pub fn order(self) -> u128 {
        self.0.swap_bytes()
    }

    pub fn len(self) -> usize {
        16 - self.0.leading_zeros() as usize / 8
    }

    /// So many bits that are mostly other ones for another name.
    #[inline(always)]
    pub fn hash(self, bits: u32) -> usize {
        let mixed = self.0 as u64 ^ ((self.0 >> 64) as u64).rotate_left(29);
        (mixed.wrapping_mul(0x9e37_79b9_7f4a_7c15) >> (64 - bits)) as usize
    }
}

/// All bits of so many first bytes.
const FRONTS: [u128; 17] = {
    let mut fronts = [u128::MAX; 17];
    let mut n = 0;
    while n < 16 {
        fronts[n] = (1 << (8 * n)) - 1;
        n += 1;
    }
    fronts
};

/// How many of the bytes, from the first on, may stand in a name.
#[inline(always)]
fn name_len(chunk: &[u8; 16]) -> usize {
    // shifted so that a range of bytes begins at the least signed number
    unsafe {
        let bytes = _mm_loadu_si128(chunk.as_ptr().cast::<__m128i>());
        let moved = |first: u8| _mm_add_epi8(bytes, _mm_set1_epi8(0x80u8.wrapping_sub(first) as i8));
        let within = |first, many: u8| _mm_cmplt_epi8(moved(first), _mm_set1_epi8(0x80u8.wrapping_add(many) as i8));
        let line = _mm_cmpeq_epi8(bytes, _mm_set1_epi8(b'_' as i8));
        let fine = _mm_or_si128(_mm_or_si128(within(b'a', 26), within(b'0', 10)), line);
        (!_mm_movemask_epi8(fine)).trailing_zeros() as usize
    }
}
