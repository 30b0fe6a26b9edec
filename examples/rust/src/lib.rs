//! The proved auditor, certificate maker and check of histories of `sgt`, behind safe functions.

use std::fmt;

pub mod certifier;

mod raw {
    //! What `sgt.h` declares.

    pub const YES: u32 = 0;
    pub const NO: u32 = 1;
    pub const UNREADABLE: u32 = 2;
    pub const MEMORY: u32 = 3;
    pub const LONG: u32 = 4;
    pub const VERSION: u32 = 1;

    #[repr(C)]
    #[derive(Default)]
    pub struct Verdict {
        pub kind: u32,
        pub fault: u32,
        pub line: u64,
        pub committed: u64,
        pub refused: u64,
        pub withdrawn: u64,
    }

    const _: () = assert!(size_of::<Verdict>() == 40);

    extern "C" {
        pub fn sgt_version() -> u32;
        pub fn sgt_audit(bytes: *const u8, len: usize, verdict: *mut Verdict) -> u32;
        pub fn sgt_serial_len(bytes: *const u8, len: usize, text_len: *mut usize) -> u32;
        pub fn sgt_serial(bytes: *const u8, len: usize, out: *mut u8, room: usize, text_len: *mut usize) -> u32;
        pub fn sgt_certify_len(bytes: *const u8, len: usize, text_len: *mut usize) -> u32;
        pub fn sgt_certify(bytes: *const u8, len: usize, out: *mut u8, room: usize, text_len: *mut usize) -> u32;
        pub fn sgt_explain_len(bytes: *const u8, len: usize, text_len: *mut usize) -> u32;
        pub fn sgt_explain(bytes: *const u8, len: usize, out: *mut u8, room: usize, text_len: *mut usize) -> u32;
        pub fn sgt_check_len(bytes: *const u8, len: usize, text_len: *mut usize) -> u32;
        pub fn sgt_check(bytes: *const u8, len: usize, out: *mut u8, room: usize, text_len: *mut usize) -> u32;
    }

    pub type Measure = unsafe extern "C" fn(*const u8, usize, *mut usize) -> u32;
    pub type Write = unsafe extern "C" fn(*const u8, usize, *mut u8, usize, *mut usize) -> u32;
}

/// The verdict on some bytes.
#[derive(Clone, Copy, Debug, PartialEq, Eq)]
pub enum Verdict {
    /// They spell a valid bundle with so many decisions of each kind.
    Yes { committed: u64, refused: u64, withdrawn: u64 },
    /// They have a fault, at this line first. Lines are counted from 1.
    No { line: u64, fault: u32 },
}

impl fmt::Display for Verdict {
    fn fmt(&self, f: &mut fmt::Formatter<'_>) -> fmt::Result {
        match self {
            Verdict::Yes { committed, refused, withdrawn } => {
                write!(f, "yes {committed} committed {refused} refused {withdrawn} withdrawn")
            }
            Verdict::No { line, fault } => write!(f, "no line {line} F{fault}"),
        }
    }
}

/// A text that some bytes are answered by.
#[derive(Clone, Debug, PartialEq, Eq)]
pub enum Text {
    /// With a yes.
    Yes(Vec<u8>),
    /// With a no.
    No(Vec<u8>),
    /// A history has a line that can't be read: of `check` alone.
    Unreadable(Vec<u8>),
}

/// Why there is no answer.
#[derive(Clone, Copy, Debug, PartialEq, Eq)]
pub enum Error {
    /// Memory ran out.
    Memory,
    /// The bytes are too many: 4294967295 or more.
    Long,
    /// The library isn't of the version that this wrapper is for.
    Version(u32),
    /// The library answered a number that its version doesn't have.
    Unknown(u32),
}

impl Error {
    fn of(number: u32) -> Error {
        match number {
            raw::MEMORY => Error::Memory,
            raw::LONG => Error::Long,
            other => Error::Unknown(other),
        }
    }
}

impl fmt::Display for Error {
    fn fmt(&self, f: &mut fmt::Formatter<'_>) -> fmt::Result {
        match self {
            Error::Memory => write!(f, "memory"),
            Error::Long => write!(f, "too many bytes"),
            Error::Version(found) => write!(f, "the library is of version {found}"),
            Error::Unknown(number) => write!(f, "the library answered {number}"),
        }
    }
}

impl std::error::Error for Error {}

fn check_version() -> Result<(), Error> {
    // SAFETY: the call takes nothing.
    match unsafe { raw::sgt_version() } {
        raw::VERSION => Ok(()),
        other => Err(Error::Version(other)),
    }
}

/// Audits a bundle.
pub fn audit(bundle: &[u8]) -> Result<Verdict, Error> {
    check_version()?;
    let mut verdict = raw::Verdict::default();
    // SAFETY: the pointers are of a slice with its length and of a struct of the header's layout; neither is null.
    match unsafe { raw::sgt_audit(bundle.as_ptr(), bundle.len(), &mut verdict) } {
        raw::YES => Ok(Verdict::Yes {
            committed: verdict.committed,
            refused: verdict.refused,
            withdrawn: verdict.withdrawn,
        }),
        raw::NO => Ok(Verdict::No { line: verdict.line, fault: verdict.fault }),
        other => Err(Error::of(other)),
    }
}

fn text_of(measure: raw::Measure, write: raw::Write, given: &[u8]) -> Result<Text, Error> {
    check_version()?;
    let mut len = 0;
    // SAFETY: as above.
    let answer = unsafe { measure(given.as_ptr(), given.len(), &mut len) };
    if !matches!(answer, raw::YES | raw::NO | raw::UNREADABLE) {
        return Err(Error::of(answer));
    }
    let mut text = vec![0; len];
    // SAFETY: `text` has room for `len` bytes and is nobody else's.
    let answer = unsafe { write(given.as_ptr(), given.len(), text.as_mut_ptr(), text.len(), &mut len) };
    // As long as the text that was written, whatever the first call said of it.
    text.truncate(len);
    match answer {
        raw::YES => Ok(Text::Yes(text)),
        raw::NO => Ok(Text::No(text)),
        raw::UNREADABLE => Ok(Text::Unreadable(text)),
        other => Err(Error::of(other)),
    }
}

/// The serial run of a bundle: the lines of the committed transactions, run alone one after another by rank, and the final values;
/// or the auditor's line.
pub fn serial(bundle: &[u8]) -> Result<Text, Error> {
    text_of(raw::sgt_serial_len, raw::sgt_serial, bundle)
}

/// The certificate of logs that have none, which are a bundle without its second line: the whole bundle, or why none was made.
pub fn certify(logs: &[u8]) -> Result<Text, Error> {
    text_of(raw::sgt_certify_len, raw::sgt_certify, logs)
}

/// The auditor's line on a bundle, and what it means.
pub fn explain(bundle: &[u8]) -> Result<Text, Error> {
    text_of(raw::sgt_explain_len, raw::sgt_explain, bundle)
}

/// Whether some order of a history's committed transactions explains all that was read and written: how many there are, or what shows that
/// none does; or the first line that can't be read.
pub fn check(history: &[u8]) -> Result<Text, Error> {
    text_of(raw::sgt_check_len, raw::sgt_check, history)
}
