//! Transactions over named numbers, certified by `sgt serve`: for the threads of one process.
//!
//! ```no_run
//! # use sgt::certifier::{Certifier, Error};
//! # fn main() -> Result<(), Error> {
//! let certifier = Certifier::new("sgt", &["a=10 b=0"], Some("bundles".as_ref()))?;
//! certifier.transaction(1000, |tx| {
//!     // tried again where it is refused, withdrawn where it answers an Err
//!     tx.put(0, "a", tx.read(0, "a")? - 3)?;
//!     tx.add(0, "b", 3)
//! })?;
//! certifier.cut()?; // what was done until now is a bundle in the folder
//! # Ok(())
//! # }
//! ```
//!
//! A site is told by the words of a replay's line: its items by rising name, each with its first value. Transactions come in epochs of at
//! most 4,096. A certifier closes a full one by itself: who begins one more then waits until none is open. So does `cut`. So no transaction
//! is begun or cut inside the closure of another one: it would wait for itself. Nobody waits for longer than `patience` allows
//! ([`Error::Stuck`]), nor for a certifier that has ended ([`Error::Lost`]).

use std::ffi::OsStr;
use std::fmt;
use std::fs::{self, File};
use std::io::{self, BufRead, BufReader, Write};
use std::os::fd::AsRawFd;
use std::os::unix::process::CommandExt;
use std::process::{Child, ChildStdin, ChildStdout, Command, Stdio};
use std::sync::{Condvar, Mutex, MutexGuard, PoisonError};
use std::time::{Duration, Instant};

/// Why there is no answer.
#[derive(Debug)]
pub enum Error {
    /// It is refused, E1 to E12 or L1, and nothing has changed.
    Refused(String),
    /// The transaction was refused at each of its tries.
    NotCommitted,
    /// The bundle can't be written. While the certifier lives nothing is lost.
    NotWritten,
    /// These transactions, which somebody has open, didn't end. Nothing has changed: it may be asked again.
    Stuck(Vec<String>),
    /// The certifier has ended, or never began.
    Lost(io::Error),
}

impl fmt::Display for Error {
    fn fmt(&self, f: &mut fmt::Formatter<'_>) -> fmt::Result {
        match self {
            Error::Refused(why) => write!(f, "refused: {why}"),
            Error::NotCommitted => write!(f, "refused at each try"),
            Error::NotWritten => write!(f, "the bundle can't be written"),
            Error::Stuck(open) => write!(f, "open for too long: {}", open.join(", ")),
            Error::Lost(why) => write!(f, "the certifier is lost: {why}"),
        }
    }
}

impl std::error::Error for Error {}

impl From<io::Error> for Error {
    fn from(why: io::Error) -> Error {
        Error::Lost(why)
    }
}

fn gone() -> Error {
    Error::Lost(io::ErrorKind::BrokenPipe.into())
}

fn unreadable() -> Error {
    Error::Lost(io::ErrorKind::InvalidData.into())
}

/// The pipe to the certifier. The input is gone once the talk has ended.
struct Pipe {
    input: Option<ChildStdin>,
    output: BufReader<ChildStdout>,
}

impl Pipe {
    fn ask(&mut self, line: &str) -> Result<String, Error> {
        // until the reply is read whole, there is none to whom a further line could be sent
        let mut input = self.input.take().ok_or_else(gone)?;
        input.write_all(format!("{line}\n").as_bytes())?;
        let mut said = String::new();
        self.output.read_line(&mut said)?;
        if said.pop() != Some('\n') {
            return Err(gone());
        }
        self.input = Some(input);
        match said.strip_prefix("! ") {
            None => Ok(said),
            Some("B") => Err(Error::NotWritten),
            Some(why) => Err(Error::Refused(why.to_owned())),
        }
    }
}

/// How many transactions are open, the numbers of those that have begun, and whether somebody waits until none is open.
#[derive(Default)]
struct Open {
    count: usize,
    numbers: Vec<String>,
    is_waited_for: bool,
}

extern "C" {
    fn flock(file: i32, how: i32) -> i32;
    fn dup(file: i32) -> i32;
}

/// Makes the folder and locks it. Who inherits the lock keeps it, so the certifier has it to its end.
fn lock_folder(folder: &OsStr) -> io::Result<File> {
    const EXCLUSIVE_AND_NO_WAITING: i32 = 2 | 4;
    fs::create_dir_all(folder)?;
    let file = File::open(folder)?;
    // SAFETY: a call of the system about a descriptor that is open
    match unsafe { flock(file.as_raw_fd(), EXCLUSIVE_AND_NO_WAITING) } {
        0 => Ok(file),
        _ => Err(io::Error::last_os_error()),
    }
}

/// `sgt serve` behind a pipe.
pub struct Certifier {
    process: Mutex<Child>,
    pipe: Mutex<Pipe>,
    open: Mutex<Open>,
    change: Condvar,
    /// For how long anybody waits: a minute until it is told.
    pub patience: Duration,
}

fn lock<T>(mutex: &Mutex<T>) -> MutexGuard<'_, T> {
    mutex.lock().unwrap_or_else(PoisonError::into_inner)
}

impl Certifier {
    /// Over these sites. Bundles go to the folder, which is made; without one they go nowhere. Where another service has the folder,
    /// also one whose program died and that writes its last bundle, it is [`io::ErrorKind::WouldBlock`]: read the values to go on from
    /// (the last bundle's finals) again behind that, or the service is forked.
    pub fn new(program: impl AsRef<OsStr>, sites: &[&str], bundles: Option<&OsStr>) -> Result<Certifier, Error> {
        let mut command = Command::new(program);
        // out of reach of a terminal's ^C, which would end it before its last bundle
        command.arg("serve").stdin(Stdio::piped()).stdout(Stdio::piped()).process_group(0);
        let mut held = None;
        if let Some(folder) = bundles {
            command.arg("--bundles").arg(folder);
            let lock = held.insert(lock_folder(folder)?).as_raw_fd();
            // SAFETY: between fork and exec one call of the system: the copy stays open in the program
            unsafe { command.pre_exec(move || if dup(lock) < 0 { Err(io::Error::last_os_error()) } else { Ok(()) }) };
        }
        let mut process = command.spawn()?;
        drop(held);
        let mut input = process.stdin.take().ok_or_else(gone)?;
        let output = BufReader::new(process.stdout.take().ok_or_else(gone)?);
        for (number, items) in sites.iter().enumerate() {
            writeln!(input, "{}", format!("site {number} {items}").trim_end())?;
        }
        Ok(Certifier {
            process: Mutex::new(process),
            pipe: Mutex::new(Pipe { input: Some(input), output }),
            open: Mutex::default(),
            change: Condvar::new(),
            patience: Duration::from_secs(60),
        })
    }

    /// The reply to a line.
    fn ask(&self, line: &str) -> Result<String, Error> {
        lock(&self.pipe).ask(line)
    }

    /// Waits for no longer than the patience allows and the certifier lives.
    fn wait_while(&self, waits: impl Fn(&Open) -> bool) -> Result<MutexGuard<'_, Open>, Error> {
        let until = Instant::now() + self.patience;
        let mut open = lock(&self.open);
        while waits(&open) {
            if lock(&self.process).try_wait()?.is_some() {
                return Err(gone());
            }
            if Instant::now() >= until {
                return Err(Error::Stuck(open.numbers.clone()));
            }
            let slice = Duration::from_millis(200);
            open = self.change.wait_timeout(open, slice).unwrap_or_else(PoisonError::into_inner).0;
        }
        Ok(open)
    }

    /// The reply to a line that is asked once no transaction is open.
    fn ask_when_none_is_open(&self, line: &str) -> Result<String, Error> {
        self.wait_while(|open| open.is_waited_for)?.is_waited_for = true;
        let said = self.wait_while(|open| open.count > 0).map(drop).and_then(|()| self.ask(line));
        lock(&self.open).is_waited_for = false;
        self.change.notify_all();
        said
    }

    /// A new transaction, which is withdrawn where it is dropped before it has ended.
    pub fn begin(&self) -> Result<Transaction<'_>, Error> {
        loop {
            self.wait_while(|open| open.is_waited_for)?.count += 1;
            let mut tx = Transaction { certifier: self, number: String::new(), is_over: false };
            let line = match self.ask("b") {
                Ok(said) => {
                    tx.number.push_str(&said[1..]);
                    lock(&self.open).numbers.push(tx.number.clone());
                    return Ok(tx);
                }
                Err(Error::Refused(why)) if why == "E7" => "z",
                Err(Error::Refused(why)) if why == "E11" => "x",
                Err(why) => return Err(why),
            };
            drop(tx);
            self.ask_when_none_is_open(line)?;
        }
    }

    /// Does a transaction, at most so often, up to the first try that is committed, or that answers an Err: it is withdrawn then.
    pub fn transaction<T>(&self, tries: u32, mut does: impl FnMut(&Transaction<'_>) -> Result<T, Error>) -> Result<T, Error> {
        for _ in 0..tries {
            let tx = self.begin()?;
            let done = does(&tx)?;
            if tx.commit()? {
                return Ok(done);
            }
        }
        Err(Error::NotCommitted)
    }

    /// The number of the bundle that has what was done since the last one. It waits until no transaction is open.
    pub fn cut(&self) -> Result<u64, Error> {
        let said = self.ask_when_none_is_open("x")?;
        said[2..].parse().map_err(|_| unreadable())
    }

    /// Ends the talk: what wasn't cut is a bundle. Whether the certifier's status is 0.
    pub fn end(self) -> Result<bool, Error> {
        lock(&self.pipe).input = None;
        Ok(lock(&self.process).wait()?.success())
    }
}

impl Drop for Certifier {
    fn drop(&mut self) {
        lock(&self.pipe).input = None;
        let _ = lock(&self.process).wait();
    }
}

/// A transaction that is open.
pub struct Transaction<'a> {
    certifier: &'a Certifier,
    /// Empty where it has not begun.
    number: String,
    is_over: bool,
}

impl Transaction<'_> {
    /// The item's value: with the transaction's own change, where it made one.
    pub fn read(&self, site: u8, item: &str) -> Result<u64, Error> {
        let said = self.certifier.ask(&format!("r{}[{site}.{item}]", self.number))?;
        let value = said.rsplit('=').next().and_then(|value| value.parse().ok());
        value.ok_or_else(unreadable)
    }

    /// The item is to have this value, once the transaction is committed.
    pub fn put(&self, site: u8, item: &str, value: u64) -> Result<(), Error> {
        self.certifier.ask(&format!("w{}[{site}.{item}]={value}", self.number)).map(drop)
    }

    /// This is to be added to the item, modulo 2^64. Transactions that only add to an item don't stand in each other's way.
    pub fn add(&self, site: u8, item: &str, value: u64) -> Result<(), Error> {
        self.certifier.ask(&format!("d{}[{site}.{item}]={value}", self.number)).map(drop)
    }

    /// Whether it is committed. Where it isn't it is over, and what it did may be tried as another one.
    pub fn commit(mut self) -> Result<bool, Error> {
        let said = self.certifier.ask(&format!("c{}", self.number))?;
        self.is_over = true;
        Ok(said.ends_with(" yes"))
    }
}

impl Drop for Transaction<'_> {
    fn drop(&mut self) {
        if !self.number.is_empty() && !self.is_over {
            let _ = self.certifier.ask(&format!("a{}", self.number));
        }
        let mut open = lock(&self.certifier.open);
        open.count -= 1;
        open.numbers.retain(|number| *number != self.number);
        drop(open);
        self.certifier.change.notify_all();
    }
}
