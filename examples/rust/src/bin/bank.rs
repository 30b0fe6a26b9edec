//! Eight threads move money between accounts, each move a transaction that `sgt serve` certifies; and the bundles are audited.
//!
//! Four threads move money between any two accounts, and four between the same two, so that many are refused and tried again. Meanwhile
//! the bank is cut into bundles. No move loses money: the sum is the same in the end.
//!
//! usage: bank FOLDER [MOVES]      (SGT: the program, else `sgt`; MOVES of each thread)

use sgt::certifier::{Certifier, Error};
use std::process::{Command, ExitCode};
use std::sync::atomic::{AtomicU64, Ordering};
use std::time::Duration;
use std::{env, error, fs, thread};

const ACCOUNTS: u64 = 8;
const FIRST: u64 = 1000;
const THREADS: u64 = 8;

/// Numbers that look random.
struct Dice(u64);

impl Dice {
    fn below(&mut self, limit: u64) -> u64 {
        self.0 = self.0.wrapping_mul(6364136223846793005).wrapping_add(1442695040888963407);
        (self.0 >> 33) % limit
    }
}

fn account(number: u64) -> String {
    format!("account_{number}")
}

/// Moves money, where the giver has so much.
fn move_money(certifier: &Certifier, tries: &AtomicU64, giver: &str, taker: &str, amount: u64) -> Result<(), Error> {
    certifier.transaction(1000, |tx| {
        tries.fetch_add(1, Ordering::Relaxed);
        let has = tx.read(0, giver)?;
        if has >= amount {
            tx.put(0, giver, has - amount)?;
            tx.put(0, taker, tx.read(0, taker)? + amount)?;
            tx.add(1, "moves", 1)?;
        }
        Ok(())
    })
}

/// A thread's moves.
fn customer(certifier: &Certifier, tries: &AtomicU64, number: u64, moves: u64) -> Result<(), Error> {
    let mut dice = Dice(number);
    let among = if number < THREADS / 2 { ACCOUNTS } else { 2 };
    for _ in 0..moves {
        let giver = dice.below(among);
        let taker = (giver + 1 + dice.below(among - 1)) % among;
        let amount = 1 + dice.below(199);
        move_money(certifier, tries, &account(giver), &account(taker), amount)?;
    }
    Ok(())
}

/// The moves of all threads, the bank cut meanwhile: the sum of the accounts at the end.
fn run(certifier: &Certifier, tries: &AtomicU64, moves: u64) -> Result<u64, Error> {
    thread::scope(|scope| {
        let customers: Vec<_> =
            (0..THREADS).map(|number| scope.spawn(move || customer(certifier, tries, number, moves))).collect();
        while customers.iter().any(|customer| !customer.is_finished()) {
            thread::sleep(Duration::from_millis(100));
            certifier.cut()?;
        }
        customers.into_iter().try_for_each(|customer| customer.join().expect("a customer panicked"))
    })?;
    certifier.transaction(1000, |tx| (0..ACCOUNTS).map(|number| tx.read(0, &account(number))).sum())
}

/// What the audit says of the bundles in the folder, and how many there are.
fn audit(program: &str, folder: &str) -> Result<(String, usize), Box<dyn error::Error>> {
    let mut bundles = Vec::new();
    for entry in fs::read_dir(folder)? {
        let path = entry?.path();
        if path.extension().is_some_and(|extension| extension == "sgt") {
            bundles.push(path);
        }
    }
    bundles.sort();
    let done = Command::new(program).args(["audit", "--chain"]).args(&bundles).output()?;
    Ok((String::from_utf8(done.stdout)?, bundles.len()))
}

fn bank(folder: &str, moves: u64) -> Result<bool, Box<dyn error::Error>> {
    let program = env::var("SGT").unwrap_or_else(|_| "sgt".to_owned());
    let accounts: Vec<_> = (0..ACCOUNTS).map(|number| format!("account_{number}={FIRST}")).collect();
    let certifier = Certifier::new(&program, &[&accounts.join(" "), "moves=0"], Some(folder.as_ref()))?;
    let tries = AtomicU64::new(0);
    let total = run(&certifier, &tries, moves)?;
    let is_well = certifier.end()?;
    let refused = tries.into_inner() - THREADS * moves;
    let (said, bundles) = audit(&program, folder)?;
    println!("{} moves, {refused} refused and tried again, in {bundles} bundles", THREADS * moves);
    println!("{total} of {} are there", FIRST * ACCOUNTS);
    print!("{said}");
    Ok(is_well && total == FIRST * ACCOUNTS && said.starts_with("yes ") && said.contains(&format!(" {refused} refused ")))
}

fn main() -> ExitCode {
    let Some(folder) = env::args().nth(1) else {
        eprintln!("usage: bank FOLDER [MOVES]");
        return ExitCode::from(2);
    };
    let moves = env::args().nth(2).and_then(|word| word.parse().ok()).unwrap_or(250);
    match bank(&folder, moves) {
        Ok(holds) => ExitCode::from(u8::from(!holds)),
        Err(why) => {
            eprintln!("bank: {why}");
            ExitCode::from(4)
        }
    }
}
