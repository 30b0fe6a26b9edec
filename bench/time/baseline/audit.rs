//! A plain auditor written for speed, without proofs: what the proved one is measured against (docs/BENCH.md).
//! It reads a bundle from standard input and writes what `sgt audit` writes; words behind the program's name are not looked at.
//!
//! rustc --edition 2024 -O -C target-cpu=x86-64-v2 bench/time/baseline/audit.rs -o plain_audit
mod bundle;
mod certificate;
mod input;

use certificate::{COMMIT, REFUSE, WITHDRAW};

fn main() {
    let (line, status) = match bundle::audit(&mut input::Lines::new(std::io::stdin().lock()), ()) {
        Ok((c, ())) => {
            let [yes, no, back] = [COMMIT, REFUSE, WITHDRAW].map(|kind| c.count(kind));
            (format!("yes {yes} committed {no} refused {back} withdrawn"), 0)
        }
        Err((line, fault)) => (format!("no line {line} F{fault}"), 1),
    };
    println!("{line}");
    std::process::exit(status);
}
