//! Prints what `sgt audit`, `sgt serial`, `sgt certify`, `sgt explain` and `sgt check` print of standard input, and ends with the
//! program's status.
//!
//! usage: sgt [audit|serial|certify|explain|check] < BUNDLE

use sgt::{audit, certify, check, explain, serial, Error, Text, Verdict};
use std::error;
use std::io::{self, Read, Write};
use std::process::ExitCode;

fn run(word: Option<&str>) -> Result<u8, Box<dyn error::Error>> {
    let mut bundle = Vec::new();
    io::stdin().read_to_end(&mut bundle)?;
    let mut out = io::stdout();
    let answer = match word {
        Some("serial") => Some(serial(&bundle)?),
        Some("certify") => Some(certify(&bundle)?),
        Some("explain") => Some(explain(&bundle)?),
        Some("check") => Some(check(&bundle)?),
        _ => None,
    };
    if let Some(answer) = answer {
        let (text, status) = match answer {
            Text::Yes(text) => (text, 0),
            Text::No(text) => (text, 1),
            Text::Unreadable(text) => (text, 2),
        };
        out.write_all(&text)?;
        return Ok(status);
    }
    let verdict = audit(&bundle)?;
    writeln!(out, "{verdict}")?;
    Ok(matches!(verdict, Verdict::No { .. }).into())
}

fn main() -> ExitCode {
    let word = std::env::args().nth(1);
    run(word.as_deref()).map_or_else(
        |error| {
            eprintln!("sgt: {error}");
            let is_memory = matches!(error.downcast_ref(), Some(Error::Memory));
            ExitCode::from(if is_memory { 3 } else { 4 })
        },
        ExitCode::from,
    )
}
