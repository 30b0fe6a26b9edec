//! A plain replay written for speed, without proofs and without a history of calls: what the proved one is measured against
//! (docs/BENCH.md). It reads events from standard input and writes what `sgt replay` writes, but for which cycle a walk shows.
//!
//! rustc --edition 2024 -O -C target-cpu=x86-64-v2 bench/time/baseline/replay.rs -o plain_replay
mod decisions;
mod graph;
mod input;
mod items;
mod output;
mod scheduler;
mod versions;

use input::{Lines, Next, Text};
use items::Items;
use output::Out;
use scheduler::{Refusal, Scheduler};

/// The number of a site, from 0 to 63.
#[inline(always)]
fn site(text: Text<'_>, at: usize) -> Option<(usize, usize)> {
    let [first, second] = text.bytes(at).map(|b: u8| b.wrapping_sub(b'0') as usize);
    if first > 9 {
        return None;
    }
    if second > 9 {
        return Some((first, at + 1));
    }
    if first == 0 || 10 * first + second > 63 { None } else { Some((10 * first + second, at + 2)) }
}

/// Writes the reply to the event on the line from there on, and answers the place behind that line.
#[inline(always)]
fn event(core: &mut Scheduler, text: Text<'_>, at: usize, replies: &mut Out) -> Option<usize> {
    replies.room();
    match text.byte(at) {
        b'r' => read(core, text, at, replies),
        letter @ (b'w' | b'd') => change(core, text, at, letter == b'd', replies),
        b'b' => {
            let behind = text.word(at + 1, b"\n")?;
            match core.begin() {
                Ok(tx) => told(replies, b"b", tx as u64),
                Err(why) => refused(replies, why),
            }
            Some(behind)
        }
        letter @ (b'c' | b'v') => {
            let (tx, to) = text.tx(at + 1)?;
            let behind = text.word(to, b"\n")?;
            match if letter == b'c' { core.commit(tx) } else { core.vote(tx) } {
                Ok(committed) => {
                    replies.front(text.bytes::<16>(at), to - at);
                    let (word, len) = if committed { (*b" yes\n", 5) } else { (*b" no\n ", 4) };
                    replies.front(word, len);
                }
                Err(why) => refused(replies, why),
            }
            Some(behind)
        }
        b'i' => {
            let (tx, to) = text.tx(at + 1)?;
            let (site, to) = site(text, text.word(to, b"@")?)?;
            let behind = text.word(to, b"\n")?;
            echoed(replies, text, at, behind, core.install(tx, site));
            Some(behind)
        }
        b'a' => {
            let (tx, to) = text.tx(at + 1)?;
            let behind = text.word(to, b"\n")?;
            echoed(replies, text, at, behind, core.withdraw(tx));
            Some(behind)
        }
        b'z' => {
            let behind = text.word(at + 1, b"\n")?;
            match core.close() {
                Ok(ranks) => told(replies, b"z ", ranks as u64),
                Err(why) => refused(replies, why),
            }
            Some(behind)
        }
        _ => None,
    }
}

#[inline(always)]
fn read(core: &mut Scheduler, text: Text<'_>, at: usize, replies: &mut Out) -> Option<usize> {
    let (tx, to) = text.tx(at + 1)?;
    let item = text.word(to, b"[")?;
    let (site, to) = site(text, item)?;
    let start = text.word(to, b".")?;
    let (name, to) = text.name(start)?;
    let behind = text.word(to, b"]\n")?;
    match core.read(tx, site, name) {
        Ok((value, log)) => {
            replies.front(text.bytes::<32>(at), to + 1 - at);
            let from = replies.len();
            replies.put(b"=");
            replies.number(value);
            replies.put(b"\n");
            if let Some(log) = log {
                log.room();
                log.front(text.bytes::<16>(at), item - at);
                log.front(text.bytes::<32>(start), to + 1 - start);
                let (value, len) = replies.tail(from);
                log.front(value, len);
            }
        }
        Err(why) => refused(replies, why),
    }
    Some(behind)
}

#[inline(always)]
fn change(core: &mut Scheduler, text: Text<'_>, at: usize, adds: bool, replies: &mut Out) -> Option<usize> {
    let (tx, to) = text.tx(at + 1)?;
    let (site, to) = site(text, text.word(to, b"[")?)?;
    let (name, to) = text.name(text.word(to, b".")?)?;
    let (value, to) = text.number(text.word(to, b"]=")?)?;
    let behind = text.word(to, b"\n")?;
    echoed(replies, text, at, behind, core.change(tx, site, name, adds, value));
    Some(behind)
}

/// Replies with the line itself, which has at most 55 bytes.
#[inline(always)]
fn echoed(replies: &mut Out, text: Text<'_>, at: usize, behind: usize, done: Result<(), Refusal>) {
    match done {
        Ok(()) => replies.front(text.bytes::<64>(at), behind - at),
        Err(why) => refused(replies, why),
    }
}

fn told<const N: usize>(replies: &mut Out, word: &[u8; N], n: u64) {
    replies.put(word);
    replies.number(n);
    replies.put(b"\n");
}

#[cold]
fn refused(replies: &mut Out, why: Refusal) {
    told(replies, b"! E", why as u64);
}

/// The first line that can't be read, and whether it is too long.
struct Unreadable {
    line: u64,
    is_too_long: bool,
}

/// Runs all lines, and puts the replies.
fn run(replies: &mut Out) -> Result<Scheduler, Unreadable> {
    let mut lines = Lines::new(std::io::stdin().lock());
    let mut number = 0;
    let mut items = Items::default();
    while lines.ready() && let Some(next) = items.read_site(Text(&lines.buffer), lines.start) {
        (lines.start, number) = (next, number + 1);
    }
    let mut core = Scheduler::new(items);
    while number > 0 && lines.ready() {
        let text = Text(&lines.buffer);
        let mut at = lines.start;
        while at < lines.whole && let Some(next) = event(&mut core, text, at, replies) {
            (at, number) = (next, number + 1);
        }
        lines.start = at;
        if at < lines.whole {
            break;
        }
    }
    match lines.next(input::LIMIT) {
        Next::End if number > 0 => Ok(core),
        Next::TooLong => Err(Unreadable { line: number + 1, is_too_long: true }),
        _ => Err(Unreadable { line: number + 1, is_too_long: false }),
    }
}

fn write_bundle(core: &mut Scheduler, out: &mut Out) {
    out.room();
    out.put(if core.second { b"sgt 2\n" } else { b"sgt 1\n" });
    core.decisions.put(&core.items, &core.ranks(), out);
    for site in 0..core.items.sites.len() {
        core.items.put_head(site, out);
        out.write();
        core.logs[site].write();
        core.items.put_tail(site, |item| core.versions.value(item), out);
    }
    out.write();
}

fn main() {
    let mut replies = Out::new(1 << 16);
    let mut core = run(&mut replies).unwrap_or_else(|Unreadable { line, is_too_long }| {
        println!("! L{} line {line}", if is_too_long { 2 } else { 1 });
        std::process::exit(2);
    });
    replies.room();
    if core.active() > 0 {
        replies.put(b"! E8\n");
        replies.write();
        std::process::exit(1);
    }
    replies.put(b"---\n");
    write_bundle(&mut core, &mut replies);
}
