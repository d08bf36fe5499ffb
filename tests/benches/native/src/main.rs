//! Maps requests as `dmremap map FORMAT FILE [DISKS]` does, without proofs and for speed alone: the yardstick of
//! `compare.py`. It keeps the same limits and makes the same checks, but knows no options and no other command.

mod lvm;
mod map;
mod out;
mod run;
mod stack;
mod text;
mod types;

use out::{Fd, Join};
use run::Ending;
use stack::{Compiled, Stack};
use std::io::Read;
use types::*;

fn main() {
    std::process::exit(status())
}

/// Runs the command line, and returns the exit status.
fn status() -> i32 {
    let words: Vec<String> = std::env::args().skip(1).collect();
    let words: Vec<&str> = words.iter().map(String::as_str).collect();
    let (format, file, disks) = match words[..] {
        ["map", "lvm", file] => ("lvm", file, None),
        ["map", format @ ("table" | "concise"), file, disks] => (format, file, Some(disks)),
        _ => {
            say("usage: native map lvm FILE | native map table|concise FILE DISKS");
            return 2;
        }
    };
    match load(format, file, disks) {
        Ok(stack) => answer(&stack),
        Err(fault) => {
            let part = if fault.part == SOURCE { "source" } else { "disks" };
            say(&format!("{part}: {} at {}", WORDS[fault.kind as usize], fault.at));
            1
        }
    }
}

fn say(text: &str) {
    Fd::new(2).write_all(format!("native: {text}\n").as_bytes());
}

fn load(format: &str, file: &str, disks: Option<&str>) -> Result<Stack, Fault> {
    let source = read_part(file, SOURCE)?;
    let disks = disks.map(|it| read_part(it, DISKS)).transpose()?;
    let (description, disks) = match format {
        "lvm" => lvm::read(source)?,
        "table" => (text::parse_table(source)?, text::parse_disks(disks.unwrap_or(b""))?),
        _ => (text::parse_concise(source)?, text::parse_disks(disks.unwrap_or(b""))?),
    };
    Stack::load(description, disks)
}

/// Reads a file whole. Behind the text are 64 bytes more, because parsers look at blocks of 64.
fn read_part(path: &str, part: u8) -> Result<B, Fault> {
    let fault = |kind| Err(Fault { kind, part, at: 0 });
    let Ok(mut file) = std::fs::File::open(path) else { return fault(READ) };
    let text: &'static mut [u8] = Box::leak(vec![0u8; MAX_TEXT + 65].into_boxed_slice());
    let mut count = 0;
    while count <= MAX_TEXT {
        match file.read(&mut text[count..MAX_TEXT + 1]) {
            Ok(0) => return Ok(&text[..count]),
            Ok(more) => count += more,
            Err(_) => return fault(READ),
        }
    }
    fault(LONG)
}

/// Answers the requests of the standard input, and returns the exit status.
fn answer(stack: &Stack) -> i32 {
    let compiled = Compiled::new(stack);
    let mut out = Join::new(&stack.disks, 1);
    let ending = run::run(stack, &compiled, &mut out);
    out.flush();
    match ending {
        _ if out.failed => 5,
        Ending::Done => 0,
        Ending::Bad(number, word) => {
            say(&format!("request {number}: {word}"));
            3
        }
        Ending::ReadFault => 4,
    }
}
