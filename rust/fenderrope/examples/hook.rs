//! What a display at the hook can start from: examples/hook.c in Rust, with the same words, lines and status.
//!
//!     hook MAIN [EXTENSION]   shows the tag in the file MAIN, and the one in EXTENSION that is hung behind it
//!
//! Each feature is a line of its tag in decimal and its value in hexadecimal; an empty line stands between the two
//! tags. The last line is `press NAME`: feature 11 as C40 text, out of the extension if it has that feature, otherwise
//! out of the main tag; or `no press` where neither has it, or where it is empty or no C40 text. Of a refused tag there
//! is one line and no other, such as `refused 9 at 24 in main`, or `in extension`. The status is 0, but 1 where a tag
//! is refused, and 2 where something else is wrong; standard error then says what.
//!
//! What is shown is what the tags say, not that they are genuine: verifying them is the signing unit's work.

use std::ffi::{OsStr, OsString};
use std::fs::File;
use std::io::{self, Read, Write};
use std::os::unix::ffi::OsStrExt;
use std::process::ExitCode;

use fenderrope::{c40_read, shown, walk, Feature, Refusal, Which, CHARACTERS_MOST, SEAL_MOST};

const PRESS: usize = 11;

/// What the display shows, or the one line of a refused tag.
pub fn told(main: &[u8], extension: Option<&[u8]>) -> Result<String, String> {
    let mut lines: String = walk(main).map_err(refused(Which::Main))?.map(line).collect();
    if let Some(extension) = extension {
        lines.push('\n');
        lines.extend(walk(extension).map_err(refused(Which::Extension))?.map(line));
    }
    // Each tag was walked, so none is refused here. A tag alone is its own extension.
    let press = shown(main, extension.unwrap_or(main), PRESS).ok();
    let name = press.and_then(|press| name_in(press.value));
    Ok(lines + &name.map_or("no press\n".to_string(), |name| format!("press {name}\n")))
}

/// A feature's line; of one without a value the tag alone.
fn line(feature: Feature) -> String {
    let value: String = feature.value.iter().map(|byte| format!("{byte:02X}")).collect();
    let gap = if value.is_empty() { "" } else { " " };
    format!("{}{gap}{value}\n", feature.tag)
}

/// The line of a refused tag.
fn refused(which: Which) -> impl FnOnce(Refusal) -> String {
    move |Refusal { number, place, .. }| format!("refused {number} at {place} in {which}\n")
}

/// The press's name in a feature's value: C40 text that is not empty.
fn name_in(value: &[u8]) -> Option<String> {
    let mut name = [0; CHARACTERS_MOST];
    let count = c40_read(value, &mut name).ok()?;
    (count > 0).then(|| String::from_utf8_lossy(&name[..count]).into_owned())
}

/// A file cannot be opened, read or written: the system's words, without the number that Rust puts behind them.
fn failed(what: impl AsRef<OsStr>) -> impl FnOnce(io::Error) -> Vec<u8> {
    move |error| {
        let words = error.to_string();
        let why = words.split(" (os error ").next().unwrap_or(&words);
        [what.as_ref().as_bytes(), b": ", why.as_bytes()].concat()
    }
}

/// A file's bytes, at most one more than a seal has: a longer file is refused.
fn bytes_of(path: &OsStr) -> Result<Vec<u8>, Vec<u8>> {
    let mut bytes = Vec::new();
    let read = File::open(path).and_then(|file| file.take(SEAL_MOST as u64 + 1).read_to_end(&mut bytes));
    read.map(|_| bytes).map_err(failed(path))
}

/// The status, or what standard error says.
fn run(words: &[OsString]) -> Result<u8, Vec<u8>> {
    let (main, extension) = match words {
        [main] => (bytes_of(main)?, None),
        [main, extension] => (bytes_of(main)?, Some(bytes_of(extension)?)),
        _ => return Err(b"usage: hook MAIN [EXTENSION]".to_vec()),
    };
    let (status, lines) = told(&main, extension.as_deref()).map_or_else(|line| (1, line), |lines| (0, lines));
    let mut out = io::stdout().lock();
    // A line that did not get there is no answer.
    out.write_all(lines.as_bytes()).and_then(|()| out.flush()).map_err(failed("standard output"))?;
    Ok(status)
}

fn main() -> ExitCode {
    let words: Vec<OsString> = std::env::args_os().skip(1).collect();
    let status = run(&words).unwrap_or_else(|words| {
        // Where standard error takes nothing the status still tells.
        let _ = io::stderr().write_all(&[b"hook: ", &words[..], b"\n"].concat());
        2
    });
    ExitCode::from(status)
}
