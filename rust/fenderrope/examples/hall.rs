//! What a hall's program can start from: examples/hall.c in Rust, with the same options, words and answers.
//!
//!     hall FILE             says which press the lock tag in FILE locks, or why it is no lock tag
//!     hall make NAME FILE   makes a version 4 lock tag for the press NAME and writes it to FILE
//!
//! The press is named by feature 11: 1 to 12 upper-case letters and digits, in C40. The line of a locked press ends
//! with the frame that a camera overlay draws around the feature: the place of its tag in FILE, and how many bytes tag,
//! length and value are together. The line of a refused FILE is followed by six that say why. The status is 0 where a
//! press is locked or a tag made, 1 where FILE is refused or is no lock tag, and 2 where something else is wrong;
//! standard error then says what.
//!
//! Signing is the signing unit's work: make gives it the signed bytes on standard output and takes the raw signature,
//! 64 bytes, from standard input. So is verifying: what is printed is what the tag says, not that it is genuine.

use std::ffi::{OsStr, OsString};
use std::fs::{self, File};
use std::io::{self, Read, Write};
use std::os::unix::ffi::OsStrExt;
use std::process::ExitCode;
use std::time::{SystemTime, UNIX_EPOCH};

use fenderrope::{c40_read, c40_write, read, why, write, Date, Header, Refusal};
use fenderrope::{ROW, ROW_TAG, ROW_VALUE_LENGTH, SEAL_MOST, TABLE_MOST, TEXT_MOST};

const PRESS: usize = 11;
const NAME_MOST: usize = 12;
const VALUE_MOST: usize = 8;
const SIGNATURE: usize = 64;

/// Why the program ends without its answer: the status, and what standard error says.
#[derive(Debug)]
pub struct Fault(pub u8, pub Vec<u8>);

impl Fault {
    /// Something that is not the tag's is wrong.
    fn wrong(words: &str) -> Fault {
        Fault(2, words.into())
    }

    /// A file cannot be opened, read or written: the system's words, without the number that Rust puts behind them.
    fn failed(what: impl AsRef<OsStr>) -> impl FnOnce(io::Error) -> Fault {
        move |error| {
            let words = error.to_string();
            let why = words.split(" (os error ").next().unwrap_or(&words);
            Fault(2, [what.as_ref().as_bytes(), b": ", why.as_bytes()].concat())
        }
    }
}

impl From<Refusal> for Fault {
    fn from(refusal: Refusal) -> Fault {
        Fault(1, refusal.to_string().into())
    }
}

/// Puts bytes on standard output; a line that did not get there is no answer.
fn say(bytes: &[u8]) -> Result<(), Fault> {
    let mut out = io::stdout().lock();
    out.write_all(bytes).and_then(|()| out.flush()).map_err(Fault::failed("standard output"))
}

/// At most so many bytes, and all that there are if they are no more.
fn bytes_of(from: impl Read, most: usize) -> io::Result<Vec<u8>> {
    let mut bytes = Vec::new();
    from.take(most as u64).read_to_end(&mut bytes)?;
    Ok(bytes)
}

/// Text that went through C40 is a press's name if it is not empty and has no space.
fn is_name(text: &[u8]) -> bool {
    !text.is_empty() && !text.contains(&b' ')
}

/// The press's name in a feature's value.
fn name_in(value: &[u8]) -> Option<String> {
    let mut name = [0; NAME_MOST];
    let count = c40_read(value, &mut name).ok()?;
    is_name(&name[..count]).then(|| String::from_utf8_lossy(&name[..count]).into_owned())
}

/// The line of a refused seal, and the six that say why.
fn refused(seal: &[u8], refusal: Refusal) -> String {
    let why = why(seal).map_or(String::new(), |reason| format!("\n{reason}"));
    format!("{refusal}{why}")
}

/// What is said of the bytes of a file, and the status.
pub fn told(seal: &[u8]) -> (u8, String) {
    let (mut table, mut text) = ([0; TABLE_MOST], [0; TEXT_MOST]);
    let reading = match read(seal, &mut table, &mut text) {
        Ok(reading) => reading,
        Err(refusal) => return (1, refused(seal, refusal)),
    };
    let Some(press) = reading.feature(PRESS) else {
        return (1, "no lock tag: no press is named".to_string());
    };
    let Some(name) = name_in(press.value) else {
        return (1, format!("no lock tag: no name of a press at {}", press.place));
    };
    let (signer, reference) = reading.names();
    // What the overlay draws: the whole feature, up to its value's end.
    let (frame, length) = (press.tag_place, press.whole.len());
    (0, format!("locked {name}, signer {signer}, reference {reference}, frame at {frame} length {length}"))
}

fn show(path: &OsStr) -> Result<u8, Fault> {
    // A byte more than a seal: a longer file is refused.
    let seal = File::open(path).and_then(|file| bytes_of(file, SEAL_MOST + 1)).map_err(Fault::failed(path))?;
    let (status, lines) = told(&seal);
    say((lines + "\n").as_bytes())?;
    Ok(status)
}

/// The date so many days after 1 January 1970.
pub fn date_after(mut days: u64) -> Date {
    let leap = |year| u64::from(year % 4 == 0 && (year % 100 != 0 || year % 400 == 0));
    let mut year = 1970;
    while days >= 365 + leap(year) {
        days -= 365 + leap(year);
        year += 1;
    }
    let lengths = [31, 28 + leap(year), 31, 30, 31, 30, 31, 31, 30, 31, 30, 31];
    let mut month = 0;
    while days >= lengths[month] {
        days -= lengths[month];
        month += 1;
    }
    Date { month: month + 1, day: days as usize + 1, year }
}

/// Today by UTC; no date, which the writer refuses, where the clock has none.
fn today() -> Date {
    let since = SystemTime::now().duration_since(UNIX_EPOCH);
    since.map_or(Date::default(), |time| date_after(time.as_secs() / 86_400))
}

/// A tag for the press whose signature is still zeros.
pub fn unsigned(name: &[u8], day: Date) -> Result<Vec<u8>, Fault> {
    let (mut value, mut seal) = ([0; VALUE_MOST], [0; SEAL_MOST]);
    let count = match c40_write(name, &mut value) {
        Ok(count) if is_name(name) => count,
        _ => return Err(Fault::wrong("a press's name is 1 to 12 upper-case letters and digits")),
    };
    let (version, country, definition, category) = (4, *b"UTO", 1, 2);
    let header = Header { version, country, length: 5, issued_on: day, signed_on: day, definition, category };
    // The value's place is 0, and the writer ignores the tag's.
    let mut row = [0; ROW];
    (row[ROW_TAG], row[ROW_VALUE_LENGTH]) = (PRESS, count);
    // The text is the signer, and the reference of its certificate.
    let length = write(&header, b"UTAB00001", &row, &value, &[0; SIGNATURE], &mut seal)?;
    Ok(seal[..length].to_vec())
}

fn make(name: &OsStr, path: &OsStr) -> Result<u8, Fault> {
    let unsigned = unsigned(name.as_bytes(), today())?;
    let (mut table, mut text, mut seal) = ([0; TABLE_MOST], [0; TEXT_MOST], [0; SEAL_MOST]);
    let reading = read(&unsigned, &mut table, &mut text)?;
    say(reading.signed())?;
    let signature = bytes_of(io::stdin(), SIGNATURE + 1).map_err(Fault::failed("standard input"))?;
    if signature.len() != SIGNATURE {
        return Err(Fault::wrong("the raw signature is not 64 bytes"));
    }
    let length = reading.write(&signature, &mut seal)?;
    fs::write(path, &seal[..length]).map_err(Fault::failed(path))?;
    Ok(0)
}

fn main() -> ExitCode {
    let words: Vec<OsString> = std::env::args_os().skip(1).collect();
    let ended = match &words[..] {
        [path] => show(path),
        [verb, name, path] if verb == "make" => make(name, path),
        _ => Err(Fault::wrong("usage: hall FILE, or hall make NAME FILE")),
    };
    let status = ended.unwrap_or_else(|Fault(status, words)| {
        // Where standard error takes nothing the status still tells.
        let _ = io::stderr().write_all(&[b"hall: ", &words[..], b"\n"].concat());
        status
    });
    ExitCode::from(status)
}
