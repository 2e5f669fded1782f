//! The log: what happens, as objects of JSON (RFC 8259), a line each. Queries are counted, not told.

use std::fmt::{Display, Write as _};
use std::fs::{File, OpenOptions};
use std::io::{self, Write};
use std::os::unix::fs::OpenOptionsExt;
use std::path::{Path, PathBuf};
use std::sync::{Mutex, MutexGuard, PoisonError};
use std::time::UNIX_EPOCH;

use serde_json::{Map, Value};

use crate::text;

/// Where the log goes: a file by its name, or standard error.
struct Log {
    path: Option<PathBuf>,
    file: Option<File>,
    /// Its last line has no end.
    is_torn: bool,
}

static LOG: Mutex<Log> = Mutex::new(Log { path: None, file: None, is_torn: false });

fn log() -> MutexGuard<'static, Log> {
    LOG.lock().unwrap_or_else(PoisonError::into_inner)
}

/// Has the log go to the end of a file. Where that does not open, it goes where it went.
pub fn open(path: &Path) -> io::Result<()> {
    let file = OpenOptions::new().append(true).create(true).mode(0o600).open(path)?;
    *log() = Log { path: Some(path.to_owned()), file: Some(file), is_torn: false };
    Ok(())
}

/// Opens the log's file again, by its name: another one may be there, as after a rotation.
pub fn reopen(who: &str) {
    let path = log().path.clone();
    if let Some(Err(error)) = path.map(|it| open(&it)) {
        failure("log", error).write();
    }
    event("reopened").with("who", who).write();
}

/// What happens, with its members.
#[must_use]
pub struct Event(Map<String, Value>);

/// An event of a name.
pub fn event(name: &str) -> Event {
    let mut members = Map::new();
    members.insert("time".to_owned(), now().into());
    members.insert("pid".to_owned(), std::process::id().into());
    members.insert("event".to_owned(), name.into());
    Event(members)
}

/// What failed, and why.
pub fn failure(what: impl Display, why: impl Display) -> Event {
    event("failure").with("what", what.to_string()).with("why", why.to_string())
}

impl Event {
    pub fn with(mut self, name: &str, value: impl Into<Value>) -> Self {
        self.0.insert(name.to_owned(), value.into());
        self
    }

    /// Writes the line, by one call, so that processes may share a file. What does not get there is lost, and the next line begins anew.
    pub fn write(self) {
        let line = in_ascii(&Value::Object(self.0).to_string()) + "\n";
        let mut log = log();
        if log.is_torn && log.put("\n") != 1 {
            return;
        }
        let written = log.put(&line);
        log.is_torn = if written > 0 { written < line.len() } else { log.is_torn };
    }
}

impl Log {
    fn put(&mut self, line: &str) -> usize {
        let written = match &mut self.file {
            Some(file) => file.write(line.as_bytes()),
            None => io::stderr().write(line.as_bytes()),
        };
        written.unwrap_or(0)
    }
}

/// The same text of JSON, with escapes in the place of all characters that are not of ASCII.
fn in_ascii(json: &str) -> String {
    let mut text = String::with_capacity(json.len());
    for character in json.chars() {
        if character.is_ascii() && character != '\x7f' {
            text.push(character);
        } else {
            for unit in character.encode_utf16(&mut [0; 2]) {
                let _ = write!(text, "\\u{unit:04x}");
            }
        }
    }
    text
}

/// Octets as text: each is the character of its number.
pub fn latin(octets: &[u8]) -> String {
    octets.iter().map(|it| char::from(*it)).collect()
}

/// The time (RFC 3339).
fn now() -> String {
    let now = UNIX_EPOCH.elapsed().unwrap_or_default();
    let digits = text::moment(now.as_secs());
    let part = |from: usize, to: usize| digits.get(from..to).unwrap_or("");
    let (date, time) = ([part(0, 4), part(4, 6), part(6, 8)].join("-"), [part(8, 10), part(10, 12), part(12, 14)].join(":"));
    format!("{date}T{time}.{:03}Z", now.subsec_millis())
}

#[cfg(test)]
mod tests {
    use super::*;

    #[test]
    fn octets_of_all_kinds_are_escaped() {
        let octets: Vec<u8> = (0..=255).collect();
        let json = in_ascii(&Value::String(latin(&octets)).to_string());
        assert!(json.bytes().all(|it| (0x20..0x7f).contains(&it)));
        assert_eq!(serde_json::from_str::<String>(&json).unwrap(), latin(&octets));
    }

    #[test]
    fn times_are_of_rfc_3339() {
        let now = now();
        assert_eq!((now.len(), &now[4..5], &now[10..11], &now[19..20], &now[23..]), (24, "-", "T", ".", "Z"));
    }
}
