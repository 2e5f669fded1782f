//! Lines: applied, kept on disk, and told to the log.

use zermuita::{Applied, Zone};

use super::copy::Copy;
use super::journal;
use super::keeper::{Done, Keeper};
use super::log;
use super::shared::Shared;
use super::turns::Changing;
use super::worker::Worker;
use crate::text;

/// How long a line of words may be.
const LINE_ROOM: usize = 4096;

/// Applies a line, and says what it tells.
pub fn apply(zone: &mut Zone, line: &[u8]) -> Done {
    match zone.apply(line) {
        Ok(Applied::Told(text)) => Ok(format!("{text}\n")),
        Ok(Applied::Untold) => Ok(String::new()),
        Err(zermuita::ZoneError::Refused { reason, .. }) => Err(format!("{reason}\n")),
        Err(error) => Err(format!("{error}\n")),
    }
}

/// Logs lines that were written behind the journal, each but those of records, which are counted in front of the line that they belong to.
pub fn log_lines(lines: &[u8]) {
    let mut records: u64 = 0;
    for line in journal::whole_lines(lines) {
        if line.starts_with(b"rr ") {
            records += 1;
            continue;
        }
        let event = log::event("journal").with("line", log::latin(line));
        if records > 0 { event.with("records", records) } else { event }.write();
        records = 0;
    }
    if records > 0 {
        log::event("journal").with("records", records).write();
    }
}

/// Opens the zone of a thread anew from the journal, behind which it is ahead. Where that fails the server ends.
fn reopen(shared: &Shared, copy: &mut Copy, len: u64) {
    match Copy::reopen(shared, len) {
        Ok(opened) => *copy = opened,
        Err(error) => {
            log::failure("journal", error).write();
            std::process::exit(1);
        }
    }
}

/// Writes lines that were applied behind the journal. Where the disk does not take them, the zone is as the journal has it.
pub fn keep(keeper: &mut Keeper, worker: &mut Worker, lines: &[u8]) -> Result<(), String> {
    match keeper.journal.append(lines) {
        Ok(()) => {
            worker.copy.at = keeper.journal.len;
            log_lines(lines);
            Ok(())
        }
        Err(error) => {
            log::failure("journal", &error).write();
            reopen(&keeper.shared, &mut worker.copy, keeper.journal.len);
            Err(format!("the journal was not written: {error}\n"))
        }
    }
}

/// Applies a line of words, at its moment, and keeps it.
pub fn accept(keeper: &mut Keeper, worker: &mut Worker, turn: &mut Changing<'_>, words: &[u8]) -> Done {
    let moment = keeper.shared.moments.of_line(words);
    let mut line = [words, b" ", moment.to_string().as_bytes()].concat();
    if line.len() + 1 >= LINE_ROOM {
        return Err("the line is too long\n".to_owned());
    }
    let said = apply(&mut worker.copy.zone, &line)?;
    line.push(b'\n');
    keeper.shared.moments.raise(moment);
    keep(keeper, worker, &line)?;
    turn.set(keeper.journal.len);
    Ok(said)
}

/// Adds the key of a PEM file, which is on disk before the journal names the key: nothing else can sign the zone then.
pub fn add_key(keeper: &mut Keeper, worker: &mut Worker, turn: &mut Changing<'_>, kind: &str, name: &str) -> Done {
    let keys = keeper.shared.keys.clone();
    let key = keys.named(name).ok_or_else(|| format!("no key {name}.pem in {}\n", keys.folder.display()))?;
    keys.keep(name).map_err(|error| format!("{name}.pem: {error}\n"))?;
    let words = format!("key {kind} {name} {} {}", key.algorithm.0, text::base64(&key.octets));
    accept(keeper, worker, turn, words.as_bytes())
}
