//! A thread's zone, which follows the journal.

use zermuita::{Zone, ZoneError};

use super::journal;
use super::moments::Moments;
use super::shared::Shared;

/// A zone as so many octets of the journal make it. It stays with its thread.
pub struct Copy {
    pub zone: Zone,
    pub at: u64,
}

impl Copy {
    /// Opens a zone from a journal's octets, all of which are settled.
    pub fn open(octets: &[u8]) -> Result<Self, ZoneError> {
        Ok(Copy { zone: Zone::open(octets)?, at: octets.len() as u64 })
    }

    /// The same from the journal's first octets.
    pub fn reopen(shared: &Shared, len: u64) -> Result<Self, String> {
        let octets = journal::read(&shared.journal, 0, len).map_err(|error| error.to_string())?;
        Copy::open(&octets).map_err(|error| error.to_string())
    }

    /// Applies the lines of others up to so many octets of the journal, or opens it anew where they are refused.
    pub fn follow(&mut self, shared: &Shared, len: u64) -> Result<(), String> {
        if len <= self.at {
            return Ok(());
        }
        let octets = journal::read(&shared.journal, self.at, len - self.at).map_err(|error| error.to_string())?;
        for line in journal::whole_lines(&octets) {
            follow_key(shared, line);
            if self.zone.apply(line).is_err() {
                *self = Copy::reopen(shared, len)?;
                break;
            }
        }
        self.at = len;
        self.raise(&shared.moments).map_err(|error| error.to_string())
    }

    /// From now on no moment is before the zone's lines, and none is one that the zone does not answer.
    pub fn raise(&mut self, moments: &Moments) -> Result<(), ZoneError> {
        let facts = self.zone.facts()?;
        moments.raise(facts.last.max(facts.answers_from));
        Ok(())
    }

    /// Applies what other processes wrote, once it is on disk. What is not whole at the end is of one that was killed: it is not applied.
    /// Gives how many octets there are behind what was applied.
    pub fn catch_up(&mut self, shared: &Shared) -> Result<u64, String> {
        let len = shared.journal.metadata().map_err(|error| error.to_string())?.len();
        if len < self.at {
            return Err("the journal has become shorter".to_owned());
        }
        if len == self.at {
            return Ok(0);
        }
        shared.journal.sync_all().map_err(|error| error.to_string())?;
        let octets = journal::read(&shared.journal, self.at, len - self.at).map_err(|error| error.to_string())?;
        self.follow(shared, self.at + journal::settled(&octets) as u64)?;
        Ok(len - self.at)
    }
}

/// Reads the key that a line adds, if it adds one.
fn follow_key(shared: &Shared, line: &[u8]) {
    if !line.starts_with(b"key ") {
        return;
    }
    if let Some(name) = String::from_utf8_lossy(line).split(' ').nth(2) {
        if shared.keys.named(name).is_none() {
            shared.keys.log_unread(name);
        }
    }
}
