//! The turns of threads, and of processes that share a folder. While one of them changes the journal, none answers; and before each answer
//! a thread has applied what the others wrote. So a line is in all zones before anybody hears that it was accepted, and the second of a
//! replacement is behind the answers of all of them.

use std::sync::{Arc, PoisonError, RwLock, RwLockReadGuard, RwLockWriteGuard};

use super::answered::{Answered, How, Place};
use super::log;

/// The turns, with how many octets of the journal are to be applied.
pub struct Turns {
    len: RwLock<u64>,
    /// Other processes share the folder.
    pub is_shared: bool,
}

/// Gives up the place of a process when the turn is over.
struct Release(Option<Arc<Answered>>);

impl Drop for Release {
    fn drop(&mut self) {
        if let Some(Err(error)) = self.0.as_ref().map(|it| it.unlock(Place::Answers)) {
            fail(error);
        }
    }
}

/// A turn of answers.
pub struct Answering<'a> {
    pub len: u64,
    _turn: RwLockReadGuard<'a, u64>,
    _release: Release,
}

/// A turn of changes.
pub struct Changing<'a> {
    turn: RwLockWriteGuard<'a, u64>,
    _release: Release,
}

impl Changing<'_> {
    /// The journal has so many octets now.
    pub fn set(&mut self, len: u64) {
        *self.turn = len;
    }
}

/// Ends the server: it does not know what others do.
pub fn fail(why: impl std::fmt::Display) -> ! {
    log::failure("turn", why).write();
    std::process::exit(1)
}

impl Turns {
    pub fn new(len: u64, is_shared: bool) -> Self {
        Turns { len: RwLock::new(len), is_shared }
    }

    fn take(&self, file: &Arc<Answered>, how: How) -> Release {
        if !self.is_shared {
            return Release(None);
        }
        file.take_turn(how).unwrap_or_else(|error| fail(error));
        Release(Some(file.clone()))
    }

    /// Waits for a turn to answer.
    pub fn answer(&self, file: &Arc<Answered>) -> Answering<'_> {
        let release = self.take(file, How::Shared);
        let turn = self.len.read().unwrap_or_else(PoisonError::into_inner);
        Answering { len: *turn, _turn: turn, _release: release }
    }

    /// Waits for a turn to answer what was answered before, where no other process shares the folder.
    pub fn answer_again(&self) -> Option<RwLockReadGuard<'_, u64>> {
        (!self.is_shared).then(|| self.len.read().unwrap_or_else(PoisonError::into_inner))
    }

    /// Waits for a turn to change the journal.
    pub fn change(&self, file: &Arc<Answered>) -> Changing<'_> {
        let release = self.take(file, How::Alone);
        Changing { turn: self.len.write().unwrap_or_else(PoisonError::into_inner), _release: release }
    }
}
