//! The moments of answers and lines: everything is of the moment so many seconds before the clock, and none goes back.

use std::io;
use std::sync::{Mutex, MutexGuard, PoisonError};

use nix::time::{clock_gettime, ClockId};

use super::answered::{Answered, How, Place};
use super::log;
use crate::out::now;

/// What the threads of a process share of moments.
pub struct Moments {
    /// Everything is of the moment so many seconds before the clock.
    pub backdate: u32,
    /// Answers are of moments that are multiples of it, so that signatures serve again.
    step: u32,
    /// Other processes share the folder.
    is_shared: bool,
    known: Mutex<Known>,
}

struct Known {
    /// No moment is before this one.
    floor: u64,
    /// The last moment of an answer, as the file has it.
    answered: u64,
    /// The last one that could not be noted.
    unnoted: u64,
    /// Answers stay at the last moment: a replacement comes to the one behind it.
    is_frozen: bool,
}

/// Seconds by a clock that nobody sets, and that goes on while the machine sleeps.
pub fn boot_seconds() -> u64 {
    clock_gettime(ClockId::CLOCK_BOOTTIME).map_or(0, |it| u64::try_from(it.tv_sec()).unwrap_or(0))
}

impl Moments {
    pub fn new(backdate: u32, step: u32, is_shared: bool, answered: u64) -> Self {
        let known = Mutex::new(Known { floor: answered, answered, unnoted: 0, is_frozen: false });
        Moments { backdate, step, is_shared, known }
    }

    fn known(&self) -> MutexGuard<'_, Known> {
        self.known.lock().unwrap_or_else(PoisonError::into_inner)
    }

    /// The moment that the clock tells, 0 where it was not set yet: a machine may start at 1970.
    pub fn clock(&self) -> u64 {
        now().saturating_sub(u64::from(self.backdate))
    }

    /// The moment of lines that are applied now.
    pub fn line(&self) -> u64 {
        self.clock().max(self.known().floor)
    }

    /// The moment of a line of these words. A report counts for all that was given before it, so also for what was given in its own
    /// second: it takes the next one, in which that second is over. A wait would end up to a second early otherwise.
    pub fn of_line(&self, words: &[u8]) -> u64 {
        let moment = self.line();
        if words.starts_with(b"report") { moment.max(self.clock() + 1) } else { moment }
    }

    /// No moment is before this one from now on.
    pub fn raise(&self, moment: u64) {
        let mut known = self.known();
        known.floor = known.floor.max(moment);
    }

    /// No moment is at or before this one, of a replacement, from now on: no second has two versions of the zone.
    pub fn raise_behind(&self, replaced: u64) {
        self.raise(replaced.saturating_add(1));
    }

    /// Reads the moment that the servers of the folder have come to.
    pub fn read(&self, file: &Answered) -> io::Result<()> {
        let answered = if self.is_shared {
            file.lock(Place::Notes, How::Shared)?;
            let answered = file.read();
            file.unlock(Place::Notes)?;
            answered?
        } else {
            return Ok(());
        };
        let mut known = self.known();
        known.answered = known.answered.max(answered);
        known.floor = known.floor.max(answered);
        Ok(())
    }

    /// Notes a moment, if no other server has noted it or a later one.
    fn note(&self, known: &mut Known, file: &Answered, moment: u64) -> io::Result<()> {
        if self.is_shared {
            file.lock(Place::Notes, How::Alone)?;
            known.answered = file.read()?.max(known.answered);
        }
        let noted = if moment > known.answered { file.note(moment, known.answered) } else { Ok(()) };
        if self.is_shared {
            file.unlock(Place::Notes)?;
        }
        noted?;
        known.answered = known.answered.max(moment);
        Ok(())
    }

    /// Notes a moment as that of an answer.
    pub fn note_answer(&self, file: &Answered, moment: u64) -> io::Result<()> {
        self.note(&mut self.known(), file, moment)
    }

    fn wanted(&self, known: &Known) -> u64 {
        let now = self.clock();
        (now - now % u64::from(self.step)).max(known.floor)
    }

    fn advance(&self, known: &mut Known, file: &Answered) {
        let moment = self.wanted(known);
        if moment <= known.answered {
            return;
        }
        if let Err(error) = self.note(known, file, moment) {
            if known.unnoted != moment {
                known.unnoted = moment;
                log::failure("answered", error).write();
            }
        }
    }

    /// Begins a turn of answers, which are all of one moment. Where that cannot be noted, they are of the last one that was, or none is
    /// given if a line is behind that.
    pub fn begin_answers(&self, file: &Answered) -> Option<u64> {
        let mut known = self.known();
        if !known.is_frozen {
            self.advance(&mut known, file);
        }
        known.floor = known.floor.max(known.answered);
        (known.answered >= known.floor).then_some(known.answered)
    }

    /// The moment of answers now, if it is noted already.
    pub fn is_answered(&self) -> Option<u64> {
        let known = self.known();
        let is_now = known.answered >= known.floor && (known.is_frozen || self.wanted(&known) <= known.answered);
        is_now.then_some(known.answered)
    }

    /// The moment of a replacement: it is behind all answers.
    pub fn of_replacement(&self) -> u64 {
        let answered = self.known().answered;
        self.line().max(answered + 1)
    }

    /// Has answers stay at a moment that can be answered, and gives that of a replacement behind it.
    pub fn freeze(&self, file: &Answered) -> u64 {
        self.advance(&mut self.known(), file);
        self.known().is_frozen = true;
        self.of_replacement()
    }

    pub fn thaw(&self) {
        self.known().is_frozen = false;
    }
}
