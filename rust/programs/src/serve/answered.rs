//! The last moment of an answer, in the file `answered` of a folder. It is on disk before the first answer of that moment is given, so
//! that behind a crash, too, moments do not go back, and a replacement takes none that an answer had. Servers that share the folder take
//! turns by locks on the file's octets, which end with the process that has them.

use std::fs::{File, OpenOptions};
use std::io;
use std::os::unix::fs::{FileExt, OpenOptionsExt};
use std::os::unix::io::AsRawFd;
use std::path::Path;

use nix::fcntl::{fcntl, FcntlArg};
use nix::libc;

use super::journal::keep_names;

/// What the octets stand for that are locked. Whoever answers shares `Answers`, whoever changes the journal has it alone, and each passes
/// by `Door` to it, so that a change does not wait for ever while others answer. `Notes` is for the file's moment, `Commands` for the
/// socket that brings commands.
#[derive(Clone, Copy)]
pub enum Place {
    Door,
    Answers,
    Notes,
    Commands,
}

/// How a place is locked.
#[derive(Clone, Copy, PartialEq, Eq)]
pub enum How {
    Shared,
    Alone,
}

/// 20 digits and a line feed: a write of one sector, which is there whole or not at all.
const LEN: usize = 21;

/// The file, opened once for each thread: its locks are those of the thread.
pub struct Answered(File);

impl Answered {
    /// Opens the file, a new one where there is none.
    pub fn open(folder: &Path) -> io::Result<Self> {
        let path = folder.join("answered");
        let file = OpenOptions::new().read(true).write(true).create(true).mode(0o600).open(path)?;
        keep_names(folder)?;
        Ok(Answered(file))
    }

    /// Reads the moment; 0 of a new file.
    pub fn read(&self) -> io::Result<u64> {
        let mut octets = [0; LEN];
        let len = self.0.read_at(&mut octets, 0)?;
        let wrong = || io::Error::new(io::ErrorKind::InvalidData, "the file `answered` has no moment");
        match (len, std::str::from_utf8(&octets[..LEN - 1])) {
            (0, _) => Ok(0),
            (LEN, Ok(digits)) if octets[LEN - 1] == b'\n' => digits.parse().map_err(|_| wrong()),
            _ => Err(wrong()),
        }
    }

    fn write(&self, moment: u64) -> io::Result<()> {
        self.0.write_all_at(format!("{moment:020}\n").as_bytes(), 0)
    }

    /// Notes a moment. Where it does not get to the disk, the file has the one before again: what other servers read there is noted.
    pub fn note(&self, moment: u64, before: u64) -> io::Result<()> {
        let noted = self.write(moment).and_then(|()| self.0.sync_data());
        if noted.is_err() {
            let _ = self.write(before);
        }
        noted
    }

    fn set(&self, place: Place, kind: libc::c_int, waits: bool) -> io::Result<()> {
        let lock = libc::flock {
            l_type: kind as libc::c_short,
            l_whence: libc::SEEK_SET as libc::c_short,
            l_start: place as libc::off_t,
            l_len: 1,
            l_pid: 0,
        };
        loop {
            let arg = if waits { FcntlArg::F_OFD_SETLKW(&lock) } else { FcntlArg::F_OFD_SETLK(&lock) };
            match fcntl(self.0.as_raw_fd(), arg) {
                Ok(_) => return Ok(()),
                Err(nix::errno::Errno::EINTR) => {}
                Err(error) => return Err(error.into()),
            }
        }
    }

    /// Waits for a place.
    pub fn lock(&self, place: Place, how: How) -> io::Result<()> {
        self.set(place, if how == How::Alone { libc::F_WRLCK } else { libc::F_RDLCK }, true)
    }

    /// Takes a place for itself, if nobody has it.
    pub fn try_lock(&self, place: Place) -> bool {
        self.set(place, libc::F_WRLCK, false).is_ok()
    }

    pub fn unlock(&self, place: Place) -> io::Result<()> {
        self.set(place, libc::F_UNLCK, true)
    }

    /// Waits for a turn: to answer beside others, or to change the journal alone.
    pub fn take_turn(&self, how: How) -> io::Result<()> {
        self.lock(Place::Door, how)?;
        self.lock(Place::Answers, how)?;
        self.unlock(Place::Door)
    }
}
