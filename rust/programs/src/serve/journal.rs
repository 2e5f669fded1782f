//! A journal on disk: what is behind it once a call returns stays there.

use std::fs::{File, OpenOptions};
use std::io::{self, Write};
use std::os::unix::fs::{FileExt, OpenOptionsExt};
use std::path::{Path, PathBuf};
use std::sync::Arc;

/// The journal, for whoever changes it.
pub struct Journal {
    pub path: PathBuf,
    pub file: Arc<File>,
    pub len: u64,
    /// The file may have more octets than `len`, which are to be cut off before the next line.
    pub is_torn: bool,
}

fn opened(path: &Path) -> io::Result<File> {
    OpenOptions::new().read(true).append(true).create(true).mode(0o600).open(path)
}

/// Sees to it that the names of the files in a folder are on disk.
pub fn keep_names(folder: &Path) -> io::Result<()> {
    File::open(folder)?.sync_all()
}

/// So many octets of a file behind those in front.
pub fn read(file: &File, front: u64, len: u64) -> io::Result<Vec<u8>> {
    let mut octets = vec![0; usize::try_from(len).map_err(|_| io::ErrorKind::OutOfMemory)?];
    file.read_exact_at(&mut octets, front)?;
    Ok(octets)
}

impl Journal {
    /// Opens a journal, which has no octets where there was none.
    pub fn open(path: &Path) -> io::Result<Self> {
        let file = opened(path)?;
        let len = file.metadata()?.len();
        Ok(Journal { path: path.to_owned(), file: Arc::new(file), len, is_torn: false })
    }

    /// Begins the journal with these lines: all of them are there, or none.
    pub fn begin(&mut self, folder: &Path, lines: &[u8]) -> io::Result<()> {
        let next = folder.join("journal.new");
        let mut file = OpenOptions::new().write(true).create(true).truncate(true).mode(0o600).open(&next)?;
        file.write_all(lines)?;
        file.sync_all()?;
        std::fs::rename(&next, &self.path)?;
        keep_names(folder)?;
        *self = Journal::open(&self.path)?;
        Ok(())
    }

    /// Cuts the journal behind so many octets.
    pub fn cut(&mut self, len: u64) -> io::Result<()> {
        self.len = len;
        let cut = self.file.set_len(len).and_then(|()| self.file.sync_all());
        self.is_torn = cut.is_err();
        cut
    }

    /// Writes lines behind the journal. Where that fails, what was written of them is taken away.
    pub fn append(&mut self, lines: &[u8]) -> io::Result<()> {
        if self.is_torn {
            self.cut(self.len)?;
        }
        let written = (&*self.file).write_all(lines).and_then(|()| self.file.sync_all());
        match written {
            Ok(()) => self.len += lines.len() as u64,
            Err(_) => drop(self.cut(self.len)),
        }
        written
    }
}

fn lines(octets: &[u8]) -> impl Iterator<Item = &[u8]> {
    octets.split_inclusive(|it| *it == b'\n').filter(|it| it.ends_with(b"\n")).map(|it| &it[..it.len() - 1])
}

/// How many octets stand up to the end of the last line that is whole and behind which no records wait for a replacement.
pub fn settled(octets: &[u8]) -> usize {
    let (mut at, mut settled) = (0, 0);
    for line in lines(octets) {
        at += line.len() + 1;
        settled = if line.starts_with(b"rr ") { settled } else { at };
    }
    settled
}

/// The lines of the records that the zone has: those in front of the last replacement, or behind the zone's line where there is none.
pub fn last_records(octets: &[u8]) -> Vec<u8> {
    let (mut last, mut waiting) = (Vec::new(), Vec::new());
    let (mut is_first, mut has_last) = (true, false);
    for line in lines(octets) {
        if line.starts_with(b"rr ") {
            waiting.extend_from_slice(line);
            waiting.push(b'\n');
            continue;
        }
        let is_event = !line.is_empty() && !line.starts_with(b"#") && !line.starts_with(b"zone ");
        if is_event && (is_first || line.starts_with(b"replace ")) {
            last = std::mem::take(&mut waiting);
            has_last = true;
        }
        is_first = is_first && !is_event;
    }
    if has_last { last } else { waiting }
}

/// The lines of octets, each without its line feed.
pub fn whole_lines(octets: &[u8]) -> impl Iterator<Item = &[u8]> {
    lines(octets)
}

#[cfg(test)]
mod tests {
    use super::*;

    const JOURNAL: &[u8] = b"# a\nzone example. nsec 0 604800\nrr example. 1 1 6 00\nkey csk a 13 AA== 7\nrr example. 1 1 6 01\nreplace 9\nrr x";

    #[test]
    fn journals_are_read() {
        assert_eq!(settled(JOURNAL), JOURNAL.len() - 4);
        assert_eq!(last_records(JOURNAL), b"rr example. 1 1 6 01\n");
        assert_eq!(last_records(&JOURNAL[..60]), b"rr example. 1 1 6 00\n");
    }
}
