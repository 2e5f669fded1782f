//! Failures of the programs, each with what to do, and colours on a terminal.

use std::path::{Path, PathBuf};

use crate::WRONG_CALL;

/// Why a program ends early.
#[derive(Debug, thiserror::Error)]
pub enum Failure {
    /// A file cannot be read or written.
    #[error("{}: {error}{}", .path.display(), hint(.path))]
    File { path: PathBuf, error: std::io::Error },
    /// What a file has cannot be used.
    #[error("{}: {reason}", .path.display())]
    Content { path: PathBuf, reason: String },
    /// The output cannot be written.
    #[error("the output cannot be written: {0}")]
    Write(#[from] std::io::Error),
    /// A socket cannot be opened.
    #[error("{place}: {error}; {advice}")]
    Socket { place: String, error: std::io::Error, advice: &'static str },
    /// Something else.
    #[error("{0}")]
    Other(String),
}

/// What to do where a file that Debian has in a package is missing.
fn hint(path: &Path) -> &'static str {
    if path == Path::new(crate::cli::ROOT_ANCHOR) && !path.exists() {
        "; install dns-root-data, or name another file by --anchor"
    } else {
        ""
    }
}

impl Failure {
    /// The exit status.
    pub fn status(&self) -> u8 {
        match self {
            Failure::Socket { .. } => 3,
            _ => WRONG_CALL,
        }
    }
}

/// A text file.
pub fn read_text(path: &Path) -> Result<String, Failure> {
    std::fs::read_to_string(path).map_err(|error| Failure::File { path: path.to_owned(), error })
}

/// A file of bytes; `-` is standard input.
pub fn read_bytes(path: &Path) -> Result<Vec<u8>, Failure> {
    let read = if path == Path::new("-") {
        let mut bytes = Vec::new();
        std::io::Read::read_to_end(&mut std::io::stdin().lock(), &mut bytes).map(|_| bytes)
    } else {
        std::fs::read(path)
    };
    read.map_err(|error| Failure::File { path: path.to_owned(), error })
}

/// Now, in seconds since 1970.
pub fn now() -> u64 {
    std::time::UNIX_EPOCH.elapsed().map_or(0, |it| it.as_secs())
}

/// Puts a text in a colour where standard output is a terminal and NO_COLOR is not set.
pub fn coloured(text: &str, colour: Colour) -> String {
    if atty::is(atty::Stream::Stdout) && std::env::var_os("NO_COLOR").is_none() {
        format!("\x1b[{}m{text}\x1b[0m", colour as u8)
    } else {
        text.to_owned()
    }
}

/// Colours of a terminal, by their numbers.
#[derive(Clone, Copy)]
pub enum Colour {
    Red = 31,
    Green = 32,
    Yellow = 33,
}
