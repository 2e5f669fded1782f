//! Reports that nobody has to make: a process beside the server asks the zone's servers and the parent's, and makes a report, or ends a
//! roll, once all of them show the change. It believes what they say: the way to them is to be one on which nobody forges.
//!
//! A report's TTL is the greatest of what was there before: of the zone the greatest that its records have or had; of the parent the
//! greatest that its servers said, which is known where each of them was asked while it had another DS set.

mod ask;
mod digests;
mod look;

use std::io::Write;
use std::net::SocketAddr;
use std::process::{Child, Command, Stdio};
use std::time::{Duration, Instant};

pub use look::run;

use super::config::Config;
use super::log;

/// How long behind its end the process begins again.
const AGAIN: Duration = Duration::from_secs(5);

/// The process that watches, as the server has it: the same program with the same settings, so that it has nothing of the server's memory,
/// keys least of all, and none of its descriptors.
pub struct Watcher {
    words: Vec<String>,
    process: Option<Child>,
    begin_at: Instant,
}

impl Watcher {
    /// None where no server is watched.
    pub fn new(config: &Config) -> Option<Self> {
        if config.watch.is_empty() && config.parent.is_empty() {
            return None;
        }
        let mut words = vec!["serve".to_owned(), "look".to_owned(), format!("--own={}", own(config.listen[0]))];
        words.push(format!("--look={}", config.look));
        words.extend(config.watch.iter().map(|it| format!("--watch={it}")));
        words.extend(config.parent.iter().map(|it| format!("--parent={it}")));
        words.extend(config.log.file.iter().map(|it| format!("--log={}", it.display())));
        words.push(config.folder.display().to_string());
        Some(Watcher { words, process: None, begin_at: Instant::now() })
    }

    /// Begins the process, or begins it again seconds after it ended.
    pub fn keep(&mut self) {
        if let Some(Ok(Some(_))) = self.process.as_mut().map(Child::try_wait) {
            log::failure("watch", "it ended, and begins again").write();
            self.process = None;
            self.begin_at = Instant::now() + AGAIN;
        }
        if self.process.is_none() && Instant::now() >= self.begin_at {
            self.begin_at = Instant::now() + AGAIN;
            let begun = Command::new("/proc/self/exe").args(&self.words).stdin(Stdio::piped()).stdout(Stdio::null()).spawn();
            match begun {
                Ok(process) => self.process = Some(process),
                Err(error) => log::failure("watch", error).write(),
            }
        }
    }

    /// Has the process open the log again.
    pub fn reopen_log(&mut self) {
        if let Some(input) = self.process.as_mut().and_then(|it| it.stdin.as_mut()) {
            let _ = input.write_all(b"\n");
        }
    }

    /// Ends the process.
    pub fn end(&mut self) {
        if let Some(mut process) = self.process.take() {
            let _ = process.kill();
            let _ = process.wait();
        }
    }
}

/// Where the server itself is asked: where it answers on all addresses, by loopback.
fn own(address: SocketAddr) -> SocketAddr {
    let ip = match address {
        SocketAddr::V4(it) if it.ip().is_unspecified() => std::net::Ipv4Addr::LOCALHOST.into(),
        SocketAddr::V6(it) if it.ip().is_unspecified() => std::net::Ipv6Addr::LOCALHOST.into(),
        other => other.ip(),
    };
    SocketAddr::new(ip, address.port())
}
