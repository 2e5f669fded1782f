//! What is told on standard error while servers are asked: a line for each question, which is rewritten on a terminal.

use std::future::Future;
use std::io::Write;
use std::time::Duration;

use tokio::time::Instant;
use zermuita::message::Message;
use zermuita::Wanted;

use crate::net::{Course, Tracked};

/// How often a line is rewritten.
const REWRITTEN: Duration = Duration::from_millis(100);

/// Tells how asking goes.
pub struct Teller {
    is_quiet: bool,
    is_terminal: bool,
}

/// The line of a question to a server.
pub struct Line {
    begin: String,
    server: String,
    is_quiet: bool,
    is_terminal: bool,
}

impl Teller {
    pub fn new(is_quiet: bool) -> Self {
        Teller { is_quiet, is_terminal: atty::is(atty::Stream::Stderr) }
    }

    pub fn line(&self, wanted: &Wanted, server: &str) -> Line {
        Line {
            begin: format!("{}: {} from {server}", wanted.zone, wanted.question),
            server: server.to_owned(),
            is_quiet: self.is_quiet,
            is_terminal: self.is_terminal,
        }
    }
}

fn columns() -> usize {
    std::env::var("COLUMNS").ok().and_then(|it| it.parse().ok()).filter(|it| *it > 1).unwrap_or(80)
}

impl Line {
    /// The zone, the question, the server, its address where it was given by its name, and how asking goes.
    fn text(&self, course: &Course) -> String {
        let mut text = self.begin.clone();
        if let Some(address) = course.address.map(|it| it.ip().to_string()).filter(|it| !self.server.contains(it)) {
            text += &format!(" ({address})");
        }
        text += if course.by_tcp { ", UDP cut off, TCP" } else { ", UDP" };
        if course.sent > 1 + u32::from(course.by_tcp) {
            text += &format!(", {} sent", course.sent);
        }
        if course.timeouts > 0 {
            text += &format!(", {} timed out", course.timeouts);
        }
        text
    }

    fn tell(&self, text: &str) {
        if !self.is_quiet {
            eprintln!("{}{text}", if self.is_terminal { "\r\x1b[K" } else { "" });
        }
    }

    /// Tells how long it is waited, on a terminal, while something is done.
    pub async fn meanwhile<T>(&self, tracked: &Tracked, done: impl Future<Output = T>) -> T {
        let begin = Instant::now();
        tokio::pin!(done);
        loop {
            tokio::select! {
                biased;
                it = &mut done => return it,
                () = tokio::time::sleep(REWRITTEN) => {
                    if self.is_terminal && !self.is_quiet {
                        let text = format!("{}: {} ms", self.text(&tracked.get()), begin.elapsed().as_millis());
                        // A line that is longer than the terminal's could not be written over.
                        let shown: String = text.chars().take(columns() - 1).collect();
                        eprint!("\r\x1b[K{shown}");
                        let _ = std::io::stderr().flush();
                    }
                }
            }
        }
    }

    /// Tells how it ended.
    pub fn ended(&self, course: &Course, answer: Option<&[u8]>) {
        let text = match answer {
            Some(octets) => {
                let rcode = Message::read(octets).map_or_else(|_| "no message".to_owned(), |it| it.rcode().to_string());
                format!("{rcode}, {} octets", octets.len())
            }
            None => format!("no answer{}", course.error.as_ref().map_or_else(String::new, |it| format!(", {it}"))),
        };
        self.tell(&format!("{}: {text}, {:.3} ms", self.text(course), course.elapsed.as_secs_f64() * 1000.0));
    }

    /// Tells why it was not asked.
    pub fn failed(&self, why: &str) {
        self.tell(&format!("{}: {why}", self.begin));
    }
}
