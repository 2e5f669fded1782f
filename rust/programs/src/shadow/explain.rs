//! Reasons for disagreements: a program that explains sessions, as `./explain` does, is run on each. A thread of its own runs it, so
//! that nothing that is judged waits for it, and writes the lines.

use std::collections::VecDeque;
use std::path::{Path, PathBuf};
use std::sync::{Arc, Condvar, Mutex, MutexGuard, PoisonError};
use std::thread::JoinHandle;
use std::time::{Duration, Instant};

use serde_json::{json, Map, Value};

use super::program::{self, NotRun};
use super::report::Lines;

const MOST_LINES: usize = 1024;
const MOST_OCTETS: usize = 16 << 20;
const MINUTE: Duration = Duration::from_secs(60);
/// For how long lines are explained once no more will come.
const LAST: Duration = Duration::from_secs(10);

/// A line: reasons stand between both parts. There is a session, or a reason why there is none.
pub struct Line {
    pub results: Map<String, Value>,
    pub case: Value,
    pub session: Result<String, String>,
}

#[derive(Default)]
struct Handed {
    lines: VecDeque<Line>,
    octets: usize,
    explained: u64,
    unexplained: u64,
    end: Option<Instant>,
}

struct Shared {
    handed: Mutex<Handed>,
    filled: Condvar,
    lines: Lines,
    program: PathBuf,
}

/// Has lines explained, so many a minute at most.
pub struct Explainer {
    shared: Arc<Shared>,
    thread: Option<JoinHandle<()>>,
    most_per_minute: u64,
    in_minute: u64,
    minute: Instant,
}

/// The members of what is printed for the last event, which is the judgement.
fn reasons_of(printed: &str) -> Option<Value> {
    let last = printed.trim_end_matches('\n').rsplit('\n').next()?;
    let told: Value = serde_json::from_str(last).ok()?;
    let (said, notes, reasons) = (told.get("printed")?, told.get("notes")?, told.get("reasons")?);
    (said.is_string() && notes.is_array() && reasons.is_object()).then(|| json!({"printed": said, "notes": notes, "reasons": reasons}))
}

fn len_of(line: &Line) -> usize {
    line.session.as_ref().map_or(0, String::len) * 2
}

impl Shared {
    fn lock(&self) -> MutexGuard<'_, Handed> {
        self.handed.lock().unwrap_or_else(PoisonError::into_inner)
    }

    /// Writes a line with reasons, or why there are none.
    fn write(&self, line: Line, reasons: Result<Value, &str>) {
        let Line { mut results, case, .. } = line;
        let is_explained = reasons.is_ok();
        match reasons {
            Ok(reasons) => {
                results.insert("explained".to_owned(), reasons);
            }
            Err(why) => {
                results.insert("explained".to_owned(), Value::Null);
                results.insert("not explained".to_owned(), why.into());
            }
        }
        results.insert("case".to_owned(), case);
        let mut handed = self.lock();
        *(if is_explained { &mut handed.explained } else { &mut handed.unexplained }) += 1;
        drop(handed);
        self.lines.write(&Value::Object(results));
    }

    fn explained(&self, session: &str) -> Result<Value, &'static str> {
        let printed = program::run(&self.program, session).map_err(NotRun::word)?;
        reasons_of(&printed).ok_or("no reasons")
    }

    /// The next line, and whether it comes too late; none if no more will come.
    fn next(&self) -> Option<(Line, bool)> {
        let mut handed = self.lock();
        while handed.lines.is_empty() && handed.end.is_none() {
            handed = self.filled.wait(handed).unwrap_or_else(PoisonError::into_inner);
        }
        let line = handed.lines.pop_front()?;
        handed.octets -= len_of(&line);
        let is_late = handed.end.map_or(false, |it| Instant::now() >= it);
        Some((line, is_late))
    }

    fn run(&self) {
        while let Some((line, is_late)) = self.next() {
            let told = match &line.session {
                Ok(_) if is_late => Err("end"),
                Ok(session) => self.explained(session),
                Err(_) => Err("failed"),
            };
            self.write(line, told);
        }
    }
}

impl Explainer {
    pub fn new(program: &Path, most_per_minute: u64, lines: Lines) -> std::io::Result<Self> {
        let shared =
            Arc::new(Shared { handed: Mutex::default(), filled: Condvar::new(), lines, program: program.to_owned() });
        let of_thread = shared.clone();
        let thread = std::thread::Builder::new().name("explain".to_owned()).spawn(move || of_thread.run())?;
        Ok(Explainer { shared, thread: Some(thread), most_per_minute, in_minute: 0, minute: Instant::now() })
    }

    /// Whether one more may be explained in this minute.
    fn is_within_limit(&mut self) -> bool {
        if self.minute.elapsed() >= MINUTE {
            (self.minute, self.in_minute) = (Instant::now(), 0);
        }
        self.in_minute < self.most_per_minute
    }

    /// Takes a line: it is written once it is explained; at once, with no reasons, if too many are to be.
    pub fn explain(&mut self, line: Line) {
        let len = len_of(&line);
        let is_within_limit = self.is_within_limit();
        let mut handed = self.shared.lock();
        let why = match &line.session {
            Err(why) => Some(why.clone()),
            Ok(_) if !is_within_limit => Some("limit".to_owned()),
            Ok(_) if handed.lines.len() >= MOST_LINES || handed.octets + len > MOST_OCTETS => Some("room".to_owned()),
            Ok(_) => None,
        };
        match why {
            Some(why) => {
                drop(handed);
                self.shared.write(line, Err(&why));
            }
            None => {
                handed.octets += len;
                handed.lines.push_back(line);
                self.in_minute += 1;
                self.shared.filled.notify_one();
            }
        }
    }

    /// Waits, for a while, until all lines are explained, and writes them all. None may be handed over from then on.
    pub fn end(&mut self) {
        self.shared.lock().end = Some(Instant::now() + LAST);
        self.shared.filled.notify_one();
        if let Some(thread) = self.thread.take() {
            let _ = thread.join();
        }
    }

    /// How many lines were explained, and how many were not.
    pub fn counts(&self) -> (u64, u64) {
        let handed = self.shared.lock();
        (handed.explained, handed.unexplained)
    }
}

#[cfg(test)]
mod tests {
    use super::*;

    #[test]
    fn reasons_are_of_the_last_line() {
        let line = r#"{"printed":"Records","notes":[],"reasons":{"agrees":true},"more":1}"#;
        let reasons = json!({"printed": "Records", "notes": [], "reasons": {"agrees": true}});
        assert_eq!(reasons_of(&format!("{{}}\n{line}\n\n")), Some(reasons));
        for text in ["", "words", "[]", r#"{"printed":"","notes":[],"reasons":null}"#] {
            assert_eq!(reasons_of(text), None, "{text}");
        }
    }
}
