//! The file of disagreements and counts: a JSON object in each line.

use std::fs::{File, OpenOptions};
use std::io::{self, Write};
use std::path::PathBuf;
use std::sync::{Arc, Mutex, PoisonError};

use serde_json::{json, Map, Value};
use zermuita::{Checked, Name, Question, UnixTime};

use super::explain::{Explainer, Line};
use super::judge::{Finding, Trial};
use super::session;
use super::told::{Claim, Ruling, Told};

/// Where lines go. It is shared by the thread that judges and the one that explains.
#[derive(Clone)]
pub struct Lines(Arc<Mutex<Sink>>);

struct Sink {
    path: Option<PathBuf>,
    file: Option<File>,
    has_failed: bool,
}

fn opened(path: &PathBuf) -> io::Result<File> {
    OpenOptions::new().append(true).create(true).open(path)
}

impl Sink {
    fn write(&mut self, line: &str) -> io::Result<()> {
        match &mut self.file {
            Some(file) => file.write_all(line.as_bytes()),
            None => {
                let mut out = io::stdout().lock();
                out.write_all(line.as_bytes()).and_then(|()| out.flush())
            }
        }
    }
}

impl Lines {
    /// Those of a file, to whose end they are put; of standard output if none is named.
    pub fn new(path: Option<PathBuf>) -> io::Result<Self> {
        let file = path.as_ref().map(opened).transpose()?;
        Ok(Lines(Arc::new(Mutex::new(Sink { path, file, has_failed: false }))))
    }

    fn with<T>(&self, work: impl FnOnce(&mut Sink) -> T) -> T {
        work(&mut self.0.lock().unwrap_or_else(PoisonError::into_inner))
    }

    /// Opens the file again, which may have been moved.
    pub fn reopen(&self) {
        self.with(|sink| match sink.path.as_ref().map(opened) {
            Some(Ok(file)) => sink.file = Some(file),
            Some(Err(error)) => tracing::error!(path = ?sink.path, "the file of disagreements is not opened again: {error}"),
            None => {}
        });
    }

    /// Writes a line.
    pub fn write(&self, line: &Value) {
        self.with(|sink| {
            if let Err(error) = sink.write(&format!("{line}\n")) {
                if !sink.has_failed {
                    tracing::error!("a line of disagreements is not written: {error}");
                }
                sink.has_failed = true;
            }
        });
    }

    /// Whether a line was not written.
    pub fn has_failed(&self) -> bool {
        self.with(|sink| sink.has_failed)
    }
}

/// A result, and which one, as corpus/schema.json has them.
#[derive(Clone, Copy)]
struct Shown(&'static str, Option<&'static str>);

impl Shown {
    fn of_ruling(ruling: &Ruling) -> Self {
        match &ruling.finding {
            Finding::Records(_) => Shown("secure", Some("answer")),
            Finding::Nodata => Shown("secure", Some("nodata")),
            Finding::Nxdomain => Shown("secure", Some("nxdomain")),
            Finding::Wildcard(_) => Shown("secure", Some("wildcard")),
            Finding::WildcardNodata => Shown("secure", Some("wildcard-nodata")),
            Finding::Delegated => Shown("insecure", Some("no-ds")),
            Finding::OptOut => Shown("insecure", Some("optout")),
            Finding::Alias(_) => Shown("secure", Some("alias")),
            _ => Shown("bogus", None),
        }
    }

    fn of_told(told: &Told) -> Self {
        match told.claim {
            Claim::Secure if told.rcode == zermuita::message::Rcode::NXDOMAIN => Shown("secure", Some("nxdomain")),
            Claim::Secure if told.has_records => Shown("secure", Some("answer")),
            Claim::Secure => Shown("secure", Some("nodata")),
            Claim::Bogus => Shown("bogus", None),
            Claim::Insecure | Claim::Untold => Shown("insecure", None),
        }
    }

    fn result(self) -> Value {
        match self.1 {
            Some(which) => json!({"result": self.0, "which": which}),
            None => json!({"result": self.0}),
        }
    }
}

/// Octets in hexadecimal digits.
pub fn hex(octets: &[u8]) -> String {
    crate::text::hex(octets).to_ascii_lowercase()
}

/// A name as master files have it, in lower case, each other sign in digits (RFC 1035, 5.1).
pub fn name_text(name: &Name) -> String {
    let canonical = Name::from_wire(&name.to_canonical()).unwrap_or_else(|_| name.clone());
    let label = |label: &[u8]| -> String {
        let octet = |it: &u8| match it {
            b'a'..=b'z' | b'0'..=b'9' | b'-' | b'_' | b'*' => char::from(*it).to_string(),
            it => format!("\\{it:03}"),
        };
        label.iter().map(octet).collect::<String>() + "."
    };
    if name.is_root() {
        ".".to_owned()
    } else {
        canonical.labels().map(label).collect()
    }
}

fn question(asked: &Question) -> Value {
    let text = format!("{} TYPE{}", name_text(&asked.name), asked.rtype.0);
    json!({"name": hex(&asked.name.to_canonical()), "type": asked.rtype.0, "text": text})
}

/// A resolver and the judge say different things.
pub struct Disagreement<'a> {
    pub told: &'a Told,
    pub trial: Trial,
    pub ruling: Ruling,
    pub checked: Checked,
    pub iterations: u16,
}

impl Disagreement<'_> {
    /// What both said.
    fn results(&self) -> Map<String, Value> {
        let (judged, said) = (Shown::of_ruling(&self.ruling), Shown::of_told(self.told));
        let resolver = json!({
            "result": said.0, "which": said.1.unwrap_or(""), "rcode": self.told.rcode.0, "records": self.told.has_records,
            "ede": self.told.extended,
        });
        let judge = json!({
            "result": judged.0, "which": judged.1.unwrap_or(""), "reply": self.ruling.reply, "ede": self.ruling.extended,
        });
        let mut line = Map::new();
        line.insert("moment".to_owned(), self.trial.now.into());
        line.insert("question".to_owned(), question(&Question::new(self.told.question.name.clone(), self.trial.question.rtype)));
        line.insert("resolver".to_owned(), resolver);
        line.insert("judge".to_owned(), judge);
        line
    }

    /// The messages as a case of the corpus: what the judge says is expected, and what the resolver said stands beside it.
    fn case(&self, number: u64) -> Value {
        let trial = &self.trial;
        let ds: Vec<_> = trial.ds.iter().flat_map(|it| it.iter()).map(hex).collect();
        json!({
            "id": format!("shadow-{:03}", number % 1000),
            "group": "shadow",
            "tries": "An answer of which a resolver and the judge say different things.",
            "rfc": "RFC 4035, 5",
            "kind": "acceptable",
            "zone": name_text(&trial.apex),
            "apex": hex(&trial.apex.to_canonical()),
            "question": question(&trial.question),
            "moment": trial.now,
            "nsec3_limit": self.iterations,
            "expected": Shown::of_ruling(&self.ruling).result(),
            "also": [Shown::of_told(self.told).result()],
            "open": "Nobody has decided yet which of both is right.",
            "ds": ds,
            "dnskey": hex(&trial.dnskey),
            "answer": hex(&trial.answer),
        })
    }
}

/// Reports disagreements and counts.
pub struct Report {
    lines: Lines,
    explainer: Option<Explainer>,
    number: u64,
}

impl Report {
    pub fn new(lines: Lines, explainer: Option<Explainer>) -> Self {
        Report { lines, explainer, number: 0 }
    }

    pub fn explainer(&self) -> Option<&Explainer> {
        self.explainer.as_ref()
    }

    /// Waits, for a while, until all lines are explained, and writes them all.
    pub fn end(&mut self) {
        if let Some(explainer) = self.explainer.as_mut() {
            explainer.end();
        }
    }

    /// Writes a disagreement, or has it explained first.
    pub fn disagreement(&mut self, it: Disagreement<'_>) {
        let (mut results, case) = (it.results(), it.case(self.number));
        self.number += 1;
        match &mut self.explainer {
            Some(explainer) => {
                let session = session::of(&it.trial, &it.checked, it.iterations).map_err(|it| it.to_string());
                explainer.explain(Line { results, case, session });
            }
            None => {
                results.insert("case".to_owned(), case);
                self.lines.write(&Value::Object(results));
            }
        }
    }

    /// Writes counts.
    pub fn counts(&self, now: UnixTime, named: Vec<(String, u64)>) {
        let counts: Map<_, _> = named.into_iter().map(|(name, count)| (name, count.into())).collect();
        self.lines.write(&json!({"moment": now, "counts": counts}));
    }
}
