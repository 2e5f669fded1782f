//! `zermuita judge`: what the messages of a file prove, from a trust anchor down. Nobody is asked.

mod dig;
mod forms;
mod pcap;
mod records;

use std::io::{self, Write};

use serde_json::json;
use zermuita::crypto::OpenSsl;
use zermuita::message::Message;
use zermuita::{End, Name, Outcome, Progress, Question, Rtype, Secure, TrustAnchor, Walk, Wanted};

use crate::cli::Judge;
use crate::out::{self, Failure};
use crate::text;
use crate::trace::Said;
use crate::{anchor, WRONG_CALL};

/// A message of the file, and its question.
struct Held {
    question: Question,
    octets: Vec<u8>,
    /// The signers that its signatures name.
    signers: Vec<Name>,
}

impl Held {
    fn of(octets: Vec<u8>) -> Option<Self> {
        let message = Message::read(&octets).ok()?;
        let (question, class) = message.question()?;
        let is_response = message.flags() & zermuita::message::flags::QR != 0;
        let signers = message.records().filter_map(|it| it.rrsig()).map(|it| it.signer).collect();
        (is_response && class == 1).then(|| Held { question, signers, octets })
    }

    /// Whether the message is on the way of others, and no answer of its own.
    fn is_on_the_way(&self) -> bool {
        matches!(self.question.rtype, Rtype::DNSKEY | Rtype::DS)
    }
}

/// Of the messages that answer a question the one that the zone signed; of all the first.
fn found<'a>(held: &'a [Held], wanted: &Wanted) -> Option<&'a Held> {
    let mut answers = held.iter().filter(|it| it.question == wanted.question);
    let first = answers.clone().next();
    answers.find(|it| it.signers.contains(&wanted.zone)).or(first)
}

/// How a question ended: by a walk, or for want of a message.
enum Ended {
    Walked(Box<End>),
    Lacking(Wanted),
}

fn walked(anchor: &TrustAnchor, held: &[Held], question: &Question, now: u64) -> Result<Ended, Failure> {
    let mut walk = Walk::new(anchor.clone(), question.clone(), now);
    loop {
        match walk.advance(&OpenSsl).map_err(|error| Failure::Other(error.to_string()))? {
            Progress::Ended(end) => return Ok(Ended::Walked(Box::new(end))),
            Progress::Wants(wanted) => {
                for it in wanted {
                    match found(held, &it) {
                        Some(message) => walk.put(&it, &message.octets),
                        None => return Ok(Ended::Lacking(it)),
                    }
                }
            }
        }
    }
}

/// What is proved, in words.
fn proved(end: &End, rtype: Rtype) -> String {
    match &end.outcome {
        Outcome::Secure { zone, says } => {
            let data = match says {
                Secure::Records(data) | Secure::Wildcard(data) => {
                    format!(": {}", data.iter().map(|it| text::data(rtype, it)).collect::<Vec<_>>().join(", "))
                }
                _ => String::new(),
            };
            format!(" by {zone}{data} ({end})")
        }
        Outcome::Insecure { delegation } => format!(" at {delegation} ({end})"),
        Outcome::OptOut { zone } => format!(" at {zone} ({end})"),
        Outcome::Refused { answer: Some(it), .. } | Outcome::NothingTold { answer: it } => format!(", the answer to {it} ({end})"),
        _ => format!(" ({end})"),
    }
}

fn tell(question: &Question, ended: &Ended, is_json: bool, out: &mut impl Write) -> io::Result<Said> {
    let (said, line) = match ended {
        Ended::Walked(end) => {
            let through = end.aliases.iter().map(|it| format!(" -> {it}")).collect::<String>();
            (Said::of(end), format!("{question}{through}: {}{}", Said::of(end).coloured(), proved(end, question.rtype)))
        }
        Ended::Lacking(wanted) => (Said::NotShown, format!("{question}: {}, the file lacks {wanted}", Said::NotShown.coloured())),
    };
    if !is_json {
        writeln!(out, "{line}")?;
        return Ok(said);
    }
    let mut told = json!({"name": question.name.to_string(), "type": question.rtype.to_string(), "said": said.word()});
    match ended {
        Ended::Walked(end) => {
            told["reply"] = end.reply.to_string().into();
            told["aliases"] = end.aliases.iter().map(|it| it.to_string()).collect();
            if let Some(extended) = end.extended {
                told["ede"] = extended.0.into();
            }
            if end.until > 0 {
                told["ttl"] = end.ttl.into();
                told["until"] = end.until.into();
            }
        }
        Ended::Lacking(wanted) => told["lacks"] = wanted.to_string().into(),
    }
    writeln!(out, "{told}")?;
    Ok(said)
}

/// Runs the program; its status.
pub fn run(options: &Judge) -> Result<u8, Failure> {
    let anchor = anchor::read(&options.anchor)?;
    let octets = out::read_bytes(&options.file)?;
    let messages = forms::messages(&octets, options.form);
    let messages = messages.map_err(|reason| Failure::Content { path: options.file.clone(), reason: reason.to_string() })?;
    let held: Vec<_> = messages.into_iter().filter_map(Held::of).collect();
    let now = options.moment.unwrap_or_else(out::now);
    let mut asked: Vec<&Question> = Vec::new();
    for it in held.iter().filter(|it| !it.is_on_the_way()) {
        if !asked.contains(&&it.question) {
            asked.push(&it.question);
        }
    }
    if asked.is_empty() {
        eprintln!("zermuita: {}: no response to judge, beside DNSKEY and DS answers", options.file.display());
        return Ok(WRONG_CALL);
    }
    let mut stdout = io::BufWriter::new(io::stdout().lock());
    let mut status = 0;
    for question in asked {
        let said = tell(question, &walked(&anchor, &held, question, now)?, options.json, &mut stdout)?;
        status = status.max(u8::from(matches!(said, Said::Bogus | Said::NotShown)));
    }
    stdout.flush()?;
    Ok(status)
}
