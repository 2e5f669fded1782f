//! The way as text.

use std::io::{self, Write};

use zermuita::{End, JudgeError, Judgement, Outcome, Question, RecordData, Rtype, Secure, Verdict};

use super::{Said, Traced};
use crate::text;
use crate::way::{signatures_of, HashState, Hashed, Judged, Way, Zone};

/// The data of records.
fn records(rtype: Rtype, data: &RecordData) -> String {
    data.iter().map(|it| text::data(rtype, it)).collect::<Vec<_>>().join(", ")
}

/// What a judgement says of a question, with names and records.
fn verdict(question: &Question, judgement: &Judgement) -> String {
    use zermuita::Delegates;
    let cut = |it: &Option<zermuita::Name>| it.as_ref().map_or_else(String::new, |it| format!(" at {it}"));
    match &judgement.verdict {
        Verdict::Records(data) => format!("records {}", records(question.rtype, data)),
        Verdict::Nodata(Delegates::Yes) => "NODATA, at a delegation".to_owned(),
        Verdict::Nodata(Delegates::No) => "NODATA, at no delegation".to_owned(),
        Verdict::Nodata(Delegates::Unknown) => "NODATA".to_owned(),
        Verdict::Nxdomain => "NXDOMAIN".to_owned(),
        Verdict::Wildcard(data) => format!("wildcard {}", records(question.rtype, data)),
        Verdict::WildcardNodata => "wildcard NODATA".to_owned(),
        Verdict::Delegated(at) => format!("delegated{}", cut(at)),
        Verdict::OptOut => "opt-out".to_owned(),
        Verdict::Insecure if judgement.extended.is_some() => {
            "insecure: no DS record has an algorithm and a digest that are known here".to_owned()
        }
        Verdict::Insecure => "insecure".to_owned(),
        Verdict::Alias(to) => format!("alias to {to}"),
        Verdict::WildcardAlias(to) => format!("wildcard alias to {to}"),
        Verdict::Dname { owner, target } => {
            format!("DNAME at {owner}{}", target.as_ref().map_or_else(String::new, |it| format!(" to {it}")))
        }
        Verdict::Referral { cut, ds } => format!("referral at {cut}: {ds}"),
        other => other.to_string(),
    }
}

/// What a message says of a question: a verdict with names and records, or why it proves nothing.
pub fn judgement(judged: &Judged) -> String {
    let ede = |extended: Option<zermuita::ExtendedError>| extended.map_or_else(String::new, |it| format!(" (EDE {}, {it})", it.0));
    match &judged.judgement {
        Ok(judgement) => verdict(&judged.question, judgement) + &ede(judgement.extended),
        Err(JudgeError::Refused(refused)) => format!("proves nothing: {}{}", refused.refusal.reply(), ede(refused.extended)),
        Err(error) => format!("proves nothing: {error}"),
    }
}

struct Teller<'a, W> {
    out: W,
    traced: &'a Traced,
    way: &'a Way<'a>,
    has_messages: bool,
}

impl<W: Write> Teller<'_, W> {
    fn line(&mut self, depth: usize, text: &str) -> io::Result<()> {
        writeln!(self.out, "{:1$}{text}", "", 2 * depth)
    }

    fn keys(&mut self, zone: &Zone, depth: usize) -> io::Result<()> {
        for ds in &zone.keys.set {
            self.line(depth, &format!("DS {}: {}", ds.text(), zone.keys.state_of(ds).sentence()))?;
        }
        for key in &zone.keys.keys {
            let names = zone.keys.set.iter().filter(|it| it.names(&zone.name, key));
            let named: Vec<_> = names.map(|it| format!("DS {} {} {}", it.tag, it.algorithm, it.digest_type)).collect();
            let told = if named.is_empty() { "no DS record names it".to_owned() } else { format!("named by {}", named.join(", ")) };
            self.line(depth, &format!("DNSKEY {}: flags {}, algorithm {}, {told}", key.tag, key.flags, key.algorithm))?;
        }
        Ok(())
    }

    fn hash(&mut self, hashed: &Hashed, depth: usize) -> io::Result<()> {
        let by = hashed.record.map_or_else(String::new, |it| text::base32hex(&it));
        let told = match hashed.state {
            HashState::Matched => "matched".to_owned(),
            HashState::Covered => format!("covered by the NSEC3 record of {by}"),
            HashState::CoveredByOptOut => format!("covered by the NSEC3 record of {by}, under opt-out"),
            HashState::Neither => "neither matched nor covered".to_owned(),
        };
        self.line(depth, &format!("hash of {}: {}, {told}", hashed.name, text::base32hex(&hashed.hash)))
    }

    /// A message's question, where it came from, what it says and why, and its signatures.
    fn message(&mut self, at: usize, depth: usize) -> io::Result<()> {
        let step = &self.way.steps[at];
        let source = self.traced.sources.get(step.wanted);
        let (by, from) = source.map_or(("", ""), |it| (if it.is_by_tcp() { " by TCP" } else { "" }, it.server.as_str()));
        let why_not = self.way.why_not_judged(at).map_or_else(String::new, |it| format!(", not judged: {it}"));
        self.line(depth, &format!("{}: {} octets{by} from {from}{why_not}", step.wanted.question, step.message.len()))?;
        for (number, judged) in step.judged.iter().enumerate() {
            let front = if number > 0 { format!("{} DS: ", judged.question.name) } else { String::new() };
            self.line(depth + 1, &(front + &judgement(judged)))?;
            for it in &judged.reasons.because {
                self.line(depth + 1, it)?;
            }
        }
        for it in signatures_of(self.way, at) {
            let (rrsig, times) = (&it.rrsig, [it.rrsig.inception, it.rrsig.expiration].map(|it| text::moment(it.into())));
            let told = format!("RRSIG {} {}, tag {}, {} to {}: ", it.owner, rrsig.covered, rrsig.tag, times[0], times[1]);
            self.line(depth + 1, &(told + it.state.sentence()))?;
        }
        for it in step.judged.iter().flat_map(|it| &it.reasons.hashes) {
            self.hash(it, depth + 1)?;
        }
        if self.has_messages {
            self.whole(step.message, depth + 1)?;
        }
        Ok(())
    }

    /// A whole message, record by record.
    fn whole(&mut self, octets: &[u8], depth: usize) -> io::Result<()> {
        let message = match zermuita::message::Message::read(octets) {
            Ok(message) => message,
            Err(error) => return self.line(depth, &format!("no message: {error}")),
        };
        self.line(depth, &format!("id {}, flags {:04X}, {}", message.id(), message.flags(), message.rcode()))?;
        for it in message.records() {
            let section = match it.section {
                zermuita::message::Section::Answer => "answer",
                zermuita::message::Section::Authority => "authority",
                zermuita::message::Section::Additional => "additional",
            };
            let data = text::data_in(it.rtype, octets, it.at, it.data.len());
            self.line(depth, &format!("{section} {}: {} {} {} {data}", it.place, it.owner, it.ttl, it.rtype))?;
        }
        Ok(())
    }

    /// A zone, and those below it.
    fn zone(&mut self, at: usize, depth: usize) -> io::Result<()> {
        let zone = &self.way.zones[at];
        let what = match (zone.above, &zone.ds) {
            (None, _) => ", the trust anchor",
            (_, None) => ", a delegation without DS records",
            _ => "",
        };
        self.line(depth, &format!("{}{what}", zone.name))?;
        self.keys(zone, depth + 1)?;
        for step in 0..self.way.steps.len() {
            if self.way.steps[step].zone == Some(at) {
                self.message(step, depth + 1)?;
            }
        }
        for below in at + 1..self.way.zones.len() {
            if self.way.zones[below].above == Some(at) {
                self.zone(below, depth + 1)?;
            }
        }
        Ok(())
    }

    /// Messages of zones to which no way leads, and those that were set aside.
    fn others(&mut self) -> io::Result<()> {
        for at in 0..self.way.steps.len() {
            if self.way.steps[at].zone.is_none() {
                self.line(0, &self.way.steps[at].wanted.zone.to_string())?;
                self.message(at, 1)?;
            }
        }
        for (wanted, source, end) in &self.traced.set_aside {
            self.line(0, &format!("{wanted} from {} was set aside: {end}", source.server))?;
        }
        Ok(())
    }
}

/// What is said behind the aliases.
fn rest(end: &End, rtype: Rtype) -> String {
    match &end.outcome {
        Outcome::Secure { zone, says } => match says {
            Secure::Records(data) | Secure::Wildcard(data) => format!(" by {zone}: {}", records(rtype, data)),
            _ => format!(" by {zone}"),
        },
        Outcome::Insecure { delegation } => format!(" at {delegation}"),
        Outcome::OptOut { zone } => format!(" at {zone}"),
        Outcome::Refused { answer: Some(it), .. } | Outcome::NothingTold { answer: it } => {
            format!(", the answer of {} to {}", it.zone, it.question)
        }
        _ => String::new(),
    }
}

fn lasting(end: &End) -> String {
    match end.until {
        0 => String::new(),
        until => format!("; TTL {}, until {until} ({})", end.ttl, text::moment(until)),
    }
}

/// Prints the way as a tree of zones, and what is said of the question.
pub fn tell(traced: &Traced, way: &Way<'_>, has_messages: bool) -> io::Result<()> {
    let out = io::BufWriter::new(io::stdout().lock());
    let mut teller = Teller { out, traced, way, has_messages };
    teller.zone(0, 0)?;
    teller.others()?;
    let question = traced.walk.question();
    let aliases = traced.end.iter().flat_map(|it| &it.aliases).map(|it| format!(" -> {it}")).collect::<String>();
    writeln!(teller.out, "{question}{aliases}")?;
    let counts = traced.walk.counts();
    match &traced.end {
        Some(end) => writeln!(
            teller.out,
            "{}{} ({end}){}; {} signatures checked, {} calls",
            Said::of(end).coloured(),
            rest(end, question.rtype),
            lasting(end),
            counts.signatures,
            counts.calls
        )?,
        None => writeln!(teller.out, "{}: an answer is missing", Said::NotShown.coloured())?,
    }
    teller.out.flush()
}
