//! Compares what a resolver said to its clients with what the judge says of the messages that the resolver had.

use std::sync::Arc;

use zermuita::message::Rcode;
use zermuita::{Checked, Name, Question, Rtype, UnixTime};

use super::ask::Asker;
use super::chain::{Chain, Place, Standing};
use super::counts::{Counts, Reason};
use super::event::{Event, Origin};
use super::judge::{Finding, Judge, Octets, Trial};
use super::report::{Disagreement, Report};
use super::rewrite;
use super::seen::Seen;
use super::table::Table;
use super::told::{Claim, Ruling, Told};

/// An answer of TTL 0 is of use for the question that it was asked for, and no longer.
const GRACE: u64 = 2;
/// How often an answer is compared at most, while something is asked for.
const MOST_TRIES: u32 = 8;
/// How many names an answer leads through at most.
const MOST_STEPS: usize = 12;

/// A message of a server, and the zone for which the resolver asked it.
#[derive(Clone)]
struct Kept {
    zone: Option<Name>,
    octets: Octets,
}

/// Compares, and holds what was seen.
pub struct Shadow {
    judge: Judge,
    chain: Chain,
    answers: Table<Kept>,
    asker: Option<Asker>,
    counts: Counts,
    report: Report,
}

/// Messages that answer a question, in the order in which they are tried.
#[derive(Clone, Copy, Debug, PartialEq, Eq)]
enum Source {
    /// What the resolver had for the question.
    Server,
    /// What it had for the name that led to this one, which may answer for it, too.
    Former,
    /// What it handed to its client, if that was to have signatures.
    Client,
}

/// A message for a name: as it was, as an answer for the name, and the zone of the server that gave it.
struct Found {
    whole: Octets,
    answer: Octets,
    zone: Option<Name>,
}

/// The way from one name to the next.
struct Way<'a> {
    client: &'a Seen<'a>,
    told: &'a Told,
    former: Option<Octets>,
}

/// What is judged of a name, and what comes of it.
struct Judged {
    trial: Trial,
    ruling: Ruling,
    checked: Checked,
}

/// Why nothing is, and where.
struct NotJudged {
    reason: Reason,
    place: Option<Place>,
    question: Question,
}

fn empty() -> Octets {
    Arc::from(&[][..])
}

/// Whether a server's message answers its question: another may be asked where it does not.
fn is_answer(seen: &Seen<'_>) -> bool {
    matches!(seen.rcode(), Rcode::NOERROR | Rcode::NXDOMAIN) && seen.referral().is_none()
}

/// A message as an answer to the question for a name.
fn answer_for(whole: &Octets, name: &Name) -> Option<Octets> {
    let seen = Seen::read(whole)?;
    if seen.question.name == *name {
        return Some(whole.clone());
    }
    rewrite::answer_for(&seen, name).map(Arc::from)
}

/// Why a refusal of an answer does not say that it is bogus. It does if the answer is one of this zone: no other zone can begin on the
/// way to the name, or the zone signed some of it. Else a zone of which nothing was seen may have answered.
fn not_of_zone(place: &Place, answer: &Seen<'_>, zone: Option<&Name>) -> Option<Reason> {
    let signer = answer.signer_of(&answer.question.name);
    let is_below = |it: &Name| it.is_below(&place.apex);
    match () {
        () if place.is_whole() => None,
        () if zone.map_or(false, is_below) || signer.as_ref().map_or(false, is_below) => Some(Reason::NoDs),
        () if signer.as_ref() == Some(&place.apex) => None,
        () => Some(Reason::NoCut),
    }
}

impl Shadow {
    pub fn new(judge: Judge, chain: Chain, most_octets: usize, asker: Option<Asker>, report: Report) -> Self {
        let answers = Table::new(131_072, most_octets);
        Shadow { judge, chain, answers, asker, counts: Counts::default(), report }
    }

    /// What was counted so far.
    pub fn counts(&self) -> Counts {
        let mut counts = self.counts.clone();
        counts.signatures = self.judge.signatures();
        counts.evicted = self.answers.evicted() + self.chain.evicted();
        counts.asked = self.asker.as_ref().map_or(0, Asker::all);
        counts
    }

    /// Where disagreements are reported.
    pub fn report(&mut self) -> &mut Report {
        &mut self.report
    }

    /// Takes what a message tells: of keys and DS sets any, of answers one of a server.
    pub fn learn(&mut self, event: &Event) {
        self.counts.server_messages += u64::from(event.origin == Origin::Server);
        let seen = match Seen::read(&event.octets) {
            Some(seen) => seen,
            None => {
                self.counts.unreadable += 1;
                return;
            }
        };
        if !seen.is_response() {
            return;
        }
        self.chain.learn(&seen, event.moment);
        if event.origin == Origin::Server && is_answer(&seen) {
            let until = event.moment + GRACE + u64::from(seen.least_ttl(event.moment));
            let kept = Kept { zone: event.zone.clone(), octets: event.octets.clone() };
            self.answers.put(&seen.question.name, seen.question.rtype, kept, event.octets.len(), until);
        }
    }

    fn find(&mut self, way: &Way<'_>, source: Source, question: &Question, now: UnixTime) -> Option<Found> {
        let (whole, zone) = match source {
            Source::Server => {
                let kept = self.answers.get(&question.name, question.rtype, now)?;
                (kept.octets, kept.zone)
            }
            Source::Former => (way.former.clone()?, None),
            Source::Client if way.told.is_servfail() || !way.told.wants_proof => return None,
            Source::Client => (Arc::from(way.client.octets()), None),
        };
        Some(Found { answer: answer_for(&whole, &question.name)?, whole, zone })
    }

    /// Judges an answer of a signed zone.
    fn judged(&mut self, place: &Place, found: &Found, mut trial: Trial) -> Result<Judged, Reason> {
        trial.dnskey = self.chain.keys(&place.apex, trial.now).ok_or(Reason::NoDnskey)?;
        trial.answer = found.answer.clone();
        let judged = self.judge.judge(&trial);
        let answer = Seen::read(&found.answer).ok_or(Reason::Refused)?;
        let reason = match &judged.finding {
            Finding::LeftOut => Some(Reason::Type),
            Finding::EqualTags => Some(Reason::EqualTags),
            Finding::Iterations => Some(Reason::Iterations),
            Finding::Refused => Some(Reason::Refused),
            Finding::Nothing => Some(Reason::Memory),
            Finding::Delegated => Some(Reason::NoDs),
            Finding::DeadEnd => Some(Reason::Code),
            Finding::Bogus if answer.is_alias() && answer.has_opt_out() => Some(Reason::Alias),
            Finding::Bogus => not_of_zone(place, &answer, found.zone.as_ref()),
            _ => None,
        };
        match reason {
            Some(reason) => Err(reason),
            None => {
                let extended = judged.extended.map_or(0, |it| it.0);
                let ruling = Ruling::of(judged.finding, judged.reply, extended, answer.has_nxname());
                Ok(Judged { trial, ruling, checked: judged.checked })
            }
        }
    }

    /// What is compared of an unsigned zone. What an alias of it leads to may fail, and is not sought.
    fn insecure(&mut self, way: &Way<'_>, mut trial: Trial) -> Result<Judged, Reason> {
        let found = self
            .find(way, Source::Server, &trial.question, trial.now)
            .or_else(|| self.find(way, Source::Client, &trial.question, trial.now));
        if way.told.is_servfail() {
            let answer = found.as_ref().ok_or(Reason::NoAnswer)?;
            if Seen::read(&answer.answer).map_or(true, |it| it.is_alias()) {
                return Err(Reason::Alias);
            }
        }
        let client = Arc::from(way.client.octets());
        trial.answer = match found {
            Some(found) => found.answer,
            None => answer_for(&client, &trial.question.name).unwrap_or(client),
        };
        Ok(Judged { trial, ruling: Ruling::insecure(), checked: Checked::new() })
    }

    /// Judges what answers a name. The message that led to the name may have left it out, so that it counts if it proves something, and
    /// else not.
    fn answered(&mut self, way: &mut Way<'_>, place: &Place, trial: &Trial) -> Result<Judged, Reason> {
        for source in [Source::Server, Source::Former, Source::Client] {
            let found = match self.find(way, source, &trial.question, trial.now) {
                Some(found) => found,
                None => continue,
            };
            let judged = self.judged(place, &found, trial.clone());
            if source == Source::Former && judged.as_ref().map_or(true, |it| it.ruling.claim == Claim::Bogus) {
                continue;
            }
            let is_open = judged.as_ref().map_or(false, |it| it.ruling.finding == Finding::OptOut);
            if is_open && way.told.is_servfail() && Seen::read(&found.answer).map_or(false, |it| it.is_alias()) {
                return Err(Reason::Alias);
            }
            way.former = Some(found.whole);
            return judged;
        }
        Err(Reason::NoAnswer)
    }

    /// Judges a name on the way.
    fn step(&mut self, way: &mut Way<'_>, question: &Question, now: UnixTime) -> Result<(Place, Judged), NotJudged> {
        let place = self.chain.descend(&self.judge, question, now);
        let trial = |ds| Trial {
            apex: place.apex.clone(),
            ds,
            dnskey: empty(),
            answer: empty(),
            question: question.clone(),
            now,
        };
        let judged = match &place.standing {
            Standing::NoAnchor => Err(Reason::NoAnchor),
            Standing::Unchecked => Err(Reason::Algorithms),
            Standing::Unsigned => self.insecure(way, trial(None)),
            Standing::Signed(ds) => self.answered(way, &place, &trial(Some(ds.clone()))),
        };
        match judged {
            Ok(judged) => Ok((place, judged)),
            Err(reason) => Err(NotJudged { reason, place: Some(place), question: question.clone() }),
        }
    }

    /// Beside aliases alone a client may get the denial of what the last one leads to, as of PowerDNS Recursor to questions for DS. If
    /// that is by opt-out the answer is insecure (RFC 5155, 9.2).
    fn denial_of_target(&mut self, client: &Seen<'_>, target: &Name, now: UnixTime) -> Option<Judged> {
        if !client.has_opt_out() {
            return None;
        }
        let question = Question::new(target.clone(), client.question.rtype);
        let answer: Octets = rewrite::answer_for(client, target)?.into();
        let place = self.chain.descend(&self.judge, &question, now);
        let ds = match &place.standing {
            Standing::Signed(ds) => ds.clone(),
            _ => return None,
        };
        let trial = Trial { apex: place.apex.clone(), ds: Some(ds), dnskey: empty(), answer: empty(), question, now };
        let found = Found { whole: answer.clone(), answer, zone: None };
        self.judged(&place, &found, trial).ok().filter(|it| it.ruling.finding == Finding::OptOut)
    }

    /// What is to be compared with what was told, from alias to alias.
    fn ruled(&mut self, client: &Seen<'_>, told: &Told, now: UnixTime) -> Result<Judged, NotJudged> {
        let mut way = Way { client, told, former: None };
        let mut question = client.question.clone();
        for _ in 0..MOST_STEPS {
            let (_, judged) = self.step(&mut way, &question, now)?;
            let target = match &judged.ruling.finding {
                Finding::Alias(target) => target.clone(),
                _ => return Ok(judged),
            };
            if told.is_alias_alone && !client.has_answer(Some(&target), Rtype::CNAME) {
                return Ok(self.denial_of_target(client, &target, now).unwrap_or(judged));
            }
            question.name = target;
        }
        Err(NotJudged { reason: Reason::Alias, place: None, question })
    }

    /// Asks for what is missing, if that is wanted: keys; or DS sets of the names of which nothing is proved, down to the zone that
    /// signed the answer, or all the way if none did. Says whether something is asked for.
    fn asks_for_missing(&mut self, client: &Seen<'_>, missing: &NotJudged) -> bool {
        let (asker, place) = match (&mut self.asker, &missing.place) {
            (Some(asker), Some(place)) if matches!(missing.reason, Reason::NoDnskey | Reason::NoDs | Reason::NoCut) => (asker, place),
            _ => return false,
        };
        if missing.reason == Reason::NoDnskey {
            asker.ask(&place.apex, Rtype::DNSKEY);
        }
        let name = &missing.question.name;
        let labels = name.depth();
        let most = if missing.question.rtype == Rtype::DS { labels.saturating_sub(1) } else { labels };
        let most = client.signer_of(name).map_or(most, |it| it.depth());
        for depth in place.unseen.iter().flat_map(|it| it.depth()..=most) {
            asker.ask(&name.ancestor(depth), Rtype::DS);
        }
        true
    }

    fn count(&mut self, told: &Told, judged: Judged) {
        if told.agrees(&judged.ruling) {
            self.counts.agree(told.claim);
            return;
        }
        self.counts.judged += 1;
        self.counts.disagree += 1;
        let Judged { trial, ruling, checked } = judged;
        self.report.disagreement(Disagreement { told, trial, ruling, checked, iterations: self.judge.iterations() });
    }

    /// Compares what the resolver said to a client. Says whether that is done: else something is missing that was asked for, and it is
    /// to be compared once more.
    pub fn compare(&mut self, event: &Event, may_wait: bool) -> bool {
        // It was counted when it came.
        let client = match Seen::read(&event.octets) {
            Some(client) => client,
            None => return true,
        };
        let is_first = event.tries == 0;
        if is_first && self.asker.as_mut().map_or(false, |it| it.has_asked(&client.question)) {
            self.counts.own_answers += 1;
            return true;
        }
        self.counts.client_answers += u64::from(is_first);
        let told = match Told::read(&client) {
            Ok(told) => told,
            Err(reason) => {
                self.counts.not_judged(reason);
                return true;
            }
        };
        match self.ruled(&client, &told, event.moment) {
            Ok(judged) => self.count(&told, judged),
            Err(missing) => {
                if may_wait && event.tries < MOST_TRIES && self.asks_for_missing(&client, &missing) {
                    return false;
                }
                self.counts.not_judged(missing.reason);
            }
        }
        true
    }
}
