//! An answer that is being put together.

use tokio::time::Instant;
use zermuita::message::{Message, Rcode, Record};
use zermuita::{Checked, Name, Question, Rtype, Signatures, Verdict};

use super::resolved::{Resolved, Rr, State};
use super::unsigned::Unsigned;
use crate::text;
use crate::way::{records_at, Judged, Step, Way};

/// An answer that is being put together, link by link of its aliases.
pub struct Draft {
    answer: Vec<Rr>,
    authority: Vec<Rr>,
    rcode: Rcode,
    is_secure: bool,
    ttl: u32,
    until: u64,
}

/// A record without pointers, under a TTL that is set in the end.
fn rr(message: &Message<'_>, record: &Record<'_>) -> Option<Rr> {
    Some(Rr { owner: record.owner.clone(), rtype: record.rtype, ttl: record.ttl, data: record.expanded(message)? })
}

/// The same of a record that nothing vouches for: none if its data are not of its type's form.
pub fn unsigned_rr(message: &Message<'_>, record: &Record<'_>) -> Option<Rr> {
    rr(message, record).filter(|it| text::has_form(it.rtype, &it.data))
}

/// The signatures over an RRset of a message that were checked and passed.
fn passed<'a>(message: &'a Message<'a>, owner: &'a Name, covered: Rtype, checked: &'a Checked) -> impl Iterator<Item = Rr> + 'a {
    message.records().filter(move |it| it.owner == *owner).filter_map(move |record| {
        let rrsig = record.rrsig().filter(|it| it.covered == covered)?;
        checked.iter().find(|it| it.0.signature == rrsig.signature).filter(|it| it.1)?;
        rr(message, &record)
    })
}

/// Adds records, and the signatures over them, each RRset once.
fn add(to: &mut Vec<Rr>, message: &Message<'_>, records: Vec<Record<'_>>, checked: &Checked) {
    let mut sets: Vec<(Name, Rtype)> = Vec::new();
    for record in &records {
        to.extend(rr(message, record).filter(|it| !to.contains(it)));
        let set = (record.owner.clone(), record.rtype);
        if !sets.contains(&set) {
            sets.push(set);
        }
    }
    for (owner, rtype) in &sets {
        let more: Vec<_> = passed(message, owner, *rtype, checked).filter(|it| !to.contains(it)).collect();
        to.extend(more);
    }
}

/// The name that a DNAME record makes of one below its owner.
pub fn redirected(name: &Name, owner: &Name, target: &Name) -> Option<Name> {
    let front = name.as_wire().get(..name.as_wire().len().checked_sub(owner.as_wire().len())?)?;
    Name::from_wire(&[front, target.as_wire()].concat()).ok()
}

impl Draft {
    pub fn new() -> Self {
        Draft { answer: Vec::new(), authority: Vec::new(), rcode: Rcode::NOERROR, is_secure: true, ttl: u32::MAX, until: u64::MAX }
    }

    /// The records beside the answer: those of denials and their SOA record.
    pub fn authority(&self) -> &[Rr] {
        &self.authority
    }

    /// Takes over for how long something lasts whose oldest message is here for some seconds.
    pub fn lasts(&mut self, ttl: u32, until: u64, age: u32) {
        let left = u32::try_from(until.saturating_sub(crate::out::now())).unwrap_or(u32::MAX);
        self.ttl = self.ttl.min(ttl.saturating_sub(age)).min(left);
        self.until = self.until.min(until);
    }

    /// Adds what a way proves of a question: records, an alias, or a denial. Its oldest message is here for some seconds.
    pub fn secure<S: Signatures + ?Sized>(&mut self, way: &Way<'_>, signatures: &S, question: &Question, age: u32) -> Option<()> {
        let (step, judged) = way.answer_to(question)?;
        let judgement = judged.judgement.as_ref().ok()?;
        self.lasts(judgement.ttl, judgement.until, age);
        let message = Message::read(step.message).ok()?;
        let verified: Vec<_> = message.records().filter(|it| judgement.places.contains(&it.place)).collect();
        let of = |owner: &Name, rtype: Rtype| {
            verified.iter().filter(|it| it.owner == *owner && it.rtype == rtype && it.class == 1).cloned().collect::<Vec<_>>()
        };
        self.rcode = Rcode::NOERROR;
        let mut is_denial = false;
        match &judgement.verdict {
            Verdict::Records(_) | Verdict::Wildcard(_) => {
                add(&mut self.answer, &message, of(&question.name, question.rtype), &judged.checked);
            }
            Verdict::Alias(_) | Verdict::WildcardAlias(_) => {
                add(&mut self.answer, &message, of(&question.name, Rtype::CNAME), &judged.checked);
            }
            Verdict::Dname { owner, target } => {
                add(&mut self.answer, &message, of(owner, Rtype::DNAME), &judged.checked);
                match target {
                    Some(target) => self.answer.push(cname(&question.name, target)),
                    None => self.rcode = Rcode::YXDOMAIN,
                }
            }
            Verdict::Nxdomain => {
                self.rcode = Rcode::NXDOMAIN;
                is_denial = true;
            }
            _ => is_denial = true,
        }
        let is_of_denial = |it: &&Record<'_>| matches!(it.rtype, Rtype::NSEC | Rtype::NSEC3);
        let denying = verified.iter().filter(is_of_denial).cloned().collect();
        add(&mut self.authority, &message, denying, &judged.checked);
        if is_denial {
            self.add_soa(way, step, signatures);
        }
        Some(())
    }

    /// Adds the SOA record beside a denial, if it verifies; a denial lasts no longer than it says (RFC 2308, 5).
    fn add_soa<S: Signatures + ?Sized>(&mut self, way: &Way<'_>, step: &Step<'_>, signatures: &S) {
        let zone = &step.wanted.zone;
        let question = Question::new(zone.clone(), Rtype::SOA);
        let judged = way.judged_for(step, question, signatures);
        let (message, judgement) = match (Message::read(step.message), judged.as_ref().and_then(|it| it.judgement.as_ref().ok())) {
            (Ok(message), Some(judgement)) => (message, judgement),
            _ => return,
        };
        let found = message.records().find(|it| it.rtype == Rtype::SOA && it.owner == *zone && judgement.places.contains(&it.place));
        if let (Some(record), Some(judged)) = (found, &judged) {
            self.ttl = self.ttl.min(record.ttl).min(minimum(&record)).min(judgement.ttl);
            add(&mut self.authority, &message, vec![record], &judged.checked);
        }
    }

    /// Adds the DNSKEY set of a zone, for which each verdict of the zone vouches.
    pub fn keys(&mut self, way: &Way<'_>, zone: &Name) -> Option<()> {
        let it = way.zones.iter().find(|it| it.name == *zone)?;
        let step = &way.steps[it.answer?];
        let message = Message::read(step.message).ok()?;
        let keys: Vec<_> = records_at(step.message, zone).filter(|it| it.rtype == Rtype::DNSKEY && it.data.len() >= 4).collect();
        self.ttl = self.ttl.min(keys.iter().map(|it| it.ttl).min()?);
        let judged: Vec<&Judged> = way.steps.iter().filter(|it| it.wanted.zone == *zone).flat_map(|it| &it.judged).collect();
        for judged in judged {
            add(&mut self.answer, &message, keys.clone(), &judged.checked);
        }
        Some(())
    }

    /// Adds that a name lacks a type that is not judged, where its NSEC record says so (docs/use/CALLING.md).
    pub fn lacking<S>(&mut self, way: &Way<'_>, signatures: &S, soa: &Question, rtype: Rtype, age: u32) -> Option<()>
    where
        S: Signatures + ?Sized,
    {
        let (step, judged) = way.answer_to(soa)?;
        let places = &judged.judgement.as_ref().ok()?.places;
        let message = Message::read(step.message).ok()?;
        let nsec = message.records().find(|it| places.contains(&it.place) && it.rtype == Rtype::NSEC && it.owner == soa.name)?;
        let (_, end) = Name::read(step.message, nsec.at).ok()?;
        let types = text::types(nsec.data.get(end.checked_sub(nsec.at)?..)?);
        if types.contains(&rtype) || matches!(rtype, Rtype::RRSIG | Rtype::NSEC) {
            return None;
        }
        self.secure(way, signatures, soa, age)
    }

    /// Adds what an unsigned answer has: records, the first alias, whose target is given, or that there is nothing.
    pub fn unsigned(&mut self, question: &Question, unsigned: &Unsigned) -> Option<Name> {
        self.is_secure = false;
        let octets = &unsigned.fetched.octets;
        let age = unsigned.fetched.age();
        let message = match Message::read(octets) {
            Ok(message) => message,
            Err(_) => {
                self.rcode = Rcode::SERVFAIL;
                self.ttl = 0;
                return None;
            }
        };
        let is_asked = |it: &Record<'_>| it.rtype == question.rtype || question.rtype == Rtype::ANY;
        let records: Vec<_> = records_at(octets, &question.name).filter(is_asked).collect();
        let found: Vec<_> = records.iter().filter(|it| it.section == zermuita::message::Section::Answer).cloned().collect();
        self.rcode = Rcode::NOERROR;
        if !found.is_empty() {
            self.take(&message, &found, age);
            return None;
        }
        if let Some((records, target)) = unsigned.alias(question, &message) {
            self.take(&message, &records, age);
            return match target {
                Some(target) => {
                    if records.iter().all(|it| it.rtype == Rtype::DNAME) {
                        self.answer.push(cname(&question.name, &target));
                    }
                    Some(target)
                }
                None => {
                    self.rcode = Rcode::YXDOMAIN;
                    None
                }
            };
        }
        self.rcode = message.rcode();
        let soa = message.records().find(|it| it.rtype == Rtype::SOA && question.name.is_at_or_below(&it.owner));
        self.ttl = self.ttl.min(soa.as_ref().map_or(0, |it| it.ttl.min(minimum(it)).saturating_sub(age)));
        self.authority.extend(soa.and_then(|it| unsigned_rr(&message, &it)));
        None
    }

    /// Adds records of an unsigned answer, and signatures that cover them, unchecked.
    fn take(&mut self, message: &Message<'_>, records: &[Record<'_>], age: u32) {
        self.ttl = self.ttl.min(records.iter().map(|it| it.ttl.saturating_sub(age)).min().unwrap_or(0));
        self.answer.extend(records.iter().filter_map(|it| unsigned_rr(message, it)));
        if let Some(first) = records.first() {
            let covers = |it: &Record<'_>| it.owner == first.owner && it.rrsig().map_or(false, |it| it.covered == first.rtype);
            self.answer.extend(message.records().filter(covers).filter_map(|it| unsigned_rr(message, &it)));
        }
    }

    /// The answer.
    pub fn resolved(mut self) -> Resolved {
        let ttl = if self.ttl == u32::MAX { 0 } else { self.ttl };
        for rr in self.answer.iter_mut().chain(&mut self.authority) {
            rr.ttl = rr.ttl.min(ttl);
        }
        Resolved {
            state: if self.is_secure { State::Secure } else { State::Insecure },
            rcode: self.rcode,
            answer: self.answer,
            authority: self.authority,
            extended: None,
            made: Instant::now(),
            ttl,
            until: self.until,
        }
    }
}

/// Whether data of a denial record have SOA among their types, as at the apex of a zone.
pub fn is_of_apex(rtype: Rtype, data: &[u8]) -> bool {
    text::types_in(rtype, data).contains(&Rtype::SOA)
}

/// Whether data of an NSEC record have no types of a name that exists: its owner may be made up for a question (RFC 4470, 3; RFC
/// 9824, 3.1).
pub fn is_made_up(data: &[u8]) -> bool {
    text::types_in(Rtype::NSEC, data).iter().all(|it| matches!(*it, Rtype::RRSIG | Rtype::NSEC | Rtype::NXNAME))
}

/// Whether a way denies DS by a record of the zone below the delegation (RFC 6840, 4.4), which the library allows.
pub fn is_denied_from_below(way: &Way<'_>, question: &Question) -> bool {
    let (step, judged) = match way.answer_to(question) {
        Some(it) if question.rtype == Rtype::DS => it,
        _ => return false,
    };
    let (judgement, message) = match (&judged.judgement, Message::read(step.message)) {
        (Ok(judgement), Ok(message)) => (judgement, message),
        _ => return false,
    };
    let is_nodata = matches!(judgement.verdict, Verdict::Nodata(_)) && question.name != step.wanted.zone;
    is_nodata && message.records().any(|it| judgement.places.contains(&it.place) && is_of_apex(it.rtype, it.data))
}

/// The CNAME record that is made of a DNAME record (RFC 6672, 3.1).
fn cname(owner: &Name, target: &Name) -> Rr {
    Rr { owner: owner.clone(), rtype: Rtype::CNAME, ttl: u32::MAX, data: target.as_wire().to_vec() }
}

/// The last number of an SOA record, for how long a denial is kept.
fn minimum(record: &Record<'_>) -> u32 {
    let end = record.data.len();
    let last = end.checked_sub(4).and_then(|it| record.data.get(it..)).and_then(|it| <[u8; 4]>::try_from(it).ok());
    last.map_or(0, u32::from_be_bytes)
}
