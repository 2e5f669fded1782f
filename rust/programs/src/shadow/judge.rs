//! The judge: the library is called here alone.

use std::sync::Arc;

use zermuita::{
    Case, Checked, DsSet, ExtendedError, JudgeError, Name, Parent, Question, RecordData, Refusal, Refused, UnixTime, Verdict,
};

use crate::verified::Verified;

/// A message's octets.
pub type Octets = Arc<[u8]>;

/// How many checked signatures are kept.
const KEPT: usize = 65_536;

/// What is judged: a zone, its DS set, its answer for its keys, and its answer to a question. An unsigned zone has no DS set.
#[derive(Clone)]
pub struct Trial {
    pub apex: Name,
    pub ds: Option<DsSet>,
    pub dnskey: Octets,
    pub answer: Octets,
    pub question: Question,
    pub now: UnixTime,
}

/// What comes of it.
#[derive(Clone, Debug, PartialEq, Eq)]
pub enum Finding {
    Records(RecordData),
    Nodata,
    Nxdomain,
    Wildcard(RecordData),
    WildcardNodata,
    Delegated,
    OptOut,
    /// The name leads to another, which is to be asked for.
    Alias(Name),
    /// The name that it leads to would be too long (RFC 6672, 2.2).
    DeadEnd,
    /// Nothing is proved, also where a denial lacks a record.
    Bogus,
    /// No key of the zone is trusted.
    BogusKeys,
    /// The library does not judge the question.
    LeftOut,
    /// More iterations than are allowed, which is a matter of policy (RFC 9276, 3.2).
    Iterations,
    /// Two keys of one tag, which the library does not judge.
    EqualTags,
    /// Another refusal that is not of a bogus answer: a message cannot be read, or takes too much work.
    Refused,
    /// Memory ran out.
    Nothing,
}

/// A finding, the library's reply with its sentence, what to tell a client, and the signatures that were checked.
pub struct Judged {
    pub finding: Finding,
    pub reply: String,
    pub extended: Option<ExtendedError>,
    pub checked: Checked,
}

/// The judge, and the signatures that it had checked.
pub struct Judge {
    iterations: u16,
    verified: Verified,
}

fn finding_of(verdict: Verdict) -> Finding {
    match verdict {
        Verdict::Records(records) => Finding::Records(records),
        Verdict::Nodata(_) => Finding::Nodata,
        Verdict::Nxdomain => Finding::Nxdomain,
        Verdict::Wildcard(records) => Finding::Wildcard(records),
        Verdict::WildcardNodata => Finding::WildcardNodata,
        Verdict::Delegated(_) | Verdict::Referral { .. } => Finding::Delegated,
        Verdict::OptOut => Finding::OptOut,
        Verdict::Alias(target) | Verdict::WildcardAlias(target) | Verdict::Dname { target: Some(target), .. } => Finding::Alias(target),
        Verdict::Dname { target: None, .. } => Finding::DeadEnd,
        _ => Finding::Nothing,
    }
}

fn finding_of_refusal(refusal: Refusal) -> Finding {
    match refusal {
        Refusal::QuestionNotAllowed => Finding::LeftOut,
        Refusal::NoTrustedKey => Finding::BogusKeys,
        Refusal::EqualTags => Finding::EqualTags,
        Refusal::IterationsOverLimit => Finding::Iterations,
        Refusal::OutOfMemory => Finding::Nothing,
        // Nothing is proved, which the corpus calls bogus: AD is wrong then, and SERVFAIL is right.
        Refusal::IncompleteDenial => Finding::Bogus,
        refusal if refusal.is_bogus() => Finding::Bogus,
        _ => Finding::Refused,
    }
}

fn is_too_long(error: &JudgeError) -> bool {
    matches!(error, JudgeError::Refused(Refused { refusal: Refusal::MessageTooLong, .. }))
}

impl Judge {
    pub fn new(iterations: u16) -> Self {
        Judge { iterations, verified: Verified::new(KEPT) }
    }

    pub fn iterations(&self) -> u16 {
        self.iterations
    }

    /// How many signatures were checked.
    pub fn signatures(&self) -> u64 {
        self.verified.checked()
    }

    /// Judges. No case without a DS set is handed over: that would be a proof that there is none.
    pub fn judge(&self, trial: &Trial) -> Judged {
        let mut checked = Checked::new();
        let ds = match &trial.ds {
            Some(ds) => ds,
            None => return Judged { finding: Finding::Nothing, reply: String::new(), extended: None, checked },
        };
        let mut case = Case::new(&trial.apex, Parent::Ds(ds), &trial.dnskey, &trial.answer, &trial.question, trial.now);
        case.limits.nsec3_iterations = self.iterations;
        let mut told = case.judge_with(&self.verified, &mut checked);
        if told.as_ref().err().map_or(false, is_too_long) {
            case.as_received = true;
            told = case.judge_with(&self.verified, &mut checked);
        }
        let (finding, reply, extended) = match told {
            Ok(it) => {
                let reply = it.verdict.reply().to_string();
                (finding_of(it.verdict), reply, it.extended)
            }
            Err(JudgeError::Refused(it)) => (finding_of_refusal(it.refusal), it.refusal.reply().to_string(), it.extended),
            Err(error) => (Finding::Nothing, error.to_string(), None),
        };
        Judged { finding, reply, extended, checked }
    }
}
