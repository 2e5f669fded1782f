//! What is judged.
#![forbid(unsafe_code)]

use zermuita_sys as sys;

use crate::{crypto, ffi, judgement, Checked, DsSet, JudgeError, Judgement, Limits, Name, Question, Signatures, UnixTime};

/// What the zone above says of a zone.
#[derive(Clone, Copy, Debug)]
pub enum Parent<'a> {
    /// Its DS set: the parent's, or a trust anchor's.
    Ds(&'a DsSet),
    /// The parent proved a delegation without DS records: [`Verdict::Nodata`](crate::Verdict::Nodata) with
    /// [`Delegates::Yes`](crate::Delegates::Yes) for DS, judged with the parent as apex. Nothing else allows this.
    NoDs,
}

/// One zone's messages and a question, to be judged.
#[derive(Clone, Debug)]
#[non_exhaustive]
pub struct Case<'a> {
    /// The name of the zone.
    pub apex: &'a Name,
    /// Its DS set.
    pub parent: Parent<'a>,
    /// Its answer for its DNSKEY records, a whole message.
    pub dnskey: &'a [u8],
    /// Its answer to the question, a whole message.
    pub answer: &'a [u8],
    /// What was asked.
    pub question: &'a Question,
    /// The moment at which signatures must hold.
    pub now: UnixTime,
    /// The signatures of an answer must have one inception and one expiration, as those of servers that sign each answer anew.
    pub one_moment: bool,
    /// Messages are judged as they came; else names in data are put in canonical form first.
    pub as_received: bool,
    /// The answer may be one to another question of the zone.
    pub other_question: bool,
    /// The judgement says which records of the answer are verified for it.
    pub places: bool,
    /// How much work is taken on.
    pub limits: Limits,
}

impl<'a> Case<'a> {
    /// A case with the limits' defaults and no flag set.
    #[must_use]
    pub fn new(
        apex: &'a Name,
        parent: Parent<'a>,
        dnskey: &'a [u8],
        answer: &'a [u8],
        question: &'a Question,
        now: UnixTime,
    ) -> Self {
        let limits = Limits::default();
        let (one_moment, as_received, other_question, places) = (false, false, false, false);
        Case { apex, parent, dnskey, answer, question, now, one_moment, as_received, other_question, places, limits }
    }

    /// Judges, and checks the signatures that are asked for.
    ///
    /// # Errors
    ///
    /// If there is no verdict, or a signature could not be checked.
    pub fn judge<S: Signatures + ?Sized>(&self, signatures: &S) -> Result<Judgement, JudgeError> {
        self.judge_with(signatures, &mut Checked::new())
    }

    /// Judges, with signatures that were checked before. Those that are checked anew are added to these. Entries of other answers
    /// than the zone's for its keys are of no use for another case.
    ///
    /// # Errors
    ///
    /// As [`Case::judge`].
    pub fn judge_with<S: Signatures + ?Sized>(&self, signatures: &S, checked: &mut Checked) -> Result<Judgement, JudgeError> {
        let algorithms = crypto::octets_of(signatures.algorithms());
        loop {
            let replied = ffi::judge(&self.handed(checked, &algorithms));
            if replied.reply != sys::ZERMUITA_ASK {
                return judgement::read(&replied, self.places);
            }
            checked.check(replied.octets(), signatures)?;
        }
    }

    fn handed<'b>(&'b self, checked: &'b Checked, algorithms: &'b [u8]) -> ffi::CaseOctets<'b> {
        ffi::CaseOctets {
            apex: self.apex.as_wire(),
            ds: match self.parent {
                Parent::Ds(ds) => Some(ds.as_octets()),
                Parent::NoDs => None,
            },
            dnskey: self.dnskey,
            answer: self.answer,
            name: self.question.name.as_wire(),
            checked: checked.as_octets(),
            algorithms,
            now: self.now,
            rtype: self.question.rtype.0,
            max_nsec3_iterations: self.limits.nsec3_iterations,
            max_signatures: self.limits.signatures,
            one_moment: self.one_moment,
            as_received: self.as_received,
            other_question: self.other_question,
            places: self.places,
        }
    }
}
