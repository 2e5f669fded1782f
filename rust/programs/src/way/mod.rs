//! The way of a walk as its messages show it: its zones with their keys and DS sets, and what each message says beside these. Each is
//! judged by the library alone, as the walk judges it; signatures that were checked for the walk are not checked anew.

mod by_hashes;
mod by_names;
mod denial;
mod keys;
mod signatures;

use zermuita::message::Message;
use zermuita::{
    Algorithm, Ask, Case, Checked, Delegates, DsSet, JudgeError, Judgement, Name, Parent, Question, Rtype, SignatureError, Signatures,
    Verdict, Walk, Wanted,
};

pub use denial::{HashState, Hashed, Reasons};
pub use keys::{Ds, DsState, Key, Keys};
pub use signatures::{signatures_of, Signature, SignatureState};

/// How many signatures are looked up for one message at most.
const MOST_SIGNATURES: u32 = 256;

/// What a message says of a question, by which signatures, and why.
pub struct Judged {
    pub question: Question,
    pub judgement: Result<Judgement, JudgeError>,
    pub checked: Checked,
    pub reasons: Reasons,
}

/// A message of the way. Beside the question itself it is judged for DS at the delegation that this shows.
pub struct Step<'a> {
    pub wanted: &'a Wanted,
    pub message: &'a [u8],
    /// The zone's number.
    pub zone: Option<usize>,
    pub judged: Vec<Judged>,
    pub is_repeated: bool,
    is_done: bool,
}

/// A zone of the way, and the one above, whose message shows its DS set, or that it has none.
pub struct Zone {
    pub name: Name,
    pub above: Option<usize>,
    /// None of one that is not signed.
    pub ds: Option<DsSet>,
    pub keys: Keys,
    /// The number of the message that answers for its keys.
    pub answer: Option<usize>,
}

/// The zones and the messages of a walk.
pub struct Way<'a> {
    pub walk: &'a Walk,
    pub zones: Vec<Zone>,
    pub steps: Vec<Step<'a>>,
    algorithms: Vec<Algorithm>,
    has_reasons: bool,
}

/// Looks up what came of a signature in a walk before it checks it.
struct Known<'a, S: ?Sized> {
    checked: &'a Checked,
    signatures: &'a S,
}

impl<S: Signatures + ?Sized> Signatures for Known<'_, S> {
    fn algorithms(&self) -> &[Algorithm] {
        self.signatures.algorithms()
    }

    fn verify(&self, ask: &Ask<'_>) -> Result<bool, SignatureError> {
        self.checked.outcome(ask).map_or_else(|| self.signatures.verify(ask), Ok)
    }
}

impl<'a> Way<'a> {
    /// Judges the messages of a walk.
    pub fn of<S: Signatures + ?Sized>(walk: &'a Walk, signatures: &S) -> Self {
        Way::made(walk, signatures, true)
    }

    /// The same, without reasons.
    pub fn without_reasons<S: Signatures + ?Sized>(walk: &'a Walk, signatures: &S) -> Self {
        Way::made(walk, signatures, false)
    }

    fn made<S: Signatures + ?Sized>(walk: &'a Walk, signatures: &S, has_reasons: bool) -> Self {
        let steps = walk.messages().map(|(wanted, message)| Step {
            wanted,
            message,
            zone: None,
            judged: Vec::new(),
            is_repeated: false,
            is_done: false,
        });
        let mut way =
            Way { walk, zones: Vec::new(), steps: steps.collect(), algorithms: signatures.algorithms().to_vec(), has_reasons };
        for at in 0..way.steps.len() {
            // Of two messages for one question of one zone the first counts.
            way.steps[at].is_repeated = way.steps[..at].iter().any(|it| it.wanted == way.steps[at].wanted);
        }
        way.add_zone(&walk.anchor().zone, None, Some(walk.anchor().ds.clone()));
        let mut known = 0;
        while known != way.zones.len() {
            known = way.zones.len();
            for at in 0..way.steps.len() {
                way.judge_step(at, &Known { checked: walk.checked(), signatures });
            }
        }
        way
    }

    fn zone_of(&self, name: &Name) -> Option<usize> {
        self.zones.iter().position(|it| it.name == *name)
    }

    /// Adds a zone, unless it is there.
    fn add_zone(&mut self, name: &Name, above: Option<usize>, ds: Option<DsSet>) {
        if self.zone_of(name).is_some() {
            return;
        }
        let keys_of = Wanted::keys_of(name.clone());
        let answer = self.steps.iter().position(|it| *it.wanted == keys_of);
        let message = answer.map(|it| self.steps[it].message);
        let keys = Keys::read(name, ds.as_ref(), message, &self.algorithms);
        self.zones.push(Zone { name: name.clone(), above, ds, keys, answer });
    }

    /// Whether a message is the answer for its zone's keys that counts.
    pub fn is_for_keys(&self, at: usize) -> bool {
        self.steps[at].zone.map_or(false, |it| self.zones[it].answer == Some(at))
    }

    /// Judges a message, once the DS set of its zone is known.
    fn judge_step<S: Signatures>(&mut self, at: usize, signatures: &S) {
        if self.steps[at].is_done {
            return;
        }
        let zone = self.zone_of(&self.steps[at].wanted.zone);
        self.steps[at].zone = zone;
        let zone = match zone.filter(|it| self.zones[*it].ds.is_some()) {
            Some(zone) => zone,
            None => return,
        };
        self.steps[at].is_done = true;
        if self.steps[at].is_repeated || self.is_for_keys(at) || self.zones[zone].answer.is_none() {
            return;
        }
        let first = self.judged(at, zone, self.steps[at].wanted.question.clone(), signatures);
        let cut = match &first.judgement {
            Ok(Judgement { verdict: Verdict::Delegated(Some(cut)), .. }) => Some(cut.clone()),
            _ => None,
        };
        let second = cut.map(|cut| self.judged(at, zone, Question::new(cut, Rtype::DS), signatures));
        for judged in std::iter::once(first).chain(second) {
            self.add_below(zone, &judged);
            self.steps[at].judged.push(judged);
        }
    }

    /// Judges a message for a question, beside the keys and the DS set of its zone.
    fn judged<S: Signatures>(&self, at: usize, zone: usize, question: Question, signatures: &S) -> Judged {
        let (step, it) = (&self.steps[at], &self.zones[zone]);
        let dnskey = it.answer.map_or(&[][..], |answer| self.steps[answer].message);
        let parent = it.ds.as_ref().map_or(Parent::NoDs, Parent::Ds);
        let mut case = Case::new(&it.name, parent, dnskey, step.message, &question, self.walk.now());
        case.limits = *self.walk.limits();
        case.limits.signatures = MOST_SIGNATURES;
        case.other_question = true;
        case.places = true;
        let mut checked = Checked::new();
        let judgement = case.judge_with(signatures, &mut checked);
        let reasons = match &judgement {
            Ok(judgement) if self.has_reasons => denial::reasons(&it.name, &question, judgement, step.message, &checked),
            _ => Reasons::default(),
        };
        Judged { question, judgement, checked, reasons }
    }

    /// Adds the zone below that a judgement shows, with its DS set or without.
    fn add_below(&mut self, zone: usize, judged: &Judged) {
        let judgement = match &judged.judgement {
            Ok(judgement) => judgement,
            Err(_) => return,
        };
        match &judgement.verdict {
            Verdict::Referral { cut, ds } => self.add_zone(cut, Some(zone), Some(ds.clone())),
            Verdict::Records(data) if judged.question.rtype == Rtype::DS => {
                self.add_zone(&judged.question.name, Some(zone), DsSet::from_records(data.iter()).ok());
            }
            Verdict::Nodata(Delegates::Yes) if judged.question.rtype == Rtype::DS => {
                self.add_zone(&judged.question.name, Some(zone), None);
            }
            _ => {}
        }
    }

    /// Why a message of the way is not judged; none where it is, or is the answer for its zone's keys.
    pub fn why_not_judged(&self, at: usize) -> Option<&'static str> {
        let step = &self.steps[at];
        if !step.judged.is_empty() || self.is_for_keys(at) {
            return None;
        }
        if step.is_repeated {
            return Some("another message answers this question");
        }
        Some(match step.zone.filter(|it| self.zones[*it].ds.is_some()) {
            Some(_) => "the zone's DNSKEY answer is not there",
            None => "no message shows the DS set of its zone",
        })
    }

    /// What a message of the way says of another question, beside the keys and the DS set of its zone.
    pub fn judged_for<S: Signatures + ?Sized>(&self, step: &Step<'_>, question: Question, signatures: &S) -> Option<Judged> {
        let at = self.steps.iter().position(|it| it.wanted == step.wanted)?;
        let zone = self.steps[at].zone?;
        Some(self.judged(at, zone, question, &Known { checked: self.walk.checked(), signatures }))
    }

    /// The message of the way whose judgement answers a question, that of the lowest zone, and what it says.
    pub fn answer_to(&self, question: &Question) -> Option<(&Step<'a>, &Judged)> {
        let answers = self.steps.iter().filter_map(|step| {
            let judged = step.judged.iter().find(|it| it.question == *question)?;
            judged.judgement.as_ref().ok().filter(|it| it.verdict.is_answer())?;
            Some((step, judged))
        });
        answers.max_by_key(|(step, _)| step.wanted.zone.depth())
    }
}

/// Which records of a message are of one class and owner; none where the message cannot be read.
pub fn records_at<'a>(octets: &'a [u8], owner: &'a Name) -> impl Iterator<Item = zermuita::message::Record<'a>> {
    let message = Message::read(octets).ok();
    message.into_iter().flat_map(|it| it.records()).filter(move |it| it.class == 1 && it.owner == *owner)
}
