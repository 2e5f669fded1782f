//! What is said of a question: by a walk from the trust anchor, and below what is insecure by unsigned answers.

use std::collections::HashMap;
use std::net::SocketAddr;
use std::sync::{Arc, Mutex, PoisonError};
use std::time::Duration;

use tokio::sync::OnceCell;
use zermuita::{End, ExtendedError, Name, Outcome, Question, Refusal, Rtype, Verdict, Wanted};

use super::config::Ready;
use super::denials::{Denials, Proved};
use super::draft::{is_denied_from_below, Draft};
use super::fetch::{Fetched, Fetcher};
use super::metrics::{Count, Metrics};
use super::resolved::{Resolved, State};
use super::unsigned::Unsigned;
use super::walked::{NotWalked, Walked};
use crate::bounded::Bounded;
use crate::verified::Verified;
use crate::way::Way;

/// How many aliases are followed at most.
const MOST_ALIASES: usize = 16;

/// What one question of a client may cost: messages, and how deep the addresses of servers are asked for.
#[derive(Clone, Copy, Debug)]
pub struct Budget {
    pub messages: u32,
    pub depth: u32,
}

impl Default for Budget {
    fn default() -> Self {
        Budget { messages: 128, depth: 3 }
    }
}

/// Answers questions.
pub struct Resolver {
    pub ready: Ready,
    pub metrics: Arc<Metrics>,
    pub verified: Verified,
    pub fetcher: Fetcher,
    pub servers: Bounded<Name, Arc<[SocketAddr]>>,
    answers: Bounded<Question, Arc<Resolved>>,
    denials: Denials,
    running: Mutex<Running>,
}

/// Questions that are worked on, and what comes of each.
type Running = HashMap<Question, Arc<OnceCell<Arc<Resolved>>>>;

/// Whether a name goes on, as an alias that is insecure leads there.
enum Next {
    Done,
    Alias(Name),
}

/// No server answered.
fn unreachable(why: &impl ToString) -> (State, Option<ExtendedError>, String) {
    (State::Failed, Some(ExtendedError::NO_REACHABLE_AUTHORITY), why.to_string())
}

/// Why there is no answer: what to tell the client.
type NotResolved = (State, Option<ExtendedError>, String);

impl From<NotWalked> for NotResolved {
    fn from(error: NotWalked) -> Self {
        match error {
            NotWalked::NoAnswer(_) => unreachable(&error),
            error => (State::Failed, None, error.to_string()),
        }
    }
}

impl Resolver {
    pub fn new(ready: Ready, metrics: Arc<Metrics>) -> Self {
        Resolver {
            verified: Verified::new(ready.config.cache.signatures),
            fetcher: Fetcher::new(&ready, metrics.clone()),
            servers: Bounded::new(ready.config.cache.messages / 4),
            answers: Bounded::new(ready.config.cache.answers),
            denials: Denials::new(ready.config.cache.denials),
            running: Mutex::default(),
            metrics,
            ready,
        }
    }

    /// What is said of a client's question, which is kept.
    pub async fn answer(&self, question: &Question) -> Arc<Resolved> {
        if let Some(kept) = self.answers.get(question).filter(|it| crate::out::now() <= it.until) {
            self.metrics.add(Count::Kept, 1);
            return kept;
        }
        self.metrics.add(Count::Missed, 1);
        if let Some(denied) = self.denied(question) {
            self.metrics.add(Count::Denied, 1);
            return Arc::new(denied);
        }
        // Clients that ask the same meanwhile wait for one answer.
        let cell = self.with_running(|it| it.entry(question.clone()).or_default().clone());
        let resolved = cell.get_or_init(|| self.resolved_anew(question)).await.clone();
        self.with_running(|it| {
            if it.get(question).map_or(false, |of| Arc::ptr_eq(of, &cell)) {
                it.remove(question);
            }
        });
        resolved
    }

    /// The answer that denials of other names give (RFC 8198).
    fn denied(&self, question: &Question) -> Option<Resolved> {
        if self.is_negative(&question.name) {
            return None;
        }
        self.denials.answer(question, &self.verified, self.ready.config.nsec3_iterations)
    }

    /// Remembers the denial in which a walk ended.
    fn learn(&self, way: &Way<'_>, draft: &Draft, walked: &Walked, question: &Question) -> Option<()> {
        let (step, judged) = way.answer_to(question)?;
        let judgement = judged.judgement.as_ref().ok()?;
        let is_denial = matches!(judgement.verdict, Verdict::Nxdomain | Verdict::Nodata(_) | Verdict::WildcardNodata);
        let zone = &way.zones[step.zone.filter(|_| is_denial)?];
        let dnskey = way.steps[zone.answer?].message;
        let ttl = walked.end.ttl.saturating_sub(walked.age());
        let (ds, until) = (zone.ds.as_ref()?, walked.end.until);
        self.denials.learn(&Proved { zone: &zone.name, ds, dnskey, authority: draft.authority(), ttl, until });
        Some(())
    }

    fn with_running<T>(&self, work: impl FnOnce(&mut Running) -> T) -> T {
        work(&mut self.running.lock().unwrap_or_else(PoisonError::into_inner))
    }

    /// Resolves, and keeps what is said.
    async fn resolved_anew(&self, question: &Question) -> Arc<Resolved> {
        let resolved = Arc::new(self.resolved(question, &mut Budget::default()).await);
        let end = resolved.made + Duration::from_secs(resolved.ttl.min(self.ready.config.cache.max_ttl).into());
        self.answers.insert(question.clone(), resolved.clone(), end);
        resolved
    }

    /// What is said of a question.
    pub async fn resolved(&self, question: &Question, budget: &mut Budget) -> Resolved {
        match self.chain(question, budget).await {
            Ok(draft) => draft.resolved(),
            Err((state, extended, why)) => Resolved::failed(state, extended, why, self.ready.config.cache.failure_ttl),
        }
    }

    /// Goes from alias to alias, each from the trust anchor down.
    async fn chain(&self, question: &Question, budget: &mut Budget) -> Result<Draft, NotResolved> {
        let mut draft = Draft::new();
        let mut at = question.clone();
        for _ in 0..=MOST_ALIASES {
            match self.link(&at, &mut draft, budget).await? {
                Next::Done => return Ok(draft),
                Next::Alias(name) => at.name = name,
            }
        }
        Err((State::Failed, None, "more aliases than are followed".to_owned()))
    }

    fn is_negative(&self, name: &Name) -> bool {
        self.ready.negative.iter().any(|it| name.is_at_or_below(it))
    }

    /// Adds what is said of a name to a draft.
    async fn link(&self, question: &Question, draft: &mut Draft, budget: &mut Budget) -> Result<Next, NotResolved> {
        if self.is_negative(&question.name) {
            let unsigned = self.unsigned(question, &Name::root(), &HashMap::new(), budget).await;
            return Self::add_unsigned(draft, question, unsigned);
        }
        let walked = self.walk(question, budget).await?;
        // An alias may lead to a name at or below a negative trust anchor, of which nothing is asked of the walk.
        if let Some(name) = walked.end.aliases.iter().find(|it| self.is_negative(it)) {
            self.add_aliases(draft, &walked, question, Some(name))?;
            return Ok(Next::Alias(name.clone()));
        }
        match &walked.end.outcome {
            Outcome::Secure { .. } | Outcome::NameTooLong => {
                self.add_secure(draft, &walked, question)?;
                Ok(Next::Done)
            }
            Outcome::Insecure { .. } | Outcome::OptOut { .. } => {
                let last = Question::new(walked.end.aliases.last().unwrap_or(&question.name).clone(), question.rtype);
                self.add_aliases(draft, &walked, question, Some(&last.name))?;
                draft.lasts(walked.end.ttl, walked.end.until, walked.age());
                let unsigned = self.below(&walked, &last, budget).await;
                Self::add_unsigned(draft, &last, unsigned)
            }
            Outcome::Refused { refusal: Refusal::QuestionNotAllowed, .. } => self.not_judged(question, draft, budget).await,
            Outcome::Outside if question.name.is_root() => self.not_judged(question, draft, budget).await,
            _ => Err(refused(&walked.end)),
        }
    }

    fn add_unsigned(draft: &mut Draft, question: &Question, unsigned: Option<Unsigned>) -> Result<Next, NotResolved> {
        let unsigned = unsigned.ok_or_else(|| unreachable(&format!("no server answered {question}")))?;
        match draft.unsigned(question, &unsigned) {
            Some(name) => Ok(Next::Alias(name)),
            None => Ok(Next::Done),
        }
    }

    /// Adds the aliases of a walk up to a name.
    fn add_aliases(&self, draft: &mut Draft, walked: &Walked, question: &Question, end: Option<&Name>) -> Result<(), NotResolved> {
        let way = Way::without_reasons(&walked.walk, &self.verified);
        let mut name = &question.name;
        for next in walked.end.aliases.iter().take_while(|_| end.is_some()) {
            draft.secure(&way, &self.verified, &Question::new(name.clone(), question.rtype), walked.age()).ok_or_else(unsaid)?;
            name = next;
            if Some(next) == end {
                break;
            }
        }
        Ok(())
    }

    /// Adds all of a walk, which is secure.
    fn add_secure(&self, draft: &mut Draft, walked: &Walked, question: &Question) -> Result<(), NotResolved> {
        let way = Way::without_reasons(&walked.walk, &self.verified);
        for name in std::iter::once(&question.name).chain(&walked.end.aliases) {
            let at = Question::new(name.clone(), question.rtype);
            if is_denied_from_below(&way, &at) {
                return Err((State::Bogus, Some(ExtendedError::DNSSEC_BOGUS), format!("{at} is denied by a record of the zone below")));
            }
            draft.secure(&way, &self.verified, &at, walked.age()).ok_or_else(unsaid)?;
            self.learn(&way, draft, walked, &at);
        }
        draft.lasts(walked.end.ttl, walked.end.until, walked.age());
        Ok(())
    }

    /// Types that are not judged (docs/use/CALLING.md): what a walk for SOA proves of them.
    async fn not_judged(&self, question: &Question, draft: &mut Draft, budget: &mut Budget) -> Result<Next, NotResolved> {
        if question.rtype == Rtype::ANY {
            return self.any(question, draft, budget).await;
        }
        let soa = Question::new(question.name.clone(), Rtype::SOA);
        let mut walked = self.walk(&soa, budget).await?;
        let unsaid = || (State::Failed, None, format!("{} is not judged here", question.rtype));
        match &walked.end.outcome {
            Outcome::Secure { zone, .. } if *zone == question.name && walked.end.aliases.is_empty() => {
                if question.rtype != Rtype::DNSKEY {
                    // Only the root has a DS question that no zone above it answers.
                    let wanted = Wanted::new(zone.clone(), question.clone());
                    let fetched = self.message(&wanted, &walked.sources, &[], budget).await?;
                    walked.walk.put(&wanted, &fetched.octets);
                    walked.sources.insert(wanted, fetched);
                }
                let way = Way::without_reasons(&walked.walk, &self.verified);
                let told = if question.rtype == Rtype::DNSKEY {
                    draft.keys(&way, &question.name)
                } else {
                    draft.secure(&way, &self.verified, question, walked.age())
                };
                told.ok_or_else(unsaid)?;
            }
            Outcome::Secure { says: zermuita::Secure::Nxdomain, .. } if walked.end.aliases.is_empty() => {
                let way = Way::without_reasons(&walked.walk, &self.verified);
                draft.secure(&way, &self.verified, &soa, walked.age()).ok_or_else(unsaid)?;
            }
            Outcome::Secure { says: zermuita::Secure::Nodata, .. } if walked.end.aliases.is_empty() => {
                let way = Way::without_reasons(&walked.walk, &self.verified);
                draft.lacking(&way, &self.verified, &soa, question.rtype, walked.age()).ok_or_else(unsaid)?;
            }
            Outcome::Insecure { .. } | Outcome::OptOut { .. } if walked.end.aliases.is_empty() => {
                draft.lasts(walked.end.ttl, walked.end.until, walked.age());
                let unsigned = self.below(&walked, question, budget).await;
                return Self::add_unsigned(draft, question, unsigned);
            }
            Outcome::Secure { .. } | Outcome::Insecure { .. } | Outcome::OptOut { .. } => return Err(unsaid()),
            _ => return Err(refused(&walked.end)),
        }
        draft.lasts(walked.end.ttl, walked.end.until, walked.age());
        Ok(Next::Done)
    }

    /// One RRset of a name is enough of an answer for ANY (RFC 8482, 4.1).
    async fn any(&self, question: &Question, draft: &mut Draft, budget: &mut Budget) -> Result<Next, NotResolved> {
        for rtype in [Rtype::A, Rtype::AAAA, Rtype::MX, Rtype::SOA, Rtype::TXT] {
            let asked = Question::new(question.name.clone(), rtype);
            let walked = self.walk(&asked, budget).await?;
            match &walked.end.outcome {
                Outcome::Secure { says: zermuita::Secure::Nodata | zermuita::Secure::WildcardNodata, .. }
                    if walked.end.aliases.is_empty() => {}
                Outcome::Secure { .. } | Outcome::NameTooLong => {
                    self.add_secure(draft, &walked, &asked)?;
                    return Ok(Next::Done);
                }
                Outcome::Insecure { .. } | Outcome::OptOut { .. } if walked.end.aliases.is_empty() => {
                    draft.lasts(walked.end.ttl, walked.end.until, walked.age());
                    let unsigned = self.below(&walked, question, budget).await;
                    return Self::add_unsigned(draft, question, unsigned);
                }
                _ => return Err(refused(&walked.end)),
            }
        }
        Err((State::Failed, None, "ANY: the name has none of the types that are tried".to_owned()))
    }

    /// What a resolver sent for a question, for a client that checks by itself. None where the zones' own servers are asked.
    pub async fn unchecked(&self, question: &Question) -> Option<Arc<Fetched>> {
        if self.ready.upstream.is_empty() {
            return None;
        }
        match self.fetcher.kept(None, question) {
            Some(kept) => Some(kept),
            None => self.fetcher.fetch(None, question, &self.ready.upstream).await,
        }
    }

    /// The answers that are kept, for whoever counts them.
    pub fn kept(&self) -> usize {
        self.answers.len()
    }
}

fn unsaid() -> NotResolved {
    (State::Failed, None, "a message of the way cannot be passed on".to_owned())
}

/// What is told of a walk that is neither secure nor insecure.
fn refused(end: &End) -> NotResolved {
    let state = match &end.outcome {
        Outcome::Refused { refusal, .. } if refusal.is_bogus() => State::Bogus,
        Outcome::Refused { refusal: Refusal::IncompleteDenial, .. } | Outcome::NothingTold { .. } => State::Bogus,
        _ => State::Failed,
    };
    let place = match &end.outcome {
        Outcome::Refused { answer: Some(it), .. } | Outcome::NothingTold { answer: it } => format!("{it}: "),
        _ => String::new(),
    };
    (state, end.extended, place + end.reply.name())
}
