//! Answers below insecure delegations, under opt-out, and at and below negative trust anchors (docs/use/CALLING.md).

use std::collections::HashMap;
use std::net::SocketAddr;
use std::sync::Arc;

use zermuita::message::{Message, Rcode, Record, Section};
use zermuita::{Delegates, Name, Outcome, Question, Rtype, Verdict, Wanted};

use super::draft::redirected;
use super::fetch::Fetched;
use super::resolver::{Budget, Resolver};
use super::walked::Walked;
use crate::way::Way;

/// How many referrals are followed at most.
const MOST_REFERRALS: usize = 16;

/// An answer that nothing vouches for, and the zone whose server sent it, as far as that is known.
pub struct Unsigned {
    pub fetched: Arc<Fetched>,
    pub zone: Name,
}

impl Unsigned {
    /// The first alias of a question's name: its records, and where it leads; nowhere, if the name would be too long.
    pub fn alias<'a>(&self, question: &Question, message: &Message<'a>) -> Option<(Vec<Record<'a>>, Option<Name>)> {
        let answers: Vec<_> = message.records().filter(|it| it.section == Section::Answer && it.class == 1).collect();
        let is_at_name = |it: &&Record<'_>| it.rtype == Rtype::CNAME && it.owner == question.name;
        if let Some(record) = answers.iter().find(is_at_name).filter(|_| question.rtype != Rtype::CNAME) {
            let target = record.target(message)?;
            return Some((vec![record.clone()], Some(target)));
        }
        let is_above = |it: &&Record<'_>| {
            it.rtype == Rtype::DNAME && question.name.is_below(&it.owner) && it.owner.is_at_or_below(&self.zone)
        };
        let record = answers.iter().find(is_above)?;
        let target = record.target(message)?;
        Some((vec![record.clone()], redirected(&question.name, &record.owner, &target)))
    }
}

/// The delegation that a message refers to, below a zone and at or above a question's name.
fn referral(octets: &[u8], zone: &Name, question: &Question) -> Option<Name> {
    let message = Message::read(octets).ok()?;
    let has_answer = message.records().any(|it| it.section == Section::Answer && it.owner == question.name);
    let authority: Vec<_> = message.records().filter(|it| it.section == Section::Authority).collect();
    if message.rcode() != Rcode::NOERROR || has_answer || authority.iter().any(|it| it.rtype == Rtype::SOA) {
        return None;
    }
    let owner = &authority.iter().find(|it| it.rtype == Rtype::NS)?.owner;
    let is_above = if question.rtype == Rtype::DS { question.name.is_below(owner) } else { question.name.is_at_or_below(owner) };
    (owner.is_below(zone) && is_above).then(|| owner.clone())
}

impl Resolver {
    /// What is there for a question for which a walk ended as insecure.
    pub async fn below(&self, walked: &Walked, question: &Question, budget: &mut Budget) -> Option<Unsigned> {
        if !self.ready.upstream.is_empty() {
            return self.of_upstream(question).await;
        }
        match &walked.end.outcome {
            Outcome::Insecure { delegation } => self.unsigned(question, delegation, &walked.sources, budget).await,
            Outcome::OptOut { zone } => {
                let wanted = Wanted::new(zone.clone(), question.clone());
                let fetched = self.message(&wanted, &walked.sources, &[], budget).await.ok()?;
                match referral(&fetched.octets, zone, question) {
                    None => Some(Unsigned { fetched, zone: zone.clone() }),
                    Some(cut) => {
                        if !self.is_insecure(&cut, budget).await {
                            return None;
                        }
                        let sources = HashMap::from([(wanted, fetched)]);
                        self.unsigned(question, &cut, &sources, budget).await
                    }
                }
            }
            _ => None,
        }
    }

    /// Whether a walk shows that a delegation is not signed.
    async fn is_insecure(&self, cut: &Name, budget: &mut Budget) -> bool {
        let question = Question::new(cut.clone(), Rtype::DS);
        let walked = match self.walk(&question, budget).await {
            Ok(walked) => walked,
            Err(_) => return false,
        };
        if walked.end.is_insecure() {
            return true;
        }
        let way = Way::without_reasons(&walked.walk, &self.verified);
        let judgement = way.answer_to(&question).and_then(|it| it.1.judgement.as_ref().ok());
        judgement.map_or(false, |it| it.verdict == Verdict::Nodata(Delegates::Yes))
    }

    async fn of_upstream(&self, question: &Question) -> Option<Unsigned> {
        let fetched = self.unchecked(question).await?;
        Some(Unsigned { fetched, zone: Name::root() })
    }

    /// Asks from a zone's servers down, along referrals, which nothing has to vouch for.
    pub async fn unsigned(
        &self,
        question: &Question,
        zone: &Name,
        sources: &HashMap<Wanted, Arc<Fetched>>,
        budget: &mut Budget,
    ) -> Option<Unsigned> {
        if !self.ready.upstream.is_empty() {
            return self.of_upstream(question).await;
        }
        let mut zone = zone.clone();
        let mut servers: Vec<SocketAddr> = self.servers(&zone, sources, budget).await;
        for _ in 0..MOST_REFERRALS {
            let fetched = match self.fetcher.kept(Some(&zone), question) {
                Some(kept) => kept,
                None => {
                    budget.messages = budget.messages.checked_sub(1)?;
                    self.fetcher.fetch(Some(&zone), question, &servers).await?
                }
            };
            match referral(&fetched.octets, &zone, question) {
                None => return Some(Unsigned { fetched, zone }),
                Some(cut) => {
                    servers = match self.servers.get(&cut) {
                        Some(kept) => kept.to_vec(),
                        None => self.servers_in(&cut, &fetched.octets, budget).await,
                    };
                    zone = cut;
                }
            }
        }
        None
    }
}
