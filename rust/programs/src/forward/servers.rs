//! The servers of a zone, where the zones' own are asked.

use std::collections::HashMap;
use std::future::Future;
use std::net::{IpAddr, Ipv4Addr, Ipv6Addr, SocketAddr};
use std::pin::Pin;
use std::sync::Arc;
use std::time::Duration;

use tokio::time::Instant;
use zermuita::message::{Message, Record};
use zermuita::{Name, Question, Rtype, Wanted};

use super::fetch::Fetched;
use super::resolver::{Budget, Resolver};
use super::walked::NotWalked;
use crate::way::records_at;

/// For how long it is kept which servers a zone has.
const KEPT: Duration = Duration::from_secs(600);
/// Of how many servers the addresses are asked for at most.
const MOST_NAMES: usize = 3;

/// The address that a record has.
pub fn address(record: &Record<'_>) -> Option<IpAddr> {
    match record.rtype {
        Rtype::A => <[u8; 4]>::try_from(record.data).ok().map(|it| Ipv4Addr::from(it).into()),
        Rtype::AAAA => <[u8; 16]>::try_from(record.data).ok().map(|it| Ipv6Addr::from(it).into()),
        _ => None,
    }
}

/// The names of a zone's servers in a message.
pub fn names(octets: &[u8], zone: &Name) -> Vec<Name> {
    let message = match Message::read(octets) {
        Ok(message) => message,
        Err(_) => return Vec::new(),
    };
    records_at(octets, zone).filter(|it| it.rtype == Rtype::NS).filter_map(|it| it.target(&message)).collect()
}

/// The addresses that a message has of names.
fn glue(octets: &[u8], names: &[Name]) -> Vec<IpAddr> {
    let mut found: Vec<_> = names.iter().flat_map(|it| records_at(octets, it).filter_map(|it| address(&it)).collect::<Vec<_>>()).collect();
    found.sort_by_key(IpAddr::is_ipv6);
    found
}

impl Resolver {
    fn at_port(&self, addresses: Vec<IpAddr>) -> Vec<SocketAddr> {
        addresses.into_iter().map(|it| SocketAddr::new(it, self.ready.config.server_port)).collect()
    }

    /// The servers to ask for a zone: the resolvers, or the zone's own.
    pub async fn servers(&self, zone: &Name, sources: &HashMap<Wanted, Arc<Fetched>>, budget: &mut Budget) -> Vec<SocketAddr> {
        if !self.ready.upstream.is_empty() {
            return self.ready.upstream.clone();
        }
        if let Some(kept) = self.servers.get(zone) {
            return kept.to_vec();
        }
        if zone.is_root() {
            return self.at_port(self.ready.root.clone());
        }
        for fetched in sources.values() {
            let found = self.servers_in(zone, &fetched.octets, budget).await;
            if !found.is_empty() {
                return found;
            }
        }
        // The server that gave the DS records may have both zones.
        let has_ds = |it: &&Arc<Fetched>| records_at(&it.octets, zone).any(|it| it.rtype == Rtype::DS);
        let of_ds = |it: &&Wanted| it.question.rtype == Rtype::DS && it.question.name == *zone;
        let from = sources.values().find(has_ds).or_else(|| sources.keys().find(of_ds).and_then(|it| sources.get(it)));
        from.map(|it| it.server).into_iter().collect()
    }

    /// The servers of a zone that a message names, whose addresses it has or others have.
    pub async fn servers_in(&self, zone: &Name, octets: &[u8], budget: &mut Budget) -> Vec<SocketAddr> {
        let names = names(octets, zone);
        let mut found = self.at_port(glue(octets, &names));
        if found.is_empty() && budget.depth > 0 {
            for name in names.iter().filter(|it| !it.is_at_or_below(zone)).take(MOST_NAMES) {
                found = self.looked_up(name, budget).await;
                if !found.is_empty() {
                    break;
                }
            }
        }
        if !found.is_empty() {
            self.servers.insert(zone.clone(), Arc::from(&found[..]), Instant::now() + KEPT);
        }
        found
    }

    /// The addresses of a server, by questions of its own.
    fn looked_up<'a>(&'a self, name: &'a Name, budget: &'a mut Budget) -> Pin<Box<dyn Future<Output = Vec<SocketAddr>> + Send + 'a>> {
        Box::pin(async move {
            budget.depth -= 1;
            let question = Question::new(name.clone(), Rtype::A);
            let resolved = self.resolved(&question, budget).await;
            budget.depth += 1;
            let is_address = |it: &&super::resolved::Rr| it.rtype == Rtype::A;
            let octets = resolved.answer.iter().filter(is_address).filter_map(|it| <[u8; 4]>::try_from(&it.data[..]).ok());
            self.at_port(octets.map(|it| Ipv4Addr::from(it).into()).collect())
        })
    }

    /// Which zone a kept message is of: none where a resolver was asked, which answers for all zones.
    fn zone_of<'a>(&self, wanted: &'a Wanted) -> Option<&'a Name> {
        self.ready.upstream.is_empty().then(|| &wanted.zone)
    }

    /// A message that is wanted, from a server that was not tried; a kept one where none was.
    pub async fn message(
        &self,
        wanted: &Wanted,
        sources: &HashMap<Wanted, Arc<Fetched>>,
        tried: &[SocketAddr],
        budget: &mut Budget,
    ) -> Result<Arc<Fetched>, NotWalked> {
        let zone = self.zone_of(wanted);
        if let Some(kept) = self.fetcher.kept(zone, &wanted.question).filter(|_| tried.is_empty()) {
            return Ok(kept);
        }
        budget.messages = budget.messages.checked_sub(1).ok_or(NotWalked::TooMany)?;
        let mut servers = self.servers(&wanted.zone, sources, budget).await;
        servers.retain(|it| !tried.contains(it));
        let fetched = self.fetcher.fetch(zone, &wanted.question, &servers).await;
        fetched.ok_or_else(|| NotWalked::NoAnswer(wanted.clone()))
    }

    /// Drops a message that was refused.
    pub fn forget(&self, wanted: &Wanted) {
        self.fetcher.forget(self.zone_of(wanted), &wanted.question);
    }
}
