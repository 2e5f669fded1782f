//! The servers of a zone that the messages of a walk name.

use std::net::{IpAddr, Ipv4Addr, Ipv6Addr};

use zermuita::message::{Message, Record};
use zermuita::{Name, Rtype};

use super::Traced;
use crate::net::Server;
use crate::way::records_at;

fn address(record: &Record<'_>) -> Option<IpAddr> {
    match record.rtype {
        Rtype::A => <[u8; 4]>::try_from(record.data).ok().map(|it| Ipv4Addr::from(it).into()),
        Rtype::AAAA => <[u8; 16]>::try_from(record.data).ok().map(|it| Ipv6Addr::from(it).into()),
        _ => None,
    }
}

/// The names of a zone's servers in a message.
fn names(octets: &[u8], zone: &Name) -> Vec<Name> {
    let message = match Message::read(octets) {
        Ok(message) => message,
        Err(_) => return Vec::new(),
    };
    records_at(octets, zone).filter(|it| it.rtype == Rtype::NS).filter_map(|it| it.target(&message)).collect()
}

/// The addresses that a message has of a zone's servers.
fn addresses(octets: &[u8], zone: &Name) -> Vec<Server> {
    let names = names(octets, zone);
    names.iter().flat_map(|it| records_at(octets, it).filter_map(|it| address(&it)).collect::<Vec<_>>()).map(Server::from).collect()
}

/// The names of its servers, if they are of letters, digits, hyphens and underscores, as the system's resolver looks them up.
fn hosts(octets: &[u8], zone: &Name) -> Vec<Server> {
    let names = names(octets, zone);
    names.iter().filter(|it| !it.is_root()).filter_map(|it| it.to_string().parse().ok()).collect()
}

/// How a zone's servers are found in a message.
type Finding = fn(&[u8], &Name) -> Vec<Server>;

/// The servers of a zone: those whose addresses or else names a message has; or those that gave its DS records; of the root its own.
pub fn servers(traced: &Traced, zone: &Name, root: &[IpAddr]) -> Vec<Server> {
    let ways: [Finding; 2] = [addresses, hosts];
    for way in ways {
        let found = traced.walk.messages().map(|(_, octets)| way(octets, zone)).find(|it| !it.is_empty());
        if let Some(mut found) = found {
            found.dedup();
            return found;
        }
    }
    let has_ds = |octets: &[u8]| records_at(octets, zone).any(|it| it.rtype == Rtype::DS);
    let from = |wanted| traced.sources.get(wanted).filter(|it| it.course.is_some()).and_then(|it| it.server.parse().ok());
    let found: Vec<_> = traced.walk.messages().filter(|it| has_ds(it.1)).filter_map(|it| from(it.0)).take(1).collect();
    if found.is_empty() && zone.is_root() {
        return root.iter().map(|it| Server::from(*it)).collect();
    }
    found
}
