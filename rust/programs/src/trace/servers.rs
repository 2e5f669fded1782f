//! Asking for what a walk wants.

use std::net::IpAddr;

use zermuita::message::{flags, Message};
use zermuita::Wanted;

use super::progress::Teller;
use super::{found, Source, Traced};
use crate::cli::{Trace, ZoneServer};
use crate::net::{ask, Asked, Patience, Server, Tracked};

/// The servers that are given, the root's, and how it is told what they answer.
pub struct Servers {
    given: Vec<ZoneServer>,
    root: Vec<IpAddr>,
    port: u16,
    is_none: bool,
    teller: Teller,
}

/// A message and where it came from.
type Found = (Vec<u8>, Source);

impl Servers {
    pub fn new(options: &Trace, root: Vec<IpAddr>) -> Self {
        Servers {
            given: options.server.clone(),
            root,
            port: options.port,
            is_none: options.from.is_some() && options.server.is_empty(),
            teller: Teller::new(options.quiet),
        }
    }

    /// Asks the servers of a zone, one after another, until one answers: those that are given, or else those that messages name. Those
    /// that were tried before are left out.
    pub async fn seek(&self, wanted: &Wanted, traced: &Traced, tried: &[String]) -> Option<Found> {
        if self.is_none {
            return None;
        }
        let is_its = |it: &&ZoneServer| it.zone.as_ref().map_or(true, |zone| *zone == wanted.zone);
        let given: Vec<_> = self.given.iter().filter(is_its).map(|it| it.server.clone()).collect();
        let (servers, header) = if given.is_empty() {
            (found::servers(traced, &wanted.zone, &self.root), 0)
        } else {
            (given, flags::RD | flags::CD)
        };
        for server in servers.into_iter().filter(|it| !tried.contains(&it.to_string())) {
            if let Some(message) = self.ask_at(wanted, server, header).await {
                return Some(message);
            }
        }
        None
    }

    async fn ask_at(&self, wanted: &Wanted, server: Server, header: u16) -> Option<Found> {
        let text = server.to_string();
        let line = self.teller.line(wanted, &text);
        let addresses = match server.at_port(self.port).addresses().await {
            Ok(addresses) => addresses,
            Err(error) => {
                line.failed(&error.to_string());
                return None;
            }
        };
        let (asked, tracked) = (Asked { question: &wanted.question, flags: header }, Tracked::default());
        let patience = Patience::default();
        let answer = {
            let asking = ask(&asked, &addresses, &patience, &tracked);
            line.meanwhile(&tracked, asking).await
        };
        let course = tracked.get();
        let rcode = answer.as_deref().and_then(|it| Message::read(it).ok()).map(|it| it.rcode());
        line.ended(&course, answer.as_deref());
        let answer = answer.filter(|_| rcode.map_or(false, |it| it.is_answer()))?;
        Some((answer, Source { server: text, course: Some(course) }))
    }
}
