//! From a request to its response.

use std::net::IpAddr;
use std::sync::Arc;

use zermuita::{Request, Response, Zone};

use super::counts::Counts;
use super::limits::{Kind, Turn};
use super::query::{self, Heard, FORMERR, SERVFAIL, TC, UDP_SIZE};
use super::responses::Version;
use super::shared::Shared;
use super::signatures::Making;

/// How a request's turn is: at a version of the zone, or not at all, since its moment cannot be noted.
pub struct Now {
    pub version: Version,
    pub may_answer: bool,
    pub second: u64,
}

/// Answers requests of one thread.
pub struct Answerer {
    pub out: Vec<u8>,
    counts: Arc<Counts>,
}

/// What is counted of a response.
fn kind_of<'a>(query: &'a [u8], response: &[u8]) -> Kind<'a> {
    let has_records = response.len() >= 12 && response[3] & 15 == 0 && response[6..8] != [0, 0];
    match query::question(query) {
        Some(question) if has_records => Kind::Name(question),
        _ => Kind::Other,
    }
}

impl Answerer {
    pub fn new(shared: &Shared) -> Self {
        Answerer { out: Vec::with_capacity(65_535), counts: shared.new_counts() }
    }

    /// Answers a request without cookie: as it was answered before at this version, if it was.
    fn respond(&mut self, shared: &Shared, zone: &mut Zone, now: &Now, octets: &[u8], is_stream: bool) {
        if !now.may_answer {
            return query::write_header(&mut self.out, octets, 0, SERVFAIL);
        }
        if shared.responses.give_again(now.version, octets, is_stream, &mut self.out) {
            return;
        }
        let (moment, backdate) = (now.version.moment, shared.moments.backdate);
        let request = Request { octets, now: moment + u64::from(backdate), backdate, is_stream, limit: UDP_SIZE };
        match zone.respond(&request, &mut Making { kept: &shared.signatures, keys: &shared.keys, moment }) {
            Ok(Response::Octets(response)) => {
                shared.responses.keep(now.version, octets, is_stream, &response);
                self.out = response;
            }
            Ok(Response::None) => self.out.clear(),
            Err(_) => query::write_header(&mut self.out, octets, 0, SERVFAIL),
        }
    }

    /// Answers a request that came by a stream and has no cookie any more.
    pub fn stream(&mut self, shared: &Shared, zone: &mut Zone, now: &Now, octets: &[u8]) {
        self.respond(shared, zone, now, octets, true);
        self.counts.add(true, &self.out);
    }

    /// Whether a datagram is answered; otherwise what it gets instead is written.
    fn is_in_rate(&mut self, octets: &[u8], turn: Turn) -> bool {
        match turn {
            Turn::Answer => return true,
            Turn::SayTcp => query::write_header(&mut self.out, octets, TC, 0),
            Turn::Drop => self.out.clear(),
        }
        false
    }

    /// Answers a datagram within the rate of its network.
    fn limited(&mut self, shared: &Shared, zone: &mut Zone, now: &Now, octets: &[u8], from: IpAddr) {
        let turn = shared.limits.turn(from, Kind::All, now.second);
        if !self.is_in_rate(octets, turn) {
            return;
        }
        self.respond(shared, zone, now, octets, false);
        let turn = shared.limits.turn(from, kind_of(octets, &self.out), now.second);
        if self.is_in_rate(octets, turn) {
            self.counts.add(false, &self.out);
        }
    }

    /// Answers a datagram. Nothing is written where it gets no response.
    pub fn datagram(&mut self, shared: &Shared, zone: &mut Zone, now: &Now, octets: &[u8], from: IpAddr) {
        let (octets, sent) = match query::hear(octets) {
            Heard::Plain => return self.limited(shared, zone, now, octets, from),
            Heard::BadCookie => return self.bad_cookie(octets, false),
            Heard::WithCookie(without, sent) => (without, sent),
        };
        let (is_known, cookie) = shared.cookies.judged(&sent, from, crate::out::now());
        if is_known {
            self.counts.add_cookie();
            self.respond(shared, zone, now, &octets, false);
            self.counts.add(false, &self.out);
        } else {
            self.limited(shared, zone, now, &octets, from);
        }
        query::add_cookie(&mut self.out, &cookie);
        if self.out.len() > query::client_room(&octets) {
            query::write_header(&mut self.out, &octets, TC, 0);
            query::add_cookie(&mut self.out, &cookie);
        }
    }

    fn bad_cookie(&mut self, octets: &[u8], is_stream: bool) {
        query::write_header(&mut self.out, octets, 0, FORMERR);
        self.counts.add(is_stream, &self.out);
    }
}
