//! How often one network is answered by datagrams: a request whose source is forged floods nobody then. A network is the first 24 bits
//! of an IPv4 address, or the first 56 of an IPv6 address. The same response is given to it so often in a second, denials and errors
//! counting as one; and so many responses of any kind. Above that each second request gets a reply without records that says to ask by
//! TCP, and the others get none. Whoever has a cookie of this server (RFC 7873) is not counted: its address is its own.

use std::hash::Hasher;
use std::net::IpAddr;
use std::sync::atomic::{AtomicU32, AtomicU64, Ordering};

use siphasher::sip::SipHasher13;

/// How many counts there are, for networks and their responses together.
const PLACES: usize = 1 << 17;

/// What a request by a datagram gets.
#[derive(Clone, Copy, Debug, PartialEq, Eq)]
pub enum Turn {
    Answer,
    SayTcp,
    Drop,
}

/// What is counted of a network.
#[derive(Clone, Copy, Debug, PartialEq, Eq)]
pub enum Kind<'a> {
    /// All responses.
    All,
    /// A response with records of a name, in any case of its letters.
    Name(&'a [u8]),
    /// Denials, referrals and errors.
    Other,
}

/// Counts of the second, which all threads share. A place has a tag of 16 bits, a second of 16 and a count of 32; networks that share one
/// forget each other's counts.
pub struct Limits {
    /// The same response to a network in a second, of which 0 is any number of all; and all, of which 0 is any number.
    rate: AtomicU32,
    rate_all: AtomicU32,
    salt: [u8; 16],
    places: Vec<AtomicU64>,
    pub said_tcp: AtomicU64,
    pub dropped: AtomicU64,
}

/// The octets of an address's network. An IPv4 address may stand in an IPv6 one (RFC 4291, 2.5.5.2).
pub fn network_of(address: IpAddr) -> [u8; 8] {
    let mut octets = [0; 8];
    match address {
        IpAddr::V4(it) => octets[..3].copy_from_slice(&it.octets()[..3]),
        IpAddr::V6(it) => match it.to_ipv4_mapped() {
            Some(it) => octets[..3].copy_from_slice(&it.octets()[..3]),
            None => {
                octets[..7].copy_from_slice(&it.octets()[..7]);
                octets[7] = 6;
            }
        },
    }
    octets
}

impl Limits {
    pub fn new(rate: u32, rate_all: u32, salt: [u8; 16]) -> Self {
        let places = (0..PLACES).map(|_| AtomicU64::new(0)).collect();
        let (said_tcp, dropped) = (AtomicU64::new(0), AtomicU64::new(0));
        Limits { rate: AtomicU32::new(rate), rate_all: AtomicU32::new(rate_all), salt, places, said_tcp, dropped }
    }

    /// Other rates hold from now on.
    pub fn set(&self, rate: u32, rate_all: u32) {
        self.rate.store(rate, Ordering::Relaxed);
        self.rate_all.store(rate_all, Ordering::Relaxed);
    }

    /// Counts in a place, and gives its number in this second.
    fn count(&self, hash: u64, second: u64) -> u32 {
        let place = &self.places[hash as usize % PLACES];
        let head = hash >> 48 << 48 | (second & 0xffff) << 32;
        let next = |held: u64| if held >> 32 << 32 == head { head | ((held & 0xffff_ffff) + 1) } else { head | 1 };
        let held = place.fetch_update(Ordering::Relaxed, Ordering::Relaxed, |held| Some(next(held)));
        next(held.unwrap_or(0)) as u32
    }

    /// What a request of a network gets at a second.
    pub fn turn(&self, address: IpAddr, kind: Kind<'_>, second: u64) -> Turn {
        let (one, all) = (self.rate.load(Ordering::Relaxed), self.rate_all.load(Ordering::Relaxed));
        let rate = if kind == Kind::All { all } else { one };
        if one == 0 || rate == 0 {
            return Turn::Answer;
        }
        let mut hasher = SipHasher13::new_with_key(&self.salt);
        hasher.write(&network_of(address));
        match kind {
            Kind::All => hasher.write_u8(0),
            Kind::Other => hasher.write_u8(1),
            Kind::Name(name) => {
                hasher.write_u8(2);
                name.iter().for_each(|it| hasher.write_u8(it.to_ascii_lowercase()));
            }
        }
        let count = self.count(hasher.finish(), second);
        if count <= rate {
            return Turn::Answer;
        }
        let (turn, counted) = if count % 2 == 1 { (Turn::SayTcp, &self.said_tcp) } else { (Turn::Drop, &self.dropped) };
        counted.fetch_add(1, Ordering::Relaxed);
        turn
    }
}

#[cfg(test)]
mod tests {
    use super::*;

    #[test]
    fn networks_are_those_of_their_addresses() {
        let network = |it: &str| network_of(it.parse().unwrap());
        assert_eq!(network("192.0.2.1"), network("192.0.2.200"));
        assert_eq!(network("192.0.2.1"), network("::ffff:192.0.2.7"));
        assert_ne!(network("192.0.2.1"), network("192.0.3.1"));
        assert_eq!(network("2001:db8::1"), network("2001:db8:0:ff::1"));
        assert_ne!(network("2001:db8::1"), network("2001:db8:0:100::1"));
        assert_ne!(network("c000:200::"), network("192.0.2.0"));
    }

    #[test]
    fn a_name_is_counted_by_itself() {
        let (limits, here) = (Limits::new(2, 6, [7; 16]), "192.0.2.1".parse().unwrap());
        let turns = |kind, second| (0..5).map(|_| limits.turn(here, kind, second)).collect::<Vec<_>>();
        let limited = [Turn::Answer, Turn::Answer, Turn::SayTcp, Turn::Drop, Turn::SayTcp];
        assert_eq!(turns(Kind::Name(b"a"), 1), limited);
        assert_eq!(turns(Kind::Name(b"b"), 1), limited);
        assert_eq!(turns(Kind::Other, 1), limited);
        assert_eq!(turns(Kind::Name(b"A"), 1)[0], Turn::Drop);
        assert_eq!(turns(Kind::Name(b"a"), 2), limited);
        assert_eq!(turns(Kind::All, 1), [Turn::Answer; 5]);
        assert_eq!((limits.said_tcp.load(Ordering::Relaxed), limits.dropped.load(Ordering::Relaxed)), (10, 7));
        limits.set(0, 0);
        assert_eq!(turns(Kind::Other, 1), [Turn::Answer; 5]);
    }
}
