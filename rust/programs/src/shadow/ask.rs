//! Asks the resolver for DS and DNSKEY sets that were not seen, if that is wanted: a resolver that logs nothing of its own traffic shows
//! them in its answers. The answers are seen in the stream alone.

use std::net::{Ipv4Addr, Ipv6Addr, SocketAddr, UdpSocket};

use zermuita::message::{flags, query};
use zermuita::{Name, Question, Rtype};

use super::table::Table;
use crate::out;

/// Seconds in which a question is not asked again.
const PAUSE: u64 = 30;
const MOST_PER_SECOND: u32 = 50;
const UDP_SIZE: u16 = 4096;

/// Asks a resolver.
pub struct Asker {
    socket: UdpSocket,
    asked: Table<()>,
    second: u64,
    in_second: u32,
    all: u64,
}

impl Asker {
    pub fn new(resolver: SocketAddr) -> std::io::Result<Self> {
        let any = match resolver {
            SocketAddr::V4(_) => SocketAddr::from((Ipv4Addr::UNSPECIFIED, 0)),
            SocketAddr::V6(_) => SocketAddr::from((Ipv6Addr::UNSPECIFIED, 0)),
        };
        let socket = UdpSocket::bind(any)?;
        socket.connect(resolver)?;
        socket.set_nonblocking(true)?;
        Ok(Asker { socket, asked: Table::new(4096, 1 << 20), second: 0, in_second: 0, all: 0 })
    }

    /// Whether a question was asked a moment ago.
    pub fn has_asked(&mut self, question: &Question) -> bool {
        self.asked.get(&question.name, question.rtype, out::now()).is_some()
    }

    /// Asks a question, if it was not asked a moment ago and not too many are asked.
    pub fn ask(&mut self, name: &Name, rtype: Rtype) {
        let now = out::now();
        if now != self.second {
            (self.second, self.in_second) = (now, 0);
        }
        let question = Question::new(name.clone(), rtype);
        if self.in_second >= MOST_PER_SECOND || self.has_asked(&question) {
            return;
        }
        let mut unread = [0; UDP_SIZE as usize];
        while self.socket.recv(&mut unread).is_ok() {}
        let mut id = [0; 2];
        let is_random = openssl::rand::rand_bytes(&mut id).is_ok();
        let octets = query(u16::from_be_bytes(id), flags::RD, &question, UDP_SIZE);
        if is_random && self.socket.send(&octets).is_ok() {
            self.asked.put(name, rtype, (), 0, now + PAUSE);
            self.in_second += 1;
            self.all += 1;
        }
    }

    /// How many questions were asked.
    pub fn all(&self) -> u64 {
        self.all
    }
}
