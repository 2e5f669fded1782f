//! Asks servers by TCP (RFC 7766) for a set of the zone's apex.

use std::io::{self, Read, Write};
use std::net::{SocketAddr, TcpStream};
use std::time::{Duration, Instant};

use zermuita::message::{Message, Rcode, Section};
use zermuita::{Name, Rtype};

const PATIENCE: Duration = Duration::from_secs(5);

/// The records of a set by their data; of the SOA record instead who signs it, by algorithm and tag.
#[derive(Clone, Debug, Default, PartialEq, Eq)]
pub struct Set {
    pub data: Vec<Vec<u8>>,
    /// The greatest TTL; of what is not there the one by which that is kept.
    pub ttl: u32,
}

impl Set {
    fn is_within(&self, other: &Set) -> bool {
        self.data.iter().all(|it| other.data.contains(it))
    }

    pub fn is_same(&self, other: &Set) -> bool {
        self.is_within(other) && other.is_within(self)
    }
}

/// A query for a type at the apex, with DO, behind its length.
fn query(name: &Name, rtype: Rtype, id: [u8; 2]) -> Vec<u8> {
    let head = [id[0], id[1], 0, 0, 0, 1, 0, 0, 0, 0, 0, 1];
    let edns = [0, 0, 41, 4, 208, 0, 0, 0x80, 0, 0, 0];
    let octets = [&head[..], name.as_wire(), &rtype.0.to_be_bytes(), &[0, 1], &edns].concat();
    [&(octets.len() as u16).to_be_bytes(), &octets[..]].concat()
}

/// Reads so many octets until a moment.
fn read_exact(stream: &mut TcpStream, octets: &mut [u8], until: Instant) -> io::Result<()> {
    let mut at = 0;
    while at < octets.len() {
        let left = until.checked_duration_since(Instant::now()).filter(|it| !it.is_zero()).ok_or(io::ErrorKind::TimedOut)?;
        stream.set_read_timeout(Some(left))?;
        match stream.read(&mut octets[at..])? {
            0 => return Err(io::ErrorKind::UnexpectedEof.into()),
            len => at += len,
        }
    }
    Ok(())
}

/// Asks a server, and gives its response.
fn ask(server: SocketAddr, query: &[u8]) -> io::Result<Vec<u8>> {
    let until = Instant::now() + 2 * PATIENCE;
    let mut stream = TcpStream::connect_timeout(&server, PATIENCE)?;
    stream.set_write_timeout(Some(PATIENCE))?;
    stream.write_all(query)?;
    let mut head = [0; 2];
    read_exact(&mut stream, &mut head, until)?;
    let mut response = vec![0; usize::from(u16::from_be_bytes(head))];
    read_exact(&mut stream, &mut response, until)?;
    if response.get(..2) == query.get(2..4) { Ok(response) } else { Err(io::ErrorKind::InvalidData.into()) }
}

/// Reads the set of a response, which is to be one of authority.
fn read_set(response: &[u8], rtype: Rtype) -> Option<Set> {
    let message = Message::read(response).ok()?;
    let is_authority = response[2] & 0x86 == 0x84;
    if !is_authority || message.rcode() != Rcode::NOERROR || response[4..6] != [0, 1] {
        return None;
    }
    let mut set = Set::default();
    for it in message.records() {
        let is_answer = it.section == Section::Answer;
        if rtype == Rtype::SOA {
            if is_answer && it.rtype == Rtype::RRSIG && it.data.len() >= 18 && it.data[..2] == [0, 6] {
                set.data.push(vec![it.data[2], it.data[16], it.data[17]]);
            }
        } else if it.section == Section::Authority && it.rtype == Rtype::SOA && it.data.len() >= 20 {
            // What is not there is kept as long as the SOA record's TTL and its minimum allow (RFC 2308, 5).
            let minimum = it.data[it.data.len() - 4..].try_into().map(u32::from_be_bytes).ok()?;
            set.ttl = it.ttl.min(minimum);
        } else if is_answer && it.rtype == rtype {
            set.ttl = set.ttl.max(it.ttl);
            set.data.push(it.data.to_vec());
        }
    }
    Some(set)
}

/// Asks a server for a set.
pub fn ask_set(server: SocketAddr, name: &Name, rtype: Rtype) -> Option<Set> {
    let mut id = [0; 2];
    openssl::rand::rand_bytes(&mut id).ok()?;
    read_set(&ask(server, &query(name, rtype, id)).ok()?, rtype)
}
