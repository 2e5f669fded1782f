//! A question to one address: by UDP, again by UDP, and by TCP where the answer is cut off.

use std::io;
use std::net::{Ipv4Addr, Ipv6Addr, SocketAddr};
use std::sync::{Mutex, PoisonError};
use std::time::Duration;

use tokio::io::{AsyncReadExt, AsyncWriteExt};
use tokio::net::{TcpStream, UdpSocket};
use tokio::time::{timeout_at, Instant};
use zermuita::message::{self, flags, Message};
use zermuita::Question;

/// How long an answer is waited for.
#[derive(Clone, Copy, Debug)]
pub struct Patience {
    /// By each datagram.
    pub datagram: Duration,
    /// In all, at one address.
    pub whole: Duration,
    /// How many datagrams are sent.
    pub datagrams: u32,
}

impl Default for Patience {
    fn default() -> Self {
        Patience { datagram: Duration::from_millis(2500), whole: Duration::from_secs(5), datagrams: 2 }
    }
}

/// How asking went.
#[derive(Clone, Debug, Default)]
pub struct Course {
    /// The address that was asked last.
    pub address: Option<SocketAddr>,
    /// How often something was sent, and how often nothing came.
    pub sent: u32,
    /// How often nothing came in time.
    pub timeouts: u32,
    /// Whether the answer was cut off by UDP, so that TCP was asked.
    pub by_tcp: bool,
    /// Why the last socket failed.
    pub error: Option<String>,
    /// How long it took.
    pub elapsed: Duration,
}

/// How asking goes, for whoever looks at it meanwhile.
#[derive(Debug, Default)]
pub struct Tracked(Mutex<Course>);

impl Tracked {
    fn set<T>(&self, change: impl FnOnce(&mut Course) -> T) -> T {
        change(&mut self.0.lock().unwrap_or_else(PoisonError::into_inner))
    }

    /// How it went so far.
    pub fn get(&self) -> Course {
        self.set(|it| it.clone())
    }
}

impl Course {
    fn failed(&mut self, error: &io::Error) {
        // The system's words, without its number.
        let text = error.to_string();
        self.error = Some(text.split(" (os error").next().unwrap_or(&text).to_owned());
    }
}

/// A question as it is sent: the header's flags beside it.
#[derive(Clone, Copy, Debug)]
pub struct Asked<'a> {
    /// What is asked.
    pub question: &'a Question,
    /// The header's flags: none to a server of the zone; RD and CD to a resolver (RFC 4035, 4.9.2).
    pub flags: u16,
}

/// How many octets are taken by a datagram.
pub const UDP_SIZE: u16 = 1232;
/// How often it is looked whether the socket failed.
const SLICE: Duration = Duration::from_millis(20);
/// How many octets a message has at most.
const MOST: usize = 65_535;

impl Asked<'_> {
    fn query(&self) -> io::Result<(u16, Vec<u8>)> {
        let mut id = [0; 2];
        openssl::rand::rand_bytes(&mut id).map_err(|error| io::Error::new(io::ErrorKind::Other, error))?;
        let id = u16::from_be_bytes(id);
        Ok((id, message::query(id, self.flags, self.question, UDP_SIZE)))
    }

    /// Whether octets are a response to the query: of its id, with its question in the letters that were sent.
    fn is_answered_by(&self, id: u16, octets: &[u8]) -> bool {
        Message::read(octets).map_or(false, |it| {
            let is_response = it.flags() & flags::QR != 0 && it.opcode() == 0;
            let same = it.question().map_or(false, |(question, class)| {
                class == 1 && question.rtype == self.question.rtype && question.name.as_wire() == self.question.name.as_wire()
            });
            it.id() == id && is_response && same
        })
    }
}

/// A socket that takes what comes from the address alone, at a port of the system's choice.
async fn connected(address: SocketAddr) -> io::Result<UdpSocket> {
    let any: SocketAddr = match address {
        SocketAddr::V4(_) => (Ipv4Addr::UNSPECIFIED, 0).into(),
        SocketAddr::V6(_) => (Ipv6Addr::UNSPECIFIED, 0).into(),
    };
    let socket = UdpSocket::bind(any).await?;
    socket.connect(address).await?;
    Ok(socket)
}

/// Asks once by UDP, until a moment. None where nothing came in time.
async fn by_datagram(asked: &Asked<'_>, address: SocketAddr, end: Instant) -> io::Result<Option<Vec<u8>>> {
    let socket = connected(address).await?;
    let (id, query) = asked.query()?;
    socket.send(&query).await?;
    let mut buffer = vec![0; MOST];
    loop {
        let slice = end.min(Instant::now() + SLICE);
        match timeout_at(slice, socket.recv(&mut buffer)).await {
            // That nobody is there does not make the socket readable.
            Err(_) => match socket.take_error()? {
                Some(error) => return Err(error),
                None if slice == end => return Ok(None),
                None => {}
            },
            Ok(len) => {
                let octets = &buffer[..len?];
                // What answers another question is dropped, and the right answer is waited for.
                if asked.is_answered_by(id, octets) {
                    return Ok(Some(octets.to_vec()));
                }
            }
        }
    }
}

/// Sends a query over a stream, and takes the answer.
async fn over_stream(asked: &Asked<'_>, address: SocketAddr) -> io::Result<Vec<u8>> {
    let (id, query) = asked.query()?;
    let mut stream = TcpStream::connect(address).await?;
    let framed = [&(query.len() as u16).to_be_bytes(), &query[..]].concat();
    stream.write_all(&framed).await?;
    let len = usize::from(stream.read_u16().await?);
    let mut octets = vec![0; len];
    stream.read_exact(&mut octets).await?;
    if asked.is_answered_by(id, &octets) {
        Ok(octets)
    } else {
        Err(io::Error::new(io::ErrorKind::InvalidData, "the answer is to another question"))
    }
}

/// Asks by TCP, until a moment.
pub async fn ask_by_stream(asked: &Asked<'_>, address: SocketAddr, end: Instant, course: &Tracked) -> Option<Vec<u8>> {
    course.set(|it| {
        it.sent += 1;
        it.by_tcp = true;
    });
    match timeout_at(end, over_stream(asked, address)).await {
        Err(_) => {
            course.set(|it| it.timeouts += 1);
            None
        }
        Ok(Err(error)) => {
            course.set(|it| it.failed(&error));
            None
        }
        Ok(Ok(octets)) => Some(octets),
    }
}

fn is_cut_off(octets: &[u8]) -> bool {
    Message::read(octets).map_or(true, |it| it.flags() & flags::TC != 0)
}

/// Asks at one address.
pub async fn ask_once(asked: &Asked<'_>, address: SocketAddr, patience: &Patience, course: &Tracked) -> Option<Vec<u8>> {
    let begin = Instant::now();
    let end = begin + patience.whole;
    course.set(|it| {
        it.address = Some(address);
        it.by_tcp = false;
    });
    let mut answer = None;
    for number in 1..=patience.datagrams {
        let slice = if number == patience.datagrams { end } else { begin + patience.datagram * number };
        course.set(|it| it.sent += 1);
        match by_datagram(asked, address, slice.min(end)).await {
            Ok(None) => course.set(|it| it.timeouts += 1),
            Ok(it) => {
                course.set(|it| it.error = None);
                answer = it;
                break;
            }
            Err(error) => course.set(|it| it.failed(&error)),
        }
    }
    match answer {
        Some(octets) if is_cut_off(&octets) => ask_by_stream(asked, address, end, course).await,
        answer => answer,
    }
}

/// Asks at each address, one after another, until one answers.
pub async fn ask(asked: &Asked<'_>, addresses: &[SocketAddr], patience: &Patience, course: &Tracked) -> Option<Vec<u8>> {
    let begin = Instant::now();
    let mut answer = None;
    for address in addresses {
        answer = ask_once(asked, *address, patience, course).await;
        if answer.is_some() {
            break;
        }
    }
    course.set(|it| it.elapsed = begin.elapsed());
    answer
}
