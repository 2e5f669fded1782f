//! Requests by TCP (RFC 7766). Above the limits the connection gives way that was idle longest, so that those who hold connections shut
//! nobody out.

use std::collections::HashMap;
use std::net::{IpAddr, SocketAddr};
use std::sync::atomic::{AtomicU64, Ordering};
use std::sync::{Arc, Mutex, MutexGuard, PoisonError};
use std::time::{Duration, Instant};

use socket2::SockRef;
use tokio::io::{AsyncReadExt, AsyncWriteExt};
use tokio::net::{TcpListener, TcpStream};
use tokio::sync::{oneshot, Notify};
use tokio::time::timeout;

use super::counts::Counts;
use super::limits::network_of;
use super::log;
use super::query::{self, Heard, FORMERR};
use super::responses::Version;
use super::shared::{Job, Shared};

/// How many octets a connection's response may wait in the system.
const SEND_ROOM: usize = 1 << 16;

/// A connection as the others see it.
struct Entry {
    network: [u8; 8],
    /// Milliseconds behind the start of the server in which it was answered last, or begun.
    last: Arc<AtomicU64>,
    close: Arc<Notify>,
}

/// All connections.
pub struct Connections {
    begun: Instant,
    most: usize,
    of_network: usize,
    table: Mutex<Table>,
}

#[derive(Default)]
struct Table {
    next: u64,
    entries: HashMap<u64, Entry>,
    logged: Option<Instant>,
}

/// Why a connection is closed for another.
const TOO_MANY: &str = "there are too many";
const OF_NETWORK: &str = "its network has too many";

impl Table {
    fn of(&self, network: [u8; 8]) -> usize {
        self.entries.values().filter(|it| it.network == network).count()
    }

    /// Of those in a network the one that was idle longest.
    fn idlest(&self, network: [u8; 8]) -> Option<u64> {
        let own = self.entries.iter().filter(|it| it.1.network == network);
        own.min_by_key(|it| it.1.last.load(Ordering::Relaxed)).map(|it| *it.0)
    }

    /// The network that has most connections.
    fn fullest(&self) -> Option<[u8; 8]> {
        let mut counts = HashMap::new();
        self.entries.values().for_each(|it| *counts.entry(it.network).or_insert(0_usize) += 1);
        counts.into_iter().max_by_key(|it| it.1).map(|it| it.0)
    }

    /// Makes room for a connection of a network: its own idlest one gives way where it has too many, else that of the fullest network.
    fn make_room(&mut self, network: [u8; 8], most: usize, of_network: usize) -> Option<&'static str> {
        let (from, why) = if self.of(network) >= of_network {
            (network, OF_NETWORK)
        } else if self.entries.len() >= most {
            (self.fullest()?, TOO_MANY)
        } else {
            return None;
        };
        let given = self.idlest(from)?;
        if let Some(entry) = self.entries.remove(&given) {
            entry.close.notify_one();
        }
        Some(why)
    }
}

/// A connection's place, which is given up when it ends.
struct Place {
    number: u64,
    all: Arc<Connections>,
    last: Arc<AtomicU64>,
    close: Arc<Notify>,
}

impl Drop for Place {
    fn drop(&mut self) {
        self.all.table().entries.remove(&self.number);
    }
}

impl Place {
    fn touch(&self) {
        self.last.store(self.all.now(), Ordering::Relaxed);
    }
}

impl Connections {
    pub fn new(most: usize, of_network: usize) -> Self {
        Connections { begun: Instant::now(), most, of_network, table: Mutex::default() }
    }

    fn now(&self) -> u64 {
        self.begun.elapsed().as_millis() as u64
    }

    fn table(&self) -> MutexGuard<'_, Table> {
        self.table.lock().unwrap_or_else(PoisonError::into_inner)
    }

    /// Takes a place. Says why another connection gave way for it, one in a second at most.
    fn take(self: &Arc<Self>, from: IpAddr, refused: &AtomicU64) -> Place {
        let (network, mut table) = (network_of(from), self.table());
        if let Some(why) = table.make_room(network, self.most, self.of_network) {
            let count = refused.fetch_add(1, Ordering::Relaxed) + 1;
            if table.logged.map_or(true, |it| it.elapsed() >= Duration::from_secs(1)) {
                table.logged = Some(Instant::now());
                log::failure("connection", why).with("from", from.to_string()).with("refused", count).write();
            }
        }
        let (last, close) = (Arc::new(AtomicU64::new(self.now())), Arc::new(Notify::new()));
        let number = table.next;
        table.next += 1;
        table.entries.insert(number, Entry { network, last: last.clone(), close: close.clone() });
        Place { number, all: self.clone(), last, close }
    }
}

/// What all connections of a listener have.
pub struct Streams {
    pub shared: Arc<Shared>,
    pub connections: Arc<Connections>,
    pub counts: Arc<Counts>,
}

impl Streams {
    /// The response that the same request had at this version, if it is kept.
    fn kept(&self, request: &[u8]) -> Option<Vec<u8>> {
        let turn = self.shared.turns.answer_again()?;
        let version = Version { moment: self.shared.moments.is_answered()?, zone: *turn };
        let mut out = Vec::new();
        let is_kept = self.shared.responses.give_again(version, request, true, &mut out);
        is_kept.then(|| {
            self.counts.add(true, &out);
            out
        })
    }

    async fn respond(&self, query: Vec<u8>) -> Option<Vec<u8>> {
        if let Some(response) = self.kept(&query) {
            return Some(response);
        }
        let (reply, response) = oneshot::channel();
        self.shared.push(Job { query, reply });
        response.await.ok()
    }

    /// The response to a request, which has its cookie again. None, or no octets, where the connection is over.
    async fn response(&self, octets: Vec<u8>, from: IpAddr) -> Option<Vec<u8>> {
        let (request, sent) = match query::hear(&octets) {
            Heard::Plain => return self.respond(octets).await,
            Heard::WithCookie(request, sent) => (request, sent),
            Heard::BadCookie => {
                let mut out = Vec::new();
                query::write_header(&mut out, &octets, 0, FORMERR);
                self.counts.add(true, &out);
                return Some(out);
            }
        };
        let (_, cookie) = self.shared.cookies.judged(&sent, from, crate::out::now());
        let mut response = self.respond(request).await?;
        query::add_cookie(&mut response, &cookie);
        Some(response)
    }

    /// Answers the requests of a connection, one after another.
    async fn serve(&self, mut stream: TcpStream, from: IpAddr, place: &Place) -> Option<()> {
        let seconds = Duration::from_secs(self.shared.config.tcp.seconds);
        let (mut read, mut write) = stream.split();
        let mut read = tokio::io::BufReader::with_capacity(4096, &mut read);
        loop {
            let whole = async {
                let len = usize::from(read.read_u16().await?);
                let mut octets = vec![0; len];
                read.read_exact(&mut octets).await.map(|_| octets)
            };
            let octets = timeout(seconds, whole).await.ok()?.ok()?;
            let response = self.response(octets, from).await?;
            let len = u16::try_from(response.len()).ok().filter(|len| *len > 0)?;
            let framed = [&len.to_be_bytes(), &response[..]].concat();
            timeout(seconds, write.write_all(&framed)).await.ok()?.ok()?;
            place.touch();
        }
    }

    async fn connection(self: Arc<Self>, stream: TcpStream, from: SocketAddr, place: Place) {
        let _ = SockRef::from(&stream).set_send_buffer_size(SEND_ROOM);
        let _ = stream.set_nodelay(true);
        tokio::select! {
            _ = place.close.notified() => {}
            _ = self.serve(stream, from.ip(), &place) => {}
        }
    }

    /// Takes connections, for ever.
    pub async fn listen(self: Arc<Self>, listener: std::net::TcpListener) {
        let listener = match TcpListener::from_std(listener) {
            Ok(listener) => listener,
            Err(error) => return log::failure("tcp", error).write(),
        };
        loop {
            match listener.accept().await {
                Ok((stream, from)) => {
                    let place = self.connections.take(from.ip(), &self.shared.refused);
                    tokio::spawn(self.clone().connection(stream, from, place));
                }
                Err(_) => tokio::time::sleep(Duration::from_millis(50)).await,
            }
        }
    }
}

#[cfg(test)]
mod tests {
    use super::*;

    fn taken(all: &Arc<Connections>, address: &str, refused: &AtomicU64) -> Place {
        all.take(address.parse().unwrap(), refused)
    }

    #[test]
    fn idle_connections_give_way() {
        let (all, refused) = (Arc::new(Connections::new(8, 2)), AtomicU64::new(0));
        let held: Vec<_> = (0..4).flat_map(|net| (1..3).map(move |host| format!("192.0.{net}.{host}"))).collect();
        let held: Vec<_> = held.iter().map(|it| taken(&all, it, &refused)).collect();
        held.iter().enumerate().for_each(|(at, it)| it.last.store(10 - at as u64, Ordering::Relaxed));
        assert_eq!(refused.load(Ordering::Relaxed), 0);
        // Of its own network the one that was idle longest.
        let third = taken(&all, "192.0.1.9", &refused);
        third.last.store(20, Ordering::Relaxed);
        let is_held = |it: &Place| all.table().entries.contains_key(&it.number);
        assert_eq!((is_held(&held[3]), is_held(&third)), (false, true));
        // A new network gets a place, too: one of a network that has most gives it.
        let other = taken(&all, "198.51.100.1", &refused);
        assert!(is_held(&other));
        assert_eq!((all.table().entries.len(), refused.load(Ordering::Relaxed)), (8, 2));
        drop((third, other));
        assert_eq!(all.table().entries.len(), 6);
    }
}
