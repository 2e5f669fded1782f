//! Clients: datagrams, and connections by TCP and TLS.

use std::net::SocketAddr;
use std::sync::{Arc, PoisonError, RwLock};
use std::time::Duration;

use tokio::io::{AsyncRead, AsyncReadExt, AsyncWrite, AsyncWriteExt};
use tokio::net::{TcpListener, UdpSocket};
use tokio::sync::Semaphore;
use tokio::time::timeout;
use zermuita::message::{Message, Rcode, Section};
use zermuita::Rtype;

use super::draft::unsigned_rr;
use super::fetch::Fetched;
use super::metrics::{Count, Metrics};
use super::resolved::{Resolved, Rr, State};
use super::resolver::Resolver;
use super::respond::{hear, Heard, Query};

/// For how long a connection may be idle (RFC 7766, 6.2.3).
const IDLE: Duration = Duration::from_secs(10);
/// How long a whole question may take.
const WHOLE: Duration = Duration::from_secs(20);
/// How many octets a response by a stream has at most.
const STREAM_ROOM: usize = 65_535;

/// What all clients share. The resolver is another one once the configuration was read again.
pub struct Shared {
    resolver: RwLock<Arc<Resolver>>,
    pub metrics: Arc<Metrics>,
    questions: Arc<Semaphore>,
    connections: Arc<Semaphore>,
}

/// How a question came.
#[derive(Clone, Copy, Debug, PartialEq, Eq)]
pub enum Transport {
    Udp,
    Tcp,
    Tls,
}

impl Transport {
    fn count(self) -> Count {
        match self {
            Transport::Udp => Count::Udp,
            Transport::Tcp => Count::Tcp,
            Transport::Tls => Count::Tls,
        }
    }
}

/// What a resolver sent, as a client gets it that checks by itself: without AD.
fn unchecked(fetched: &Fetched) -> Option<Resolved> {
    let message = Message::read(&fetched.octets).ok()?;
    let of = |section| -> Vec<Rr> {
        let records = message.records().filter(|it| it.section == section && it.class == 1 && it.rtype != Rtype::OPT);
        records.filter_map(|it| unsigned_rr(&message, &it)).collect()
    };
    let (answer, authority) = (of(Section::Answer), of(Section::Authority));
    let (rcode, made) = (message.rcode(), fetched.arrived);
    Some(Resolved { state: State::Insecure, rcode, answer, authority, extended: None, made, ttl: 0, until: u64::MAX })
}

impl Shared {
    pub fn new(resolver: Arc<Resolver>) -> Self {
        let config = &resolver.ready.config;
        Shared {
            metrics: resolver.metrics.clone(),
            questions: Arc::new(Semaphore::new(config.max_questions)),
            connections: Arc::new(Semaphore::new(config.max_connections)),
            resolver: RwLock::new(resolver),
        }
    }

    pub fn resolver(&self) -> Arc<Resolver> {
        self.resolver.read().unwrap_or_else(PoisonError::into_inner).clone()
    }

    pub fn replace(&self, resolver: Arc<Resolver>) {
        *self.resolver.write().unwrap_or_else(PoisonError::into_inner) = resolver;
    }

    async fn resolved(&self, query: &Query) -> Arc<Resolved> {
        let resolver = self.resolver();
        if query.is_unchecked() {
            if let Some(resolved) = resolver.unchecked(&query.question).await.and_then(|it| unchecked(&it)) {
                return Arc::new(resolved);
            }
        }
        resolver.answer(&query.question).await
    }

    /// The response to a query.
    async fn answered(&self, query: &Query, client: SocketAddr, transport: Transport) -> Vec<u8> {
        let room = if transport == Transport::Udp { query.room() } else { STREAM_ROOM };
        let begin = tokio::time::Instant::now();
        let resolved = match timeout(WHOLE, self.resolved(query)).await {
            Ok(resolved) => resolved,
            Err(_) => Arc::new(Resolved::failed(State::Failed, None, "it took too long".to_owned(), 0)),
        };
        let count = match resolved.state {
            State::Secure => Count::Secure,
            State::Insecure => Count::Insecure,
            State::Bogus => Count::Bogus,
            State::Failed => Count::Failed,
        };
        self.metrics.add(count, 1);
        let why = resolved.extended.as_ref().map_or("", |it| it.1.as_str());
        let milliseconds = begin.elapsed().as_secs_f64() * 1000.0;
        if self.resolver().ready.config.log.queries {
            tracing::info!(%client, question = %query.question, state = ?resolved.state, rcode = %resolved.rcode, why, milliseconds, "answered");
        } else if resolved.state == State::Bogus {
            tracing::warn!(question = %query.question, why, "bogus");
        }
        query.answered(&resolved, room)
    }

    /// What is sent to a client for what it sent, if anything.
    async fn response(&self, octets: &[u8], client: SocketAddr, transport: Transport) -> Option<Vec<u8>> {
        match hear(octets) {
            Heard::Nothing => {
                self.metrics.add(Count::Unread, 1);
                None
            }
            Heard::Answer(answer) => {
                self.metrics.add(Count::Refused, 1);
                Some(answer)
            }
            Heard::Query(query) => {
                self.metrics.add(transport.count(), 1);
                let permit = match self.questions.clone().try_acquire_owned() {
                    Ok(permit) => permit,
                    Err(_) if transport == Transport::Udp => {
                        self.metrics.add(Count::Busy, 1);
                        return None;
                    }
                    Err(_) => return Some(query.empty(Rcode::SERVFAIL)),
                };
                let answered = self.answered(&query, client, transport).await;
                drop(permit);
                Some(answered)
            }
        }
    }
}

/// Answers datagrams, for ever.
pub async fn datagrams(shared: Arc<Shared>, socket: Arc<UdpSocket>) {
    let mut buffer = vec![0; 65_536];
    loop {
        // An error here is one of an earlier answer, as where nobody is there.
        let (len, client) = match socket.recv_from(&mut buffer).await {
            Ok(it) => it,
            Err(_) => continue,
        };
        let (octets, shared, socket) = (buffer[..len].to_vec(), shared.clone(), socket.clone());
        tokio::spawn(async move {
            if let Some(response) = shared.response(&octets, client, Transport::Udp).await {
                let _ = socket.send_to(&response, client).await;
            }
        });
    }
}

/// Answers the questions of a stream, one after another, until it is idle or ends.
pub async fn stream<S: AsyncRead + AsyncWrite + Unpin>(shared: &Shared, mut stream: S, client: SocketAddr, transport: Transport) {
    loop {
        let len = match timeout(IDLE, stream.read_u16()).await {
            Ok(Ok(len)) => usize::from(len),
            _ => return,
        };
        let mut octets = vec![0; len];
        if !matches!(timeout(IDLE, stream.read_exact(&mut octets)).await, Ok(Ok(_))) {
            return;
        }
        let response = match shared.response(&octets, client, transport).await {
            Some(response) => response,
            None => return,
        };
        let framed = [&(response.len() as u16).to_be_bytes(), &response[..]].concat();
        if !matches!(timeout(IDLE, stream.write_all(&framed)).await, Ok(Ok(()))) {
            return;
        }
    }
}

/// Takes connections by TCP, for ever; what is done with each is given. Where there are too many, new ones wait.
pub async fn connections<F, T>(shared: Arc<Shared>, listener: TcpListener, serve: F)
where
    F: Fn(Arc<Shared>, tokio::net::TcpStream, SocketAddr) -> T,
    T: std::future::Future<Output = ()> + Send + 'static,
{
    loop {
        let permit = shared.connections.clone().acquire_owned().await;
        match listener.accept().await {
            Ok((stream, client)) => {
                let served = serve(shared.clone(), stream, client);
                tokio::spawn(async move {
                    served.await;
                    drop(permit);
                });
            }
            Err(_) => tokio::time::sleep(Duration::from_millis(50)).await,
        }
    }
}
