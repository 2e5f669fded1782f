//! The daemon: its sockets, its log, and its signals.

use std::net::SocketAddr;
use std::path::Path;
use std::pin::Pin;
use std::sync::Arc;
use std::time::Duration;

use listenfd::ListenFd;
use openssl::ssl::{Ssl, SslAcceptor, SslFiletype, SslMethod};
use tokio::net::{TcpListener, TcpStream, UdpSocket};
use tokio::signal::unix::{signal, SignalKind};
use tokio_openssl::SslStream;

use super::config::{self, Ready, Tls};
use super::metrics::{Count, Metrics};
use super::resolver::Resolver;
use super::serve::{connections, datagrams, stream, Shared, Transport};
use crate::log;
use crate::out::Failure;

/// How long a handshake of TLS may take.
const HANDSHAKE: Duration = Duration::from_secs(5);

fn unopened(address: SocketAddr, what: &str, error: std::io::Error) -> Failure {
    let advice = match error.kind() {
        std::io::ErrorKind::AddrInUse => "another server has this address: stop it, or change `listen`",
        std::io::ErrorKind::PermissionDenied => "ports below 1024 need root or CAP_NET_BIND_SERVICE",
        std::io::ErrorKind::AddrNotAvailable => "this host does not have the address: change `listen`",
        _ => "change `listen`",
    };
    Failure::Socket { place: format!("{address} by {what}"), error, advice }
}

fn acceptor(tls: &Tls) -> Result<Option<SslAcceptor>, Failure> {
    let (certificate, key) = match (&tls.certificate, &tls.key) {
        (Some(certificate), Some(key)) if !tls.listen.is_empty() => (certificate, key),
        _ => return Ok(None),
    };
    let wrong = |path: &Path| {
        let path = path.to_owned();
        move |error: openssl::error::ErrorStack| Failure::Content { path: path.clone(), reason: error.to_string() }
    };
    let mut builder = SslAcceptor::mozilla_intermediate_v5(SslMethod::tls_server()).map_err(wrong(certificate))?;
    builder.set_certificate_chain_file(certificate).map_err(wrong(certificate))?;
    builder.set_private_key_file(key, SslFiletype::PEM).map_err(wrong(key))?;
    builder.check_private_key().map_err(wrong(key))?;
    Ok(Some(builder.build()))
}

async fn serve_tls(shared: Arc<Shared>, acceptor: SslAcceptor, tcp: TcpStream, client: SocketAddr) {
    let made = Ssl::new(acceptor.context()).and_then(|it| SslStream::new(it, tcp));
    if let Ok(mut tls) = made {
        if matches!(tokio::time::timeout(HANDSHAKE, Pin::new(&mut tls).accept()).await, Ok(Ok(()))) {
            stream(&shared, tls, client, Transport::Tls).await;
        }
    }
}

/// Sockets at which clients ask, by datagrams and by TCP.
#[derive(Default)]
struct Sockets {
    udp: Vec<UdpSocket>,
    tcp: Vec<TcpListener>,
}

impl Sockets {
    /// Those that systemd hands in (sd_listen_fds(3)).
    fn handed_in() -> std::io::Result<Self> {
        let (mut handed, mut sockets) = (ListenFd::from_env(), Sockets::default());
        for at in 0..handed.len() {
            if let Ok(Some(tcp)) = handed.take_tcp_listener(at) {
                tcp.set_nonblocking(true)?;
                sockets.tcp.push(TcpListener::from_std(tcp)?);
            } else if let Some(udp) = handed.take_udp_socket(at)? {
                udp.set_nonblocking(true)?;
                sockets.udp.push(UdpSocket::from_std(udp)?);
            }
        }
        Ok(sockets)
    }

    /// Those of the configuration.
    async fn opened(ready: &Ready) -> Result<Self, Failure> {
        let mut sockets = Sockets::default();
        for address in &ready.config.listen {
            sockets.udp.push(UdpSocket::bind(address).await.map_err(|error| unopened(*address, "UDP", error))?);
            sockets.tcp.push(TcpListener::bind(address).await.map_err(|error| unopened(*address, "TCP", error))?);
        }
        Ok(sockets)
    }

    /// Those that are handed in take the place of those of the configuration.
    async fn all(ready: &Ready) -> Result<Self, Failure> {
        let handed = Sockets::handed_in().map_err(|error| Failure::Socket {
            place: "a socket that was handed in".to_owned(),
            error,
            advice: "the unit's sockets are of ListenDatagram= and ListenStream=",
        })?;
        if handed.udp.is_empty() && handed.tcp.is_empty() {
            return Sockets::opened(ready).await;
        }
        tracing::info!("the sockets are those that were handed in, in the place of `listen`");
        Ok(handed)
    }
}

/// Opens all sockets, and serves them.
async fn open(shared: &Arc<Shared>, ready: &Ready) -> Result<(), Failure> {
    let sockets = Sockets::all(ready).await?;
    for udp in sockets.udp {
        tokio::spawn(datagrams(shared.clone(), Arc::new(udp)));
    }
    for tcp in sockets.tcp {
        tokio::spawn(connections(shared.clone(), tcp, |shared, tcp, client| async move {
            stream(&shared, tcp, client, Transport::Tcp).await;
        }));
    }
    if let Some(acceptor) = acceptor(&ready.config.tls)? {
        for address in &ready.config.tls.listen {
            let tcp = TcpListener::bind(address).await.map_err(|error| unopened(*address, "TLS", error))?;
            let acceptor = acceptor.clone();
            tokio::spawn(connections(shared.clone(), tcp, move |shared, tcp, client| {
                serve_tls(shared, acceptor.clone(), tcp, client)
            }));
        }
    }
    let metrics = shared.metrics.clone();
    ready.config.metrics.serve(move || metrics.page()).await
}

/// Reads the configuration again. What is wrong is logged, and the old one stays.
fn reload(shared: &Shared, path: &Path) {
    let _ = sd_notify::notify(false, &[sd_notify::NotifyState::Reloading]);
    match config::read(path) {
        Ok(ready) => {
            let old = shared.resolver();
            let is_other = |a: &Ready, b: &Ready| a.config.listen != b.config.listen || a.config.tls.listen != b.config.tls.listen;
            if is_other(&old.ready, &ready) {
                tracing::warn!("the addresses to listen at change with the next start");
            }
            shared.replace(Arc::new(Resolver::new(ready, shared.metrics.clone())));
            shared.metrics.add(Count::Reloads, 1);
            tracing::info!("the configuration was read again");
        }
        Err(failure) => tracing::error!("{failure}: the old configuration stays"),
    }
    let _ = sd_notify::notify(false, &[sd_notify::NotifyState::Ready]);
}

async fn served(path: &Path, ready: Ready) -> Result<u8, Failure> {
    let shared = Arc::new(Shared::new(Arc::new(Resolver::new(ready.clone(), Arc::new(Metrics::new())))));
    let (mut hangup, mut term, mut interrupt) =
        (signal(SignalKind::hangup())?, signal(SignalKind::terminate())?, signal(SignalKind::interrupt())?);
    open(&shared, &ready).await?;
    let asks = if ready.upstream.is_empty() { "the zones' own servers".to_owned() } else { format!("{:?}", ready.upstream) };
    tracing::info!(listen = ?ready.config.listen, asks, version = env!("CARGO_PKG_VERSION"), "ready");
    // Nobody listens where this was not started by systemd.
    let _ = sd_notify::notify(false, &[sd_notify::NotifyState::Ready]);
    loop {
        tokio::select! {
            _ = hangup.recv() => reload(&shared, path),
            _ = term.recv() => break,
            _ = interrupt.recv() => break,
        }
    }
    let _ = sd_notify::notify(false, &[sd_notify::NotifyState::Stopping]);
    tracing::info!(answers = shared.resolver().kept(), "stopped");
    Ok(0)
}

/// Runs until it is told to stop.
pub fn run(path: &Path, ready: Ready) -> Result<u8, Failure> {
    log::begin(ready.config.log.format, ready.config.log.level);
    let runtime = tokio::runtime::Builder::new_multi_thread().enable_all().build()?;
    let status = runtime.block_on(served(path, ready));
    runtime.shutdown_timeout(Duration::from_secs(1));
    status
}
