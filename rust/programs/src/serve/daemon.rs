//! The daemon: connections, commands and signals, beside the threads that have the zone.

use std::io::Write;
use std::sync::Arc;
use std::time::Duration;

use sd_notify::NotifyState;
use tokio::signal::unix::{signal, SignalKind};
use tokio::sync::{mpsc, oneshot, Notify};

use super::config::Config;
use super::keeper::Order;
use super::queue::Queue;
use super::start::{self, Begun, Ways};
use super::streams::{Connections, Streams};
use super::{ctl, log, metrics, FAILED};
use crate::cli::ServeRun;
use crate::out::Failure;

/// How many descriptors there are besides those of connections.
const DESCRIPTORS: u64 = 128;

/// Sees to it that there are descriptors for all connections: where one is missing, a connection that waits would be tried again and again.
fn take_descriptors(config: &Config) -> std::io::Result<()> {
    use nix::sys::resource::{getrlimit, setrlimit, Resource};
    let (soft, hard) = getrlimit(Resource::RLIMIT_NOFILE)?;
    let wanted = (config.tcp.connections as u64 + DESCRIPTORS + 8 * config.slots() as u64).max(soft);
    if wanted > hard {
        return Err(std::io::Error::from_raw_os_error(nix::libc::EMFILE));
    }
    Ok(setrlimit(Resource::RLIMIT_NOFILE, wanted, hard)?)
}

/// Serves connections and metrics.
async fn open(begun: Begun) -> Result<(), Failure> {
    let Begun { shared, listeners } = begun;
    let tcp = &shared.config.tcp;
    let connections = Arc::new(Connections::new(tcp.connections, tcp.of_network));
    let counts = shared.new_counts();
    let streams = Arc::new(Streams { shared: shared.clone(), connections, counts });
    for listener in listeners {
        tokio::spawn(streams.clone().listen(listener));
    }
    let shown = shared.clone();
    shared.config.metrics.serve(move || metrics::page(&shown)).await
}

/// Hears signals and commands to stop, until the threads have ended.
async fn hear(orders: &Queue<Order>, stop: &Notify, ended: oneshot::Receiver<()>) -> std::io::Result<()> {
    let (mut hangup, mut term) = (signal(SignalKind::hangup())?, signal(SignalKind::terminate())?);
    let mut interrupt = signal(SignalKind::interrupt())?;
    tokio::pin!(ended);
    loop {
        tokio::select! {
            _ = hangup.recv() => orders.push(Order::Hangup),
            _ = term.recv() => orders.push(Order::Stop("signal")),
            _ = interrupt.recv() => orders.push(Order::Stop("signal")),
            _ = stop.notified() => orders.push(Order::Stop("command")),
            _ = &mut ended => return Ok(()),
        }
    }
}

fn said(config: &Config) -> std::io::Result<()> {
    let mut out = std::io::stdout();
    for address in &config.listen {
        writeln!(out, "it answers on {}, port {}", address.ip(), address.port())?;
    }
    out.flush()
}

async fn served(config: Config, options: ServeRun) -> Result<u8, Failure> {
    // Signals are heard from now on.
    let _ignored = signal(SignalKind::hangup())?;
    let (orders, (begun, begin)) = (Arc::new(Queue::new()), oneshot::channel());
    let ((listeners, mut bound), (ended, end)) = (mpsc::unbounded_channel(), oneshot::channel());
    let ways = Ways { orders: orders.clone(), listeners, ended };
    let (own, shown) = (config.clone(), config);
    std::thread::Builder::new().name("answers-0".to_owned()).spawn(move || start::run(own, options, ways, begun))?;
    let begun = match begin.await {
        Ok(Ok(begun)) => begun,
        _ => return Ok(FAILED),
    };
    if let Err(error) = open(begun).await {
        log::failure("metrics", error).write();
        return Ok(FAILED);
    }
    let stop = Arc::new(Notify::new());
    let (taken, stopped) = (orders.clone(), stop.clone());
    tokio::spawn(async move {
        while let Some(listener) = bound.recv().await {
            tokio::spawn(ctl::take(listener, taken.clone(), stopped.clone()));
        }
    });
    let _ = said(&shown);
    let _ = sd_notify::notify(false, &[NotifyState::Ready]);
    hear(&orders, &stop, end).await?;
    let _ = sd_notify::notify(false, &[NotifyState::Stopping]);
    Ok(0)
}

/// Ends the server where a thread of it ends: whoever started it starts it again.
fn end_by_panic() {
    std::panic::set_hook(Box::new(|info| {
        log::failure("panic", info).write();
        std::process::exit(FAILED.into());
    }));
}

/// Runs until it is told to stop.
pub fn run(config: Config, options: &ServeRun) -> Result<u8, Failure> {
    if let Some(path) = &config.log.file {
        log::open(path).map_err(|error| Failure::File { path: path.clone(), error })?;
    }
    end_by_panic();
    if let Err(error) = take_descriptors(&config) {
        log::failure("descriptors", error).write();
        return Ok(FAILED);
    }
    let threads = config.slots();
    let runtime = tokio::runtime::Builder::new_multi_thread().worker_threads(threads).enable_all().build()?;
    let status = runtime.block_on(served(config, options.clone()));
    runtime.shutdown_timeout(Duration::from_secs(1));
    status
}
