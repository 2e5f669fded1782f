//! The program's run: it takes events, compares answers once they have waited, and writes counts.

use std::path::Path;
use std::sync::atomic::{AtomicBool, Ordering};
use std::sync::{Arc, Mutex, PoisonError};
use std::time::{Duration, Instant};

use tokio::signal::unix::{signal, SignalKind};

use super::ask::Asker;
use super::chain::Chain;
use super::compare::Shadow;
use super::config::Ready;
use super::counts::Totals;
use super::event::{Event, Origin, Queue, Taken, Waiting};
use super::explain::Explainer;
use super::judge::Judge;
use super::report::{Lines, Report};
use super::stream::Streams;
use crate::log;
use crate::out::{self, Failure};

/// How long an event is waited for.
const PAUSE: Duration = Duration::from_millis(250);
/// Seconds after which an answer is compared again for which something was asked for.
const TRY_AGAIN: u64 = 1;
/// Not all lines were written, or a file cannot be used.
const FAILED: u8 = 1;

/// What other threads want of the one that judges, and what it counted.
#[derive(Default)]
struct Wishes {
    end: AtomicBool,
    report: AtomicBool,
    totals: Mutex<Totals>,
}

impl Wishes {
    fn set(&self, totals: Totals) {
        *self.totals.lock().unwrap_or_else(PoisonError::into_inner) = totals;
    }

    fn page(&self) -> String {
        self.totals.lock().unwrap_or_else(PoisonError::into_inner).page()
    }
}

struct Run {
    shadow: Shadow,
    streams: Arc<Streams>,
    waiting: Waiting,
    wishes: Arc<Wishes>,
    hold: u64,
    /// The last moment that a message told of, and when that came.
    newest: u64,
    arrived: Instant,
    /// When counts were written, and how often that is done.
    reported: Instant,
    every: Option<Duration>,
}

impl Run {
    /// The moment of the stream: that of its last message, and how long ago that came.
    fn moment(&self) -> u64 {
        self.newest + self.arrived.elapsed().as_secs()
    }

    /// Compares those answers that have waited long enough, or at the end all. If something is missing and asked for, one waits longer.
    fn compare_waiting(&mut self, is_end: bool) {
        let moment = self.moment();
        for _ in 0..self.waiting.len() {
            let may_wait = !self.waiting.is_full() && !is_end;
            if may_wait && self.waiting.first().map_or(true, |it| it.due > moment) {
                break;
            }
            let mut event = match self.waiting.take() {
                Some(event) => event,
                None => break,
            };
            if !self.shadow.compare(&event, may_wait) {
                event.tries += 1;
                event.due = moment + TRY_AGAIN;
                self.waiting.put(event);
            }
        }
    }

    fn take(&mut self, mut event: Event) {
        self.newest = self.newest.max(event.moment);
        self.arrived = Instant::now();
        self.shadow.learn(&event);
        if event.origin == Origin::Client {
            event.due = event.moment + self.hold;
            self.waiting.put(event);
        }
    }

    fn totals(&mut self) -> Totals {
        let mut counts = self.shadow.counts();
        counts.waiting = self.waiting.len() as u64;
        let of = |it: &std::sync::atomic::AtomicU64| it.load(Ordering::Relaxed);
        Totals {
            frames: of(&self.streams.frames),
            unreadable_frames: of(&self.streams.unreadable),
            connections: of(&self.streams.connections),
            dropped: self.streams.queue.dropped(),
            counts,
            explained: self.shadow.report().explainer().map(Explainer::counts),
        }
    }

    fn report(&mut self) {
        let named = self.totals().named();
        self.shadow.report().counts(out::now(), named);
        self.reported = Instant::now();
        self.wishes.report.store(false, Ordering::Relaxed);
    }

    fn is_report_due(&self) -> bool {
        self.wishes.report.load(Ordering::Relaxed) || self.every.map_or(false, |it| self.reported.elapsed() >= it)
    }

    /// Takes events until no more come, or it is told to stop.
    fn take_all(&mut self) {
        let mut shown = Instant::now();
        while !self.wishes.end.load(Ordering::Relaxed) {
            match self.streams.queue.take(PAUSE) {
                Taken::Event(event) => self.take(event),
                Taken::Nothing => {}
                Taken::Over => break,
            }
            self.compare_waiting(false);
            if self.is_report_due() {
                self.report();
            }
            if shown.elapsed() >= Duration::from_secs(1) {
                let totals = self.totals();
                self.wishes.set(totals);
                shown = Instant::now();
            }
        }
    }

    /// Takes what is left once no more is taken.
    fn take_rest(&mut self) {
        self.streams.queue.end();
        while let Taken::Event(event) = self.streams.queue.take(Duration::ZERO) {
            self.take(event);
            if self.waiting.is_full() {
                self.compare_waiting(true);
            }
        }
        self.compare_waiting(true);
        self.shadow.report().end();
        self.report();
    }
}

/// Heeds signals, and serves the page for Prometheus.
async fn heed(wishes: Arc<Wishes>, lines: Lines) -> std::io::Result<()> {
    let (mut hangup, mut user) = (signal(SignalKind::hangup())?, signal(SignalKind::user_defined1())?);
    let (mut term, mut interrupt) = (signal(SignalKind::terminate())?, signal(SignalKind::interrupt())?);
    loop {
        tokio::select! {
            _ = hangup.recv() => lines.reopen(),
            _ = user.recv() => wishes.report.store(true, Ordering::Relaxed),
            _ = term.recv() => break,
            _ = interrupt.recv() => break,
        }
    }
    wishes.end.store(true, Ordering::Relaxed);
    Ok(())
}

fn unopened(place: String, error: std::io::Error, advice: &'static str) -> Failure {
    Failure::Socket { place, error, advice }
}

/// Begins the thread that heeds signals; they are heeded from then on.
fn begin_heeding(ready: &Ready, wishes: &Arc<Wishes>, lines: &Lines) -> Result<(), Failure> {
    let runtime = tokio::runtime::Builder::new_multi_thread().worker_threads(1).enable_all().build()?;
    let shown = wishes.clone();
    runtime.block_on(ready.config.metrics.serve(move || shown.page()))?;
    let heeded = heed(wishes.clone(), lines.clone());
    let begun = runtime.spawn(heeded);
    std::thread::Builder::new().name("signals".to_owned()).spawn(move || drop(runtime.block_on(begun)))?;
    Ok(())
}

/// Begins to read a file, or to listen.
fn begin_reading(ready: &Ready, frames: Option<&Path>, streams: &Arc<Streams>) -> Result<(), Failure> {
    match frames {
        Some(path) => streams
            .read_file(path)
            .map_err(|error| Failure::Content { path: path.to_owned(), reason: error.to_string() }),
        None => {
            let socket = &ready.config.socket;
            let advice = "change `socket`, make its folder, or run as the user who may write there";
            streams.listen(socket, ready.mode).map_err(|error| unopened(socket.display().to_string(), error, advice))
        }
    }
}

fn shadow_of(ready: &Ready, lines: &Lines) -> Result<Shadow, Failure> {
    let asker = ready.ask.map(Asker::new).transpose();
    let asker = asker.map_err(|error| unopened(format!("{:?}", ready.ask), error, "change `ask`"))?;
    let explain = &ready.config.explain;
    let explainer = explain.program.as_ref().map(|it| Explainer::new(it, explain.per_minute, lines.clone())).transpose()?;
    let judge = Judge::new(ready.config.nsec3_iterations);
    let chain = Chain::new(ready.anchors.clone(), ready.quarter());
    Ok(Shadow::new(judge, chain, ready.quarter(), asker, Report::new(lines.clone(), explainer)))
}

/// Runs until it is told to stop, or until the file has ended.
pub fn run(ready: &Ready, frames: Option<&Path>) -> Result<u8, Failure> {
    log::begin(ready.config.log.format, ready.config.log.level);
    let file = ready.config.disagreements.file.clone();
    let lines = Lines::new(file.clone()).map_err(|error| Failure::File { path: file.unwrap_or_default(), error })?;
    let shadow = shadow_of(ready, &lines)?;
    let streams = Arc::new(Streams::new(Queue::new(ready.quarter(), frames.is_some())));
    let wishes = Arc::new(Wishes::default());
    begin_heeding(ready, &wishes, &lines)?;
    begin_reading(ready, frames, &streams)?;
    let _ = sd_notify::notify(false, &[sd_notify::NotifyState::Ready]);
    let seconds = ready.config.disagreements.counts_seconds;
    let mut run = Run {
        shadow,
        streams,
        waiting: Waiting::new(ready.quarter()),
        wishes,
        hold: ready.config.hold_seconds,
        newest: 0,
        arrived: Instant::now(),
        reported: Instant::now(),
        every: (seconds > 0).then(|| Duration::from_secs(seconds)),
    };
    run.take_all();
    let _ = sd_notify::notify(false, &[sd_notify::NotifyState::Stopping]);
    run.take_rest();
    if frames.is_none() {
        let _ = std::fs::remove_file(&ready.config.socket);
    }
    Ok(if lines.has_failed() { FAILED } else { 0 })
}
