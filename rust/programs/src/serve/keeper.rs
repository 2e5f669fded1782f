//! Who keeps the journal: lines that are accepted are on disk before anybody hears of it. The keeper is with the thread whose zone answers
//! nothing, which applies a replacement while the others go on; then that thread answers, and the keeper goes to another one.

use std::ffi::OsStr;
use std::os::unix::ffi::OsStrExt;
use std::os::unix::net::UnixListener;
use std::path::Path;
use std::sync::mpsc::Sender;
use std::sync::Arc;
use std::time::{Duration, Instant};

use tokio::sync::{mpsc, oneshot};

use super::answered::Place;
use super::commands;
use super::config::{self, Config};
use super::journal::Journal;
use super::log;
use super::queue::Queue;
use super::reload::{self, Seen};
use super::shared::Shared;
use super::turns::{fail, Changing};
use super::waits::{self, Pending};
use super::watch::Watcher;
use super::worker::Worker;
use crate::cli::ServeRun;

/// How often is looked at what is due by the clock; and again behind what failed.
const LOOK: Duration = Duration::from_secs(1);
const LOOK_AGAIN: Duration = Duration::from_secs(60);

/// What the keeper is told.
pub enum Order {
    /// A command, and who hears what came of it.
    Line(Vec<u8>, oneshot::Sender<Said>),
    /// The log is opened again, the configuration and the zone's file read again.
    Hangup,
    /// The server ends, and why.
    Stop(&'static str),
}

/// What came of a command.
pub struct Said {
    pub octets: Vec<u8>,
    pub is_stop: bool,
}

/// What was done, and text; or why not.
pub type Done = Result<String, String>;

/// The keeper.
pub struct Keeper {
    pub shared: Arc<Shared>,
    pub config: Config,
    options: ServeRun,
    pub journal: Journal,
    orders: Arc<Queue<Order>>,
    threads: Vec<Sender<Keeper>>,
    listeners: mpsc::UnboundedSender<UnixListener>,
    pub pending: Pending,
    watcher: Option<Watcher>,
    seen: Option<Seen>,
    takes_commands: bool,
    look_at: Instant,
    count_at: Instant,
    ended: Option<oneshot::Sender<()>>,
    /// The thread that the keeper goes to.
    pub next: Option<usize>,
}

/// What a keeper begins with.
pub struct Begin {
    pub shared: Arc<Shared>,
    pub options: ServeRun,
    pub journal: Journal,
    pub orders: Arc<Queue<Order>>,
    pub threads: Vec<Sender<Keeper>>,
    pub listeners: mpsc::UnboundedSender<UnixListener>,
    pub ended: oneshot::Sender<()>,
}

impl Keeper {
    pub fn new(begin: Begin) -> Self {
        let Begin { shared, options, journal, orders, threads, listeners, ended } = begin;
        let config = shared.config.clone();
        let seen = config.zone_file.as_ref().map(|it| Seen::of(it, &shared.apex));
        Keeper {
            watcher: Watcher::new(&config),
            config,
            options,
            journal,
            orders,
            threads,
            listeners,
            pending: Pending::default(),
            seen,
            takes_commands: false,
            look_at: Instant::now(),
            count_at: Instant::now() + Duration::from_secs(u64::from(shared.config.log.every)),
            ended: Some(ended),
            next: None,
            shared,
        }
    }

    /// Keeps the journal with this thread's zone, until another thread is to.
    pub fn keep(mut self, worker: &mut Worker) {
        if !self.shared.turns.is_shared {
            worker.copy.follow(&self.shared, self.journal.len).unwrap_or_else(|error| fail(error));
        }
        while !self.shared.is_stopping() {
            match self.orders.pop_within(LOOK.min(self.look_at.saturating_duration_since(Instant::now()))) {
                Some(Order::Line(line, reply)) => self.command(worker, &line, reply),
                Some(Order::Hangup) => self.hang_up(worker),
                Some(Order::Stop(why)) => self.stop(why),
                None => {}
            }
            self.look_at_clock(worker);
            if let Some(next) = self.next.take() {
                let (shared, handed) = (self.shared.clone(), self.threads[next].clone());
                if handed.send(self).is_err() {
                    fail("a thread has ended");
                }
                shared.wakes[next].wake();
                return;
            }
        }
    }

    fn stop(&mut self, why: &str) {
        commands::log_counts(&self.shared, self.journal.len);
        log::event("stop").with("why", why).with("moment", self.shared.moments.line()).write();
        self.shared.stop();
        if let Some(watcher) = &mut self.watcher {
            watcher.end();
        }
        let _ = self.ended.take().map(|it| it.send(()));
    }

    /// Opens the log again, here and in the process that watches, and reads the configuration and the zone's file again.
    fn hang_up(&mut self, worker: &mut Worker) {
        log::reopen("server");
        if let Some(watcher) = &mut self.watcher {
            watcher.reopen_log();
        }
        match config::read(&self.options) {
            Ok(config) => self.take_config(config),
            Err(error) => log::failure("configuration", error).write(),
        }
        if let Some(path) = self.config.zone_file.clone() {
            let seen = Some(Seen::of(&path, &self.shared.apex));
            if seen != self.seen {
                self.seen = seen;
                self.read_file(worker, &path);
            }
        }
    }

    /// Replaces the zone's records by those of its file, if they are others.
    fn read_file(&mut self, worker: &mut Worker, path: &Path) {
        // Another server of the folder may have done it.
        let shared = self.shared.clone();
        drop(self.begin_turn(&shared, worker));
        let done = match reload::replacement(self, path) {
            Ok(lines) if reload::is_same(self, &lines) => return,
            lines => lines.and_then(|lines| self.replace(worker, lines)),
        };
        self.log_said("reload", format!("reload {}", path.display()).as_bytes(), &done);
    }

    /// Replaces the zone's records: while the other threads answer, or where others share the folder while nobody does.
    fn replace(&mut self, worker: &mut Worker, lines: Vec<u8>) -> Done {
        if self.shared.turns.is_shared {
            let shared = self.shared.clone();
            let mut turn = self.begin_turn(&shared, worker);
            reload::in_turn(self, worker, &mut turn, lines)
        } else {
            reload::beside(self, worker, lines)
        }
    }

    /// Takes what of a configuration can be changed while the server runs.
    fn take_config(&mut self, mut config: Config) {
        let started = &self.shared.config;
        let is_other = config.folder != started.folder
            || config.listen != started.listen
            || (config.threads, config.share, config.responses) != (started.threads, started.share, started.responses)
            || (config.backdate, config.step) != (started.backdate, started.step)
            || (&config.tcp, &config.metrics, &config.cookie_secret) != (&started.tcp, &started.metrics, &started.cookie_secret);
        if is_other {
            let why = "folder, listen, threads, share, responses, backdate, step, tcp, metrics and cookie-secret change with the next start";
            log::failure("configuration", why).write();
        }
        config.listen = started.listen.clone();
        config.folder = started.folder.clone();
        if config.log.file != self.config.log.file {
            if let Some(Err(error)) = config.log.file.as_ref().map(|it| log::open(it)) {
                log::failure("log", error).write();
            }
        }
        self.shared.limits.set(config.rate, config.rate_all);
        let watched = |it: &Config| (it.watch.clone(), it.parent.clone(), it.look, it.log.file.clone());
        if watched(&config) != watched(&self.config) {
            if let Some(watcher) = &mut self.watcher {
                watcher.end();
            }
            self.watcher = Watcher::new(&config);
        }
        self.config = config;
    }

    /// Does what is due by the clock.
    fn look_at_clock(&mut self, worker: &mut Worker) {
        let now = Instant::now();
        if let Some(watcher) = &mut self.watcher {
            watcher.keep();
        }
        if now >= self.look_at {
            let is_done = self.look_around(worker);
            self.look_at = now + if is_done { LOOK } else { LOOK_AGAIN };
        }
        if self.config.log.every > 0 && now >= self.count_at {
            self.count_at = now + Duration::from_secs(u64::from(self.config.log.every));
            commands::log_counts(&self.shared, self.journal.len);
        }
    }

    /// Does what is due each second, or behind a wait or a socket that failed a minute later.
    fn look_around(&mut self, worker: &mut Worker) -> bool {
        let is_done = self.take_commands(worker);
        if !self.takes_commands || !(self.config.auto || self.journal.is_torn || self.has_more(worker)) {
            return is_done;
        }
        let shared = self.shared.clone();
        let mut turn = self.begin_turn(&shared, worker);
        let are_over = !self.config.auto || waits::end(self, worker, &mut turn);
        are_over && is_done
    }

    /// Whether others wrote to the journal, or began to: what they left is applied, or cut off.
    fn has_more(&self, worker: &Worker) -> bool {
        let len = || self.journal.file.metadata().map_or(worker.copy.at, |it| it.len());
        self.shared.turns.is_shared && len() != worker.copy.at
    }

    /// Takes commands, if no other server of the folder does. False where there is no socket for them.
    pub fn take_commands(&mut self, worker: &Worker) -> bool {
        if self.takes_commands || !worker.file.try_lock(Place::Commands) {
            return true;
        }
        match super::ctl::bind(&self.shared.folder) {
            Ok(listener) => {
                self.takes_commands = self.listeners.send(listener).is_ok();
                log::event("commands").with("folder", self.shared.folder.display().to_string()).write();
                true
            }
            Err(error) => {
                log::failure("ctl", error).write();
                let _ = worker.file.unlock(Place::Commands);
                false
            }
        }
    }

    /// Begins a turn to change the journal, behind what others wrote, of which a piece is cut off that is not whole.
    pub fn begin_turn<'a>(&mut self, shared: &'a Shared, worker: &mut Worker) -> Changing<'a> {
        let mut turn = shared.turns.change(&worker.file);
        if shared.turns.is_shared {
            let read = shared.moments.read(&worker.file).map_err(|error| error.to_string());
            let left = read.and_then(|()| worker.copy.catch_up(shared)).unwrap_or_else(|error| fail(error));
            self.journal.len = worker.copy.at;
            turn.set(worker.copy.at);
            if left > 0 {
                log::event("cut").with("octets", left).with("left", worker.copy.at).write();
                self.journal.cut(worker.copy.at).unwrap_or_else(|error| fail(error));
            }
        }
        turn
    }

    /// Takes a command, a line, and says what came of it: `+`, or `-` where it was not done, and text.
    fn command(&mut self, worker: &mut Worker, line: &[u8], reply: oneshot::Sender<Said>) {
        let text = log::latin(line);
        let done = match line.strip_prefix(b"reload ") {
            Some(path) => {
                let lines = reload::replacement(self, Path::new(OsStr::from_bytes(path)));
                lines.and_then(|lines| self.replace(worker, lines))
            }
            None => {
                let shared = self.shared.clone();
                let mut turn = self.begin_turn(&shared, worker);
                commands::done(self, worker, &mut turn, line)
            }
        };
        let (sign, said) = match &done {
            Ok(said) => ('+', said),
            Err(said) => ('-', said),
        };
        let octets = format!("{sign}{said}").into_bytes();
        let _ = reply.send(Said { octets, is_stop: text == "stop" });
        if text != "due" {
            self.log_said("command", line, &done);
        }
    }

    /// Logs a line, whether it was done, and what was said of it.
    pub fn log_said(&self, event: &str, line: &[u8], done: &Done) {
        let (Ok(said) | Err(said)) = done;
        let said = said.strip_suffix('\n').unwrap_or(said);
        let event = log::event(event).with("line", log::latin(line)).with("done", done.is_ok()).with("said", said);
        event.with("moment", self.shared.moments.line()).write();
    }
}

impl Keeper {
    /// Makes the first roll of a new zone.
    pub fn first_roll(&mut self, worker: &mut Worker, commands: &[&str]) {
        let shared = self.shared.clone();
        for line in commands {
            let mut turn = self.begin_turn(&shared, worker);
            let done = commands::done(self, worker, &mut turn, line.as_bytes());
            drop(turn);
            self.log_said("command", line.as_bytes(), &done);
        }
    }
}
