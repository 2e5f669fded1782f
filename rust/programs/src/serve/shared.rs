//! What the threads of the server share.

use std::collections::VecDeque;
use std::fs::File;
use std::io::{Read, Write};
use std::os::unix::net::UnixStream;
use std::path::PathBuf;
use std::sync::atomic::{AtomicBool, AtomicUsize, Ordering};
use std::sync::{Arc, Mutex, PoisonError};

use tokio::sync::oneshot;

use super::config::Config;
use super::cookies::Cookies;
use super::counts::{Counts, Sum};
use super::keys::Keys;
use super::limits::Limits;
use super::moments::Moments;
use super::responses::Responses;
use super::signatures::Kept;
use super::sockets::Datagrams;
use super::turns::Turns;

/// A request that came by a stream.
pub struct Job {
    pub query: Vec<u8>,
    pub reply: oneshot::Sender<Vec<u8>>,
}

/// Wakes a thread that waits for datagrams.
pub struct Wake {
    end: UnixStream,
    is_woken: AtomicBool,
}

impl Wake {
    /// It, and what the thread waits for.
    pub fn new() -> std::io::Result<(Self, UnixStream)> {
        let (end, other) = UnixStream::pair()?;
        end.set_nonblocking(true)?;
        other.set_nonblocking(true)?;
        Ok((Wake { end, is_woken: AtomicBool::new(false) }, other))
    }

    pub fn wake(&self) {
        if !self.is_woken.swap(true, Ordering::SeqCst) {
            let _ = (&self.end).write(&[0]);
        }
    }

    /// The thread has woken.
    pub fn woken(&self, mut waited: &UnixStream) {
        while matches!(waited.read(&mut [0; 64]), Ok(64)) {}
        self.is_woken.store(false, Ordering::SeqCst);
    }
}

/// Datagrams come by slots. Each slot is answered by one thread; while a thread applies a replacement another one has its slot.
pub struct Slot {
    pub sockets: Vec<Datagrams>,
    /// Which thread answers, and which one does once it has applied all lines.
    pub owner: AtomicUsize,
    pub home: AtomicUsize,
}

/// What all threads share.
pub struct Shared {
    pub config: Config,
    pub folder: PathBuf,
    pub apex: String,
    pub journal: Arc<File>,
    pub turns: Turns,
    pub moments: Moments,
    pub keys: Arc<Keys>,
    pub signatures: Kept,
    pub responses: Responses,
    pub limits: Limits,
    pub cookies: Cookies,
    pub slots: Vec<Slot>,
    pub wakes: Vec<Wake>,
    pub counts: Mutex<Vec<Arc<Counts>>>,
    pub refused: std::sync::atomic::AtomicU64,
    pub reloads: std::sync::atomic::AtomicU64,
    jobs: Mutex<VecDeque<Job>>,
    turn: AtomicUsize,
    is_stopping: AtomicBool,
}

/// What a server begins with.
pub struct Begin {
    pub config: Config,
    pub apex: String,
    pub journal: Arc<File>,
    pub len: u64,
    pub moments: Moments,
    pub keys: Arc<Keys>,
    pub cookies: Cookies,
    pub salt: [u8; 16],
    pub sockets: Vec<Vec<Datagrams>>,
    pub wakes: Vec<Wake>,
}

impl Shared {
    /// Thread 0 has no slot at first, and slot N is that of thread N + 1.
    pub fn new(begin: Begin) -> Self {
        let Begin { config, apex, journal, len, moments, keys, cookies, salt, sockets, wakes } = begin;
        let slot = |(at, sockets)| Slot { sockets, owner: AtomicUsize::new(at + 1), home: AtomicUsize::new(at + 1) };
        Shared {
            folder: config.folder.clone(),
            apex,
            journal,
            turns: Turns::new(len, config.share),
            moments,
            keys,
            signatures: Kept::default(),
            responses: Responses::new(config.responses),
            limits: Limits::new(config.rate, config.rate_all, salt),
            cookies,
            slots: sockets.into_iter().enumerate().map(slot).collect(),
            wakes,
            counts: Mutex::default(),
            refused: Default::default(),
            reloads: Default::default(),
            jobs: Mutex::default(),
            turn: AtomicUsize::new(0),
            is_stopping: AtomicBool::new(false),
            config,
        }
    }

    /// Counts of a thread of its own.
    pub fn new_counts(&self) -> Arc<Counts> {
        let counts = Arc::new(Counts::default());
        self.counts.lock().unwrap_or_else(PoisonError::into_inner).push(counts.clone());
        counts
    }

    pub fn sum(&self) -> Sum {
        let mut sum = Sum::default();
        self.counts.lock().unwrap_or_else(PoisonError::into_inner).iter().for_each(|it| it.add_to(&mut sum));
        sum
    }

    /// Has a thread answer a request.
    pub fn push(&self, job: Job) {
        self.jobs.lock().unwrap_or_else(PoisonError::into_inner).push_back(job);
        let slot = &self.slots[self.turn.fetch_add(1, Ordering::Relaxed) % self.slots.len()];
        self.wakes[slot.owner.load(Ordering::SeqCst)].wake();
    }

    pub fn next_job(&self) -> Option<Job> {
        self.jobs.lock().unwrap_or_else(PoisonError::into_inner).pop_front()
    }

    pub fn wake_all(&self) {
        self.wakes.iter().for_each(Wake::wake);
    }

    pub fn stop(&self) {
        self.is_stopping.store(true, Ordering::SeqCst);
        self.wake_all();
    }

    pub fn is_stopping(&self) -> bool {
        self.is_stopping.load(Ordering::SeqCst)
    }
}
