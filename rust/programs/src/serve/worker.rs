//! A thread of the server: it answers the datagrams of its slots and requests of streams, or keeps the journal.

use std::os::unix::io::AsRawFd;
use std::os::unix::net::UnixStream;
use std::sync::atomic::Ordering;
use std::sync::mpsc::Receiver;
use std::sync::Arc;

use nix::poll::{poll, PollFd, PollFlags};

use super::answer::{Answerer, Now};
use super::answered::Answered;
use super::copy::Copy;
use super::keeper::Keeper;
use super::responses::Version;
use super::shared::Shared;
use super::sockets::Datagrams;
use super::turns::fail;

/// How many datagrams of a socket, and requests of streams, are answered in a turn.
const BATCH: usize = 64;
const WAIT_MS: i32 = 1000;

/// A thread, with what is its own.
pub struct Worker {
    pub number: usize,
    pub shared: Arc<Shared>,
    pub copy: Copy,
    pub file: Arc<Answered>,
    answerer: Answerer,
    waited: UnixStream,
    handed: Receiver<Keeper>,
    query: Box<[u8; 65_535]>,
}

impl Worker {
    pub fn new(number: usize, shared: Arc<Shared>, copy: Copy, file: Arc<Answered>, waited: UnixStream, handed: Receiver<Keeper>) -> Self {
        let answerer = Answerer::new(&shared);
        Worker { number, shared, copy, file, answerer, waited, handed, query: Box::new([0; 65_535]) }
    }

    /// Runs until the server stops.
    pub fn run(mut self) {
        while !self.shared.is_stopping() {
            match self.handed.try_recv() {
                Ok(keeper) => keeper.keep(&mut self),
                Err(_) => self.answer_once(),
            }
        }
    }

    fn slots(&self) -> Vec<usize> {
        let is_own = |at: &usize| self.shared.slots[*at].owner.load(Ordering::SeqCst) == self.number;
        (0..self.shared.slots.len()).filter(is_own).collect()
    }

    /// Waits for requests, and answers them.
    fn answer_once(&mut self) {
        let (shared, slots) = (self.shared.clone(), self.slots());
        let sockets: Vec<&Datagrams> = slots.iter().flat_map(|at| &shared.slots[*at].sockets).collect();
        let fds = std::iter::once(self.waited.as_raw_fd()).chain(sockets.iter().map(|it| it.fd()));
        let mut polled: Vec<PollFd> = fds.map(|fd| PollFd::new(fd, PollFlags::POLLIN)).collect();
        if !matches!(poll(&mut polled, WAIT_MS), Ok(count) if count > 0) {
            return;
        }
        let has_come = |it: &PollFd| it.revents().map_or(false, |it| !it.is_empty());
        if has_come(&polled[0]) {
            shared.wakes[self.number].woken(&self.waited);
        }
        let sockets: Vec<&Datagrams> = sockets.into_iter().zip(&polled[1..]).filter(|it| has_come(it.1)).map(|it| it.0).collect();
        self.answer(&shared, &sockets, !slots.is_empty());
    }

    /// Applies what others wrote, and begins a turn of answers, which are all of one moment.
    fn answer(&mut self, shared: &Shared, sockets: &[&Datagrams], has_slot: bool) {
        loop {
            let turn = shared.turns.answer(&self.file);
            if shared.turns.is_shared {
                let done = shared.moments.read(&self.file).map_err(|error| error.to_string());
                done.and_then(|()| self.copy.catch_up(shared)).unwrap_or_else(|error| fail(error));
            } else if turn.len > self.copy.at {
                // Others go on while the lines are applied.
                let len = turn.len;
                drop(turn);
                self.copy.follow(shared, len).unwrap_or_else(|error| fail(error));
                continue;
            }
            self.claim();
            if has_slot || shared.turns.is_shared {
                self.answer_all(shared, sockets);
            }
            return;
        }
    }

    /// Takes the slots that are this thread's by right: it has applied all lines.
    fn claim(&self) {
        for slot in &self.shared.slots {
            if slot.home.load(Ordering::SeqCst) == self.number {
                slot.owner.store(self.number, Ordering::SeqCst);
            }
        }
    }

    fn answer_all(&mut self, shared: &Shared, sockets: &[&Datagrams]) {
        let moment = shared.moments.begin_answers(&self.file);
        let version = Version { moment: moment.unwrap_or(0), zone: self.copy.at };
        let now = Now { version, may_answer: moment.is_some(), second: crate::out::now() };
        for socket in sockets {
            self.answer_datagrams(shared, socket, &now);
        }
        for _ in 0..BATCH {
            let job = match shared.next_job() {
                Some(job) => job,
                None => return,
            };
            self.answerer.stream(shared, &mut self.copy.zone, &now, &job.query);
            let _ = job.reply.send(std::mem::take(&mut self.answerer.out));
        }
        // There may be more.
        shared.wakes[self.number].wake();
    }

    fn answer_datagrams(&mut self, shared: &Shared, socket: &Datagrams, now: &Now) {
        for _ in 0..BATCH {
            let (len, from, way) = match socket.receive(&mut self.query[..]) {
                Ok(received) => received,
                Err(_) => return,
            };
            self.answerer.datagram(shared, &mut self.copy.zone, now, &self.query[..len], from.ip());
            if !self.answerer.out.is_empty() {
                socket.send(&self.answerer.out, from, way);
            }
        }
    }
}
