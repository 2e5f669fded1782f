//! The start: the folder is taken, its zone opened, sockets bound, and threads begun.

use std::fs::File;
use std::io::Write as _;
use std::net::TcpListener;
use std::os::unix::io::AsRawFd;
use std::os::unix::net::{UnixListener, UnixStream};
use std::path::Path;
use std::sync::mpsc::{channel, Sender};
use std::sync::Arc;

use nix::fcntl::{flock, FlockArg};
use tokio::sync::{mpsc, oneshot};
use zermuita::{Algorithm, SetType};

use super::answered::{Answered, How, Place};
use super::config::{self, Config};
use super::cookies::Cookies;
use super::copy::Copy;
use super::journal::{self, Journal};
use super::keeper::{self, Keeper, Order};
use super::keys::{Key, Keys};
use super::lines;
use super::log;
use super::moments::Moments;
use super::queue::Queue;
use super::reload::{self, Wanted};
use super::shared::{self, Shared, Wake};
use super::sockets::{self, Sockets};
use super::worker::Worker;
use crate::cli::ServeRun;

/// What failed was logged.
pub struct Ended;

fn ended(what: impl std::fmt::Display, why: impl std::fmt::Display) -> Ended {
    log::failure(what, why).write();
    Ended
}

/// What the rest of the server has of the start.
pub struct Begun {
    pub shared: Arc<Shared>,
    pub listeners: Vec<TcpListener>,
}

/// What the threads of the server have of the rest.
pub struct Ways {
    pub orders: Arc<Queue<Order>>,
    pub listeners: mpsc::UnboundedSender<UnixListener>,
    pub ended: oneshot::Sender<()>,
}

/// A folder that was opened: its zone, and what the zone's threads need.
pub struct Opened {
    pub copy: Copy,
    pub journal: Journal,
    pub file: Arc<Answered>,
    pub keys: Arc<Keys>,
    pub moments: Moments,
    pub apex: String,
}

/// Takes a folder for this process, until it ends: alone, or beside others that share it, too.
fn take_folder(config: &Config) -> Result<File, Ended> {
    let how = if config.share { FlockArg::LockSharedNonblock } else { FlockArg::LockExclusiveNonblock };
    let folder = File::open(&config.folder).map_err(|error| ended(config.folder.display(), error))?;
    match flock(folder.as_raw_fd(), how) {
        Ok(()) => Ok(folder),
        Err(nix::errno::Errno::EWOULDBLOCK) => Err(ended(config.folder.display(), "another server has it")),
        Err(error) => Err(ended(config.folder.display(), error)),
    }
}

const GONE: &str = "the folder has answered, and its journal is gone: put it back; where the zone is to begin anew, which validators \
refuse until its parent has the new keys, remove the file `answered` first";

/// Begins the journal of a folder that is new.
fn begin_folder(config: &Config, journal: &mut Journal) -> Result<(), Ended> {
    let path = config.zone_file.as_ref().ok_or_else(|| ended(journal.path.display(), "a new journal begins with a master file"))?;
    let wanted = Wanted { origin: &config.origin, chain: &config.chain, apex: "" };
    let lines = reload::lines_of(path, &wanted).map_err(|why| ended(journal.path.display(), why.trim_end()))?;
    journal.begin(&config.folder, &lines).map_err(|error| ended(journal.path.display(), error))?;
    lines::log_lines(&lines);
    Ok(())
}

/// Opens the zone from its journal. Behind a crash a line that is not finished is cut off, or a replacement. What a crash left there may
/// not be on disk yet, and is to be before anything is answered by it.
fn open_zone(journal: &mut Journal) -> Result<Copy, Ended> {
    let failed = |error: std::io::Error| ended("journal", error);
    journal.file.sync_all().map_err(failed)?;
    for _ in 0..2 {
        let octets = journal::read(&journal.file, 0, journal.len).map_err(failed)?;
        let mut copy = Copy::open(&octets).map_err(|error| ended("journal", error))?;
        let (whole, settled) = (copy.zone.whole(), copy.zone.settled() as u64);
        if settled < journal.len {
            log::event("cut").with("octets", journal.len - settled).with("left", settled).write();
            journal.cut(settled).map_err(failed)?;
        }
        if settled == whole as u64 {
            copy.at = settled;
            return Ok(copy);
        }
    }
    Err(ended("journal", "cut at its last whole replacement, it has half of one again"))
}

/// The name of a key of this server that a line adds, that the zone still publishes, and that the folder lacks.
fn lacking(keys: &Keys, published: &[Vec<u8>], line: &[u8]) -> Option<String> {
    let text = String::from_utf8_lossy(line).into_owned();
    let (name, algorithm, digits) = match text.split(' ').collect::<Vec<_>>()[..] {
        ["key", kind, name, algorithm, digits, ..] if kind != "include" => (name, algorithm, digits),
        _ => return None,
    };
    let algorithm = Algorithm(algorithm.parse().ok()?);
    let octets = openssl::base64::decode_block(digits).ok()?;
    let is_published = published.iter().any(|it| it.len() > 4 && it[3] == algorithm.0 && it[4..] == octets[..]);
    (is_published && keys.find(algorithm, &octets).is_none()).then(|| name.to_owned())
}

/// Looks for the private keys of all keys that the zone publishes, except those of other owners.
fn has_private_keys(opened: &mut Opened) -> Result<(), Ended> {
    let failed = |error: String| ended("start", error);
    let published = opened.copy.zone.records(SetType::Dnskey).map_err(|error| failed(error.to_string()))?;
    let published: Vec<Vec<u8>> = published.iter().map(<[u8]>::to_vec).collect();
    let octets = journal::read(&opened.journal.file, 0, opened.journal.len).map_err(|error| failed(error.to_string()))?;
    let name = journal::whole_lines(&octets).find_map(|it| lacking(&opened.keys, &published, it));
    match name {
        None => Ok(()),
        Some(name) => {
            let why = "the private key of a key that the zone publishes is not in the folder";
            let folder = opened.keys.folder.display().to_string();
            log::failure("start", why).with("folder", folder).with("key", name).write();
            Err(Ended)
        }
    }
}

/// Makes the first key of a new folder, if it is to.
fn make_key(config: &Config) -> Result<(), Ended> {
    let path = config.folder.join("keys/first.pem");
    if !config.make_key || path.exists() {
        return Ok(());
    }
    let made = Key::generate().map_err(std::io::Error::from).and_then(|pem| {
        use std::os::unix::fs::{DirBuilderExt, OpenOptionsExt};
        std::fs::DirBuilder::new().mode(0o700).recursive(true).create(config.folder.join("keys"))?;
        let mut file = std::fs::OpenOptions::new().write(true).create_new(true).mode(0o600).open(&path)?;
        file.write_all(&pem)?;
        file.sync_all()
    });
    made.map_err(|error| ended(path.display(), error))
}

/// Opens the zone of a folder, whose journal begins with a master file if it is new. In the file `answered` a turn to change the journal
/// is taken where others share the folder.
pub fn open_folder(config: &Config) -> Result<(Opened, bool), Ended> {
    let path = config.folder.join("journal");
    let failed = |error: std::io::Error| ended("answered", error);
    let file = Answered::open(&config.folder).map_err(failed)?;
    if config.share {
        file.take_turn(How::Alone).map_err(failed)?;
    }
    let answered = file.read().map_err(failed)?;
    let mut journal = Journal::open(&path).map_err(|error| ended(path.display(), error))?;
    let is_new = journal.len == 0;
    if is_new {
        begin_new(config, &mut journal, answered)?;
    }
    let keys = Arc::new(Keys::new(config.folder.join("keys")));
    keys.read_all();
    let mut copy = open_zone(&mut journal).map_err(|it| if is_new { unlinked(&path, config, it) } else { it })?;
    let moments = Moments::new(config.backdate, config.step, config.share, answered);
    let facts = copy.raise(&moments).and_then(|()| copy.zone.facts()).map_err(|error| ended("journal", error))?;
    if u64::from(facts.life) <= u64::from(config.backdate) + u64::from(config.step) {
        let why = "the zone's signatures do not hold longer than backdate and step: they would be over when they are sent";
        return Err(ended("start", why));
    }
    let mut opened = Opened { copy, journal, file: Arc::new(file), keys, moments, apex: facts.apex };
    has_private_keys(&mut opened)?;
    // Where no moment is noted, that of the start counts as one of an answer: a folder may have come here without its file.
    if answered == 0 {
        opened.moments.note_answer(&opened.file, opened.moments.line()).map_err(failed)?;
    }
    Ok((opened, is_new))
}

/// A new journal is gone again where it makes no zone.
fn unlinked(path: &Path, config: &Config, it: Ended) -> Ended {
    if std::fs::remove_file(path).is_ok() {
        let what = config.zone_file.as_deref().unwrap_or(path).display();
        log::failure(what, "it makes no zone: the new journal is gone again").with("chain", config.chain.clone()).write();
    }
    it
}

/// Begins a journal that has nothing, unless the folder has answered. Where that fails there is none.
fn begin_new(config: &Config, journal: &mut Journal, answered: u64) -> Result<(), Ended> {
    let path = journal.path.clone();
    let begun = if answered > 0 {
        Err(ended(path.display(), GONE))
    } else {
        make_key(config).and_then(|()| begin_folder(config, journal))
    };
    begun.map_err(|it| {
        let _ = std::fs::remove_file(&path);
        it
    })
}

fn bound(config: &Config) -> Result<Sockets, Ended> {
    let slots = config.slots();
    match sockets::handed_in(slots) {
        Ok(Some(sockets)) => Ok(sockets),
        Ok(None) => sockets::bind(&config.listen, slots, config.share).ok_or(Ended),
        Err(error) => Err(ended("sockets", error)),
    }
}

fn random() -> Result<[u8; 16], Ended> {
    let mut octets = [0; 16];
    openssl::rand::rand_bytes(&mut octets).map_err(|error| ended("random", error))?;
    Ok(octets)
}

fn cookies(config: &Config) -> Result<Cookies, Ended> {
    let secret = config.cookie_secret.as_ref().map(|it| config::read_secret(it).map_err(|error| ended("cookie-secret", error)));
    Ok(Cookies::new(secret.unwrap_or_else(random)?))
}

/// Begins the threads but the first, each with a zone of its own, and gives how the keeper comes to each of them.
fn begin_threads(shared: &Arc<Shared>, len: u64, waited: Vec<UnixStream>) -> Result<Vec<Sender<Keeper>>, Ended> {
    let (ready, opened) = channel::<Result<(), String>>();
    let mut threads = Vec::new();
    for (at, waited) in waited.into_iter().enumerate() {
        let (handed, hand) = channel();
        threads.push(handed);
        let (shared, ready) = (shared.clone(), ready.clone());
        let run = move || {
            let file = Answered::open(&shared.folder).map_err(|error| error.to_string());
            let copy = file.and_then(|file| Copy::reopen(&shared, len).map(|copy| (file, copy)));
            match copy {
                Ok((file, copy)) => {
                    let worker = Worker::new(at + 1, shared, copy, Arc::new(file), waited, hand);
                    if ready.send(Ok(())).is_ok() {
                        drop(ready);
                        worker.run();
                    }
                }
                Err(error) => drop(ready.send(Err(error))),
            }
        };
        std::thread::Builder::new().name(format!("answers-{}", at + 1)).spawn(run).map_err(|error| ended("threads", error))?;
    }
    drop(ready);
    opened.iter().try_for_each(|it| it).map_err(|error| ended("journal", error))?;
    Ok(threads)
}

/// Puts the first key into the zone, which no cache knows yet: so nothing has to be waited for.
pub const FIRST_ROLL: [&str; 7] = [
    "key csk first",
    "start algorithm-roll - first",
    "report1 algorithm-roll 0",
    "wait1 algorithm-roll",
    "report2 algorithm-roll 0",
    "wait2 algorithm-roll",
    "done algorithm-roll",
];

/// The commands of the first roll, for a zone that has no key yet.
pub fn first_roll(config: &Config, is_new: bool) -> &'static [&'static str] {
    if config.make_key && is_new { &FIRST_ROLL } else { &[] }
}

fn say_start(shared: &Shared, journal: u64) {
    let config = &shared.config;
    let addresses: Vec<String> = config.listen.iter().map(|it| it.ip().to_string()).collect();
    log::event("start")
        .with("address", addresses.join(" "))
        .with("port", config.listen[0].port().to_string())
        .with("zone", shared.apex.clone())
        .with("folder", config.folder.display().to_string())
        .with("auto", config.auto)
        .with("share", config.share)
        .with("threads", shared.slots.len())
        .with("journal", journal)
        .with("moment", shared.moments.line())
        .write();
}

/// Starts the server, and answers with this thread until it ends. `begun` hears once it answers, or that it does not.
pub fn run(config: Config, options: ServeRun, ways: Ways, begun: oneshot::Sender<Result<Begun, Ended>>) {
    let started = started(config, options, ways);
    match started {
        Ok((worker, begin)) => {
            if begun.send(Ok(begin)).is_ok() {
                worker.run();
            }
        }
        Err(it) => drop(begun.send(Err(it))),
    }
}

fn started(config: Config, options: ServeRun, ways: Ways) -> Result<(Worker, Begun), Ended> {
    // The folder is taken until the process ends.
    std::mem::forget(take_folder(&config)?);
    let (opened, is_new) = open_folder(&config)?;
    let Opened { copy, journal, file, keys, moments, apex } = opened;
    let sockets = bound(&config)?;
    let wakes = (0..=sockets.slots.len()).map(|_| Wake::new()).collect::<Result<Vec<_>, _>>();
    let (wakes, mut waited): (Vec<_>, Vec<_>) = wakes.map_err(|error| ended("threads", error))?.into_iter().unzip();
    let roll = first_roll(&config, is_new);
    let shared = Arc::new(Shared::new(shared::Begin {
        cookies: cookies(&config)?,
        salt: random()?,
        config,
        apex,
        journal: journal.file.clone(),
        len: copy.at,
        moments,
        keys,
        sockets: sockets.slots,
        wakes,
    }));
    let first = waited.remove(0);
    let (handed, hand) = channel();
    let threads = std::iter::once(handed.clone()).chain(begin_threads(&shared, copy.at, waited)?).collect();
    let (shares, len) = (shared.turns.is_shared, journal.len);
    let mut worker = Worker::new(0, shared.clone(), copy, file, first, hand);
    let Ways { orders, listeners, ended } = ways;
    let mut keeper = Keeper::new(keeper::Begin { shared: shared.clone(), options, journal, orders, threads, listeners, ended });
    if shares {
        worker.file.unlock(Place::Answers).map_err(|error| self::ended("answered", error))?;
    }
    if !keeper.take_commands(&worker) {
        return Err(Ended);
    }
    keeper.first_roll(&mut worker, roll);
    say_start(&shared, len);
    if handed.send(keeper).is_err() {
        return Err(Ended);
    }
    Ok((worker, Begun { shared, listeners: sockets.listeners }))
}
