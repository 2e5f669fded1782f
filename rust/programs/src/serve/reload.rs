//! Master files: the begin of a journal, and replacements.

use std::path::Path;
use std::sync::atomic::Ordering;

use zermuita::Zone;

use super::journal;
use super::keeper::{Done, Keeper};
use super::lines;
use super::master::Master;
use super::turns::Changing;
use super::worker::Worker;

/// What a master file said when it was read, with those that it includes: a digest of their text, or why there is none.
#[derive(Clone, Debug, PartialEq, Eq)]
pub struct Seen(Result<[u8; 32], String>);

impl Seen {
    pub fn of(path: &Path, origin: &str) -> Self {
        Seen(Master::read(path, origin).map(|it| openssl::sha::sha256(&it.text)))
    }
}

/// What is wanted of a master file.
pub struct Wanted<'a> {
    pub origin: &'a str,
    pub chain: &'a str,
    pub apex: &'a str,
}

/// The lines of a journal for a master file.
pub fn lines_of(path: &Path, wanted: &Wanted<'_>) -> Result<Vec<u8>, String> {
    let master = Master::read(path, wanted.origin)?;
    Zone::lines_of(&master.text, wanted.origin, wanted.chain, wanted.apex).map_err(|error| master.fault(&error))
}

/// The lines of the records of a master file that replace the zone's. It is read while requests are answered.
pub fn replacement(keeper: &Keeper, path: &Path) -> Result<Vec<u8>, String> {
    let apex = keeper.shared.apex.as_str();
    lines_of(path, &Wanted { origin: apex, chain: "", apex })
}

/// Whether the zone has the records of these lines already.
pub fn is_same(keeper: &Keeper, lines: &[u8]) -> bool {
    let journal = journal::read(&keeper.journal.file, 0, keeper.journal.len);
    journal.map_or(false, |octets| journal::last_records(&octets) == lines)
}

/// Applies the lines of a replacement. Where one is refused, those before it are forgotten.
fn apply(worker: &mut Worker, lines: &[u8]) -> Done {
    let mut said = Ok(String::new());
    for line in journal::whole_lines(lines) {
        let next = lines::apply(&mut worker.copy.zone, line);
        said = match (said, next) {
            (Ok(said), Ok(next)) if line.starts_with(b"rr ") => Ok(if said.is_empty() { next } else { said }),
            (Ok(_), Ok(next)) => Ok(next),
            (_, Err(why)) => {
                let _ = worker.copy.zone.forget();
                return Err(why);
            }
            (Err(why), _) => return Err(why),
        };
    }
    said
}

/// Replaces the zone's records by those of these lines, all of them or none, while nobody answers.
pub fn in_turn(keeper: &mut Keeper, worker: &mut Worker, turn: &mut Changing<'_>, mut lines: Vec<u8>) -> Done {
    let moment = keeper.shared.moments.of_replacement();
    lines.extend_from_slice(format!("replace {moment}\n").as_bytes());
    let said = apply(worker, &lines)?;
    keeper.shared.moments.raise_behind(moment);
    lines::keep(keeper, worker, &lines)?;
    turn.set(keeper.journal.len);
    keeper.shared.reloads.fetch_add(1, Ordering::Relaxed);
    Ok(said)
}

/// The same while the other threads answer, with the zone before, at the moment before. Then this thread answers for all.
pub fn beside(keeper: &mut Keeper, worker: &mut Worker, lines: Vec<u8>) -> Done {
    let moment = {
        let _turn = keeper.shared.turns.change(&worker.file);
        keeper.shared.moments.freeze(&worker.file)
    };
    let done = kept_beside(keeper, worker, lines, moment);
    if done.is_ok() {
        publish(keeper, worker, moment);
    }
    keeper.shared.moments.thaw();
    done
}

fn kept_beside(keeper: &mut Keeper, worker: &mut Worker, mut lines: Vec<u8>, moment: u64) -> Done {
    lines.extend_from_slice(format!("replace {moment}\n").as_bytes());
    let said = apply(worker, &lines)?;
    lines::keep(keeper, worker, &lines)?;
    Ok(said)
}

/// Has this thread answer all requests, and the others apply the replacement. The keeper goes to the thread whose place this one takes.
fn publish(keeper: &mut Keeper, worker: &Worker, moment: u64) {
    let shared = keeper.shared.clone();
    let mut turn = shared.turns.change(&worker.file);
    turn.set(keeper.journal.len);
    shared.moments.raise_behind(moment);
    shared.moments.thaw();
    let count = shared.reloads.fetch_add(1, Ordering::Relaxed) as usize;
    let place = &shared.slots[count % shared.slots.len()].home;
    keeper.next = Some(place.swap(worker.number, Ordering::SeqCst));
    shared.slots.iter().for_each(|it| it.owner.store(worker.number, Ordering::SeqCst));
    drop(turn);
    shared.wake_all();
}
