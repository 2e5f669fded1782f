//! The process that watches.

use std::io::Read;
use std::net::SocketAddr;
use std::path::PathBuf;
use std::sync::Arc;
use std::time::{Duration, Instant};

use zermuita::{Name, Rtype};

use super::ask::{ask_set, Set};
use super::digests::{digests_of, names_wanted};
use crate::cli::ServeLook;
use crate::out::Failure;
use crate::serve::queue::Queue;
use crate::serve::{ctl, log};

/// A server of the parent.
#[derive(Default)]
struct Parent {
    /// The last DS set that it said, if it said one.
    last: Option<Set>,
    /// It did when it was asked last.
    is_now: bool,
    /// It said one that is not wanted now.
    was_other: bool,
    /// The greatest TTL of all that it said.
    greatest: u32,
}

struct Watch {
    folder: PathBuf,
    own: SocketAddr,
    servers: Vec<SocketAddr>,
    parents: Vec<(SocketAddr, Parent)>,
    /// The DS set that the parent is to have.
    wanted: Set,
    /// The DS data of all keys that the zone publishes, with each digest that is made here.
    made: Set,
    /// What the log said last of what a server lacks.
    lacking: String,
}

/// The zone's name, and the greatest TTL of the records that it has or had.
struct Zone {
    name: Name,
    greatest: u32,
}

/// A DS record's data of a line that says it.
fn ds_of(line: &str) -> Option<Vec<u8>> {
    let mut words = line.strip_prefix("DS ")?.split(' ');
    let tag: u16 = words.next()?.parse().ok()?;
    let (algorithm, kind): (u8, u8) = (words.next()?.parse().ok()?, words.next()?.parse().ok()?);
    let digits = words.next()?;
    let digest: Option<Vec<u8>> =
        (0..digits.len() / 2).map(|at| u8::from_str_radix(digits.get(2 * at..2 * at + 2)?, 16).ok()).collect();
    Some([&tag.to_be_bytes()[..], &[algorithm, kind], &digest?].concat())
}

impl Watch {
    fn new(options: &ServeLook) -> Self {
        Watch {
            folder: options.folder.clone(),
            own: options.own,
            servers: options.watch.clone(),
            parents: options.parent.iter().map(|it| (*it, Parent::default())).collect(),
            wanted: Set::default(),
            made: Set::default(),
            lacking: String::new(),
        }
    }

    /// Notes what a server lacks, if it was not noted last. False, as what it is about.
    fn lacks(&mut self, server: &str, what: &str) -> bool {
        let text = format!("{server} {what}");
        if text != self.lacking {
            self.lacking = text;
            log::event("lacks").with("server", server).with("what", what).write();
        }
        false
    }

    fn read_zone(&self) -> Option<Zone> {
        let journal = std::fs::read(self.folder.join("journal")).ok()?;
        let facts = zermuita::Zone::open(&journal).ok()?.facts().ok()?;
        Some(Zone { name: facts.apex.parse().ok()?, greatest: facts.ttl })
    }

    /// Whether all servers of the zone show what this one shows.
    fn have_set(&mut self, zone: &Zone, rtype: Rtype, what: &str) -> bool {
        let own = match ask_set(self.own, &zone.name, rtype) {
            Some(own) if !own.data.is_empty() => own,
            _ => return self.lacks("the server itself", what),
        };
        let has = |server: &&SocketAddr| ask_set(**server, &zone.name, rtype).map_or(false, |theirs| own.is_same(&theirs));
        match self.servers.iter().find(|it| !has(it)).copied() {
            Some(server) => self.lacks(&server.to_string(), what),
            None => !self.servers.is_empty() || self.lacks("none", "is named by --watch"),
        }
    }

    /// Asks the parent's servers for the DS set.
    fn look_at_parents(&mut self, zone: &Zone) {
        for (server, parent) in &mut self.parents {
            let found = ask_set(*server, &zone.name, Rtype::DS);
            parent.is_now = found.is_some();
            if let Some(found) = found {
                parent.greatest = parent.greatest.max(found.ttl);
                parent.was_other |= !names_wanted(&found, &self.wanted, &self.made);
                parent.last = Some(found);
            }
        }
    }

    /// Takes the DS set that the parent is to have. Where it is a new one, what a server said before is another one, or the same.
    fn take_wanted(&mut self, zone: &Zone, wanted: Set) {
        let keys = ask_set(self.own, &zone.name, Rtype::DNSKEY).unwrap_or_default();
        self.made = digests_of(&keys, &zone.name);
        if !wanted.is_same(&self.wanted) {
            for (_, parent) in &mut self.parents {
                parent.was_other = parent.last.as_ref().map_or(false, |it| !names_wanted(it, &wanted, &self.made));
            }
        }
        self.wanted = wanted;
    }

    /// Whether all servers of the parent have the DS set, and the TTL of the one before is known if it is to be.
    fn have_ds(&mut self, needs_ttl: bool) -> bool {
        let has = |it: &Parent| it.is_now && it.last.as_ref().map_or(false, |it| names_wanted(it, &self.wanted, &self.made));
        let lacking = self.parents.iter().find_map(|(server, parent)| match parent {
            it if !has(it) => Some((*server, "DS")),
            it if needs_ttl && !it.was_other => {
                Some((*server, "the TTL of the DS set before, which was not seen: report it by hand"))
            }
            _ => None,
        });
        match lacking {
            Some((server, what)) => self.lacks(&server.to_string(), what),
            None => !self.parents.is_empty() || self.lacks("none", "is named by --parent"),
        }
    }

    /// What the server says to a command.
    fn say(&self, command: &str) -> Option<String> {
        let (is_done, said) = ctl::tell(&self.folder, command.as_bytes()).ok()?;
        is_done.then(|| String::from_utf8_lossy(&said).into_owned())
    }

    /// Makes the report that a line of what is due asks for, or ends the roll, if all servers show what it is about.
    fn look_at_roll(&mut self, zone: &Zone, line: &str) {
        let (roll, rest) = match line.split_once(": ") {
            Some(parts) => parts,
            None => return,
        };
        let step = rest.split(' ').next().unwrap_or("");
        let is_report = step.starts_with("report");
        let of_zone = line.contains("DnskeyPropagated") || line.contains("RrsigPropagated");
        let of_parent = line.contains("DsPropagated");
        if !is_report && step != "done"
            || line.contains("DnskeyPropagated") && !self.have_set(zone, Rtype::DNSKEY, "DNSKEY")
            || line.contains("RrsigPropagated") && !self.have_set(zone, Rtype::SOA, "RRSIG")
            || of_parent && !self.have_ds(is_report)
        {
            return;
        }
        let parents = self.parents.iter().filter(|_| of_parent).map(|it| it.1.greatest);
        let ttl = parents.chain(of_zone.then_some(zone.greatest)).max().unwrap_or(0);
        let command = if is_report { format!("{step} {roll} {ttl}") } else { format!("{step} {roll}") };
        if let Ok((is_done, said)) = ctl::tell(&self.folder, command.as_bytes()) {
            let said = String::from_utf8_lossy(&said);
            let said = said.lines().next().unwrap_or("").to_owned();
            log::event("watch").with("line", command).with("done", is_done).with("said", said).write();
            self.lacking.clear();
        }
    }

    /// Asks all servers that are to be asked, once.
    fn look(&mut self) {
        if let (Some(due), Some(zone)) = (self.say("due"), self.read_zone()) {
            let wanted = Set { data: due.lines().filter_map(ds_of).collect(), ttl: 0 };
            self.take_wanted(&zone, wanted);
            self.look_at_parents(&zone);
            due.lines().for_each(|line| self.look_at_roll(&zone, line));
        }
    }
}

/// What the server tells the process that watches.
enum Told {
    Reopen,
    Ended,
}

/// Looks for as long as the server lives, which is as long as it holds the other end of standard input. An octet from there has the log
/// opened again.
pub fn run(options: &ServeLook) -> Result<u8, Failure> {
    if let Some(path) = &options.log {
        log::open(path).map_err(|error| Failure::File { path: path.clone(), error })?;
    }
    let told = Arc::new(Queue::new());
    let tell = told.clone();
    std::thread::spawn(move || {
        let mut input = std::io::stdin().lock();
        while matches!(input.read(&mut [0]), Ok(1)) {
            tell.push(Told::Reopen);
        }
        tell.push(Told::Ended);
    });
    let mut watch = Watch::new(options);
    loop {
        let until = Instant::now() + Duration::from_secs(options.look.into());
        loop {
            match told.pop_within(until.saturating_duration_since(Instant::now())) {
                Some(Told::Reopen) => log::reopen("watch"),
                Some(Told::Ended) => return Ok(0),
                None => break,
            }
        }
        watch.look();
    }
}

#[cfg(test)]
mod tests {
    use super::*;

    #[test]
    fn ds_lines_are_read() {
        assert_eq!(ds_of("DS 258 13 2 0AFF"), Some(vec![1, 2, 13, 2, 10, 255]));
        assert_eq!((ds_of("ksk-roll: done is next"), ds_of("DS 1 2 3 0G")), (None, None));
    }
}
