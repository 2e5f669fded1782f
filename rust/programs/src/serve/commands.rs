//! Commands, a line each.

use std::fmt::Write as _;
use std::sync::atomic::Ordering;

use zermuita::{SetType, Zone};

use super::keeper::{Done, Keeper};
use super::log;
use super::shared::Shared;
use super::turns::Changing;
use super::worker::Worker;
use super::{lines, waits};
use crate::text;

/// The calls of keys that a line brings, besides waits.
const CALLS: [&str; 5] = ["start", "report1", "report2", "done", "delete"];
const HELP: &str = "commands: status, due, ds, cds, dnskey, key KIND NAME, start ROLL OLD NEW, report1 ROLL TTL, wait1 ROLL, report2 ROLL \
TTL, wait2 ROLL, done ROLL, delete NAME, reload FILE, stop\n";

/// What was counted since the start, as text.
fn say_counts(shared: &Shared, journal: u64) -> String {
    let (sum, read) = (shared.sum(), |it: &std::sync::atomic::AtomicU64| it.load(Ordering::Relaxed));
    let mut said = format!(
        "journal: {journal} octets; signatures: {} made, {} found again; responses given again: {}; over the rate: {} told to use TCP, \
         {} dropped\n",
        read(&shared.signatures.made),
        read(&shared.signatures.found),
        read(&shared.responses.found),
        read(&shared.limits.said_tcp),
        read(&shared.limits.dropped),
    );
    let _ = write!(said, "requests: {} by UDP, {} by TCP, {} with a cookie; responses: ", sum.udp, sum.tcp, sum.with_cookie);
    for (code, count) in sum.given() {
        let _ = write!(said, "{code} {count}, ");
    }
    let _ = writeln!(said, "{} truncated; connections closed for others: {}", sum.truncated, read(&shared.refused));
    said
}

/// The same, for the log.
pub fn log_counts(shared: &Shared, journal: u64) {
    let (sum, read) = (shared.sum(), |it: &std::sync::atomic::AtomicU64| it.load(Ordering::Relaxed));
    let mut event = log::event("counts")
        .with("udp", sum.udp)
        .with("tcp", sum.tcp)
        .with("cookies", sum.with_cookie)
        .with("truncated", sum.truncated)
        .with("told_tcp", read(&shared.limits.said_tcp))
        .with("dropped", read(&shared.limits.dropped))
        .with("refused_connections", read(&shared.refused))
        .with("signatures_made", read(&shared.signatures.made))
        .with("signatures_kept", read(&shared.signatures.found))
        .with("responses_kept", read(&shared.responses.found))
        .with("journal", journal);
    for (code, count) in sum.given() {
        event = event.with(code, count);
    }
    event.write();
}

/// Says the records of a set, as master files have them.
fn say_records(zone: &mut Zone, set: SetType, word: &str) -> Done {
    let records = zone.records(set).map_err(|error| format!("{error}\n"))?;
    let mut said = String::new();
    for data in records.iter().filter(|it| it.len() >= 4) {
        let (head, rest) = data.split_at(4);
        let rest = if set == SetType::Dnskey { text::base64(rest) } else { text::hex(rest).to_uppercase() };
        let _ = writeln!(said, "{word} {} {} {} {rest}", u16::from_be_bytes([head[0], head[1]]), head[2], head[3]);
    }
    Ok(said)
}

fn status(keeper: &mut Keeper, worker: &mut Worker) -> String {
    let shared = &keeper.shared;
    let said = waits::say_due(&mut worker.copy.zone, shared.moments.clock()) + &say_counts(shared, keeper.journal.len);
    log_counts(shared, keeper.journal.len);
    said
}

/// Does a command, if it can be done.
pub fn done(keeper: &mut Keeper, worker: &mut Worker, turn: &mut Changing<'_>, line: &[u8]) -> Done {
    let text = String::from_utf8_lossy(line).into_owned();
    let words: Vec<&str> = text.split(' ').collect();
    let zone = &mut worker.copy.zone;
    match words[..] {
        ["stop"] => Ok(String::new()),
        ["status", ..] => Ok(status(keeper, worker)),
        ["due", ..] => Ok(waits::say_due(zone, keeper.shared.moments.clock()) + &say_records(zone, SetType::Ds, "DS")?),
        ["ds", ..] => say_records(zone, SetType::Ds, "DS"),
        ["cds", ..] => say_records(zone, SetType::Cds, "CDS"),
        ["dnskey", ..] => say_records(zone, SetType::Dnskey, "DNSKEY"),
        ["key", kind, name, ..] => lines::add_key(keeper, worker, turn, kind, name),
        ["wait1" | "wait2", ..] => waits::accept(keeper, worker, turn, line),
        [word, ..] if CALLS.contains(&word) => lines::accept(keeper, worker, turn, line),
        _ => Err(HELP.to_owned()),
    }
}
