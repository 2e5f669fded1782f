//! The configuration: one TOML file, in which each setting may be left out.

use std::net::SocketAddr;
use std::ops::RangeInclusive;
use std::path::{Path, PathBuf};

use serde::{Deserialize, Serialize};
use zermuita::TrustAnchor;

use crate::log::{Format, Level};
use crate::net::Server;
use crate::out::{self, Failure};
use crate::page::MetricsPage;

/// Every setting, as the file has it.
#[derive(Clone, Debug, Serialize, Deserialize)]
#[serde(default, deny_unknown_fields, rename_all = "kebab-case")]
pub struct Config {
    pub socket: PathBuf,
    pub socket_mode: String,
    pub trust_anchors: PathBuf,
    pub nsec3_iterations: u16,
    pub hold_seconds: u64,
    pub memory_mib: usize,
    pub ask: Option<String>,
    pub disagreements: Disagreements,
    pub explain: Explain,
    pub log: Log,
    pub metrics: MetricsPage,
}

#[derive(Clone, Debug, Default, Serialize, Deserialize)]
#[serde(default, deny_unknown_fields, rename_all = "kebab-case")]
pub struct Disagreements {
    pub file: Option<PathBuf>,
    pub counts_seconds: u64,
}

#[derive(Clone, Debug, Serialize, Deserialize)]
#[serde(default, deny_unknown_fields, rename_all = "kebab-case")]
pub struct Explain {
    pub program: Option<PathBuf>,
    pub per_minute: u64,
}

#[derive(Clone, Debug, Serialize, Deserialize)]
#[serde(default, deny_unknown_fields, rename_all = "kebab-case")]
pub struct Log {
    pub format: Format,
    pub level: Level,
}

impl Default for Config {
    fn default() -> Self {
        Config {
            socket: PathBuf::from("/run/zermuita-shadow/dnstap.sock"),
            socket_mode: "0660".to_owned(),
            trust_anchors: PathBuf::from(crate::cli::ROOT_ANCHOR),
            nsec3_iterations: 150,
            hold_seconds: 3,
            memory_mib: 128,
            ask: None,
            disagreements: Disagreements::default(),
            explain: Explain::default(),
            log: Log::default(),
            metrics: MetricsPage::default(),
        }
    }
}

impl Default for Explain {
    fn default() -> Self {
        Explain { program: None, per_minute: 6 }
    }
}

impl Default for Log {
    fn default() -> Self {
        Log { format: Format::Text, level: Level::Info }
    }
}

/// Every setting at its default, with what it does.
pub const DEFAULTS: &str = include_str!("shadow.toml");

/// A configuration whose files and numbers were read.
#[derive(Clone, Debug)]
pub struct Ready {
    pub config: Config,
    pub anchors: Vec<TrustAnchor>,
    pub mode: u32,
    pub ask: Option<SocketAddr>,
}

impl Ready {
    /// How many octets of messages there may be in a quarter of the memory.
    pub fn quarter(&self) -> usize {
        (self.config.memory_mib << 20) / 4
    }
}

fn wrong(path: &Path, setting: &str, reason: impl std::fmt::Display) -> Failure {
    Failure::Content { path: path.to_owned(), reason: format!("{setting}: {reason}") }
}

fn within(path: &Path, setting: &str, number: u64, bounds: RangeInclusive<u64>) -> Result<(), Failure> {
    if bounds.contains(&number) {
        return Ok(());
    }
    Err(wrong(path, setting, format!("{number} is not from {} to {}", bounds.start(), bounds.end())))
}

/// A mode in octal digits, of reading, writing and executing alone.
fn mode(text: &str) -> Option<u32> {
    u32::from_str_radix(text, 8).ok().filter(|it| *it <= 0o777 && !text.starts_with('+'))
}

/// Whether a DS record counts, by its algorithm and its digest (RFC 8624, 3).
pub fn is_known(ds: &[u8]) -> bool {
    matches!(ds, [_, _, 8 | 10 | 13..=16, 2 | 4, _, ..])
}

/// The trust anchors, whose records are those that count.
fn anchors(path: &Path) -> Result<Vec<TrustAnchor>, Failure> {
    let content = |reason: String| Failure::Content { path: path.to_owned(), reason };
    let all = TrustAnchor::all(&out::read_text(path)?).map_err(|error| content(error.to_string()))?;
    let known = |it: TrustAnchor| Some(TrustAnchor { ds: it.ds.retained(is_known)?, zone: it.zone });
    let anchors: Vec<_> = all.into_iter().filter_map(known).collect();
    if anchors.is_empty() {
        return Err(content("no DS record of an algorithm and a digest type that are checked here".to_owned()));
    }
    Ok(anchors)
}

/// The address of a resolver.
fn asked(path: &Path, text: &str) -> Result<SocketAddr, Failure> {
    let server: Server = text.parse().map_err(|error| wrong(path, "ask", error))?;
    server.address().ok_or_else(|| wrong(path, "ask", format!("{text:?} is not an IP address with or without a port")))
}

/// Reads a configuration, and the files that it names.
pub fn read(path: &Path) -> Result<Ready, Failure> {
    let text = out::read_text(path)?;
    let config: Config =
        toml::from_str(&text).map_err(|error| Failure::Content { path: path.to_owned(), reason: error.to_string() })?;
    within(path, "hold-seconds", config.hold_seconds, 0..=60)?;
    within(path, "memory-mib", config.memory_mib as u64, 8..=65_536)?;
    within(path, "explain.per-minute", config.explain.per_minute, 1..=60_000)?;
    let not_mode = || wrong(path, "socket-mode", format!("{:?} is not a mode up to 0777", config.socket_mode));
    Ok(Ready {
        mode: mode(&config.socket_mode).ok_or_else(not_mode)?,
        anchors: anchors(&config.trust_anchors)?,
        ask: config.ask.as_ref().map(|it| asked(path, it)).transpose()?,
        config,
    })
}

#[cfg(test)]
mod tests {
    use super::*;

    #[test]
    fn defaults_are_those_that_are_shown() {
        let config: Config = toml::from_str(DEFAULTS).unwrap();
        assert_eq!(toml::Value::try_from(&config).unwrap(), toml::Value::try_from(Config::default()).unwrap());
    }

    #[test]
    fn modes_are_octal() {
        for (text, read) in [("0660", Some(0o660)), ("7", Some(7)), ("888", None), ("1777", None), ("+7", None), ("", None)] {
            assert_eq!(mode(text), read, "{text}");
        }
    }
}
