//! The configuration: one TOML file, in which each setting may be left out.

use std::net::SocketAddr;
use std::path::{Path, PathBuf};

use serde::{Deserialize, Serialize};
use zermuita::{Name, TrustAnchor};

use crate::log::{Format, Level};
use crate::net::Server;
use crate::out::{self, Failure};
use crate::page::MetricsPage;
use crate::{anchor, root};

/// Every setting, as the file has it.
#[derive(Clone, Debug, Serialize, Deserialize)]
#[serde(default, deny_unknown_fields, rename_all = "kebab-case")]
pub struct Config {
    pub listen: Vec<SocketAddr>,
    pub upstream: Vec<String>,
    pub root_hints: Option<PathBuf>,
    pub trust_anchor: PathBuf,
    pub negative_trust_anchors: Vec<String>,
    pub nsec3_iterations: u16,
    pub server_port: u16,
    pub timeout_ms: u64,
    pub max_questions: usize,
    pub max_connections: usize,
    pub cache: Cache,
    pub log: Log,
    pub metrics: MetricsPage,
    pub tls: Tls,
}

#[derive(Clone, Debug, Serialize, Deserialize)]
#[serde(default, deny_unknown_fields, rename_all = "kebab-case")]
pub struct Cache {
    pub answers: usize,
    pub messages: usize,
    pub signatures: usize,
    pub denials: usize,
    pub max_ttl: u32,
    pub failure_ttl: u32,
}

#[derive(Clone, Debug, Serialize, Deserialize)]
#[serde(default, deny_unknown_fields, rename_all = "kebab-case")]
pub struct Log {
    pub format: Format,
    pub level: Level,
    pub queries: bool,
}

#[derive(Clone, Debug, Default, Serialize, Deserialize)]
#[serde(default, deny_unknown_fields, rename_all = "kebab-case")]
pub struct Tls {
    pub listen: Vec<SocketAddr>,
    pub certificate: Option<PathBuf>,
    pub key: Option<PathBuf>,
}

impl Default for Config {
    fn default() -> Self {
        let local = |address: [u8; 4]| SocketAddr::from((address, 53));
        Config {
            listen: vec![local([127, 0, 0, 1])],
            upstream: Vec::new(),
            root_hints: None,
            trust_anchor: PathBuf::from(crate::cli::ROOT_ANCHOR),
            negative_trust_anchors: Vec::new(),
            nsec3_iterations: 100,
            server_port: 53,
            timeout_ms: 1500,
            max_questions: 512,
            max_connections: 256,
            cache: Cache::default(),
            log: Log::default(),
            metrics: MetricsPage::default(),
            tls: Tls::default(),
        }
    }
}

impl Default for Cache {
    fn default() -> Self {
        Cache { answers: 50_000, messages: 50_000, signatures: 50_000, denials: 50_000, max_ttl: 86_400, failure_ttl: 5 }
    }
}

impl Default for Log {
    fn default() -> Self {
        Log { format: Format::Text, level: Level::Info, queries: false }
    }
}

/// Every setting at its default, with what it does.
pub const DEFAULTS: &str = include_str!("forward.toml");

/// A configuration whose files and names were read.
#[derive(Clone, Debug)]
pub struct Ready {
    pub config: Config,
    pub anchor: TrustAnchor,
    pub negative: Vec<Name>,
    pub upstream: Vec<SocketAddr>,
    pub root: Vec<std::net::IpAddr>,
}

fn wrong(path: &Path, setting: &str, reason: impl std::fmt::Display) -> Failure {
    Failure::Content { path: path.to_owned(), reason: format!("{setting}: {reason}") }
}

/// The addresses of upstream resolvers, which are given by address.
fn upstream(path: &Path, texts: &[String]) -> Result<Vec<SocketAddr>, Failure> {
    let address = |text: &String| {
        let server: Server = text.parse().map_err(|error| wrong(path, "upstream", error))?;
        server.address().ok_or_else(|| wrong(path, "upstream", format!("{text:?} is not an IP address with or without a port")))
    };
    texts.iter().map(address).collect()
}

fn is_tls_whole(tls: &Tls) -> bool {
    tls.listen.is_empty() || tls.certificate.is_some() && tls.key.is_some()
}

/// Reads a configuration, and the files that it names.
pub fn read(path: &Path) -> Result<Ready, Failure> {
    let text = out::read_text(path)?;
    let config: Config =
        toml::from_str(&text).map_err(|error| Failure::Content { path: path.to_owned(), reason: error.to_string() })?;
    let name = |text: &String| {
        text.parse::<Name>().map_err(|error| wrong(path, "negative-trust-anchors", format!("{text:?}: {error}")))
    };
    let negative = config.negative_trust_anchors.iter().map(name).collect::<Result<Vec<_>, _>>()?;
    if config.listen.is_empty() && config.tls.listen.is_empty() {
        return Err(wrong(path, "listen", "at least one address with a port, as \"127.0.0.1:53\""));
    }
    if !is_tls_whole(&config.tls) {
        return Err(wrong(path, "tls", "where listen is set, certificate and key name PEM files"));
    }
    if config.timeout_ms == 0 || config.max_questions == 0 {
        return Err(wrong(path, "timeout-ms and max-questions", "must be more than 0"));
    }
    Ok(Ready {
        anchor: anchor::read(&config.trust_anchor)?,
        negative,
        upstream: upstream(path, &config.upstream)?,
        root: root::addresses(config.root_hints.as_deref())?,
        config,
    })
}

#[cfg(test)]
mod tests {
    use super::*;

    #[test]
    fn defaults_are_those_that_are_shown() {
        let shown: toml::Value = toml::from_str(DEFAULTS).unwrap();
        let config: Config = toml::from_str(DEFAULTS).unwrap();
        assert_eq!(toml::Value::try_from(&config).unwrap(), toml::Value::try_from(Config::default()).unwrap());
        // Each setting that has a value is shown.
        let all = toml::Value::try_from(Config::default()).unwrap();
        for (key, value) in all.as_table().unwrap() {
            let shown = &shown[key.as_str()];
            for key in value.as_table().into_iter().flat_map(|it| it.keys()) {
                assert!(shown.get(key).is_some(), "{key}");
            }
        }
    }

    #[test]
    fn unknown_settings_are_refused() {
        assert!(toml::from_str::<Config>("listens = []").unwrap_err().to_string().contains("listens"));
    }
}
