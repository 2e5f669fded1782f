//! The configuration: one TOML file, in which each setting may be left out, and options of the command line in their place.

use std::net::SocketAddr;
use std::path::{Path, PathBuf};

use serde::{Deserialize, Serialize};

use crate::cli::ServeRun;
use crate::out::{self, Failure};
use crate::page::MetricsPage;

const DAY: u32 = 86_400;
/// How many servers of the zone, and of its parent, are watched at most.
const WATCHED: usize = 16;

/// Every setting, as the file has it.
#[derive(Clone, Debug, PartialEq, Eq, Serialize, Deserialize)]
#[serde(default, deny_unknown_fields, rename_all = "kebab-case")]
pub struct Config {
    pub folder: PathBuf,
    pub zone_file: Option<PathBuf>,
    pub origin: String,
    pub chain: String,
    pub make_key: bool,
    pub listen: Vec<SocketAddr>,
    pub threads: usize,
    pub share: bool,
    pub backdate: u32,
    pub step: u32,
    pub auto: bool,
    pub watch: Vec<SocketAddr>,
    pub parent: Vec<SocketAddr>,
    pub look: u32,
    pub rate: u32,
    pub rate_all: u32,
    pub responses: usize,
    pub cookie_secret: Option<PathBuf>,
    pub tcp: Tcp,
    pub log: Log,
    pub metrics: MetricsPage,
}

#[derive(Clone, Debug, PartialEq, Eq, Serialize, Deserialize)]
#[serde(default, deny_unknown_fields, rename_all = "kebab-case")]
pub struct Tcp {
    pub connections: usize,
    pub of_network: usize,
    pub seconds: u64,
}

#[derive(Clone, Debug, PartialEq, Eq, Serialize, Deserialize)]
#[serde(default, deny_unknown_fields, rename_all = "kebab-case")]
pub struct Log {
    pub file: Option<PathBuf>,
    pub every: u32,
}

impl Default for Config {
    fn default() -> Self {
        Config {
            folder: PathBuf::from("/var/lib/zermuita-server"),
            zone_file: None,
            origin: String::new(),
            chain: "nsec 0 604800".to_owned(),
            make_key: false,
            listen: vec![SocketAddr::from(([127, 0, 0, 1], 5353))],
            threads: 0,
            share: false,
            backdate: 3600,
            step: 60,
            auto: false,
            watch: Vec::new(),
            parent: Vec::new(),
            look: 60,
            rate: 200,
            rate_all: 2000,
            responses: 8192,
            cookie_secret: None,
            tcp: Tcp::default(),
            log: Log::default(),
            metrics: MetricsPage::default(),
        }
    }
}

impl Default for Tcp {
    fn default() -> Self {
        Tcp { connections: 64, of_network: 16, seconds: 10 }
    }
}

impl Default for Log {
    fn default() -> Self {
        Log { file: None, every: 3600 }
    }
}

/// Every setting at its default, with what it does.
pub const DEFAULTS: &str = include_str!("serve.toml");

/// Why a configuration is wrong: the setting, and what it must be.
type Wrong = (&'static str, String);

impl Config {
    fn wrong(&self) -> Option<Wrong> {
        let is_long = |it: &Vec<SocketAddr>| it.len() > WATCHED;
        let life = self.chain.rsplit(' ').next().and_then(|it| it.parse::<u32>().ok());
        let wrong = [
            ("listen", self.listen.is_empty(), "at least one address with a port, as \"127.0.0.1:5353\""),
            ("step", self.step == 0 || self.step > DAY, "seconds, from 1 to a day"),
            ("backdate", self.backdate > DAY, "seconds, a day at most"),
            ("look", self.look == 0, "seconds, 1 at least"),
            ("watch", is_long(&self.watch), "16 servers at most"),
            ("parent", is_long(&self.parent), "16 servers at most"),
            ("threads", self.threads > 256, "256 at most; 0 is one for each processor"),
            ("responses", self.responses > 1 << 24, "16,777,216 at most"),
            ("tcp", self.tcp.connections == 0 || self.tcp.of_network == 0 || self.tcp.seconds == 0, "numbers above 0"),
            ("chain", life.map_or(false, |it| it <= self.backdate + self.step), "a lifetime of signatures above backdate and step: \
             those that begin so long before the clock would be over when they are sent"),
        ];
        wrong.into_iter().find(|it| it.1).map(|it| (it.0, it.2.to_owned()))
    }

    /// How many threads answer.
    pub fn slots(&self) -> usize {
        match self.threads {
            0 => std::thread::available_parallelism().map_or(1, usize::from),
            threads => threads,
        }
    }
}

macro_rules! set {
    ($config:ident, $options:ident: $($name:ident),*) => {
        $(if let Some(value) = &$options.$name {
            $config.$name = value.clone();
        })*
    };
}

/// What the command line says in the place of the file.
fn with_options(mut config: Config, options: &ServeRun) -> Config {
    set!(config, options: folder, origin, chain, backdate, step, look, rate, rate_all, responses, threads);
    config.auto |= options.auto;
    config.share |= options.share;
    config.make_key |= options.make_key;
    config.zone_file = options.zone_file.clone().or(config.zone_file);
    config.log.file = options.log.clone().or(config.log.file);
    config.log.every = options.every.unwrap_or(config.log.every);
    config.metrics.listen = options.metrics.or(config.metrics.listen);
    if !options.watch.is_empty() {
        config.watch = options.watch.clone();
    }
    if !options.parent.is_empty() {
        config.parent = options.parent.clone();
    }
    if options.address.is_some() || options.port.is_some() {
        let default = Config::default().listen[0];
        let ip = options.address.unwrap_or_else(|| default.ip());
        config.listen = vec![SocketAddr::new(ip, options.port.unwrap_or_else(|| default.port()))];
    }
    config
}

/// Reads the configuration that a file and the command line have.
pub fn read(options: &ServeRun) -> Result<Config, Failure> {
    let config = match &options.config {
        Some(path) => {
            let wrong = |error: toml::de::Error| Failure::Content { path: path.clone(), reason: error.to_string() };
            toml::from_str(&out::read_text(path)?).map_err(wrong)?
        }
        None => Config::default(),
    };
    let config = with_options(config, options);
    match config.wrong() {
        Some((setting, what)) => Err(Failure::Other(format!("{}{setting}: {what}", of_file(options.config.as_deref())))),
        None => Ok(config),
    }
}

fn of_file(path: Option<&Path>) -> String {
    path.map_or_else(String::new, |it| format!("{}: ", it.display()))
}

/// A secret of 16 octets in hexadecimal digits.
pub fn read_secret(path: &Path) -> Result<[u8; 16], Failure> {
    let text = out::read_text(path)?;
    let digit = |at: usize| text.trim().get(2 * at..2 * at + 2).and_then(|it| u8::from_str_radix(it, 16).ok());
    let octets: Option<Vec<u8>> = (0..16).map(digit).collect();
    octets.filter(|_| text.trim().len() == 32).and_then(|it| it.try_into().ok()).ok_or_else(|| {
        let reason = "32 hexadecimal digits, as `openssl rand -hex 16` prints, and nothing else".to_owned();
        Failure::Content { path: path.to_owned(), reason }
    })
}

#[cfg(test)]
mod tests {
    use super::*;
    use clap::Parser;

    #[test]
    fn defaults_are_those_that_are_shown() {
        let config: Config = toml::from_str(DEFAULTS).unwrap();
        assert_eq!(config, Config::default());
        let shown: toml::Value = toml::from_str(DEFAULTS).unwrap();
        let all = toml::Value::try_from(Config::default()).unwrap();
        for (key, value) in all.as_table().unwrap() {
            for inner in value.as_table().into_iter().flat_map(|it| it.keys()) {
                assert!(shown[key.as_str()].get(inner).is_some(), "{key} {inner}");
            }
        }
    }

    #[test]
    fn what_is_wrong_is_named() {
        let wrong = |text: &str| toml::from_str::<Config>(text).unwrap().wrong().map(|it| it.0);
        assert_eq!(wrong(""), None);
        for (text, setting) in [
            ("step = 0", "step"),
            ("backdate = 86401", "backdate"),
            ("listen = []", "listen"),
            ("chain = \"nsec 0 3600\"", "chain"),
            ("[tcp]\nconnections = 0", "tcp"),
        ] {
            assert_eq!(wrong(text), Some(setting));
        }
        assert!(toml::from_str::<Config>("stepp = 1").unwrap_err().to_string().contains("stepp"));
    }

    #[test]
    fn options_stand_in_the_place_of_settings() {
        #[derive(Parser)]
        struct Line {
            #[command(flatten)]
            run: ServeRun,
        }
        let line = Line::parse_from(["serve", "--port=5400", "--auto", "--watch=127.0.0.1:53", "--step=1", "folder", "zone"]);
        let config = read(&line.run).unwrap();
        assert_eq!((config.folder, config.zone_file), ("folder".into(), Some("zone".into())));
        assert_eq!((config.step, config.auto, config.watch.len(), config.listen[0].port()), (1, true, 1, 5400));
        assert_eq!(config.backdate, 3600);
    }
}
