//! `zermuita serve`: a signed zone, whose keys roll.

mod answer;
mod answered;
mod commands;
mod config;
mod cookies;
mod copy;
mod counts;
mod ctl;
mod daemon;
mod journal;
mod keeper;
mod keys;
mod limits;
mod lines;
mod log;
mod master;
mod metrics;
mod moments;
#[cfg(test)]
mod mutated;
mod query;
mod queue;
mod reload;
mod responses;
mod shared;
mod signatures;
mod sockets;
mod start;
mod streams;
mod turns;
mod waits;
mod watch;
mod worker;

use std::io::Write;

use crate::cli::Serve;
use crate::out::Failure;

/// The configuration is wrong, a command was not done, or the server does not start.
const FAILED: u8 = 1;

/// Runs the program; its status.
pub fn run(command: &Serve) -> Result<u8, Failure> {
    match command {
        Serve::Defaults => {
            std::io::stdout().write_all(config::DEFAULTS.as_bytes())?;
            Ok(0)
        }
        Serve::Check(options) => match config::read(options) {
            Ok(config) => shown(&config),
            Err(failure) => told(&failure),
        },
        Serve::Run(options) => match config::read(options) {
            Ok(config) => daemon::run(config, options),
            Err(failure) => told(&failure),
        },
        Serve::Ctl { folder, command } => match ctl::run(folder, command) {
            Err(failure @ Failure::Other(_)) => told(&failure),
            done => done,
        },
        Serve::Look(options) => watch::run(options),
    }
}

/// Prints every setting that is in effect.
fn shown(config: &config::Config) -> Result<u8, Failure> {
    let failed = |error: toml::ser::Error| Failure::Other(error.to_string());
    let shown = toml::Value::try_from(config).map_err(failed)?;
    let shown = toml::to_string(&shown).map_err(failed)?;
    std::io::stdout().write_all(shown.as_bytes())?;
    Ok(0)
}

fn told(failure: &Failure) -> Result<u8, Failure> {
    eprintln!("zermuita: {failure}");
    Ok(FAILED)
}
