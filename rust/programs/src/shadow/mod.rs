//! `zermuita shadow`: judges what a resolver validates, beside it.

mod ask;
mod chain;
mod compare;
mod config;
mod counts;
mod daemon;
mod dnstap;
mod event;
mod explain;
mod frames;
mod judge;
mod program;
mod report;
mod rewrite;
mod seen;
mod session;
mod stream;
mod table;
mod told;

use std::io::Write;
use std::path::Path;

use crate::cli::Shadow;
use crate::out::Failure;

/// The configuration is wrong, or a file that it names cannot be used.
const WRONG: u8 = 1;

/// Runs the program; its status.
pub fn run(command: &Shadow) -> Result<u8, Failure> {
    match command {
        Shadow::Defaults => {
            std::io::stdout().write_all(config::DEFAULTS.as_bytes())?;
            Ok(0)
        }
        Shadow::Check { config } => told(check(config)),
        Shadow::Run { config, frames } => {
            told(config::read(config).and_then(|ready| daemon::run(&ready, frames.as_deref())))
        }
    }
}

/// Prints every setting that is in effect.
fn check(path: &Path) -> Result<u8, Failure> {
    let ready = config::read(path)?;
    let other = |error: &dyn std::fmt::Display| Failure::Other(error.to_string());
    let shown = toml::Value::try_from(&ready.config).map_err(|error| other(&error))?;
    let shown = toml::to_string(&shown).map_err(|error| other(&error))?;
    std::io::stdout().write_all(shown.as_bytes())?;
    Ok(0)
}

/// What is wrong with a configuration or a file has a status of its own.
fn told(done: Result<u8, Failure>) -> Result<u8, Failure> {
    match done {
        Err(failure @ (Failure::Content { .. } | Failure::File { .. })) => {
            eprintln!("zermuita: {failure}");
            Ok(WRONG)
        }
        done => done,
    }
}
