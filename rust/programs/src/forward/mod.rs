//! `zermuita forward`: answers from validated answers alone.

mod config;
mod daemon;
mod denials;
mod draft;
mod fetch;
mod metrics;
mod resolved;
mod resolver;
mod respond;
mod serve;
mod servers;
mod unsigned;
mod walked;

use std::io::Write;

use crate::cli::Forward;
use crate::out::Failure;

/// The configuration is wrong.
const WRONG_CONFIGURATION: u8 = 1;

/// Runs the program; its status.
pub fn run(command: &Forward) -> Result<u8, Failure> {
    match command {
        Forward::Defaults => {
            std::io::stdout().write_all(config::DEFAULTS.as_bytes())?;
            Ok(0)
        }
        Forward::Check { config } => match config::read(config) {
            Ok(ready) => {
                let shown = toml::Value::try_from(&ready.config).map_err(|error| Failure::Other(error.to_string()))?;
                let shown = toml::to_string(&shown).map_err(|error| Failure::Other(error.to_string()))?;
                std::io::stdout().write_all(shown.as_bytes())?;
                Ok(0)
            }
            Err(failure) => told(&failure),
        },
        Forward::Run { config } => match config::read(config) {
            Ok(ready) => daemon::run(config, ready),
            Err(failure) => told(&failure),
        },
    }
}

fn told(failure: &Failure) -> Result<u8, Failure> {
    eprintln!("zermuita: {failure}");
    Ok(WRONG_CONFIGURATION)
}
