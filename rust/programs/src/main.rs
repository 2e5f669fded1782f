//! `zermuita`: programs over libzermuita.
#![forbid(unsafe_code)]
#![cfg_attr(not(test), warn(clippy::unwrap_used))]

mod anchor;
mod bounded;
mod cli;
mod forward;
mod judge;
mod log;
mod manual;
mod net;
mod out;
mod page;
mod root;
mod serve;
mod shadow;
mod text;
mod trace;
mod verified;
mod way;

use std::process::ExitCode;

use clap::Parser;

/// The call is wrong, or something that it needs cannot be read.
const WRONG_CALL: u8 = 2;

fn main() -> ExitCode {
    let cli = cli::Cli::parse();
    let done = match cli.command {
        cli::Command::Trace(options) => trace::run(&options),
        cli::Command::Judge(options) => judge::run(&options),
        cli::Command::Forward(command) => forward::run(&command),
        cli::Command::Shadow(command) => shadow::run(&command),
        cli::Command::Serve(command) => serve::run(&command),
        cli::Command::Completion => manual::completion(),
        cli::Command::Manual { page } => manual::page(page.as_deref()),
    };
    match done {
        Ok(status) => ExitCode::from(status),
        // Whoever read the output has enough of it.
        Err(out::Failure::Write(error)) if error.kind() == std::io::ErrorKind::BrokenPipe => ExitCode::SUCCESS,
        Err(failure) => {
            eprintln!("zermuita: {failure}");
            ExitCode::from(failure.status())
        }
    }
}
