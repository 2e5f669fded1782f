//! What the command line has. The man pages and the completion are made of this, too.

use std::ffi::OsString;
use std::net::{IpAddr, SocketAddr};
use std::path::PathBuf;

use clap::{Parser, Subcommand};
use zermuita::{Name, Question, Rtype};

use crate::net::Server;

/// Where Debian's package dns-root-data has the root's DS records.
pub const ROOT_ANCHOR: &str = "/usr/share/dns/root.ds";

/// Judge signed DNS answers: what a name's zones prove, from a trust anchor down
#[derive(Debug, Parser)]
#[command(name = "zermuita", version, propagate_version = true, arg_required_else_help = true)]
#[command(long_about = "Judge signed DNS answers (DNSSEC): what a name's zones prove of it, from a trust anchor down. Verdicts are those \
of libzermuita, which is proved by machine to say what the zones say.")]
pub struct Cli {
    #[command(subcommand)]
    pub command: Command,
}

#[derive(Debug, Subcommand)]
pub enum Command {
    Trace(Trace),
    Judge(Judge),
    #[command(subcommand)]
    Forward(Forward),
    #[command(subcommand)]
    Shadow(Shadow),
    #[command(subcommand)]
    Serve(Serve),
    /// Print the completion script for a shell
    #[command(hide = true)]
    Completion,
    /// Print a man page: zermuita, or a command's
    #[command(hide = true)]
    Manual {
        /// The command; that of all where it is left out
        page: Option<String>,
    },
}

/// A server, of one zone where that is named.
#[derive(Clone, Debug)]
pub struct ZoneServer {
    pub zone: Option<Name>,
    pub server: Server,
}

fn zone_server(text: &str) -> Result<ZoneServer, String> {
    let (zone, server) = match text.split_once('=') {
        Some((zone, server)) => (Some(zone), server),
        None => (None, text),
    };
    let zone = zone.map(str::parse::<Name>).transpose().map_err(|error| format!("{error}: a zone stands in front of ="))?;
    Ok(ZoneServer { zone, server: server.parse().map_err(|error: crate::net::ServerError| error.to_string())? })
}

/// A type that can be asked for: NXNAME stands in records of denial alone.
fn asked_type(text: &str) -> Result<Rtype, String> {
    match text.parse::<Rtype>().map_err(|error| error.to_string())? {
        Rtype::NXNAME => Err("NXNAME is not asked for (extended error 30, Invalid Query Type; RFC 9824, 3.5)".to_owned()),
        rtype => Ok(rtype),
    }
}

/// Trace a name from a trust anchor: each zone, its keys, what it answers, and what that proves
#[derive(Debug, Parser)]
#[command(
    long_about = "Trace a name from a trust anchor down. Asks the servers of each zone on the way, judges what they answer, and prints \
each zone with its DS records and keys, each answer with what it proves and by which records and signatures, and how the name ends: \
secure, insecure, bogus, or not shown. If an answer is refused, it asks the zone's other servers, three at most.",
    after_help = "Exit status: 0 secure, 3 insecure, 1 bogus or not shown, 2 an answer is missing or the call is wrong"
)]
pub struct Trace {
    /// Name to look up
    pub name: Name,
    /// Type of its records
    #[arg(value_name = "TYPE", default_value = "A", value_parser = asked_type)]
    pub rtype: Rtype,
    /// DS records of the trust anchor, one in each line
    #[arg(long, value_name = "FILE", default_value = ROOT_ANCHOR)]
    pub anchor: PathBuf,
    /// Server to ask, of one zone if ZONE= is in front of it; else a resolver, or a server of all zones. May be repeated. For a zone
    /// without one, the servers are asked that the answers on the way name
    #[arg(long, value_name = "[ZONE=]HOST[:PORT]", value_parser = zone_server)]
    pub server: Vec<ZoneServer>,
    /// Root hints: a zone file with the addresses of the root's servers
    #[arg(long, value_name = "FILE")]
    pub hints: Option<PathBuf>,
    /// Port of servers that are given without one, or found on the way
    #[arg(long, value_name = "PORT", default_value_t = 53)]
    pub port: u16,
    /// Print one object of JSON
    #[arg(long)]
    pub json: bool,
    /// Print the messages whole, too
    #[arg(long)]
    pub messages: bool,
    /// Print nothing on standard error while servers are asked
    #[arg(long)]
    pub quiet: bool,
    /// Write the messages to a file
    #[arg(long, value_name = "FILE")]
    pub save: Option<PathBuf>,
    /// Take messages and the moment from such a file, and ask servers only if --server is given
    #[arg(long, value_name = "FILE")]
    pub from: Option<PathBuf>,
    /// Seconds since 1970 at which signatures are to hold; now if left out
    #[arg(long, value_name = "SECONDS")]
    pub moment: Option<u64>,
}

impl Trace {
    pub fn question(&self) -> Question {
        Question::new(self.name.clone(), self.rtype)
    }
}

/// Judge the messages of a file: hexadecimal digits, base64, dig's output, or a packet capture
#[derive(Debug, Parser)]
#[command(
    long_about = "Judge the messages of a file against a trust anchor, and ask nobody. FILE has messages in hexadecimal digits or in \
base64, one in each line; or what dig prints; or packets as tcpdump writes them (pcap, UDP and TCP port 53). Among them must be the \
DNSKEY answers and DS records on the way from the trust anchor to each name. Prints what each answer proves.",
    after_help = "Exit status: 0 if all answers are secure or insecure, 1 if one is bogus or not shown, 2 if the file cannot be read"
)]
pub struct Judge {
    /// File of messages; - is standard input
    pub file: PathBuf,
    /// DS records of the trust anchor, one in each line
    #[arg(long, value_name = "FILE", default_value = ROOT_ANCHOR)]
    pub anchor: PathBuf,
    /// What the file has
    #[arg(long, value_enum, default_value_t = Form::Auto)]
    pub form: Form,
    /// Print an object of JSON for each answer
    #[arg(long)]
    pub json: bool,
    /// Seconds since 1970 at which signatures are to hold; now if left out
    #[arg(long, value_name = "SECONDS")]
    pub moment: Option<u64>,
}

/// How messages stand in a file.
#[derive(Clone, Copy, Debug, PartialEq, Eq, clap::ValueEnum)]
pub enum Form {
    /// Found out by the file's beginning
    Auto,
    /// Hexadecimal digits, a message in each line
    Hex,
    /// Base64, a message in each line
    Base64,
    /// What dig prints, with +dnssec
    Dig,
    /// A packet capture
    Pcap,
}

/// Answer questions from validated answers alone: a forwarder or resolver for this host
#[derive(Debug, Subcommand)]
#[command(
    long_about = "Answer questions by DNS from validated answers alone. Listens on loopback, asks a resolver or the zones' own \
servers, and answers what the library proves, with AD; what is bogus gets SERVFAIL with an extended error (RFC 8914).",
    after_help = "Exit status: 0 if the daemon was told to stop or the configuration is right, 1 if it is wrong, 2 if the call is wrong, \
3 if a socket cannot be opened"
)]
pub enum Forward {
    /// Run until told to stop; SIGHUP reads the configuration again
    Run {
        /// Configuration
        #[arg(long, value_name = "FILE", default_value = "/etc/zermuita/forward.toml")]
        config: PathBuf,
    },
    /// Check a configuration, and print every setting that is in effect
    Check {
        /// Configuration
        #[arg(long, value_name = "FILE", default_value = "/etc/zermuita/forward.toml")]
        config: PathBuf,
    },
    /// Print a configuration with every setting at its default
    Defaults,
}

/// Watch a validating resolver: judge what it validates, and tell where it says something else
#[derive(Debug, Subcommand)]
#[command(
    long_about = "Judge what a validating resolver validates, beside it. The resolver logs by dnstap what servers sent and what it \
answered. Where the judge says something else, a line of JSON has both, with the messages as a case of the corpus. Changes nothing, \
and asks nobody unless it is told to.",
    after_help = "Exit status: 0 if it was told to stop, its file has ended or the configuration is right, 1 if the configuration is \
wrong or not all lines were written, 2 if the call is wrong, 3 if the socket cannot be opened"
)]
pub enum Shadow {
    /// Run until told to stop; SIGHUP opens the file of disagreements again, SIGUSR1 writes counts
    Run {
        /// Configuration
        #[arg(long, value_name = "FILE", default_value = "/etc/zermuita/shadow.toml")]
        config: PathBuf,
        /// Read a file of frames, as fstrm_capture writes it, in the place of the socket, and end
        #[arg(long, value_name = "FILE")]
        frames: Option<PathBuf>,
    },
    /// Check a configuration, and print every setting that is in effect
    Check {
        /// Configuration
        #[arg(long, value_name = "FILE", default_value = "/etc/zermuita/shadow.toml")]
        config: PathBuf,
    },
    /// Print a configuration with every setting at its default
    Defaults,
}

/// Serve a signed zone: a name server that signs as it answers, and whose keys roll
#[derive(Debug, Subcommand)]
#[command(
    long_about = "Serve a signed zone. Answers by UDP and TCP, and signs as it answers with keys in PEM files. Lines of a journal have the \
zone, its keys and their rolls; commands add to it by a socket in the zone's folder. If the reports of a roll are true, old and new \
answers that caches may still have are valid together.",
    after_help = "Exit status: 0 if the server was told to stop, a command was done or the configuration is right; 1 if it does not start, \
a command was not done or the configuration is wrong; 2 if the call is wrong"
)]
pub enum Serve {
    /// Run until told to stop; SIGHUP opens the log again, and reads the configuration and the zone's file again
    Run(ServeRun),
    /// Check a configuration, and print every setting that is in effect
    Check(ServeRun),
    /// Print a configuration with every setting at its default
    Defaults,
    /// Send a command to the server of a folder: status, due, ds, cds, dnskey, key, start, report1, wait1, report2, wait2, done, delete,
    /// reload, stop
    Ctl {
        /// Folder of the zone
        folder: PathBuf,
        /// Command, as "status" or "key csk second"
        #[arg(required = true, trailing_var_arg = true, allow_hyphen_values = true)]
        command: Vec<OsString>,
    },
    /// Look at the servers of the zone and of its parent, beside a server
    #[command(hide = true)]
    Look(ServeLook),
}

/// What the command line says of a server, in the place of its configuration.
#[derive(Clone, Debug, Parser)]
#[command(args_override_self = true)]
pub struct ServeRun {
    /// Configuration; the defaults if it is left out
    #[arg(long, value_name = "FILE")]
    pub config: Option<PathBuf>,
    /// Address to answer at, in the place of those of the configuration
    #[arg(long, value_name = "ADDRESS")]
    pub address: Option<IpAddr>,
    /// Port to answer at
    #[arg(long, value_name = "PORT", value_parser = clap::value_parser!(u16).range(1..))]
    pub port: Option<u16>,
    /// Threads that answer; 0: one for each processor
    #[arg(long, value_name = "NUMBER")]
    pub threads: Option<usize>,
    /// Let other processes with the same folder answer at the same address
    #[arg(long)]
    pub share: bool,
    /// Seconds that all times are behind the clock
    #[arg(long, value_name = "SECONDS")]
    pub backdate: Option<u32>,
    /// Seconds that times of answers are rounded down to
    #[arg(long, value_name = "SECONDS")]
    pub step: Option<u32>,
    /// How often a network gets the same response by UDP in a second; 0: any number
    #[arg(long, value_name = "NUMBER")]
    pub rate: Option<u32>,
    /// How many responses of any kind a network gets by UDP in a second; 0: any number
    #[arg(long, value_name = "NUMBER")]
    pub rate_all: Option<u32>,
    /// Responses that are kept
    #[arg(long, value_name = "NUMBER")]
    pub responses: Option<usize>,
    /// For a new journal: NSEC or NSEC3, and the lifetime of signatures, as "nsec3 0 - 0 604800"
    #[arg(long, value_name = "WORDS")]
    pub chain: Option<String>,
    /// Origin of relative names in the master file
    #[arg(long, value_name = "NAME")]
    pub origin: Option<String>,
    /// For a new journal: make a key of P-256, which signs the zone
    #[arg(long)]
    pub make_key: bool,
    /// Make each wait of a roll when it is over
    #[arg(long)]
    pub auto: bool,
    /// Server of the zone: reports are made once all show a change. May be repeated
    #[arg(long, value_name = "HOST:PORT")]
    pub watch: Vec<SocketAddr>,
    /// Server of the zone's parent. May be repeated
    #[arg(long, value_name = "HOST:PORT")]
    pub parent: Vec<SocketAddr>,
    /// Seconds between two looks at these
    #[arg(long, value_name = "SECONDS")]
    pub look: Option<u32>,
    /// File of the log; standard error if it is left out
    #[arg(long, value_name = "FILE")]
    pub log: Option<PathBuf>,
    /// Seconds between two counts in the log; 0: none
    #[arg(long, value_name = "SECONDS")]
    pub every: Option<u32>,
    /// Address of a page for Prometheus
    #[arg(long, value_name = "HOST:PORT")]
    pub metrics: Option<SocketAddr>,
    /// Folder of the zone: its journal, its socket for commands, and private keys in keys/
    pub folder: Option<PathBuf>,
    /// Master file that a new journal begins with
    pub zone_file: Option<PathBuf>,
}

/// What the process that watches is told.
#[derive(Clone, Debug, Parser)]
pub struct ServeLook {
    #[arg(long)]
    pub own: SocketAddr,
    #[arg(long)]
    pub look: u32,
    #[arg(long)]
    pub watch: Vec<SocketAddr>,
    #[arg(long)]
    pub parent: Vec<SocketAddr>,
    #[arg(long)]
    pub log: Option<PathBuf>,
    pub folder: PathBuf,
}

#[cfg(test)]
mod tests {
    use super::*;

    #[test]
    fn nxname_is_not_asked_for() {
        let parsed = |rtype| Cli::try_parse_from(["zermuita", "trace", "a.example", rtype]);
        assert!(parsed("A").is_ok());
        for rtype in ["NXNAME", "nxname", "TYPE128"] {
            assert!(parsed(rtype).unwrap_err().to_string().contains("extended error 30"), "{rtype}");
        }
    }
}
