//! Man pages and completion, made of what the command line has.

use std::io::Write;

use clap::{Arg, Command, CommandFactory};

use crate::cli::Cli;
use crate::out::Failure;

/// Commands that run as daemons, whose pages are in section 8.
const DAEMONS: [&str; 3] = ["forward", "serve", "shadow"];

/// Prints the completion for bash.
pub fn completion() -> Result<u8, Failure> {
    let mut script = Vec::new();
    clap_complete::generate(clap_complete::Shell::Bash, &mut Cli::command(), "zermuita", &mut script);
    std::io::stdout().write_all(&script)?;
    Ok(0)
}

/// Prints the man page of a command; of all where none is named.
pub fn page(name: Option<&str>) -> Result<u8, Failure> {
    let all = Cli::command();
    let unknown = || Failure::Other(format!("no command {}", name.unwrap_or("")));
    let page = match name {
        None => written(&all, "zermuita", 1),
        Some(name) => {
            let section = if DAEMONS.contains(&name) { 8 } else { 1 };
            let command = all.find_subcommand(name).filter(|it| !it.is_hide_set()).ok_or_else(unknown)?;
            written(command, &format!("zermuita-{name}"), section)
        }
    };
    std::io::stdout().write_all(page.as_bytes())?;
    Ok(0)
}

/// A text of roff, in which no line is an order and no sign means something.
fn escaped(text: &str) -> String {
    let text = text.replace('\\', "\\e").replace('-', "\\-");
    text.lines().map(|it| if it.starts_with(['.', '\'']) { format!("\\&{it}") } else { it.to_owned() }).collect::<Vec<_>>().join("\n")
}

/// The words by which an option is called.
fn called(arg: &Arg) -> String {
    let values = arg.get_value_names().unwrap_or(&[]);
    let takes = arg.get_action().takes_values();
    let values = if takes { values.iter().map(|it| format!("\\fI{}\\fR", escaped(it))).collect::<Vec<_>>().join(" ") } else { String::new() };
    match arg.get_long() {
        Some(long) if values.is_empty() => format!("\\fB{}\\fR", escaped(&format!("--{long}"))),
        Some(long) => format!("\\fB{}\\fR {values}", escaped(&format!("--{long}"))),
        None => values,
    }
}

/// The options of a command, each with what it does.
fn options(command: &Command) -> Vec<String> {
    let option = |arg: &Arg| {
        let help = arg.get_long_help().or_else(|| arg.get_help()).map(|it| it.to_string()).unwrap_or_default();
        let defaults: Vec<_> = arg.get_default_values().iter().map(|it| it.to_string_lossy()).collect();
        let is_told = !defaults.is_empty() && arg.get_action().takes_values();
        let default = if is_told { format!(". Default: {}", escaped(&defaults.join(" "))) } else { String::new() };
        format!(".TP\n{}\n{}{default}\n", called(arg), escaped(&help))
    };
    command.get_arguments().filter(|it| !it.is_hide_set()).map(option).collect()
}

/// The pages of the program and of its commands, without the page's own.
fn see_also(own: &str) -> String {
    let all = Cli::command();
    let commands = all.get_subcommands().filter(|it| !it.is_hide_set() && it.get_name() != "help");
    let page = |it: &Command| {
        let name = it.get_name();
        (format!("zermuita-{name}"), if DAEMONS.contains(&name) { 8 } else { 1 })
    };
    let pages = std::iter::once(("zermuita".to_owned(), 1)).chain(commands.map(page)).chain([("delv".to_owned(), 1)]);
    let pages: Vec<_> = pages.filter(|it| it.0 != own).map(|(name, section)| format!("{}({section})", escaped(&name))).collect();
    format!(".SH SEE ALSO\n{}\n", pages.join(", "))
}

fn written(command: &Command, name: &str, section: u8) -> String {
    let version = env!("CARGO_PKG_VERSION");
    let about = |it: &Command| it.get_about().map(|it| it.to_string()).unwrap_or_default();
    let long = command.get_long_about().or_else(|| command.get_about()).map(|it| it.to_string()).unwrap_or_default();
    let mut page = format!(".TH {} {section} \"\" \"zermuita {version}\"\n", escaped(&name.to_uppercase()));
    page += &format!(".SH NAME\n{} \\- {}\n.SH SYNOPSIS\n", escaped(name), escaped(&about(command)));
    let words = name.replacen('-', " ", 1);
    let usage = command.clone().bin_name(words).disable_help_flag(true).render_usage().to_string();
    let usage: Vec<_> = usage.trim_start_matches("Usage:").lines().map(str::trim).filter(|it| !it.is_empty()).map(escaped).collect();
    page += &format!("{}\n.SH DESCRIPTION\n{}\n", usage.join("\n.br\n"), escaped(&long));
    let below: Vec<_> = command.get_subcommands().filter(|it| !it.is_hide_set() && it.get_name() != "help").collect();
    if !below.is_empty() {
        page += ".SH COMMANDS\n";
        for it in &below {
            page += &format!(".TP\n\\fB{}\\fR\n{}\n", escaped(it.get_name()), escaped(&about(it)));
        }
    }
    let mut own = options(command);
    for it in below.iter().flat_map(|it| options(it)) {
        // Several commands have the same one.
        if !own.contains(&it) {
            own.push(it);
        }
    }
    if !own.is_empty() {
        page += &format!(".SH OPTIONS\n{}", own.concat());
    }
    if let Some(after) = command.get_after_help() {
        let after = after.to_string();
        let status = after.strip_prefix("Exit status: ").unwrap_or(&after).to_owned();
        page += &format!(".SH EXIT STATUS\n{}\n", escaped(&status));
    }
    page + &see_also(name)
}
