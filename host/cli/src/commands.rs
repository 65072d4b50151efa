//! The commands by name: which options each takes, and what does it.
use crate::args::{Args, Known, none_is_empty};
use crate::failure::Failure;
use crate::help;
use crate::output::Answer;
use crate::{backup, showing, writing};
use std::ffi::OsString;

struct Command {
    /// What it is called; the first is its own name.
    names: &'static [&'static str],
    flags: &'static [&'static str],
    valued: &'static [&'static str],
    /// What `help` prints; its first line says how the command is called.
    help: &'static str,
    run: fn(&Args) -> Result<Answer, Failure>,
}

const COMMANDS: &[Command] = &[
    Command {
        names: &["create"],
        flags: &["over", "json"],
        valued: &["wait"],
        help: help::CREATE,
        run: writing::create,
    },
    Command {
        names: &["info"],
        flags: &["json"],
        valued: &["wait"],
        help: help::INFO,
        run: showing::info,
    },
    Command {
        names: &["check"],
        flags: &["json"],
        valued: &["wait"],
        help: help::CHECK,
        run: showing::check,
    },
    Command {
        names: &["log"],
        flags: &["json"],
        valued: &[],
        help: help::LOG,
        run: showing::log,
    },
    Command {
        names: &["batches"],
        flags: &["json"],
        valued: &["wait"],
        help: help::BATCHES,
        run: showing::batches,
    },
    Command {
        names: &["read"],
        flags: &[],
        valued: &["wait"],
        help: help::READ,
        run: showing::read,
    },
    Command {
        names: &["page"],
        flags: &[],
        valued: &["wait"],
        help: help::PAGE,
        run: showing::page,
    },
    Command {
        names: &["commit"],
        flags: &["plain", "fold", "preview", "json"],
        valued: &["wait", "clock", "cut-after-bytes", "count", "root", "version", "freelist", "batch"],
        help: help::COMMIT,
        run: writing::commit,
    },
    Command {
        names: &["append"],
        flags: &["plain", "fold", "preview", "json"],
        valued: &["wait", "clock", "cut-after-bytes"],
        help: help::APPEND,
        run: writing::append,
    },
    Command {
        names: &["checkpoint", "fold"],
        flags: &["plain", "json"],
        valued: &["wait", "clock", "cut-after-bytes"],
        help: help::CHECKPOINT,
        run: writing::checkpoint,
    },
    Command {
        names: &["copy"],
        flags: &["json"],
        valued: &["wait"],
        help: help::COPY,
        run: backup::copy,
    },
    Command {
        names: &["dump"],
        flags: &[],
        valued: &["wait"],
        help: help::DUMP,
        run: backup::dump,
    },
    Command {
        names: &["restore"],
        flags: &["json"],
        valued: &[],
        help: help::RESTORE,
        run: backup::restore,
    },
];

pub fn run(words: &[OsString]) -> Result<Answer, Failure> {
    let Some((name, rest)) = words.split_first() else {
        return Err(Failure::Usage("no command".to_string()));
    };
    none_is_empty(words)?;
    let wants_help = rest
        .iter()
        .take_while(|word| *word != "--")
        .any(|word| word == "-h" || word == "--help");
    match name.to_str() {
        Some("--version" | "-V") => return version(rest),
        Some("help" | "--help" | "-h") if wants_help => return Ok(Answer::shown(help::HELP)),
        Some("help" | "--help" | "-h") => return about(rest),
        _ => {}
    }
    let command = find(name)?;
    if wants_help {
        return Ok(Answer::shown(command.help));
    }
    let usage = command.help.lines().next().unwrap_or_default();
    let (flags, valued) = (command.flags, command.valued);
    (command.run)(&Args::parse(rest, Known { flags, valued, usage })?)
}

fn find(name: &OsString) -> Result<&'static Command, Failure> {
    let found = COMMANDS.iter().find(|command| command.names.iter().any(|known| name == known));
    found.ok_or_else(|| Failure::Usage(format!("{} is no command", name.display())))
}

fn version(words: &[OsString]) -> Result<Answer, Failure> {
    match words {
        [] => Ok(Answer::shown(concat!("lateenbael ", env!("CARGO_PKG_VERSION"), "\n"))),
        _ => Err(Failure::Usage("expected: lateenbael --version".to_string())),
    }
}

fn about(words: &[OsString]) -> Result<Answer, Failure> {
    match words {
        [] => Ok(Answer::shown(help::HELP)),
        [name] if name == "help" => Ok(Answer::shown(help::HELP)),
        [name] => Ok(Answer::shown(find(name)?.help)),
        _ => Err(Failure::Usage("expected: lateenbael help [COMMAND]".to_string())),
    }
}

#[cfg(test)]
mod tests {
    use super::*;

    #[test]
    fn every_command_is_listed_and_its_help_begins_with_its_name() {
        for command in COMMANDS {
            let name = command.names[0];
            assert!(help::HELP.contains(&format!("\n  lateenbael {name} ")), "{name}");
            assert!(command.help.starts_with(&format!("lateenbael {name} ")), "{name}");
        }
    }

    #[test]
    fn every_option_is_told_in_the_help() {
        for command in COMMANDS {
            for option in command.flags.iter().chain(command.valued) {
                let told = [command.help, help::HELP].concat().contains(&format!("--{option}"));
                assert!(told, "{} --{option}", command.names[0]);
            }
        }
    }
}
