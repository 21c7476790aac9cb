//! The words of the command line.

use crate::help;
use crate::report::counted;
use std::ffi::{OsStr, OsString};
use std::path::PathBuf;

#[derive(Clone, Copy, Debug, PartialEq, Eq)]
pub enum CoderName {
    C1234,
    C0124,
    C1248,
}

impl CoderName {
    pub fn text(self) -> &'static str {
        match self {
            CoderName::C1234 => "1234",
            CoderName::C0124 => "0124",
            CoderName::C1248 => "1248",
        }
    }

    /// The bytes of a number in a file of values.
    pub fn width(self) -> usize {
        match self {
            CoderName::C1234 | CoderName::C0124 => 4,
            CoderName::C1248 => 8,
        }
    }
}

/// Which command, with its files.
#[derive(Debug)]
pub enum Command {
    Pack {
        values: PathBuf,
        tags: PathBuf,
        data: PathBuf,
        force: bool,
    },
    Unpack {
        tags: PathBuf,
        data: PathBuf,
        values: PathBuf,
        force: bool,
    },
    Check {
        tags: PathBuf,
        data: PathBuf,
        values: PathBuf,
    },
    Info {
        tags: PathBuf,
        data: PathBuf,
    },
    Seek {
        tags: PathBuf,
        data: PathBuf,
        index: u64,
    },
}

#[derive(Debug)]
pub struct Job {
    pub command: Command,
    pub coder: CoderName,
    /// The start, where the packed numbers are steps.
    pub deltas: Option<u64>,
}

/// What the words ask for.
#[derive(Debug)]
pub enum Asked {
    /// To print a text: help, or the version.
    Text(String),
    Run(Job),
}

/// Words that ask for nothing that there is.
#[derive(Debug)]
pub struct Usage {
    pub what: String,
    /// The command whose help says more.
    pub command: Option<&'static str>,
}

/// A command's name, its files, the options that it takes beside --coder and --json, and its help.
struct Form {
    name: &'static str,
    files: [&'static str; 3],
    options: &'static [&'static str],
    help: &'static str,
}

const FORMS: [Form; 5] = [
    Form {
        name: "pack",
        files: ["VALUES", "TAGS", "DATA"],
        options: &["--deltas", "--start", "--force"],
        help: help::PACK,
    },
    Form {
        name: "unpack",
        files: ["TAGS", "DATA", "VALUES"],
        options: &["--deltas", "--start", "--force"],
        help: help::UNPACK,
    },
    Form {
        name: "check",
        files: ["TAGS", "DATA", "VALUES"],
        options: &["--deltas", "--start"],
        help: help::CHECK,
    },
    Form {
        name: "info",
        files: ["TAGS", "DATA", ""],
        options: &[],
        help: help::INFO,
    },
    Form {
        name: "seek",
        files: ["TAGS", "DATA", "INDEX"],
        options: &["--deltas", "--start"],
        help: help::SEEK,
    },
];

fn general(what: String) -> Usage {
    Usage {
        what,
        command: None,
    }
}

/// Reads the words behind the program's name.
pub fn parse(words: &[OsString]) -> Result<Asked, Usage> {
    let Some((first, rest)) = words.split_first() else {
        return Err(general("no command is given".into()));
    };
    match first.to_str() {
        Some("--help" | "-h") => return Ok(Asked::Text(help::GENERAL.into())),
        Some("--version" | "-V") => {
            let version = concat!("chowderyard ", env!("CARGO_PKG_VERSION"), "\n");
            return Ok(Asked::Text(version.into()));
        }
        Some("help") => return about(rest),
        _ => {}
    }
    let Some(form) = FORMS.iter().find(|f| first == f.name) else {
        return Err(general(format!(
            "there is no command '{}'",
            first.to_string_lossy()
        )));
    };
    form.parse(rest)
}

fn about(words: &[OsString]) -> Result<Asked, Usage> {
    let text = match words {
        [] => help::GENERAL,
        [name] => match FORMS.iter().find(|f| name == f.name) {
            Some(form) => form.help,
            None => {
                return Err(general(format!(
                    "there is no command '{}'",
                    name.to_string_lossy()
                )))
            }
        },
        _ => return Err(general("help takes one command".into())),
    };
    Ok(Asked::Text(text.into()))
}

/// The options that were given.
#[derive(Default)]
struct Options {
    coder: Option<CoderName>,
    deltas: bool,
    start: Option<u64>,
    force: bool,
    json: bool,
}

impl Form {
    fn wrong(&self, what: impl Into<String>) -> Usage {
        Usage {
            what: what.into(),
            command: Some(self.name),
        }
    }

    fn parse(&self, words: &[OsString]) -> Result<Asked, Usage> {
        let mut options = Options::default();
        let mut files: Vec<&OsStr> = Vec::new();
        let mut words = words.iter();
        let mut only_files = false;
        while let Some(word) = words.next() {
            let text = word.to_string_lossy();
            if only_files || !text.starts_with('-') || text == "-" {
                files.push(word);
            } else if text == "--" {
                only_files = true;
            } else if text == "--help" || text == "-h" {
                return Ok(Asked::Text(self.help.into()));
            } else {
                let (name, value) = match text.split_once('=') {
                    Some((name, value)) => (name, Some(value.to_string())),
                    None => (text.as_ref(), None),
                };
                self.option(&mut options, name, value, &mut words)?;
            }
        }
        self.job(options, &files)
    }

    fn option<'a>(
        &self,
        options: &mut Options,
        name: &str,
        value: Option<String>,
        words: &mut impl Iterator<Item = &'a OsString>,
    ) -> Result<(), Usage> {
        if name != "--coder" && name != "--json" && !self.options.contains(&name) {
            return Err(self.wrong(format!("{} takes no option {name}", self.name)));
        }
        if name == "--coder" || name == "--start" {
            let value = match value.or_else(|| words.next().map(|w| w.to_string_lossy().into())) {
                Some(value) => value,
                None => return Err(self.wrong(format!("{name} has no value behind it"))),
            };
            return self.valued(options, name, &value);
        }
        if value.is_some() {
            return Err(self.wrong(format!("{name} takes no value")));
        }
        let flag = match name {
            "--deltas" => &mut options.deltas,
            "--force" => &mut options.force,
            _ => &mut options.json,
        };
        *flag = true;
        Ok(())
    }

    fn valued(&self, options: &mut Options, name: &str, value: &str) -> Result<(), Usage> {
        let twice = if name == "--coder" {
            options
                .coder
                .replace(self.coder(value)?)
                .is_some_and(|before| Some(before) != options.coder)
        } else {
            let start = value.parse().map_err(|_| {
                self.wrong(format!(
                    "--start wants a whole number of 0 or more, and not '{value}'"
                ))
            })?;
            options
                .start
                .replace(start)
                .is_some_and(|before| before != start)
        };
        if twice {
            return Err(self.wrong(format!("{name} is given twice, with other values")));
        }
        Ok(())
    }

    fn coder(&self, value: &str) -> Result<CoderName, Usage> {
        match value {
            "1234" => Ok(CoderName::C1234),
            "0124" => Ok(CoderName::C0124),
            "1248" => Ok(CoderName::C1248),
            _ => Err(self.wrong(format!(
                "there is no coder '{value}'; they are 1234, 0124 and 1248"
            ))),
        }
    }

    fn job(&self, options: Options, files: &[&OsStr]) -> Result<Asked, Usage> {
        let wanted: Vec<_> = self.files.iter().filter(|f| !f.is_empty()).collect();
        if files.len() != wanted.len() {
            return Err(self.wrong(format!(
                "{} wants {} words, {}, and {}",
                self.name,
                wanted.len(),
                self.files.join(" ").trim_end(),
                counted(files.len(), "is given", "are given")
            )));
        }
        let Some(coder) = options.coder else {
            return Err(self.wrong("--coder is missing: 1234, 0124 or 1248"));
        };
        let start = options.start.unwrap_or(0);
        if options.start.is_some() && !options.deltas {
            return Err(self.wrong("--start is for steps: it wants --deltas beside it"));
        }
        if coder.width() == 4 && start > u64::from(u32::MAX) {
            return Err(self.wrong(format!(
                "--start {start} does not fit the 32 bits of coder {}",
                coder.text()
            )));
        }
        let path = |i: usize| PathBuf::from(files[i]);
        let force = options.force;
        let command = match self.name {
            "pack" => Command::Pack {
                values: path(0),
                tags: path(1),
                data: path(2),
                force,
            },
            "unpack" => Command::Unpack {
                tags: path(0),
                data: path(1),
                values: path(2),
                force,
            },
            "check" => Command::Check {
                tags: path(0),
                data: path(1),
                values: path(2),
            },
            "info" => Command::Info {
                tags: path(0),
                data: path(1),
            },
            _ => Command::Seek {
                tags: path(0),
                data: path(1),
                index: self.index(files[2])?,
            },
        };
        Ok(Asked::Run(Job {
            command,
            coder,
            deltas: options.deltas.then_some(start),
        }))
    }

    fn index(&self, word: &OsStr) -> Result<u64, Usage> {
        let text = word.to_string_lossy();
        text.parse().map_err(|_| {
            self.wrong(format!(
                "INDEX is a whole number of 0 or more, and not '{text}'"
            ))
        })
    }
}
