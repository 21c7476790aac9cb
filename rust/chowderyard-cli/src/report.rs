//! What is printed: answers on standard output, as lines or as one JSON object; diagnostics on standard error.

use crate::args::Usage;
use chowderyard::Refusal;
use std::fmt::Write as _;
use std::io::{self, Write as _};
use std::path::{Path, PathBuf};
use std::process::ExitCode;

/// "1 group", "2 groups".
pub fn counted(n: usize, one: &str, more: &str) -> String {
    format!("{n} {}", if n == 1 { one } else { more })
}

/// One fact of an answer.
pub enum Fact {
    Text(String),
    Number(u64),
    Ratio(f64),
    Truth(bool),
    /// Nothing to say: null.
    None,
}

impl Fact {
    fn json(&self) -> String {
        match self {
            Fact::Text(text) => quoted(text),
            Fact::Number(n) => n.to_string(),
            Fact::Ratio(r) => format!("{r:.6}"),
            Fact::Truth(t) => t.to_string(),
            Fact::None => "null".into(),
        }
    }
}

impl From<&str> for Fact {
    fn from(text: &str) -> Fact {
        Fact::Text(text.into())
    }
}

impl From<&Path> for Fact {
    fn from(path: &Path) -> Fact {
        Fact::Text(path.display().to_string())
    }
}

impl From<u64> for Fact {
    fn from(n: u64) -> Fact {
        Fact::Number(n)
    }
}

impl From<usize> for Fact {
    fn from(n: usize) -> Fact {
        Fact::Number(n as u64)
    }
}

impl From<bool> for Fact {
    fn from(t: bool) -> Fact {
        Fact::Truth(t)
    }
}

/// An answer: lines for people, facts for machines.
#[derive(Default)]
pub struct Report {
    lines: String,
    facts: Vec<(&'static str, Fact)>,
}

impl Report {
    pub fn line(&mut self, line: impl AsRef<str>) {
        self.lines.push_str(line.as_ref());
        self.lines.push('\n');
    }

    pub fn fact(&mut self, name: &'static str, fact: impl Into<Fact>) {
        self.facts.push((name, fact.into()));
    }

    pub fn show(&self, json: bool) -> String {
        if json {
            object(&self.facts) + "\n"
        } else {
            self.lines.clone()
        }
    }
}

/// How a command ended that was not refused: `good` is false where what was compared is different.
pub struct Outcome {
    pub report: Report,
    pub good: bool,
}

/// A refusal with its place.
pub struct Refused {
    pub number: u8,
    pub name: &'static str,
    pub reason: String,
    pub place: PathBuf,
}

impl Refused {
    pub fn at(place: &Path, refusal: Refusal) -> Failure {
        Failure::Refused(Refused {
            number: refusal.number(),
            name: refusal.name(),
            reason: refusal.reason().to_string(),
            place: place.into(),
        })
    }
}

pub enum Failure {
    Refused(Refused),
    /// An index behind the last value.
    PastTheEnd {
        place: PathBuf,
        index: u64,
        values: u64,
    },
    Usage(Usage),
    File {
        path: PathBuf,
        doing: &'static str,
        why: String,
    },
}

/// Prints an answer; gives the exit status.
pub fn print(text: &str, status: u8) -> ExitCode {
    let mut out = io::stdout().lock();
    match out.write_all(text.as_bytes()).and_then(|()| out.flush()) {
        Ok(()) => ExitCode::from(status),
        // who reads the answer has gone: there is nobody to tell
        Err(e) if e.kind() == io::ErrorKind::BrokenPipe => ExitCode::from(status),
        Err(e) => {
            warn(&format!("standard output cannot be written: {e}"));
            ExitCode::from(2)
        }
    }
}

/// Prints a diagnostic.
pub fn warn(text: &str) {
    // a standard error that cannot be written leaves the exit status to tell
    let _ = writeln!(io::stderr(), "chowderyard: {text}");
}

/// Says what went wrong; gives the exit status.
pub fn fail(failure: &Failure, json: bool) -> ExitCode {
    match failure {
        Failure::Refused(Refused {
            number,
            name,
            reason,
            place,
        }) => {
            warn(&format!(
                "refused with {number} ({name}): {}: {reason}",
                place.display()
            ));
            let facts = [
                ("number", Fact::Number(u64::from(*number))),
                ("name", Fact::from(*name)),
                ("reason", Fact::from(reason.as_str())),
                ("place", Fact::from(place.as_path())),
            ];
            told(json, format!("{{\"refused\":{}}}\n", object(&facts)), 1)
        }
        Failure::PastTheEnd {
            place,
            index,
            values,
        } => {
            warn(&format!(
                "{}: index {index} is past the end: the column has {values} values, counted from 0",
                place.display()
            ));
            let facts = [
                ("past_the_end", Fact::Truth(true)),
                ("index", Fact::Number(*index)),
                ("values", Fact::Number(*values)),
                ("place", Fact::from(place.as_path())),
            ];
            told(json, object(&facts) + "\n", 1)
        }
        Failure::Usage(Usage { what, command }) => {
            let more = match command {
                Some(command) => format!("chowderyard {command} --help"),
                None => "chowderyard --help".into(),
            };
            warn(&format!("{what} (see '{more}')"));
            told(json, error(what), 2)
        }
        Failure::File { path, doing, why } => {
            let what = format!("{}: cannot be {doing}: {why}", path.display());
            warn(&what);
            told(json, error(&what), 2)
        }
    }
}

fn told(json: bool, text: String, status: u8) -> ExitCode {
    if json {
        print(&text, status)
    } else {
        ExitCode::from(status)
    }
}

fn error(what: &str) -> String {
    object(&[("error", Fact::from(what))]) + "\n"
}

fn object(facts: &[(&'static str, Fact)]) -> String {
    let each: Vec<_> = facts
        .iter()
        .map(|(name, fact)| format!("{}:{}", quoted(name), fact.json()))
        .collect();
    format!("{{{}}}", each.join(","))
}

/// A JSON string.
fn quoted(text: &str) -> String {
    let mut out = String::from("\"");
    for c in text.chars() {
        match c {
            '"' => out.push_str("\\\""),
            '\\' => out.push_str("\\\\"),
            c if c < ' ' => write!(out, "\\u{:04x}", c as u32).expect("a String takes it"),
            c => out.push(c),
        }
    }
    out.push('"');
    out
}
