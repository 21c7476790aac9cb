//! `chowderyard`: packs files of whole numbers with the coders of the library, unpacks them and checks them.

mod args;
mod commands;
mod files;
mod help;
mod report;

use args::Asked;
use report::{Failure, Outcome};
use std::process::ExitCode;

fn main() -> ExitCode {
    let words: Vec<_> = std::env::args_os().skip(1).collect();
    let json = words.iter().any(|w| w == "--json");
    let outcome = match args::parse(&words) {
        Ok(Asked::Text(text)) => return report::print(&text, 0),
        Ok(Asked::Run(job)) => commands::run(&job),
        Err(usage) => Err(Failure::Usage(usage)),
    };
    match outcome {
        Ok(Outcome { report, good }) => report::print(&report.show(json), if good { 0 } else { 1 }),
        Err(failure) => report::fail(&failure, json),
    }
}
