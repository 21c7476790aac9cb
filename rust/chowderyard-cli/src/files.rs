//! Files: read whole or to a count of bytes, with a progress line on a terminal; written anew, or over others if so told.

use crate::report::Failure;
use std::fs::{self, File, OpenOptions};
use std::io::{self, IsTerminal, Read, Write};
use std::path::{Path, PathBuf};

/// Files from this size on have a progress line.
const LARGE: u64 = 16 << 20;
const CHUNK: usize = 4 << 20;

/// A line on standard error that says how far a file is read or written; only for large files, and on a terminal.
struct Progress<'a> {
    shown: bool,
    doing: &'static str,
    path: &'a Path,
    total: u64,
}

impl<'a> Progress<'a> {
    fn new(doing: &'static str, path: &'a Path, total: u64) -> Progress<'a> {
        let shown = total >= LARGE && io::stderr().is_terminal();
        Progress {
            shown,
            doing,
            path,
            total,
        }
    }

    fn at(&self, done: u64) {
        if self.shown {
            let percent = 100 * done / self.total;
            let name = self.path.file_name().unwrap_or_default().to_string_lossy();
            let _ = write!(io::stderr(), "\r{} {name}: {percent}%\x1b[K", self.doing);
        }
    }
}

impl Drop for Progress<'_> {
    fn drop(&mut self) {
        if self.shown {
            let _ = write!(io::stderr(), "\r\x1b[K");
        }
    }
}

fn failed<'a>(path: &'a Path, doing: &'static str) -> impl Fn(io::Error) -> Failure + 'a {
    move |e| Failure::File {
        path: path.into(),
        doing,
        why: e.to_string(),
    }
}

/// An open file and its length, where it has one: a pipe has none.
pub struct Input<'a> {
    path: &'a Path,
    file: File,
    len: Option<u64>,
}

impl<'a> Input<'a> {
    pub fn open(path: &'a Path) -> Result<Input<'a>, Failure> {
        let file = File::open(path).map_err(failed(path, "read"))?;
        let about = file.metadata().map_err(failed(path, "read"))?;
        if about.is_dir() {
            return Err(Failure::File {
                path: path.into(),
                doing: "read",
                why: "it is a folder".into(),
            });
        }
        let len = about.is_file().then_some(about.len());
        Ok(Input { path, file, len })
    }

    pub fn len(&self) -> Option<u64> {
        self.len
    }

    /// The first bytes, `most` at most.
    pub fn read(mut self, most: u64) -> Result<Vec<u8>, Failure> {
        let total = self.len.map_or(0, |len| len.min(most));
        let progress = Progress::new("reading", self.path, total);
        let mut bytes = Vec::with_capacity(total as usize);
        loop {
            let want = (most - bytes.len() as u64).min(CHUNK as u64);
            let got = Read::by_ref(&mut self.file)
                .take(want)
                .read_to_end(&mut bytes)
                .map_err(failed(self.path, "read"))?;
            progress.at((bytes.len() as u64).min(total));
            if got == 0 {
                return Ok(bytes);
            }
        }
    }
}

/// A file to write.
pub struct Output<'a> {
    path: &'a Path,
    force: bool,
}

impl<'a> Output<'a> {
    /// Sees that the files may be written: none is there, or `force` is given; each is another, and none is an input.
    pub fn all(
        paths: &[&'a Path],
        inputs: &[&Path],
        force: bool,
    ) -> Result<Vec<Output<'a>>, Failure> {
        let refuse = |path: &Path, why: &str| Failure::File {
            path: path.into(),
            doing: "written",
            why: why.into(),
        };
        for (i, path) in paths.iter().enumerate() {
            if inputs.iter().any(|input| same(input, path)) {
                return Err(refuse(path, "it is also read"));
            }
            if paths[..i].iter().any(|other| same(other, path)) {
                return Err(refuse(path, "it is named twice"));
            }
            if !force && fs::symlink_metadata(path).is_ok() {
                return Err(refuse(path, "it is there already; --force writes over it"));
            }
        }
        Ok(paths.iter().map(|path| Output { path, force }).collect())
    }

    /// Writes the bytes. A file that is there keeps what it holds until all are written beside it.
    fn write(&self, bytes: &[u8]) -> Result<(), Failure> {
        let beside = if self.force {
            beside(self.path)
        } else {
            self.path.into()
        };
        let mut file = OpenOptions::new()
            .write(true)
            .create_new(true)
            .open(&beside)
            .map_err(failed(self.path, "written"))?;
        let progress = Progress::new("writing", self.path, bytes.len() as u64);
        let mut done = 0;
        let mut written = Ok(());
        for chunk in bytes.chunks(CHUNK) {
            written = file.write_all(chunk);
            if written.is_err() {
                break;
            }
            done += chunk.len() as u64;
            progress.at(done);
        }
        if written.is_ok() && self.force {
            written = fs::rename(&beside, self.path);
        }
        if written.is_err() {
            // half a file is of no use to anybody
            let _ = fs::remove_file(&beside);
        }
        written.map_err(failed(self.path, "written"))
    }
}

/// Writes all files. Where one cannot be written, those that this run made are removed again.
pub fn write_all(outputs: &[(&Output, &[u8])]) -> Result<(), Failure> {
    for (i, (output, bytes)) in outputs.iter().enumerate() {
        if let Err(failure) = output.write(bytes) {
            for (made, _) in outputs[..i].iter().filter(|(o, _)| !o.force) {
                let _ = fs::remove_file(made.path);
            }
            return Err(failure);
        }
    }
    Ok(())
}

/// A name in the same folder that no file has.
fn beside(path: &Path) -> PathBuf {
    let name = path.file_name().unwrap_or_default().to_string_lossy();
    path.with_file_name(format!(".{name}.{}.partial", std::process::id()))
}

/// Whether two paths name one file, there or not.
fn same(a: &Path, b: &Path) -> bool {
    a == b || matches!((resolved(a), resolved(b)), (Some(a), Some(b)) if a == b)
}

fn resolved(path: &Path) -> Option<PathBuf> {
    path.canonicalize().ok().or_else(|| {
        let folder = match path.parent() {
            Some(folder) if folder != Path::new("") => folder,
            _ => Path::new("."),
        };
        Some(folder.canonicalize().ok()?.join(path.file_name()?))
    })
}
