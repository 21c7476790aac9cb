//! The commands.

use crate::args::{CoderName, Command, Job};
use crate::files::{write_all, Input, Output};
use crate::report::{counted, warn, Fact, Failure, Outcome, Refused, Report};
use chowderyard::{Coder, Coder0124, Coder1234, Coder1248, Refusal, Tightness, GROUP_LIMIT};
use std::mem::size_of;
use std::path::Path;

pub fn run(job: &Job) -> Result<Outcome, Failure> {
    match job.coder {
        CoderName::C1234 => with::<Coder1234>(job),
        CoderName::C0124 => with::<Coder0124>(job),
        CoderName::C1248 => with::<Coder1248>(job),
    }
}

fn with<C: Coder>(job: &Job) -> Result<Outcome, Failure> {
    match &job.command {
        Command::Pack {
            values,
            tags,
            data,
            force,
        } => pack::<C>(job, values, tags, data, *force),
        Command::Unpack {
            tags,
            data,
            values,
            force,
        } => unpack::<C>(job, tags, data, values, *force),
        Command::Check { tags, data, values } => check::<C>(job, tags, data, values),
        Command::Info { tags, data } => info::<C>(job, tags, data),
        Command::Seek { tags, data, index } => seek::<C>(job, tags, data, *index),
    }
}

// ---- numbers and files of them

fn elem<C: Coder>(n: u64) -> C::Elem {
    // a start was tested when the words were read, and a number of a file has the element's width
    C::Elem::try_from(n)
        .ok()
        .expect("it fits the coder's width")
}

fn from_bytes<C: Coder>(bytes: &[u8]) -> Vec<C::Elem> {
    let number = |b: &[u8]| {
        let mut wide = [0; 8];
        wide[..b.len()].copy_from_slice(b);
        elem::<C>(u64::from_le_bytes(wide))
    };
    bytes
        .chunks_exact(size_of::<C::Elem>())
        .map(number)
        .collect()
}

fn to_bytes<C: Coder>(values: &[C::Elem]) -> Vec<u8> {
    let width = size_of::<C::Elem>();
    let mut bytes = Vec::with_capacity(std::mem::size_of_val(values));
    for v in values {
        let wide: u64 = (*v).into();
        bytes.extend_from_slice(&wide.to_le_bytes()[..width]);
    }
    bytes
}

/// A file of numbers. One that is cut inside a number is refused with 1, as one that is cut inside a group is; one that is
/// longer than a column may be is refused before it is read.
fn read_values<C: Coder>(path: &Path) -> Result<Vec<C::Elem>, Failure> {
    let width = size_of::<C::Elem>() as u64;
    let most = 4 * width * GROUP_LIMIT as u64;
    let input = Input::open(path)?;
    let bytes = match input.len() {
        Some(len) if len > most => {
            whole::<C>(path, len)?;
            return Err(too_many(path, len / width / 4));
        }
        _ => input.read(most + 4 * width)?,
    };
    whole::<C>(path, bytes.len() as u64)?;
    Ok(from_bytes::<C>(&bytes))
}

/// Refuses a file that is not whole groups of numbers.
fn whole<C: Coder>(path: &Path, len: u64) -> Result<(), Failure> {
    let width = size_of::<C::Elem>() as u64;
    let values = len / width;
    let not_fours = Refusal::NotFours {
        values: values as usize,
    };
    let stray = len % width;
    if stray != 0 {
        return Err(Failure::Refused(Refused {
            number: 1,
            name: not_fours.name(),
            reason: format!(
                "{len} bytes are not a whole count of {width}-byte numbers: the last has {stray} of {width} bytes; \
                 the file was cut, or its numbers are of another width"
            ),
            place: path.into(),
        }));
    }
    match values % 4 {
        0 => Ok(()),
        _ => Err(Refused::at(path, not_fours)),
    }
}

fn too_many(path: &Path, groups: u64) -> Failure {
    Refused::at(
        path,
        Refusal::TooManyGroups {
            groups: groups as usize,
        },
    )
}

/// A file of tags. One of too many is refused before it is read.
fn read_tags(path: &Path) -> Result<Vec<u8>, Failure> {
    let input = Input::open(path)?;
    match input.len() {
        Some(len) if len > GROUP_LIMIT as u64 => Err(too_many(path, len)),
        _ => input.read(GROUP_LIMIT as u64 + 1),
    }
}

/// Tags and data of a column.
struct Packed<'a> {
    tags_path: &'a Path,
    data_path: &'a Path,
    tags: Vec<u8>,
    /// As much of the file as the tags call for.
    data: Vec<u8>,
    /// The bytes behind that in the file.
    stray: u64,
}

impl<'a> Packed<'a> {
    fn read<C: Coder>(tags_path: &'a Path, data_path: &'a Path) -> Result<Packed<'a>, Failure> {
        let tags = read_tags(tags_path)?;
        let needed = C::new()
            .data_len(&tags)
            .map_err(|r| Refused::at(tags_path, r))? as u64;
        let input = Input::open(data_path)?;
        let stray = input.len().map_or(0, |len| len.saturating_sub(needed));
        let data = input.read(needed)?;
        Ok(Packed {
            tags_path,
            data_path,
            tags,
            data,
            stray,
        })
    }

    /// As many values as there are to be.
    fn unpack<C: Coder>(&self, n: usize, deltas: Option<u64>) -> Result<Vec<C::Elem>, Failure> {
        let mut values = vec![C::Elem::default(); n];
        match deltas {
            Some(start) => {
                C::new().decode_deltas(elem::<C>(start), &self.tags, &self.data, &mut values)
            }
            None => C::new().decode(&self.tags, &self.data, &mut values),
        }
        .map_err(|r| match r {
            Refusal::OtherTags { .. } | Refusal::TooManyGroups { .. } => {
                Refused::at(self.tags_path, r)
            }
            _ => Refused::at(self.data_path, r),
        })?;
        self.note_stray();
        Ok(values)
    }

    fn note_stray(&self) {
        if self.stray != 0 {
            warn(&format!(
                "note: {}: {} bytes behind the {} that the tags call for were passed over",
                self.data_path.display(),
                self.stray,
                self.data.len()
            ));
        }
    }
}

// ---- what the answers have in common

fn begin(name: &'static str, job: &Job) -> Report {
    let mut report = Report::default();
    report.fact("command", name);
    report.fact("coder", job.coder.text());
    report
}

fn begin_steps(name: &'static str, job: &Job) -> Report {
    let mut report = begin(name, job);
    report.fact("deltas", job.deltas.is_some());
    report.fact("start", job.deltas.map_or(Fact::None, Fact::Number));
    report
}

/// Bytes for each value, tags included; nothing for a column of none.
fn bytes_a_value(tags: usize, data: usize) -> Option<f64> {
    (tags != 0).then(|| (tags + data) as f64 / (4 * tags) as f64)
}

fn counts(report: &mut Report, tags: usize, data: usize) {
    report.fact("values", 4 * tags);
    report.fact("groups", tags);
    report.fact("tag_bytes", tags);
    report.fact("data_bytes", data);
    let r = bytes_a_value(tags, data);
    report.fact("bytes_a_value", r.map_or(Fact::None, Fact::Ratio));
}

/// A file that was written.
fn size(path: &Path, bytes: usize, what: &str) -> String {
    let bytes = counted(bytes, "byte", "bytes");
    format!("{}: {bytes} of {what}", path.display())
}

fn good(report: Report) -> Result<Outcome, Failure> {
    Ok(Outcome { report, good: true })
}

// ---- the commands

fn pack<C: Coder>(
    job: &Job,
    values_path: &Path,
    tags_path: &Path,
    data_path: &Path,
    force: bool,
) -> Result<Outcome, Failure> {
    let outputs = Output::all(&[tags_path, data_path], &[values_path], force)?;
    let values = read_values::<C>(values_path)?;
    let (groups, room) = C::max_compressed_bytes(values.len());
    let mut tags = vec![0; groups];
    let mut data = vec![0; room];
    let written = match job.deltas {
        Some(start) => C::new().encode_deltas(elem::<C>(start), &values, &mut tags, &mut data),
        None => C::new().encode(&values, &mut tags, &mut data),
    }
    .map_err(|r| Refused::at(values_path, r))?;
    data.truncate(written);
    write_all(&[(&outputs[0], &tags), (&outputs[1], &data)])?;

    let mut report = begin_steps("pack", job);
    counts(&mut report, groups, written);
    report.fact("tags", tags_path);
    report.fact("data", data_path);
    report.line(format!(
        "packed {} values in {}",
        values.len(),
        counted(groups, "group", "groups")
    ));
    report.line(size(tags_path, groups, "tags"));
    report.line(size(data_path, written, "data"));
    if let Some(r) = bytes_a_value(groups, written) {
        let before = size_of::<C::Elem>();
        report.line(format!("{r:.3} bytes a value, {before} before"));
    }
    good(report)
}

fn unpack<C: Coder>(
    job: &Job,
    tags_path: &Path,
    data_path: &Path,
    values_path: &Path,
    force: bool,
) -> Result<Outcome, Failure> {
    let outputs = Output::all(&[values_path], &[tags_path, data_path], force)?;
    let packed = Packed::read::<C>(tags_path, data_path)?;
    let values = packed.unpack::<C>(4 * packed.tags.len(), job.deltas)?;
    write_all(&[(&outputs[0], &to_bytes::<C>(&values))])?;

    let mut report = begin_steps("unpack", job);
    counts(&mut report, packed.tags.len(), packed.data.len());
    report.fact("stray_bytes", packed.stray);
    report.fact("file", values_path);
    report.line(format!(
        "unpacked {} values from {}",
        values.len(),
        counted(packed.tags.len(), "group", "groups")
    ));
    report.line(size(
        values_path,
        std::mem::size_of_val(&values[..]),
        "values",
    ));
    good(report)
}

fn check<C: Coder>(
    job: &Job,
    tags_path: &Path,
    data_path: &Path,
    values_path: &Path,
) -> Result<Outcome, Failure> {
    let wanted = read_values::<C>(values_path)?;
    let packed = Packed::read::<C>(tags_path, data_path)?;
    let got = packed.unpack::<C>(wanted.len(), job.deltas)?;

    let differs = |i: &usize| got[*i] != wanted[*i];
    let first = (0..got.len()).find(differs);
    let mut report = begin_steps("check", job);
    counts(&mut report, packed.tags.len(), packed.data.len());
    report.fact("stray_bytes", packed.stray);
    report.fact("same", first.is_none());
    match first {
        None => report.line(format!("same: all {} values", got.len())),
        Some(i) => {
            let all = (i..got.len()).filter(differs).count();
            report.fact("differing", all);
            report.fact("index", i);
            report.fact("unpacked", Fact::Number(got[i].into()));
            report.fact("wanted", Fact::Number(wanted[i].into()));
            report.line(format!(
                "different: {all} of {} values, the first at index {i}: {} unpacked, {} in {}",
                got.len(),
                got[i],
                wanted[i],
                values_path.display()
            ));
        }
    }
    Ok(Outcome {
        report,
        good: first.is_none(),
    })
}

fn info<C: Coder>(job: &Job, tags_path: &Path, data_path: &Path) -> Result<Outcome, Failure> {
    let packed = Packed::read::<C>(tags_path, data_path)?;
    let (tags, data) = (packed.tags.len(), packed.data.len());
    let found = C::new()
        .tightness(&packed.tags, &packed.data)
        .map_err(|r| Refused::at(data_path, r))?;

    let mut report = begin("info", job);
    counts(&mut report, tags, data);
    report.fact("stray_bytes", packed.stray);
    report.line(format!("coder          {}", job.coder.text()));
    report.line(format!("groups         {tags}"));
    report.line(format!("values         {}", 4 * tags));
    report.line(format!("tag bytes      {tags}"));
    report.line(format!("data bytes     {data}"));
    report.line(format!("stray bytes    {}", packed.stray));
    if let Some(r) = bytes_a_value(tags, data) {
        report.line(format!("bytes a value  {r:.3}"));
    }
    match found {
        Tightness::Tight => {
            report.fact("tight", true);
            report.line("tightness      tight");
        }
        Tightness::Loose { group, position } => {
            report.fact("tight", false);
            report.fact("loose_group", group);
            report.fact("loose_position", position);
            report.line(format!(
                "tightness      loose, first at group {group}, position {position} (value {})",
                4 * group + position
            ));
        }
    }
    good(report)
}

fn seek<C: Coder>(
    job: &Job,
    tags_path: &Path,
    data_path: &Path,
    index: u64,
) -> Result<Outcome, Failure> {
    let tags = read_tags(tags_path)?;
    let refused_tags = |r| Refused::at(tags_path, r);
    let refused_data = |r| Refused::at(data_path, r);
    let coder = C::new();
    coder.data_len(&tags).map_err(refused_tags)?;
    let values = 4 * tags.len() as u64;
    if index >= values {
        return Err(Failure::PastTheEnd {
            place: tags_path.into(),
            index,
            values,
        });
    }
    let (group, position) = ((index / 4) as usize, (index % 4) as usize);
    let needed = coder.data_len(&tags[..=group]).map_err(refused_tags)?;
    let data = Input::open(data_path)?.read(needed as u64)?;
    if data.len() < needed {
        // what the library would say of the tags to the end of the group
        let bytes = data.len();
        return Err(refused_data(Refusal::MissingData { bytes, needed }));
    }

    let mut four = [C::Elem::default(); 4];
    let at = match job.deltas {
        Some(start) => {
            let (at, sum) = coder
                .skip_deltas(&tags[..group], &data)
                .map_err(refused_data)?;
            let all = u64::MAX >> (64 - 8 * size_of::<C::Elem>());
            let from = elem::<C>(start.wrapping_add(sum.into()) & all);
            coder
                .decode_deltas(from, &tags[group..=group], &data[at..], &mut four)
                .map_err(refused_data)?;
            at
        }
        None => {
            let at = coder.data_len(&tags[..group]).map_err(refused_tags)?;
            coder
                .decode(&tags[group..=group], &data[at..], &mut four)
                .map_err(refused_data)?;
            at
        }
    };

    let mut report = begin_steps("seek", job);
    report.fact("index", index);
    report.fact("group", group);
    report.fact("position", position);
    report.fact("skipped_bytes", at);
    report.fact("value", Fact::Number(four[position].into()));
    report.line(format!(
        "{}, at index {index}: group {group}, position {position}, behind {at} bytes of data",
        four[position]
    ));
    good(report)
}
