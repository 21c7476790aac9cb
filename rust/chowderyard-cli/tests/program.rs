//! Runs the program: what it writes, what it says, and its exit status.

use std::fs;
use std::path::{Path, PathBuf};
use std::process::{Command, Output};

/// The program, under Cargo's runner where there is one: on another processor than x86-64 that is an emulator.
fn program() -> Command {
    let runner = std::env::var("CARGO_TARGET_X86_64_UNKNOWN_LINUX_GNU_RUNNER").unwrap_or_default();
    let mut words = runner
        .split_whitespace()
        .chain([env!("CARGO_BIN_EXE_chowderyard")]);
    let mut command = Command::new(words.next().expect("the program at least"));
    command.args(words);
    command
}

/// A folder of its own for each test, empty at the start.
struct Folder(PathBuf);

impl Folder {
    fn new(test: &str) -> Folder {
        let path = Path::new(env!("CARGO_TARGET_TMPDIR")).join(test);
        let _ = fs::remove_dir_all(&path);
        fs::create_dir_all(&path).unwrap();
        Folder(path)
    }

    fn file(&self, name: &str, bytes: &[u8]) -> &Folder {
        fs::write(self.0.join(name), bytes).unwrap();
        self
    }

    fn read(&self, name: &str) -> Vec<u8> {
        fs::read(self.0.join(name)).unwrap_or_else(|e| panic!("{name}: {e}"))
    }

    fn names(&self) -> Vec<String> {
        let mut names: Vec<_> = fs::read_dir(&self.0)
            .unwrap()
            .map(|f| f.unwrap().file_name().into_string().unwrap())
            .collect();
        names.sort();
        names
    }

    /// Runs the program in this folder, with the words of a line.
    fn run(&self, line: &str) -> Said {
        let Output {
            status,
            stdout,
            stderr,
        } = program()
            .args(line.split_whitespace())
            .current_dir(&self.0)
            .output()
            .unwrap();
        Said {
            status: status.code().expect("it ended by itself"),
            out: String::from_utf8(stdout).unwrap(),
            err: String::from_utf8(stderr).unwrap(),
        }
    }
}

struct Said {
    status: i32,
    out: String,
    err: String,
}

impl Said {
    #[track_caller]
    fn is(&self, status: i32, out: &str, err: &str) {
        assert_eq!(
            (self.status, self.out.as_str(), self.err.as_str()),
            (status, out, err)
        );
    }

    /// Refused: nothing on standard output, one line on standard error.
    #[track_caller]
    fn refused(&self, line: &str) {
        self.is(1, "", &format!("chowderyard: {line}\n"));
    }

    /// Not done: nothing on standard output, and a diagnostic that holds this.
    #[track_caller]
    fn usage(&self, part: &str) {
        assert_eq!((self.status, self.out.as_str()), (2, ""));
        assert!(self.err.starts_with("chowderyard: "), "{}", self.err);
        assert!(self.err.contains(part), "{}", self.err);
        assert_eq!(self.err.lines().count(), 1, "{}", self.err);
    }
}

fn u32s(values: &[u32]) -> Vec<u8> {
    values.iter().flat_map(|v| v.to_le_bytes()).collect()
}

fn u64s(values: &[u64]) -> Vec<u8> {
    values.iter().flat_map(|v| v.to_le_bytes()).collect()
}

fn real(name: &str) -> Vec<u8> {
    let path = Path::new(env!("CARGO_MANIFEST_DIR"))
        .join("../../tests/real")
        .join(name);
    fs::read(path).expect("the column is there")
}

const LABELS: [u32; 4] = [1799, 1802, 1803, 1804];

#[test]
fn packs_and_unpacks_steps() {
    let f = Folder::new("steps");
    f.file("v", &u32s(&LABELS));
    f.run("pack --coder 0124 --deltas --start 1798 v t d").is(
        0,
        "packed 4 values in 1 group\nt: 1 byte of tags\nd: 4 bytes of data\n1.250 bytes a value, 4 before\n",
        "",
    );
    assert_eq!((f.read("t"), f.read("d")), (vec![0x55], vec![1, 3, 1, 1]));
    f.run("unpack --coder=0124 --start=1798 --deltas t d back")
        .is(
            0,
            "unpacked 4 values from 1 group\nback: 16 bytes of values\n",
            "",
        );
    assert_eq!(f.read("back"), f.read("v"));
    f.run("check t d v --coder 0124 --deltas --start 1798")
        .is(0, "same: all 4 values\n", "");
    f.run("seek --coder 0124 --deltas --start 1798 t d 1").is(
        0,
        "1802, at index 1: group 0, position 1, behind 0 bytes of data\n",
        "",
    );
}

#[test]
fn packs_and_unpacks_plain_numbers_with_each_coder() {
    let f = Folder::new("plain");
    let small = [0, 255, 256, 65536, 5, 6, 7, 8];
    f.file("u32", &u32s(&small));
    f.file("u64", &u64s(&small.map(u64::from)));
    for (coder, values, tags, data) in [
        (
            "1234",
            "u32",
            vec![0x90, 0x00],
            vec![0, 0xFF, 0, 1, 0, 0, 1, 5, 6, 7, 8],
        ),
        (
            "0124",
            "u32",
            vec![0xE4, 0x55],
            vec![0xFF, 0, 1, 0, 0, 1, 0, 5, 6, 7, 8],
        ),
        (
            "1248",
            "u64",
            vec![0x90, 0x00],
            vec![0, 0xFF, 0, 1, 0, 0, 1, 0, 5, 6, 7, 8],
        ),
    ] {
        let said = f.run(&format!("pack --coder {coder} {values} t{coder} d{coder}"));
        assert_eq!((said.status, said.err.as_str()), (0, ""));
        assert_eq!(f.read(&format!("t{coder}")), tags);
        assert_eq!(f.read(&format!("d{coder}")), data);
        let said = f.run(&format!(
            "unpack --coder {coder} t{coder} d{coder} b{coder}"
        ));
        assert_eq!((said.status, said.err.as_str()), (0, ""));
        assert_eq!(f.read(&format!("b{coder}")), f.read(values));
        let said = f.run(&format!("seek --coder {coder} t{coder} d{coder} 6"));
        assert!(
            said.out.starts_with("7, at index 6: group 1, position 2"),
            "{}",
            said.out
        );
    }
}

#[test]
fn a_column_of_no_values() {
    let f = Folder::new("none");
    f.file("v", &[]);
    let said = f.run("pack --coder 1248 v t d");
    assert_eq!((said.status, said.err.as_str()), (0, ""));
    assert_eq!((f.read("t"), f.read("d")), (vec![], vec![]));
    f.run("check --coder 1248 t d v")
        .is(0, "same: all 0 values\n", "");
    let said = f.run("info --coder 1248 --json t d");
    assert!(said.out.contains("\"bytes_a_value\":null"), "{}", said.out);
    f.run("seek --coder 1248 t d 0")
        .refused("t: index 0 is past the end: the column has 0 values, counted from 0");
}

#[test]
fn info_of_tight_and_loose() {
    let f = Folder::new("info");
    f.file("t", &[0x00, 0xFF]);
    f.file(
        "d",
        &[
            9, 9, 9, 9, 1, 1, 1, 1, 5, 0, 0, 0, 1, 1, 1, 1, 1, 1, 1, 1, 77, 78,
        ],
    );
    f.run("info --coder 1234 t d").is(
        0,
        "coder          1234\ngroups         2\nvalues         8\ntag bytes      2\ndata bytes     20\n\
         stray bytes    2\nbytes a value  2.750\ntightness      loose, first at group 1, position 1 (value 5)\n",
        "",
    );
    f.run("info --coder 1234 --json t d").is(
        0,
        "{\"command\":\"info\",\"coder\":\"1234\",\"values\":8,\"groups\":2,\"tag_bytes\":2,\"data_bytes\":20,\
         \"bytes_a_value\":2.750000,\"stray_bytes\":2,\"tight\":false,\"loose_group\":1,\"loose_position\":1}\n",
        "",
    );
    f.file("t", &[0x00]);
    f.file("d", &[1, 2, 3, 4]);
    f.run("info --coder 1234 t d").is(
        0,
        "coder          1234\ngroups         1\nvalues         4\ntag bytes      1\ndata bytes     4\n\
         stray bytes    0\nbytes a value  1.250\ntightness      tight\n",
        "",
    );
}

#[test]
fn check_names_the_first_difference() {
    let f = Folder::new("different");
    f.file("v", &u32s(&LABELS));
    f.run("pack --coder 0124 --deltas v t d");
    f.file("v", &u32s(&[1799, 1800, 1803, 1805]));
    f.run("check --coder 0124 --deltas t d v").is(
        1,
        "different: 2 of 4 values, the first at index 1: 1802 unpacked, 1800 in v\n",
        "",
    );
    let said = f.run("check --coder 0124 --deltas --json t d v");
    assert_eq!(said.status, 1);
    assert!(
        said.out.ends_with(
            "\"same\":false,\"differing\":2,\"index\":1,\"unpacked\":1802,\"wanted\":1800}\n"
        ),
        "{}",
        said.out
    );
    // another start: every value is another
    let said = f.run("check --coder 0124 --deltas --start 7 t d v");
    assert!(
        said.out.starts_with("different: 4 of 4 values"),
        "{}",
        said.out
    );
}

#[test]
fn refusals_name_number_reason_and_place() {
    let f = Folder::new("refusals");
    f.file("five", &u32s(&[1, 2, 3, 4, 5]));
    f.run("pack --coder 1234 five t d").refused(
        "refused with 1 (not fours): five: 5 values are not a multiple of 4; add 3 or leave out 1, \
         and keep the true count beside the column",
    );
    f.file("cut", &u32s(&LABELS)[..15]);
    f.run("pack --coder 1234 cut t d").refused(
        "refused with 1 (not fours): cut: 15 bytes are not a whole count of 4-byte numbers: the last has 3 of 4 bytes; \
         the file was cut, or its numbers are of another width",
    );
    // six numbers of 32 bits are three of 64
    f.file("other", &u32s(&[1, 2, 3, 4, 5, 6]));
    f.run("pack --coder 1248 other t d").refused(
        "refused with 1 (not fours): other: 3 values are not a multiple of 4; add 1 or leave out 3, \
         and keep the true count beside the column",
    );
    assert_eq!(f.names(), ["cut", "five", "other"], "nothing is written");

    f.file("v", &u32s(&LABELS));
    f.file("t", &[0x55]);
    f.file("d", &[1, 3, 1]);
    let missing = "refused with 6 (missing data): d: the tags call for 4 data bytes and 3 are there, 1 too few; \
                   the data was cut, or the tags are of another column or coder";
    f.run("unpack --coder 0124 t d back").refused(missing);
    f.run("info --coder 0124 t d").refused(missing);
    f.run("check --coder 0124 t d v").refused(missing);
    f.run("seek --coder 0124 t d 3").refused(missing);
    f.file("t", &[0x55, 0x00]);
    f.run("check --coder 0124 t d v").refused(
        "refused with 5 (other tags): t: 2 tags for 1 group of values; \
         the tags are of another column, or values were added or lost",
    );
    f.run("check --coder 0124 t d five").refused(
        "refused with 1 (not fours): five: 5 values are not a multiple of 4; add 3 or leave out 1, \
         and keep the true count beside the column",
    );
    let said = f.run("unpack --coder 0124 --json t d back");
    assert_eq!(said.status, 1);
    assert_eq!(
        said.out,
        "{\"refused\":{\"number\":6,\"name\":\"missing data\",\"reason\":\"the tags call for 4 data bytes and 3 are there, \
         1 too few; the data was cut, or the tags are of another column or coder\",\"place\":\"d\"}}\n"
    );
    assert!(
        said.err.starts_with("chowderyard: refused with 6"),
        "{}",
        said.err
    );
    assert!(!f.names().contains(&"back".to_string()));
}

/// Files of one group more than the limit, which have no bytes on the disk.
#[test]
fn more_groups_than_the_limit() {
    let f = Folder::new("limit");
    let sized = |name: &str, len: u64| {
        fs::File::create(f.0.join(name))
            .unwrap()
            .set_len(len)
            .unwrap();
    };
    let reason = "16777217 groups are more than 16777216; cut the column and pack the parts";
    sized("t", 16_777_217);
    sized("v", 16_777_217 * 16);
    f.file("d", &[]);
    f.run("unpack --coder 0124 t d back")
        .refused(&format!("refused with 2 (too many groups): t: {reason}"));
    f.run("seek --coder 0124 t d 0")
        .refused(&format!("refused with 2 (too many groups): t: {reason}"));
    f.run("pack --coder 0124 v t2 d2")
        .refused(&format!("refused with 2 (too many groups): v: {reason}"));
    // 1 comes before 2
    sized("v", 16_777_217 * 16 + 4);
    let said = f.run("pack --coder 0124 v t2 d2");
    assert!(
        said.err
            .contains("refused with 1 (not fours): v: 67108869 values"),
        "{}",
        said.err
    );
    fs::remove_dir_all(&f.0).unwrap();
}

#[test]
fn stray_bytes_are_passed_over_with_a_note() {
    let f = Folder::new("stray");
    f.file("t", &[0x55]).file("d", &[1, 3, 1, 1, 0xEE, 0xEE]);
    let note =
        "chowderyard: note: d: 2 bytes behind the 4 that the tags call for were passed over\n";
    f.run("unpack --coder 0124 --deltas --start 1798 t d back")
        .is(
            0,
            "unpacked 4 values from 1 group\nback: 16 bytes of values\n",
            note,
        );
    assert_eq!(f.read("back"), u32s(&LABELS));
    f.run("check --coder 0124 --deltas --start 1798 t d back")
        .is(0, "same: all 4 values\n", note);
}

#[test]
fn no_file_is_written_over_without_force() {
    let f = Folder::new("force");
    f.file("v", &u32s(&LABELS)).file("d", b"precious");
    f.run("pack --coder 0124 v t d")
        .usage("d: cannot be written: it is there already; --force writes over it");
    assert_eq!(f.read("d"), b"precious");
    assert_eq!(
        f.names(),
        ["d", "v"],
        "the other file is not written either"
    );
    assert_eq!(f.run("pack --coder 0124 --force v t d").status, 0);
    assert_eq!(f.read("d").len(), 8);
    f.file("back", b"precious");
    f.run("unpack --coder 0124 t d back")
        .usage("it is there already");
    assert_eq!(f.read("back"), b"precious");
    assert_eq!(f.run("unpack --coder 0124 --force t d back").status, 0);
    assert_eq!(f.read("back"), f.read("v"));
    assert_eq!(
        f.names(),
        ["back", "d", "t", "v"],
        "nothing is left beside them"
    );
    // a refusal leaves even a file that may be written over
    f.file("five", &u32s(&[1, 2, 3, 4, 5]))
        .file("d", b"precious");
    assert_eq!(f.run("pack --coder 0124 --force five t d").status, 1);
    assert_eq!(f.read("d"), b"precious");
}

#[test]
fn inputs_and_outputs_are_files_of_their_own() {
    let f = Folder::new("same");
    f.file("v", &u32s(&LABELS));
    f.run("pack --coder 0124 --force v v d")
        .usage("v: cannot be written: it is also read");
    f.run("pack --coder 0124 --force v t ./v")
        .usage("./v: cannot be written: it is also read");
    f.run("pack --coder 0124 --force v t t")
        .usage("t: cannot be written: it is named twice");
    f.run("pack --coder 0124 --force v t ./t")
        .usage("./t: cannot be written: it is named twice");
    assert_eq!(f.names(), ["v"]);
    assert_eq!(f.read("v"), u32s(&LABELS));
}

#[test]
fn files_that_are_not_there() {
    let f = Folder::new("missing");
    f.run("info --coder 0124 nothing d")
        .usage("nothing: cannot be read: ");
    f.run("info --coder 0124 . d")
        .usage(".: cannot be read: it is a folder");
    f.file("v", &u32s(&LABELS));
    f.run("pack --coder 0124 v folder/t d")
        .usage("folder/t: cannot be written: ");
    f.run("pack --coder 0124 v t folder/d")
        .usage("folder/d: cannot be written: ");
    assert_eq!(f.names(), ["v"], "tags without their data are of no use");
    let said = f.run("info --coder 0124 --json nothing d");
    assert_eq!(said.status, 2);
    assert!(
        said.out
            .starts_with("{\"error\":\"nothing: cannot be read: "),
        "{}",
        said.out
    );
}

#[test]
fn words_that_ask_for_nothing_there_is() {
    let f = Folder::new("usage");
    for (line, part) in [
        ("", "no command is given (see 'chowderyard --help')"),
        ("shred", "there is no command 'shred'"),
        ("help shred", "there is no command 'shred'"),
        (
            "pack v t d",
            "--coder is missing: 1234, 0124 or 1248 (see 'chowderyard pack --help')",
        ),
        ("pack --coder 4321 v t d", "there is no coder '4321'"),
        ("pack --coder", "--coder has no value behind it"),
        (
            "pack --coder 0124 v t",
            "pack wants 3 words, VALUES TAGS DATA, and 2 are given",
        ),
        (
            "info --coder 0124 t",
            "info wants 2 words, TAGS DATA, and 1 is given",
        ),
        (
            "pack --coder 0124 --start 5 v t d",
            "it wants --deltas beside it",
        ),
        (
            "pack --coder 0124 --deltas --start -5 v t d",
            "--start wants a whole number",
        ),
        (
            "pack --coder 0124 --deltas --start 4294967296 v t d",
            "does not fit the 32 bits of coder 0124",
        ),
        (
            "pack --coder 0124 --coder 1234 v t d",
            "--coder is given twice",
        ),
        (
            "pack --coder 0124 --fast v t d",
            "pack takes no option --fast",
        ),
        (
            "check --coder 0124 --force t d v",
            "check takes no option --force",
        ),
        (
            "info --coder 0124 --deltas t d",
            "info takes no option --deltas",
        ),
        (
            "pack --coder 0124 --force=yes v t d",
            "--force takes no value",
        ),
        ("seek --coder 0124 t d last", "INDEX is a whole number"),
    ] {
        f.run(line).usage(part);
    }
}

#[test]
fn help_is_an_answer() {
    let f = Folder::new("help");
    for line in ["--help", "-h", "help"] {
        let said = f.run(line);
        assert_eq!((said.status, said.err.as_str()), (0, ""));
        for command in ["pack", "unpack", "check", "info", "seek"] {
            assert!(said.out.contains(&format!("\n  {command} ")), "{command}");
        }
        assert!(said
            .out
            .contains("Exit status: 0 good; 1 refused, or different; 2 usage"));
    }
    for command in ["pack", "unpack", "check", "info", "seek"] {
        for line in [
            format!("{command} --help"),
            format!("help {command}"),
            format!("{command} v -h"),
        ] {
            let said = f.run(&line);
            assert_eq!((said.status, said.err.as_str()), (0, ""));
            assert!(said
                .out
                .starts_with(&format!("Usage: chowderyard {command} --coder CODER")));
        }
    }
    let said = f.run("--version");
    assert!(said.out.starts_with("chowderyard "));
}

#[test]
fn names_with_quotes_and_dashes() {
    let f = Folder::new("names");
    f.file("-v\"1", &u32s(&LABELS));
    let said = f.run("pack --coder 0124 --json -- -v\"1 t\\ d");
    assert_eq!((said.status, said.err.as_str()), (0, ""));
    assert!(said.out.contains("\"tags\":\"t\\\\\""), "{}", said.out);
    let said = f.run("check --json --coder 1248 -- t\\ d -v\"1");
    assert_eq!(said.status, 1);
    assert!(said.out.contains("\"place\":\"-v\\\"1\""), "{}", said.out);
}

#[test]
fn real_columns_there_and_back() {
    let f = Folder::new("real");
    f.file("labels", &real("cross10.labels.u32"));
    f.file("offsets", &real("cross10.offsets.u64"));
    f.run("pack --json --coder 0124 --deltas --start 104399 labels lt ld").is(
        0,
        "{\"command\":\"pack\",\"coder\":\"0124\",\"deltas\":true,\"start\":104399,\"values\":21696,\"groups\":5424,\
         \"tag_bytes\":5424,\"data_bytes\":21696,\"bytes_a_value\":1.250000,\"tags\":\"lt\",\"data\":\"ld\"}\n",
        "",
    );
    f.run("pack --json --coder 1248 --deltas offsets ot od").is(
        0,
        "{\"command\":\"pack\",\"coder\":\"1248\",\"deltas\":true,\"start\":0,\"values\":21696,\"groups\":5424,\
         \"tag_bytes\":5424,\"data_bytes\":43392,\"bytes_a_value\":2.250000,\"tags\":\"ot\",\"data\":\"od\"}\n",
        "",
    );
    f.run("check --coder 0124 --deltas --start 104399 lt ld labels")
        .is(0, "same: all 21696 values\n", "");
    f.run("check --coder 1248 --deltas ot od offsets")
        .is(0, "same: all 21696 values\n", "");
    // the first frame of the hour
    let said = f.run("seek --json --coder 0124 --deltas --start 104399 lt ld 3596");
    assert!(said.out.ends_with("\"value\":108000}\n"), "{}", said.out);
    f.run("unpack --coder 0124 --deltas --start 104399 lt ld back");
    assert_eq!(f.read("back"), f.read("labels"));
}
