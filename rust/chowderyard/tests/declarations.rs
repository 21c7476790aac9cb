//! The C header and the package's own declarations against the exported functions of the Rattle source: the same names,
//! parameters and fields. Nothing else compares them.

use std::collections::BTreeMap;
use std::path::{Path, PathBuf};

fn root() -> PathBuf {
    Path::new(env!("CARGO_MANIFEST_DIR")).join("../..")
}

fn text(path: impl AsRef<Path>) -> String {
    let path = root().join(path);
    std::fs::read_to_string(&path).unwrap_or_else(|e| panic!("{}: {e}", path.display()))
}

/// The text between `open` and the first `close` after it.
fn between<'a>(s: &'a str, open: &str, close: &str) -> &'a str {
    let s = &s[s.find(open).unwrap_or_else(|| panic!("no {open}")) + open.len()..];
    &s[..s.find(close).unwrap_or_else(|| panic!("no {close}"))]
}

fn words(s: &str) -> String {
    s.split_whitespace().collect::<Vec<_>>().join(" ")
}

/// Each exported function of the Rattle source, as a C declaration without its semicolon.
fn exported() -> BTreeMap<String, String> {
    let mut found = BTreeMap::new();
    let folder = root().join("crates/chowderyard/src");
    for file in std::fs::read_dir(folder).expect("the crate is there") {
        let source = text(file.unwrap().path());
        for rest in source.split("pub extern \"C\" fn ").skip(1) {
            let (name, rest) = rest.split_once('(').unwrap();
            let (parameters, rest) = rest.split_once(')').unwrap();
            let answer = words(between(rest, "->", "ensures"));
            let mut c = Vec::new();
            for parameter in parameters.split(',').filter(|p| !p.trim().is_empty()) {
                let (p, kind) = parameter.split_once(':').unwrap();
                let (p, kind) = (p.trim(), kind.trim());
                match kind.strip_prefix('&').map(|k| k.trim_end_matches(']')) {
                    Some(k) if k.starts_with("mut [") => {
                        c.push(format!("{} *{p}", number(&k[5..])));
                        c.push(format!("size_t {p}_len"));
                    }
                    Some(k) => {
                        c.push(format!("const {} *{p}", number(&k[1..])));
                        c.push(format!("size_t {p}_len"));
                    }
                    None => c.push(format!("{} {p}", number(kind))),
                }
            }
            let declared = format!("{} {name}({})", structure(&answer), c.join(", "));
            found.insert(name.to_string(), declared);
        }
    }
    found
}

fn number(rattle: &str) -> &'static str {
    match rattle {
        "u8" => "uint8_t",
        "u32" => "uint32_t",
        "u64" => "uint64_t",
        other => panic!("a type that this test does not know: {other}"),
    }
}

fn structure(rattle: &str) -> &'static str {
    match rattle {
        "Answer" => "chowder_answer",
        "TightnessAnswer" => "chowder_tightness",
        other => panic!("a type that this test does not know: {other}"),
    }
}

fn without_comments(mut s: &str) -> String {
    let mut out = String::new();
    while let Some(open) = s.find("/*") {
        out.push_str(&s[..open]);
        s = &s[open + s[open..].find("*/").expect("a comment that ends") + 2..];
    }
    out + s
}

#[test]
fn the_header_declares_each_exported_function() {
    let header = without_comments(&text("include/chowderyard.h"));
    let mut declared = BTreeMap::new();
    for line in header.split(';').map(words) {
        let start = ["chowder_answer chowder_", "chowder_tightness chowder_"]
            .iter()
            .filter_map(|s| line.find(s))
            .min();
        if let Some(start) = start {
            let line = &line[start..];
            let name = line.split(['(', ' ']).nth(1).unwrap();
            declared.insert(name.to_string(), line.to_string());
        }
    }
    let exported = exported();
    assert_eq!(exported.len(), 21);
    assert_eq!(declared, exported);
}

/// `name: type` of each field, in order, of Rattle's or of Rust's struct.
fn fields(source: &str, name: &str) -> Vec<(String, String)> {
    between(source, &format!("struct {name} {{"), "}")
        .lines()
        .map(|l| l.trim().trim_start_matches("pub ").trim_end_matches(','))
        .filter(|l| !l.is_empty() && !l.starts_with("//"))
        .map(|l| {
            let (field, kind) = l.split_once(": ").unwrap();
            (field.to_string(), kind.to_string())
        })
        .collect()
}

#[test]
fn the_answers_have_the_same_fields_everywhere() {
    let source = text("crates/chowderyard/src/lib.rt");
    let own = text("rust/chowderyard/src/declarations.rs");
    let header = without_comments(&text("include/chowderyard.h"));
    for name in ["Answer", "TightnessAnswer"] {
        let want = fields(&source, name);
        let layout = "#[repr(C)]\n#[derive(Clone, Copy)]\n";
        assert!(source.contains(&format!("{layout}pub struct {name} {{")));
        assert!(own.contains(&format!("{layout}pub struct {name} {{")));
        assert_eq!(fields(&own, name), want);
        let in_c: Vec<_> = between(&header, &format!("struct {} {{", structure(name)), "}")
            .split(';')
            .map(words)
            .filter(|f| !f.is_empty())
            .collect();
        let want: Vec<_> = want
            .iter()
            .map(|(field, kind)| format!("{} {field}", number(kind)))
            .collect();
        assert_eq!(in_c, want);
    }
}

/// The package declares each call once, with the number's type left open, and names the functions of each coder in the
/// order of the calls.
#[test]
fn the_package_declares_each_exported_function() {
    let own = text("rust/chowderyard/src/declarations.rs");
    let declarations: Vec<_> = between(&own, "extern \"C\" {", "}")
        .split(';')
        .map(words)
        .filter(|d| !d.is_empty())
        .collect();
    let mut declared = BTreeMap::new();
    let coders = [("1234", "u32"), ("0124", "u32"), ("1248", "u64")];
    let mut declares = own.split("declare! {").skip(1);
    for (coder, elem) in coders {
        let names = words(between(declares.next().unwrap(), &format!("{elem},"), "}"));
        let names: Vec<_> = names.split(", ").collect();
        assert_eq!(names.len(), declarations.len());
        for (name, declaration) in names.iter().zip(&declarations) {
            let call = between(declaration, "fn $", "(");
            assert_eq!(*name, format!("chowder_{call}_{coder}"));
            let parameters: Vec<_> = between(declaration, "(", ")")
                .split(',')
                .map(words)
                .filter(|p| !p.is_empty())
                .map(|p| {
                    let (p, kind) = p.split_once(": ").unwrap();
                    match kind.replace("$elem", elem).split_once(' ') {
                        Some(("*const", kind)) => format!("const {} *{p}", number(kind)),
                        Some((_, kind)) => format!("{} *{p}", number(kind)),
                        None if kind == "usize" => format!("size_t {p}"),
                        None => format!("{} {p}", number(elem)),
                    }
                })
                .collect();
            let answer = declaration.split("-> ").nth(1).unwrap();
            let whole = format!("{} {name}({})", structure(answer), parameters.join(", "));
            declared.insert(name.to_string(), whole);
        }
    }
    assert!(declares.next().is_none());
    assert_eq!(declared, exported());
}

/// The oracle's driver has no declarations of its own.
#[test]
fn nothing_else_declares_them() {
    for path in [
        "rust/chowderyard/src/library.rs",
        "oracle/driver/src/port.rs",
    ] {
        assert!(!text(path).contains("extern \"C\" {"), "{path}");
    }
}

#[test]
fn the_refusals_have_the_same_numbers_and_names_in_the_header() {
    use chowderyard::Refusal;
    let header = text("include/chowderyard.h");
    let defined = |name: &str, n: u64| {
        header
            .lines()
            .any(|l| words(l).starts_with(&format!("#define CHOWDER_{name} {n}")))
    };
    let all = [
        Refusal::NotFours { values: 1 },
        Refusal::TooManyGroups { groups: 1 },
        Refusal::FewTags { tags: 0, groups: 1 },
        Refusal::LittleRoom {
            bytes: 0,
            needed: 1,
        },
        Refusal::OtherTags { tags: 0, groups: 1 },
        Refusal::MissingData {
            bytes: 0,
            needed: 1,
        },
        Refusal::TailOverrun,
    ];
    for refusal in all {
        let name = refusal.name().to_uppercase().replace(' ', "_");
        assert!(defined(&name, refusal.number().into()), "{name}");
    }
    assert!(defined("GROUP_LIMIT", chowderyard::GROUP_LIMIT as u64));
}
