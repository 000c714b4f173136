//! The listing by both programs: document 01's, the one that the engine's program comes with, and
//! seeded texts, compared whole.
//!
//! The engine's program is `crates/listing/out/listing`, or `MONITOR_LISTING` says where it is.
//! Without it, or without what is stored, the tests fail.

use second::asking::GREATEST_LIMIT;
use second::listing::listing;
use second::random::Random;
use second::samples::report;
use second::samples::texts::{self, DOCUMENT_01, PRINTED};
use std::collections::BTreeMap;
use std::io::{Read, Write};
use std::path::{Path, PathBuf};
use std::process::{Command, Stdio};
use std::{env, fs, thread};

// ---- the engine's program

fn beside_package(path: &str) -> PathBuf {
    PathBuf::from(env!("CARGO_MANIFEST_DIR")).join("..").join(path)
}

/// A file that the tests cannot do without.
fn stored(path: &Path) -> Vec<u8> {
    fs::read(path).unwrap_or_else(|error| panic!("{}: {error}", path.display()))
}

/// Where the engine's program is.
fn program() -> PathBuf {
    let named = env::var_os("MONITOR_LISTING").map(PathBuf::from);
    let path = named.unwrap_or_else(|| beside_package("crates/listing/out/listing"));
    assert!(path.is_file(), "no program at {}: `./listing` builds it", path.display());
    path
}

/// What the engine's program prints.
fn printed(program: &PathBuf, input: &[u8]) -> Vec<u8> {
    let mut child = Command::new(program)
        .stdin(Stdio::piped())
        .stdout(Stdio::piped())
        .spawn()
        .expect("the program runs");
    let mut stdin = child.stdin.take().expect("a pipe");
    let mut stdout = child.stdout.take().expect("a pipe");
    let mut output = vec![];
    thread::scope(|scope| {
        // Both pipes at once: the program may print before it has read all.
        scope.spawn(move || stdin.write_all(input).expect("the program reads its input"));
        stdout.read_to_end(&mut output).expect("the program prints");
    });
    assert!(child.wait().expect("the program ends").success());
    output
}

/// Compares what both print for an input, and gives it.
fn compare(program: &PathBuf, title: &str, input: &[u8]) -> String {
    let (engine, second) = (printed(program, input), listing(input));
    if engine != second.as_bytes() {
        let engine = String::from_utf8_lossy(&engine);
        let lines = input.split(|&byte| byte == b'\n').map(String::from_utf8_lossy);
        let place = engine.lines().zip(second.lines()).position(|(a, b)| a != b);
        let place = place.unwrap_or(engine.lines().count().min(second.lines().count()));
        let [engine, second] = [&engine[..], &second].map(|all| all.lines().nth(place));
        let line = lines.into_iter().nth(place);
        panic!("{title}: line {place}, {line:?}: engine {engine:?}, second {second:?}");
    }
    second
}

// ---- what was printed

/// How often each kind of line came.
#[derive(Default)]
struct Tally(BTreeMap<String, u64>);

impl Tally {
    fn count(&mut self, printed: &str) {
        for line in printed.lines() {
            let kind = match line.split(' ').next() {
                Some("between") => "between",
                Some("fewest") if line != "fewest over 4" => &line[..8],
                _ => line,
            };
            *self.0.entry(kind.into()).or_default() += 1;
        }
    }

    /// Every line that there is came so often.
    fn check(&self, title: &str, enough: u64) {
        report(&format!("{title}: {:?}\n", self.0));
        let refusals = (1..=3).chain(10..=18).chain(20..=22).chain(30..=32).chain(41..=42);
        let refusals = refusals.map(|number| format!("refused {number}"));
        let fewest = (0..=GREATEST_LIMIT).map(|count| format!("fewest {count}"));
        let others = ["ok", "bad line", "open", "contradicted", "between", "fewest over 4"];
        let lines: Vec<String> = refusals.chain(fewest).chain(others.map(String::from)).collect();
        for line in &lines {
            assert!(self.0.get(line) >= Some(&enough), "{title}: too few of {line:?}");
        }
        assert_eq!(self.0.len(), lines.len(), "{title}: {:?}", self.0.keys());
    }
}

// ---- the texts

#[test]
fn listing_of_document_01_and_the_stored_one() {
    let program = program();
    assert_eq!(compare(&program, "document 01", DOCUMENT_01.as_bytes()), PRINTED);
    let crate_folder = beside_package("crates/listing");
    let [stdin, stdout] = ["stdin", "stdout"].map(|name| stored(&crate_folder.join(name)));
    let second = compare(&program, "crates/listing/stdin", &stdin);
    assert_eq!(second.as_bytes(), stdout, "crates/listing/stdout");
}

/// The files of examples/scenarios, each beside what is printed for it.
#[test]
fn listing_of_the_scenarios() {
    let program = program();
    let mut scenarios = 0;
    for file in fs::read_dir(beside_package("examples/scenarios")).expect("the scenarios") {
        let mut path = file.expect("a scenario").path();
        // Either of the two asks for the other.
        if path.extension().is_some_and(|extension| extension == "printed") {
            path.set_extension("");
        }
        let (input, wanted) = (stored(&path), stored(&path.with_extension("printed")));
        let second = compare(&program, &path.display().to_string(), &input);
        assert_eq!(second.as_bytes(), wanted, "{}", path.display());
        scenarios += 1;
    }
    assert!(scenarios >= 2 * 5, "{scenarios} files");
}

/// Document 01's listing cut at every byte, so at every byte of lines of all kinds.
#[test]
fn listing_cut_at_every_byte() {
    let program = program();
    for len in 0..DOCUMENT_01.len() {
        compare(&program, &format!("cut to {len} bytes"), &DOCUMENT_01.as_bytes()[..len]);
    }
}

#[test]
fn listing_of_seeded_texts() {
    let program = program();
    let mut tally = Tally::default();
    let seeds: Vec<u64> = (0..20_000).collect();
    for some in seeds.chunks(200) {
        let texts: Vec<Vec<u8>> =
            some.iter().map(|&seed| texts::text(&mut Random::new(seed))).collect();
        let title = format!("seeds {} to {}", some[0], some[some.len() - 1]);
        tally.count(&compare(&program, &title, &texts.concat()));
    }
    tally.check("20,000 texts", 300);
}

#[test]
fn listing_of_seeded_texts_alone() {
    let program = program();
    let mut bad = 0;
    for seed in 0..1_000 {
        let text = texts::loose(&mut Random::new(seed));
        bad += u64::from(compare(&program, &format!("seed {seed}"), &text).contains("bad line"));
    }
    assert!(bad > 300, "{bad}");
}
