//! The files that the calls read: stored ones, generated ones, and small ones made here.

use evaluator::check::{case_files, files};
use evaluator::file;
use evaluator::sample::sample;
use std::collections::BTreeMap;
use std::io;
use std::path::{Path, PathBuf};

/// A file with its name and, for a stored one, its report.
pub struct Input {
    pub name: String,
    pub bytes: Vec<u8>,
    pub report: Option<Vec<u8>>,
}

/// The case file `path` with its report.
fn stored_input(path: &Path) -> Input {
    Input {
        name: path.display().to_string(),
        bytes: std::fs::read(path).expect("a readable case file"),
        report: Some(std::fs::read(path.with_extension("out")).expect("a stored report")),
    }
}

/// The case files of the folder `folder` of `tests`, and of the folders in it.
pub fn stored(tests: &Path, folder: &str) -> Vec<Input> {
    let paths = case_files(&tests.join(folder)).unwrap_or_default();
    paths.iter().map(|path| stored_input(path)).collect()
}

/// The folders of those files under `tests`, and in the folder `examples` beside it, that `find` finds, by name.
fn found(
    tests: &Path,
    find: impl Fn(&Path) -> io::Result<Vec<PathBuf>>,
    input: impl Fn(&Path) -> Input,
) -> BTreeMap<String, Vec<Input>> {
    let root = tests.parent().expect("a repository");
    let mut found: BTreeMap<String, Vec<Input>> = BTreeMap::new();
    for (folder, front) in [(tests, tests), (&root.join("examples"), root)] {
        for path in find(folder).unwrap_or_default() {
            let name = path.parent().and_then(|parent| parent.strip_prefix(front).ok()).expect("a folder");
            found.entry(name.display().to_string()).or_default().push(input(&path));
        }
    }
    found
}

/// Every folder under `tests` with case files, by its name there, and the folder `examples` beside `tests`.
pub fn folders(tests: &Path) -> BTreeMap<String, Vec<Input>> {
    found(tests, case_files, stored_input)
}

/// The same folders with all their case files, those that operations are given on too.
pub fn all_folders(tests: &Path) -> BTreeMap<String, Vec<Input>> {
    let input = |path: &Path| Input {
        name: path.display().to_string(),
        bytes: std::fs::read(path).expect("a readable case file"),
        report: None,
    };
    found(tests, |folder| files(folder, "case"), input)
}

/// Whether the evaluator accepts some of `inputs`.
pub fn some_accepted(inputs: &[Input]) -> bool {
    inputs.iter().any(|input| file::read(&input.bytes).is_ok())
}

/// The generated files of the seeds below `end` that `keep` keeps.
pub fn generated(end: u64, keep: impl Fn(u64) -> bool) -> Vec<Input> {
    let input = |seed| Input { name: format!("seed {seed}"), bytes: sample(seed).bytes, report: None };
    (0..end).filter(|seed| keep(*seed)).map(input).collect()
}

/// M4 of document 01.
pub const M4: &[u8] =
    b"(if low shut (not ab1))\n(if low stopped (not ab2))\n(false ab1)\n(false ab2)\n(seen low)\n(query shut)\n";

/// A file with something in each table.
pub const EACH: &[u8] = b"; each table
(if low shut (not ab))
(false ab)
(true fan)
(never stopped (not fan))
(avoid stopped (not ab))
(seen (not low))
(cost stopped 1050 33)
(seen fan)
(query (then (or shut low) (same stopped (not ab))))
(query (not fan))
";

/// `count` lines `line`, the number of each put for `#`.
fn lines(count: usize, line: &str) -> String {
    (0..count).map(|i| line.replace('#', &i.to_string()) + "\n").collect()
}

/// For each refusal of reading but 1 a file with its line, worked out by hand.
pub fn refused_files() -> Vec<(u32, u64, Vec<u8>)> {
    let query = String::from("(query low)\n");
    let long_comment = String::from(";") + &"x".repeat(200) + "\n";
    let deep = |n: usize| format!("(query {}low{})\n", "(not ".repeat(n - 1), ")".repeat(n - 1));
    let body = |front: &str, literal: &str, count: usize| format!("({front}{})\n", format!(" {literal}").repeat(count));
    let rows: Vec<(u32, u64, String)> = vec![
        (2, 0, query.clone() + &lines(3_275, ";23456789") + ";234567"),
        (2, 0, query.clone() + ";" + &"x".repeat(32_756)),
        (3, 2, query.clone() + "(true low" + &" ".repeat(191) + ")\n(\n"),
        (3, 1, " ".repeat(201)),
        (3, 3, query.clone() + &long_comment + " ;" + &"x".repeat(199)),
        (4, 3, query.clone() + "\n(seen Low)\n(\n"),
        (4, 1, query.trim_end().to_string() + " ;"),
        (5, 2, query.clone() + "(seen (not (not low)))\n"),
        (5, 1, String::from("(query\nlow)")),
        (5, 3, query.clone() + &long_comment + "(\n"),
        (5, 2, query.clone() + "(cost low 10000000 0)\n"),
        (5, 2, query.clone() + "(cost low 7)\n"),
        (5, 2, query.clone() + "(atom)\n"),
        (5, 3, query.clone() + "(atom low)\n(atom (not low))\n"),
        (5, 1, String::from("(atom low shut)\n") + &query),
        (5, 2, query.clone() + &body("if low", "low", 12).replace(")", " (not))")),
        (6, 2, query.clone() + "(true a1234567890123456)\n"),
        (6, 2, query.clone() + "(cost a1234567890123456 2000001 0)\n"),
        (6, 2, query.clone() + "(atom a1234567890123456)\n"),
        (6, 2, query.clone() + &body("if a1234567890123456", "low", 12)),
        (7, 2, String::from("(true low)\n") + &deep(17)),
        (8, 65, lines(65, "(true n#)") + "(query n0)\n"),
        (8, 65, lines(65, "(cost n# 1000000 100)") + "(query n0)\n"),
        (8, 65, lines(65, "(atom n#)") + "(query n0)\n"),
        (8, 65, lines(64, "(atom n#)") + &body("if new", "n0", 11)),
        (9, 257, lines(300, "(true low)") + &query),
        (9, 34, query.clone() + &lines(40, "(never low)")),
        (9, 34, query.clone() + &lines(40, "(avoid low)")),
        (9, 34, query.clone() + &lines(20, "(never low)\n(avoid low)")),
        (9, 34, query.clone() + &lines(16, "(never low)") + &lines(17, "(avoid low)")),
        (9, 34, query.clone() + &lines(32, "(never low)") + &body("avoid", "low", 11)),
        (10, 17, query.repeat(17)),
        (10, 20, query.repeat(16) + ";\n\n(true low)\n" + &query + "(\n"),
        (11, 0, String::new()),
        (11, 0, ";".repeat(32_768)),
        (11, 0, lines(20, "(seen c#)")),
        (11, 0, lines(20, "(atom c#)")),
        (12, 0, query.clone() + &lines(10, "(seen c#)")),
        (12, 0, query.clone() + &lines(10, "(cost c# 0 0)")),
        (12, 0, query.clone() + &lines(10, "(atom c#)")),
        (16, 2, query.clone() + "(cost low 2000001 0)\n"),
        (16, 2, query.clone() + "(cost low 1000001 100)\n"),
        (16, 3, query.clone() + "(cost low 2000000 0)\n(cost high 2000000 1)\n"),
        (16, 2, query.clone() + "(cost low 1333334 50)\n"),
        (16, 3, query.clone() + "(cost low 1000000 100)\n(cost high 0 101)\n(\n"),
        (16, 3, query.clone() + "(cost low 0 0)\n(cost low 9999999 9999999)\n"),
        (17, 3, query.clone() + "(cost low 0 0)\n(cost low 1 0)\n"),
        (17, 5, query.clone() + "(cost low 7 7)\n(cost high 7 7)\n;\n(cost low 7 7)\n(\n"),
        (20, 2, query.clone() + &body("if low", "low", 12)),
        (20, 1, body("never", "(not low)", 12) + &query),
        (20, 3, query.clone() + &body("avoid", "low", 11) + &body("avoid", "low", 13) + "(\n"),
        (20, 4, long_comment.clone() + "\n" + &query + &body("if low", "high (not high)", 6)),
        (20, 2, query.clone() + "(never a b c d e f g h i j k l)\n"),
        (20, 65, lines(64, "(atom n#)") + &body("if new", "n0", 12)),
        (20, 65, lines(64, "(atom n#)") + "(avoid" + &" n0".repeat(11) + " new)\n"),
        (20, 257, lines(256, "(true low)") + &body("if low", "low", 12) + &query),
        (20, 34, query.clone() + &lines(32, "(never low)") + &body("avoid", "low", 12)),
        (21, 3, query.clone() + "(edition 1)\n(edition 1)\n(\n"),
        (21, 4, query.clone() + "(edition 2)\n;\n( edition  1 )\n" + &query.repeat(17)),
        (21, 2, String::from("(edition 1)\n(edition 2)\n")),
        (21, 26, String::from("(edition 2)\n") + &lines(24, "(false c#)") + "(edition 2)\n" + &query),
    ];
    rows.into_iter().map(|(number, line, text)| (number, line, text.into_bytes())).collect()
}
