//! Reports, statuses and faults of the system.

mod common;

use common::{bytes, finder, stored, Run};
use evaluator::answer::answer;
use evaluator::sample::sample;
use std::fs::OpenOptions;
use std::process::{Command, Stdio};

/// The status that `file` should end with.
fn status(file: &[u8]) -> i32 {
    i32::from(answer(file).result.is_err())
}

#[test]
fn stored_files_get_their_reports() {
    let files = stored();
    assert!(files.len() > 250, "{} files", files.len());
    for name in files {
        let run = finder(&[&name], b"");
        let file = bytes(&name);
        assert_eq!(run.out, bytes(&name.replace(".case", ".out")), "{name}");
        assert_eq!(String::from_utf8_lossy(&run.out), answer(&file).text, "{name}");
        assert_eq!(run.status, status(&file), "{name}");
        assert_eq!(run.err.is_empty(), run.status == 0, "{name}");
    }
}

#[test]
fn generated_files_on_standard_input_get_their_reports() {
    for seed in (0..600).filter(|seed| seed % 20 != 0) {
        let file = sample(seed).bytes;
        let words: &[&str] = if seed % 2 == 0 { &[] } else { &["-"] };
        let run = finder(words, &file);
        assert_eq!(String::from_utf8_lossy(&run.out), answer(&file).text, "seed {seed}");
        assert_eq!(run.status, status(&file), "seed {seed}");
    }
}

#[test]
fn a_verdict_line_stands_for_each_query() {
    let run = finder(&[], b"(true a)\n(query a)\n(query (not a))\n(query b)\n");
    let verdicts = "(verdict follows)\n(verdict denied)\n(verdict open)\n";
    let due = format!("{verdicts}(rounds 3)\n(decided 5)\n(minimal 1 1)\n(cause)\n(cheapest 0)\n");
    assert_eq!(run, Run { out: due.into(), err: String::new(), status: 0 });
    let run = finder(&[], "(query a)\n".repeat(16).as_bytes());
    let due = "(verdict open)\n".repeat(16) + "(rounds 2)\n(decided 2)\n(minimal 1 1)\n(cause)\n(cheapest 0)\n";
    assert_eq!(run, Run { out: due.into(), err: String::new(), status: 0 });
    let run = finder(&[], "(query a)\n".repeat(17).as_bytes());
    assert_eq!((run.out.as_slice(), run.status), (&b"(refused 10 17)\n"[..], 1));
}

#[test]
fn the_lowest_cost_stands_last() {
    let run = finder(&[], b"(if low shut)\n(if low off)\n(seen low)\n(query off)\n(cost shut 50 1)\n(cost off 50 0)\n");
    let causes = "(cause (true shut))\n(cause (true off))\n";
    let due = format!("(verdict open)\n(rounds 14)\n(decided 18)\n(minimal 2 2)\n{causes}(cheapest 50)\n");
    assert_eq!(run, Run { out: due.into(), err: String::new(), status: 0 });
    let run = finder(&[], b"(seen a)\n(seen (not a))\n(query a)\n(cost a 7 7)\n");
    assert_eq!(run.out, b"(verdict unexplained)\n(rounds 2)\n(decided 2)\n(minimal 0 0)\n");
}

#[test]
fn several_files_stand_below_their_names() {
    let names = ["tests/marked/m01.case", "tests/marked/m04.case"];
    let due: String = names.iter().map(|name| format!("; {name}\n{}", answer(&bytes(name)).text)).collect();
    let run = finder(&names, b"");
    assert_eq!(run, Run { out: due.into_bytes(), err: String::new(), status: 0 });
    let refused = "tests/manual/refusal-05.case";
    assert_eq!(finder(&[names[0], refused, names[1]], b"").status, 1);
    let run = finder(&[names[0], "-", "--", names[1]], b"(query (then a a))");
    assert_eq!(run.status, 0);
    assert!(String::from_utf8_lossy(&run.out).contains("; standard input\n(verdict follows)\n"));
}

#[test]
fn a_file_that_cannot_be_read_is_a_fault_and_the_others_are_answered() {
    for (name, word) in [("nowhere.case", "No such file"), ("tests", "Is a directory")] {
        let run = finder(&[name], b"");
        assert_eq!((run.out.len(), run.status), (0, 2), "{name}");
        assert!(run.err.starts_with(&format!("finder: {name}: ")) && run.err.contains(word), "{}", run.err);
    }
    let run = finder(&["nowhere.case", "tests/manual/refusal-05.case", "tests/marked/m01.case"], b"");
    assert_eq!(run.status, 2);
    assert!(String::from_utf8_lossy(&run.out).ends_with(&answer(&bytes("tests/marked/m01.case")).text));
}

#[test]
fn a_report_that_cannot_be_written_is_a_fault() {
    for words in [&["tests/marked/m01.case"][..], &["--help"], &["--version"]] {
        let full = OpenOptions::new().write(true).open("/dev/full").expect("a device that is always full");
        let mut command = Command::new(env!("CARGO_BIN_EXE_finder"));
        command.current_dir(common::ROOT).args(words).stdin(Stdio::null()).stdout(full);
        let ended = command.output().expect("the command ends");
        assert_eq!(ended.status.code(), Some(2), "{words:?}");
        assert!(ended.stderr.starts_with(b"finder: standard output: "), "{words:?}");
    }
}

#[test]
fn endless_input_is_refused_with_2() {
    let run = finder(&["/dev/zero"], b"");
    assert_eq!((run.out.as_slice(), run.status), (&b"(refused 2 0)\n"[..], 1));
}

#[test]
fn options() {
    let help = finder(&["tests/marked/m01.case", "--help"], b"");
    let usage = String::from_utf8_lossy(&help.out).into_owned();
    assert!(usage.starts_with("usage: finder [FILE..]\n") && help.status == 0 && help.err.is_empty());
    let version = finder(&["--version"], b"");
    let due = format!("finder {}, library {}\n", env!("CARGO_PKG_VERSION"), causes::VERSION);
    assert_eq!(version, Run { out: due.into_bytes(), err: String::new(), status: 0 });
    for word in ["-x", "--files", "--helpme"] {
        let run = finder(&[word], b"(query a)");
        assert_eq!(run, Run { out: Vec::new(), err: format!("finder: no option {word}\n{usage}"), status: 2 });
    }
    assert_eq!(finder(&["--", "--help"], b"").status, 2);
}
