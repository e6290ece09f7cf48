//! The words on a refused file, whole.

mod common;

use causes::Refusal;
use common::{bytes, finder, stored};
use evaluator::cause::Edition;
use evaluator::file;
use evaluator::form::{form, Form, SPELLING};
use evaluator::tree::tree;

/// How the manual says that the refusal `number` is mended.
fn mend(number: u32) -> String {
    let manual = String::from_utf8(bytes("docs/MANUAL.md")).expect("a text");
    let section = manual.split("## ").find(|s| s.lines().next().is_some_and(|l| l.ends_with("The command `finder`")));
    let row = format!("| {number} | ");
    let found = section.and_then(|s| s.lines().find_map(|line| line.strip_prefix(&row)?.strip_suffix(" |")));
    String::from(found.unwrap_or_else(|| panic!("the manual has no mend for {number}")))
}

/// The causes of three choices and of two of a file with lawful lines, by the evaluator's forms.
fn causes_of(file: &[u8]) -> (Vec<String>, Vec<String>) {
    let mut names: Vec<String> = Vec::new();
    let mut heads: Vec<(String, bool)> = Vec::new();
    let mut edition = Edition::First;
    let text = String::from_utf8_lossy(file);
    for line in text.lines().filter(|line| !line.starts_with(';') && !line.trim().is_empty()) {
        let said = tree(line).and_then(|tree| form(&tree, &SPELLING)).expect("a lawful line");
        for name in said.names() {
            if !names.contains(name) {
                names.push(name.clone());
            }
        }
        match said {
            Form::Fact(name) | Form::Rule(name, _) => heads.push((name, false)),
            Form::Assumption(name) => heads.push((name, true)),
            Form::Edition(given) => edition = given,
            _ => (),
        }
    }
    let kinds = |name: &String| heads.iter().filter(|(head, _)| head == name).map(|(_, assumed)| *assumed).collect();
    let choices = |name: &String| match Vec::<bool>::as_slice(&kinds(name)) {
        [] => 3,
        kinds if edition == Edition::Second && !kinds.contains(&false) => 2,
        _ => 1,
    };
    let of = |count| names.iter().filter(|name| choices(name) == count).cloned().collect();
    (of(3), of(2))
}

/// What standard error should have for the refused file `name`.
fn words(name: &str, file: &[u8], due: file::Refusal) -> String {
    let refusal = Refusal::from_number(due.number, due.line as u64);
    let place = if due.line > 0 { format!("{name}:{}", due.line) } else { String::from(name) };
    let mut text = format!("finder: {place}: refused with {}: {}.\n", due.number, refusal.meaning());
    if due.line > 0 {
        let line = file.split(|b| *b == b'\n').nth(due.line - 1).expect("the line");
        let shown: String = line.iter().take(200).map(|b| seen(*b)).collect();
        text += &format!("  line: {shown}{}\n", if line.len() > 200 { " .." } else { "" });
    }
    if due.number == 12 {
        let (three, two) = causes_of(file);
        for (what, names) in [("causes", three), ("causes of two choices", two)] {
            if !names.is_empty() {
                text += &format!("  {} {what}: {}\n", names.len(), names.join(" "));
            }
        }
    }
    text + &format!("  mend: {}\n", mend(due.number))
}

/// A byte as it is shown.
fn seen(b: u8) -> String {
    match b {
        b'\t' => String::from("\\t"),
        b'\r' => String::from("\\r"),
        32..=126 => String::from(b as char),
        _ => format!("\\x{b:02x}"),
    }
}

#[test]
fn each_refusal_is_told_with_its_line_its_meaning_and_its_mend() {
    let mut met = [false; 22];
    let long = (String::from("long.case"), [b"(query a)\n".as_slice(), &b";\n".repeat(17_000)].concat());
    let files = stored().into_iter().map(|name| (name.clone(), bytes(&name))).chain([long]);
    for (name, file) in files {
        let Err(due) = file::read(&file) else { continue };
        let (run, name) = match name.as_str() {
            "long.case" => (finder(&[], &file), String::from("standard input")),
            _ => (finder(&[&name], b""), name),
        };
        assert_eq!(run.err, words(&name, &file, due), "{name}");
        assert_eq!(run.status, 1, "{name}");
        met[due.number as usize] = true;
    }
    let numbers: Vec<usize> = (0..met.len()).filter(|number| met[*number]).collect();
    assert_eq!(numbers, (2..=12).chain([16, 17, 20, 21]).collect::<Vec<usize>>(), "a file for each refusal");
}

#[test]
fn too_many_causes_are_listed_whatever_the_spaces() {
    let many: String = (0..9).map(|i| format!("( seen( not c{i} ) )\n")).collect();
    let file = format!(
        "; (true c1)\n(if if true(not false))\n  \n{many}(true true)\n(cost query 7 07)\n(query(then c3 query))\n"
    );
    assert_eq!(file::read(file.as_bytes()).map(|_| ()).map_err(|r| r.number), Err(12));
    let run = finder(&[], file.as_bytes());
    assert!(run.err.contains("  11 causes: false c0 c1 c2 c3 c4 c5 c6 c7 c8 query\n"), "{}", run.err);
    assert_eq!(causes_of(file.as_bytes()).0.len(), 11);
}

#[test]
fn causes_of_two_choices_are_listed_apart() {
    let three: String = (0..8).map(|i| format!("(atom t{i})\n")).collect();
    let assumed = "(false edition)\n(false w)\n( false w )\n(false x)\n(if x t0)\n(false y)\n(true y)\n(false z)\n";
    let file = format!("{three}{assumed}(atom v)\n(query w)\n");
    let second = format!("; (edition 1)\n{file}( edition  2 )\n");
    assert_eq!(file::read(second.as_bytes()).map(|_| ()).map_err(|r| r.number), Err(12));
    let run = finder(&[], second.as_bytes());
    let due = "  9 causes: t0 t1 t2 t3 t4 t5 t6 t7 v\n  3 causes of two choices: edition w z\n  mend: ";
    assert!(run.err.contains(due), "{}", run.err);
    let first = format!("{file}(edition 1)\n(atom u)\n(atom s)\n; (edition 2)\n");
    let run = finder(&[], first.as_bytes());
    assert!(run.err.contains("  11 causes: t0 t1 t2 t3 t4 t5 t6 t7 v u s\n  mend: "), "{}", run.err);
    let twofold: String = (0..16).map(|i| format!("(false w{i})\n")).collect();
    let run = finder(&[], format!("(edition 2)\n{twofold}(query w0)\n").as_bytes());
    assert!(run.err.contains(" settings.\n  16 causes of two choices: w0 "), "{}", run.err);
}

#[test]
fn bytes_that_do_not_show_are_written_out() {
    for (file, line) in [
        (&b"\xef\xbb\xbf(query a)\n"[..], "\\xef\\xbb\\xbf(query a)"),
        (b"(query\ta)\n", "(query\\ta)"),
        (b"(query a)\r\n", "(query a)\\r"),
        (b"(query a, b)\n", "(query a, b)"),
        (b"(query don't)\n", "(query don't)"),
    ] {
        let run = finder(&[], file);
        assert_eq!(run.out, b"(refused 4 1)\n");
        assert!(run.err.contains(&format!("\n  line: {line}\n")), "{}", run.err);
    }
}

#[test]
fn the_manual_s_common_mistakes_get_their_numbers() {
    let rows: [(&str, u32); 24] = [
        ("(query Low)", 4),
        ("(query\tlow)", 4),
        ("(query room_low)", 4),
        ("(query low),", 4),
        ("(query low)\r\n", 4),
        ("\u{feff}(query low)", 4),
        ("(query low) ; a remark", 4),
        ("(seen low high)\n(query low)", 5),
        ("(query low", 5),
        ("(if low)\n(query low)", 5),
        ("(query 2low)", 5),
        ("(if low\nshut)\n(query low)", 5),
        ("(if low (or shut stopped))\n(query low)", 5),
        ("(if (not low) shut)\n(query low)", 5),
        ("(cost low 40)\n(query low)", 5),
        ("(cost 40 low 0)\n(query low)", 5),
        ("(cost low 12345678 0)\n(query low)", 5),
        ("(edition 3)\n(query low)", 5),
        ("(edition two)\n(query low)", 5),
        ("(edition)\n(query low)", 5),
        ("(cost low 40 101)\n(query low)", 16),
        ("(if low a b c d e f g h i j (not k) (not l))\n(query low)", 20),
        ("(never low low low low low low low low low low low low)\n(query low)", 20),
        ("(avoid low (not low) low low low low low low low low low low)\n(query low)", 20),
    ];
    for (text, number) in rows {
        assert_eq!(file::read(text.as_bytes()).err().map(|r| (r.number, r.line)), Some((number, 1)), "{text}");
        assert_eq!(finder(&[], text.as_bytes()).out, format!("(refused {number} 1)\n").into_bytes(), "{text}");
    }
}
