//! The program `evaluator`: answers a file, checks a program, writes a generated file or a table of the manual.

use evaluator::case::Case;
use evaluator::load::{load_text, Load};
use evaluator::vectors::Vector;
use evaluator::{answer, check, file, layers_check, load_check, lookup_check, sample, tables, tidy_check, writing};
use std::io::{Read, Write};
use std::path::Path;
use std::process::ExitCode;
use std::time::Duration;

/// How the program is called.
const USAGE: &str = "evaluator answer < FILE
evaluator text < FILE
evaluator generate SEED ATOMS CLAUSES
evaluator operation NAME.args
evaluator check PROGRAM SECONDS FOLDER..
evaluator layers PROGRAM SECONDS FOLDER..
evaluator tidy PROGRAM SECONDS FOLDER..
evaluator compare PROGRAM SECONDS FOLDER..
evaluator load PROGRAM SECONDS FOLDER..
evaluator sample SEED
evaluator settings NAME.. < FILE
evaluator caps < FILE
evaluator limits";

/// Writes what `text` makes of the file on standard input.
fn answer_input(text: impl Fn(&[u8]) -> String) -> std::io::Result<()> {
    let mut bytes = Vec::new();
    std::io::stdin().read_to_end(&mut bytes)?;
    std::io::stdout().write_all(text(&bytes).as_bytes())
}

/// Writes what the operation in the file `path` should answer; whether that can be done.
fn operation(path: &str) -> bool {
    let vector = Vector::load(Path::new(path)).inspect_err(|e| eprintln!("{path}: {e}"));
    vector.is_ok_and(|v| std::io::stdout().write_all(v.answer().text().as_bytes()).is_ok())
}

/// Writes what the program `load` should write for three numbers; whether they are numbers and that can be done.
fn generate(seed: &str, atoms: &str, clauses: &str) -> bool {
    let (Ok(seed), Ok(atoms), Ok(clauses)) = (seed.parse(), atoms.parse(), clauses.parse()) else { return false };
    std::io::stdout().write_all(load_text(&Load { seed, atoms, clauses }).as_bytes()).is_ok()
}

/// Writes the rows that `table` makes of the case on standard input, which is lawful.
fn rows(table: impl Fn(Case) -> Vec<String>) -> bool {
    let mut bytes = Vec::new();
    let read = std::io::stdin().read_to_end(&mut bytes).is_ok();
    file::read(&bytes).is_ok_and(|case| read && written(&table(case)))
}

/// Writes `lines`; whether that can be done.
fn written(lines: &[String]) -> bool {
    std::io::stdout().write_all((lines.join("\n") + "\n").as_bytes()).is_ok()
}

/// Whether `program`, each run of which may take `seconds`, passes `driver` on what stands in `folders` and on what is
/// generated.
fn checked(driver: fn(&Path, &[&Path], Duration) -> bool, program: &str, seconds: &str, folders: &[&str]) -> bool {
    let folders: Vec<&Path> = folders.iter().map(Path::new).collect();
    seconds.parse().is_ok_and(|seconds| driver(Path::new(program), &folders, Duration::from_secs(seconds)))
}

fn main() -> ExitCode {
    let arguments: Vec<String> = std::env::args().skip(1).collect();
    let words: Vec<&str> = arguments.iter().map(String::as_str).collect();
    let done = match words.as_slice() {
        ["answer"] => answer_input(|bytes| answer::answer(bytes).text).is_ok(),
        ["text"] => answer_input(|bytes| writing::tidy_text(&writing::tidied(bytes))).is_ok(),
        ["generate", seed, atoms, clauses] => generate(seed, atoms, clauses),
        ["operation", path] => operation(path),
        ["check", program, seconds, folders @ ..] => checked(check::check, program, seconds, folders),
        ["layers", program, seconds, folders @ ..] => checked(layers_check::check, program, seconds, folders),
        ["tidy", program, seconds, folders @ ..] => checked(tidy_check::check, program, seconds, folders),
        ["compare", program, seconds, folders @ ..] => checked(lookup_check::check, program, seconds, folders),
        ["load", program, seconds, folders @ ..] => checked(load_check::check, program, seconds, folders),
        ["sample", seed] => seed.parse().is_ok_and(|s| std::io::stdout().write_all(&sample::sample(s).bytes).is_ok()),
        ["settings", shown @ ..] => rows(|case| tables::settings(case, shown)),
        ["caps"] => rows(tables::caps),
        ["limits"] => written(&tables::limits()),
        _ => {
            eprintln!("{USAGE}");
            false
        }
    };
    ExitCode::from(u8::from(!done))
}
