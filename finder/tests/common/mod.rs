//! Runs of the command, and the files that it is tried on.

use std::io::Write;
use std::path::{Path, PathBuf};
use std::process::{Command, Stdio};

/// The repository.
pub const ROOT: &str = concat!(env!("CARGO_MANIFEST_DIR"), "/..");

/// What a run wrote and the status it ended with.
#[derive(Debug, PartialEq, Eq)]
pub struct Run {
    pub out: Vec<u8>,
    pub err: String,
    pub status: i32,
}

/// Runs the command with `words` in the repository, `input` on standard input.
pub fn finder(words: &[&str], input: &[u8]) -> Run {
    let mut command = Command::new(env!("CARGO_BIN_EXE_finder"));
    command.current_dir(ROOT).args(words);
    command.stdin(Stdio::piped()).stdout(Stdio::piped()).stderr(Stdio::piped());
    let mut running = command.spawn().expect("the command starts");
    // A run that takes no input ends before it is written.
    let _ = running.stdin.take().expect("a pipe").write_all(input);
    let ended = running.wait_with_output().expect("the command ends");
    Run {
        out: ended.stdout,
        err: String::from_utf8_lossy(&ended.stderr).into_owned(),
        status: ended.status.code().expect("a status"),
    }
}

/// The stored case files, by their names in the repository.
pub fn stored() -> Vec<String> {
    let folders = ["marked", "vectors", "manual", "edges", "sources", "requests"];
    let files = folders.iter().flat_map(|folder| case_files(&Path::new(ROOT).join("tests").join(folder)));
    let name = |path: PathBuf| path.strip_prefix(ROOT).expect("a file of the repository").display().to_string();
    files.map(name).collect()
}

/// The case files of `folder`.
fn case_files(folder: &Path) -> Vec<PathBuf> {
    evaluator::check::case_files(folder).expect("a folder of case files")
}

/// The bytes of the stored file `name`.
pub fn bytes(name: &str) -> Vec<u8> {
    std::fs::read(Path::new(ROOT).join(name)).expect("a stored file")
}
