//! The command `finder`: writes the reports of case files, and says on standard error why a file is refused and how to
//! mend it. The reports are those of the proved library.
//!
//! | file | holds |
//! |---|---|
//! | arguments | what the command is asked to do |
//! | input | the bytes of a file or of standard input |
//! | refusal | the words on a refused file |
//! | mend | how to mend each refusal |
//! | names | the causes of a file that has too many settings |

mod arguments;
mod input;
mod mend;
mod names;
mod refusal;

use arguments::{Asked, USAGE};
use input::Source;
use std::io::{self, Write};
use std::process::ExitCode;

/// How a file ended, the worst last; its number is the exit status.
#[derive(Clone, Copy, PartialEq, Eq, PartialOrd, Ord)]
enum End {
    Answered = 0,
    Refused = 1,
    Fault = 2,
}

/// Writes `text` to standard output, whole.
fn put(text: &[u8]) -> io::Result<()> {
    let mut out = io::stdout().lock();
    out.write_all(text)?;
    out.flush()
}

/// Writes the report of `source`, below its name where `named`, and the words on its refusal.
fn report(source: &Source, named: bool) -> End {
    let file = match source.bytes() {
        Ok(file) => file,
        Err(fault) => return failed(&source.name(), &fault),
    };
    let heading = if named { format!("; {}\n", source.name()) } else { String::new() };
    if let Err(fault) = put(&[heading.as_bytes(), &causes::text(&file)].concat()) {
        return failed("standard output", &fault);
    }
    match causes::Case::read(&file) {
        Ok(_) => End::Answered,
        Err(refusal) => {
            eprint!("{}", refusal::words(&source.name(), &file, refusal));
            End::Refused
        }
    }
}

/// Says that the system failed at `what`.
fn failed(what: &str, fault: &io::Error) -> End {
    eprintln!("finder: {what}: {fault}");
    End::Fault
}

/// Writes `text` and ends well if that could be done.
fn told(text: &str) -> End {
    put(text.as_bytes()).map_or_else(|fault| failed("standard output", &fault), |()| End::Answered)
}

fn main() -> ExitCode {
    let end = match arguments::asked(std::env::args_os().skip(1)) {
        Asked::Reports(sources) => {
            let named = sources.len() > 1;
            sources.iter().map(|source| report(source, named)).max().unwrap_or(End::Answered)
        }
        Asked::Help => told(USAGE),
        Asked::Version => told(&format!("finder {}, library {}\n", env!("CARGO_PKG_VERSION"), causes::VERSION)),
        Asked::Unknown(option) => {
            eprint!("finder: no option {option}\n{USAGE}");
            End::Fault
        }
    };
    ExitCode::from(end as u8)
}
