//! What the command is asked to do.

use crate::input::Source;
use std::ffi::OsString;

/// How the command is called.
pub const USAGE: &str = "\
usage: finder [FILE..]
Writes the report of each case file, of standard input where no FILE or `-` is given. Of several files each report
stands below a line `; FILE`. A refused file is also told on standard error, with its mend.
  --help      these lines
  --version   the versions of the command and of its library
  --          what follows are files
status: 0 answered, 1 a file is refused, 2 a file can't be read or the report not be written
";

/// What the command is asked for.
pub enum Asked {
    Reports(Vec<Source>),
    Help,
    Version,
    Unknown(String),
}

/// What `words` ask for; the first option decides.
pub fn asked(words: impl Iterator<Item = OsString>) -> Asked {
    let mut sources = Vec::new();
    let mut options = true;
    for word in words {
        match word.to_str() {
            Some("--help") if options => return Asked::Help,
            Some("--version") if options => return Asked::Version,
            Some("--") if options => options = false,
            Some("-") if options => sources.push(Source::Standard),
            Some(option) if options && option.starts_with('-') => return Asked::Unknown(String::from(option)),
            _ => sources.push(Source::File(word.into())),
        }
    }
    if sources.is_empty() {
        sources.push(Source::Standard);
    }
    Asked::Reports(sources)
}
