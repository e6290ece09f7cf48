//! The bytes of a case file.

use causes::sizes::FILE_BYTES;
use std::fs::File;
use std::io::{self, Read};
use std::path::PathBuf;

/// Where a case file comes from.
pub enum Source {
    Standard,
    File(PathBuf),
}

impl Source {
    /// What it is called.
    pub fn name(&self) -> String {
        match self {
            Source::Standard => String::from("standard input"),
            Source::File(path) => path.display().to_string(),
        }
    }

    /// Its bytes, or of a longer one as many as are refused.
    pub fn bytes(&self) -> io::Result<Vec<u8>> {
        match self {
            Source::Standard => front(io::stdin().lock()),
            Source::File(path) => front(File::open(path)?),
        }
    }
}

/// The bytes of `reader` up to one more than a file may have.
fn front(reader: impl Read) -> io::Result<Vec<u8>> {
    let mut bytes = Vec::new();
    reader.take(FILE_BYTES as u64 + 1).read_to_end(&mut bytes)?;
    Ok(bytes)
}
