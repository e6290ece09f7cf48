//! Counts of files by what holds of them; each thing that is counted must occur.

/// What is counted: the words, and the number of files.
pub struct RowTally {
    rows: Vec<(&'static str, usize)>,
}

impl RowTally {
    /// No files yet, of what the words `words` say.
    pub fn new(words: impl IntoIterator<Item = &'static str>) -> RowTally {
        RowTally { rows: words.into_iter().map(|what| (what, 0)).collect() }
    }

    /// Counts a file for each row that `met` says holds of it.
    pub fn count(&mut self, met: &[bool]) {
        assert!(met.len() == self.rows.len(), "each row holds of a file or not");
        for ((_, count), met) in self.rows.iter_mut().zip(met) {
            *count += usize::from(*met);
        }
    }

    /// A line for each count, of what the word `of` says.
    pub fn lines(&self, of: &str) -> Vec<String> {
        self.rows.iter().map(|(what, count)| format!("{what}: {count} {of}")).collect()
    }

    /// What never occurred.
    pub fn missing(&self) -> Vec<&'static str> {
        self.rows.iter().filter(|(_, count)| *count == 0).map(|(what, _)| *what).collect()
    }
}
