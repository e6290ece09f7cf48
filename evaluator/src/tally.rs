//! What occurred among the generated files, by their bytes and the evaluator's answers.

use crate::answer::{Answer, LIST_SLOTS};
use crate::file::{LINE_BYTES, QUERIES};
use crate::verdict::VERDICTS;

/// The refusals that a file can meet.
const REFUSALS: [usize; 15] = [2, 3, 4, 5, 6, 7, 8, 9, 10, 11, 12, 16, 17, 20, 21];

/// Counts of answers by refusal number, by verdict, of several queries, of long lists, and of long comments in files
/// that are read, or before the line that is refused.
#[derive(Default)]
pub struct Tally {
    refusals: [usize; 22],
    verdicts: [usize; 4],
    several_queries: usize,
    most_queries: usize,
    several_verdicts: usize,
    several: usize,
    overflowing: usize,
    long_comments: usize,
    behind_long_comments: usize,
}

/// The first line of `file`, counted from 1, that is a comment longer than other lines may be.
fn long_comment(file: &[u8]) -> Option<usize> {
    let is_long = |line: &[u8]| line.first() == Some(&b';') && line.len() > LINE_BYTES;
    file.split(|b| *b == b'\n').position(is_long).map(|at| at + 1)
}

impl Tally {
    /// Counts `answer`, which `file` gets.
    pub fn count(&mut self, file: &[u8], answer: &Answer) {
        let comment = long_comment(file);
        match &answer.result {
            Err(refusal) => {
                self.refusals[refusal.number as usize] += 1;
                self.behind_long_comments += usize::from(comment.is_some_and(|line| line < refusal.line));
            }
            Ok((verdicts, found)) => {
                self.long_comments += usize::from(comment.is_some());
                for verdict in verdicts {
                    self.verdicts[verdict.number() as usize] += 1;
                }
                self.several_queries += usize::from(verdicts.len() > 1);
                self.most_queries += usize::from(verdicts.len() == QUERIES);
                self.several_verdicts += usize::from(verdicts.iter().any(|v| *v != verdicts[0]));
                self.several += usize::from(*found > 1);
                self.overflowing += usize::from(*found > LIST_SLOTS);
            }
        }
    }

    /// Each thing to be met, with its count.
    fn rows(&self) -> Vec<(String, usize)> {
        let refusals = REFUSALS.into_iter().map(|n| (format!("refusal {n}"), self.refusals[n]));
        let verdicts = VERDICTS.iter().zip(self.verdicts).map(|(v, n)| (format!("verdict {}", v.word()), n));
        let files = [
            ("several queries", self.several_queries),
            ("16 queries", self.most_queries),
            ("several verdicts", self.several_verdicts),
            ("m > 1", self.several),
            ("w < m", self.overflowing),
            ("long comments", self.long_comments),
            ("refusals behind a long comment", self.behind_long_comments),
        ];
        refusals.chain(verdicts).chain(files.map(|(what, n)| (String::from(what), n))).collect()
    }

    /// One line with every count.
    pub fn summary(&self) -> String {
        let rows: Vec<String> = self.rows().into_iter().map(|(what, n)| format!("{what}: {n}")).collect();
        rows.join(", ")
    }

    /// The things that never occurred.
    pub fn missing(&self) -> Vec<String> {
        self.rows().into_iter().filter(|(_, n)| *n == 0).map(|(what, _)| what).collect()
    }
}
