//! A case that owns what reading gives, and the report of a file.

use crate::answer::{Answer, Cause, Explanation};
use crate::layers::{Layer, Layers};
use crate::lent::{self, Record, Settled, Tables};
use crate::sizes::{FILE_BYTES, MINIMAL, REPORT_BYTES};
use crate::Refusal;

/// A case: the record and the tables that were read from one file. It is sound.
///
/// ```
/// let case = causes::Case::read(b"(if low shut (not ab))\n(false ab)\n(seen low)\n(query shut)\n")?;
/// assert_eq!(case.names().collect::<Vec<&str>>(), ["low", "shut", "ab"]);
/// assert_eq!(case.causes(), [1]);
/// assert_eq!(case.settings(), 3);
/// let shut = case.settle(1)?;
/// assert_eq!((shut.value(0), shut.value(1), shut.value(2)), (Some(true), Some(true), Some(false)));
/// assert_eq!((shut.rounds, shut.decided), (2, 3));
/// assert_eq!(case.explanation(1)?.to_string(), "(cause (true shut))");
/// # Ok::<(), causes::Refusal>(())
/// ```
#[derive(Clone, Debug, PartialEq, Eq)]
pub struct Case {
    record: Record,
    tables: Box<Tables>,
}

impl Case {
    /// Reads a case file. Refuses with 2 to 12, 16, 17, 20 and 21.
    pub fn read(file: &[u8]) -> Result<Case, Refusal> {
        let mut tables = Box::new(Tables::new());
        let record = lent::read(file, &mut tables)?;
        Ok(Case { record, tables })
    }

    /// The record, for a call of [`lent`].
    pub fn record(&self) -> &Record {
        &self.record
    }

    /// The tables, for a call of [`lent`].
    pub fn tables(&self) -> &Tables {
        &self.tables
    }

    /// The name of the atom `atom`, none if the case has no such atom.
    pub fn name(&self, atom: usize) -> Option<&str> {
        let name = (atom < self.record.atoms as usize).then(|| self.tables.name(atom))??;
        Some(std::str::from_utf8(name).expect("a name that was read has letters, digits and dashes"))
    }

    /// The names, in atom order.
    pub fn names(&self) -> impl Iterator<Item = &str> {
        (0..self.record.atoms as usize).map_while(|atom| self.name(atom))
    }

    /// The price of the atom `atom` in cents, with its supplement, none if the case has no such atom.
    ///
    /// ```
    /// let case = causes::Case::read(b"(query shut)\n(query stopped)\n(cost shut 1050 33)\n")?;
    /// assert_eq!([case.price(0), case.price(1), case.price(2)], [Some(1397), Some(0), None]);
    /// # Ok::<(), causes::Refusal>(())
    /// ```
    pub fn price(&self, atom: usize) -> Option<u32> {
        (atom < self.record.atoms as usize).then(|| self.tables.prices[atom])
    }

    /// The edition, 1 or 2.
    pub fn edition(&self) -> u64 {
        self.record.edition
    }

    /// How many choices a setting has for the atom `atom`: 3 if it heads no clause, 2 if it heads assumptions alone and
    /// the edition is 2, and 1 if it is no cause.
    ///
    /// ```
    /// let case = causes::Case::read(b"(edition 2)\n(if low shut (not ab))\n(false ab)\n(query low)\n")?;
    /// assert_eq!([case.choices(0), case.choices(1), case.choices(2)], [1, 3, 2]);
    /// assert_eq!((case.causes(), case.settings()), (vec![1, 2], 6));
    /// # Ok::<(), causes::Refusal>(())
    /// ```
    pub fn choices(&self, atom: usize) -> u64 {
        let clauses = self.tables.clauses.chunks_exact(3).take(self.record.clauses as usize);
        let kinds: Vec<u64> = clauses.filter(|c| c[0] % 64 == atom as u64).map(|c| c[0] / 64).collect();
        match kinds.as_slice() {
            [] if atom < self.record.atoms as usize => 3,
            [_, ..] if self.record.edition == 2 && kinds.iter().all(|kind| *kind == 1) => 2,
            _ => 1,
        }
    }

    /// The causes, that is the atoms with more than one choice, in atom order.
    pub fn causes(&self) -> Vec<usize> {
        self.bases().into_iter().map(|(atom, _)| atom).collect()
    }

    /// The number of settings, the product of the choices of the causes.
    pub fn settings(&self) -> u64 {
        self.bases().into_iter().map(|(_, choices)| choices).product()
    }

    /// The causes in atom order, each with its choices: a setting is a number in this mixed base, lowest digit first.
    fn bases(&self) -> Vec<(usize, u64)> {
        let choices = (0..self.record.atoms as usize).map(|atom| (atom, self.choices(atom)));
        choices.filter(|(_, choices)| *choices > 1).collect()
    }

    /// Settles the setting `setting`. Refuses with 14 one that the case doesn't have.
    pub fn settle(&self, setting: u64) -> Result<Settled, Refusal> {
        lent::settle(&self.record, &self.tables, setting)
    }

    /// Answers the question, with a verdict for each query, all minimal explanations and the cheapest of them.
    ///
    /// ```
    /// let case = causes::Case::read(b"(if low shut)\n(if low off)\n(seen low)\n(query off)\n(cost shut 900 50)\n")?;
    /// let answer = case.question();
    /// assert_eq!(answer.cost, 0);
    /// assert_eq!(answer.cheapest.map(|explanation| explanation.to_string()).as_deref(), Some("(cause (true off))"));
    /// # Ok::<(), causes::Refusal>(())
    /// ```
    pub fn question(&self) -> Answer<'_> {
        let mut list = vec![0; MINIMAL];
        let mut work = vec![0; self.settings() as usize];
        let answer = lent::question(&self.record, &self.tables, &mut list, &mut work)
            .expect("a case that was read is sound, and the work area has a byte for each setting");
        let bases = self.bases();
        let listed = list[..answer.listed].iter();
        Answer {
            verdicts: answer.verdicts().to_vec(),
            rounds: answer.rounds,
            decided: answer.decided,
            explanations: listed.map(|setting| self.named(&bases, u64::from(*setting))).collect(),
            cost: answer.cost,
            cheapest: (answer.minimal > 0).then(|| self.named(&bases, answer.cheapest)),
        }
    }

    /// The least number of each atom, or a ring of rules where there are no numbers.
    ///
    /// ```
    /// use causes::{Case, Layer, Layers};
    ///
    /// let case = Case::read(b"(if low shut (not ab))\n(false ab)\n(query shut)\n")?;
    /// let numbers = [("low", 1), ("shut", 0), ("ab", 0)].map(|(name, number)| Layer { name, number });
    /// assert_eq!(case.layers(), Layers::Numbers(numbers.to_vec()));
    /// let case = Case::read(b"(if low low)\n(query low)\n")?;
    /// assert_eq!(case.layers(), Layers::Ring(vec!["low"]));
    /// # Ok::<(), causes::Refusal>(())
    /// ```
    pub fn layers(&self) -> Layers<'_> {
        let layers = lent::layers(&self.record, &self.tables).expect("a case that was read is sound");
        match layers.numbers() {
            Some(numbers) => {
                let layer = |(name, number): (_, &u64)| Layer { name, number: *number };
                Layers::Numbers(self.names().zip(numbers).map(layer).collect())
            }
            None => {
                let name = |atom: &u64| self.name(*atom as usize).expect("a ring has atoms of the case");
                Layers::Ring(layers.ring().unwrap_or_default().iter().map(name).collect())
            }
        }
    }

    /// The case written back: a file that reads as the same case, with a line `(atom N)` for each atom in front, and in
    /// edition 2 `(edition 2)` behind these. No body is too long to be read again, for a case that was read has at
    /// most 11 literals in each. Refuses with 18 a case with a line that would be over 200 bytes, or with a text over
    /// 32,768.
    ///
    /// ```
    /// let case = causes::Case::read(b"(if low (not ab) shut)\n(query shut)\n")?;
    /// let text = "(atom low)\n(atom ab)\n(atom shut)\n(if low shut(not ab))\n(query shut)\n";
    /// assert_eq!(case.write()?, text.as_bytes());
    /// # Ok::<(), causes::Refusal>(())
    /// ```
    pub fn write(&self) -> Result<Vec<u8>, Refusal> {
        let mut out = vec![0; FILE_BYTES];
        let length = lent::write(&self.record, &self.tables, &mut out)?;
        out.truncate(length);
        Ok(out)
    }

    /// What the setting `setting` adds, by name. Refuses with 14 one that the case doesn't have.
    pub fn explanation(&self, setting: u64) -> Result<Explanation<'_>, Refusal> {
        if setting < self.settings() {
            Ok(self.named(&self.bases(), setting))
        } else {
            Err(Refusal::NoSetting)
        }
    }

    /// What `setting` adds for the causes with their `bases`.
    fn named(&self, bases: &[(usize, u64)], setting: u64) -> Explanation<'_> {
        let mut rest = setting;
        let mut added = Vec::new();
        for (atom, choices) in bases {
            let digit = rest % choices;
            rest /= choices;
            if digit > 0 {
                added
                    .push(Cause { name: self.name(*atom).expect("a cause is an atom of the case"), value: digit == 1 });
            }
        }
        Explanation { setting, causes: added }
    }
}

/// The report of a case file: the answer that the program `causes` writes. Refuses as reading does.
///
/// ```
/// let report = causes::report(b"(query a)\n")?;
/// assert_eq!(report, b"(verdict open)\n(rounds 2)\n(decided 2)\n(minimal 1 1)\n(cause)\n(cheapest 0)\n");
/// # Ok::<(), causes::Refusal>(())
/// ```
pub fn report(file: &[u8]) -> Result<Vec<u8>, Refusal> {
    Case::read(file)?;
    Ok(text(file))
}

/// The text that the program `causes` writes for a file: its report, or `(refused number line)`.
///
/// ```
/// assert_eq!(causes::text(b""), b"(refused 11 0)\n");
/// ```
pub fn text(file: &[u8]) -> Vec<u8> {
    let mut out = vec![0; REPORT_BYTES];
    let length = lent::report(file, &mut out).expect("the output has room for every report");
    out.truncate(length);
    out
}
