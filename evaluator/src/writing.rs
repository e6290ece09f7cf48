//! Writing a case back: the text of a record and tables, and what is refused.
//!
//! From: document 02, [8], [9], [10].
//!
//! | name | meaning |
//! |---|---|
//! | `Way`, `WAY` | how a case is written; as the document says |
//! | `lines` | the lines of a case |
//! | `written` | the text of a record and tables, or the number of the refusal |
//! | `tidied` | what the program `tidy` should write for a file |

use crate::case::{Body, Case, Clause};
use crate::cause::Edition;
use crate::file::{read, read_by, Refusal, Rules, CENTS, FILE_BYTES, LINE_BYTES, LITERALS, NAME_BYTES};
use crate::formula::{Connective, Formula, Literal};
use crate::held::Held;
use std::collections::BTreeSet;

/// The lines of a case by what they say: atoms, edition, clauses, constraints, observations, queries, costs.
pub type Sections = [Vec<String>; 7];

/// How a case is written: the literals of a body, the observations, whether an edition has a line, whether a price has
/// one, the order of the sections, and the spaces of a line that has one between any two words and brackets but for
/// those before `)` and behind `(`.
pub struct Way {
    pub body: fn(&[Literal<usize>]) -> Vec<Literal<usize>>,
    pub observations: fn(&[Literal<usize>]) -> Vec<Literal<usize>>,
    pub has_edition: fn(Edition) -> bool,
    pub has_line: fn(u32) -> bool,
    pub order: fn(Sections) -> Sections,
    pub spaces: fn(&str) -> String,
}

/// The way of the document.
pub const WAY: Way = Way {
    body: plain_first,
    observations: plain_first,
    has_edition: |edition| edition == Edition::Second,
    has_line: |price| price > 0,
    order: |sections| sections,
    spaces: squeezed,
};

/// The different ones among `literals`, plain ones before negated ones, each in atom order.
fn plain_first(literals: &[Literal<usize>]) -> Vec<Literal<usize>> {
    let different: BTreeSet<(bool, usize)> = literals.iter().map(|l| (l.negated, l.atom)).collect();
    different.into_iter().map(|(negated, atom)| Literal { atom, negated }).collect()
}

/// `line` without the spaces that stand beside a bracket.
fn squeezed(line: &str) -> String {
    let is_bracket = |c: Option<char>| matches!(c, Some('(' | ')'));
    let letters: Vec<char> = line.chars().collect();
    let beside = |at: usize| is_bracket(letters.get(at + 1).copied()) || at > 0 && is_bracket(Some(letters[at - 1]));
    (0..letters.len()).filter(|at| letters[*at] != ' ' || !beside(*at)).map(|at| letters[at]).collect()
}

/// The text of `literals`, with atoms named by `names`.
fn body_text(names: &[String], literals: &[Literal<usize>]) -> String {
    let text = |l: &Literal<usize>| match l.negated {
        false => names[l.atom].clone(),
        true => format!("(not {})", names[l.atom]),
    };
    literals.iter().map(text).collect::<Vec<_>>().join(" ")
}

/// The text of `formula`, which has no constants, with atoms named by `names`.
fn formula_text(names: &[String], formula: &Formula<usize>) -> String {
    let word = |c: &Connective| match c {
        Connective::And => "and",
        Connective::Or => "or",
        Connective::Then => "then",
        Connective::Same => "same",
    };
    match formula {
        Formula::True | Formula::False => panic!("no word stands for a constant"),
        Formula::Atom(a) => names[*a].clone(),
        Formula::Not(f) => format!("(not {})", formula_text(names, f)),
        Formula::Two(c, f, g) => format!("({} {} {})", word(c), formula_text(names, f), formula_text(names, g)),
    }
}

/// The line of `clause` in the way `way`, with atoms named by `names`.
fn clause_line(way: &Way, names: &[String], clause: &Clause) -> String {
    let head = &names[clause.head];
    match &clause.body {
        Body::True => format!("(true {head})"),
        Body::False => format!("(false {head})"),
        Body::All(body) => format!("(if {head} {})", body_text(names, &(way.body)(body))),
    }
}

/// The lines of `case` in the way `way`.
pub fn lines(way: &Way, case: &Case) -> Vec<String> {
    let names = &case.names;
    let seen = (way.observations)(&case.observations);
    let costs = names.iter().zip(&case.prices).filter(|(_, price)| (way.has_line)(**price));
    let constraints = case.constraints.iter();
    let edition = Some(case.edition).filter(|edition| (way.has_edition)(*edition));
    let sections = [
        names.iter().map(|name| format!("(atom {name})")).collect(),
        edition.iter().map(|edition| format!("(edition {})", edition.number())).collect(),
        case.clauses.iter().map(|clause| clause_line(way, names, clause)).collect(),
        constraints.map(|c| format!("({} {})", c.kind.word(), body_text(names, &(way.body)(&c.body)))).collect(),
        seen.iter().map(|l| format!("(seen {})", body_text(names, std::slice::from_ref(l)))).collect(),
        case.queries.iter().map(|query| format!("(query {})", formula_text(names, query))).collect(),
        costs.map(|(name, price)| format!("(cost {name} {price} 0)")).collect(),
    ];
    (way.order)(sections).concat().iter().map(|line| (way.spaces)(line)).collect()
}

/// `lines` as a text, each with its LF.
pub fn joined(lines: &[String]) -> String {
    lines.iter().map(|line| format!("{line}\n")).collect()
}

/// The name in `row`, with zeros behind it alone; none if it is no name.
fn name(row: &[u8]) -> Option<String> {
    let end = row.iter().rposition(|b| *b != 0).map_or(0, |last| last + 1);
    let is_inside = |b: &u8| b.is_ascii_lowercase() || b.is_ascii_digit() || *b == b'-';
    let is_name = row[..end].iter().all(is_inside) && row[0].is_ascii_lowercase();
    is_name.then(|| String::from_utf8_lossy(&row[..end]).into_owned())
}

/// The case that `held`, of tables of their sizes, says with its own names; none if it is not sound, a used name entry
/// is no name or is there twice, or an atom has a price over the limit.
fn writable(held: &Held) -> Option<Case> {
    let case = held.case()?;
    let rows = held.names.chunks_exact(NAME_BYTES).take(case.names.len());
    let names: Vec<String> = rows.map(name).collect::<Option<_>>()?;
    let different: BTreeSet<&String> = names.iter().collect();
    let is_lawful = different.len() == names.len() && case.prices.iter().all(|price| u64::from(*price) <= CENTS);
    is_lawful.then_some(Case { names, ..case })
}

/// The refusal that the text of `case` gets when it is read: 20 in the line of the first body with a 12th literal, none
/// if there is no such body.
fn long_body(case: &Case) -> Option<Refusal> {
    let count = |literals: &[Literal<usize>]| plain_first(literals).len();
    let clauses = case.clauses.iter().map(|clause| match &clause.body {
        Body::True | Body::False => 0,
        Body::All(body) => count(body),
    });
    let mut bodies = clauses.chain(case.constraints.iter().map(|c| count(&c.body)));
    let before = case.names.len() + usize::from(case.edition == Edition::Second);
    bodies.position(|n| n > LITERALS).map(|at| Refusal { number: 20, line: before + at + 1 })
}

/// Holds `text`, that of `held`, which holds `case`, to the way back: read, it gives the same record and tables in their
/// used entries; written again, it is the same. With a body that has a 12th literal it does so where bodies have no
/// limit, and reading refuses it. Each of its spaces stands between two words.
///
/// Panics if it does not.
fn hold(held: &Held, case: &Case, text: &str) {
    let refusal = read(text.as_bytes()).err();
    assert!(refusal == long_body(case), "a written text is refused, or one with a long body is not");
    let again = read_by(&Rules::checked(20, |_, _| false), text.as_bytes());
    let again = again.unwrap_or_else(|_| panic!("a written text is refused where bodies have no limit"));
    assert!(Held::of(&again) == held.used(), "a written text is read as another case");
    assert!(joined(&lines(&WAY, &again)) == text, "a text that was read is written otherwise");
    let is_parting = |w: &[u8]| w[1] != b' ' || !w.iter().any(|b| b"()\n".contains(b)) && w[0] != b' ' && w[2] != b' ';
    assert!(text.as_bytes().windows(3).all(is_parting), "a space stands elsewhere than between two words");
}

/// The text of `held` for an output of `room` bytes, or the number of the refusal.
///
/// Panics if the text does not lead back.
pub fn written(held: &Held, room: usize) -> Result<String, u32> {
    if !held.is_full() {
        return Err(1);
    }
    let case = writable(held).ok_or(13u32)?;
    let lines = lines(&WAY, &case);
    let text = joined(&lines);
    if lines.iter().any(|line| line.len() > LINE_BYTES) || text.len() > FILE_BYTES {
        return Err(18);
    }
    hold(held, &case, &text);
    if text.len() > room {
        return Err(19);
    }
    Ok(text)
}

/// The case of the file `bytes` with its text, or the refusal of its reading or its writing.
pub fn tidied(bytes: &[u8]) -> Result<(Case, String), Refusal> {
    let case = read(bytes)?;
    let text = written(&Held::of(&case), FILE_BYTES).map_err(|number| Refusal { number, line: 0 })?;
    Ok((case, text))
}

/// What the program `tidy` should write where `own` is what the file gets.
pub fn tidy_text(own: &Result<(Case, String), Refusal>) -> String {
    match own {
        Ok((_, text)) => text.clone(),
        Err(refusal) => format!("(refused {} {})\n", refusal.number, refusal.line),
    }
}
