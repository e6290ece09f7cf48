//! The form that a tree of words is.
//!
//! From: document 01, The file; document 02, [5], [7] to [10].

use crate::cause::{Edition, EDITIONS};
use crate::constraint::Kind;
use crate::formula::{Connective, Formula, Literal};
use crate::tree::Tree;

/// The most digits of a price or a supplement.
pub const DIGITS: usize = 7;

/// The number that a word is, none if it is no number.
pub type Number = fn(&str) -> Option<u64>;

/// The number that `word` is: one to seven digits.
pub fn decimal(word: &str) -> Option<u64> {
    let is_number = (1..=DIGITS).contains(&word.len()) && word.bytes().all(|b| b.is_ascii_digit());
    word.parse().ok().filter(|_| is_number)
}

/// The edition that `word` is: its one digit.
pub fn edition(word: &str) -> Option<Edition> {
    EDITIONS.into_iter().find(|edition| edition.number().to_string() == word)
}

/// How the words of a form that are no names are spelled: numbers and editions.
#[derive(Clone, Copy)]
pub struct Spelling {
    pub number: Number,
    pub edition: fn(&str) -> Option<Edition>,
}

/// The spelling of the documents.
pub const SPELLING: Spelling = Spelling { number: decimal, edition };

/// What a line says, with atoms by their names; of a cost line the price in cents and the supplement in per cent.
pub enum Form {
    Atom(String),
    Fact(String),
    Assumption(String),
    Rule(String, Vec<Literal<String>>),
    Constraint(Kind, Vec<Literal<String>>),
    Seen(Literal<String>),
    Query(Formula<String>),
    Cost(String, u64, u64),
    Edition(Edition),
}

/// The form's word of `tree` and the trees behind it.
fn parts(tree: &Tree) -> Option<(&str, &[Tree])> {
    match tree {
        Tree::List(trees) => match trees.as_slice() {
            [Tree::Word(word), rest @ ..] => Some((word, rest)),
            _ => None,
        },
        Tree::Word(_) => None,
    }
}

/// The name that `tree` is, of any length.
fn name(tree: &Tree) -> Option<String> {
    match tree {
        Tree::Word(word) if word.starts_with(|c: char| c.is_ascii_lowercase()) => Some(word.clone()),
        _ => None,
    }
}

/// What `spelled` makes of the word that `tree` is.
fn spelled<T>(tree: &Tree, spelled: fn(&str) -> Option<T>) -> Option<T> {
    match tree {
        Tree::Word(word) => spelled(word),
        Tree::List(_) => None,
    }
}

/// The literal that `tree` is.
fn literal(tree: &Tree) -> Option<Literal<String>> {
    match parts(tree) {
        None => Some(Literal { atom: name(tree)?, negated: false }),
        Some(("not", [atom])) => Some(Literal { atom: name(atom)?, negated: true }),
        Some(_) => None,
    }
}

/// The literals that `trees` are, at least one.
fn literals(trees: &[Tree]) -> Option<Vec<Literal<String>>> {
    if trees.is_empty() {
        return None;
    }
    trees.iter().map(literal).collect()
}

/// The formula that `tree` is, of any depth.
fn formula(tree: &Tree) -> Option<Formula<String>> {
    let connective = match parts(tree) {
        None => return Some(Formula::Atom(name(tree)?)),
        Some(("not", [f])) => return Some(Formula::Not(Box::new(formula(f)?))),
        Some(("and", _)) => Connective::And,
        Some(("or", _)) => Connective::Or,
        Some(("then", _)) => Connective::Then,
        Some(("same", _)) => Connective::Same,
        Some(_) => return None,
    };
    match parts(tree) {
        Some((_, [f, g])) => Some(Formula::two(connective, formula(f)?, formula(g)?)),
        _ => None,
    }
}

/// The form that `tree` is, with length of names and depth left aside, and with numbers and editions by `spelling`.
pub fn form(tree: &Tree, spelling: &Spelling) -> Option<Form> {
    let number = |tree| spelled(tree, spelling.number);
    match parts(tree)? {
        ("atom", [n]) => Some(Form::Atom(name(n)?)),
        ("true", [n]) => Some(Form::Fact(name(n)?)),
        ("false", [n]) => Some(Form::Assumption(name(n)?)),
        ("if", [n, body @ ..]) => Some(Form::Rule(name(n)?, literals(body)?)),
        ("never", body) => Some(Form::Constraint(Kind::Never, literals(body)?)),
        ("avoid", body) => Some(Form::Constraint(Kind::Avoid, literals(body)?)),
        ("seen", [l]) => Some(Form::Seen(literal(l)?)),
        ("query", [f]) => Some(Form::Query(formula(f)?)),
        ("cost", [n, p, s]) => Some(Form::Cost(name(n)?, number(p)?, number(s)?)),
        ("edition", [e]) => Some(Form::Edition(spelled(e, spelling.edition)?)),
        _ => None,
    }
}

impl Form {
    /// The names of this form in the order of the line, with repeats.
    pub fn names(&self) -> Vec<&String> {
        match self {
            Form::Atom(n) | Form::Fact(n) | Form::Assumption(n) | Form::Cost(n, ..) => vec![n],
            Form::Rule(n, body) => std::iter::once(n).chain(body.iter().map(|l| &l.atom)).collect(),
            Form::Constraint(_, body) => body.iter().map(|l| &l.atom).collect(),
            Form::Seen(l) => vec![&l.atom],
            Form::Query(f) => f.atoms(),
            Form::Edition(_) => vec![],
        }
    }

    /// The literals of this form's body as they are written, none if it has no body.
    pub fn body(&self) -> &[Literal<String>] {
        match self {
            Form::Rule(_, body) | Form::Constraint(_, body) => body,
            _ => &[],
        }
    }

    /// The depth of this form's formula, 0 if it has none.
    pub fn depth(&self) -> usize {
        match self {
            Form::Query(f) => f.depth(),
            _ => 0,
        }
    }
}
