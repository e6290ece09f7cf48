//! Generated files for the operation `layers`: chains, diamonds, towers, shortcuts and scattered rules, in half of the
//! draws with one ring or two.

use crate::families::{constraint, literal};
use crate::file::{ATOMS, CAUSES};
use crate::layout::file;
use crate::names::names;
use crate::prices::cost_lines;
use crate::random::Random;

/// A rule over numbered atoms; the percent of negated literals in its body.
struct Rule {
    head: usize,
    body: Vec<usize>,
    negated: usize,
}

/// A generated file, and whether a ring was put in.
pub struct Shaped {
    pub bytes: Vec<u8>,
    pub has_ring: bool,
}

/// The bodies of the atom `at`, which is not the first, in rules of the kind `kind`: each names atoms before it, so
/// that no ring arises.
fn bodies(random: &mut Random, kind: usize, at: usize) -> Vec<Vec<usize>> {
    let before = at - 1;
    match (kind, at % 3) {
        (0, _) => vec![vec![before]],
        (1, 0) if random.chance(50) => vec![vec![before, before - 1]],
        (1, 0) => vec![vec![before - 1], vec![before]],
        (1, past) => vec![vec![at - past]],
        (2, _) => vec![vec![before]; usize::from(random.chance(85))],
        (3, _) => {
            let mut both = vec![vec![before], vec![random.below(at)]];
            random.shuffle(&mut both);
            both
        }
        _ => {
            let count = *random.pick(&[1, 1, 2, 3]);
            let body = |random: &mut Random| (0..random.between(1, 3)).map(|_| random.below(at)).collect();
            (0..count).map(|_| body(random)).collect()
        }
    }
}

/// Rules over `atoms` atoms without a ring: a chain, diamonds one upon the other, several towers, a chain with
/// shortcuts, or scattered ones.
fn layered(random: &mut Random, atoms: usize) -> Vec<Rule> {
    let kind = random.below(5);
    let negated = *random.pick(&[0, 0, 30, 100]);
    let mut rules = Vec::new();
    for head in 1..atoms {
        let all = bodies(random, kind, head);
        rules.extend(all.into_iter().map(|body| Rule { head, body, negated }));
    }
    rules
}

/// The rule that closes a ring among `rules`: an atom that is reached from another one, or is it, gets this one in a
/// body.
fn closing(random: &mut Random, rules: &[Rule], atoms: usize) -> Rule {
    let least = *random.pick(&[0, 0, atoms - 1]);
    let most = *random.pick(&[atoms, atoms, least + 3]);
    let top = random.between(least, most.min(atoms) - 1);
    let mut bottom = top;
    for _ in 0..*random.pick(&[0, 1, 1, 2, 5, ATOMS]) {
        let below: Vec<usize> = rules.iter().filter(|r| r.head == bottom).flat_map(|r| r.body.clone()).collect();
        if below.is_empty() {
            break;
        }
        bottom = *random.pick(&below);
    }
    let mut body = vec![top];
    if random.chance(30) {
        body.insert(random.below(2), random.below(atoms));
    }
    Rule { head: bottom, body, negated: *random.pick(&[0, 100]) }
}

/// The line of `rule`, a literal of which is repeated now and then, as it is or negated.
fn rule_line(random: &mut Random, rule: &Rule, names: &[String]) -> String {
    let mut body: Vec<String> = rule.body.iter().map(|a| literal(random, &names[*a], rule.negated)).collect();
    if random.chance(10) {
        let again = random.pick(&rule.body);
        body.push(literal(random, &names[*again], 50));
    }
    format!("(if {} {})", names[rule.head], body.join(" "))
}

/// Facts and assumptions: for the atoms without a rule but for at most 10, and for some of those with one.
fn plain_clauses(random: &mut Random, rules: &[Rule], names: &[String]) -> Vec<String> {
    let (mut heads, mut others): (Vec<usize>, Vec<usize>) =
        (0..names.len()).partition(|atom| rules.iter().any(|r| r.head == *atom));
    random.shuffle(&mut heads);
    random.shuffle(&mut others);
    let (of_heads, of_others) = (random.below(heads.len() / 4 + 1), random.below(others.len() + 1));
    let least = others.len().saturating_sub(CAUSES);
    let chosen = heads[..of_heads].iter().chain(&others[..of_others.max(least)]);
    chosen.map(|atom| format!("({} {})", random.pick(&["true", "false"]), names[*atom])).collect()
}

/// Lines that say nothing of dependence: constraints, readings, cost lines and a query, each naming atoms in ascending
/// order.
fn other_lines(random: &mut Random, names: &[String]) -> Vec<String> {
    let mut pair = || {
        let (first, second) = (random.below(names.len()), random.below(names.len()));
        (names[first.min(second)].clone(), names[first.max(second)].clone())
    };
    let [(a, b), (c, d), (e, f)] = [pair(), pair(), pair()];
    let mut lines = vec![format!("(query (then {a} {b}))")];
    if random.chance(50) {
        let body = format!("{c} {}", literal(random, &d, 30));
        lines.push(constraint(random, &body));
    }
    if random.chance(30) {
        lines.extend([format!("(seen {})", literal(random, &e, 30)), format!("(seen {f})")]);
    }
    lines.extend(cost_lines(random, names));
    lines
}

/// A drawn file for the operation `layers`.
pub fn shaped(random: &mut Random) -> Shaped {
    let (low, high) = *random.pick(&[(1, 4), (2, 6), (5, 12), (13, 54), (55, ATOMS)]);
    let atoms = random.between(low, high);
    let mut rules = layered(random, atoms);
    let rings = *random.pick(&[0, 0, 0, 1, 1, 2]);
    for _ in 0..rings {
        let rule = closing(random, &rules, atoms);
        rules.insert(random.below(rules.len() + 1), rule);
    }
    let mut names = names(random, atoms);
    if random.chance(50) {
        random.shuffle(&mut names);
    }
    let mut lines: Vec<String> = rules.iter().map(|rule| rule_line(random, rule, &names)).collect();
    lines.extend(plain_clauses(random, &rules, &names));
    lines.extend(other_lines(random, &names));
    match random.below(3) {
        0 => (),
        1 => lines.reverse(),
        _ => random.shuffle(&mut lines),
    }
    Shaped { bytes: file(random, &lines), has_ring: rings > 0 }
}
