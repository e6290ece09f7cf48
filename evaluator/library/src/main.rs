//! Calls the exported functions of the library `embed` and compares every byte of lent memory with what is due.
//!
//! | file | holds |
//! |---|---|
//! | tests, outside | families and their counts, a call that touches memory outside what is lent |
//! | pages, lent, calls | memory between pages that can't be touched, lent memory, one call compared whole |
//! | held, sound, due | tables of a case and back, phrases that a case breaks, what the evaluator finds due |
//! | corpus, drawn | files, and cases that no file need give |
//! | reading, read_sizes | reading |
//! | settling, asking, layering, case_sizes | settling, the question, the layers |
//! | write_call, writing, write_sizes, write_rows | one call of writing, and its families |
//! | generate_call, generating | one call of generating, and its families |
//! | marked, chains, pricing | M1 to M10 with their tables, chains of atoms, and prices, worked out by hand |
//! | vectors | operations that stand in files with their answers |
//! | breaches, unsound, limits | each phrase of soundness broken alone, and each limit met |
//! | editions, second_edition, edition_lines | causes of two choices by hand and drawn, edition lines |
//! | bodies, long_bodies | lines around the limit of a body's literals, and records with longer bodies |
//! | fences | calls with the fence in front |
//! | reports, threads | the report, calls from several threads |
//! | wrappers, owned | the safe calls of the Rust module, and its case |
//! | from_c | the C headers, called from a program in C |
//! | constants, meanings, refusals | constants, what refusals mean by the manual, the module's refusals and verdicts |

mod asking;
mod bodies;
mod breaches;
mod calls;
mod case_sizes;
mod chains;
mod constants;
mod corpus;
mod drawn;
mod due;
mod edition_lines;
mod editions;
mod fences;
mod from_c;
mod generate_call;
mod generating;
mod held;
mod layering;
mod lent;
mod limits;
mod long_bodies;
mod marked;
mod meanings;
mod outside;
mod owned;
mod pages;
mod pricing;
mod read_sizes;
mod reading;
mod refusals;
mod reports;
mod second_edition;
mod settling;
mod sound;
mod tests;
mod threads;
mod unsound;
mod vectors;
mod wrappers;
mod write_call;
mod write_rows;
mod write_sizes;
mod writing;

use std::path::PathBuf;
use std::process::ExitCode;
use tests::Tests;

/// The repository if none is given; the program in C, c/caller.c, if none is given is built in its target/.
const ROOT: &str = concat!(env!("CARGO_MANIFEST_DIR"), "/../..");

fn main() -> ExitCode {
    let mut words = std::env::args_os().skip(1).map(PathBuf::from);
    let root = words.next().unwrap_or(PathBuf::from(ROOT));
    let caller = words.next().unwrap_or(root.join("target/embed-check/caller"));
    let folder = root.join("tests");
    let mut tests = Tests::default();
    reading::run(&mut tests, &folder);
    read_sizes::run(&mut tests);
    settling::run(&mut tests, &folder);
    marked::run(&mut tests, &folder);
    chains::run(&mut tests);
    pricing::run(&mut tests);
    asking::run(&mut tests, &folder);
    layering::run(&mut tests, &folder);
    case_sizes::run(&mut tests);
    writing::run(&mut tests, &folder);
    write_sizes::run(&mut tests);
    write_rows::run(&mut tests);
    generating::run(&mut tests);
    bodies::run(&mut tests);
    long_bodies::run(&mut tests);
    unsound::run(&mut tests);
    limits::run(&mut tests);
    editions::run(&mut tests);
    second_edition::run(&mut tests);
    edition_lines::run(&mut tests);
    reports::run(&mut tests, &folder);
    fences::run(&mut tests, &folder);
    vectors::run(&mut tests, &folder);
    wrappers::run(&mut tests, &folder);
    owned::run(&mut tests, &folder);
    constants::run(&mut tests, &root.join("crates/embed/rust"));
    refusals::run(&mut tests, &root);
    from_c::run(&mut tests, &root, &caller);
    threads::run(&mut tests);
    ExitCode::from(u8::from(!tests.close()))
}
