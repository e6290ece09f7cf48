//! Answers M4 of document 01 with prices: reads the case, asks its question, prints settings, rounds, decided atoms, the
//! cheapest explanation and the verdict, then the case written back, then the report. The exit status is 1 where an
//! answer is not that of documents 01 and 02.

use causes::{Case, Refusal, Verdict};
use std::process::ExitCode;

const FILE: &[u8] = b"(if low shut (not ab1))
(if low stopped (not ab2))
(false ab1)
(false ab2)
(seen low)
(query shut)
(cost shut 9000 50)
(cost stopped 4000 0)
";

const TEXT: &[u8] = b"(atom low)
(atom shut)
(atom ab1)
(atom stopped)
(atom ab2)
(if low shut(not ab1))
(if low stopped(not ab2))
(false ab1)
(false ab2)
(seen low)
(query shut)
(cost shut 13500 0)
(cost stopped 4000 0)
";

const REPORT: &[u8] = b"(verdict open)
(rounds 15)
(decided 36)
(minimal 2 2)
(cause (true shut))
(cause (true stopped))
(cheapest 4000)
";

/// Asks the case's question; whether the answer is list 1, 3; rounds 15; decided 36; setting 3 for 4000 cents; open.
fn question_answered(case: &Case) -> bool {
    let answer = case.question();
    let list: Vec<u64> = answer.explanations.iter().map(|explanation| explanation.setting).collect();
    println!("list: {list:?}\nrounds: {}\ndecided: {}", answer.rounds, answer.decided);
    if let Some(cheapest) = &answer.cheapest {
        println!("cheapest: {cheapest} for {}", answer.cost);
    }
    println!("verdict: {}", answer.verdict());
    let cheapest = answer.cheapest.map(|explanation| explanation.setting);
    answer.verdicts == [Verdict::Open]
        && (answer.rounds, answer.decided) == (15, 36)
        && (answer.cost, cheapest) == (4000, Some(3))
        && list == [1, 3]
}

/// Prints the case written back; whether it is the text of document 02.
fn case_written(case: &Case) -> Result<bool, Refusal> {
    let text = case.write()?;
    print!("{}", String::from_utf8_lossy(&text));
    Ok(text == TEXT)
}

/// Prints the file's report; whether it is that of documents 01 and 02.
fn report_written() -> Result<bool, Refusal> {
    let report = causes::report(FILE)?;
    print!("{}", String::from_utf8_lossy(&report));
    Ok(report == REPORT)
}

/// Reads the file, asks, writes and reports; whether all is as documents 01 and 02 say.
fn answered() -> Result<bool, Refusal> {
    let case = Case::read(FILE)?;
    Ok(question_answered(&case) && case_written(&case)? && report_written()?)
}

fn main() -> ExitCode {
    match answered() {
        Ok(true) => ExitCode::SUCCESS,
        Ok(false) => ExitCode::FAILURE,
        Err(refusal) => {
            println!("{refusal}");
            ExitCode::FAILURE
        }
    }
}
