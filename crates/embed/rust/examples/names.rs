//! Prints the verdicts and the minimal explanations of a case file from standard input, by name.

use std::io::Read;

fn main() -> Result<(), Box<dyn std::error::Error>> {
    let mut file = Vec::new();
    std::io::stdin().read_to_end(&mut file)?;
    let case = causes::Case::read(&file)?;
    let answer = case.question();
    for verdict in answer.verdicts {
        println!("(verdict {verdict})");
    }
    for explanation in answer.explanations {
        println!("{explanation}");
    }
    Ok(())
}
