//! Prints the load of its three arguments, a seed and the numbers of atoms and clauses, then what its question
//! answers: the verdict, the rounds and the decided atoms.

use causes::sizes::LOAD_BYTES;

fn main() -> Result<(), Box<dyn std::error::Error>> {
    let words: Vec<String> = std::env::args().collect();
    let [_, seed, atoms, clauses] = words.as_slice() else {
        return Err("wanted: a seed, a number of atoms and a number of clauses".into());
    };
    let mut out = [0; LOAD_BYTES];
    let length = causes::generate(seed.parse()?, atoms.parse()?, clauses.parse()?, &mut out)?;
    let case = causes::Case::read(&out[..length])?;
    let answer = case.question();
    print!("{}", String::from_utf8_lossy(&out[..length]));
    println!("(verdict {})\n(rounds {})\n(decided {})", answer.verdict(), answer.rounds, answer.decided);
    Ok(())
}
