//! Prints the layers of a case file from standard input, or a ring of its rules, by name.

use causes::Layers;
use std::io::Read;

fn main() -> Result<(), Box<dyn std::error::Error>> {
    let mut file = Vec::new();
    std::io::stdin().read_to_end(&mut file)?;
    match causes::Case::read(&file)?.layers() {
        Layers::Numbers(numbers) => {
            println!("(layered)");
            numbers.iter().for_each(|layer| println!("(layer {} {})", layer.name, layer.number));
        }
        Layers::Ring(names) => println!("(ring {})", names.join(" ")),
    }
    Ok(())
}
