//! Stands in for the program `tablecheck`: reads the table file that its argument names, or else standard
//! input, and prints what docs/COMMANDS.md shows.

use std::io::Read;

fn main() -> std::io::Result<()> {
    let file = match std::env::args_os().nth(1) {
        Some(path) => std::fs::read(path)?,
        None => {
            let mut bytes = Vec::new();
            std::io::stdin().read_to_end(&mut bytes)?;
            bytes
        }
    };
    print!("{}", model::jobs::printed(&file));
    Ok(())
}
