//! Makes the cases that are kept with the program `element_trial`: `element_vectors stored FOLDER` writes what the program
//! is given to FOLDER/stdin and what is expected for that to FOLDER/stdout.

use reference::element_cases::{input, output};
use reference::write_case;

fn main() {
    let words: Vec<String> = std::env::args().skip(1).collect();
    match &words[..] {
        [kind, folder] if kind == "stored" => write_case(folder, input(), output()),
        _ => {
            eprintln!("usage: element_vectors stored FOLDER");
            std::process::exit(2);
        }
    }
}
