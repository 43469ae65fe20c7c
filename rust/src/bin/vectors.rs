//! Calls the cases of the files given on the library and prints those that differ.

use dualrail::vectors::{Tally, Tested, IN_FORCE};
use dualrail::Library;
use std::path::Path;
use std::process::ExitCode;

fn main() -> ExitCode {
    let programs = Path::new(env!("CARGO_MANIFEST_DIR")).join("../crates");
    let tested = Tested { library: &Library, programs: &programs, in_force: IN_FORCE };
    let mut whole = Tally::default();
    for path in std::env::args_os().skip(1) {
        match std::fs::read(&path) {
            Ok(contents) => {
                let contents = String::from_utf8_lossy(&contents);
                let tally = tested.file(&contents, &mut |difference| println!("{difference}"));
                whole.cases += tally.cases;
                whole.differ += tally.differ;
            }
            Err(error) => {
                println!("{}: {error}\n", Path::new(&path).display());
                whole.differ += 1;
            }
        }
    }
    println!("{} cases, {} differ", whole.cases, whole.differ);
    match whole {
        Tally { cases: 1.., differ: 0 } => ExitCode::SUCCESS,
        _ => ExitCode::FAILURE,
    }
}
