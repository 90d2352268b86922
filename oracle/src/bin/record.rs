//! Writes the lists that the programs `replay` and `replay_frames` replay, and what they must print, below the folder that is
//! the argument.
use oracle::record;
use std::path::PathBuf;

fn main() {
    let crates = PathBuf::from(std::env::args().nth(1).expect("the folder crates"));
    for (name, (list, print)) in [("replay", record::calls(500, 500)), ("replay_frames", record::runs(2200))] {
        std::fs::write(crates.join(name).join("stdin"), &list).unwrap();
        std::fs::write(crates.join(name).join("stdout"), &print).unwrap();
        println!("{name}: {} bytes\n{print}", list.len());
    }
}
