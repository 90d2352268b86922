//! Makes calls of ours for `oracle/count`, which counts their instructions, and prints how many. Argument: what is called,
//! `islands`, `update` or `run` on the first of request 9's frames, or the name of a shape for its run.
use oracle::calls::*;
use oracle::frames;
use oracle::ours;
use oracle::scope;
use oracle::timed::{self, Decoded, OurTables};

/// The seeds 0 to 9.
const FRAMES: usize = 10;

/// The run of a file on cleared tables of the lengths that it needs.
fn run(file: &[u8]) {
    let frame = scope::read(file).unwrap();
    let lengths = run_lengths_of(&frame);
    let mut tables: RunTables = lent(&lengths);
    clear(&mut tables);
    assert_eq!(ours::run(file, &mut tables).refusal, 0);
}

/// Makes the calls: how many.
fn call(what: &str) -> usize {
    let shapes = frames::shapes();
    if let Some((_, frame)) = shapes.iter().find(|(name, _)| *name == what) {
        run(&scope::write(frame));
        return 1;
    }
    let mut tables = OurTables::lent();
    for file in &timed::files()[..FRAMES] {
        let decoded = Decoded::of(file);
        match what {
            "islands" => drop(tables.build(&decoded)),
            "update" => drop(tables.color(&decoded)),
            "run" => run(file),
            _ => panic!("no call {what:?}"),
        }
    }
    FRAMES
}

fn main() {
    println!("{}", call(&std::env::args().nth(1).expect("what is called")));
}
