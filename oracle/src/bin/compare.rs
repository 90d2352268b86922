//! The Rust beside the proved code, and of counts the documents beside it. Arguments: how many times the default; the programs `turns` and `generate_frame`; the
//! sample program, compiled from samples/run.c.
use oracle::ours::Ours;

fn main() {
    let mut words = std::env::args().skip(1);
    let more = words.next().map_or(1, |n| n.parse().expect("how many times the default"));
    let mut program = |default: &str| words.next().unwrap_or(default.to_string()).into();
    let turns = program("../crates/turns/out/turns");
    let generate_frame = program("../crates/generate_frame/out/generate_frame");
    let sample = program("../target/run");
    let ours = Ours { turns, generate_frame, sample };
    let counted = oracle::compare::compare_multi(&ours, more);
    oracle::compare::compare(&oracle::kapitsa::Rust, &ours, more, counted);
}
