//! Ours beside the Rust, in one process, on request 9's frames (src/timed.rs). Each frame is measured several times by turns;
//! tables are cleared by each side inside the measurement, and what both sides found is compared outside it. The plan is
//! measured with a cold allocator, at the start of the process, and with a warm one, where what the Rust allocates costs it
//! less; the rest with a warm one: islands alone, also of chains and stars, the run, also of each shape that strains a limit,
//! and our generator at the longest frame. Exits with 1 if a plan ratio is above request 9's bound.
use oracle::bench::{RustFrame, RustIslands};
use oracle::calls::*;
use oracle::frames;
use oracle::ours;
use oracle::scope;
use oracle::timed::{self, Decoded, OurTables, SEEDS, SIZES};
use std::fmt::Debug;
use std::hint::black_box;
use std::process::ExitCode;
use std::time::Instant;

const TURNS: usize = 7;

/// Request 9: at most twice the Rust's time.
const MOST_PLAN_RATIO: f64 = 2.0;

// ---- measuring

/// The microseconds that something takes, and what it answers.
fn microseconds<T>(job: impl FnOnce() -> T) -> (f64, T) {
    let start = Instant::now();
    let answer = black_box(job());
    (start.elapsed().as_secs_f64() * 1e6, answer)
}

/// The microseconds of our side and of the Rust.
type Times = [f64; 2];

/// For each seed the times of the first turn, the least times of all turns, and what both sides found.
struct Measured<T> {
    first: Vec<Times>,
    least: Vec<Times>,
    found: Vec<T>,
}

/// Measures both sides by turns. In each turn they must find the same.
fn measure<T: Debug + PartialEq>(
    turns: usize,
    mut ours: impl FnMut(usize) -> T,
    mut rust: impl FnMut(usize) -> T,
) -> Measured<T> {
    let seeds = SEEDS as usize;
    let mut measured = Measured { first: Vec::new(), least: vec![[f64::MAX; 2]; seeds], found: Vec::new() };
    for turn in 0..turns {
        for seed in 0..seeds {
            let (our_time, our_find) = microseconds(|| ours(seed));
            let (rust_time, rust_find) = microseconds(|| rust(seed));
            assert_eq!(our_find, rust_find, "ours and the Rust differ on seed {seed}");
            let least = &mut measured.least[seed];
            *least = [least[0].min(our_time), least[1].min(rust_time)];
            if turn == 0 {
                measured.first.push([our_time, rust_time]);
                measured.found.push(our_find);
            }
        }
    }
    measured
}

/// The least times of all turns of one frame; in each turn both sides must find the same.
fn least<T: Debug + PartialEq>(
    name: &str,
    turns: usize,
    mut ours: impl FnMut() -> T,
    mut rust: impl FnMut() -> T,
) -> Times {
    let mut least = [f64::MAX; 2];
    for _ in 0..turns {
        let (our_time, our_find) = microseconds(&mut ours);
        let (rust_time, rust_find) = microseconds(&mut rust);
        assert_eq!(our_find, rust_find, "ours and the Rust differ on {name}");
        least = [least[0].min(our_time), least[1].min(rust_time)];
    }
    least
}

/// The median of figures, one for each seed.
fn median(figures: impl Iterator<Item = f64>) -> f64 {
    let mut figures: Vec<f64> = figures.collect();
    figures.sort_by(f64::total_cmp);
    let half = figures.len() / 2;
    (figures[half - 1] + figures[half]) / 2.0
}

fn medians(times: &[Times]) -> Times {
    [0, 1].map(|side| median(times.iter().map(|t| t[side])))
}

/// Prints both sides' times and answers their ratio.
fn told(what: &str, [ours, rust]: Times) -> f64 {
    let ratio = ours / rust;
    println!("{what}: ours {ours:.1} us, the Rust {rust:.1} us, ratio {ratio:.2}");
    ratio
}

// ---- the plan

/// Prints the medians, their ratio and the median of the frames' ratios; answers the greater of the two.
fn told_plan(what: &str, times: &[Times]) -> f64 {
    let [ours, rust] = medians(times);
    let ratio = ours / rust;
    let of_ratios = median(times.iter().map(|[ours, rust]| ours / rust));
    println!("{what}: ours {ours:.1} us, the Rust {rust:.1} us, ratio {ratio:.2}, median of the ratios {of_ratios:.2}");
    ratio.max(of_ratios)
}

/// How many times the process had to be given a page, on Linux.
fn page_faults() -> Option<f64> {
    let stat = std::fs::read_to_string("/proc/self/stat").ok()?;
    // the fields after the process's name, which stands in parentheses
    stat.rsplit(')').next()?.split_whitespace().nth(7)?.parse().ok()
}

/// Islands, then all constraints as one list on a fresh plan. Answers the greatest of the ratios.
fn plan(allocator: &str, turns: usize, frames: &[Decoded]) -> f64 {
    let mut layout = RustIslands::default();
    let mut tables = OurTables::lent();
    let before = page_faults();
    let measured = measure(turns, |i| tables.plan(&frames[i]), |i| layout.plan(&frames[i].rust));
    let faults = page_faults().zip(before).map(|(after, before)| (after - before) / (turns * frames.len()) as f64);
    timed::check_found(&measured.found);
    let least = told_plan(&format!("plan, {allocator} allocator, least times"), &measured.least);
    let first = told_plan(&format!("plan, {allocator} allocator, first times"), &measured.first);
    if let Some(faults) = faults {
        println!("plan, {allocator} allocator: {faults:.1} page faults for a frame");
    }
    least.max(first)
}

/// From here on the allocator keeps what a plan frees. At first glibc gives freed memory at the heap's end back to the system
/// from 128 KiB on, so that each plan of the Rust has to be given most of its pages anew; once a larger block that was mapped
/// by itself is freed, only from twice that block on.
fn warm_the_allocator() {
    drop(black_box(vec![1u8; 1 << 24]));
}

/// Both sides have found the same island for each body and each manifold.
fn same_labels(name: &str, tables: &IslandTables, [bodies, manifolds]: [Vec<u16>; 2]) {
    assert!(tables.bodies == bodies, "the islands of the bodies of {name} differ");
    assert!(tables.manifolds == manifolds, "the islands of the manifolds of {name} differ");
}

/// They find the same islands in each of request 9's frames.
fn same_islands(frames: &[Decoded]) {
    let mut layout = RustIslands::default();
    let mut tables = OurTables::lent();
    for (seed, decoded) in frames.iter().enumerate() {
        assert_eq!(tables.build(decoded), layout.build(&decoded.rust));
        same_labels(&format!("seed {seed}"), &tables.islands, layout.labels(&decoded.rust));
    }
}

// ---- the rest

/// Islands alone.
fn islands(turns: usize, frames: &[Decoded]) {
    let mut layout = RustIslands::default();
    let mut tables = OurTables::lent();
    let measured = measure(turns, |i| tables.build(&frames[i]), |i| layout.build(&frames[i].rust));
    told("islands", medians(&measured.least));
}

/// Islands alone of chains and stars of 4,096 dynamic bodies, for request 7: the least time of each side.
fn chains_and_stars(turns: usize) {
    let kept = ["a chain", "a chain, last link first", "a star on a dynamic body", "a star on the highest body"];
    let mut layout = RustIslands::default();
    for (name, frame) in frames::shapes().into_iter().filter(|(name, _)| kept.contains(name)) {
        let rust = RustFrame::of(&frame);
        let mut tables = lent(&island_lengths(frame.types.len(), frame.manifold_count(), frame.joint_count()));
        let times = least(name, turns, || timed::islands(&frame, &mut tables), || layout.build(&rust));
        same_labels(name, &tables, layout.labels(&rust));
        told(&format!("islands of {name}"), times);
    }
}

/// Clears all tables and runs a file: how many turns and takes.
fn our_run(file: &[u8], tables: &mut RunTables) -> (usize, usize) {
    clear(tables);
    let report = ours::run(file, tables);
    assert_eq!(report.refusal, 0);
    (report.turns, report.takes)
}

/// The whole run of a file.
fn run(turns: usize, files: &[Vec<u8>]) -> f64 {
    let [b, m, j] = SIZES;
    let mut layout = RustIslands::default();
    let mut turn_table = vec![0; 3 * (m + j)];
    let mut tables: RunTables = lent(&run_lengths(b, m, j, false));
    let ours = |i: usize| our_run(&files[i], &mut tables);
    let measured = measure(turns, ours, |i| layout.run(&files[i], &mut turn_table));
    told("run", medians(&measured.least))
}

/// The run of each shape that strains a limit: the least time of each side. With no bodies there would be nothing but the
/// clearing to measure.
fn shapes(turns: usize) {
    let mut layout = RustIslands::default();
    for (name, frame) in frames::shapes().into_iter().filter(|(_, frame)| !frame.types.is_empty()) {
        let (m, j) = (frame.manifold_count(), frame.joint_count());
        let file = scope::write(&frame);
        let mut turn_table = vec![0; 3 * (m + j)];
        let mut tables: RunTables = lent(&run_lengths(frame.types.len(), m, j, false));
        let ours = || our_run(&file, &mut tables);
        let times = least(name, turns, ours, || layout.run(&file, &mut turn_table));
        told(&format!("run of {name}"), times);
    }
}

/// Our generator at the longest frame: the least and the median of the seeds' least times.
fn generate(turns: usize) {
    let mut bytes = vec![0; PAIR_FILE_BYTES];
    let mut least = vec![f64::MAX; SEEDS as usize];
    for _ in 0..turns {
        for (seed, least) in (0..SEEDS).zip(&mut least) {
            let (time, answer) = microseconds(|| ours::generate(seed, [4096; 3], black_box(&mut bytes)));
            assert_eq!(answer, (0, PAIR_FILE_BYTES));
            *least = least.min(time);
        }
    }
    let fastest = least.iter().copied().fold(f64::MAX, f64::min);
    let median = median(least.into_iter());
    println!("generate of the longest frame: least {fastest:.1} us, median {median:.1} us");
}

fn main() -> ExitCode {
    assert!(!cfg!(debug_assertions) && env!("ORACLE_OPT_LEVEL") == "3", "the Rust is measured with optimisation alone");
    let turns = std::env::args().nth(1).map_or(TURNS, |n| n.parse().expect("how often each frame is measured"));
    assert!(turns > 0, "each frame is measured at least once");
    let files = timed::files();
    let frames: Vec<Decoded> = files.iter().map(|file| Decoded::of(file)).collect();
    // the first of all, before anything large is freed
    let cold = plan("cold", turns, &frames);
    warm_the_allocator();
    let worst = plan("warm", turns, &frames).max(cold);
    same_islands(&frames);
    islands(turns, &frames);
    chains_and_stars(turns);
    let run = run(turns, &files);
    shapes(turns);
    generate(turns);
    println!("plan ratio {worst:.2} run ratio {run:.2}");
    ExitCode::from((worst > MOST_PLAN_RATIO) as u8)
}
