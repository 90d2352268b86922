//! Writes stored inputs of the program `turns`, and what it must print for them by the Rust and document 01,
//! and where a joint has a count by document 02. The argument is the repository.
//! `turns`, and `turns_too_long`, which is the same program, have one each; `turns_samples` has many: their number in one byte, then each after
//! its length in three, the high one first. Writes also a line for `generate_frame`, with its print, and what `generator_samples` must print,
//! both by request 3.
use oracle::calls::{Calls, FILE_BYTES, Frame, PAIR_FILE_BYTES};
use oracle::compare;
use oracle::frames;
use oracle::kapitsa::Rust;
use oracle::multi;
use oracle::record;
use oracle::scope::{self, Scope};
use std::path::Path;

/// A frame's file with one byte changed.
fn changed(frame: &Frame, at: usize, byte: u8) -> Vec<u8> {
    let mut file = scope::write(frame);
    file[at] = byte;
    file
}

fn sample(root: &Path, name: &str) -> Vec<u8> {
    std::fs::read(root.join("samples").join(name)).unwrap()
}

fn limit_file(name: &str) -> Vec<u8> {
    frames::limit_files().into_iter().find(|(known, _)| *known == name).unwrap().1
}

/// Every refusal of a file, the empty frame, the longest input and one byte more, more than 4,096 constraints, lifts of rising size,
/// the samples of requests 6 and 11 and the four frames of samples/.
fn inputs(root: &Path) -> Vec<Vec<u8>> {
    let small = frames::lift(1, 6, 5, 3);
    let sound = scope::write(&small);
    let types = 11;
    let enabled = sound.len() - 1;
    let limits = frames::limit_files().into_iter().map(|(_, file)| file);
    let mut inputs = vec![
        vec![],
        changed(&small, 0, 3),
        changed(&small, 0, 2),
        sound[..10].to_vec(),
        changed(&small, 4, 0),
        changed(&small, 6, 7),
        changed(&small, types, 4),
        changed(&small, enabled, 2),
        changed(&small, types + 6, 1),
        scope::write(&Frame::default()),
        sound,
    ];
    inputs.extend(limits.filter(|file| file.len() < 20_000 || [40_971, 40_972].contains(&file.len())));
    inputs.push(scope::write(&frames::one_pair(4097)));
    inputs.extend((2..5).map(|seed| {
        let [b, m, j] = [20, 30, 10].map(|n| n * seed as usize);
        scope::write(&frames::lift(seed, b, m, j))
    }));
    inputs.extend(compare::logged_frames().iter().map(scope::write));
    inputs.extend(multi::files());
    inputs.push(vec![0; FILE_BYTES]);
    inputs.push([vec![1], vec![0; PAIR_FILE_BYTES]].concat());
    inputs.extend(["lift.frame", "document.frame", "logged.frame", "multi.frame"].map(|name| sample(root, name)));
    inputs
}

/// What the program must print: by the Rust, or by the documents where a joint has a count.
fn print(input: &[u8]) -> Vec<u8> {
    if input.first() == Some(&2) { Scope.print(input) } else { Rust.print(input) }
}

fn store(root: &Path, program: &str, input: &[u8], print: &[u8]) {
    std::fs::write(root.join("crates").join(program).join("stdin"), input).unwrap();
    store_print(root, program, print);
    println!("{program}: {} bytes, print {}", input.len(), print.len());
}

fn store_print(root: &Path, program: &str, print: &[u8]) {
    std::fs::write(root.join("crates").join(program).join("stdout"), print).unwrap();
}

fn main() {
    let root = std::env::args().nth(1).expect("the repository");
    let root = Path::new(&root);
    let programs = [
        ("turns", limit_file("the longest file")),
        ("turns_too_long", limit_file("a byte more than the longest file")),
    ];
    for (program, input) in programs {
        store(root, program, &input, &print(&input));
    }
    let inputs = inputs(root);
    let mut list = vec![u8::try_from(inputs.len()).unwrap()];
    for input in &inputs {
        list.extend(&(input.len() as u32).to_be_bytes()[1..]);
        list.extend(input);
    }
    let print: Vec<u8> = inputs.iter().flat_map(|input| print(input)).collect();
    store(root, "turns_samples", &list, &print);
    let line = b"1 6 5 3\n";
    store(root, "generate_frame", line, &Rust.lift_line(line).unwrap());
    let print = record::lift_samples();
    store_print(root, "generator_samples", print.as_bytes());
    println!("generator_samples:\n{print}");
}
