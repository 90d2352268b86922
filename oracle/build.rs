//! Finds the Rust files, which are never copied into the repository, and hands their folder on to `include!`. With the
//! feature `ours` it also links the static library of the proved code, and compiles the header's wrapper over the run.
use std::env;
use std::fs;
use std::path::{Path, PathBuf};
use std::process::Command;

/// The files, each with the sum of (place + 1) x byte modulo 2^32: an edited one is refused.
const FILES: [(&str, u32); 3] = [
    ("island.rs", 3_762_479_412),
    ("constraint_coloring.rs", 2_359_710_204),
    ("solver/colored_bodies.rs", 406_347_930),
];

fn checksum(bytes: &[u8]) -> u32 {
    (1u32..).zip(bytes).fold(0, |sum, (place, byte)| sum.wrapping_add(place.wrapping_mul(*byte as u32)))
}

/// Compiles the header's wrapper over the run (wrapper.c) and has it linked.
fn compile_wrapper(repository: &Path) {
    let header = repository.join("include/engkarupi.h");
    let source = repository.join("oracle/wrapper.c");
    let object = PathBuf::from(env::var("OUT_DIR").unwrap()).join("wrapper.o");
    println!("cargo::rerun-if-env-changed=CC");
    println!("cargo::rerun-if-changed={}", header.display());
    println!("cargo::rerun-if-changed={}", source.display());
    let compiler = env::var("CC").unwrap_or("cc".to_string());
    let mut command = Command::new(&compiler);
    command.args(["-std=c11", "-Wall", "-Wextra", "-Wpedantic", "-Werror", "-O2", "-c", "-o"]).arg(&object);
    command.arg("-I").arg(repository.join("include")).arg(&source);
    match command.status() {
        Ok(status) if status.success() => println!("cargo::rustc-link-arg={}", object.display()),
        ended => println!("cargo::error={compiler} on {}: {ended:?}", source.display()),
    }
}

fn main() {
    println!("cargo::rerun-if-env-changed=KAPITSA_SRC");
    let repository = PathBuf::from(env::var("CARGO_MANIFEST_DIR").unwrap()).join("..");
    let sources = match env::var_os("KAPITSA_SRC") {
        Some(path) => PathBuf::from(path),
        None => repository.join("../shared/docs/src"),
    };
    let collision = sources.join("crates/kapitsa-core/src/collision");
    for (file, sum) in FILES {
        let path = collision.join(file);
        if !path.is_file() {
            println!(
                "cargo::error=no {}: set KAPITSA_SRC to the folder that holds crates/kapitsa-core (default: ../shared/docs/src beside the repository)",
                path.display()
            );
            return;
        }
        if checksum(&fs::read(&path).unwrap()) != sum {
            println!("cargo::error={} is not the file that the project was written from", path.display());
            return;
        }
        println!("cargo::rerun-if-changed={}", path.display());
    }
    println!("cargo::rustc-env=ORACLE_OPT_LEVEL={}", env::var("OPT_LEVEL").unwrap());
    let collision = collision.canonicalize().unwrap();
    println!("cargo::rustc-env=KAPITSA_COLLISION={}", collision.display());

    if env::var_os("CARGO_FEATURE_OURS").is_some() {
        let folder = repository.join("crates/boundary/out");
        let archive = folder.join("libboundary.a");
        if !archive.is_file() {
            println!("cargo::error=no {}: run `rt lib` in crates/boundary first", archive.display());
            return;
        }
        println!("cargo::rerun-if-changed={}", archive.display());
        println!("cargo::rustc-link-search=native={}", folder.display());
        println!("cargo::rustc-link-lib=static=boundary");
        compile_wrapper(&repository);
    }
}
