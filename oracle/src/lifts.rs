//! Request 3, test lifts from a number: the samples of its page with the page's own figures, and what is asked of the call and
//! of the program `generate_frame`.
use crate::agree::{Agree, shorten};
use crate::calls::*;
use crate::compare::bytes;
use crate::frames::Random;

// ---- the samples

/// A sample: its name; the seed, the sizes and how many bytes are lent; the number and the length that are answered; and the
/// bytes that stand from place 0. The lent bytes past these are kept.
type Sample = (&'static str, (u32, [usize; 3], usize), (u8, usize), &'static str);

pub const SAMPLES: &[Sample] = &[
    ("S1", (0, [2, 1, 1], 22), (0, 22), "01 00000011 0002 0001 0001 0201 0000 0001 0000 0001 00"),
    ("S2", (0, [3, 2, 1], 27), (0, 27), "01 00000016 0003 0002 0001 020102 0002 0000 0001 0002 0002 0001 00"),
    ("S3", (1, [3, 2, 1], 27), (0, 27), "01 00000016 0003 0002 0001 010201 0001 0002 0000 0001 0000 0001 01"),
    ("S4", (4294967295, [2, 0, 2], 23), (0, 23), "01 00000012 0002 0000 0002 0102 0001 0000 01 0000 0001 00"),
    ("S5", (0, [0, 0, 0], 11), (0, 11), "01 00000006 0000 0000 0000"),
    ("S6", (5, [1, 0, 0], 12), (0, 12), "01 00000007 0001 0000 0000 00"),
    ("S7", (0, [0, 1, 0], 0), (13, 0), ""),
    ("S8", (0, [1, 0, 1], 99), (13, 0), ""),
    ("S9", (0, [4097, 1, 0], 0), (3, 0), ""),
    ("S9b", (1, [0, 4097, 0], 0), (3, 0), ""),
    ("S10", (0, [2, 0, 0], 12), (6, 0), ""),
    ("S11", (0, [4, 0, 0], 20), (0, 15), "01 0000000A 0004 0000 0000 02010202"),
];

/// A long sample, lent as many bytes as it has: its name; the seed and the sizes; the length; the sum and the FNV-1a of its
/// bytes; the turns and D that its run reports.
type LongSample = (&'static str, (u32, [usize; 3]), usize, [u32; 2], [usize; 2]);

pub const LONG_SAMPLES: &[LongSample] = &[
    ("S12", (0, [4096, 4096, 0]), 20491, [1_106_044, 0xD8E7DEB3], [2236, 9]),
    ("S13", (99, [4096, 4096, 0]), 20491, [1_113_426, 0x874298A7], [2283, 8]),
    ("S14", (7, [4096, 4096, 4096]), 40971, [2_205_255, 0x785455FC], [3394, 10]),
];

/// The lent bytes of a sample as they must be after the call.
pub fn after(mut lent: Vec<u8>, hex: &str) -> Vec<u8> {
    let known = bytes(hex);
    lent[..known.len()].copy_from_slice(&known);
    lent
}

/// The sum of the bytes, and their FNV-1a of 32 bits.
pub fn sums(bytes: &[u8]) -> [u32; 2] {
    let sum = bytes.iter().map(|b| *b as u32).sum();
    let fnv = bytes.iter().fold(0x811C9DC5, |hash: u32, b| (hash ^ *b as u32).wrapping_mul(0x01000193));
    [sum, fnv]
}

/// The samples, each side against the page's figures.
fn samples<L: Calls, R: Calls>(agree: &mut Agree<L, R>) {
    for (name, (seed, sizes, room), known, hex) in SAMPLES {
        let lent = agree.lend_bytes(*room);
        for (answer, bytes) in agree.generate(*seed, *sizes, &lent) {
            let same = answer == *known && bytes == after(lent.clone(), hex);
            agree.check(same, || format!("sample {name}: {answer:?} {}", shorten(&bytes)));
        }
    }
    for (name, (seed, sizes), length, known, [turns, degree]) in LONG_SAMPLES {
        let lent = agree.lend_bytes(*length);
        for (answer, bytes) in agree.generate(*seed, *sizes, &lent) {
            let sums = sums(&bytes);
            let same = answer == (0, *length) && sums == *known;
            agree.check(same, || format!("sample {name}: {answer:?} {sums:?}"));
            let report = agree.file(&bytes);
            let same = report.refusal == 0 && [report.turns, report.degree] == [*turns, *degree];
            agree.check(same, || format!("run of sample {name}: {report:?}"));
        }
    }
}

// ---- the call

/// The room that a lift needs; sizes past the limits are cut to them.
fn least_room(sizes: [usize; 3]) -> usize {
    let [b, m, j] = sizes.map(|n| n.min(4096));
    file_length(b, m, j)
}

/// A lift in so many bytes. The frame of an accepted one is run by both sides, and no question refuses it.
fn lift<L: Calls, R: Calls>(agree: &mut Agree<L, R>, seed: u32, sizes: [usize; 3], room: usize) {
    let lent = agree.lend_bytes(room);
    let [((refusal, length), bytes), _] = agree.generate(seed, sizes, &lent);
    if refusal == 0 {
        let report = agree.file(&bytes[..length]);
        agree.check(report.refusal == 0, || format!("run of the lift of {seed} with {sizes:?}: {report:?}"));
    }
}

/// A lift with exactly the room that it needs, one byte short, a few too long, and none.
fn in_every_room<L: Calls, R: Calls>(agree: &mut Agree<L, R>, seed: u32, sizes: [usize; 3]) {
    let least = least_room(sizes);
    let longer = least + 1 + agree.random.below(8);
    for room in [least, least - 1, longer, 0] {
        lift(agree, seed, sizes, room);
    }
}

/// All mixes of three sizes.
fn mixes(sizes: &[usize]) -> Vec<[usize; 3]> {
    let with = |b: usize, m: usize| sizes.iter().map(move |j| [b, m, *j]);
    sizes.iter().flat_map(|b| sizes.iter().flat_map(move |m| with(*b, *m))).collect()
}

/// Sizes as a frame has them, now and then one past the limit.
fn random_sizes(random: &mut Random) -> [usize; 3] {
    let mut sizes = [(); 3].map(|()| random.size(4096));
    if random.one_in(16) {
        sizes[random.below(3)] = 4097 + random.below(70_000);
    }
    sizes
}

fn random_lift<L: Calls, R: Calls>(agree: &mut Agree<L, R>) {
    let random = &mut agree.random;
    let seed = random.next() as u32;
    let sizes = random_sizes(random);
    let least = least_room(sizes);
    let room = match random.below(4) {
        0 => least,
        1 => least - 1,
        2 => least + random.below(9),
        _ => random.below(least),
    };
    lift(agree, seed, sizes, room);
}

// ---- the program

/// Lines that ask for a lift or for what is refused: leading zeros, the greatest numbers, with an end and without, and with
/// something after the end.
const READABLE: &[&str] = &[
    "0 2 1 1\n",
    "0 2 1 1",
    "0 2 1 1\n0 3 2 1\n",
    "0 2 1 1\n\n",
    "0 2 1 1\nno number",
    "4294967295 2 0 2\n",
    "0 0 0 0\n",
    "5 1 0 0\n",
    "7 4096 4096 4096\n",
    "007 02 00 01\n",
    "0000000004294967295 0000000000000000002 0000000000000000000 0000000000000000002\n",
    "0000000000000000000 0000000000000000000 0000000000000000000 0000000000000000000",
    "0 4097 1 0\n",
    "1 0 4097 0\n",
    "0 2 0 4097\n",
    "0 65538 1 1\n",
    "0 2 4294967297 1\n",
    "0 2 1 9999999999999999999\n",
    "4294967295 9999999999999999999 9999999999999999999 9999999999999999999\n",
    "0 0 1 0\n",
    "0 1 0 1",
];

/// Lines that cannot be read.
const UNREADABLE: &[&str] = &[
    "",
    "\n",
    " ",
    "\n0 2 1 1\n",
    "0\n",
    "0 2\n",
    "0 2 1\n",
    "0 2 1",
    "0 2 1 \n",
    "0 2 1\n1\n",
    "0 2 1 1 1\n",
    "0 2 1 1 \n",
    " 0 2 1 1\n",
    "0  2 1 1\n",
    "0 2 1  1\n",
    "a 2 1 1\n",
    "0 b 1 1\n",
    "0 2 1 1c\n",
    "lift\n",
    "0x1 2 1 1\n",
    "0,2,1,1\n",
    "0 2 1 1.0\n",
    "-1 2 1 1\n",
    "0 2 -1 1\n",
    "+0 2 1 1\n",
    "0\t2 1 1\n",
    "0 2 1 1\t\n",
    "0 2 1 1\r\n",
    "0 2 1 1\r",
    "0 2 1 1\0\n",
    "0/2 1 1\n",
    ": 2 1 1\n",
    "00000000000000000000 2 1 1\n",
    "0 00000000000000000002 1 1\n",
    "0 2 00000000000000000001 1\n",
    "0 2 1 00000000000000000001\n",
    "0 2 1 18446744073709551617\n",
    "0 10000000000000000000 1 1\n",
    "4294967296 2 1 1\n",
    "4294967297 4097 1 1\n",
    "9999999999999999999 2 1 1\n",
];

/// A number of a line, now and then with zeros ahead of it.
fn number(random: &mut Random, value: usize) -> String {
    let wide = if random.one_in(6) { 1 + random.below(20) } else { 0 };
    format!("{value:0wide$}")
}

/// A random line: now and then a seed of more than 32 bits, no end, or one byte changed.
fn random_line(random: &mut Random) -> Vec<u8> {
    let seed = random.next() as usize >> if random.one_in(16) { 31 } else { 32 };
    let [b, m, j] = random_sizes(random);
    let words = [seed, b, m, j].map(|value| number(random, value));
    let mut line = words.join(" ").into_bytes();
    if !random.one_in(4) {
        line.push(b'\n');
    }
    if random.one_in(5) {
        let at = random.below(line.len());
        line[at] = b" 09/:\n\r\t-a\0\xFF"[random.below(12)];
    }
    line
}

fn lines<L: Calls, R: Calls>(agree: &mut Agree<L, R>, random: usize) {
    for (lines, readable) in [(READABLE, true), (UNREADABLE, false)] {
        for line in lines {
            let print = agree.lift_line(line.as_bytes());
            agree.check(print.is_some() == readable, || format!("the line {line:?} can be read: {}", print.is_some()));
        }
    }
    // what follows the end may be longer than a line
    agree.lift_line(&[b"1 6 5 3\n", &[b'7'; 300][..]].concat());
    for _ in 0..random {
        let line = random_line(&mut agree.random);
        agree.lift_line(&line);
    }
}

/// All that is asked. `more` multiplies the random part.
pub fn compare<L: Calls, R: Calls>(agree: &mut Agree<L, R>, more: usize) {
    samples(agree);
    for sizes in mixes(&[0, 1, 2, 3]) {
        let other = agree.random.next() as u32;
        for seed in [0, 1, 7, u32::MAX, other] {
            in_every_room(agree, seed, sizes);
        }
    }
    for sizes in mixes(&[0, 1, 2, 4096, 4097, 65_536 + 2, (1 << 32) + 2, usize::MAX]) {
        let seed = agree.random.next() as u32;
        in_every_room(agree, seed, sizes);
    }
    for _ in 0..5_000 * more {
        random_lift(agree);
    }
    lines(agree, 240 * more);
}
