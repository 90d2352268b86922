//! The whole comparison of two sides, and its counts.
use crate::agree::{Agree, Step, Tally};
use crate::calls::*;
use crate::frames;
use crate::lifts;
use crate::multi::{self, MultiCalls};
use crate::scope::{self, Scope};
use std::process::exit;

/// Document 01's sample file, and what it prints.
const FILE: &str = "01 0000002B 0006 0004 0003 02 02 00 02 02 01 0000 0002 0001 0000 0003 0002 0002 0005 \
    0001 0002 01 0000 0000 00 0005 0003 01";
const PRINT: &str = "islands 2 turns 5 takes 6 degree 2\n0 0 0 0 2\n0 0 4 1 2\n0 1 1 1 0\n1 0 2 3 2\n1 1 6 5 3\n";

/// The bytes that a text gives in hex, with spaces anywhere between them.
pub fn bytes(hex: &str) -> Vec<u8> {
    let digits: Vec<u8> = hex.bytes().filter(|b| *b != b' ').collect();
    let byte = |pair: &[u8]| u8::from_str_radix(std::str::from_utf8(pair).unwrap(), 16).unwrap();
    digits.chunks(2).map(byte).collect()
}

/// Document 01's samples, each side against the document's own figures.
fn samples<L: Calls, R: Calls>(agree: &mut Agree<L, R>) {
    let two = |joint: u8| Frame { types: vec![2, 2], joints: vec![0, 0], enabled: vec![joint], ..Frame::default() };
    let of = |types: &[u8], manifolds: &[u16]| Frame {
        types: types.to_vec(),
        manifolds: manifolds.to_vec(),
        ..Frame::default()
    };
    let none = "islands 0 turns 0 takes 0 degree 0\n";
    let prints = [
        (bytes(FILE), PRINT),
        (scope::write(&Frame::default()), none),
        (scope::write(&of(&[2], &[])), none),
        (scope::write(&of(&[2, 2, 2], &[2, 1, 0, 1])), "islands 1 turns 2 takes 4 degree 2\n0 0 0 2 1\n0 1 1 0 1\n"),
        (scope::write(&of(&[2, 0, 2], &[0, 1, 2, 1])), "islands 2 turns 2 takes 2 degree 1\n0 0 0 0 1\n1 0 1 2 1\n"),
        (scope::write(&of(&[2, 0, 2], &[2, 1, 0, 1])), "islands 2 turns 2 takes 2 degree 1\n0 0 1 0 1\n1 0 0 2 1\n"),
        (scope::write(&of(&[2, 1], &[1, 0])), "islands 1 turns 1 takes 1 degree 1\n0 0 0 1 0\n"),
        (scope::write(&of(&[0, 1], &[0, 1])), none),
        (scope::write(&two(0)), none),
        (scope::write(&two(1)), "refused 7\n"),
        (
            scope::write(&of(&[2, 2], &[0, 1, 0, 1, 0, 1])),
            "islands 1 turns 3 takes 6 degree 3\n0 0 0 0 1\n0 1 1 0 1\n0 2 2 0 1\n",
        ),
    ];
    for (file, text) in prints {
        agree.printed(&file, text.as_bytes());
        agree.file(&file);
    }
    let step = |flags: &[u8], pairs: &[u16]| Step { flags: flags.to_vec(), pairs: pairs.to_vec(), cut: None };
    agree.history(&[step(&[], &[])]);
    agree.history(&[step(&[1, 0, 1], &[0, 1, 2, 1]), step(&[0, 0], &[0, 1]), step(&[1, 1], &[0, 1, 0, 1, 0, 1])]);
    agree.binding(&[2, 2, 2], &[0, 1, 2], &[[1, 2], [0, 2], [0, 1]]);
}

/// Request 4's samples of pairs: flags, pairs, colors.
const COLORED: &[(&[u8], &[u16], &[u16])] = &[
    (&[1, 1, 1], &[2, 1, 0, 1], &[0, 1]),
    (&[1, 0, 1], &[0, 1, 2, 1], &[0, 0]),
    (&[1, 1], &[0, 1, 0, 1, 0, 1], &[0, 1, 2]),
    (&[0, 0], &[0, 1], &[0]),
    (&[1, 1], &[], &[]),
    (&[1, 1, 1, 1], &[0, 1, 1, 2, 2, 3, 3, 0], &[0, 1, 0, 1]),
    (&[1, 1, 1, 1, 1], &[0, 1, 2, 3, 1, 2, 3, 4, 0, 4], &[0, 0, 1, 1, 2]),
    (&[1, 1, 1, 0], &[0, 1, 0, 2, 0, 3, 1, 2, 1, 3, 2, 3], &[0, 1, 2, 2, 1, 0]),
];

/// Colorings: the samples, each side against their colors; then every list of five pairs among four bodies, on one plan with
/// every choice of flags.
fn colorings<L: Calls, R: Calls>(agree: &mut Agree<L, R>) {
    for (flags, pairs, colors) in COLORED {
        agree.colored(flags, pairs, colors);
    }
    frames::every_five_pairs(|pairs| {
        let flags = |code: u8| (0..4).map(|body| code >> body & 1).collect();
        let step = |code| Step { flags: flags(code), pairs: pairs.clone(), cut: None };
        agree.history(&(0..16).map(step).collect::<Vec<Step>>());
    });
}

/// A sample of request 7: types and manifolds; the number of islands; the root of each body; the roots with their sizes; the
/// labels of bodies and of manifolds, where its page gives them.
type Joined = (&'static [u8], &'static [u16], usize, &'static [u16], &'static [(usize, u16)], [&'static [u16]; 2]);

const JOINED: &[Joined] = &[
    (&[2; 2], &[1, 0], 1, &[0; 2], &[(0, 2)], [&[], &[]]),
    (&[2; 3], &[1, 2, 0, 1], 1, &[1; 3], &[(1, 3)], [&[0; 3], &[]]),
    (&[2; 3], &[1, 2, 0, 2, 0, 1], 1, &[1; 3], &[(1, 3)], [&[], &[]]),
    (&[2; 4], &[2, 3, 0, 1, 0, 3], 1, &[0; 4], &[(0, 4)], [&[], &[]]),
    (&[2; 5], &[3, 4, 2, 4, 0, 1, 1, 2], 1, &[3; 5], &[(3, 5)], [&[], &[]]),
    (&[2; 8], &[6, 7, 4, 5, 2, 3, 0, 1, 5, 7, 1, 3, 7, 3], 1, &[0; 8], &[(0, 8)], [&[], &[]]),
    (&[2; 6], &[5, 4, 4, 3, 3, 2, 2, 1, 1, 0], 1, &[4; 6], &[(4, 6)], [&[], &[]]),
    (&[2; 6], &[0, 1, 1, 2, 2, 3, 3, 4, 4, 5], 1, &[0; 6], &[(0, 6)], [&[], &[]]),
    (
        &[2; 16],
        &[0, 1, 2, 3, 4, 5, 6, 7, 8, 9, 10, 11, 12, 13, 14, 15, 0, 2, 4, 6, 8, 10, 12, 14, 0, 4, 8, 12, 0, 8],
        1,
        &[0; 16],
        &[(0, 16)],
        [&[], &[]],
    ),
    (
        &[2, 2, 2, 0, 2, 2],
        &[4, 5, 1, 2, 2, 4, 0, 3],
        2,
        &[0, 1, 1, 3, 1, 1],
        &[(0, 1), (1, 4), (3, 1)],
        [&[0, 1, 1, NONE, 1, 1], &[1, 1, 1, 0]],
    ),
    (&[2; 3], &[1, 2, 0, 2], 1, &[1; 3], &[(1, 3)], [&[0; 3], &[]]),
    (
        &[0, 2, 2, 2, 2],
        &[3, 4, 1, 2, 0, 1],
        2,
        &[0, 1, 1, 3, 3],
        &[(0, 1), (1, 2), (3, 2)],
        [&[NONE, 0, 0, 1, 1], &[1, 0, 0]],
    ),
];

/// Sets of bodies: the samples, each side against their page's figures; every list of five pairs among four bodies; joins of
/// sets of any sizes.
fn unions<L: Calls, R: Calls>(agree: &mut Agree<L, R>, more: usize) {
    for (types, manifolds, count, roots, sizes, [bodies, labels]) in JOINED {
        let frame = Frame { types: types.to_vec(), manifolds: manifolds.to_vec(), ..Frame::default() };
        agree.frame(&frame);
        for (answer, t) in agree.islands_of(&frame) {
            let same = answer == (0, *count)
                && t.parents.starts_with(roots)
                && sizes.iter().all(|(root, size)| t.sizes[*root] == *size)
                && t.bodies.starts_with(bodies)
                && t.manifolds.starts_with(labels);
            agree.check(same, || format!("sets of {frame:?}: {answer:?} {t:?}"));
        }
    }
    let refused = Frame { types: vec![2; 2], joints: vec![0; 2], enabled: vec![1], ..Frame::default() };
    agree.frame(&refused);
    for (answer, t) in agree.islands_of(&refused) {
        let same = answer == (7, 0)
            && t.parents.starts_with(&[0, 1])
            && t.sizes.starts_with(&[1, 1])
            && t.bodies.starts_with(&[NONE; 2])
            && t.joints.starts_with(&[NONE]);
        agree.check(same, || format!("sets of {refused:?}: {answer:?} {t:?}"));
    }
    frames::every_five_pairs(|manifolds| {
        agree.islands_of(&Frame { types: vec![2; 4], manifolds, ..Frame::default() });
    });
    for _ in 0..2_000 * more {
        let frame = frames::random_joins(&mut agree.random);
        agree.frame(&frame);
    }
}

/// A sample of request 6: types and manifolds; islands, turns, takes and D; the turns; the colors as one list; the file in hex,
/// where the page gives it.
type Logged = (&'static [u8], &'static [u16], [usize; 4], &'static [[u16; 3]], &'static [u16], &'static str);

const LOGGED_SAMPLES: &[Logged] = &[
    (
        &[2, 3, 2],
        &[0, 1, 2, 1],
        [2, 2, 4, 2],
        &[[0, 0, 0], [1, 0, 1]],
        &[0, 1],
        "01000000110003000200000203020000000100020001",
    ),
    (&[2, 1, 2], &[0, 1, 2, 1], [2, 2, 2, 1], &[[0, 0, 0], [1, 0, 1]], &[0, 0], ""),
    (&[2, 3], &[0, 1, 0, 1], [1, 2, 4, 2], &[[0, 0, 0], [0, 1, 1]], &[0, 1], ""),
    (&[3, 0], &[0, 1], [0; 4], &[], &[0], ""),
    (&[3, 3], &[0, 1], [0; 4], &[], &[0], ""),
    (
        &[2, 3, 0],
        &[0, 1, 1, 2, 1, 2, 1, 2],
        [1, 1, 2, 1],
        &[[0, 0, 0]],
        &[0, 1, 2, 3],
        "010000001900030004000002030000000001000100020001000200010002",
    ),
    (&[2, 2, 3], &[0, 2, 1, 2, 0, 1], [1, 3, 6, 2], &[[0, 0, 0], [0, 1, 1], [0, 2, 2]], &[0, 1, 2], ""),
    (&[2, 2, 3], &[0, 2, 1, 2], [2, 2, 4, 2], &[[0, 0, 0], [1, 0, 1]], &[0, 1], ""),
    (
        &[3, 2, 3, 2],
        &[0, 1, 2, 1, 2, 3, 0, 3, 1, 3],
        [1, 5, 10, 3],
        &[[0, 0, 0], [0, 0, 2], [0, 1, 1], [0, 1, 3], [0, 2, 4]],
        &[0, 1, 0, 1, 2],
        "",
    ),
    // a chain of six dynamic bodies, each on one logged body: the page gives no turns, but 7 groups
    (
        &[2, 2, 2, 2, 2, 2, 3],
        &[0, 1, 1, 2, 2, 3, 3, 4, 4, 5, 0, 6, 1, 6, 2, 6, 3, 6, 4, 6, 5, 6],
        [1, 11, 22, 6],
        &[
            [0, 0, 0],
            [0, 0, 2],
            [0, 0, 4],
            [0, 1, 1],
            [0, 1, 3],
            [0, 1, 5],
            [0, 2, 6],
            [0, 3, 7],
            [0, 4, 8],
            [0, 5, 9],
            [0, 6, 10],
        ],
        &[0, 1, 0, 1, 0, 1, 2, 3, 4, 5, 6],
        "",
    ),
];

/// The samples' frames.
pub fn logged_frames() -> Vec<Frame> {
    let frame = |(types, manifolds, ..): &Logged| Frame {
        types: types.to_vec(),
        manifolds: manifolds.to_vec(),
        ..Frame::default()
    };
    LOGGED_SAMPLES.iter().map(frame).collect()
}

/// Request 6's bind of bodies 0 to 3 of types 2, 3, 1 and 3, then its takes: each answer, and the marks after it.
const LOGGED_TAKES: [[usize; 2]; 4] = [[1, 2], [3, 2], [0, 1], [1, 3]];
const LOGGED_ANSWERS: [(Answer, &[u8]); 5] = [
    (Answer::Bound(0), &[1, 1, 0, 1]),
    (Answer::Took(Take::Taken([(1, true), (2, false)])), &[1, 2, 0, 1]),
    (Answer::Took(Take::Taken([(3, true), (2, false)])), &[1, 2, 0, 2]),
    (Answer::Took(Take::Refused(11)), &[2, 2, 0, 2]),
    (Answer::Took(Take::Refused(10)), &[2, 2, 0, 2]),
];

/// Logged bodies: the samples, each side against their page's figures, and unknown types.
fn logged<L: Calls, R: Calls>(agree: &mut Agree<L, R>) {
    for (frame, sample) in logged_frames().iter().zip(LOGGED_SAMPLES) {
        let (_, manifolds, [islands, turns, takes, degree], table, colors, hex) = sample;
        let report = Report { refusal: 0, islands: *islands, turns: *turns, takes: *takes, degree: *degree };
        let file = scope::write(frame);
        agree.check(hex.is_empty() || file == bytes(hex), || format!("file of {frame:?}: {file:?}"));
        agree.printed(&file, &scope::print_report(frame, report, &table.concat()));
        agree.frame(frame);
        agree.colored(&frame.flags(), manifolds, colors);
    }
    agree.bound(&[2, 3, 1, 3], &[0, 1, 2, 3], &LOGGED_TAKES, &LOGGED_ANSWERS);
    for unknown in [4, 255] {
        let frame = Frame { types: vec![2, unknown], manifolds: vec![0, 1], ..Frame::default() };
        agree.printed(&scope::write(&frame), b"refused 5\n");
        agree.file(&scope::write(&frame));
        for (answer, _) in agree.islands_of(&frame) {
            agree.check(answer == (5, 0), || format!("islands of {frame:?}: {answer:?}"));
        }
        agree.bound(&frame.types, &[0, 1], &[], &[(Answer::Bound(5), &[])]);
    }
}

/// The refusals that each call can answer, and 0; a comparison is to meet them all.
const REFUSALS: &[(&str, &[u8])] = &[
    ("islands", &[0, 3, 4, 5, 6, 7]),
    ("update", &[0, 3, 4, 5, 6, 7]),
    ("positions", &[0, 3, 6, 12]),
    ("bind", &[0, 3, 5, 8]),
    ("take", &[0, 9, 10, 11]),
    ("run", &[0, 1, 2, 3, 4, 5, 6, 7]),
    ("print", &[0, 1, 2, 3, 4, 5, 7]),
    ("generate", &[0, 3, 6, 13]),
    ("line", &[0, 3, 13]),
];

/// What is asked of joints and constraints with counts, which the Rust does not know: the documents beside another side.
pub fn compare_multi<R: MultiCalls>(right: &R, more: usize) -> Tally {
    let mut agree = Agree::new(&Scope, right, 11);
    multi::calls(&mut agree, more);
    multi::runs(&mut agree, more);
    agree.tally
}

/// Compares and exits: 0 only if nothing differs. `more` multiplies the random part; what was found of counts is added.
pub fn compare<L: Calls, R: Calls>(left: &L, right: &R, more: usize, counted: Tally) -> ! {
    let mut agree = Agree::new(left, right, 2026);
    let every = 15;
    let every_little = 37;
    samples(&mut agree);
    colorings(&mut agree);
    unions(&mut agree, more);
    logged(&mut agree);

    let mut count = 0;
    frames::every_little(|frame| {
        agree.frame(&frame);
        count += 1;
        if count % every_little == 0 {
            agree.print(&scope::write(&frame));
        }
    });
    for (_, frame) in [frames::shapes(), frames::logged_shapes()].concat() {
        agree.frame(&frame);
        agree.print(&scope::write(&frame));
    }
    // the Rust knows no joints with counts: `multi` asks of these
    for (_, file) in frames::limit_files().into_iter().filter(|(_, file)| file[0] != 2) {
        agree.file(&file);
        agree.print(&file);
    }
    agree.print(&[]);
    agree.limits();

    for i in 0..50_000 * more {
        let frame = frames::random_frame(&mut agree.random, 4096, 4096);
        agree.frame(&frame);
        if i % every == 0 {
            agree.print(&scope::write(&frame));
        }
    }
    for _ in 0..20 * more {
        let seed = agree.random.next() as u32;
        agree.frame(&frames::lift(seed, 4096, 4096, 0));
        agree.frame(&frames::lift(seed, 4096, 4096, 4096));
    }
    for _ in 0..4_000 * more {
        agree.random_history(40);
        agree.random_islands();
        agree.random_binding();
        agree.forged_take();
        agree.forged_lookups();
    }
    for _ in 0..10 * more {
        agree.random_history(4096);
    }
    for _ in 0..150 * more {
        let frame = frames::random_frame(&mut agree.random, 9, 6);
        let file = scope::write(&frame);
        agree.islands_short(&frame);
        agree.update_short(&frame.flags(), &frame.pairs());
        agree.run_short(&file);
        let mut random = frames::Random(agree.random.next());
        let mut count = 0;
        frames::damaged(&mut random, &file, 100, |file| {
            agree.file(file);
            count += 1;
            if count % every == 0 {
                agree.print(file);
            }
        });
    }
    lifts::compare(&mut agree, more);

    let mut tally = agree.tally;
    tally.add(counted);
    let mut all_met = true;
    for (call, refusals) in REFUSALS.iter().chain(multi::REFUSALS) {
        let times: Vec<usize> = refusals.iter().map(|n| *tally.met.get(&(*call, *n)).unwrap_or(&0)).collect();
        let shown: Vec<String> = refusals.iter().zip(&times).map(|(n, t)| format!("{n}: {t}")).collect();
        println!("{call}: {}", shown.join(", "));
        all_met &= times.iter().all(|t| *t > 0);
    }
    if !all_met {
        println!("a refusal was never met");
        exit(1)
    }
    println!(
        "frames {} calls {} prints {} samples {} lines {}",
        tally.frames, tally.calls, tally.prints, tally.samples, tally.lines
    );
    println!("{} agree, {} differ", tally.agree, tally.differ);
    exit((tally.differ != 0) as i32)
}
