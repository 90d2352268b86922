//! Frames to ask about: every little one, random ones of all sizes, and the shapes that strain a limit. All fixed by a seed.
use crate::calls::*;
use crate::scope;
use std::collections::VecDeque;

// ---- chance

/// A generator of 64-bit numbers (splitmix64).
pub struct Random(pub u64);

impl Random {
    pub fn next(&mut self) -> u64 {
        self.0 = self.0.wrapping_add(0x9E3779B97F4A7C15);
        let mut z = self.0;
        z = (z ^ (z >> 30)).wrapping_mul(0xBF58476D1CE4E5B9);
        z = (z ^ (z >> 27)).wrapping_mul(0x94D049BB133111EB);
        z ^ (z >> 31)
    }

    /// A number below n, which is not 0.
    pub fn below(&mut self, n: usize) -> usize {
        (self.next() % n as u64) as usize
    }

    pub fn one_in(&mut self, n: usize) -> bool {
        self.below(n) == 0
    }

    pub fn shuffle<T>(&mut self, list: &mut [T]) {
        for i in (1..list.len()).rev() {
            list.swap(i, self.below(i + 1));
        }
    }

    /// A size up to most: small ones often, every one sometimes.
    pub fn size(&mut self, most: usize) -> usize {
        let cap = match self.below(64) {
            0 => 1 << 13,
            1..=3 => 512,
            4..=15 => 64,
            _ => 12,
        };
        self.below(most.min(cap) + 1)
    }
}

// ---- frames

/// A manifold or a joint with its enabled byte.
type Constraint = ([u16; 2], Option<u8>);

fn frame_of(types: &[u8], constraints: &[Constraint]) -> Frame {
    let mut frame = Frame { types: types.to_vec(), ..Frame::default() };
    for (ends, enabled) in constraints {
        match enabled {
            None => frame.manifolds.extend(ends),
            Some(e) => {
                frame.joints.extend(ends);
                frame.enabled.push(*e);
            }
        }
    }
    frame
}

/// Every frame of up to 3 bodies and 2 constraints: all four types, and endpoints that are equal or one past the bodies too.
pub fn every_little(mut give: impl FnMut(Frame)) {
    for b in 0..=3u16 {
        let mut constraints: Vec<Constraint> = Vec::new();
        for enabled in [None, Some(0), Some(1)] {
            for a in 0..=b {
                constraints.extend((0..=b).map(|c| ([a, c], enabled)));
            }
        }
        for code in 0..4usize.pow(b as u32) {
            let types: Vec<u8> = (0..b as u32).map(|i| (code / 4usize.pow(i) % 4) as u8).collect();
            give(frame_of(&types, &[]));
            for first in &constraints {
                give(frame_of(&types, &[*first]));
                // manifolds come before joints: no other order is a frame
                for second in constraints.iter().filter(|c| first.1.is_none() || c.1.is_some()) {
                    give(frame_of(&types, &[*first, *second]));
                }
            }
        }
    }
}

/// Every list of five pairs among four bodies, each pair in one of its two orders.
pub fn every_five_pairs(mut give: impl FnMut(Vec<u16>)) {
    let pairs = [[0, 1], [2, 0], [0, 3], [2, 1], [1, 3], [3, 2]];
    for code in 0..pairs.len().pow(5) {
        give((0..5).flat_map(|i| pairs[code / pairs.len().pow(i) % pairs.len()]).collect());
    }
}

/// Two different endpoints below b, near each other or at a hub if so wanted.
fn ends(random: &mut Random, b: usize, habit: usize) -> [u16; 2] {
    let a = random.below(b);
    let mut c = match habit {
        0 => random.below(b),
        1 => (a + 1 + random.below(3)) % b,
        _ => random.below(b.min(3)),
    };
    if c == a {
        c = (a + 1) % b;
    }
    if random.one_in(2) { [a as u16, c as u16] } else { [c as u16, a as u16] }
}

/// What the types of a random frame are drawn from: a list is chosen for each frame, half of them without logged bodies.
const STYLES: [&[u8]; 8] = [
    &[2],
    &[0, 1, 2],
    &[0, 1, 2, 2, 2, 2, 2, 2],
    &[0, 0, 0, 0, 1, 1, 1, 2],
    &[0, 1, 2, 3],
    &[2, 2, 2, 3],
    &[0, 1, 2, 2, 2, 2, 3, 3],
    &[0, 1, 2, 3, 3, 3, 3, 3],
];

/// The types of so many bodies.
pub fn random_types(random: &mut Random, b: usize) -> Vec<u8> {
    let style = STYLES[random.below(STYLES.len())];
    (0..b).map(|_| style[random.below(style.len())]).collect()
}

/// A random frame: any size, mostly accepted, now and then refused 7; its lists agree and its types are known.
pub fn random_frame(random: &mut Random, most_bodies: usize, most_constraints: usize) -> Frame {
    let b = random.size(most_bodies);
    let types = random_types(random, b);
    let habit = random.below(3);
    let m = if b < 2 { 0 } else { random.size(most_constraints) };
    let j = if b < 2 { random.size(8) } else { random.size(most_constraints) };
    let off = random.below(4);
    let mut frame = Frame { types, ..Frame::default() };
    for _ in 0..m {
        frame.manifolds.extend(ends(random, b, habit));
    }
    for _ in 0..j {
        // a disabled joint may carry any endpoints
        let disabled = b < 2 || random.below(4) < off;
        frame.enabled.push(!disabled as u8);
        frame.joints.extend(if disabled {
            [random.next() as u16 % 9, random.next() as u16]
        } else {
            ends(random, b, habit)
        });
    }
    if random.one_in(12) {
        spoil(random, &mut frame);
    }
    frame
}

/// A random frame with fewer bodies than the given number, and with at most so many manifolds and as many joints.
pub fn small_frame(random: &mut Random, bodies: usize, most: usize) -> Frame {
    loop {
        let frame = random_frame(random, bodies - 1, most);
        if frame.types.len() < bodies && frame.joint_count() <= most && frame.pairs().iter().all(|p| *p < 256) {
            return frame;
        }
    }
}

/// One bad constraint: an endpoint past the bodies, or two equal ones.
fn spoil(random: &mut Random, frame: &mut Frame) {
    let n = frame.constraint_count();
    if n == 0 {
        return;
    }
    let number = random.below(n);
    let b = frame.types.len() as u16;
    let m = frame.manifold_count();
    let [list, place] = [(number >= m) as usize, if number >= m { number - m } else { number }];
    let pairs = if list == 0 { &mut frame.manifolds } else { &mut frame.joints };
    let side = random.below(2);
    pairs[2 * place + side] = match random.below(4) {
        0 => pairs[2 * place + 1 - side],
        1 => b,
        2 => NONE,
        _ => b.wrapping_add(random.next() as u16 % 4096),
    };
}

/// A frame of manifolds and, past 4,096 pairs, of enabled joints.
pub fn of_pairs(types: Vec<u8>, pairs: &[[u16; 2]]) -> Frame {
    let (first, rest) = pairs.split_at(pairs.len().min(MANIFOLDS));
    Frame { types, manifolds: first.concat(), joints: rest.concat(), enabled: vec![1; rest.len()], counts: None }
}

pub fn chain(b: usize, backwards: bool) -> Frame {
    let mut pairs: Vec<[u16; 2]> = (1..b as u16).map(|i| [i - 1, i]).collect();
    if backwards {
        pairs.reverse();
    }
    of_pairs(vec![2; b], &pairs)
}

/// All others hang on one body, the hub, of the given type.
pub fn star(b: usize, hub: u16, hub_type: u8) -> Frame {
    let mut types = vec![2; b];
    types[hub as usize] = hub_type;
    of_pairs(types, &(0..b as u16).filter(|i| *i != hub).map(|i| [i, hub]).collect::<Vec<_>>())
}

/// Pairs that join the bodies to ever larger sets, two sets at a time, each by one of its bodies: first all sets of one body,
/// then those of two, and so on.
fn joins(bodies: Vec<u16>, mut by: impl FnMut(&[u16]) -> u16) -> Vec<[u16; 2]> {
    let mut sets: VecDeque<Vec<u16>> = bodies.into_iter().map(|body| vec![body]).collect();
    let mut pairs = Vec::new();
    while sets.len() > 1 {
        let two: Vec<Vec<u16>> = sets.drain(..2).collect();
        pairs.push([by(&two[0]), by(&two[1])]);
        sets.push_back(two.concat());
    }
    pairs
}

/// Sets of equal sizes joined by their lowest bodies, which are their roots, so that the trees grow deepest, or by their
/// highest ones, which lie deepest; b is a power of two.
pub fn joined(b: usize, highest: bool) -> Frame {
    let by = |set: &[u16]| if highest { set[set.len() - 1] } else { set[0] };
    of_pairs(vec![2; b], &joins((0..b as u16).collect(), by))
}

/// Sets of any bodies joined by any of them; at times the joins come in any order too.
pub fn random_joins(random: &mut Random) -> Frame {
    let mut bodies: Vec<u16> = (0..random.size(BODIES) as u16).collect();
    let types = vec![2; bodies.len()];
    random.shuffle(&mut bodies);
    let mut pairs = joins(bodies, |set| set[random.below(set.len())]);
    if random.one_in(2) {
        random.shuffle(&mut pairs);
    }
    of_pairs(types, &pairs)
}

pub fn one_pair(times: usize) -> Frame {
    of_pairs(vec![2, 2], &vec![[1, 0]; times])
}

/// The shapes that strain a limit.
pub fn shapes() -> Vec<(&'static str, Frame)> {
    let mut mixed = chain(4096, false);
    mixed.joints = (0..4096).flat_map(|i| [4095 - i, i]).collect();
    mixed.enabled = vec![1; 4096];
    let mut full = Frame { types: vec![2; 4096], ..Frame::default() };
    full.manifolds = (0..4096u16).flat_map(|i| [i, (i + 1) % 4096]).collect();
    full.joints = vec![NONE; 8192];
    full.enabled = vec![0; 4096];
    let hub_twice = of_pairs(
        vec![2; 4096],
        &[1u16, 2].map(|_| (1..4096u16).map(|i| [0, i])).into_iter().flatten().collect::<Vec<_>>(),
    );
    vec![
        ("no bodies", Frame::default()),
        ("4,096 bodies, no constraint", Frame { types: vec![2; 4096], ..Frame::default() }),
        ("a chain", chain(4096, false)),
        ("a chain, last link first", chain(4096, true)),
        ("a chain with cross joints", mixed),
        ("a ring, all joints disabled", full),
        ("a star on a dynamic body", star(4096, 0, 2)),
        ("a star on the highest body", star(4096, 4095, 2)),
        ("sets joined by their roots", joined(4096, false)),
        ("sets joined by their highest bodies", joined(4096, true)),
        ("4,095 islands on one static body", star(4096, 0, 0)),
        ("4,095 islands on one kinematic body", star(4096, 0, 1)),
        ("a star twice", hub_twice),
        ("one pair 8,192 times", one_pair(8192)),
        ("one pair 4,097 times", one_pair(4097)),
    ]
}

/// The shapes with logged bodies.
pub fn logged_shapes() -> Vec<(&'static str, Frame)> {
    let mut on_dynamic = star(4096, 0, 2);
    on_dynamic.types[1..].fill(LOGGED);
    let mut all_logged = star(4096, 0, LOGGED);
    all_logged.types.fill(LOGGED);
    // with the 2,047 links of the chain one manifold less than there may be
    let mut on_logged = chain(2048, false);
    on_logged.types.push(LOGGED);
    on_logged.manifolds.extend((0..2048).flat_map(|i| [i, 2048]));
    vec![
        ("4,095 islands on one logged body", star(4096, 0, LOGGED)),
        ("4,095 logged bodies on a dynamic one", on_dynamic),
        ("4,095 logged bodies on a logged one", all_logged),
        ("a chain, each body on one logged body", on_logged),
    ]
}

/// Files that are a frame's with something wrong, or nearly: cut short at every place, a byte more, single bytes changed.
pub fn damaged(random: &mut Random, file: &[u8], changes: usize, mut give: impl FnMut(&[u8])) {
    for n in 0..file.len() {
        give(&file[..n]);
    }
    let mut longer = file.to_vec();
    longer.push(random.next() as u8);
    give(&longer);
    longer[4] = longer[4].wrapping_add(1);
    give(&longer);
    for _ in 0..changes {
        let mut changed = file.to_vec();
        let at = random.below(changed.len());
        changed[at] = match random.below(3) {
            0 => changed[at] ^ 1 << random.below(8),
            1 => random.next() as u8,
            _ => [0, 1, 2, 3, 4, 255][random.below(6)],
        };
        give(&changed);
    }
}

/// The longest frame (request 11, sample 13): 4,096 of each, all joints of four; constraints i of four stand on the four bodies of their block.
pub fn longest() -> Frame {
    let spot = |i: u16, k: u16| 4 * (i / 4) + (i + k) % 4;
    Frame {
        types: (0..4096).map(|body| if body % 4 == 3 { LOGGED } else { 2 }).collect(),
        manifolds: (0..4096).flat_map(|i| [spot(i, 0), spot(i, 1)]).collect(),
        joints: (0..4096).flat_map(|i| [0, 1, 2, 3].map(|k| spot(i, k))).collect(),
        counts: Some(vec![MOST; 4096]),
        enabled: vec![1; 4096],
    }
}

/// Files at the limits: one body, manifold or joint more than there may be, and the longest file with a byte more.
pub fn limit_files() -> Vec<(&'static str, Vec<u8>)> {
    let header = |b: u16, m: u16, j: u16, rest: usize| {
        let mut file = vec![1];
        file.extend(((6 + rest) as u32).to_be_bytes());
        for n in [b, m, j] {
            file.extend(n.to_be_bytes());
        }
        file.extend(vec![0; rest]);
        file
    };
    let full = scope::write(&Frame {
        types: vec![2; 4096],
        manifolds: (0..4096u16).flat_map(|i| [i, (i + 1) % 4096]).collect(),
        joints: (0..4096u16).flat_map(|i| [(i + 7) % 4096, i]).collect(),
        enabled: (0..4096).map(|i| (i % 5 < 3) as u8).collect(),
        ..Frame::default()
    });
    assert_eq!(full.len(), PAIR_FILE_BYTES);
    let longest = scope::write(&longest());
    assert_eq!(longest.len(), FILE_BYTES);
    let mut longer = longest.clone();
    longer.push(0);
    let mut longer_pairs = full.clone();
    longer_pairs.push(0);
    let mut wrong_first = longer.clone();
    wrong_first[0] = 3;
    vec![
        ("the longest file of pairs", full),
        ("a byte more than the longest file of pairs", longer_pairs),
        ("the longest file", longest),
        ("a byte more than the longest file", longer),
        ("a byte more, version 3", wrong_first),
        ("as many zeros as the longest file has bytes", vec![0; FILE_BYTES]),
        ("70,000 bytes", vec![1; 70_000]),
        ("4,096 bodies", header(4096, 0, 0, 4096)),
        ("4,097 bodies", header(4097, 0, 0, 4097)),
        ("4,097 manifolds", header(2, 4097, 0, 2 + 4 * 4097)),
        ("4,097 joints", header(2, 0, 4097, 2 + 5 * 4097)),
        ("4,096 joints", header(2, 0, 4096, 2 + 5 * 4096)),
        ("65,535 of each, too short", header(65535, 65535, 65535, 9)),
    ]
}

// ---- test lifts from a number (request 3)

/// The lift of a seed: as many bodies, manifolds and joints as wanted; b is above 1 if there are pairs.
pub fn lift(seed: u32, b: usize, m: usize, j: usize) -> Frame {
    let mut state = seed;
    let mut draw = || {
        state = state.wrapping_mul(1_664_525).wrapping_add(1_013_904_223);
        (state >> 16) as usize
    };
    let mut frame = Frame { types: (0..b).map(|_| (draw() % 3) as u8).collect(), ..Frame::default() };
    for n in 0..m + j {
        let a = draw() % b;
        let pair = [a as u16, ((a + 1 + draw() % (b - 1)) % b) as u16];
        if n < m {
            frame.manifolds.extend(pair);
        } else {
            frame.joints.extend(pair);
            frame.enabled.push((draw() % 2) as u8);
        }
    }
    frame
}
