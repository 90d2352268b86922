//! The lists that `crates/replay` and `crates/replay_frames` replay: questions with the Rust's answers, in bytes. A list's form
//! stands in `crates/records`, the kinds in those programs' heads; what a question of each kind holds, and what its answer shows,
//! stands at the functions that answer it there. Also what `crates/generator_samples` prints.
use crate::calls::*;
use crate::frames::{self, Random};
use crate::kapitsa::Rust;
use crate::lifts;
use crate::scope;

const PATTERN: u16 = 43981;

/// The tables of a history have room for 7 bodies and 7 constraints.
const HISTORY: [usize; 13] = [7, 15, 8, 15, 8, 8, 8, 7, 9, 8, 9, 15, 15];

fn lent<T: Lent + Default>(lengths: &[usize]) -> T {
    let mut tables = T::default();
    for (table, n) in tables.tables().into_iter().zip(lengths) {
        match table {
            Table::Bytes(t) => *t = vec![(PATTERN >> 8) as u8; *n],
            Table::Numbers(t) => *t = vec![PATTERN; *n],
        }
    }
    tables
}

fn byte(n: usize) -> u8 {
    n.try_into().unwrap()
}

fn half(n: usize) -> u16 {
    n.try_into().unwrap()
}

fn put_halves(out: &mut Vec<u8>, numbers: &[u16]) {
    out.extend(numbers.iter().flat_map(|n| n.to_be_bytes()));
}

// ---- a binding with takes

fn takes_question(types: &[u8], list: &[u16], takes: &[[usize; 2]]) -> Vec<u8> {
    let mut question = vec![byte(types.len()), byte(list.len()), byte(takes.len())];
    question.extend(types);
    question.extend(list.iter().map(|b| byte(*b as usize)));
    question.extend(takes.iter().flatten().map(|p| byte(*p)));
    question
}

fn takes_answer(types: &[u8], list: &[u16], takes: &[[usize; 2]]) -> Vec<u8> {
    let mut out = Vec::new();
    Rust.bind(types, list, takes, &mut |shown: Shown| {
        match shown.answer {
            Answer::Bound(refusal) | Answer::Took(Take::Refused(refusal)) => out.push(refusal),
            Answer::Took(Take::Taken(handed)) => {
                out.push(0);
                for (body, dynamic) in handed {
                    put_halves(&mut out, &[body]);
                    out.push(dynamic as u8);
                }
            }
        }
        put_halves(&mut out, &[shown.count as u16]);
        for place in 0..=shown.count {
            put_halves(&mut out, &[shown.bodies[place]]);
            out.push(shown.marks[place]);
        }
    });
    out
}

fn random_takes(random: &mut Random) -> (Vec<u8>, Vec<u8>) {
    let b = random.below(11);
    let mut types = frames::random_types(random, b);
    let mut list: Vec<u16> = (0..b as u16).filter(|_| !random.one_in(3)).collect();
    match random.below(16) {
        0 => list.push(b as u16),
        1 if list.len() > 1 => list.swap(0, 1),
        2 if !list.is_empty() => list.push(list[0]),
        3 if b > 0 => types[random.below(b)] = 4,
        _ => {}
    }
    let wide = list.len() + 1;
    let takes: Vec<[usize; 2]> = (0..random.below(9)).map(|_| [random.below(wide), random.below(wide)]).collect();
    (takes_question(&types, &list, &takes), takes_answer(&types, &list, &takes))
}

// ---- a history of updates

fn history(steps: &[(Vec<u8>, Vec<u16>)]) -> (Vec<u8>, Vec<u8>) {
    let mut question = vec![byte(steps.len())];
    let mut out = Vec::new();
    let mut plan = Rust.fresh();
    let mut t: PlanTables = lent(&HISTORY);
    for (flags, pairs) in steps {
        question.extend([byte(flags.len()), byte(pairs.len())]);
        question.extend(flags);
        question.extend(pairs.iter().map(|p| byte(*p as usize)));
        match Rust.update(&mut plan, flags, pairs, &mut t) {
            Update::Changed => out.push(1),
            Update::Unchanged => out.push(2),
            Update::Refused(refusal) => out.extend([0, refusal]),
        }
        let carried = Rust.carried(&plan);
        out.extend([carried.bodies, carried.constraints, carried.groups, carried.largest].map(byte));
        out.extend(&t.flags);
        for table in [&t.pairs, &t.colors, &t.group_offsets, &t.members, &t.body_offsets, &t.bodies, &t.positions] {
            put_halves(&mut out, table);
        }
    }
    for group in 0..8 {
        for ((start, size), table) in
            [(Rust.members(&plan, &t, group), &t.members), (Rust.bodies(&plan, &t, group), &t.bodies)]
        {
            out.push(byte(size));
            put_halves(&mut out, &table[start..start + size]);
        }
    }
    for constraint in 0..8 {
        match Rust.positions(&plan, &t, constraint) {
            Ok(places) => put_halves(&mut out, &places),
            Err(refusal) => out.push(refusal),
        }
    }
    (question, out)
}

/// A few inputs, met again and again; now and then one is refused, or too large for the tables.
fn random_history(random: &mut Random) -> (Vec<u8>, Vec<u8>) {
    let n = 1 + random.below(3);
    let frames: Vec<Frame> = (0..n).map(|_| frames::small_frame(random, 8, 4)).collect();
    let mut steps = Vec::new();
    for _ in 0..1 + random.below(4) {
        let frame = &frames[random.below(n)];
        let (mut flags, mut pairs) = (frame.flags(), frame.pairs());
        let (b, e) = (flags.len(), pairs.len());
        match random.below(16) {
            0 => pairs.push(0),
            1 if b > 0 => flags[random.below(b)] = 2,
            2 if e > 0 => pairs[random.below(e)] = b as u16,
            3 if e > 0 => pairs[e - 1] = pairs[e - 2],
            4 if b > 0 => flags[random.below(b)] ^= 1,
            5 if e > 1 => pairs.truncate(e - 2),
            6 => pairs.clear(),
            7 => (flags, pairs) = (Vec::new(), Vec::new()),
            _ => {}
        }
        steps.push((flags, pairs));
    }
    history(&steps)
}

// ---- a frame

/// A question: the turn table's length, and the file. Its answer shows the whole turn table.
fn frame_question(turns: usize, file: &[u8]) -> Vec<u8> {
    let mut question = Vec::new();
    put_halves(&mut question, &[half(turns)]);
    question.extend(file);
    question
}

/// The Rust's run, with all other tables of the largest frame's lengths.
fn frame_answer(turns: usize, file: &[u8]) -> (Report, Vec<u8>) {
    let mut tables: RunTables = lent(&run_lengths(BODIES, MANIFOLDS, JOINTS, true));
    tables.turns.truncate(turns);
    let report = Rust.run(file, &mut tables);
    let mut out = vec![report.refusal];
    put_halves(&mut out, &[report.islands, report.turns, report.takes, report.degree].map(half));
    put_halves(&mut out, &tables.turns);
    (report, out)
}

/// A file cut short, lengthened or with one bit changed: anywhere, in the head, or in the high byte of a count.
fn damage(random: &mut Random, file: &mut Vec<u8>) {
    let at = random.below(file.len());
    match random.below(8) {
        0 => file.truncate(at),
        1 => file.push(0),
        2 => file[random.below(11)] ^= 1 << random.below(8),
        3 => file[5 + 2 * random.below(3)] ^= 0x10 << random.below(4),
        _ => file[at] ^= 1 << random.below(8),
    }
}

/// The files: small frames, every fourth damaged; larger lifts; the frames that strain a limit, once each.
fn files(random: &mut Random, small: usize) -> Vec<Vec<u8>> {
    let mut files = Vec::new();
    for i in 0..small {
        let mut file = scope::write(&frames::small_frame(random, 9, 6));
        if i % 4 == 3 {
            damage(random, &mut file);
        }
        files.push(file);
    }
    files.extend((0..60).map(|_| scope::write(&frames::random_frame(random, 64, 64))));
    files.extend((0..8).map(|seed| scope::write(&frames::lift(seed, 300, 300, 100))));
    let kept = ["one pair 4,097 times", "4,095 islands on one static body"];
    files.extend(frames::shapes().into_iter().filter(|(name, _)| kept.contains(name)).map(|(_, f)| scope::write(&f)));
    let kept = ["the longest file of pairs", "4,097 bodies", "65,535 of each, too short"];
    files.extend(frames::limit_files().into_iter().filter(|(name, _)| kept.contains(name)).map(|(_, file)| file));
    files
}

/// The turn table that is lent: as long as it must be, up to three places longer or, now and then, one too short.
fn turn_places(random: &mut Random, file: &[u8]) -> usize {
    let least = scope::read(file).map_or(0, |frame| 3 * frame.constraint_count());
    if least > 0 && random.one_in(16) { least - 1 } else { least + random.below(4) }
}

// ---- the lists

/// A list in the making.
#[derive(Default)]
struct List(Vec<u8>);

impl List {
    fn record(&mut self, kind: u8, question: &[u8], answer: &[u8]) {
        self.0.push(kind);
        put_halves(&mut self.0, &[half(question.len()), half(answer.len())]);
        self.0.extend(question);
        self.0.extend(answer);
    }

    /// The list with its end, and the sum of its bytes.
    fn ended(mut self) -> (Vec<u8>, u32) {
        self.0.extend([0; 5]);
        let sum = self.0.iter().fold(0u32, |sum, b| (sum * 31 + *b as u32) % 65521);
        (self.0, sum)
    }
}

/// The list of `replay`, and what the program prints of it.
pub fn calls(histories: usize, bindings: usize) -> (Vec<u8>, String) {
    let mut random = Random(7);
    let mut list = List::default();
    for _ in 0..histories {
        let (question, answer) = random_history(&mut random);
        list.record(1, &question, &answer);
    }
    for _ in 0..bindings {
        let (question, answer) = random_takes(&mut random);
        list.record(2, &question, &answer);
    }
    let (list, sum) = list.ended();
    (list, format!("histories {histories}\nbindings {bindings}\ndiffer 0\nsum {sum}\n"))
}

/// The list of `replay_frames`, and what the program prints of it. Every refusal of a run is met.
pub fn runs(small: usize) -> (Vec<u8>, String) {
    let mut random = Random(8);
    let mut list = List::default();
    let mut met = [0; 8];
    for file in files(&mut random, small) {
        let turns = turn_places(&mut random, &file);
        let (report, answer) = frame_answer(turns, &file);
        list.record(1, &frame_question(turns, &file), &answer);
        met[report.refusal as usize] += 1;
    }
    assert!(met.iter().all(|n| *n > 0), "a refusal was never met: {met:?}");
    let frames: usize = met.iter().sum();
    let refused = frames - met[0];
    let (list, sum) = list.ended();
    (list, format!("frames {frames}\nrefused {refused}\ndiffer 0\nsum {sum}\n"))
}

// ---- test lifts

/// A sample's line: name, number and length, then what is shown of its bytes, if there are any.
fn lift_line(name: &str, (number, length): (u8, usize), shown: &str) -> String {
    let space = if shown.is_empty() { "" } else { " " };
    format!("{name} {number} {length}{space}{shown}\n")
}

/// What `generator_samples` prints: of each sample of request 3's page the whole lent bytes in hex, which hold 0xAB before the call;
/// of a long one the sum and the FNV-1a of its bytes. The page's own figures are asserted.
pub fn lift_samples() -> String {
    let mut text = String::new();
    for (name, (seed, sizes, room), known, hex) in lifts::SAMPLES {
        let lent = vec![0xAB; *room];
        let mut bytes = lent.clone();
        assert_eq!(scope::generate(*seed, *sizes, &mut bytes), *known, "{name}");
        assert_eq!(bytes, lifts::after(lent, hex), "{name}");
        let shown: String = bytes.iter().map(|b| format!("{b:02x}")).collect();
        text += &lift_line(name, *known, &shown);
    }
    for (name, (seed, sizes), length, known, _) in lifts::LONG_SAMPLES {
        let mut bytes = vec![0xAB; *length];
        assert_eq!(scope::generate(*seed, *sizes, &mut bytes), (0, *length), "{name}");
        let [sum, fnv] = lifts::sums(&bytes);
        assert_eq!([sum, fnv], *known, "{name}");
        text += &lift_line(name, (0, *length), &format!("sum {sum} fnv {fnv}"));
    }
    text
}
