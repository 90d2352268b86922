//! Two sides compared, call by call: each call's answer and all that it was lent. Tables are filled with a pattern first and
//! are a few places too long; what the documents call free is only looked at where a call must keep it.
use crate::calls::*;
use crate::frames::{self, Random};
use crate::scope;
use std::collections::BTreeMap;

/// How much is compared, and what was found.
#[derive(Default)]
pub struct Tally {
    pub frames: usize,
    pub calls: usize,
    pub prints: usize,
    /// prints of the sample program
    pub samples: usize,
    /// lines through the program that makes lifts
    pub lines: usize,
    pub agree: usize,
    pub differ: usize,
    /// how often each call met each refusal, or 0
    pub met: BTreeMap<(&'static str, u8), usize>,
}

impl Tally {
    /// What another comparison found, added to this one's.
    pub fn add(&mut self, other: Tally) {
        self.frames += other.frames;
        self.calls += other.calls;
        self.prints += other.prints;
        self.samples += other.samples;
        self.lines += other.lines;
        self.agree += other.agree;
        self.differ += other.differ;
        for (met, times) in other.met {
            *self.met.entry(met).or_default() += times;
        }
    }

    pub fn meets(&mut self, call: &'static str, refusal: u8) {
        *self.met.entry((call, refusal)).or_default() += 1;
    }
}

pub struct Agree<'a, L: Calls, R: Calls> {
    pub left: &'a L,
    pub right: &'a R,
    pub tally: Tally,
    pub random: Random,
}

/// An update of a history. With `cut`, that table is lent one place short.
pub struct Step {
    pub flags: Vec<u8>,
    pub pairs: Vec<u16>,
    pub cut: Option<usize>,
}

/// A bind and its takes: each answer with the count and whether the bodies are as at first, the marks after each, the bodies.
type Session = (Vec<(Answer, usize, bool, usize)>, Vec<u8>, Option<Vec<u16>>);

fn session(bind: impl Fn(&mut dyn FnMut(Shown))) -> Session {
    let mut answers = Vec::new();
    let mut marks = Vec::new();
    let mut bodies: Option<Vec<u16>> = None;
    bind(&mut |shown: Shown| {
        let first = bodies.get_or_insert_with(|| shown.bodies.to_vec());
        answers.push((shown.answer, shown.count, first[..] == *shown.bodies, shown.marks.len()));
        marks.extend_from_slice(shown.marks);
    });
    (answers, marks, bodies)
}

/// What the call that makes a lift answered, a refusal or 0 and a length, and the lent bytes after it.
pub type Lift = ((u8, usize), Vec<u8>);

/// What an islands call answered, a refusal or 0 and the count, and its tables after it, settled if it was accepted.
pub type Laid = ((u8, usize), IslandTables);

/// The root at the end of a body's links, and how many they are; nothing if they leave the table or do not end.
fn follow(parents: &[u16], body: u16) -> Option<(u16, u32)> {
    let mut at = body;
    for links in 0..parents.len() as u32 {
        let parent = *parents.get(at as usize)?;
        if parent == at {
            return Some((at, links));
        }
        at = parent;
    }
    None
}

/// Leaves nothing free in the parents and sizes of an accepted call with so many bodies: a parent becomes the root, the size
/// of a body that is no root 0. False if the links from a body do not end at a root, if 2 to their number is above the number
/// of bodies in the set, or if a root's size is not that number.
fn settle(tables: &mut IslandTables, bodies: usize) -> bool {
    let (parents, sizes) = (&mut tables.parents[..bodies], &mut tables.sizes[..bodies]);
    let Some(found) = (0..bodies as u16).map(|body| follow(parents, body)).collect::<Option<Vec<_>>>() else {
        return false;
    };
    let (roots, links): (Vec<u16>, Vec<u32>) = found.into_iter().unzip();
    let known = scope::sizes(&roots);
    for (size, _) in sizes.iter_mut().zip(&known).filter(|(_, known)| **known == 0) {
        *size = 0;
    }
    parents.copy_from_slice(&roots);
    *sizes == known && roots.iter().zip(links).all(|(root, links)| links <= known[*root as usize].ilog2())
}

/// What each update must give by equation: all but the free tables.
fn fixed(t: &PlanTables) -> [&[u16]; 7] {
    [&t.pairs, &t.colors, &t.group_offsets, &t.members, &t.body_offsets, &t.bodies, &t.positions]
}

/// The refusal that a program printed, or 0.
fn refused(print: &[u8]) -> u8 {
    String::from_utf8_lossy(print).strip_prefix("refused ").map_or(0, |number| number.trim().parse().unwrap())
}

pub fn shorten(bytes: &[u8]) -> String {
    let hex: String = bytes.iter().take(96).map(|b| format!("{b:02X}")).collect();
    format!("{hex}{} ({} bytes)", if bytes.len() > 96 { ".." } else { "" }, bytes.len())
}

impl<'a, L: Calls, R: Calls> Agree<'a, L, R> {
    pub fn new(left: &'a L, right: &'a R, seed: u64) -> Self {
        Agree { left, right, tally: Tally::default(), random: Random(seed) }
    }

    pub fn check(&mut self, same: bool, what: impl FnOnce() -> String) {
        if same {
            self.tally.agree += 1;
            return;
        }
        self.tally.differ += 1;
        if self.tally.differ <= 20 {
            eprintln!("differ: {}", what());
        }
    }

    /// Tables of at least these lengths, a few places too long if `spare`, filled with a pattern.
    pub fn lend<T: Lent + Default>(&mut self, lengths: &[usize], spare: bool) -> T {
        let mut tables = T::default();
        for (mut table, n) in tables.tables().into_iter().zip(lengths) {
            let more = if spare { self.random.below(4) } else { 0 };
            table.fill(n + more, self.random.next() as u32);
        }
        tables
    }

    // ---- islands

    /// Islands on copies of these tables; answers what each side made of them.
    pub fn islands(&mut self, frame: &Frame, tables: &IslandTables) -> [Laid; 2] {
        let (mut l, mut r) = (tables.clone(), tables.clone());
        let left = self.left.islands(frame, &mut l);
        let right = self.right.islands(frame, &mut r);
        self.tally.calls += 1;
        self.tally.meets("islands", left.0);
        let b = frame.types.len();
        let settled = left == right && (left.0 != 0 || settle(&mut l, b) & settle(&mut r, b));
        self.check(settled && l == r, || {
            format!("islands of {frame:?}: {left:?} and {right:?}, settled {settled}\n{l:?}\n{r:?}")
        });
        [(left, l), (right, r)]
    }

    pub fn islands_of(&mut self, frame: &Frame) -> [Laid; 2] {
        let lengths = island_lengths(frame.types.len(), frame.manifold_count(), frame.joint_count());
        let tables = self.lend(&lengths, true);
        self.islands(frame, &tables)
    }

    /// Every table exact, and each in turn one place short.
    pub fn islands_short(&mut self, frame: &Frame) {
        let lengths = island_lengths(frame.types.len(), frame.manifold_count(), frame.joint_count());
        let tables: IslandTables = self.lend(&lengths, false);
        self.islands(frame, &tables);
        for (i, n) in lengths.iter().enumerate().filter(|(_, n)| **n > 0) {
            let mut short = tables.clone();
            short.tables()[i].truncate(n - 1);
            self.islands(frame, &short);
        }
    }

    // ---- updates and lookups

    /// One update on both sides' plans and tables; the tables of each side go on from call to call.
    fn update(&mut self, step: &Step, l: &mut (L::Plan, PlanTables), r: &mut (R::Plan, PlanTables)) -> Update {
        let lengths = plan_lengths(step.flags.len(), step.pairs.len() / 2);
        let whole = (l.1.clone(), r.1.clone());
        if let Some(i) = step.cut.filter(|i| lengths[*i] > 0) {
            l.1.tables()[i].truncate(lengths[i] - 1);
            r.1.tables()[i].truncate(lengths[i] - 1);
        }
        let (l0, r0) = (l.1.clone(), r.1.clone());
        let left = self.left.update(&mut l.0, &step.flags, &step.pairs, &mut l.1);
        let right = self.right.update(&mut r.0, &step.flags, &step.pairs, &mut r.1);
        self.tally.calls += 1;
        self.tally.meets("update", if let Update::Refused(n) = left { n } else { 0 });
        let kept = left == Update::Changed || l.1 == l0 && r.1 == r0;
        let (lc, rc) = (self.left.carried(&l.0), self.right.carried(&r.0));
        let same = left == right && lc == rc && kept && l.1.flags == r.1.flags && fixed(&l.1) == fixed(&r.1);
        self.check(same, || {
            let (b, c) = (step.flags.len(), step.pairs.len() / 2);
            format!(
                "update with {b} bodies and {c} pairs, cut {:?}: {left:?} {lc:?} and {right:?} {rc:?}, kept {kept}\n{:?} {:?}\n{:?}\n{:?}",
                step.cut,
                &step.flags[..b.min(40)],
                &step.pairs[..step.pairs.len().min(80)],
                fixed(&l.1).map(|t| &t[..t.len().min(60)]),
                fixed(&r.1).map(|t| &t[..t.len().min(60)])
            )
        });
        if step.cut.is_some() && left != Update::Changed {
            (l.1, r.1) = whole;
        }
        left
    }

    /// The lookups in both sides' plans: every group and one past them, and up to `most` constraints and one past them.
    fn lookups(&mut self, l: &(L::Plan, PlanTables), r: &(R::Plan, PlanTables), most: usize) {
        let carried = self.left.carried(&l.0);
        let groups = (0..carried.groups + 2).chain([65535, 65536, usize::MAX]);
        let step = carried.groups / most + 1;
        for group in groups.filter(|k| k % step == 0 || *k >= carried.groups) {
            let left = self.left.members(&l.0, &l.1, group);
            let right = self.right.members(&r.0, &r.1, group);
            self.check(left == right, || format!("members of group {group} of {carried:?}: {left:?} and {right:?}"));
            let left = self.left.bodies(&l.0, &l.1, group);
            let right = self.right.bodies(&r.0, &r.1, group);
            self.check(left == right, || format!("bodies of group {group} of {carried:?}: {left:?} and {right:?}"));
            self.tally.calls += 2;
        }
        let step = carried.constraints / most + 1;
        let constraints = (0..carried.constraints).step_by(step);
        for constraint in constraints.chain([carried.constraints, carried.constraints + 1, 8192, usize::MAX]) {
            let left = self.left.positions(&l.0, &l.1, constraint);
            let right = self.right.positions(&r.0, &r.1, constraint);
            self.tally.calls += 1;
            self.tally.meets("positions", left.err().unwrap_or(0));
            self.check(left == right, || format!("positions of {constraint} in {carried:?}: {left:?} and {right:?}"));
        }
    }

    /// A list of updates on one plan and its tables, with the lookups after each.
    pub fn history(&mut self, steps: &[Step]) {
        let most = |size: fn(&Step) -> usize| steps.iter().map(size).max().unwrap_or(0);
        let lengths = plan_lengths(most(|s| s.flags.len()).min(BODIES), most(|s| s.pairs.len() / 2).min(PAIRS));
        let tables: PlanTables = self.lend(&lengths, true);
        let mut l = (self.left.fresh(), tables.clone());
        let mut r = (self.right.fresh(), tables);
        self.lookups(&l, &r, 4);
        for step in steps {
            self.update(step, &mut l, &mut r);
            self.lookups(&l, &r, 40);
        }
    }

    /// An update of a fresh plan, each side's colors against those given.
    pub fn colored(&mut self, flags: &[u8], pairs: &[u16], colors: &[u16]) {
        let tables: PlanTables = self.lend(&plan_lengths(flags.len(), pairs.len() / 2), true);
        let mut l = (self.left.fresh(), tables.clone());
        let mut r = (self.right.fresh(), tables);
        self.update(&Step { flags: flags.to_vec(), pairs: pairs.to_vec(), cut: None }, &mut l, &mut r);
        let groups = colors.iter().max().map_or(0, |most| *most as usize + 1);
        for (carried, t) in [(self.left.carried(&l.0), &l.1), (self.right.carried(&r.0), &r.1)] {
            let same = carried.groups == groups && t.colors[..colors.len()] == *colors;
            self.check(same, || format!("colors of {flags:?} {pairs:?}: {:?}, not {colors:?}", t.colors));
        }
    }

    /// Every table exact, and each in turn one place short: first on a fresh plan, then with equal input.
    pub fn update_short(&mut self, flags: &[u8], pairs: &[u16]) {
        let tables: PlanTables = self.lend(&plan_lengths(flags.len(), pairs.len() / 2), false);
        let mut l = (self.left.fresh(), tables.clone());
        let mut r = (self.right.fresh(), tables);
        let step = |cut| Step { flags: flags.to_vec(), pairs: pairs.to_vec(), cut };
        let mut cuts: Vec<Option<usize>> = (0..13).map(Some).collect();
        cuts.push(None);
        for cut in [&cuts[..], &cuts[..]].concat() {
            self.update(&step(cut), &mut l, &mut r);
        }
        // a lookup of positions in a table one place short
        if !l.1.positions.is_empty() {
            for positions in [&mut l.1.positions, &mut r.1.positions] {
                positions.truncate(pairs.len() - 1);
            }
            self.lookups(&l, &r, 4);
        }
    }

    /// One list of constraints: an update of a fresh plan, its lookups, then the groups' bindings with takes in some order.
    pub fn one_list(&mut self, types: &[u8], pairs: &[u16]) {
        let flags = flags(types);
        let tables: PlanTables = self.lend(&plan_lengths(flags.len(), pairs.len() / 2), true);
        let mut l = (self.left.fresh(), tables.clone());
        let mut r = (self.right.fresh(), tables);
        let step = Step { flags, pairs: pairs.to_vec(), cut: None };
        if self.update(&step, &mut l, &mut r) != Update::Changed {
            return;
        }
        self.lookups(&l, &r, 40);
        let groups = self.left.carried(&l.0).groups;
        let some = self.random.below(groups.max(1));
        for group in (0..groups).filter(|k| *k < 2 || *k == some) {
            let (at, n) = self.left.bodies(&l.0, &l.1, group);
            let bodies = l.1.bodies[at..at + n].to_vec();
            let (at, n) = self.left.members(&l.0, &l.1, group);
            let mut takes: Vec<[usize; 2]> = l.1.members[at..at + n]
                .iter()
                .map(|m| self.left.positions(&l.0, &l.1, *m as usize).unwrap().map(|p| p as usize))
                .collect();
            self.random.shuffle(&mut takes);
            takes.truncate(200);
            for _ in 0..4 {
                let p = [self.random.below(bodies.len() + 1), self.random.below(bodies.len() + 1)];
                let at = self.random.below(takes.len() + 1);
                takes.insert(at, p);
            }
            self.binding(types, &bodies, &takes);
        }
    }

    // ---- bindings

    /// A bind and its takes: every answer, the marks after each, and the bodies.
    pub fn binding(&mut self, types: &[u8], list: &[u16], takes: &[[usize; 2]]) {
        let l = session(|show| self.left.bind(types, list, takes, show));
        let r = session(|show| self.right.bind(types, list, takes, show));
        self.tally.calls += 1 + takes.len();
        for (i, (left, right)) in l.0.iter().zip(&r.0).enumerate() {
            let places = i * BODIES..(i + 1) * BODIES;
            let same = left == right && l.1[places.clone()] == r.1[places] && (i > 0 || l.2 == r.2);
            match left.0 {
                Answer::Bound(n) => self.tally.meets("bind", n),
                Answer::Took(Take::Refused(n)) => self.tally.meets("take", n),
                Answer::Took(_) => self.tally.meets("take", 0),
            }
            self.check(same, || {
                let asked = i.checked_sub(1).map(|t| takes[t]);
                format!("{asked:?} of a binding of {} of {} bodies: {left:?} and {right:?}", list.len(), types.len())
            });
        }
        self.check(l.0.len() == r.0.len(), || "as many answers as calls".to_string());
    }

    /// A bind and its takes, each side's answers and the marks after each against those given.
    pub fn bound(&mut self, types: &[u8], list: &[u16], takes: &[[usize; 2]], known: &[(Answer, &[u8])]) {
        self.binding(types, list, takes);
        let l = session(|show| self.left.bind(types, list, takes, show));
        let r = session(|show| self.right.bind(types, list, takes, show));
        for (answers, marks, _) in [l, r] {
            let of_step = |(i, (answer, marked)): (usize, &(Answer, &[u8]))| {
                answers[i].0 == *answer && answers[i].1 == marked.len() && marks[i * BODIES..].starts_with(marked)
            };
            let same = answers.len() == known.len() && known.iter().enumerate().all(of_step);
            self.check(same, || format!("{takes:?} of a binding of {list:?} in {types:?}: {answers:?}, not {known:?}"));
        }
    }

    /// A random binding: types now and then unknown, the list now and then not rising, positions now and then bad.
    pub fn random_binding(&mut self) {
        let random = &mut self.random;
        let b = random.size(BODIES);
        let mut types = frames::random_types(random, b);
        let sparse = 1 + random.below(4);
        let mut list: Vec<u16> = (0..b as u16).filter(|_| random.one_in(sparse)).collect();
        let n = list.len();
        match random.below(12) {
            0 => list.push(b as u16),
            1 if n > 1 => list.swap(0, n - 1),
            2 if n > 0 => list.push(list[n - 1]),
            3 if b > 0 => types[random.below(b)] = [4, 255][random.below(2)],
            4 if b > 0 && n > 0 => list[random.below(n)] = random.below(b) as u16,
            5 if random.one_in(8) => types = vec![2; 4097],
            _ => {}
        }
        let wide = list.len().min(10) + 1;
        let takes: Vec<[usize; 2]> = (0..random.below(24)).map(|_| [random.below(wide), random.below(wide)]).collect();
        self.binding(&types, &list, &takes);
    }

    /// A take from any value that a binding may have.
    pub fn forged_take(&mut self) {
        let random = &mut self.random;
        let count = [0, 1, 2, 5, 4095, 4096, 4097, usize::MAX][random.below(8)];
        let mut l = Binding {
            bodies: (0..BODIES).map(|_| random.next() as u16).collect(),
            marks: (0..BODIES).map(|_| [0, 1, 2, 3, 255, 1, 1, 0][random.below(8)]).collect(),
            count,
        };
        let mut r = l.clone();
        for _ in 0..16 {
            let p = [(); 2].map(|()| match self.random.below(8) {
                0 => [4094, 4095, 4096, 65536, usize::MAX, count, count.wrapping_sub(1), 0][self.random.below(8)],
                _ => self.random.below(6),
            });
            let (left, right) = (self.left.forged_take(&mut l, p), self.right.forged_take(&mut r, p));
            self.tally.calls += 1;
            self.check(left == right && l == r, || format!("take {p:?} with count {count}: {left:?} and {right:?}"));
        }
    }

    /// Lookups in tables that nobody planned.
    pub fn forged_lookups(&mut self) {
        let random = &mut self.random;
        let groups = [0, 1, 2, 3, 9, 65536, usize::MAX][random.below(7)];
        let n = random.below(6);
        let offsets: Vec<u16> = (0..n).map(|_| random.below(8) as u16).collect();
        let n = random.below(8);
        let table: Vec<u16> = (0..n).map(|_| random.next() as u16).collect();
        let group = [0, 1, 2, 3, 4, 5, 65535, usize::MAX, usize::MAX - 1][random.below(9)];
        let constraints = [0, 1, 2, 3, 4, 8192, 8193, usize::MAX][random.below(8)];
        let left = self.left.forged_part(groups, &offsets, &table, group);
        let right = self.right.forged_part(groups, &offsets, &table, group);
        self.check(left == right, || {
            format!("part {group} of {groups} by {offsets:?} in {table:?}: {left:?} and {right:?}")
        });
        let left = self.left.forged_positions(constraints, &table, group);
        let right = self.right.forged_positions(constraints, &table, group);
        self.tally.meets("positions", left.err().unwrap_or(0));
        self.check(left == right, || {
            format!("positions {group} of {constraints} in {table:?}: {left:?} and {right:?}")
        });
        self.tally.calls += 3;
    }

    // ---- files: runs and prints

    /// The run of a file on these tables; answers the left side's report.
    pub fn run(&mut self, file: &[u8], tables: &RunTables) -> Report {
        let (mut l, mut r) = (tables.clone(), tables.clone());
        let left = self.left.run(file, &mut l);
        let right = self.right.run(file, &mut r);
        self.tally.calls += 1;
        self.tally.meets("run", left.refusal);
        let free = left.refusal == 0 || left.refusal == 7;
        let settled = left == right
            && (left.refusal != 0 || {
                let b = scope::read(file).unwrap().types.len();
                settle(&mut l.islands, b) & settle(&mut r.islands, b)
            });
        let kept = |w: &Workspace| {
            let was = &tables.workspace;
            let counts = [&w.counts, &w.island_counts, &w.plan_counts];
            // a version 1 frame leaves the tables of counts as they were
            let same = file.first() == Some(&2) || counts == [&was.counts, &was.island_counts, &was.plan_counts];
            if free { same } else { w == was }
        };
        let kept = kept(&l.workspace) && kept(&r.workspace);
        let same = settled && kept && l.islands == r.islands && l.turns == r.turns;
        self.check(same, || {
            format!(
                "run of {}: {left:?} and {right:?}, workspace kept {kept}, islands {:?} {:?} turns {:?} {:?}",
                shorten(file),
                l.islands == r.islands,
                settled,
                l.turns == r.turns,
                tables.turns.len()
            )
        });
        left
    }

    /// The lengths that a run of this file asks for; any will do for one that is refused before question 6.
    fn run_lengths(file: &[u8]) -> Vec<usize> {
        match scope::read(file) {
            Ok(frame) => run_lengths_of(&frame),
            Err(_) => run_lengths(1, 1, 1, true),
        }
    }

    /// A file through the run; answers the left side's report.
    pub fn file(&mut self, file: &[u8]) -> Report {
        self.tally.frames += 1;
        let tables = self.lend(&Self::run_lengths(file), true);
        self.run(file, &tables)
    }

    /// Every table of a run exact, and each in turn one place short.
    pub fn run_short(&mut self, file: &[u8]) {
        let lengths = Self::run_lengths(file);
        let tables: RunTables = self.lend(&lengths, false);
        self.run(file, &tables);
        for (i, n) in lengths.iter().enumerate().filter(|(_, n)| **n > 0) {
            let mut short = tables.clone();
            short.tables()[i].truncate(n - 1);
            self.run(file, &short);
        }
    }

    /// A file through the program, and through the sample program.
    pub fn print(&mut self, file: &[u8]) {
        let (left, right) = (self.left.print(file), self.right.print(file));
        self.tally.prints += 1;
        self.tally.meets("print", refused(&left));
        let text = |b: &[u8]| String::from_utf8_lossy(&b[..b.len().min(400)]).to_string();
        self.check(left == right, || format!("print of {}:\n{}and\n{}", shorten(file), text(&left), text(&right)));
        if let Some(sample) = self.right.sample(file) {
            self.tally.samples += 1;
            self.check(sample == right, || {
                format!("the sample's print of {}:\n{}and\n{}", shorten(file), text(&sample), text(&right))
            });
        }
    }

    /// A file through the program of each side, beside a known text.
    pub fn printed(&mut self, file: &[u8], text: &[u8]) {
        self.print(file);
        let left = self.left.print(file);
        self.check(left == text, || format!("print of {}: {}", shorten(file), String::from_utf8_lossy(&left)));
    }

    // ---- test lifts

    /// So many bytes with a pattern.
    pub fn lend_bytes(&mut self, room: usize) -> Vec<u8> {
        let mut bytes = Vec::new();
        Table::Bytes(&mut bytes).fill(room, self.random.next() as u32);
        bytes
    }

    /// The lift of a seed in copies of the lent bytes; answers what each side made of it.
    pub fn generate(&mut self, seed: u32, sizes: [usize; 3], lent: &[u8]) -> [Lift; 2] {
        let (mut l, mut r) = (lent.to_vec(), lent.to_vec());
        let left = self.left.generate(seed, sizes, &mut l);
        let right = self.right.generate(seed, sizes, &mut r);
        self.tally.calls += 1;
        self.tally.meets("generate", left.0);
        self.check(left == right && l == r, || {
            format!(
                "lift of {seed} with {sizes:?} in {} bytes: {left:?} {} and {right:?} {}",
                lent.len(),
                shorten(&l),
                shorten(&r)
            )
        });
        [(left, l), (right, r)]
    }

    /// A line through the program that makes lifts; answers what the left side prints.
    pub fn lift_line(&mut self, line: &[u8]) -> Option<Vec<u8>> {
        let (left, right) = (self.left.lift_line(line), self.right.lift_line(line));
        self.tally.lines += 1;
        if let Some(print) = &left {
            self.tally.meets("line", refused(print));
        }
        self.check(left == right, || {
            let text = |print: &Option<Vec<u8>>| print.as_ref().map(|bytes| shorten(bytes));
            format!("lift of the line {:?}: {:?} and {:?}", String::from_utf8_lossy(line), text(&left), text(&right))
        });
        left
    }

    // ---- frames

    /// All calls for one frame: its file through the run, its islands, its constraints as one list.
    pub fn frame(&mut self, frame: &Frame) {
        self.file(&scope::write(frame));
        self.islands_of(frame);
        self.one_list(&frame.types, &frame.pairs());
    }

    /// A history whose updates come from a few inputs, so that equal ones meet; now and then one is refused.
    pub fn random_history(&mut self, most: usize) {
        let random = &mut self.random;
        let n = 2 + random.below(3);
        let frames: Vec<Frame> = (0..n).map(|_| frames::random_frame(random, most, most)).collect();
        let mut steps = Vec::new();
        for _ in 0..3 + random.below(6) {
            let frame = &frames[random.below(n)];
            let mut step = Step { flags: frame.flags(), pairs: frame.pairs(), cut: None };
            let (b, e) = (step.flags.len(), step.pairs.len());
            match random.below(14) {
                0 => step.cut = Some(random.below(13)),
                1 => step.pairs.push(0),
                2 if b > 0 => step.flags[random.below(b)] = 2,
                3 if e > 0 => step.pairs[random.below(e)] = b as u16,
                4 if e > 0 => step.pairs[e - 1] = step.pairs[e - 2],
                5 if b > 0 => step.flags[random.below(b)] ^= 1,
                6 if e > 1 => step.pairs.truncate(e - 2),
                7 => step.pairs = Vec::new(),
                8 => (step.flags, step.pairs) = (Vec::new(), Vec::new()),
                9 if random.one_in(10) => step.flags = vec![0; 4097],
                10 if random.one_in(10) => step.pairs = vec![0; 2 * 8193],
                _ => {}
            }
            steps.push(step);
        }
        self.history(&steps);
    }

    /// A frame with something wrong in the lists of an islands call.
    pub fn random_islands(&mut self) {
        let random = &mut self.random;
        let mut frame = frames::random_frame(random, 12, 12);
        let b = frame.types.len();
        for _ in 0..1 + random.below(2) {
            match random.below(9) {
                0 => frame.manifolds.push(0),
                1 => frame.joints.push(1),
                2 => frame.enabled.push(1),
                3 => drop(frame.enabled.pop()),
                4 if b > 0 => frame.types[random.below(b)] = 4 + random.below(252) as u8,
                5 if !frame.enabled.is_empty() => frame.enabled[0] = 2 + random.below(254) as u8,
                6 if random.one_in(10) => frame.types = vec![2; 4097],
                7 if random.one_in(10) => frame.manifolds = vec![0; 2 * 4097 + random.below(2)],
                8 if random.one_in(10) => frame.joints = vec![0; 2 * 4097 + random.below(2)],
                _ => {}
            }
        }
        self.islands_of(&frame);
    }

    /// The limits of an update and of islands, and one past them.
    pub fn limits(&mut self) {
        for b in [4096, 4097] {
            let frame = Frame { types: vec![2; b], ..Frame::default() };
            self.islands_of(&frame);
            self.history(&[Step { flags: vec![1; b], pairs: vec![], cut: None }]);
        }
        for n in [4096, 4097] {
            let types = vec![2, 2];
            let pairs = vec![0u16, 1].repeat(n);
            self.islands_of(&Frame { types: types.clone(), manifolds: pairs.clone(), ..Frame::default() });
            let enabled = vec![1; n];
            self.islands_of(&Frame { types, joints: pairs, enabled, ..Frame::default() });
        }
        // enabled bytes past any joint fall to question 4
        self.islands_of(&Frame { types: vec![2], enabled: vec![1; 4097], ..Frame::default() });
        for n in [8192, 8193] {
            let pairs = vec![0u16, 1].repeat(n);
            self.history(&[Step { flags: vec![1, 0], pairs, cut: None }]);
        }
        for pairs in [vec![0, 1], vec![0, 2], vec![1, 1], vec![65535, 0]] {
            self.islands_of(&Frame { types: vec![2, 2], manifolds: pairs.clone(), ..Frame::default() });
            self.history(&[Step { flags: vec![1, 1], pairs, cut: None }]);
        }
    }
}
