//! Joints and constraints of two to four bodies (request 11): their calls, the documents as a side, and what is asked. The Rust knows none
//! of them, so the documents stand beside the proved code, and both beside the figures of the request's page.
use crate::agree::{Agree, shorten};
use crate::calls::*;
use crate::compare::bytes;
use crate::frames::{self, Random};
use crate::scope::{self, Scope};

// ---- the calls

/// The tables of a plan with counts: a plan's, and its counts.
#[derive(Clone, Debug, Default, PartialEq)]
pub struct MultiTables {
    pub plan: PlanTables,
    pub counts: Vec<u8>,
}

impl Lent for MultiTables {
    fn tables(&mut self) -> Vec<Table<'_>> {
        let mut all = self.plan.tables();
        all.push(Table::Bytes(&mut self.counts));
        all
    }
}

/// The lengths that question 6 asks for, of so many bodies, constraints and endpoints.
pub fn multi_lengths(b: usize, c: usize, e: usize) -> Vec<usize> {
    let mut all = lengths_with(b, c, e);
    all.push(c);
    all
}

/// The input of an update: flags, endpoints, counts.
#[derive(Clone, Debug, Default)]
pub struct Input {
    pub flags: Vec<u8>,
    pub ends: Vec<u16>,
    pub counts: Vec<u8>,
}

/// A side of a comparison. Islands of joints with counts are asked by `Calls::islands` of a frame that has counts.
pub trait MultiCalls: Calls {
    /// An update; a plan is what it carries.
    fn update_multi(&self, plan: &mut Carried, input: &Input, tables: &mut MultiTables) -> Update;

    fn positions_multi(&self, plan: &Carried, counts: &[u8], table: &[u16], constraint: usize) -> Result<Vec<u16>, u8>;

    fn take_multi(&self, binding: &mut Binding, positions: &[u16]) -> Result<Vec<(u16, bool)>, u8>;
}

// ---- the documents as a side

/// A remembered count outside two to four is read as two.
fn as_read(counts: &[u8]) -> Vec<u8> {
    counts.iter().map(|count| if (FEWEST..=MOST).contains(count) { *count } else { 2 }).collect()
}

/// Questions 3 to 7 of an update.
fn update_refusal(input: &Input, tables: &mut MultiTables) -> u8 {
    let Input { flags, ends, counts } = input;
    if flags.len() > BODIES || counts.len() > PAIRS {
        3
    } else if scope::sum(counts) != ends.len() {
        4
    } else if flags.iter().any(|f| *f > 1) || !scope::counts_known(counts) {
        5
    } else if !roomy(tables, &multi_lengths(flags.len(), counts.len(), ends.len())) {
        6
    } else if !parts(counts, ends).iter().all(|ends| scope::fits(ends, flags.len())) {
        7
    } else {
        0
    }
}

/// Whether the plan and its tables hold just this input.
fn remembers(plan: &Carried, input: &Input, tables: &MultiTables) -> bool {
    let (b, c, e) = (input.flags.len(), input.counts.len(), input.ends.len());
    [b, c] == [plan.bodies, plan.constraints]
        && tables.plan.flags[..b] == input.flags
        && as_read(&tables.counts[..c]) == input.counts
        && tables.plan.pairs[..e] == input.ends
}

impl MultiCalls for Scope {
    fn update_multi(&self, plan: &mut Carried, input: &Input, tables: &mut MultiTables) -> Update {
        match update_refusal(input, tables) {
            0 => {}
            number => return Update::Refused(number),
        }
        if remembers(plan, input, tables) {
            return Update::Unchanged;
        }
        let coloring = scope::coloring(&input.flags, parts(&input.counts, &input.ends));
        coloring.write(&mut tables.plan);
        tables.counts[..input.counts.len()].copy_from_slice(&input.counts);
        *plan = coloring.carried();
        Update::Changed
    }

    fn positions_multi(&self, plan: &Carried, counts: &[u8], table: &[u16], constraint: usize) -> Result<Vec<u16>, u8> {
        let c = plan.constraints;
        if c > PAIRS {
            return Err(3);
        }
        if counts.len() < c || table.len() < scope::sum(&as_read(&counts[..c])) {
            return Err(6);
        }
        if constraint >= c {
            return Err(12);
        }
        Ok(parts(&as_read(&counts[..c]), table).swap_remove(constraint))
    }

    fn take_multi(&self, binding: &mut Binding, positions: &[u16]) -> Result<Vec<(u16, bool)>, u8> {
        let positions: Vec<usize> = positions.iter().map(|p| *p as usize).collect();
        scope::take_many(binding, &positions)
    }
}

// ---- what is compared

fn input(frame: &Frame) -> Input {
    let ends = frame.ends();
    Input { flags: frame.flags(), counts: ends.iter().map(|e| e.len() as u8).collect(), ends: ends.concat() }
}

/// What an update must give by equation, beside the flags and the counts.
fn fixed(t: &PlanTables) -> [&[u16]; 7] {
    [&t.pairs, &t.colors, &t.group_offsets, &t.members, &t.body_offsets, &t.bodies, &t.positions]
}

impl<L: MultiCalls, R: MultiCalls> Agree<'_, L, R> {
    /// One update of both sides' plans and tables. With `cut`, that table is lent one place short.
    fn update_multi(
        &mut self,
        asked: &Input,
        cut: Option<usize>,
        l: &mut (Carried, MultiTables),
        r: &mut (Carried, MultiTables),
    ) -> Update {
        let whole = (l.1.clone(), r.1.clone());
        let lengths = multi_lengths(asked.flags.len(), asked.counts.len(), asked.ends.len());
        if let Some(i) = cut.filter(|i| lengths[*i] > 0) {
            l.1.tables()[i].truncate(lengths[i] - 1);
            r.1.tables()[i].truncate(lengths[i] - 1);
        }
        let (l0, r0) = (l.1.clone(), r.1.clone());
        let left = self.left.update_multi(&mut l.0, asked, &mut l.1);
        let right = self.right.update_multi(&mut r.0, asked, &mut r.1);
        self.tally.calls += 1;
        self.tally.meets("update, counts", if let Update::Refused(n) = left { n } else { 0 });
        let kept = left == Update::Changed || l.1 == l0 && r.1 == r0;
        let tables = l.1.plan.flags == r.1.plan.flags && l.1.counts == r.1.counts && fixed(&l.1.plan) == fixed(&r.1.plan);
        self.check(left == right && l.0 == r.0 && kept && tables, || {
            format!("update of {asked:?}, cut {cut:?}: {left:?} {:?} and {right:?} {:?}, kept {kept}", l.0, r.0)
        });
        if cut.is_some() && left != Update::Changed {
            (l.1, r.1) = whole;
        }
        left
    }

    /// Lookups of positions in both sides' plans: up to 40 constraints and some past them.
    fn lookups_multi(&mut self, l: &(Carried, MultiTables), r: &(Carried, MultiTables)) {
        let c = l.0.constraints;
        for constraint in (0..c).step_by(c / 40 + 1).chain([c, c + 1, 8192, usize::MAX]) {
            let left = self.left.positions_multi(&l.0, &l.1.counts, &l.1.plan.positions, constraint);
            let right = self.right.positions_multi(&r.0, &r.1.counts, &r.1.plan.positions, constraint);
            self.tally.calls += 1;
            self.tally.meets("positions, counts", left.as_ref().err().copied().unwrap_or(0));
            self.check(left == right, || format!("positions of {constraint} in {:?}: {left:?} and {right:?}", l.0));
        }
    }

    fn lend_multi(&mut self, inputs: &[Input], spare: usize) -> MultiTables {
        let most = |size: fn(&Input) -> usize| inputs.iter().map(size).max().unwrap_or(0);
        let lengths = multi_lengths(
            most(|i| i.flags.len()).min(BODIES),
            most(|i| i.counts.len()).min(PAIRS),
            most(|i| i.ends.len()).min(4 * PAIRS),
        );
        let mut tables = MultiTables::default();
        for (mut table, n) in tables.tables().into_iter().zip(lengths) {
            table.fill(n + self.random.below(spare + 1), self.random.next() as u32);
        }
        tables
    }

    /// Updates of one plan, one after another, with lookups after each.
    fn history_multi(&mut self, inputs: &[Input]) {
        let tables = self.lend_multi(inputs, 3);
        let mut l = (Carried::default(), tables.clone());
        let mut r = (Carried::default(), tables);
        self.lookups_multi(&l, &r);
        for asked in inputs {
            self.update_multi(asked, None, &mut l, &mut r);
            self.lookups_multi(&l, &r);
        }
    }

    /// Every table exact, and each in turn one place short: first on a fresh plan, then with equal input; then lookups in short tables.
    fn update_short_multi(&mut self, asked: &Input) {
        let tables = self.lend_multi(std::slice::from_ref(asked), 0);
        let mut l = (Carried::default(), tables.clone());
        let mut r = (Carried::default(), tables);
        let mut cuts: Vec<Option<usize>> = (0..14).map(Some).collect();
        cuts.push(None);
        for cut in [&cuts[..], &cuts[..]].concat() {
            self.update_multi(asked, cut, &mut l, &mut r);
        }
        if l.0.constraints == 0 {
            return;
        }
        for side in [&mut l, &mut r] {
            side.1.plan.positions.truncate(asked.ends.len() - 1);
        }
        self.lookups_multi(&l, &r);
        for side in [&mut l, &mut r] {
            side.1.plan.positions.push(7);
            side.1.counts.truncate(asked.counts.len() - 1);
        }
        self.lookups_multi(&l, &r);
    }

    /// All calls for one frame: its islands, its constraints as one list, its groups' bindings with takes in some order.
    pub fn frame_multi(&mut self, frame: &Frame) {
        self.tally.frames += 1;
        self.islands_of(frame);
        let asked = input(frame);
        let tables = self.lend_multi(std::slice::from_ref(&asked), 3);
        let mut l = (Carried::default(), tables.clone());
        let mut r = (Carried::default(), tables);
        if self.update_multi(&asked, None, &mut l, &mut r) != Update::Changed {
            return;
        }
        self.lookups_multi(&l, &r);
        let t = &l.1.plan;
        for group in (0..l.0.groups).filter(|k| k % (l.0.groups / 3 + 1) == 0) {
            let (at, n) = scope::part(l.0.groups, &t.group_offsets, &t.members, group);
            let members = &t.members[at..at + n];
            let (at, n) = scope::part(l.0.groups, &t.body_offsets, &t.bodies, group);
            let mut takes: Vec<Vec<u16>> = members
                .iter()
                .map(|m| self.left.positions_multi(&l.0, &l.1.counts, &t.positions, *m as usize).unwrap())
                .collect();
            self.random.shuffle(&mut takes);
            takes.truncate(200);
            for _ in 0..4 {
                let at = self.random.below(takes.len() + 1);
                takes.insert(at, some_positions(&mut self.random, n + 1));
            }
            self.takes_multi(&scope::bind(&frame.types, &t.bodies[at..at + n]).1, &takes);
        }
    }

    /// Takes from copies of a binding: each answer, and the binding after it.
    fn takes_multi(&mut self, binding: &Binding, takes: &[Vec<u16>]) {
        let (mut l, mut r) = (binding.clone(), binding.clone());
        for positions in takes {
            let left = self.left.take_multi(&mut l, positions);
            let right = self.right.take_multi(&mut r, positions);
            self.tally.calls += 1;
            self.tally.meets("take, counts", left.as_ref().err().copied().unwrap_or(0));
            self.check(left == right && l == r, || {
                format!("take {positions:?} with count {}: {left:?} and {right:?}", binding.count)
            });
        }
    }

    /// Takes from any value that a binding may have.
    fn forged_takes(&mut self) {
        let random = &mut self.random;
        let binding = Binding {
            bodies: (0..BODIES).map(|_| random.next() as u16).collect(),
            marks: (0..BODIES).map(|_| [0, 1, 2, 3, 255, 1, 1, 0][random.below(8)]).collect(),
            count: [0, 1, 2, 5, 4095, 4096, 4097, usize::MAX][random.below(8)],
        };
        let takes: Vec<Vec<u16>> = (0..16)
            .map(|_| {
                let mut positions = some_positions(random, 7);
                if random.one_in(4) && !positions.is_empty() {
                    let at = random.below(positions.len());
                    positions[at] = [4094, 4095, 4096, 65535][random.below(4)];
                }
                positions
            })
            .collect();
        self.takes_multi(&binding, &takes);
    }

    /// Lookups in tables that nobody planned.
    fn forged_lookups_multi(&mut self) {
        let random = &mut self.random;
        let plan = Carried {
            constraints: [0, 1, 2, 3, 4, 8192, 8193, usize::MAX][random.below(8)],
            ..Carried::default()
        };
        let n = random.below(6);
        let counts: Vec<u8> = (0..n).map(|_| [0, 1, 2, 3, 4, 5, 255, 2][random.below(8)]).collect();
        let n = random.below(14);
        let positions: Vec<u16> = (0..n).map(|_| random.next() as u16).collect();
        let mut tables = MultiTables { counts, ..MultiTables::default() };
        tables.plan.positions = positions;
        let side = (plan, tables);
        self.lookups_multi(&side, &side.clone());
    }

    /// A history whose updates come from a few inputs, so that equal ones meet; now and then one is refused.
    fn random_history_multi(&mut self, most: usize) {
        let random = &mut self.random;
        let n = 2 + random.below(3);
        let some: Vec<Input> = (0..n).map(|_| input(&random_frame(random, most, most))).collect();
        let mut inputs = Vec::new();
        for _ in 0..3 + random.below(6) {
            let mut asked = some[random.below(n)].clone();
            let (b, c, e) = (asked.flags.len(), asked.counts.len(), asked.ends.len());
            match random.below(14) {
                0 => asked.ends.push(0),
                1 => asked.counts.push(2),
                2 if b > 0 => asked.flags[random.below(b)] = 2,
                3 if c > 0 => asked.counts[random.below(c)] = random.next() as u8 % 6,
                4 if e > 0 => asked.ends[random.below(e)] = b as u16,
                5 if e > 1 => asked.ends[e - 1] = asked.ends[e - 2],
                6 if b > 0 => asked.flags[random.below(b)] ^= 1,
                // the same endpoints by other counts
                7 | 8 if c > 1 => {
                    let (i, j) = (random.below(c), random.below(c));
                    if asked.counts[i] > FEWEST && asked.counts[j] < MOST {
                        asked.counts[i] -= 1;
                        asked.counts[j] += 1;
                    }
                }
                9 => asked = Input::default(),
                10 if random.one_in(10) => asked.flags = vec![0; 4097],
                11 if random.one_in(10) => (asked.counts, asked.ends) = (vec![2; 8193], vec![0; 2 * 8193]),
                _ => {}
            }
            inputs.push(asked);
        }
        self.history_multi(&inputs);
    }

    /// A frame with something wrong in the lists of an islands call.
    fn random_islands_multi(&mut self) {
        let random = &mut self.random;
        let mut frame = random_frame(random, 12, 12);
        let b = frame.types.len();
        let counts = frame.counts.as_mut().unwrap();
        let j = counts.len();
        for _ in 0..1 + random.below(2) {
            match random.below(10) {
                0 => frame.manifolds.push(0),
                1 => frame.joints.push(1),
                2 => frame.enabled.push(1),
                3 => drop(frame.enabled.pop()),
                4 if b > 0 => frame.types[random.below(b)] = 4 + random.below(252) as u8,
                5 if !frame.enabled.is_empty() => frame.enabled[0] = 2 + random.below(254) as u8,
                6 if j > 0 => counts[random.below(j)] = [0, 1, 2, 3, 4, 5, 255][random.below(7)],
                // as many endpoints by wrong counts
                7 if j > 1 => {
                    let (x, y) = (random.below(j), random.below(j));
                    counts[x] = counts[x].wrapping_add(1);
                    counts[y] = counts[y].wrapping_sub(1);
                }
                8 if random.one_in(10) => frame.types = vec![2; 4097],
                9 if random.one_in(10) => {
                    *counts = vec![2; 4097];
                    frame.joints = vec![0; 2 * 4097];
                    frame.enabled = vec![1; 4097];
                }
                _ => {}
            }
        }
        self.islands_of(&frame);
    }
}

/// Up to five positions below a number.
fn some_positions(random: &mut Random, below: usize) -> Vec<u16> {
    (0..random.below(6)).map(|_| random.below(below) as u16).collect()
}

/// A random frame whose joints have two to four bodies; mostly accepted, now and then refused 7.
pub fn random_frame(random: &mut Random, most_bodies: usize, most_constraints: usize) -> Frame {
    let mut frame = frames::random_frame(random, most_bodies, most_constraints);
    let b = frame.types.len();
    let joints = frame.joint_ends();
    let (mut ends, mut counts) = (Vec::new(), Vec::new());
    for (pair, enabled) in joints.iter().zip(&frame.enabled) {
        let mut joint = pair.clone();
        for _ in 0..random.below(3) {
            let end = random.below(b.max(1)) as u16;
            // a disabled joint may carry any endpoints
            if *enabled == 0 || !joint.contains(&end) || random.one_in(60) {
                joint.push(end);
            }
        }
        random.shuffle(&mut joint);
        counts.push(joint.len() as u8);
        ends.extend(joint);
    }
    frame.joints = ends;
    frame.counts = Some(counts);
    frame
}

/// Every frame of up to four bodies and one joint of each count: all four types, any endpoints, equal ones and one past the bodies too.
fn every_little(mut give: impl FnMut(Frame)) {
    for b in 0..=4u16 {
        for code in 0..4usize.pow(b as u32) {
            let types: Vec<u8> = (0..b as u32).map(|i| (code / 4usize.pow(i) % 4) as u8).collect();
            for count in FEWEST..=MOST {
                let places = b as usize + 1;
                for choice in 0..places.pow(count as u32) {
                    let ends = (0..count as u32).map(|i| (choice / places.pow(i) % places) as u16).collect();
                    let enabled = vec![(choice % 5 != 0) as u8];
                    give(Frame { types: types.clone(), joints: ends, counts: Some(vec![count]), enabled, ..Frame::default() });
                }
            }
        }
    }
}

// ---- the samples of the page

/// Types, manifolds, joints with their enabled bytes; islands, turns, takes and D; the turns' lines.
type Sample = (&'static [u8], &'static [u16], &'static [(&'static [u16], u8)], [usize; 4], &'static str);

const SAMPLES: &[Sample] = &[
    (&[0, 2, 3, 2], &[], &[(&[0, 1, 2, 3], 1)], [1, 1, 3, 1], "0 0 0 0 1 2 3\n"),
    (
        &[2, 2, 3, 2, 0, 2],
        &[0, 2, 3, 4],
        &[(&[3, 2, 5], 1), (&[1, 0, 4], 1), (&[9, 9], 0), (&[4, 5, 1, 2], 1)],
        [1, 5, 11, 3],
        "0 0 0 0 2\n0 0 1 3 4\n0 1 2 3 2 5\n0 1 3 1 0 4\n0 2 5 4 5 1 2\n",
    ),
    (&[2, 2, 2], &[], &[(&[0, 1, 0], 0)], [0; 4], ""),
    (&[3, 3, 0], &[0, 1], &[(&[0, 1, 2], 1)], [0; 4], ""),
    (&[2, 0, 1, 2, 2], &[3, 4], &[(&[0, 1, 2, 3], 1)], [1, 2, 4, 2], "0 0 0 3 4\n0 1 1 0 1 2 3\n"),
    (
        &[2; 10],
        &[],
        &[(&[0, 1, 2, 3], 1), (&[0, 4, 5, 6], 1), (&[1, 4, 7, 8], 1), (&[2, 5, 7, 9], 1), (&[3, 6, 8, 9], 1)],
        [1, 5, 20, 2],
        "0 0 0 0 1 2 3\n0 1 1 0 4 5 6\n0 2 2 1 4 7 8\n0 3 3 2 5 7 9\n0 4 4 3 6 8 9\n",
    ),
];

fn of_joints(types: &[u8], manifolds: &[u16], joints: &[(&[u16], u8)]) -> Frame {
    Frame {
        types: types.to_vec(),
        manifolds: manifolds.to_vec(),
        joints: joints.iter().flat_map(|(ends, _)| *ends).copied().collect(),
        counts: Some(joints.iter().map(|(ends, _)| ends.len() as u8).collect()),
        enabled: joints.iter().map(|(_, enabled)| *enabled).collect(),
    }
}

/// The frames of the samples, and what the program prints of each.
pub fn samples() -> Vec<(Frame, String)> {
    let sample = |(types, manifolds, joints, [islands, turns, takes, degree], lines): &Sample| {
        let head = format!("islands {islands} turns {turns} takes {takes} degree {degree}\n");
        (of_joints(types, manifolds, joints), head + lines)
    };
    SAMPLES.iter().map(sample).collect()
}

/// Sample 10: a binding of types 2, 2, 0, 3, 2; each take from a fresh copy, its answer, and the marks after it.
type Taken = (&'static [u16], Result<&'static [(u16, bool)], u8>, [u8; 5]);

const BOUND: [u8; 5] = [1, 1, 0, 1, 1];

const TAKES: &[Taken] = &[
    (&[4], Err(5), BOUND),
    (&[0, 1, 2, 3, 4], Err(5), BOUND),
    (&[3, 3, 3, 3, 3], Err(5), BOUND),
    (&[3, 2, 0], Ok(&[(3, true), (2, false), (0, true)]), [2, 1, 0, 2, 1]),
    (&[4, 2, 4], Err(9), BOUND),
    (&[1, 5], Err(9), BOUND),
    (&[1, 2, 5], Err(9), BOUND),
    (&[4, 1, 3, 2], Ok(&[(4, true), (1, true), (3, true), (2, false)]), [1, 2, 0, 2, 2]),
];

/// The page's takes one after another from one binding.
const TAKES_IN_TURN: &[Taken] = &[
    (&[3, 2, 0], Ok(&[(3, true), (2, false), (0, true)]), [2, 1, 0, 2, 1]),
    (&[1, 2, 0], Err(10), [2, 1, 0, 2, 1]),
    (&[4, 3, 1], Err(11), [2, 2, 0, 2, 1]),
    (&[1, 4, 2], Err(10), [2, 2, 0, 2, 1]),
];

fn take_samples<L: MultiCalls, R: MultiCalls>(agree: &mut Agree<L, R>) {
    let bound = scope::bind(&[2, 2, 0, 3, 2], &[0, 1, 2, 3, 4]).1;
    let (mut l, mut r) = (bound.clone(), bound.clone());
    for (fresh, (positions, answer, marks)) in
        TAKES.iter().map(|t| (true, t)).chain(TAKES_IN_TURN.iter().map(|t| (false, t)))
    {
        if fresh {
            (l, r) = (bound.clone(), bound.clone());
        } else if *positions == TAKES_IN_TURN[0].0 {
            (l, r) = (bound.clone(), bound.clone());
        }
        let known = answer.map(|handed| handed.to_vec());
        let answers = [agree.left.take_multi(&mut l, positions), agree.right.take_multi(&mut r, positions)];
        for (given, binding) in answers.into_iter().zip([&l, &r]) {
            let same = given == known && binding.marks[..5] == *marks;
            agree.check(same, || format!("sample take {positions:?}: {given:?} {:?}", &binding.marks[..5]));
        }
    }
}

/// Sample 11: six flags 1, the endpoints 0 to 5 by changing counts, on one plan.
fn coloring_samples<L: MultiCalls, R: MultiCalls>(agree: &mut Agree<L, R>) {
    let of = |counts: &[u8]| Input { flags: vec![1; 6], ends: (0..6).collect(), counts: counts.to_vec() };
    let tables = agree.lend_multi(&[of(&[2, 2, 2])], 0);
    let mut l = (Carried::default(), tables.clone());
    let mut r = (Carried::default(), tables);
    let places = |agree: &mut Agree<L, R>, l: &(Carried, MultiTables), known: &[&[u16]]| {
        for (i, known) in known.iter().enumerate() {
            let given = agree.left.positions_multi(&l.0, &l.1.counts, &l.1.plan.positions, i);
            agree.check(given.as_deref() == Ok(*known), || format!("sample positions of {i}: {given:?}"));
        }
    };
    let steps: [(&[u8], Update, &[&[u16]]); 5] = [
        (&[2, 4], Update::Changed, &[&[0, 1], &[2, 3, 4, 5]]),
        (&[3, 3], Update::Changed, &[&[0, 1, 2], &[3, 4, 5]]),
        (&[3, 3], Update::Unchanged, &[&[0, 1, 2], &[3, 4, 5]]),
        (&[1, 5], Update::Refused(5), &[&[0, 1, 2], &[3, 4, 5]]),
        (&[1, 4], Update::Refused(4), &[&[0, 1, 2], &[3, 4, 5]]),
    ];
    for (counts, known, positions) in steps {
        let given = agree.update_multi(&of(counts), None, &mut l, &mut r);
        agree.check(given == known, || format!("sample update by {counts:?}: {given:?}"));
        agree.lookups_multi(&l, &r);
        places(agree, &l, positions);
    }
    for side in [&mut l, &mut r] {
        side.1.counts[0] = 9;
    }
    agree.lookups_multi(&l, &r);
    places(agree, &l, &[&[0, 1], &[2, 3, 4]]);
    let given = agree.update_multi(&of(&[3, 3]), None, &mut l, &mut r);
    agree.check(given == Update::Changed, || format!("sample update of a changed count: {given:?}"));
    // remembered 9, the input 2, all else equal
    agree.update_multi(&of(&[2, 4]), None, &mut l, &mut r);
    for side in [&mut l, &mut r] {
        side.1.counts[0] = 9;
    }
    let given = agree.update_multi(&of(&[2, 4]), None, &mut l, &mut r);
    agree.check(given == Update::Unchanged, || format!("sample update of a count that reads as two: {given:?}"));
}

/// Sample 12.
fn island_samples<L: MultiCalls, R: MultiCalls>(agree: &mut Agree<L, R>) {
    let frame = of_joints(&[2, 2, 0], &[], &[(&[2, 0, 1], 1)]);
    for (answer, t) in agree.islands_of(&frame) {
        let same = answer == (0, 1) && t.bodies.starts_with(&[0, 0, NONE]) && t.joints.starts_with(&[0]);
        agree.check(same, || format!("sample islands: {answer:?} {t:?}"));
    }
    let lists = |counts: &[u8], ends: usize, enabled: &[u8]| Frame {
        types: vec![2; 6],
        joints: (0..ends as u16).collect(),
        counts: Some(counts.to_vec()),
        enabled: enabled.to_vec(),
        ..Frame::default()
    };
    let asked = [
        (lists(&[5], 5, &[1]), 5),
        (lists(&[0], 0, &[1]), 5),
        (lists(&[3], 3, &[1, 1]), 4),
        (lists(&[1, 5], 6, &[1, 1]), 5),
        (lists(&[1, 4], 6, &[1, 1]), 4),
        (lists(&[5], 5, &[0]), 5),
        (lists(&[2; 4096], 8192, &[0; 4096]), 0),
        (lists(&[2; 4097], 8194, &[0; 4097]), 3),
        (lists(&[255; 4096], 0, &[0; 4096]), 4),
    ];
    for (frame, number) in asked {
        for (answer, _) in agree.islands_of(&frame) {
            agree.check(answer.0 == number, || format!("sample islands of {frame:?}: {answer:?}"));
        }
    }
}

// ---- files

/// Sample 7: a file, and each of its edits with the number that refuses it. The length field is mended unless an edit is of it.
const FILE: &str = "02 0000001B 0003 0001 0002 02 02 02 0000 0001 01 03 0000 0001 0002 01 02 0001 0002";
const FILE_PRINT: &str = "islands 1 turns 3 takes 7 degree 3\n0 0 0 0 1\n0 1 1 0 1 2\n0 2 2 1 2\n";
const TYPES_AT: usize = 11;
const FIRST_AT: usize = 18;
const SECOND_AT: usize = 26;

fn edited(change: impl Fn(&mut Vec<u8>)) -> Vec<u8> {
    let mut file = bytes(FILE);
    change(&mut file);
    let rest = (file.len() - 5) as u32;
    file[1..5].copy_from_slice(&rest.to_be_bytes());
    file
}

fn edits() -> Vec<(Vec<u8>, u8)> {
    let set = |at: usize, byte: u8, more: bool| {
        edited(|file| {
            file[at] = byte;
            if more {
                file.push(0);
            }
        })
    };
    let mut longer_field = bytes(FILE);
    longer_field[4] += 1;
    vec![
        (edited(|file| file.push(0)), 4),
        (edited(|file| file.truncate(file.len() - 1)), 4),
        (set(FIRST_AT + 1, 5, false), 5),
        (set(SECOND_AT + 1, 1, true), 5),
        (
            edited(|file| {
                file[SECOND_AT + 1] = 1;
                file.truncate(SECOND_AT + 2);
            }),
            5,
        ),
        (edited(|file| file.truncate(SECOND_AT + 1)), 4),
        (edited(|file| file.truncate(FIRST_AT + 3)), 4),
        (set(FIRST_AT, 2, true), 4),
        (set(FIRST_AT, 2, false), 5),
        (set(TYPES_AT, 4, true), 4),
        (set(TYPES_AT, 4, false), 5),
        (set(TYPES_AT + 2, 3, false), 0),
        (set(FIRST_AT + 1, 4, false), 5),
        (set(FIRST_AT + 1, 2, false), 4),
        (longer_field, 2),
        (set(0, 3, false), 1),
        (set(0, 1, false), 4),
        (
            edited(|file| {
                file[9..11].copy_from_slice(&4098u16.to_be_bytes());
                file[FIRST_AT + 1] = 9;
            }),
            3,
        ),
        (edited(|file| file[7..9].copy_from_slice(&99u16.to_be_bytes())), 4),
    ]
}

/// Inputs for the gate's programs: the samples' files, the edits, and some random frames.
pub fn files() -> Vec<Vec<u8>> {
    let mut random = Random(2026);
    let mut all: Vec<Vec<u8>> = samples().iter().map(|(frame, _)| scope::write(frame)).collect();
    all.push(scope::write(&of_joints(&[2, 2, 2], &[], &[(&[0, 1, 0], 1)])));
    all.push(bytes(FILE));
    all.extend(edits().into_iter().map(|(file, _)| file));
    all.extend((0..4).map(|_| scope::write(&random_frame(&mut random, 30, 40))));
    all
}

/// Version 2 files through the run and the programs: the samples with their prints, then little, random, damaged and the longest ones.
pub fn runs<L: MultiCalls, R: MultiCalls>(agree: &mut Agree<L, R>, more: usize) {
    for (frame, print) in samples() {
        agree.printed(&scope::write(&frame), print.as_bytes());
        agree.run_short(&scope::write(&frame));
    }
    agree.printed(&bytes(FILE), FILE_PRINT.as_bytes());
    for (file, number) in edits() {
        let refusal = agree.file(&file).refusal;
        agree.check(refusal == number, || format!("sample file {}: {refusal}, not {number}", shorten(&file)));
        agree.print(&file);
    }
    for (frame, _) in samples() {
        let file = scope::write(&frame);
        let mut at = file.len() - 2 * frame.joints.len() - 2 * frame.joint_count();
        for ends in frame.joint_ends() {
            for count in [0, 1, 5, 255] {
                let mut bad = file.clone();
                bad[at + 1] = count;
                let refusal = agree.file(&bad).refusal;
                agree.check(refusal == 5, || format!("a count of {count} in {}: {refusal}", shorten(&bad)));
            }
            at += 2 + 2 * ends.len();
        }
    }
    let refused = of_joints(&[2, 2, 2], &[], &[(&[0, 1, 0], 1)]);
    agree.printed(&scope::write(&refused), b"refused 7\n");
    let longest = scope::write(&frames::longest());
    let report = agree.file(&longest);
    let known = Report { refusal: 0, islands: 1024, turns: 8192, takes: 24576, degree: 6 };
    agree.check(report == known, || format!("the longest file: {report:?}"));
    for (_, file) in frames::limit_files() {
        agree.file(&file);
        agree.print(&file);
    }
    let mut count = 0;
    every_little(|frame| {
        agree.file(&scope::write(&frame));
        count += 1;
        if count % 997 == 0 {
            agree.print(&scope::write(&frame));
        }
    });
    for i in 0..10_000 * more {
        let file = scope::write(&random_frame(&mut agree.random, 4096, 4096));
        agree.file(&file);
        if i % 15 == 0 {
            agree.print(&file);
        }
    }
    for _ in 0..60 * more {
        let file = scope::write(&random_frame(&mut agree.random, 9, 6));
        agree.run_short(&file);
        let mut random = Random(agree.random.next());
        let mut count = 0;
        frames::damaged(&mut random, &file, 100, |file| {
            agree.file(file);
            count += 1;
            if count % 15 == 0 {
                agree.print(file);
            }
        });
    }
}

/// The counts of a frame's joints, each in turn out of its range.
fn bad_counts(frame: &Frame, mut give: impl FnMut(Frame)) {
    for place in 0..frame.joint_count() {
        for count in [0, 1, 5, 255] {
            let mut bad = frame.clone();
            bad.counts.as_mut().unwrap()[place] = count;
            give(bad);
        }
    }
}

/// All that is asked of the calls with counts.
pub fn calls<L: MultiCalls, R: MultiCalls>(agree: &mut Agree<L, R>, more: usize) {
    take_samples(agree);
    coloring_samples(agree);
    island_samples(agree);
    for (frame, _) in samples() {
        agree.frame_multi(&frame);
        bad_counts(&frame, |mut bad| {
            agree.islands_of(&bad);
            // with as many endpoints as the counts make
            bad.joints.resize(scope::sum(bad.counts.as_ref().unwrap()), 0);
            agree.islands_of(&bad);
            let counts = [vec![FEWEST; bad.manifold_count()], bad.counts.clone().unwrap()].concat();
            let ends = [&bad.manifolds[..], &bad.joints[..]].concat();
            agree.history_multi(&[input(&frame), Input { flags: bad.flags(), ends, counts }]);
        });
    }
    every_little(|frame| agree.frame_multi(&frame));
    for c in [8192, 8193] {
        agree.history_multi(&[Input { flags: vec![0; 4], ends: [0, 1, 2, 3].repeat(c), counts: vec![4; c] }]);
    }
    for _ in 0..10_000 * more {
        let frame = random_frame(&mut agree.random, 4096, 4096);
        agree.frame_multi(&frame);
    }
    for _ in 0..2_000 * more {
        agree.random_history_multi(40);
        agree.random_islands_multi();
        agree.forged_takes();
        agree.forged_lookups_multi();
    }
    for _ in 0..100 * more {
        let frame = random_frame(&mut agree.random, 9, 6);
        agree.islands_short(&frame);
        agree.update_short_multi(&input(&frame));
    }
}

/// The refusals that each of these calls can answer, and 0.
pub const REFUSALS: &[(&str, &[u8])] = &[
    ("update, counts", &[0, 3, 4, 5, 6, 7]),
    ("positions, counts", &[0, 3, 6, 12]),
    ("take, counts", &[0, 5, 9, 10, 11]),
];
