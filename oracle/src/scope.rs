//! Document 01, sentence by sentence, and requests 3, 6, 7 and 11: the side that answers where the Rust cannot be asked (limits,
//! numbers, question 6, what lies beyond, the roots and sizes of sets, the file, the run, the print, test lifts), and a second
//! opinion where it can. Written for plainness, not speed.
use crate::calls::{self, *};
use crate::frames;
use std::cmp::Ordering;
use std::collections::{BTreeMap, BTreeSet};

// ---- the questions

fn types_known(types: &[u8]) -> bool {
    types.iter().all(|t| *t <= LOGGED)
}

fn bits(bytes: &[u8]) -> bool {
    bytes.iter().all(|e| *e <= 1)
}

/// Question 7 of one live constraint: two to four endpoints, all different, and below the bodies.
pub fn fits(ends: &[u16], bodies: usize) -> bool {
    (FEWEST as usize..=MOST as usize).contains(&ends.len())
        && ends.iter().all(|end| (*end as usize) < bodies)
        && ends.iter().collect::<BTreeSet<_>>().len() == ends.len()
}

/// Question 7 of a frame: a disabled joint may carry any endpoints.
pub fn endpoints_right(frame: &Frame) -> bool {
    frame.ends().iter().enumerate().all(|(n, ends)| !frame.live(n) || fits(ends, frame.types.len()))
}

/// Question 5 of counts.
pub fn counts_known(counts: &[u8]) -> bool {
    counts.iter().all(|count| (FEWEST..=MOST).contains(count))
}

/// How many endpoints counts make.
pub fn sum(counts: &[u8]) -> usize {
    counts.iter().map(|count| *count as usize).sum()
}

/// Question 4 of a list of joints: pairs, or as many endpoints as the counts make.
fn joints_agree(frame: &Frame) -> bool {
    match &frame.counts {
        None => frame.joints.len() % 2 == 0,
        Some(counts) => sum(counts) == frame.joints.len(),
    }
}

/// Questions 3 to 6 of an islands call.
pub fn islands_early(frame: &Frame, tables: &mut IslandTables) -> u8 {
    let (b, m, j) = (frame.types.len(), frame.manifold_count(), frame.joint_count());
    if b > BODIES || m > MANIFOLDS || j > JOINTS {
        return 3;
    }
    if frame.manifolds.len() % 2 != 0 || !joints_agree(frame) || frame.enabled.len() != j {
        return 4;
    }
    let counts = frame.counts.as_deref().unwrap_or_default();
    if !types_known(&frame.types) || !bits(&frame.enabled) || !counts_known(counts) {
        return 5;
    }
    if !roomy(tables, &island_lengths(b, m, j)) {
        return 6;
    }
    0
}

/// Questions 3 to 6 of an update.
pub fn update_early(flags: &[u8], pairs: &[u16], tables: &mut PlanTables) -> u8 {
    let c = pairs.len() / 2;
    if flags.len() > BODIES || c > PAIRS {
        return 3;
    }
    if pairs.len() % 2 != 0 {
        return 4;
    }
    if !bits(flags) {
        return 5;
    }
    if !roomy(tables, &plan_lengths(flags.len(), c)) {
        return 6;
    }
    0
}

/// Questions 3 and 5 of a bind; 8 follows.
pub fn bind_early(types: &[u8]) -> u8 {
    if types.len() > BODIES {
        3
    } else if !types_known(types) {
        5
    } else {
        0
    }
}

fn rises_below(list: &[u16], bodies: usize) -> bool {
    list.windows(2).all(|w| w[0] < w[1]) && list.last().is_none_or(|last| (*last as usize) < bodies)
}

/// Questions 3, 6 and 12 of a lookup of positions.
fn positions_refusal(constraints: usize, table: &[u16], constraint: usize) -> u8 {
    if constraints > PAIRS {
        3
    } else if table.len() < 2 * constraints {
        6
    } else if constraint >= constraints {
        12
    } else {
        0
    }
}

// ---- the file

fn half(bytes: &[u8], at: usize) -> u16 {
    u16::from_be_bytes([bytes[at], bytes[at + 1]])
}

/// The joints of a version 2 file, read in order from a place on: a wrong count is refused 5 when it is met, an entry cut off and what is left over 4.
fn read_entries(bytes: &[u8], mut at: usize, joints: usize, frame: &mut Frame) -> Result<(), u8> {
    let mut counts = Vec::new();
    for _ in 0..joints {
        let entry = bytes.get(at..).unwrap_or_default();
        let [enabled, count, ref ends @ ..] = *entry else { return Err(4) };
        if !counts_known(&[count]) {
            return Err(5);
        }
        let size = 2 * count as usize;
        if ends.len() < size {
            return Err(4);
        }
        frame.joints.extend(ends[..size].chunks(2).map(|end| half(end, 0)));
        frame.enabled.push(enabled);
        counts.push(count);
        at += 2 + size;
    }
    frame.counts = Some(counts);
    if at == bytes.len() { Ok(()) } else { Err(4) }
}

/// The joints of a version 1 file.
fn read_pairs(bytes: &[u8], at: usize, joints: usize, frame: &mut Frame) -> Result<(), u8> {
    if bytes.len() != at + 5 * joints {
        return Err(4);
    }
    for joint in bytes[at..].chunks(5) {
        frame.joints.extend([half(joint, 0), half(joint, 2)]);
        frame.enabled.push(joint[4]);
    }
    Ok(())
}

/// Questions 1 to 5 of a file, and the frame it holds.
pub fn read(bytes: &[u8]) -> Result<Frame, u8> {
    if bytes.is_empty() || ![1, 2].contains(&bytes[0]) {
        return Err(1);
    }
    if bytes.len() < 11 {
        return Err(2);
    }
    let length = u32::from_be_bytes(bytes[1..5].try_into().unwrap()) as usize;
    if length != bytes.len() - 5 {
        return Err(2);
    }
    let [b, m, j] = [5, 7, 9].map(|at| half(bytes, at) as usize);
    if b > BODIES || m > MANIFOLDS || j > JOINTS {
        return Err(3);
    }
    let mut frame = Frame::default();
    let at = 11 + b + 4 * m;
    if bytes[0] == 1 { read_pairs(bytes, at, j, &mut frame) } else { read_entries(bytes, at, j, &mut frame) }?;
    frame.types = bytes[11..11 + b].to_vec();
    for pair in bytes[11 + b..at].chunks(4) {
        frame.manifolds.extend([half(pair, 0), half(pair, 2)]);
    }
    if !types_known(&frame.types) || !bits(&frame.enabled) {
        return Err(5);
    }
    Ok(frame)
}

/// The file of a frame whose lists agree: version 2 if its joints have counts.
pub fn write(frame: &Frame) -> Vec<u8> {
    let (b, m, j) = (frame.types.len(), frame.manifold_count(), frame.joint_count());
    let counted = frame.counts.is_some();
    let mut rest = frame.types.clone();
    for (n, ends) in frame.ends().iter().enumerate() {
        if n >= m && counted {
            rest.extend([frame.enabled[n - m], ends.len() as u8]);
        }
        rest.extend(ends.iter().flat_map(|end| end.to_be_bytes()));
        if n >= m && !counted {
            rest.push(frame.enabled[n - m]);
        }
    }
    let mut bytes = vec![1 + counted as u8];
    bytes.extend(((6 + rest.len()) as u32).to_be_bytes());
    for n in [b, m, j] {
        bytes.extend((n as u16).to_be_bytes());
    }
    bytes.extend(rest);
    bytes
}

// ---- islands

/// The islands of a frame that passes the questions: the count, the labels of bodies and of constraints, and the root of
/// each body's set.
pub struct Islands {
    pub count: usize,
    pub bodies: Vec<u16>,
    pub constraints: Vec<u16>,
    pub roots: Vec<u16>,
}

/// Request 7: the sets of two bodies become one, the smaller one hung to the root of the larger; on equal sizes the lower root wins.
fn hang(roots: &mut [u16], a: u16, b: u16) {
    let [p, q] = [a, b].map(|body| roots[body as usize]);
    if p == q {
        return;
    }
    let size = |root: u16| roots.iter().filter(|r| **r == root).count();
    let winner = match size(p).cmp(&size(q)) {
        Ordering::Less => q,
        Ordering::Equal => p.min(q),
        Ordering::Greater => p,
    };
    for root in roots.iter_mut().filter(|root| [p, q].contains(*root)) {
        *root = winner;
    }
}

/// The root of each body's set. The constraints join sets in their order: the first dynamic endpoint with each other one.
pub fn roots(frame: &Frame) -> Vec<u16> {
    let mut roots: Vec<u16> = (0..frame.types.len() as u16).collect();
    for (_, ends) in frame.ends().iter().enumerate().filter(|(n, _)| frame.live(*n)) {
        let dynamic: Vec<u16> = ends.iter().copied().filter(|end| frame.dynamic(*end)).collect();
        for other in dynamic.iter().skip(1) {
            hang(&mut roots, dynamic[0], *other);
        }
    }
    roots
}

/// The number of bodies in the set of each root; 0 for a body that is no root.
pub fn sizes(roots: &[u16]) -> Vec<u16> {
    let mut sizes = vec![0; roots.len()];
    for root in roots {
        sizes[*root as usize] += 1;
    }
    sizes
}

/// The lowest body of each body's set.
pub fn lowest(roots: &[u16]) -> Vec<u16> {
    let mut lowest = BTreeMap::new();
    roots.iter().zip(0..).map(|(root, body)| *lowest.entry(*root).or_insert(body)).collect()
}

pub fn islands(frame: &Frame) -> Islands {
    let b = frame.types.len();
    let mut touched = vec![false; b];
    let mut near: Vec<Vec<u16>> = vec![Vec::new(); b];
    let all = frame.ends();
    for (_, ends) in all.iter().enumerate().filter(|(n, _)| frame.live(*n)) {
        let dynamic: Vec<u16> = ends.iter().copied().filter(|end| frame.dynamic(*end)).collect();
        for end in &dynamic {
            touched[*end as usize] = true;
            near[*end as usize].extend(&dynamic);
        }
    }
    // a set is what can be reached from its lowest body
    let mut lowest: Vec<Option<u16>> = vec![None; b];
    for body in 0..b as u16 {
        let mut open = vec![body];
        while let Some(next) = open.pop() {
            if lowest[next as usize].is_none() {
                lowest[next as usize] = Some(body);
                open.extend(&near[next as usize]);
            }
        }
    }
    let lowest: Vec<u16> = lowest.into_iter().map(|l| l.unwrap()).collect();
    let heads: BTreeSet<u16> = (0..b).filter(|i| touched[*i]).map(|i| lowest[i]).collect();
    let number: BTreeMap<u16, u16> = heads.iter().enumerate().map(|(i, head)| (*head, i as u16)).collect();
    let bodies: Vec<u16> = (0..b).map(|i| if touched[i] { number[&lowest[i]] } else { NONE }).collect();
    let label = |n: usize| match all[n].iter().find(|end| frame.live(n) && frame.dynamic(**end)) {
        Some(end) => bodies[*end as usize],
        None => NONE,
    };
    let constraints = (0..frame.constraint_count()).map(label).collect();
    Islands { count: number.len(), bodies, constraints, roots: roots(frame) }
}

/// The tables of an islands call after acceptance, or after 7. Here a parent is the set's root; a size that is free stays as
/// it was.
pub fn write_islands(frame: &Frame, islands: Option<&Islands>, tables: &mut IslandTables) {
    let (b, m, j) = (frame.types.len(), frame.manifold_count(), frame.joint_count());
    match islands {
        Some(islands) => {
            tables.parents[..b].copy_from_slice(&islands.roots);
            for (table, size) in tables.sizes.iter_mut().zip(sizes(&islands.roots)).filter(|(_, size)| *size > 0) {
                *table = size;
            }
            tables.bodies[..b].copy_from_slice(&islands.bodies);
            tables.manifolds[..m].copy_from_slice(&islands.constraints[..m]);
            tables.joints[..j].copy_from_slice(&islands.constraints[m..]);
        }
        None => {
            tables.parents[..b].copy_from_slice(&(0..b as u16).collect::<Vec<_>>());
            tables.sizes[..b].fill(1);
            tables.bodies[..b].fill(NONE);
            tables.manifolds[..m].fill(NONE);
            tables.joints[..j].fill(NONE);
        }
    }
}

// ---- groups

/// The coloring of flags and constraints, each the list of its endpoints, that pass the questions.
#[derive(Clone, Debug, Default, PartialEq)]
pub struct Coloring {
    pub flags: Vec<u8>,
    pub ends: Vec<Vec<u16>>,
    pub colors: Vec<u16>,
    /// each group's members and bodies, rising
    pub members: Vec<Vec<u16>>,
    pub bodies: Vec<Vec<u16>>,
    pub positions: Vec<Vec<u16>>,
}

pub fn coloring(flags: &[u8], all: Vec<Vec<u16>>) -> Coloring {
    let mut coloring = Coloring { flags: flags.to_vec(), ends: all, ..Coloring::default() };
    // the colors of the earlier constraints on each body with flag 1
    let mut on: Vec<Vec<u16>> = vec![Vec::new(); flags.len()];
    for (i, ends) in coloring.ends.iter().enumerate() {
        let dynamic: Vec<usize> = ends.iter().map(|e| *e as usize).filter(|e| flags[*e] == 1).collect();
        let mut taken = vec![false; coloring.members.len() + 1];
        for color in dynamic.iter().flat_map(|body| &on[*body]) {
            taken[*color as usize] = true;
        }
        let color = taken.iter().position(|t| !t).unwrap();
        for body in dynamic {
            on[body].push(color as u16);
        }
        coloring.colors.push(color as u16);
        if color == coloring.members.len() {
            coloring.members.push(Vec::new());
        }
        coloring.members[color].push(i as u16);
    }
    for members in &coloring.members {
        let ends = members.iter().flat_map(|i| &coloring.ends[*i as usize]);
        coloring.bodies.push(ends.copied().collect::<BTreeSet<u16>>().into_iter().collect());
    }
    let mut place = BTreeMap::new();
    for (group, bodies) in coloring.bodies.iter().enumerate() {
        for (p, body) in bodies.iter().enumerate() {
            place.insert((group as u16, *body), p as u16);
        }
    }
    for (color, ends) in coloring.colors.iter().zip(&coloring.ends) {
        coloring.positions.push(ends.iter().map(|end| place[&(*color, *end)]).collect());
    }
    coloring
}

/// Lists that stand one after another from place 0, and where each starts, with the end.
fn in_a_row(lists: &[Vec<u16>]) -> (Vec<u16>, Vec<u16>) {
    let mut offsets = vec![0];
    for list in lists {
        offsets.push(offsets.last().unwrap() + list.len() as u16);
    }
    (lists.concat(), offsets)
}

fn put(table: &mut [u16], values: &[u16]) {
    table[..values.len()].copy_from_slice(values);
}

impl Coloring {
    pub fn carried(&self) -> Carried {
        Carried {
            bodies: self.flags.len(),
            constraints: self.colors.len(),
            groups: self.members.len(),
            largest: self.members.iter().map(|m| m.len()).max().unwrap_or(0),
        }
    }

    /// The tables after "changed": what is free stays here as it was.
    pub fn write(&self, tables: &mut PlanTables) {
        tables.flags[..self.flags.len()].copy_from_slice(&self.flags);
        put(&mut tables.pairs, &self.ends.concat());
        put(&mut tables.colors, &self.colors);
        let (members, offsets) = in_a_row(&self.members);
        put(&mut tables.group_offsets, &offsets);
        put(&mut tables.members, &members);
        let (bodies, offsets) = in_a_row(&self.bodies);
        put(&mut tables.body_offsets, &offsets);
        put(&mut tables.bodies, &bodies);
        put(&mut tables.positions, &self.positions.concat());
    }
}

/// The part of a table from one offset to the next; empty if there is no such group, or if its offsets are missing or
/// don't lie in order inside the table.
pub fn part(groups: usize, offsets: &[u16], table: &[u16], group: usize) -> Part {
    if group >= groups || group + 1 >= offsets.len() {
        return (0, 0);
    }
    let (start, end) = (offsets[group] as usize, offsets[group + 1] as usize);
    if start >= end || end > table.len() {
        return (0, 0);
    }
    (start, end - start)
}

// ---- bindings

pub fn bind(types: &[u8], list: &[u16]) -> (u8, Binding) {
    let mut binding = Binding::empty();
    let mut refusal = bind_early(types);
    if refusal == 0 && !rises_below(list, types.len()) {
        refusal = 8;
    }
    if refusal == 0 {
        for (place, body) in list.iter().enumerate() {
            binding.bodies[place] = *body;
            binding.marks[place] = conflicts(types[*body as usize]) as u8;
        }
        binding.count = list.len();
    }
    (refusal, binding)
}

/// A take of two to four positions: 5 for another number of them, 9 for a bad one; then by rising place, 10 if the lowest is gone, 11 if a
/// higher one is. The bodies are handed in the order asked.
pub fn take_many(binding: &mut Binding, positions: &[usize]) -> Result<Vec<(u16, bool)>, u8> {
    if !(FEWEST as usize..=MOST as usize).contains(&positions.len()) {
        return Err(5);
    }
    let rising: BTreeSet<usize> = positions.iter().copied().collect();
    if rising.len() < positions.len() || rising.iter().any(|p| *p >= binding.count || *p >= BODIES) {
        return Err(9);
    }
    let handed = positions.iter().map(|p| (binding.bodies[*p], binding.marks[*p] == 1)).collect();
    for (i, place) in rising.into_iter().enumerate() {
        match binding.marks[place] {
            0 => {}
            1 => binding.marks[place] = 2,
            _ => return Err(if i == 0 { 10 } else { 11 }),
        }
    }
    Ok(handed)
}

pub fn take(binding: &mut Binding, positions: [usize; 2]) -> Take {
    match take_many(binding, &positions) {
        Ok(handed) => Take::Taken([handed[0], handed[1]]),
        Err(number) => Take::Refused(number),
    }
}

// ---- the run

/// The refusal of a run's questions, or the frame; 7 with the frame, since it changes tables.
pub fn run_questions(file: &[u8], tables: &mut RunTables) -> Result<Frame, (u8, Option<Frame>)> {
    let frame = read(file).map_err(|number| (number, None))?;
    if !roomy(tables, &run_lengths_of(&frame)) {
        return Err((6, None));
    }
    if !endpoints_right(&frame) {
        return Err((7, Some(frame)));
    }
    Ok(frame)
}

/// Whether a constraint has an island: it is live and has a dynamic endpoint.
fn has_island(frame: &Frame, number: usize, ends: &[u16]) -> bool {
    frame.live(number) && ends.iter().any(|end| frame.dynamic(*end))
}

/// D: the most constraints with an island on one dynamic or logged body.
pub fn degree(frame: &Frame) -> usize {
    let mut on = vec![0; frame.types.len()];
    for (_, ends) in frame.ends().iter().enumerate().filter(|(n, ends)| has_island(frame, *n, ends)) {
        for end in ends.iter().filter(|end| frame.conflicts(**end)) {
            on[*end as usize] += 1;
        }
    }
    on.into_iter().max().unwrap_or(0)
}

/// The constraints of an island, in rising number.
pub fn of_island(labels: &[u16], island: usize) -> Vec<usize> {
    (0..labels.len()).filter(|n| labels[*n] as usize == island).collect()
}

// ---- the print

pub fn print_report(frame: &Frame, report: Report, turns: &[u16]) -> Vec<u8> {
    let mut text =
        format!("islands {} turns {} takes {} degree {}\n", report.islands, report.turns, report.takes, report.degree);
    let all = frame.ends();
    for turn in turns[..3 * report.turns].chunks(3) {
        let fields: Vec<String> = turn.iter().chain(&all[turn[2] as usize]).map(|n| n.to_string()).collect();
        text += &(fields.join(" ") + "\n");
    }
    text.into_bytes()
}

pub fn print_refusal(number: u8) -> Vec<u8> {
    format!("refused {number}\n").into_bytes()
}

/// The print of a side: above the longest frame's length 3 before any question, else its run with room enough.
pub fn print_by(side: &impl Calls, file: &[u8]) -> Vec<u8> {
    if file.len() > FILE_BYTES {
        return print_refusal(3);
    }
    let mut tables = RunTables::default();
    if let Ok(frame) = read(file) {
        for (mut table, n) in tables.tables().into_iter().zip(run_lengths_of(&frame)) {
            table.fill(n, 0);
        }
    }
    let report = side.run(file, &mut tables);
    match report.refusal {
        0 => print_report(&read(file).unwrap(), report, &tables.turns),
        number => print_refusal(number),
    }
}

// ---- test lifts from a number (request 3)

/// Questions 3, 13 and 6 of the call that makes a lift, in this order.
fn lift_refusal([b, m, j]: [usize; 3], room: usize) -> u8 {
    if b > BODIES || m > MANIFOLDS || j > JOINTS {
        3
    } else if b < 2 && m + j > 0 {
        13
    } else if room < file_length(b, m, j) {
        6
    } else {
        0
    }
}

/// The lift's file stands from place 0; the bytes past it, and all of them after a refusal, are kept.
pub fn generate(seed: u32, sizes: [usize; 3], bytes: &mut [u8]) -> (u8, usize) {
    let refusal = lift_refusal(sizes, bytes.len());
    if refusal != 0 {
        return (refusal, 0);
    }
    let [b, m, j] = sizes;
    let file = write(&frames::lift(seed, b, m, j));
    bytes[..file.len()].copy_from_slice(&file);
    (0, file.len())
}

/// A number of a line: 1 to 19 decimal digits and nothing else.
fn decimal(word: &[u8]) -> Option<usize> {
    let known = (1..=19).contains(&word.len()) && word.iter().all(u8::is_ascii_digit);
    known.then(|| word.iter().fold(0, |number, digit| 10 * number + (digit - b'0') as usize))
}

/// What a line asks for: seed, bodies, manifolds and joints, parted by one space each, up to a newline or the end.
fn lift_asked(text: &[u8]) -> Option<(u32, [usize; 3])> {
    let line = text.split(|byte| *byte == b'\n').next()?;
    let numbers: Option<Vec<usize>> = line.split(|byte| *byte == b' ').map(decimal).collect();
    let [seed, b, m, j]: [usize; 4] = numbers?.try_into().ok()?;
    Some((seed.try_into().ok()?, [b, m, j]))
}

/// The lift that a line asks for, or its refusal; the program has room for the longest frame.
pub fn lift_line(text: &[u8]) -> Option<Vec<u8>> {
    let (seed, sizes) = lift_asked(text)?;
    let mut bytes = vec![0; PAIR_FILE_BYTES];
    match generate(seed, sizes, &mut bytes) {
        (0, length) => Some(bytes[..length].to_vec()),
        (number, _) => Some(print_refusal(number)),
    }
}

// ---- the documents as a side

pub struct Scope;

impl Calls for Scope {
    /// What the plan remembers is what it holds: a fresh plan has no groups.
    type Plan = Coloring;

    fn islands(&self, frame: &Frame, tables: &mut IslandTables) -> (u8, usize) {
        let refusal = islands_early(frame, tables);
        if refusal != 0 {
            return (refusal, 0);
        }
        if !endpoints_right(frame) {
            write_islands(frame, None, tables);
            return (7, 0);
        }
        let islands = islands(frame);
        write_islands(frame, Some(&islands), tables);
        (0, islands.count)
    }

    fn fresh(&self) -> Coloring {
        Coloring::default()
    }

    fn carried(&self, plan: &Coloring) -> Carried {
        plan.carried()
    }

    fn update(&self, plan: &mut Coloring, flags: &[u8], pairs: &[u16], tables: &mut PlanTables) -> Update {
        let refusal = update_early(flags, pairs, tables);
        if refusal != 0 {
            return Update::Refused(refusal);
        }
        let all = calls::pairs(pairs);
        if !all.iter().all(|ends| fits(ends, flags.len())) {
            return Update::Refused(7);
        }
        if plan.flags == flags && plan.ends == all {
            return Update::Unchanged;
        }
        *plan = coloring(flags, all);
        plan.write(tables);
        Update::Changed
    }

    fn members(&self, plan: &Coloring, _: &PlanTables, group: usize) -> Part {
        part(plan.members.len(), &in_a_row(&plan.members).1, &vec![0; plan.colors.len()], group)
    }

    fn bodies(&self, plan: &Coloring, _: &PlanTables, group: usize) -> Part {
        part(plan.bodies.len(), &in_a_row(&plan.bodies).1, &vec![0; plan.ends.concat().len()], group)
    }

    fn positions(&self, plan: &Coloring, tables: &PlanTables, constraint: usize) -> Result<[u16; 2], u8> {
        match positions_refusal(plan.positions.len(), &tables.positions, constraint) {
            0 => Ok([plan.positions[constraint][0], plan.positions[constraint][1]]),
            number => Err(number),
        }
    }

    fn forged_part(&self, groups: usize, offsets: &[u16], table: &[u16], group: usize) -> [Part; 2] {
        [part(groups, offsets, table, group); 2]
    }

    fn forged_positions(&self, constraints: usize, table: &[u16], constraint: usize) -> Result<[u16; 2], u8> {
        match positions_refusal(constraints, table, constraint) {
            0 => Ok([table[2 * constraint], table[2 * constraint + 1]]),
            number => Err(number),
        }
    }

    fn bind(&self, types: &[u8], list: &[u16], takes: &[[usize; 2]], show: &mut dyn FnMut(Shown)) {
        let (refusal, mut binding) = bind(types, list);
        let mut shown = |binding: &Binding, answer| {
            show(Shown { answer, bodies: &binding.bodies, marks: &binding.marks, count: binding.count })
        };
        shown(&binding, Answer::Bound(refusal));
        for positions in takes {
            let answer = take(&mut binding, *positions);
            shown(&binding, Answer::Took(answer));
        }
    }

    fn forged_take(&self, binding: &mut Binding, positions: [usize; 2]) -> Take {
        take(binding, positions)
    }

    fn run(&self, file: &[u8], tables: &mut RunTables) -> Report {
        let frame = match run_questions(file, tables) {
            Ok(frame) => frame,
            Err((refusal, frame)) => {
                if let Some(frame) = frame {
                    write_islands(&frame, None, &mut tables.islands);
                }
                return Report { refusal, ..Report::default() };
            }
        };
        let islands = islands(&frame);
        write_islands(&frame, Some(&islands), &mut tables.islands);
        let mut report = Report { islands: islands.count, degree: degree(&frame), ..Report::default() };
        let all = frame.ends();
        for island in 0..islands.count {
            let numbers = of_island(&islands.constraints, island);
            let plan = coloring(&frame.flags(), numbers.iter().map(|n| all[*n].clone()).collect());
            for (group, members) in plan.members.iter().enumerate() {
                let mut binding = bind(&frame.types, &plan.bodies[group]).1;
                for member in members {
                    let positions: Vec<usize> = plan.positions[*member as usize].iter().map(|p| *p as usize).collect();
                    if let Ok(handed) = take_many(&mut binding, &positions) {
                        let turn = [island, group, numbers[*member as usize]].map(|n| n as u16);
                        put(&mut tables.turns[3 * report.turns..], &turn);
                        report.turns += 1;
                        report.takes += handed.iter().filter(|(_, dynamic)| *dynamic).count();
                    }
                }
            }
        }
        report
    }

    fn print(&self, file: &[u8]) -> Vec<u8> {
        print_by(self, file)
    }

    fn generate(&self, seed: u32, sizes: [usize; 3], bytes: &mut [u8]) -> (u8, usize) {
        generate(seed, sizes, bytes)
    }

    fn lift_line(&self, line: &[u8]) -> Option<Vec<u8>> {
        lift_line(line)
    }
}
