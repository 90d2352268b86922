//! The proved code as a side: through the functions of include/engkarupi.h, the programs `turns` and `generate_frame`, and
//! the sample program in C.
use crate::calls::*;
use crate::multi::{Input, MultiCalls, MultiTables};
use std::ffi::c_void;
use std::io::Write;
use std::path::{Path, PathBuf};
use std::process::{Command, Output, Stdio};

unsafe extern "C" {
    fn engkarupi_islands(
        types: *const u8,
        types_len: usize,
        manifolds: *const u16,
        manifolds_len: usize,
        joints: *const u16,
        joints_len: usize,
        enabled: *const u8,
        enabled_len: usize,
        parents: *mut u16,
        parents_len: usize,
        sizes: *mut u16,
        sizes_len: usize,
        body_islands: *mut u16,
        body_islands_len: usize,
        manifold_islands: *mut u16,
        manifold_islands_len: usize,
        joint_islands: *mut u16,
        joint_islands_len: usize,
        island_count: *mut u16,
    ) -> u8;

    fn engkarupi_islands_multi(
        types: *const u8,
        types_len: usize,
        manifolds: *const u16,
        manifolds_len: usize,
        joint_ends: *const u16,
        joint_ends_len: usize,
        joint_counts: *const u8,
        joint_counts_len: usize,
        enabled: *const u8,
        enabled_len: usize,
        parents: *mut u16,
        parents_len: usize,
        sizes: *mut u16,
        sizes_len: usize,
        body_islands: *mut u16,
        body_islands_len: usize,
        manifold_islands: *mut u16,
        manifold_islands_len: usize,
        joint_islands: *mut u16,
        joint_islands_len: usize,
        island_count: *mut u16,
    ) -> u8;

    fn engkarupi_update_multi(
        plan: *mut usize,
        flags: *const u8,
        flags_len: usize,
        ends: *const u16,
        ends_len: usize,
        counts_in: *const u8,
        counts_in_len: usize,
        dynamic_bodies: *mut u8,
        dynamic_bodies_len: usize,
        endpoints: *mut u16,
        endpoints_len: usize,
        counts: *mut u8,
        counts_len: usize,
        body_offsets: *mut u16,
        body_offsets_len: usize,
        body_constraints: *mut u16,
        body_constraints_len: usize,
        scratch_offsets: *mut u16,
        scratch_offsets_len: usize,
        constraint_colors: *mut u16,
        constraint_colors_len: usize,
        color_stamps: *mut u16,
        color_stamps_len: usize,
        body_stamps: *mut u16,
        body_stamps_len: usize,
        color_offsets: *mut u16,
        color_offsets_len: usize,
        colored_constraints: *mut u16,
        colored_constraints_len: usize,
        color_body_offsets: *mut u16,
        color_body_offsets_len: usize,
        color_bodies: *mut u16,
        color_bodies_len: usize,
        constraint_body_positions: *mut u16,
        constraint_body_positions_len: usize,
        changed: *mut u8,
    ) -> u8;

    fn engkarupi_positions_multi(
        plan: *const usize,
        counts: *const u8,
        counts_len: usize,
        constraint_body_positions: *const u16,
        constraint_body_positions_len: usize,
        constraint: usize,
        places: *mut u16,
        count: *mut usize,
    ) -> u8;

    fn engkarupi_take_multi(
        bodies: *const u16,
        marks: *mut u8,
        count: usize,
        positions: *const u16,
        positions_len: usize,
        handed: *mut u16,
    ) -> u8;

    fn engkarupi_update(
        plan: *mut usize,
        flags: *const u8,
        flags_len: usize,
        pairs: *const u16,
        pairs_len: usize,
        dynamic_bodies: *mut u8,
        dynamic_bodies_len: usize,
        endpoints: *mut u16,
        endpoints_len: usize,
        body_offsets: *mut u16,
        body_offsets_len: usize,
        body_constraints: *mut u16,
        body_constraints_len: usize,
        scratch_offsets: *mut u16,
        scratch_offsets_len: usize,
        constraint_colors: *mut u16,
        constraint_colors_len: usize,
        color_stamps: *mut u16,
        color_stamps_len: usize,
        body_stamps: *mut u16,
        body_stamps_len: usize,
        color_offsets: *mut u16,
        color_offsets_len: usize,
        colored_constraints: *mut u16,
        colored_constraints_len: usize,
        color_body_offsets: *mut u16,
        color_body_offsets_len: usize,
        color_bodies: *mut u16,
        color_bodies_len: usize,
        constraint_body_positions: *mut u16,
        constraint_body_positions_len: usize,
        changed: *mut u8,
    ) -> u8;

    fn engkarupi_members(
        plan: *const usize,
        color_offsets: *const u16,
        color_offsets_len: usize,
        colored_constraints: *const u16,
        colored_constraints_len: usize,
        group: usize,
        start: *mut usize,
    ) -> usize;

    fn engkarupi_bodies(
        plan: *const usize,
        color_body_offsets: *const u16,
        color_body_offsets_len: usize,
        color_bodies: *const u16,
        color_bodies_len: usize,
        group: usize,
        start: *mut usize,
    ) -> usize;

    fn engkarupi_positions(
        plan: *const usize,
        constraint_body_positions: *const u16,
        constraint_body_positions_len: usize,
        constraint: usize,
        places: *mut u16,
    ) -> u8;

    fn engkarupi_bind(
        types: *const u8,
        types_len: usize,
        indices: *const u16,
        indices_len: usize,
        bodies: *mut u16,
        marks: *mut u8,
        count: *mut usize,
    ) -> u8;

    fn engkarupi_take(bodies: *const u16, marks: *mut u8, count: usize, a: usize, b: usize, handed: *mut u16) -> u8;

    /// The wrapper of the header over engkarupi_run (wrapper.c).
    fn oracle_run_on(frame: *const u8, frame_len: usize, tables: *const [LentTable; 28], report: *mut usize) -> u8;

    fn engkarupi_generate(
        seed: u32,
        bodies: usize,
        manifolds: usize,
        joints: usize,
        frame: *mut u8,
        frame_len: usize,
        length: *mut usize,
    ) -> u8;
}

/// A table of the header's struct engkarupi_run_tables, which holds nothing but such pairs.
#[repr(C)]
struct LentTable {
    start: *mut c_void,
    len: usize,
}

impl LentTable {
    fn of<T>(table: &mut [T]) -> LentTable {
        LentTable { start: table.as_mut_ptr().cast(), len: table.len() }
    }
}

/// Islands of a frame, on its tables.
pub fn islands(frame: &Frame, tables: &mut IslandTables) -> (u8, usize) {
    let mut count: u16 = 0xABCD;
    // SAFETY: each pointer is of a live slice of the length beside it, and no two tables overlap.
    let refusal = unsafe {
        engkarupi_islands(
            frame.types.as_ptr(),
            frame.types.len(),
            frame.manifolds.as_ptr(),
            frame.manifolds.len(),
            frame.joints.as_ptr(),
            frame.joints.len(),
            frame.enabled.as_ptr(),
            frame.enabled.len(),
            tables.parents.as_mut_ptr(),
            tables.parents.len(),
            tables.sizes.as_mut_ptr(),
            tables.sizes.len(),
            tables.bodies.as_mut_ptr(),
            tables.bodies.len(),
            tables.manifolds.as_mut_ptr(),
            tables.manifolds.len(),
            tables.joints.as_mut_ptr(),
            tables.joints.len(),
            &mut count,
        )
    };
    (refusal, count as usize)
}

/// Islands of a frame whose joints have counts, on its tables.
fn islands_multi(frame: &Frame, counts: &[u8], tables: &mut IslandTables) -> (u8, usize) {
    let mut count: u16 = 0xABCD;
    // SAFETY: as above.
    let refusal = unsafe {
        engkarupi_islands_multi(
            frame.types.as_ptr(),
            frame.types.len(),
            frame.manifolds.as_ptr(),
            frame.manifolds.len(),
            frame.joints.as_ptr(),
            frame.joints.len(),
            counts.as_ptr(),
            counts.len(),
            frame.enabled.as_ptr(),
            frame.enabled.len(),
            tables.parents.as_mut_ptr(),
            tables.parents.len(),
            tables.sizes.as_mut_ptr(),
            tables.sizes.len(),
            tables.bodies.as_mut_ptr(),
            tables.bodies.len(),
            tables.manifolds.as_mut_ptr(),
            tables.manifolds.len(),
            tables.joints.as_mut_ptr(),
            tables.joints.len(),
            &mut count,
        )
    };
    (refusal, count as usize)
}

/// What a plan carries, as four numbers.
pub type Plan = [usize; 4];

/// An update of a plan on its tables.
pub fn update(plan: &mut Plan, flags: &[u8], pairs: &[u16], t: &mut PlanTables) -> Update {
    let mut changed = 0xAB;
    // SAFETY: as above; a plan is four numbers.
    let refusal = unsafe {
        engkarupi_update(
            plan.as_mut_ptr(),
            flags.as_ptr(),
            flags.len(),
            pairs.as_ptr(),
            pairs.len(),
            t.flags.as_mut_ptr(),
            t.flags.len(),
            t.pairs.as_mut_ptr(),
            t.pairs.len(),
            t.adjacency_offsets.as_mut_ptr(),
            t.adjacency_offsets.len(),
            t.adjacency.as_mut_ptr(),
            t.adjacency.len(),
            t.scratch.as_mut_ptr(),
            t.scratch.len(),
            t.colors.as_mut_ptr(),
            t.colors.len(),
            t.color_stamps.as_mut_ptr(),
            t.color_stamps.len(),
            t.body_stamps.as_mut_ptr(),
            t.body_stamps.len(),
            t.group_offsets.as_mut_ptr(),
            t.group_offsets.len(),
            t.members.as_mut_ptr(),
            t.members.len(),
            t.body_offsets.as_mut_ptr(),
            t.body_offsets.len(),
            t.bodies.as_mut_ptr(),
            t.bodies.len(),
            t.positions.as_mut_ptr(),
            t.positions.len(),
            &mut changed,
        )
    };
    match (refusal, changed) {
        (0, 1) => Update::Changed,
        (0, 0) => Update::Unchanged,
        (1.., 0) => Update::Refused(refusal),
        _ => panic!("an update answered {refusal} and {changed}"),
    }
}

/// The members of a group, and its bodies, by the tables that hold them.
fn members(plan: &Plan, offsets: &[u16], table: &[u16], group: usize) -> Part {
    let mut start = 0xABCD;
    // SAFETY: as above.
    let size = unsafe {
        engkarupi_members(
            plan.as_ptr(),
            offsets.as_ptr(),
            offsets.len(),
            table.as_ptr(),
            table.len(),
            group,
            &mut start,
        )
    };
    (start, size)
}

fn bodies(plan: &Plan, offsets: &[u16], table: &[u16], group: usize) -> Part {
    let mut start = 0xABCD;
    // SAFETY: as above.
    let size = unsafe {
        engkarupi_bodies(plan.as_ptr(), offsets.as_ptr(), offsets.len(), table.as_ptr(), table.len(), group, &mut start)
    };
    (start, size)
}

fn positions(plan: &Plan, table: &[u16], constraint: usize) -> Result<[u16; 2], u8> {
    let mut places = [0xABCD; 2];
    // SAFETY: as above; two positions are answered.
    let refusal =
        unsafe { engkarupi_positions(plan.as_ptr(), table.as_ptr(), table.len(), constraint, places.as_mut_ptr()) };
    match (refusal, places) {
        (0, places) => Ok(places),
        (_, [0, 0]) => Err(refusal),
        _ => panic!("refused positions {places:?}"),
    }
}

fn bind(types: &[u8], list: &[u16]) -> (u8, Binding) {
    let mut binding = Binding { bodies: vec![0xABCD; BODIES], marks: vec![0xAB; BODIES], count: 0xABCD };
    // SAFETY: as above; a binding has 4,096 bodies and marks.
    let refusal = unsafe {
        engkarupi_bind(
            types.as_ptr(),
            types.len(),
            list.as_ptr(),
            list.len(),
            binding.bodies.as_mut_ptr(),
            binding.marks.as_mut_ptr(),
            &mut binding.count,
        )
    };
    (refusal, binding)
}

fn take(binding: &mut Binding, [a, b]: [usize; 2]) -> Take {
    let mut handed = [0xABCD; 4];
    // SAFETY: as above; four numbers are handed.
    let refusal = unsafe {
        engkarupi_take(binding.bodies.as_ptr(), binding.marks.as_mut_ptr(), binding.count, a, b, handed.as_mut_ptr())
    };
    match (refusal, handed) {
        (0, [x, p @ (0 | 1), y, q @ (0 | 1)]) => Take::Taken([(x, p == 1), (y, q == 1)]),
        (0, _) => panic!("a take handed {handed:?}"),
        (_, [0, 0, 0, 0]) => Take::Refused(refusal),
        _ => panic!("a refused take handed {handed:?}"),
    }
}

/// The run of a file on its tables, through the header's wrapper.
pub fn run(file: &[u8], tables: &mut RunTables) -> Report {
    let RunTables { islands: i, turns, workspace: w } = tables;
    let p = &mut w.plan;
    // in the order of the header's struct
    let lent = [
        LentTable::of(&mut i.parents),
        LentTable::of(&mut i.sizes),
        LentTable::of(&mut i.bodies),
        LentTable::of(&mut i.manifolds),
        LentTable::of(&mut i.joints),
        LentTable::of(turns),
        LentTable::of(&mut w.types),
        LentTable::of(&mut w.flags),
        LentTable::of(&mut w.frame_pairs),
        LentTable::of(&mut w.island_pairs),
        LentTable::of(&mut w.counts),
        LentTable::of(&mut w.island_counts),
        LentTable::of(&mut w.enabled),
        LentTable::of(&mut w.numbers),
        LentTable::of(&mut p.flags),
        LentTable::of(&mut p.pairs),
        LentTable::of(&mut w.plan_counts),
        LentTable::of(&mut p.adjacency_offsets),
        LentTable::of(&mut p.adjacency),
        LentTable::of(&mut p.scratch),
        LentTable::of(&mut p.colors),
        LentTable::of(&mut p.color_stamps),
        LentTable::of(&mut p.body_stamps),
        LentTable::of(&mut p.group_offsets),
        LentTable::of(&mut p.members),
        LentTable::of(&mut p.body_offsets),
        LentTable::of(&mut p.bodies),
        LentTable::of(&mut p.positions),
    ];
    let mut report = [0xABCD; 4];
    // SAFETY: as above; a report is four numbers.
    let refusal = unsafe { oracle_run_on(file.as_ptr(), file.len(), &lent, report.as_mut_ptr()) };
    let [islands, turns, takes, degree] = report;
    Report { refusal, islands, turns, takes, degree }
}

/// The lift of a seed in lent bytes.
pub fn generate(seed: u32, [b, m, j]: [usize; 3], bytes: &mut [u8]) -> (u8, usize) {
    let mut length = 0xABCD;
    // SAFETY: as above.
    let refusal = unsafe { engkarupi_generate(seed, b, m, j, bytes.as_mut_ptr(), bytes.len(), &mut length) };
    match (refusal, length) {
        (0, length) if length <= bytes.len() => (0, length),
        (1.., 0) => (refusal, 0),
        _ => panic!("a lift in {} bytes answered {refusal} and {length}", bytes.len()),
    }
}

/// What a program says to an input.
fn said(program: &Path, input: &[u8]) -> Output {
    let mut child = Command::new(program)
        .stdin(Stdio::piped())
        .stdout(Stdio::piped())
        .stderr(Stdio::piped())
        .spawn()
        .unwrap_or_else(|e| panic!("{}: {e}", program.display()));
    // the program may stop reading before the end
    let _ = child.stdin.take().unwrap().write_all(input);
    child.wait_with_output().unwrap()
}

/// The proved code; `turns` and `generate_frame` are the programs, `sample` is samples/run.c.
pub struct Ours {
    pub turns: PathBuf,
    pub generate_frame: PathBuf,
    pub sample: PathBuf,
}

impl Calls for Ours {
    type Plan = Plan;

    fn islands(&self, frame: &Frame, tables: &mut IslandTables) -> (u8, usize) {
        match &frame.counts {
            None => islands(frame, tables),
            Some(counts) => islands_multi(frame, counts, tables),
        }
    }

    fn fresh(&self) -> Plan {
        [0; 4]
    }

    fn carried(&self, &[bodies, constraints, groups, largest]: &Plan) -> Carried {
        Carried { bodies, constraints, groups, largest }
    }

    fn update(&self, plan: &mut Plan, flags: &[u8], pairs: &[u16], tables: &mut PlanTables) -> Update {
        update(plan, flags, pairs, tables)
    }

    fn members(&self, plan: &Plan, tables: &PlanTables, group: usize) -> Part {
        members(plan, &tables.group_offsets, &tables.members, group)
    }

    fn bodies(&self, plan: &Plan, tables: &PlanTables, group: usize) -> Part {
        bodies(plan, &tables.body_offsets, &tables.bodies, group)
    }

    fn positions(&self, plan: &Plan, tables: &PlanTables, constraint: usize) -> Result<[u16; 2], u8> {
        positions(plan, &tables.positions, constraint)
    }

    fn forged_part(&self, groups: usize, offsets: &[u16], table: &[u16], group: usize) -> [Part; 2] {
        let plan = [usize::MAX, 7, groups, 0];
        [members(&plan, offsets, table, group), bodies(&plan, offsets, table, group)]
    }

    fn forged_positions(&self, constraints: usize, table: &[u16], constraint: usize) -> Result<[u16; 2], u8> {
        positions(&[0, constraints, 3, usize::MAX], table, constraint)
    }

    fn bind(&self, types: &[u8], list: &[u16], takes: &[[usize; 2]], show: &mut dyn FnMut(Shown)) {
        let (refusal, mut binding) = bind(types, list);
        let mut shown = |binding: &Binding, answer| {
            show(Shown { answer, bodies: &binding.bodies, marks: &binding.marks, count: binding.count })
        };
        shown(&binding, Answer::Bound(refusal));
        for positions in takes {
            let answer = take(&mut binding, *positions);
            shown(&binding, Answer::Took(answer));
        }
    }

    fn forged_take(&self, binding: &mut Binding, positions: [usize; 2]) -> Take {
        take(binding, positions)
    }

    fn run(&self, file: &[u8], tables: &mut RunTables) -> Report {
        run(file, tables)
    }

    fn print(&self, file: &[u8]) -> Vec<u8> {
        let Output { status, stdout, stderr } = said(&self.turns, file);
        assert!(status.success(), "turns failed: {}", String::from_utf8_lossy(&stderr));
        stdout
    }

    fn sample(&self, file: &[u8]) -> Option<Vec<u8>> {
        let Output { status, stdout, stderr } = said(&self.sample, file);
        assert!(status.success(), "the sample failed: {}", String::from_utf8_lossy(&stderr));
        Some(stdout)
    }

    fn generate(&self, seed: u32, sizes: [usize; 3], bytes: &mut [u8]) -> (u8, usize) {
        generate(seed, sizes, bytes)
    }

    /// A line that cannot be read gives a message on standard error and nothing else.
    fn lift_line(&self, line: &[u8]) -> Option<Vec<u8>> {
        let Output { status, stdout, stderr } = said(&self.generate_frame, line);
        match (stdout.is_empty(), stderr.is_empty()) {
            (false, true) if status.success() => Some(stdout),
            (true, false) => None,
            _ => panic!(
                "generate_frame printed {} bytes and ended with {status} for {:?}: {}",
                stdout.len(),
                String::from_utf8_lossy(line),
                String::from_utf8_lossy(&stderr)
            ),
        }
    }
}

fn update_multi(plan: &mut Plan, input: &Input, tables: &mut MultiTables) -> Update {
    let t = &mut tables.plan;
    let mut changed = 0xAB;
    // SAFETY: as above; a plan is four numbers.
    let refusal = unsafe {
        engkarupi_update_multi(
            plan.as_mut_ptr(),
            input.flags.as_ptr(),
            input.flags.len(),
            input.ends.as_ptr(),
            input.ends.len(),
            input.counts.as_ptr(),
            input.counts.len(),
            t.flags.as_mut_ptr(),
            t.flags.len(),
            t.pairs.as_mut_ptr(),
            t.pairs.len(),
            tables.counts.as_mut_ptr(),
            tables.counts.len(),
            t.adjacency_offsets.as_mut_ptr(),
            t.adjacency_offsets.len(),
            t.adjacency.as_mut_ptr(),
            t.adjacency.len(),
            t.scratch.as_mut_ptr(),
            t.scratch.len(),
            t.colors.as_mut_ptr(),
            t.colors.len(),
            t.color_stamps.as_mut_ptr(),
            t.color_stamps.len(),
            t.body_stamps.as_mut_ptr(),
            t.body_stamps.len(),
            t.group_offsets.as_mut_ptr(),
            t.group_offsets.len(),
            t.members.as_mut_ptr(),
            t.members.len(),
            t.body_offsets.as_mut_ptr(),
            t.body_offsets.len(),
            t.bodies.as_mut_ptr(),
            t.bodies.len(),
            t.positions.as_mut_ptr(),
            t.positions.len(),
            &mut changed,
        )
    };
    match (refusal, changed) {
        (0, 1) => Update::Changed,
        (0, 0) => Update::Unchanged,
        (1.., 0) => Update::Refused(refusal),
        _ => panic!("an update with counts answered {refusal} and {changed}"),
    }
}

impl MultiCalls for Ours {
    fn update_multi(&self, carried: &mut Carried, input: &Input, tables: &mut MultiTables) -> Update {
        let mut plan = [carried.bodies, carried.constraints, carried.groups, carried.largest];
        let answer = update_multi(&mut plan, input, tables);
        *carried = self.carried(&plan);
        answer
    }

    fn positions_multi(&self, plan: &Carried, counts: &[u8], table: &[u16], constraint: usize) -> Result<Vec<u16>, u8> {
        let plan = [plan.bodies, plan.constraints, plan.groups, plan.largest];
        let (mut places, mut count) = ([0xABCD; 4], 0xABCD);
        // SAFETY: as above; four places are answered.
        let refusal = unsafe {
            engkarupi_positions_multi(
                plan.as_ptr(),
                counts.as_ptr(),
                counts.len(),
                table.as_ptr(),
                table.len(),
                constraint,
                places.as_mut_ptr(),
                &mut count,
            )
        };
        match (refusal, count) {
            (0, 2..=4) if places[count..].iter().all(|p| *p == 0) => Ok(places[..count].to_vec()),
            (1.., 0) if places == [0; 4] => Err(refusal),
            _ => panic!("positions answered {refusal}, {count} and {places:?}"),
        }
    }

    fn take_multi(&self, binding: &mut Binding, positions: &[u16]) -> Result<Vec<(u16, bool)>, u8> {
        let mut handed = [0xABCD; 8];
        // SAFETY: as above; eight numbers are handed.
        let refusal = unsafe {
            engkarupi_take_multi(
                binding.bodies.as_ptr(),
                binding.marks.as_mut_ptr(),
                binding.count,
                positions.as_ptr(),
                positions.len(),
                handed.as_mut_ptr(),
            )
        };
        let n = if refusal == 0 { positions.len() } else { 0 };
        let (bodies, rest) = handed.split_at(2 * n.min(4));
        let known = bodies.chunks(2).all(|pair| pair[1] <= 1) && rest.iter().all(|x| *x == 0);
        assert!(known, "a take of {positions:?} answered {refusal} and handed {handed:?}");
        match refusal {
            0 => Ok(bodies.chunks(2).map(|pair| (pair[0], pair[1] == 1)).collect()),
            number => Err(number),
        }
    }
}
