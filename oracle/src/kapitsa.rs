//! The Rust as a side: its own answers wherever it can be asked. From `scope` come only the limits and lengths
//! (questions 1 to 6), the roots and sizes of the sets, the bindings' limits, the degree, the places that a table keeps, and
//! test lifts, which it does not know. It does not know logged bodies either: each call is asked with a type that stands for
//! theirs.
use crate::calls::*;
use crate::collision::CollisionError;
use crate::collision::constraint_coloring::ConstraintColoring;
use crate::collision::island::IslandLayout;
use crate::collision::solver::{self, SolverBody, SolverManifold};
use crate::joint::{Common, Joint, JointConstraint};
use crate::rigid_body::BodyType;
use crate::scope;

// ---- the frame as the Rust reads it

/// The Rust's type for a type byte 0 to 3, with one that stands for a logged body's.
fn body_type(byte: u8, logged: BodyType) -> BodyType {
    if byte == LOGGED { logged } else { BodyType::of(byte) }
}

/// The types for islands: a logged body stands there as a kinematic one.
pub fn body_types(types: &[u8]) -> Vec<BodyType> {
    types.iter().map(|t| body_type(*t, BodyType::Kinematic)).collect()
}

/// The bodies for bindings and takes: a logged body stands there as a dynamic one.
pub fn solver_bodies(types: &[u8]) -> Vec<SolverBody> {
    let body = |(number, t): (usize, &u8)| SolverBody { number, body_type: body_type(*t, BodyType::Dynamic) };
    types.iter().enumerate().map(body).collect()
}

pub fn endpoints(pairs: &[u16]) -> Vec<[usize; 2]> {
    pairs.chunks(2).map(|p| [p[0] as usize, p[1] as usize]).collect()
}

pub fn manifolds(pairs: &[u16]) -> Vec<SolverManifold> {
    endpoints(pairs).into_iter().map(|[body_a, body_b]| SolverManifold { body_a, body_b }).collect()
}

pub fn joints(pairs: &[u16], enabled: &[u8]) -> Vec<JointConstraint> {
    let joint = |([body_a, body_b], e): ([usize; 2], &u8)| JointConstraint {
        joint: Joint { common: Common { enabled: *e == 1 } },
        body_a,
        body_b,
    };
    endpoints(pairs).into_iter().zip(enabled).map(joint).collect()
}

pub fn bools(flags: &[u8]) -> Vec<bool> {
    flags.iter().map(|f| *f == 1).collect()
}

fn number(n: &usize) -> u16 {
    (*n).try_into().unwrap()
}

fn numbers(ns: &[usize]) -> Vec<u16> {
    ns.iter().map(number).collect()
}

pub fn label(island: Option<usize>) -> u16 {
    island.map_or(NONE, |i| number(&i))
}

fn refusal(error: CollisionError, invalid: u8) -> u8 {
    match error {
        CollisionError::InvalidContact => invalid,
        CollisionError::SpatialIndexCapacityExceeded => panic!("the Rust found no memory"),
    }
}

// ---- islands

/// What the Rust's layout says, in document 01's form; after an error all its labels and its count too are read.
fn islands(frame: &Frame) -> (u8, scope::Islands) {
    let mut layout = IslandLayout::new();
    let manifolds = manifolds(&frame.manifolds);
    let joints = joints(&frame.joints, &frame.enabled);
    let answer = layout.build_with_joints(&body_types(&frame.types), &manifolds, &joints);
    let mut constraints: Vec<u16> = (0..manifolds.len()).map(|i| label(layout.manifold_island(i))).collect();
    constraints.extend((0..joints.len()).map(|j| label(layout.joint_island(j))));
    let parents = layout.parents();
    let root = |mut body: usize| {
        while parents[body] != body {
            body = parents[body];
        }
        number(&body)
    };
    let read = scope::Islands {
        count: layout.island_count(),
        bodies: layout.body_labels().iter().map(|l| label(*l)).collect(),
        constraints,
        roots: (0..parents.len()).map(root).collect(),
    };
    (answer.map_or_else(|e| refusal(e, 7), |()| 0), read)
}

/// Islands of a frame that passes questions 1 to 6. After 7 each parent is itself: a difference from the Rust. After
/// acceptance only the Rust's sets count, since it hangs each under the lower root: where they are the documents' sets, the
/// documents' roots stand for its own.
fn build(frame: &Frame, tables: &mut IslandTables) -> (u8, scope::Islands) {
    let (refusal, mut islands) = islands(frame);
    if refusal == 7 {
        islands.roots = (0..frame.types.len() as u16).collect();
    } else {
        let roots = scope::roots(frame);
        if scope::lowest(&roots) == scope::lowest(&islands.roots) {
            islands.roots = roots;
        }
    }
    scope::write_islands(frame, Some(&islands), tables);
    (refusal, islands)
}

// ---- groups

/// The Rust's plan, whose type is private to it.
pub struct Plan(ConstraintColoring);

/// The groups, bodies and positions that the Rust's lookups answer, in document 01's form.
fn plan_read(plan: &ConstraintColoring) -> scope::Coloring {
    let groups = 0..plan.schedule_group_count();
    scope::Coloring {
        flags: plan.flags().iter().map(|f| *f as u8).collect(),
        ends: plan.pairs().iter().map(|pair| numbers(pair)).collect(),
        colors: numbers(plan.colors()),
        members: groups.clone().map(|k| numbers(plan.constraints_in_schedule_group(k).unwrap())).collect(),
        bodies: groups.map(|k| numbers(plan.bodies_in_schedule_group(k).unwrap())).collect(),
        positions: (0..plan.pairs().len())
            .map(|i| numbers(&plan.body_positions_for_constraint(i).unwrap()))
            .collect(),
    }
}

/// The part that the Rust hands back for a group, as its start and length; None is an empty part.
fn plan_part(part: Option<&[usize]>, offsets: &[usize], group: usize) -> Part {
    match part {
        Some(part) => (offsets[group], part.len()),
        None => (0, 0),
    }
}

// ---- bindings

/// The Rust's answer to a take, with document 01's number for its InvalidContact: 9 if a position is bad, else 10 if the
/// lower body is gone before the take, else 11.
fn take(binding: &mut solver::Binding, positions: [usize; 2]) -> Take {
    let marks: Vec<u8> = positions.iter().filter_map(|p| binding.marks().nth(*p)).collect();
    match binding.pair_at(positions) {
        Ok(handed) => Take::Taken(handed.map(|(body, dynamic)| (number(&body), dynamic))),
        Err(error) => {
            let [a, b] = positions;
            let invalid = if a == b || marks.len() < 2 {
                9
            } else if marks[(b < a) as usize] == 2 {
                10
            } else {
                11
            };
            Take::Refused(refusal(error, invalid))
        }
    }
}

// ---- the Rust as a side

pub struct Rust;

impl Calls for Rust {
    type Plan = Plan;

    fn islands(&self, frame: &Frame, tables: &mut IslandTables) -> (u8, usize) {
        match scope::islands_early(frame, tables) {
            0 => {
                let (refusal, islands) = build(frame, tables);
                (refusal, islands.count)
            }
            refusal => (refusal, 0),
        }
    }

    fn fresh(&self) -> Plan {
        Plan(ConstraintColoring::new())
    }

    fn carried(&self, Plan(plan): &Plan) -> Carried {
        Carried {
            bodies: plan.flags().len(),
            constraints: plan.pairs().len(),
            groups: plan.schedule_group_count(),
            largest: plan.max_color_constraint_count(),
        }
    }

    fn update(&self, Plan(plan): &mut Plan, flags: &[u8], pairs: &[u16], tables: &mut PlanTables) -> Update {
        match scope::update_early(flags, pairs, tables) {
            0 => match plan.update(&bools(flags), &endpoints(pairs)) {
                Ok(true) => {
                    plan_read(plan).write(tables);
                    Update::Changed
                }
                Ok(false) => Update::Unchanged,
                Err(error) => Update::Refused(refusal(error, 7)),
            },
            refusal => Update::Refused(refusal),
        }
    }

    fn members(&self, Plan(plan): &Plan, _: &PlanTables, group: usize) -> Part {
        plan_part(plan.constraints_in_schedule_group(group), plan.color_offsets(), group)
    }

    fn bodies(&self, Plan(plan): &Plan, _: &PlanTables, group: usize) -> Part {
        plan_part(plan.bodies_in_schedule_group(group), plan.color_body_offsets(), group)
    }

    fn positions(&self, Plan(plan): &Plan, tables: &PlanTables, constraint: usize) -> Result<[u16; 2], u8> {
        if tables.positions.len() < 2 * plan.pairs().len() {
            return Err(6);
        }
        plan.body_positions_for_constraint(constraint).map(|p| p.map(|p| number(&p))).ok_or(12)
    }

    fn forged_part(&self, groups: usize, offsets: &[u16], table: &[u16], group: usize) -> [Part; 2] {
        scope::Scope.forged_part(groups, offsets, table, group)
    }

    fn forged_positions(&self, constraints: usize, table: &[u16], constraint: usize) -> Result<[u16; 2], u8> {
        scope::Scope.forged_positions(constraints, table, constraint)
    }

    fn bind(&self, types: &[u8], list: &[u16], takes: &[[usize; 2]], show: &mut dyn FnMut(Shown)) {
        let mut bodies = vec![0; BODIES];
        let mut marks = vec![0; BODIES];
        let early = scope::bind_early(types);
        let mut solver_bodies = if early == 0 { solver_bodies(types) } else { Vec::new() };
        let bound = if early == 0 {
            let indices: Vec<usize> = list.iter().map(|b| *b as usize).collect();
            solver::Binding::bind(&mut solver_bodies, &indices).map_err(|e| refusal(e, 8))
        } else {
            Err(early)
        };
        let refusal = bound.as_ref().err().copied().unwrap_or(0);
        // a refused bind answers an empty binding
        let mut binding = bound.unwrap_or_else(|_| solver::Binding::bind(&mut [], &[]).unwrap());
        let count = binding.marks().count();
        bodies[..count].copy_from_slice(&list[..count]);
        let answers = std::iter::once(None).chain(takes.iter().copied().map(Some));
        for positions in answers {
            let answer = match positions {
                None => Answer::Bound(refusal),
                Some(positions) => Answer::Took(take(&mut binding, positions)),
            };
            for (place, mark) in binding.marks().enumerate() {
                marks[place] = mark;
            }
            show(Shown { answer, bodies: &bodies, marks: &marks, count });
        }
    }

    fn forged_take(&self, binding: &mut Binding, positions: [usize; 2]) -> Take {
        scope::Scope.forged_take(binding, positions)
    }

    fn run(&self, file: &[u8], tables: &mut RunTables) -> Report {
        let frame = match scope::run_questions(file, tables) {
            Ok(frame) | Err((7, Some(frame))) => frame,
            Err((refusal, _)) => return Report { refusal, ..Report::default() },
        };
        let (refusal, islands) = build(&frame, &mut tables.islands);
        if refusal != 0 {
            return Report { refusal, ..Report::default() };
        }
        let all = frame.ends();
        let flags = bools(&frame.flags());
        let mut bodies = solver_bodies(&frame.types);
        let mut report = Report { islands: islands.count, degree: scope::degree(&frame), ..Report::default() };
        for island in 0..islands.count {
            let members = scope::of_island(&islands.constraints, island);
            let pairs: Vec<[usize; 2]> = members.iter().map(|n| [all[*n][0] as usize, all[*n][1] as usize]).collect();
            let mut plan = ConstraintColoring::new();
            plan.update(&flags, &pairs).unwrap();
            for group in 0..plan.schedule_group_count() {
                let list = plan.bodies_in_schedule_group(group).unwrap();
                let mut binding = solver::Binding::bind(&mut bodies, list).unwrap();
                for rank in plan.constraints_in_schedule_group(group).unwrap() {
                    let positions = plan.body_positions_for_constraint(*rank).unwrap();
                    if let Ok(handed) = binding.pair_at(positions) {
                        let turn = [island, group, members[*rank]].map(|n| number(&n));
                        tables.turns[3 * report.turns..][..3].copy_from_slice(&turn);
                        report.turns += 1;
                        report.takes += handed.iter().filter(|(_, dynamic)| *dynamic).count();
                    }
                }
            }
        }
        report
    }

    fn print(&self, file: &[u8]) -> Vec<u8> {
        scope::print_by(self, file)
    }

    fn generate(&self, seed: u32, sizes: [usize; 3], bytes: &mut [u8]) -> (u8, usize) {
        scope::generate(seed, sizes, bytes)
    }

    fn lift_line(&self, line: &[u8]) -> Option<Vec<u8>> {
        scope::lift_line(line)
    }
}
