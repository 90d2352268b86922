//! The Rust's part of the benchmark: islands and one coloring, and a frame run composed of the Rust's parts, in the forms
//! that the Rust reads, which are made outside the measurement (a run's from the file, inside it).
use crate::calls::Frame;
use crate::collision::constraint_coloring::ConstraintColoring;
use crate::collision::island::IslandLayout;
use crate::collision::solver::{Binding, SolverBody, SolverManifold};
use crate::joint::JointConstraint;
use crate::kapitsa::{body_types, bools, endpoints, joints, label, manifolds, solver_bodies};
use crate::rigid_body::BodyType;
use crate::scope;

/// A frame as the Rust reads it.
pub struct RustFrame {
    types: Vec<BodyType>,
    bodies: Vec<SolverBody>,
    flags: Vec<bool>,
    manifolds: Vec<SolverManifold>,
    joints: Vec<JointConstraint>,
    endpoints: Vec<[usize; 2]>,
}

impl RustFrame {
    pub fn of(frame: &Frame) -> RustFrame {
        RustFrame {
            types: body_types(&frame.types),
            bodies: solver_bodies(&frame.types),
            flags: bools(&frame.flags()),
            manifolds: manifolds(&frame.manifolds),
            joints: joints(&frame.joints, &frame.enabled),
            endpoints: endpoints(&frame.pairs()),
        }
    }
}

/// The Rust's islands, kept from frame to frame as its world keeps them; a build clears them.
#[derive(Default)]
pub struct RustIslands(IslandLayout);

impl RustIslands {
    pub fn build(&mut self, frame: &RustFrame) -> usize {
        self.0.build_with_joints(&frame.types, &frame.manifolds, &frame.joints).unwrap();
        self.0.island_count()
    }

    /// The island of each body and of each manifold after a build.
    pub fn labels(&self, frame: &RustFrame) -> [Vec<u16>; 2] {
        let bodies = self.0.body_labels().iter().map(|island| label(*island)).collect();
        let manifolds = (0..frame.manifolds.len()).map(|i| label(self.0.manifold_island(i))).collect();
        [bodies, manifolds]
    }

    /// Islands, then all constraints as one list on a fresh plan: how many islands and groups.
    pub fn plan(&mut self, frame: &RustFrame) -> [usize; 2] {
        let islands = self.build(frame);
        let mut plan = ConstraintColoring::new();
        plan.update(&frame.flags, &frame.endpoints).unwrap();
        [islands, plan.schedule_group_count()]
    }

    /// The run of a file: its turns go to the turn table; how many turns and takes.
    pub fn run(&mut self, file: &[u8], turns: &mut [u16]) -> (usize, usize) {
        turns.fill(0);
        let mut frame = RustFrame::of(&scope::read(file).unwrap());
        let islands = self.build(&frame);
        // each island's constraints, in rising number
        let mut members: Vec<Vec<usize>> = vec![Vec::new(); islands];
        for i in 0..frame.manifolds.len() {
            if let Some(island) = self.0.manifold_island(i) {
                members[island].push(i);
            }
        }
        for j in 0..frame.joints.len() {
            if let Some(island) = self.0.joint_island(j) {
                members[island].push(frame.manifolds.len() + j);
            }
        }
        let (mut turn, mut takes) = (0, 0);
        let mut pairs = Vec::new();
        for (island, members) in members.iter().enumerate() {
            pairs.clear();
            pairs.extend(members.iter().map(|n| frame.endpoints[*n]));
            let mut plan = ConstraintColoring::new();
            plan.update(&frame.flags, &pairs).unwrap();
            for group in 0..plan.schedule_group_count() {
                let bodies = plan.bodies_in_schedule_group(group).unwrap();
                let mut binding = Binding::bind(&mut frame.bodies, bodies).unwrap();
                for rank in plan.constraints_in_schedule_group(group).unwrap() {
                    let positions = plan.body_positions_for_constraint(*rank).unwrap();
                    let handed = binding.pair_at(positions).unwrap();
                    takes += handed.iter().filter(|(_, dynamic)| *dynamic).count();
                    turns[turn..turn + 3].copy_from_slice(&[island as u16, group as u16, members[*rank] as u16]);
                    turn += 3;
                }
            }
        }
        (turn / 3, takes)
    }
}
