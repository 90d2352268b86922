//! The Rust's calls for a look at their size: what `oracle/sizes` compiles to an object file. The object has the code of the
//! three files and what the compiler copies into it from the standard library, not that library itself.
#![allow(dead_code, unexpected_cfgs)]

#[path = "../src/collision.rs"]
mod collision;
#[path = "../src/joint.rs"]
mod joint;
#[path = "../src/rigid_body.rs"]
mod rigid_body;

use collision::CollisionError;
use collision::constraint_coloring::ConstraintColoring;
use collision::island::IslandLayout;
use collision::solver::{Binding, Handed, SolverBody, SolverManifold};
use joint::JointConstraint;
use rigid_body::BodyType;

#[unsafe(no_mangle)]
fn size_islands(
    layout: &mut IslandLayout,
    types: &[BodyType],
    manifolds: &[SolverManifold],
    joints: &[JointConstraint],
) -> Result<(), CollisionError> {
    layout.build_with_joints(types, manifolds, joints)
}

#[unsafe(no_mangle)]
fn size_update(
    plan: &mut ConstraintColoring,
    flags: &[bool],
    endpoints: &[[usize; 2]],
) -> Result<bool, CollisionError> {
    plan.update(flags, endpoints)
}

#[unsafe(no_mangle)]
fn size_members(plan: &ConstraintColoring, group: usize) -> Option<&[usize]> {
    plan.constraints_in_schedule_group(group)
}

#[unsafe(no_mangle)]
fn size_bodies(plan: &ConstraintColoring, group: usize) -> Option<&[usize]> {
    plan.bodies_in_schedule_group(group)
}

#[unsafe(no_mangle)]
fn size_positions(plan: &ConstraintColoring, constraint: usize) -> Option<[usize; 2]> {
    plan.body_positions_for_constraint(constraint)
}

#[unsafe(no_mangle)]
fn size_bind<'a>(bodies: &'a mut [SolverBody], indices: &[usize]) -> Result<Binding<'a>, CollisionError> {
    Binding::bind(bodies, indices)
}

#[unsafe(no_mangle)]
fn size_take(binding: &mut Binding, positions: [usize; 2]) -> Result<[Handed; 2], CollisionError> {
    binding.pair_at(positions)
}
