//! The three Rust files, included unchanged, and stand-ins for what they import. Each file stands in a module of its own;
//! what follows the `include!` there only reads the private fields that have no reader outside Kapitsa's tests.

#[derive(Clone, Copy, Debug, PartialEq, Eq)]
pub enum CollisionError {
    InvalidContact,
    SpatialIndexCapacityExceeded,
}

pub mod island {
    include!(concat!(env!("KAPITSA_COLLISION"), "/island.rs"));

    impl IslandLayout {
        pub fn parents(&self) -> &[usize] {
            &self.parents
        }

        pub fn body_labels(&self) -> &[Option<usize>] {
            &self.body_islands
        }
    }
}

pub mod constraint_coloring {
    include!(concat!(env!("KAPITSA_COLLISION"), "/constraint_coloring.rs"));

    impl ConstraintColoring {
        pub fn flags(&self) -> &[bool] {
            &self.dynamic_bodies
        }

        pub fn pairs(&self) -> &[[usize; 2]] {
            &self.endpoints
        }

        pub fn colors(&self) -> &[usize] {
            &self.constraint_colors
        }

        pub fn color_offsets(&self) -> &[usize] {
            &self.color_offsets
        }

        pub fn color_body_offsets(&self) -> &[usize] {
            &self.color_body_offsets
        }
    }
}

pub mod solver {
    use super::CollisionError;
    use crate::rigid_body::BodyType;

    pub struct SolverManifold {
        pub body_a: usize,
        pub body_b: usize,
    }

    /// A body is its number and its type.
    pub struct SolverBody {
        pub number: usize,
        pub body_type: BodyType,
    }

    impl SolverBody {
        pub fn body(&self) -> &SolverBody {
            self
        }

        pub fn physics(&self) -> &SolverBody {
            self
        }

        pub fn body_type(&self) -> BodyType {
            self.body_type
        }
    }

    pub trait SolverBodyAccess {
        fn len(&self) -> usize;
        fn get(&self, index: usize) -> Option<&SolverBody>;
        fn get_dynamic_mut(&mut self, index: usize) -> Option<&mut SolverBody>;
    }

    mod colored_bodies {
        include!(concat!(env!("KAPITSA_COLLISION"), "/solver/colored_bodies.rs"));

        impl BodyBinding<'_> {
            /// Document 01's mark of each place: 0 read-only, 1 held, 2 taken.
            pub(super) fn marks(&self) -> impl Iterator<Item = u8> + '_ {
                self.slots.iter().map(|slot| match slot {
                    BodySlot::ReadOnly(_) => 0,
                    BodySlot::Dynamic(Some(_)) => 1,
                    BodySlot::Dynamic(None) => 2,
                })
            }
        }
    }

    /// A binding as the oracle asks it: `BodyBinding` is private to the solver.
    pub struct Binding<'a>(colored_bodies::BodyBinding<'a>);

    /// A body that a take answered: its number, and whether it is "dynamic".
    pub type Handed = (usize, bool);

    impl<'a> Binding<'a> {
        pub fn bind(bodies: &'a mut [SolverBody], indices: &[usize]) -> Result<Self, CollisionError> {
            colored_bodies::BodyBinding::bind(bodies, indices).map(Binding)
        }

        pub fn pair_at(&mut self, positions: [usize; 2]) -> Result<[Handed; 2], CollisionError> {
            Ok(self.0.pair_at(positions)?.map(|body| match body {
                colored_bodies::BoundBodyRef::Dynamic(body) => (body.number, true),
                colored_bodies::BoundBodyRef::ReadOnly(body) => (body.number, false),
            }))
        }

        pub fn marks(&self) -> impl Iterator<Item = u8> + '_ {
            self.0.marks()
        }
    }
}
