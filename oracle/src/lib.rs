//! Kapitsa's island.rs, constraint_coloring.rs and solver/colored_bodies.rs, built unchanged (`collision`, with stand-ins
//! in `joint` and `rigid_body`), and three sides that answer the calls of the documents (`calls`): the Rust (`kapitsa`),
//! the documents themselves (`scope`), and the proved code through its C boundary (`ours`). `frames` makes what is asked,
//! `agree` compares two sides; `lifts` has what is asked of request 3's call, `multi` of request 11's. `timed` has request 9's frames, `bench` the Rust's
//! part of the measurement.
pub mod agree;
pub mod bench;
pub mod calls;
pub mod collision;
pub mod compare;
pub mod frames;
pub mod joint;
pub mod kapitsa;
pub mod lifts;
pub mod multi;
#[cfg(feature = "ours")]
pub mod ours;
pub mod record;
pub mod rigid_body;
pub mod scope;
#[cfg(feature = "ours")]
pub mod timed;
