//! The reading calls of the Rust that Pelisafu is a port of, for a harness in C. A panic ends the process.

// The original finds its imports at the root of its crate. The stand-ins are those of differential.
#[path = "../../../differential/src/stand_ins/bit_width.rs"]
mod bit_width;
#[path = "../../../differential/src/stand_ins/error.rs"]
mod error;
#[path = "../../../differential/src/stand_ins/id.rs"]
mod id;

mod index;
