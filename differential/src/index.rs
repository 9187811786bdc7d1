//! The original stands here under its own module names. What calls its `pub(super)`
//! functions must stand here too.

include!(concat!(env!("OUT_DIR"), "/modules.rs"));

pub(crate) mod deletions;
pub(crate) mod original;
