#![doc = include_str!("../README.md")]
#![deny(missing_docs, unsafe_code)]

mod deletions;
#[allow(unsafe_code)]
mod ffi;
mod gather;
mod plan;
mod positions;
mod refusal;
mod row_set;
mod window;

pub use deletions::{DeletedOrdinals, DeletionPlan, Deletions, Section, plan_deletions};
pub use gather::Gatherer;
pub use plan::{Plan, Planner, plan_ordinals};
pub use positions::Positions;
pub use refusal::Refusal;
pub use row_set::{NO_RANK, RowSet, Segment};
