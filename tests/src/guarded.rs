//! The library's functions with everything they are lent between guards: each makes sure that only the stated
//! bytes changed, and spells the answer in the reference's types.

mod memory;

pub mod judge;
pub mod making;
pub mod merging;
pub mod mutation;
pub mod reading;
pub mod records;
pub mod station;
pub mod walking;
pub mod writing;
