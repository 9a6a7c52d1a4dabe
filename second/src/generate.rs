//! Generators of histories, tables, logs and scripts. All of them are fixed by
//! their seed.

pub mod aimed;
pub mod cuts;
pub mod edges;
pub mod events;
pub mod logs;
pub mod random;
pub mod tables;
