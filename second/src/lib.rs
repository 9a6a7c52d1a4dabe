//! A second futex kernel, written from the papers alone, so that another can
//! be compared with it.

pub mod bytes;
pub mod cuts;
pub mod generate;
pub mod layout;
pub mod log;
pub mod model;
pub mod pieces;
pub mod replay;
pub mod rng;
pub mod script;
pub mod selftest;
pub mod shorthand;
