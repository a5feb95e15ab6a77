//! The model: every call of the exact rules (docs/RULES.md) over plain data. A test tool, written from the rules and from nothing else.
//!
//! Modules name one another by `super`, so that copies of the model, each with a fault, can stand side by side in one
//! crate.

pub mod addresses;
pub mod arrival;
pub mod bench;
pub mod calls;
pub mod counters;
pub mod departure;
pub mod frame;
pub mod operation;
pub mod records;
pub mod refusals;
pub mod settings;
pub mod switch;
pub mod waiting;
