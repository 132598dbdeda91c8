//! The published Rust planner with what is needed around it: programs as words and as
//! text, its answers in the numbers and words of docs/01-scope.md, and random programs; and the
//! published pending-operation optimizer (02, CR 6) with as much around it.

include!(concat!(env!("OUT_DIR"), "/modules.rs"));

pub mod answer;
pub mod ceiling;
pub mod differences;
pub mod expected;
pub mod generator;
pub mod guarded;
pub mod input;
pub mod instructions;
pub mod machine;
pub mod options;
pub mod output;
pub mod pending;
pub mod refusals;
pub mod replay;
pub mod rows;
pub mod stored;
pub mod stored_file;
pub mod vectors;
pub mod walk;
pub mod whole;
