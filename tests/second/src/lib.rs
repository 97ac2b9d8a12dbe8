//! The independent second program: what every call of the paper must answer, computed by the
//! written steps as they stand, and checked by plain evaluation where that is small enough.

#![forbid(unsafe_code)]

pub mod calls;
pub mod case;
pub mod circuit;
pub mod command;
pub mod console;
pub mod corpus;
pub mod damage;
#[rustfmt::skip] // one hand-chosen text a line
pub mod fixed;
pub mod gen_scripts;
pub mod gen_texts;
pub mod lent;
pub mod program;
pub mod rng;
pub mod semantic;
pub mod shapes;
pub mod steps;
pub mod tables;
pub mod text;
