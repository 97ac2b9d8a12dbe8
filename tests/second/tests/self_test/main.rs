//! Self-test of the second program. What is expected is written by hand from the paper.

mod circuits;
mod common;
mod corpus;
mod protocol;
mod proved_cases;
mod refusals;
mod semantic_checks;
mod written_steps;
