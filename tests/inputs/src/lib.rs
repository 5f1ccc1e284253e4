//! Inputs for tests: files made for a purpose, drawn or damaged, the calls that are asked of them, and what the second program answers.

pub mod answers;
pub mod branches;
pub mod couple_damage;
pub mod damage;
pub mod drawn;
pub mod faults;
pub mod faulty;
pub mod freed;
pub mod generator;
pub mod made;
pub mod meeting;
pub mod parts;
pub mod questions;
pub mod sweeps;
pub mod trace;
pub mod vectors;
pub mod waits;
pub mod writer;
