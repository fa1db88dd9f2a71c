//! A second implementation of cards, tests and their comparison, written from the documents alone.
//! It is plain on purpose: what it tells is set beside what the proved program tells.

pub mod calls;
pub mod comparison;
pub mod experiments;
pub mod generator;
pub mod layers;
pub mod piles;
pub mod random;
pub mod shapes;
pub mod splits;
pub mod system;
pub mod text;
pub mod traces;
pub mod words;
