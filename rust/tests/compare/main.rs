//! Compares every call with the rules written a second time, on random inputs, sound and damaged.
//!
//! Each comparison prints its seed and how many calls it compared. `MWS_SEED` gives another seed, `MWS_ROUNDS` multiplies
//! the rounds.
use mws::Tally;

mod comparison;
mod random;
mod rules;

mod files;
mod patterns;
mod program;
mod sets;
mod watching;
mod words;
