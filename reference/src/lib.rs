//! A second implementation of docs/SPECIFICATION.md, to run the engine against.
//! Layers, each using only those above it:
//! record, file, joins, chase, mapping, codes, reduction, comparison, closure, database, listing.
//! Then what tests another engine: judge, random, generate, vectors.

pub mod record;
pub mod file;
pub mod joins;
pub mod chase;
pub mod mapping;
pub mod codes;
pub mod reduction;
pub mod comparison;
pub mod closure;
pub mod database;
pub mod listing;

pub mod judge;
pub mod random;
pub mod generate;
pub mod vectors;

#[cfg(test)]
mod examples;
#[cfg(test)]
mod crosscheck;
#[cfg(test)]
mod mistakes;
#[cfg(test)]
mod code_mistakes;
