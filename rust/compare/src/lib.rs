//! Random lists of calls on two engines for "The drawing as a graph, and the rules that change it" (document 01). Every
//! answer, every saved file and every listing of the two is compared.
//!
//! A list follows from its seed. [`lists`] says what its calls are about and [`cook`] writes their texts, right ones
//! ([`furnish`], [`rules`]) and wrong ones ([`damage`]); [`drive`] makes them on both engines; [`tally`] counts what was
//! reached.

#![forbid(unsafe_code)]

pub mod agreed;
pub mod calls;
pub mod cook;
pub mod damage;
pub mod drive;
pub mod engines;
pub mod furnish;
pub mod kitchen;
pub mod limits;
pub mod lists;
pub mod misprints;
pub mod numbers;
pub mod pattern;
pub mod random;
pub mod report;
pub mod rules;
pub mod shorten;
pub mod sights;
pub mod tally;
pub mod text;
