//! The original and ours, side by side: comparison, self-test, lists of answers, and times.
//!
//! Where the original's source was not at hand the crate is empty, and the program says so.
#![cfg(original)]

pub mod answer;
pub mod bench;
pub mod compare;
mod generate;
#[cfg(archive)]
mod lent;
pub mod lists;
mod progress;
pub mod report;
mod rng;
pub mod selftest;
mod shrink;
pub mod subject;
pub mod subjects;
