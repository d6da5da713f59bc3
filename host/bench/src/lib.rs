//! Measures the proved library beside the second program and beside a plain, unproved reading of document 01 in C.
//!
//! `programs` gives the three one form, `samples` has what they are given, `rows` what is measured, `measure` the clock and
//! the rounds, `memory` the tool's peak, `stack` how deep each call goes, `report` the tables.

pub mod measure;
pub mod memory;
pub mod plain;
pub mod programs;
pub mod report;
pub mod rows;
pub mod samples;
pub mod stack;
