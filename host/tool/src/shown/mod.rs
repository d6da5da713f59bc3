//! Answers as people and programs see them.

pub mod answer;
pub mod boards;
pub mod controls;
pub mod csv;
pub mod digits;
pub mod entry;
pub mod first_fields;
pub mod forms;
pub mod json;
pub mod names;
pub mod page;
pub mod places;
pub mod refusals;
pub mod repeats;
pub mod shell;
pub mod versions;
