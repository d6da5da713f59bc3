//! The samples that come with the tool: boards, whose directories the library's own writer writes, and recordings.

pub mod board;
mod image;
pub mod machines;
pub mod recordings;
pub mod refused;
