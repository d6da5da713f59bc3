//! The second program: document 01 read once more, from its words alone.
//!
//! It shares no code with the proved library or its host. Both answer the same line language; two
//! answers that differ are a fault in one of them. One module holds each subject, and its checks
//! stand in the order in which document 01 names them, each with the number it refuses with.

pub mod ask;
pub mod aspt;
pub mod buffers;
pub mod composite;
pub mod flash;
pub mod guids;
pub mod lines;
pub mod little_endian;
pub mod mailbox;
pub mod refusal;
pub mod version;
