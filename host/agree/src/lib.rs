//! Sets the tool and the second program side by side: two answers that differ are a fault in one of them.

pub mod answers;
pub mod board;
pub mod cases;
pub mod compare;
pub mod difference;
pub mod programs;
pub mod random;
pub mod search;
pub mod shrink;
pub mod subjects;
pub mod workplace;
