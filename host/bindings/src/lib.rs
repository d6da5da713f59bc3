//! Safe Rust over the proved library: one function for each exported call, one file for each subject.
//!
//! Every call of the library has one shape: lent slices and numbers in, the number of document 01 out
//! (0 where accepted), and the values written into lent words. A caller here sees none of that: a call
//! takes slices and numbers, and answers what the library gives or the [`Refusal`].
//!
//! Why the calls are safe stands at the macro that declares them, `exported!`: no other code of this crate is unsafe.
//!
//! Each of them is a few instructions around a call, so they are marked `#[inline]`: across crates Rust inlines only what is.

#![deny(unsafe_code)]

mod all;
mod answer;
mod aspt;
mod build;
mod checksum;
mod exported;
mod flash;
mod guids;
#[cfg(test)]
mod header;
mod mailbox;
#[cfg(test)]
mod sample;
mod version;
mod view;
mod wrong;

pub use all::{directories, view_entries, Entered, Entries, EntryRow, Words};
pub use answer::{Answer, Place, Refusal};
pub use aspt::{aspt_read, aspt_write, AsptStructure, AsptTable};
pub use build::{extend, start, NewEntry};
pub use checksum::checksum;
pub use flash::{
    directory, efs, entry, find, find_image, part, pointer, repeated, Directory, Efs, Entry,
    ImageMatch, Match, Part, Pointer, Repeat,
};
pub use guids::{
    guid_entry, guid_extend, guid_find, guid_start, guids, Guid, GuidEntry, GuidMatch, GuidTable,
};
pub use mailbox::{CallerPlace, Firmware, Interrupt, Mailbox, Post, Register};
pub use version::{entry_version, version, view_version};
pub use view::{view, view_entry, view_part};
pub use wrong::{wrong, Wrong};
