//! The plain reading in C, as Rust calls it: the forms of `plain/plain.h`, and its calls.

use bindings::{AsptStructure, AsptTable};

/// What a call in C answers: 0, or the number of the refusal.
pub type Number = i32;

#[repr(C)]
#[derive(Clone, Copy, Default)]
pub struct Directory {
    pub place: u64,
    pub level: u32,
    pub total: u32,
}

#[repr(C)]
#[derive(Clone, Copy, Default)]
pub struct Entry {
    pub class: u8,
    pub subprogram: u8,
    pub size: u32,
    pub location: u64,
    pub mode: u32,
}

#[repr(C)]
#[derive(Clone, Copy, Default)]
pub struct Part {
    pub place: u64,
    pub length: u64,
}

#[repr(C)]
#[derive(Clone, Copy, Default)]
pub struct Row {
    pub entry: Entry,
    pub answer: Number,
    pub part: Part,
}

#[repr(C)]
#[derive(Clone, Copy, Default)]
pub struct Entered {
    pub directory: Directory,
    pub lead: u64,
}

/// Where a refusal was met. It is cleared before a call: one that was met in no directory writes nothing there.
#[repr(C)]
#[derive(Clone, Copy, Default)]
pub struct Met {
    pub within: u32,
    pub level: u32,
    pub index: u64,
    pub directory: u64,
}

// Names for the numbers of `enum plain_met_in`; 0 stands for none.
pub const MET_HEADER: u32 = 1;
pub const MET_ENTRY: u32 = 2;

// Names for the numbers of the enum of what there is at most.
pub const MOST_ENTRIES: usize = 512;
pub const MOST_DIRECTORIES: usize = 257;

#[repr(C)]
#[derive(Clone, Copy, Default)]
pub struct Match {
    pub index: u64,
    pub tested: u64,
}

#[repr(C)]
#[derive(Clone, Copy, Default)]
pub struct ImageMatch {
    pub place: u64,
    pub level: u32,
    pub index: u64,
    pub tested: u64,
}

#[repr(C)]
#[derive(Clone, Copy, Default)]
pub struct GuidMatch {
    pub place: u64,
    pub length: u64,
    pub tested: u64,
}

#[repr(C)]
#[derive(Clone, Copy, Default)]
pub struct Structure {
    kind: u16,
    id: u8,
    registers: [u32; 3],
}

#[repr(C)]
#[derive(Clone, Copy, Default)]
pub struct Table {
    oem: [u8; 6],
    oem_table: [u8; 8],
    oem_revision: u32,
    creator: u32,
    creator_revision: u32,
    base: u64,
    pages: u32,
    structures: [Structure; 3],
}

impl From<&AsptTable> for Table {
    fn from(table: &AsptTable) -> Table {
        Table {
            oem: table.oem,
            oem_table: table.oem_table,
            oem_revision: table.oem_revision,
            creator: table.creator,
            creator_revision: table.creator_revision,
            base: table.base,
            pages: table.pages,
            structures: table.structures.map(|structure| Structure {
                kind: structure.kind,
                id: structure.id,
                registers: structure.registers,
            }),
        }
    }
}

impl From<&Table> for AsptTable {
    fn from(table: &Table) -> AsptTable {
        AsptTable {
            oem: table.oem,
            oem_table: table.oem_table,
            oem_revision: table.oem_revision,
            creator: table.creator,
            creator_revision: table.creator_revision,
            base: table.base,
            pages: table.pages,
            structures: table.structures.map(|structure| AsptStructure {
                kind: structure.kind,
                id: structure.id,
                registers: structure.registers,
            }),
        }
    }
}

#[repr(C)]
#[derive(Clone, Copy, Default)]
pub struct Post {
    pub caller: u32,
    pub command: u16,
    pub data: u16,
}

#[repr(C)]
#[derive(Clone, Copy, Default)]
pub struct Place {
    pub state: u32,
    pub word: u32,
}

#[repr(C)]
#[derive(Clone, Copy, Default)]
pub struct Interrupt {
    pub parts: [u16; 3],
    pub saved: bool,
    pub delivery: bool,
}

#[repr(C)]
#[derive(Clone, Copy)]
pub struct Firmware {
    pub interface_on: bool,
    pub held: [bool; 3],
    pub parts: [u16; 3],
    pub interrupts: [Interrupt; 64],
}

#[repr(C)]
#[derive(Clone, Copy)]
pub struct Mailbox {
    pub phase: u32,
    pub caller: u32,
    pub word: u32,
    pub count: u32,
    pub line: [Post; 8],
    pub places: [Place; 8],
    pub firmware: Firmware,
}

// Names for the numbers of `enum plain_phase` and `enum plain_state`.
pub const IDLE: u32 = 0;
pub const COMMAND: u32 = 1;
pub const RESPONSE: u32 = 2;
pub const FREE: u32 = 0;
pub const WAITING: u32 = 1;
pub const READY: u32 = 2;

extern "C" {
    pub fn plain_checksum(bytes: *const u8, length: usize) -> u32;

    pub fn plain_directory(
        image: *const u8,
        length: usize,
        level: u32,
        found: *mut Directory,
        met: *mut Met,
    ) -> Number;

    pub fn plain_entry(
        image: *const u8,
        length: usize,
        level: u32,
        index: u64,
        entry: *mut Entry,
        met: *mut Met,
    ) -> Number;

    pub fn plain_part(
        image: *const u8,
        length: usize,
        level: u32,
        index: u64,
        part: *mut Part,
        met: *mut Met,
    ) -> Number;

    pub fn plain_find(
        image: *const u8,
        length: usize,
        level: u32,
        class: u8,
        subprogram: u8,
        found: *mut Match,
        met: *mut Met,
    ) -> Number;

    pub fn plain_find_image(
        image: *const u8,
        length: usize,
        class: u8,
        subprogram: u8,
        found: *mut ImageMatch,
        met: *mut Met,
    ) -> Number;

    pub fn plain_entry_of(
        image: *const u8,
        directory: *const Directory,
        index: u64,
        entry: *mut Entry,
    ) -> Number;

    pub fn plain_part_of(
        image: *const u8,
        length: usize,
        directory: *const Directory,
        index: u64,
        part: *mut Part,
        met: *mut Met,
    ) -> Number;

    pub fn plain_view_entries(
        image: *const u8,
        length: usize,
        place: u64,
        rows: *mut Row,
        found: *mut Directory,
        met: *mut Met,
    ) -> Number;

    pub fn plain_entries_of(
        image: *const u8,
        length: usize,
        directory: *const Directory,
        rows: *mut Row,
    );

    pub fn plain_directories(
        image: *const u8,
        length: usize,
        entered: *mut Entered,
        count: *mut u32,
        met: *mut Met,
    ) -> Number;

    pub fn plain_start(buffer: *mut u8, length: usize, level: u32) -> Number;

    pub fn plain_extend(
        buffer: *mut u8,
        length: usize,
        entry: *const Entry,
        total: *mut u32,
        met: *mut Met,
    ) -> Number;

    pub fn plain_aspt_read(bytes: *const u8, length: usize, table: *mut Table) -> Number;

    pub fn plain_aspt_write(buffer: *mut u8, length: usize, table: *const Table) -> Number;

    pub fn plain_guids(
        image: *const u8,
        length: usize,
        total: *mut u32,
        entries: *mut u64,
    ) -> Number;

    pub fn plain_guid_find(
        image: *const u8,
        length: usize,
        guid: *const u8,
        found: *mut GuidMatch,
    ) -> Number;

    pub fn plain_guid_start(buffer: *mut u8, length: usize) -> Number;

    pub fn plain_guid_extend(
        buffer: *mut u8,
        length: usize,
        guid: *const u8,
        data: *const u8,
        data_length: usize,
        total: *mut u32,
    ) -> Number;

    pub fn plain_mailbox_fresh(mailbox: *mut Mailbox);

    pub fn plain_post(mailbox: *mut Mailbox, caller: u32, command: u32, data: u16) -> Number;

    pub fn plain_load(mailbox: *mut Mailbox, acted: *mut bool) -> Number;

    pub fn plain_turn(mailbox: *mut Mailbox, acted: *mut bool) -> Number;

    pub fn plain_unload(mailbox: *mut Mailbox, acted: *mut bool) -> Number;

    pub fn plain_take(mailbox: *mut Mailbox, caller: u32, word: *mut u32) -> Number;
}
