//! ASPT: an ACPI table of exactly 112 bytes, read and written.

use crate::little_endian::{put, u16_at, u32_at, u64_at};
use crate::refusal::{require, Refusal};

const SIGNATURE: &[u8; 4] = b"ASPT";
/// Length of the table, of its fields before the structures, and of each structure.
const TABLE: usize = 112;
const FIXED: usize = 52;
const STRUCTURE: usize = 20;
const REVISION: u8 = 2;
const COUNT: usize = 3;
/// Bytes in one page of the register space.
const PAGE: u64 = 4096;
/// Bytes in one register.
const REGISTER: u64 = 4;
/// The one mailbox interrupt ID that a structure of type 1 may have.
const SEV_MAILBOX_ID: u8 = 0x01;

/// One register structure. A field that its type lacks is no part of it: it is not looked at when
/// the structure is written, and is 0 where the structure was read.
#[derive(Clone, Copy, Debug, PartialEq, Eq)]
pub struct Structure {
    pub kind: u16,
    /// The mailbox interrupt ID; type 1 alone has it.
    pub id: u8,
    /// The register offsets in the order of the source's table; type 2 has the first alone.
    pub registers: [u32; 3],
}

impl Structure {
    /// Whether structures of this type have an ID byte.
    pub fn has_id(kind: u16) -> bool {
        kind == 1
    }

    /// How many register offsets structures of this type have.
    pub fn register_count(kind: u16) -> usize {
        match kind {
            2 => 1,
            _ => 3,
        }
    }
}

/// What a table says: all of it that is not the same in every good table.
#[derive(Clone, Copy, Debug, PartialEq, Eq)]
pub struct Table {
    pub oem: [u8; 6],
    pub table: [u8; 8],
    pub oem_revision: u32,
    pub creator: u32,
    pub creator_revision: u32,
    pub base: u64,
    pub pages: u32,
    /// The three structures, in the order in which they stand.
    pub structures: [Structure; COUNT],
}

/// Reads the table in the first 112 lent bytes.
pub fn read(lent: &[u8]) -> Result<Table, Refusal> {
    // 112 bytes; more are ignored
    require(lent.len() >= TABLE, 1)?;
    let bytes = &lent[..TABLE];
    // signature
    require(bytes[0..4] == *SIGNATURE, 2)?;
    // Length
    require(u32_at(bytes, 4) == TABLE as u32, 3)?;
    // Revision
    require(bytes[8] == REVISION, 5)?;
    // the bytes of the table sum to zero
    require(sum(bytes) == 0, 4)?;
    let base = u64_at(bytes, 36);
    let pages = u32_at(bytes, 44);
    // base address (5)
    check_space(base, pages)?;
    // count
    require(u32_at(bytes, 48) == COUNT as u32, 3)?;
    let structures = read_structures(&bytes[FIXED..], pages)?;
    Ok(Table {
        oem: array_at(bytes, 10),
        table: array_at(bytes, 16),
        oem_revision: u32_at(bytes, 24),
        creator: u32_at(bytes, 28),
        creator_revision: u32_at(bytes, 32),
        base,
        pages,
        structures,
    })
}

/// Writes the table over the first 112 bytes of the buffer.
pub fn write(buffer: &mut [u8], table: &Table) -> Result<(), Refusal> {
    // base address (5)
    check_space(table.base, table.pages)?;
    // each structure in turn
    let mut seen = [false; COUNT];
    for structure in &table.structures {
        check_type(structure.kind, &mut seen)?;
        check_id(structure)?;
        check_registers(structure, table.pages)?;
    }
    // room
    require(buffer.len() >= TABLE, 12)?;
    put(buffer, 0, &written(table));
    Ok(())
}

/// The sum of the bytes modulo 256.
fn sum(bytes: &[u8]) -> u8 {
    bytes.iter().fold(0, |sum, byte| sum.wrapping_add(*byte))
}

/// The bytes of a field that is no number.
fn array_at<const N: usize>(bytes: &[u8], offset: usize) -> [u8; N] {
    let mut field = [0; N];
    field.copy_from_slice(&bytes[offset..offset + N]);
    field
}

/// The register space: its base is a multiple of a page, and it ends at 2^64 or before.
fn check_space(base: u64, pages: u32) -> Result<(), Refusal> {
    require(base % PAGE == 0, 5)?;
    let end = u128::from(base) + u128::from(PAGE) * u128::from(pages);
    require(end <= 1 << 64, 5)
}

/// The type is one of the three, and none before was of it.
fn check_type(kind: u16, seen: &mut [bool; COUNT]) -> Result<(), Refusal> {
    require(usize::from(kind) < COUNT, 6)?;
    require(!seen[usize::from(kind)], 6)?;
    seen[usize::from(kind)] = true;
    Ok(())
}

/// The ID byte, where the type has one.
fn check_id(structure: &Structure) -> Result<(), Refusal> {
    require(
        !Structure::has_id(structure.kind) || structure.id == SEV_MAILBOX_ID,
        5,
    )
}

/// Each register that the type has lies in the register space.
fn check_registers(structure: &Structure, pages: u32) -> Result<(), Refusal> {
    let count = Structure::register_count(structure.kind);
    for offset in &structure.registers[..count] {
        require(u64::from(*offset) + REGISTER <= PAGE * u64::from(pages), 7)?;
    }
    Ok(())
}

/// Reads and checks the structures, each in turn.
fn read_structures(bytes: &[u8], pages: u32) -> Result<[Structure; COUNT], Refusal> {
    let mut structures = [Structure {
        kind: 0,
        id: 0,
        registers: [0; 3],
    }; COUNT];
    let mut seen = [false; COUNT];
    for (structure, bytes) in structures.iter_mut().zip(bytes.chunks_exact(STRUCTURE)) {
        let kind = u16_at(bytes, 0);
        // its length, then its type (6)
        require(u16_at(bytes, 2) == STRUCTURE as u16, 6)?;
        check_type(kind, &mut seen)?;
        // reserved bytes
        require(reserved(kind, bytes).all(|byte| *byte == 0), 5)?;
        structure.kind = kind;
        if Structure::has_id(kind) {
            structure.id = bytes[4];
        }
        for k in 0..Structure::register_count(kind) {
            structure.registers[k] = u32_at(bytes, 8 + 4 * k);
        }
        // the ID byte (5), the registers (7)
        check_id(structure)?;
        check_registers(structure, pages)?;
    }
    Ok(structures)
}

/// The reserved bytes of a structure of that type: those between its length and its registers, but
/// for the ID byte, and those behind its registers.
fn reserved(kind: u16, bytes: &[u8]) -> impl Iterator<Item = &u8> {
    let before = if Structure::has_id(kind) { 5 } else { 4 };
    let behind = 8 + 4 * Structure::register_count(kind);
    bytes[before..8].iter().chain(&bytes[behind..STRUCTURE])
}

/// The table's 112 bytes.
fn written(table: &Table) -> [u8; TABLE] {
    let mut bytes = [0; TABLE];
    put(&mut bytes, 0, SIGNATURE);
    put(&mut bytes, 4, &(TABLE as u32).to_le_bytes());
    bytes[8] = REVISION;
    put(&mut bytes, 10, &table.oem);
    put(&mut bytes, 16, &table.table);
    put(&mut bytes, 24, &table.oem_revision.to_le_bytes());
    put(&mut bytes, 28, &table.creator.to_le_bytes());
    put(&mut bytes, 32, &table.creator_revision.to_le_bytes());
    put(&mut bytes, 36, &table.base.to_le_bytes());
    put(&mut bytes, 44, &table.pages.to_le_bytes());
    put(&mut bytes, 48, &(COUNT as u32).to_le_bytes());
    for (k, structure) in table.structures.iter().enumerate() {
        put_structure(&mut bytes, FIXED + STRUCTURE * k, structure);
    }
    // the checksum was 0 until here, so this makes the sum 0
    bytes[9] = sum(&bytes).wrapping_neg();
    bytes
}

/// Writes the fields that the structure's type has; the rest of its bytes are zero already.
fn put_structure(bytes: &mut [u8], at: usize, structure: &Structure) {
    put(bytes, at, &structure.kind.to_le_bytes());
    put(bytes, at + 2, &(STRUCTURE as u16).to_le_bytes());
    if Structure::has_id(structure.kind) {
        bytes[at + 4] = structure.id;
    }
    for k in 0..Structure::register_count(structure.kind) {
        put(bytes, at + 8 + 4 * k, &structure.registers[k].to_le_bytes());
    }
}

#[cfg(test)]
mod tests;
