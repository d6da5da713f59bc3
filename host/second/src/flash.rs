//! Flash image: from the image to its directories, their entries and bytes, one by one or all of them,
//! lookups, views, and the writing of directories.

use crate::little_endian::{put, u16_at, u32_at, u64_at};
use crate::refusal::{require, Refusal};
use std::collections::{BTreeMap, BTreeSet};

mod wrong;

pub use wrong::{wrong, Wrong};

/// The longest flash image.
const LONGEST_IMAGE: usize = 16_777_216;
/// Where the window of physical addresses onto the flash ends: at 4 GiB, however long the image is.
const WINDOW_END: u64 = 1 << 32;
/// Where an EFS may lie, in the order of trial.
const EFS_CANDIDATES: [PhysicalAddress; 6] = [
    PhysicalAddress(0xFFFA_0000),
    PhysicalAddress(0xFFF2_0000),
    PhysicalAddress(0xFFE2_0000),
    PhysicalAddress(0xFFC2_0000),
    PhysicalAddress(0xFF82_0000),
    PhysicalAddress(0xFF02_0000),
];
const EFS_LENGTH: u64 = 0x24;
const EFS_SIGNATURE: [u8; 4] = [0xAA, 0x55, 0xAA, 0x55];
/// Length of a directory's header, and of each entry.
const HEADER: usize = 16;
const ENTRY: usize = 16;
/// Most entries in a directory.
const MOST_ENTRIES: u32 = 512;
/// The type of an entry that leads to a level-two directory.
const LEADS_TO_LEVEL_TWO: u8 = 0x40;
/// The type of an entry that is a value and has no bytes.
const IS_A_VALUE: u8 = 0x0B;
/// Locations are below this: 62 bits.
const LOCATION_END: u64 = 1 << 62;

/// An x86 physical address.
#[derive(Clone, Copy, Debug, PartialEq, Eq)]
pub struct PhysicalAddress(pub u64);

/// An offset from the start of the flash image.
#[derive(Clone, Copy, Debug, PartialEq, Eq)]
pub struct FlashOffset(pub u64);

impl PhysicalAddress {
    /// The flash offset that the address names in an image of that length, which is good; an address outside the window is 7.
    pub fn flash_offset(self, image_length: usize) -> Result<FlashOffset, Refusal> {
        let first = window_first(image_length);
        require(self.0 >= first && self.0 < WINDOW_END, 7)?;
        Ok(FlashOffset(self.0 - first))
    }
}

/// Where the window onto an image of that length begins: it is as long as the image.
fn window_first(image_length: usize) -> u64 {
    WINDOW_END - image_length as u64
}

/// The two levels of directory.
#[derive(Clone, Copy, Debug, PartialEq, Eq)]
pub enum Level {
    One,
    Two,
}

impl Level {
    /// The level of that number; any but 1 and 2 is 9.
    pub fn numbered(number: u32) -> Result<Level, Refusal> {
        match number {
            1 => Ok(Level::One),
            2 => Ok(Level::Two),
            _ => Err(Refusal::of(9)),
        }
    }

    /// The level's number.
    pub fn number(self) -> u32 {
        match self {
            Level::One => 1,
            Level::Two => 2,
        }
    }

    /// The four bytes with which a directory of the level starts.
    pub fn cookie(self) -> &'static [u8; 4] {
        match self {
            Level::One => b"$PSP",
            Level::Two => b"$PL2",
        }
    }
}

/// An EFS: its offset, and its two directory pointers as they stand.
#[derive(Clone, Copy, Debug, PartialEq, Eq)]
pub struct Efs {
    pub place: u64,
    /// The pointer at 0x10.
    pub early: u32,
    /// The pointer at 0x14.
    pub late: u32,
}

/// The directory pointer: the offset of its field in the EFS, its value there, and the flash offset to which it leads.
#[derive(Clone, Copy, Debug, PartialEq, Eq)]
pub struct Pointer {
    pub field: u64,
    pub value: u32,
    pub place: u64,
}

/// Two entries of one directory that have the same type and subprogram.
#[derive(Clone, Copy, Debug, PartialEq, Eq)]
pub struct Repeat {
    /// The index of the first entry whose type and subprogram stood before.
    pub index: u64,
    /// The index of the entry in which they stood first.
    pub earlier: u64,
    pub kind: u8,
    pub subprogram: u8,
}

/// One entry of a directory.
#[derive(Clone, Copy, Debug, PartialEq, Eq)]
pub struct Entry {
    pub kind: u8,
    pub subprogram: u8,
    pub size: u32,
    /// The location or value: 62 bits where it was read, any number where it is to be written.
    pub location: u64,
    /// The address mode: 0 to 3 where it was read, any number where it is to be written.
    pub mode: u32,
}

impl Entry {
    /// The fields of an entry's sixteen bytes.
    fn read(bytes: &[u8]) -> Entry {
        let last = u64_at(bytes, 8);
        Entry {
            kind: bytes[0],
            subprogram: bytes[1],
            size: u32_at(bytes, 4),
            location: last % LOCATION_END,
            mode: (last / LOCATION_END) as u32,
        }
    }

    /// The entry's sixteen bytes. Location and mode are within their limits.
    fn written(&self) -> [u8; ENTRY] {
        let mut bytes = [0; ENTRY];
        bytes[0] = self.kind;
        bytes[1] = self.subprogram;
        put(&mut bytes, 4, &self.size.to_le_bytes());
        let last = self.location + u64::from(self.mode) * LOCATION_END;
        put(&mut bytes, 8, &last.to_le_bytes());
        bytes
    }

    /// Whether a lookup for type and subprogram is for this entry.
    fn matches(&self, kind: u8, subprogram: u8) -> bool {
        self.kind == kind && self.subprogram == subprogram
    }

    /// The flash offset that location and mode name, for an entry of that directory.
    fn flash_offset(&self, directory: &Directory) -> Result<FlashOffset, Refusal> {
        match self.mode {
            0 => PhysicalAddress(self.location).flash_offset(directory.image.len()),
            1 => Ok(FlashOffset(self.location)),
            // No sum here passes 2^64: the place is at most an image's length, a location has 62 bits.
            2 => Ok(FlashOffset(directory.place + self.location)),
            _ => Err(Refusal::of(16)),
        }
    }
}

/// The part of the lent image that holds an entry's bytes.
#[derive(Clone, Copy, Debug, PartialEq, Eq)]
pub struct Part {
    /// Its offset in the lent image.
    pub place: u64,
    pub length: u64,
}

/// An entry, and where its bytes lie or why it has none.
#[derive(Clone, Copy, Debug, PartialEq, Eq)]
pub struct EntryAndBytes {
    pub entry: Entry,
    pub bytes: Result<Part, Refusal>,
}

/// A directory that the walk through an image comes to.
#[derive(Clone, Copy, Debug, PartialEq, Eq)]
pub struct Reached<'a> {
    pub directory: Directory<'a>,
    /// The index of the level-one entry that leads there; 0 for level one.
    pub lead: u64,
}

/// What a lookup in one directory found.
#[derive(Clone, Copy, Debug, PartialEq, Eq)]
pub struct Found {
    pub index: u64,
    pub tested: u64,
}

/// What a lookup in the whole image found.
#[derive(Clone, Copy, Debug, PartialEq, Eq)]
pub struct FoundInImage {
    /// The offset of the match's directory.
    pub place: u64,
    /// The level of the match's directory.
    pub level: Level,
    pub index: u64,
    pub tested: u64,
}

/// A directory that has passed every check of its level.
#[derive(Clone, Copy, Debug, PartialEq, Eq)]
pub struct Directory<'a> {
    image: &'a [u8],
    /// Where it begins in the lent bytes.
    pub place: u64,
    pub level: Level,
    /// How many entries it has.
    pub total: u32,
}

/// Whether the bytes from `o` on, `length` of them, lie in the lent bytes.
fn lies_in(bytes: &[u8], o: u64, length: u64) -> bool {
    match o.checked_add(length) {
        Some(end) => end <= bytes.len() as u64,
        None => false,
    }
}

/// Fletcher's 32-bit sum, as document 01 fixes it, over the bytes from 8 to the end of the entries.
pub fn checksum(bytes: &[u8]) -> u32 {
    let m = (bytes.len() / 2) as u64;
    // At most 4,100 words of 16 bits with weights of 13 bits: neither sum comes near 2^64.
    let (mut s, mut t) = (0, 0);
    for (k, word) in bytes.chunks_exact(2).enumerate() {
        let word = u64::from(u16_at(word, 0));
        s += word;
        t += word * (m - k as u64);
    }
    (half(t) << 16) | half(s)
}

/// A sum modulo 65,535, with 0 written as 65,535.
fn half(sum: u64) -> u32 {
    match sum % 65_535 {
        0 => 65_535,
        rest => rest as u32,
    }
}

/// The level of the directory at `o`, by its cookie.
fn level_by_cookie(bytes: &[u8], o: u64) -> Result<Level, Refusal> {
    require(lies_in(bytes, o, HEADER as u64), 1)?;
    for level in [Level::One, Level::Two] {
        if bytes[o as usize..].starts_with(level.cookie()) {
            return Ok(level);
        }
    }
    Err(Refusal::of(2))
}

/// The checks of the header of a directory of that level at `o`. Gives the total.
fn checked_header(bytes: &[u8], o: u64, level: Level) -> Result<u32, Refusal> {
    // 16 bytes present
    require(lies_in(bytes, o, HEADER as u64), 1)?;
    let from_o = &bytes[o as usize..];
    // cookie of the level
    require(from_o[0..4] == *level.cookie(), 2)?;
    // total within its limit
    let n = u32_at(from_o, 8);
    require(n <= MOST_ENTRIES, 3)?;
    // all entries present
    let length = HEADER + ENTRY * n as usize;
    require(from_o.len() >= length, 1)?;
    // checksum
    require(u32_at(from_o, 4) == checksum(&from_o[8..length]), 4)?;
    // header reserved
    require(u32_at(from_o, 0x0C) == 0, 5)?;
    Ok(n)
}

/// The checks of an entry of that level. The types and subprograms of the entries before it are in `seen`, and its own is put there.
fn check_entry(entry: &[u8], level: Level, seen: &mut BTreeSet<(u8, u8)>) -> Result<(), Refusal> {
    // reserved
    require(u16_at(entry, 2) == 0, 5)?;
    // 0x40 has no place in level two
    require(level == Level::One || entry[0] != LEADS_TO_LEVEL_TWO, 14)?;
    // no earlier one has this type and subprogram
    require(seen.insert((entry[0], entry[1])), 18)?;
    Ok(())
}

/// The checks of a directory of that level at `o`. A refusal carries where it was met.
fn checked_directory(bytes: &[u8], o: u64, level: Level) -> Result<Directory<'_>, Refusal> {
    let in_header = |refusal: Refusal| refusal.in_header(level.number(), o);
    let n = checked_header(bytes, o, level).map_err(in_header)?;
    let directory = Directory {
        image: bytes,
        place: o,
        level,
        total: n,
    };
    let mut seen = BTreeSet::new();
    for (index, entry) in (0..).zip(directory.entry_bytes()) {
        directory.at_entry(index, check_entry(entry, level, &mut seen))?;
    }
    Ok(directory)
}

/// The checks of a directory of either level at `o`, whose cookie tells the level. Until it has, there is none: level 0.
fn checked_by_cookie(bytes: &[u8], o: u64) -> Result<Directory<'_>, Refusal> {
    let level = level_by_cookie(bytes, o).map_err(|refusal| refusal.in_header(0, o))?;
    checked_directory(bytes, o, level)
}

impl<'a> Directory<'a> {
    /// All entries in their order, as bytes.
    fn entry_bytes(&self) -> impl Iterator<Item = &'a [u8]> {
        let first = self.place as usize + HEADER;
        let end = first + ENTRY * self.total as usize;
        self.image[first..end].chunks_exact(ENTRY)
    }

    /// All entries in their order.
    fn entries(&self) -> impl Iterator<Item = Entry> + 'a {
        self.entry_bytes().map(Entry::read)
    }

    /// What was found at entry `index`; a refusal carries that place.
    fn at_entry<T>(&self, index: u64, found: Result<T, Refusal>) -> Result<T, Refusal> {
        found.map_err(|refusal| refusal.in_entry(self.level.number(), index, self.place))
    }

    /// Entry `index`; at or above the total it is 8, whatever bytes follow.
    pub fn entry(&self, index: u64) -> Result<Entry, Refusal> {
        require(index < u64::from(self.total), 8)?;
        let at = self.place as usize + HEADER + ENTRY * index as usize;
        Ok(Entry::read(&self.image[at..at + ENTRY]))
    }

    /// Where the bytes of entry `index` lie in the image.
    pub fn bytes(&self, index: u64) -> Result<Part, Refusal> {
        // index (8)
        let entry = self.entry(index)?;
        self.at_entry(index, self.part(&entry))
    }

    /// Where the bytes of an entry of this directory lie.
    fn part(&self, entry: &Entry) -> Result<Part, Refusal> {
        // a value has no bytes
        require(entry.kind != IS_A_VALUE, 17)?;
        // mode 3 (16), a physical address outside the window (7)
        let FlashOffset(place) = entry.flash_offset(self)?;
        // the range ends within the image
        let length = u64::from(entry.size);
        require(lies_in(self.image, place, length), 7)?;
        Ok(Part { place, length })
    }

    /// Every entry, with its bytes.
    pub fn all_entries(&self) -> Result<Vec<EntryAndBytes>, Refusal> {
        let mut all = Vec::new();
        for index in 0..u64::from(self.total) {
            all.push(EntryAndBytes {
                entry: self.entry(index)?,
                bytes: self.bytes(index),
            });
        }
        Ok(all)
    }

    /// The entry of that type and subprogram: there is one at most.
    pub fn find(&self, kind: u8, subprogram: u8) -> Result<Found, Refusal> {
        for (index, entry) in (0..).zip(self.entries()) {
            if entry.matches(kind, subprogram) {
                return Ok(Found {
                    index,
                    tested: index + 1,
                });
            }
        }
        Err(Refusal::not_found(u64::from(self.total)))
    }

    /// The level-two directory to which entry `index` of this directory leads, checked.
    fn follow(&self, index: u64, entry: &Entry) -> Result<Directory<'a>, Refusal> {
        let o = self.at_entry(index, self.place_led_to(entry))?;
        checked_directory(self.image, o, Level::Two)
    }

    /// Where an entry of this directory leads.
    fn place_led_to(&self, entry: &Entry) -> Result<u64, Refusal> {
        // mode 3 (16), a physical address outside the window (7)
        let FlashOffset(o) = entry.flash_offset(self)?;
        // beyond the image; the entry's size has no part in it
        require(o <= self.image.len() as u64, 7)?;
        Ok(o)
    }
}

/// Neither empty nor too long.
fn check_image_length(image: &[u8]) -> Result<(), Refusal> {
    require(!image.is_empty() && image.len() <= LONGEST_IMAGE, 15)
}

/// The first EFS candidate that counts.
fn find_efs(image: &[u8]) -> Result<Efs, Refusal> {
    for candidate in EFS_CANDIDATES {
        let place = match candidate.flash_offset(image.len()) {
            Ok(FlashOffset(place)) => place,
            // a candidate below the window is passed over
            Err(_) => continue,
        };
        let o = place as usize;
        if lies_in(image, place, EFS_LENGTH) && image[o..].starts_with(&EFS_SIGNATURE) {
            return Ok(Efs {
                place,
                early: u32_at(image, o + 0x10),
                late: u32_at(image, o + 0x14),
            });
        }
    }
    Err(Refusal::of(2))
}

/// The pointer to the level-one directory.
fn directory_pointer(image: &[u8]) -> Result<Pointer, Refusal> {
    let efs = find_efs(image)?;
    // the pointer at 0x14, or the one at 0x10 where that is absent
    let present = |(_, pointer): &(u64, u32)| *pointer != 0 && *pointer != 0xFFFF_FFFF;
    let pointers = [(0x14, efs.late), (0x10, efs.early)];
    let (field, value) = match pointers.into_iter().find(present) {
        Some(found) => found,
        None => return Err(Refusal::of(8)),
    };
    // physical, a flash offset, or neither; what is taken leads into the image
    let number = u64::from(value);
    let FlashOffset(place) = if number >= window_first(image.len()) {
        PhysicalAddress(number).flash_offset(image.len())?
    } else if number < image.len() as u64 {
        FlashOffset(number)
    } else {
        return Err(Refusal::of(7));
    };
    Ok(Pointer {
        field,
        value,
        place,
    })
}

/// The EFS of an image.
pub fn efs(image: &[u8]) -> Result<Efs, Refusal> {
    check_image_length(image)?;
    find_efs(image)
}

/// The directory pointer of an image.
pub fn pointer(image: &[u8]) -> Result<Pointer, Refusal> {
    check_image_length(image)?;
    directory_pointer(image)
}

/// The level-one directory of an image of good length.
fn level_one(image: &[u8]) -> Result<Directory<'_>, Refusal> {
    let o = directory_pointer(image)?.place;
    checked_directory(image, o, Level::One)
}

/// Where the directory of that level begins, which is not checked; that of level one is, on the way to level two.
fn directory_place(image: &[u8], level: Level) -> Result<u64, Refusal> {
    if level == Level::One {
        return Ok(directory_pointer(image)?.place);
    }
    let one = level_one(image)?;
    // the lowest entry of type 0x40 leads to level two
    let mut indexed = (0..).zip(one.entries());
    let leading = indexed.find(|(_, e)| e.kind == LEADS_TO_LEVEL_TWO);
    match leading {
        Some((index, entry)) => one.at_entry(index, one.place_led_to(&entry)),
        None => Err(Refusal::of(8)),
    }
}

/// The directory of that level.
pub fn directory(image: &[u8], level: u32) -> Result<Directory<'_>, Refusal> {
    let level = Level::numbered(level)?;
    check_image_length(image)?;
    let o = directory_place(image, level)?;
    checked_directory(image, o, level)
}

/// The entries for which the directory of that level is refused with 18; a good directory has none, which is 8.
pub fn repeated(image: &[u8], level: u32) -> Result<Repeat, Refusal> {
    let level = Level::numbered(level)?;
    check_image_length(image)?;
    let o = directory_place(image, level)?;
    match checked_directory(image, o, level) {
        Err(refusal) if refusal.number == 18 => {
            first_repeat(&image[o as usize + HEADER..]).ok_or(refusal)
        }
        Err(refusal) => Err(refusal),
        Ok(_) => Err(Refusal::of(8)),
    }
}

/// Of the entries that begin these bytes, the first with a type and subprogram that were seen, and where they were seen first.
fn first_repeat(entries: &[u8]) -> Option<Repeat> {
    let mut first_seen = BTreeMap::new();
    for (index, entry) in (0..).zip(entries.chunks_exact(ENTRY)) {
        let (kind, subprogram) = (entry[0], entry[1]);
        let earlier = *first_seen.entry((kind, subprogram)).or_insert(index);
        if earlier != index {
            return Some(Repeat {
                index,
                earlier,
                kind,
                subprogram,
            });
        }
    }
    None
}

/// Entry `index` of the directory of that level.
pub fn entry(image: &[u8], level: u32, index: u64) -> Result<Entry, Refusal> {
    directory(image, level)?.entry(index)
}

/// Where the bytes of entry `index` of the directory of that level lie.
pub fn bytes(image: &[u8], level: u32, index: u64) -> Result<Part, Refusal> {
    directory(image, level)?.bytes(index)
}

/// Lookup in the directory of that level.
pub fn find(image: &[u8], level: u32, kind: u8, subprogram: u8) -> Result<Found, Refusal> {
    directory(image, level)
        .map_err(Refusal::before_lookup)?
        .find(kind, subprogram)
}

/// Lookup in the whole image.
pub fn find_image(image: &[u8], kind: u8, subprogram: u8) -> Result<FoundInImage, Refusal> {
    check_image_length(image)?;
    let one = level_one(image).map_err(Refusal::before_lookup)?;
    let mut tested = 0;
    for (index, entry) in (0..).zip(one.entries()) {
        // an entry is tested before it is followed
        tested += 1;
        if entry.matches(kind, subprogram) {
            return Ok(FoundInImage {
                place: one.place,
                level: one.level,
                index,
                tested,
            });
        }
        if entry.kind == LEADS_TO_LEVEL_TWO {
            let two = one.follow(index, &entry)?;
            match two.find(kind, subprogram) {
                Ok(found) => {
                    return Ok(FoundInImage {
                        place: two.place,
                        level: two.level,
                        index: found.index,
                        tested: tested + found.tested,
                    })
                }
                // no match there: all of its entries were tested
                Err(_) => tested += u64::from(two.total),
            }
        }
    }
    Err(Refusal::not_found(tested))
}

/// Every directory of the image, in the order of the walk: level one, and below it each level two that one of its entries leads
/// to, as often as one does.
pub fn all_directories(image: &[u8]) -> Result<Vec<Reached<'_>>, Refusal> {
    check_image_length(image)?;
    let one = level_one(image)?;
    let mut all = vec![Reached {
        directory: one,
        lead: 0,
    }];
    let indexed = (0..).zip(one.entries());
    for (lead, entry) in indexed.filter(|(_, entry)| entry.kind == LEADS_TO_LEVEL_TWO) {
        let directory = one.follow(lead, &entry)?;
        all.push(Reached { directory, lead });
    }
    Ok(all)
}

/// Every entry of the directory at that place of the image, and the directory itself.
pub fn all_entries(
    image: &[u8],
    place: u64,
) -> Result<(Directory<'_>, Vec<EntryAndBytes>), Refusal> {
    let directory = View { image, place }.directory()?;
    Ok((directory, directory.all_entries()?))
}

/// A view: the lent image and the place where a directory begins. It says nothing of what the
/// image holds by now, so each call checks again, without the EFS.
#[derive(Clone, Copy, Debug, PartialEq, Eq)]
pub struct View<'a> {
    pub image: &'a [u8],
    pub place: u64,
}

impl<'a> View<'a> {
    /// The view of the directory of that level.
    pub fn of(image: &'a [u8], level: u32) -> Result<View<'a>, Refusal> {
        let place = directory(image, level)?.place;
        Ok(View { image, place })
    }

    /// What a refused view holds: no bytes, and place 0.
    pub fn none() -> View<'static> {
        View {
            image: &[],
            place: 0,
        }
    }

    /// The directory, checked again.
    fn directory(&self) -> Result<Directory<'a>, Refusal> {
        check_image_length(self.image)?;
        // the place is not beyond the image
        require(self.place <= self.image.len() as u64, 7)?;
        checked_by_cookie(self.image, self.place)
    }

    /// As `Directory::entry`.
    pub fn entry(&self, index: u64) -> Result<Entry, Refusal> {
        self.directory()?.entry(index)
    }

    /// As `Directory::bytes`.
    pub fn bytes(&self, index: u64) -> Result<Part, Refusal> {
        self.directory()?.bytes(index)
    }
}

/// Writes an empty directory of that level at the buffer's start.
pub fn start(buffer: &mut [u8], level: u32) -> Result<(), Refusal> {
    let level = Level::numbered(level)?;
    // room
    require(buffer.len() >= HEADER, 12)?;
    put(buffer, 0, level.cookie());
    put(buffer, 8, &[0; 8]);
    let sum = checksum(&buffer[8..HEADER]);
    put(buffer, 4, &sum.to_le_bytes());
    Ok(())
}

/// Adds one entry to the directory at the buffer's start, and gives the new total.
pub fn extend(buffer: &mut [u8], entry: &Entry) -> Result<u32, Refusal> {
    // a good directory of either level, by its cookie
    let directory = checked_by_cookie(buffer, 0)?;
    let (level, n) = (directory.level, directory.total);
    let repeats = directory.find(entry.kind, entry.subprogram).is_ok();
    // location and mode within their limits
    require(entry.location < LOCATION_END, 5)?;
    require(entry.mode <= 3, 5)?;
    // 0x40 has no place in level two
    require(level == Level::One || entry.kind != LEADS_TO_LEVEL_TWO, 14)?;
    // no entry that is there has this type and subprogram
    require(!repeats, 18)?;
    // one more may be counted
    require(n < MOST_ENTRIES, 3)?;
    // room
    let end = HEADER + ENTRY * n as usize;
    require(buffer.len() >= end + ENTRY, 12)?;
    put(buffer, end, &entry.written());
    put(buffer, 8, &(n + 1).to_le_bytes());
    let sum = checksum(&buffer[8..end + ENTRY]);
    put(buffer, 4, &sum.to_le_bytes());
    Ok(n + 1)
}

#[cfg(test)]
mod tests;
