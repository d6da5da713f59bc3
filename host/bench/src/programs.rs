//! The three programs in one form: what a call answers is told in the types of the bindings, so that answers can be compared.

use crate::plain;
use bindings::{
    Answer, AsptStructure, AsptTable, CallerPlace, Directory, Entered, Entry, EntryRow, Firmware,
    Guid, GuidMatch, GuidTable, ImageMatch, Interrupt, Match, NewEntry, Part, Place, Post, Refusal,
    Register,
};

/// A program that reads and writes by document 01.
pub trait Program {
    const NAME: &'static str;

    /// The form in which the program itself is given an ASPT, and gives one.
    type Table: for<'a> From<&'a AsptTable>;
    type Mailbox: MailboxCalls;
    /// What the program puts entries and directories into. It is lent again for each, and cleared once.
    type Room: Default;

    fn checksum(bytes: &[u8]) -> u64;
    fn directory(image: &[u8], level: u32) -> Answer<Directory>;
    fn entry(image: &[u8], level: u32, index: usize) -> Answer<Entry>;
    fn part(image: &[u8], level: u32, index: usize) -> Answer<Part>;
    fn find(image: &[u8], level: u32, class: u8, subprogram: u8) -> Answer<Match>;
    fn find_image(image: &[u8], class: u8, subprogram: u8) -> Answer<ImageMatch>;
    fn start(buffer: &mut [u8], level: u32) -> Answer<()>;
    fn extend(buffer: &mut [u8], entry: &NewEntry) -> Answer<u64>;
    fn aspt_read(bytes: &[u8]) -> Answer<Self::Table>;
    fn aspt_write(buffer: &mut [u8], table: &Self::Table) -> Answer<()>;
    /// The table that was read, to be compared.
    fn told(table: &Self::Table) -> AsptTable;
    fn guids(image: &[u8]) -> Answer<GuidTable>;
    fn guid_find(image: &[u8], guid: &Guid) -> Answer<GuidMatch>;
    fn guid_start(buffer: &mut [u8]) -> Answer<()>;
    fn guid_extend(buffer: &mut [u8], guid: &Guid, data: &[u8]) -> Answer<u64>;

    /// Hands over every entry of the directory at a place, which is checked once.
    fn view_entries(
        image: &[u8],
        place: usize,
        room: &mut Self::Room,
        each: impl FnMut(EntryRow),
    ) -> Answer<Directory>;
    /// Hands over every directory of an image.
    fn directories(image: &[u8], room: &mut Self::Room, each: impl FnMut(Entered)) -> Answer<()>;
    /// Hands over every directory of an image, and behind each all of its entries. A program that keeps a checked directory does
    /// not check it again for them.
    fn list(image: &[u8], room: &mut Self::Room, each: impl FnMut(Listed)) -> Answer<()>;
}

/// What a list of an image hands over.
#[derive(Debug, PartialEq, Eq)]
pub enum Listed {
    Directory(Entered),
    Entry(EntryRow),
}

/// Hands over every entry of a level by the calls on single entries, in any program: each of them checks the directory again.
pub fn list_by_entry<P: Program + ?Sized>(
    image: &[u8],
    level: u32,
    mut each: impl FnMut(EntryRow),
) -> Answer<Directory> {
    let directory = P::directory(image, level)?;
    for index in 0..directory.total as usize {
        let entry = P::entry(image, level, index)?;
        // As a row of all entries has it, which tells by itself which entry it is.
        let part = P::part(image, level, index).map_err(|no| Refusal::alone(no.number));
        each(EntryRow { entry, part });
    }
    Ok(directory)
}

/// A mailbox with the firmware behind it, and its five calls.
pub trait MailboxCalls: Clone {
    fn fresh() -> Self;
    /// The mailbox described, before fresh firmware. It need not keep the rules.
    fn of(line: &[Post], register: Register, places: [CallerPlace; 8]) -> Self;
    fn post(&mut self, caller: u32, command: u32, data: u16) -> Answer<()>;
    fn load(&mut self) -> Answer<bool>;
    fn turn(&mut self) -> Answer<bool>;
    fn unload(&mut self) -> Answer<bool>;
    fn take(&mut self, caller: u32) -> Answer<u64>;
    fn firmware(&self) -> Firmware;
}

// ---- the library, through the bindings

/// The proved library, called through its boundary.
pub struct Library;

impl Program for Library {
    const NAME: &'static str = "library";
    type Table = Words;
    type Mailbox = bindings::Mailbox;
    type Room = bindings::Words;

    fn checksum(bytes: &[u8]) -> u64 {
        bindings::checksum(bytes).expect("any bytes have a checksum")
    }

    fn directory(image: &[u8], level: u32) -> Answer<Directory> {
        bindings::directory(image, level)
    }

    fn entry(image: &[u8], level: u32, index: usize) -> Answer<Entry> {
        bindings::entry(image, level, index)
    }

    fn part(image: &[u8], level: u32, index: usize) -> Answer<Part> {
        bindings::part(image, level, index)
    }

    fn find(image: &[u8], level: u32, class: u8, subprogram: u8) -> Answer<Match> {
        bindings::find(image, level, class, subprogram)
    }

    fn find_image(image: &[u8], class: u8, subprogram: u8) -> Answer<ImageMatch> {
        bindings::find_image(image, class, subprogram)
    }

    fn start(buffer: &mut [u8], level: u32) -> Answer<()> {
        bindings::start(buffer, level)
    }

    fn extend(buffer: &mut [u8], entry: &NewEntry) -> Answer<u64> {
        bindings::extend(buffer, entry)
    }

    fn aspt_read(bytes: &[u8]) -> Answer<Words> {
        bindings::aspt_read(bytes).map(Words)
    }

    fn aspt_write(buffer: &mut [u8], table: &Words) -> Answer<()> {
        bindings::aspt_write(buffer, &table.0)
    }

    fn told(table: &Words) -> AsptTable {
        table.0
    }

    fn guids(image: &[u8]) -> Answer<GuidTable> {
        bindings::guids(image)
    }

    fn guid_find(image: &[u8], guid: &Guid) -> Answer<GuidMatch> {
        bindings::guid_find(image, guid)
    }

    fn guid_start(buffer: &mut [u8]) -> Answer<()> {
        bindings::guid_start(buffer)
    }

    fn guid_extend(buffer: &mut [u8], guid: &Guid, data: &[u8]) -> Answer<u64> {
        bindings::guid_extend(buffer, guid, data)
    }

    fn view_entries(
        image: &[u8],
        place: usize,
        room: &mut bindings::Words,
        each: impl FnMut(EntryRow),
    ) -> Answer<Directory> {
        let entries = bindings::view_entries(image, place, room)?;
        entries.rows().for_each(each);
        Ok(entries.directory)
    }

    fn directories(image: &[u8], _: &mut bindings::Words, each: impl FnMut(Entered)) -> Answer<()> {
        bindings::directories(image)?.into_iter().for_each(each);
        Ok(())
    }

    fn list(image: &[u8], room: &mut bindings::Words, mut each: impl FnMut(Listed)) -> Answer<()> {
        for entered in bindings::directories(image)? {
            each(Listed::Directory(entered));
            let place = entered.directory.place as usize;
            let entries = bindings::view_entries(image, place, room)?;
            entries.rows().for_each(|row| each(Listed::Entry(row)));
        }
        Ok(())
    }
}

/// A table as the bindings have it. They turn it into the boundary's words at each call.
pub struct Words(AsptTable);

impl From<&AsptTable> for Words {
    fn from(table: &AsptTable) -> Words {
        Words(*table)
    }
}

impl MailboxCalls for bindings::Mailbox {
    fn fresh() -> Self {
        bindings::Mailbox::fresh()
    }

    fn of(line: &[Post], register: Register, places: [CallerPlace; 8]) -> Self {
        bindings::Mailbox::of(line, register, places)
    }

    fn post(&mut self, caller: u32, command: u32, data: u16) -> Answer<()> {
        bindings::Mailbox::post(self, caller, command, data)
    }

    fn load(&mut self) -> Answer<bool> {
        bindings::Mailbox::load(self)
    }

    fn turn(&mut self) -> Answer<bool> {
        bindings::Mailbox::turn(self)
    }

    fn unload(&mut self) -> Answer<bool> {
        bindings::Mailbox::unload(self)
    }

    fn take(&mut self, caller: u32) -> Answer<u64> {
        bindings::Mailbox::take(self, caller)
    }

    fn firmware(&self) -> Firmware {
        bindings::Mailbox::firmware(self)
    }
}

// ---- the second program

/// The second program's functions.
pub struct Second;

fn refusal(refused: second::refusal::Refusal) -> Refusal {
    Refusal {
        number: u64::from(refused.number),
        tested: refused.tested,
        place: refused.place.map(|place| Place {
            level: u64::from(place.level),
            index: place.index,
            directory: place.directory,
        }),
    }
}

fn directory_of(found: &second::flash::Directory) -> Directory {
    Directory {
        place: found.place,
        level: u64::from(found.level.number()),
        total: u64::from(found.total),
    }
}

fn entry_of(entry: second::flash::Entry) -> Entry {
    Entry {
        class: u64::from(entry.kind),
        subprogram: u64::from(entry.subprogram),
        size: u64::from(entry.size),
        location: entry.location,
        mode: u64::from(entry.mode),
    }
}

fn part_of(part: second::flash::Part) -> Part {
    Part {
        place: part.place,
        length: part.length,
    }
}

fn row_of(told: second::flash::EntryAndBytes) -> EntryRow {
    EntryRow {
        entry: entry_of(told.entry),
        part: told
            .bytes
            .map(part_of)
            .map_err(|refused| Refusal::alone(u64::from(refused.number))),
    }
}

fn entered_of(reached: &second::flash::Reached) -> Entered {
    Entered {
        directory: directory_of(&reached.directory),
        lead: reached.lead,
    }
}

impl Program for Second {
    const NAME: &'static str = "second program";
    type Table = SecondTable;
    type Mailbox = second::mailbox::Mailbox;
    /// It makes a list of its own for each.
    type Room = ();

    fn checksum(bytes: &[u8]) -> u64 {
        u64::from(second::flash::checksum(bytes))
    }

    fn directory(image: &[u8], level: u32) -> Answer<Directory> {
        second::flash::directory(image, level)
            .map(|found| directory_of(&found))
            .map_err(refusal)
    }

    fn entry(image: &[u8], level: u32, index: usize) -> Answer<Entry> {
        second::flash::entry(image, level, index as u64)
            .map(entry_of)
            .map_err(refusal)
    }

    fn part(image: &[u8], level: u32, index: usize) -> Answer<Part> {
        second::flash::bytes(image, level, index as u64)
            .map(part_of)
            .map_err(refusal)
    }

    fn find(image: &[u8], level: u32, class: u8, subprogram: u8) -> Answer<Match> {
        second::flash::find(image, level, class, subprogram)
            .map(|found| Match {
                index: found.index,
                tested: found.tested,
            })
            .map_err(refusal)
    }

    fn find_image(image: &[u8], class: u8, subprogram: u8) -> Answer<ImageMatch> {
        second::flash::find_image(image, class, subprogram)
            .map(|found| ImageMatch {
                place: found.place,
                level: u64::from(found.level.number()),
                index: found.index,
                tested: found.tested,
            })
            .map_err(refusal)
    }

    fn start(buffer: &mut [u8], level: u32) -> Answer<()> {
        second::flash::start(buffer, level).map_err(refusal)
    }

    fn extend(buffer: &mut [u8], entry: &NewEntry) -> Answer<u64> {
        let entry = second::flash::Entry {
            kind: entry.class,
            subprogram: entry.subprogram,
            size: entry.size,
            location: entry.location,
            mode: entry.mode,
        };
        second::flash::extend(buffer, &entry)
            .map(u64::from)
            .map_err(refusal)
    }

    fn aspt_read(bytes: &[u8]) -> Answer<SecondTable> {
        second::aspt::read(bytes).map(SecondTable).map_err(refusal)
    }

    fn aspt_write(buffer: &mut [u8], table: &SecondTable) -> Answer<()> {
        second::aspt::write(buffer, &table.0).map_err(refusal)
    }

    fn told(table: &SecondTable) -> AsptTable {
        let table = &table.0;
        AsptTable {
            oem: table.oem,
            oem_table: table.table,
            oem_revision: table.oem_revision,
            creator: table.creator,
            creator_revision: table.creator_revision,
            base: table.base,
            pages: table.pages,
            structures: table.structures.map(|structure| AsptStructure {
                kind: structure.kind,
                id: structure.id,
                registers: structure.registers,
            }),
        }
    }

    fn guids(image: &[u8]) -> Answer<GuidTable> {
        second::guids::read(image)
            .map(|found| GuidTable {
                total: found.total as u64,
                entries: found.entries,
            })
            .map_err(refusal)
    }

    fn guid_find(image: &[u8], guid: &Guid) -> Answer<GuidMatch> {
        second::guids::find(image, &guid.0)
            .map(|found| GuidMatch {
                place: found.place as u64,
                length: found.length as u64,
                tested: found.tested,
            })
            .map_err(refusal)
    }

    fn guid_start(buffer: &mut [u8]) -> Answer<()> {
        second::guids::start(buffer).map_err(refusal)
    }

    fn guid_extend(buffer: &mut [u8], guid: &Guid, data: &[u8]) -> Answer<u64> {
        second::guids::extend(buffer, &guid.0, data)
            .map(|total| total as u64)
            .map_err(refusal)
    }

    fn view_entries(
        image: &[u8],
        place: usize,
        _: &mut (),
        each: impl FnMut(EntryRow),
    ) -> Answer<Directory> {
        let all = second::flash::all_entries(image, place as u64);
        let (directory, entries) = all.map_err(refusal)?;
        entries.into_iter().map(row_of).for_each(each);
        Ok(directory_of(&directory))
    }

    fn directories(image: &[u8], _: &mut (), each: impl FnMut(Entered)) -> Answer<()> {
        let all = second::flash::all_directories(image).map_err(refusal)?;
        all.iter().map(entered_of).for_each(each);
        Ok(())
    }

    fn list(image: &[u8], _: &mut (), mut each: impl FnMut(Listed)) -> Answer<()> {
        for reached in second::flash::all_directories(image).map_err(refusal)? {
            each(Listed::Directory(entered_of(&reached)));
            let entries = reached.directory.all_entries().map_err(refusal)?;
            let rows = entries.into_iter().map(row_of);
            rows.for_each(|row| each(Listed::Entry(row)));
        }
        Ok(())
    }
}

/// A table as the second program has it.
pub struct SecondTable(second::aspt::Table);

impl From<&AsptTable> for SecondTable {
    fn from(table: &AsptTable) -> SecondTable {
        SecondTable(second::aspt::Table {
            oem: table.oem,
            table: table.oem_table,
            oem_revision: table.oem_revision,
            creator: table.creator,
            creator_revision: table.creator_revision,
            base: table.base,
            pages: table.pages,
            structures: table.structures.map(|structure| second::aspt::Structure {
                kind: structure.kind,
                id: structure.id,
                registers: structure.registers,
            }),
        })
    }
}

impl MailboxCalls for second::mailbox::Mailbox {
    fn fresh() -> Self {
        second::mailbox::Mailbox::fresh()
    }

    fn of(line: &[Post], register: Register, places: [CallerPlace; 8]) -> Self {
        use second::mailbox;
        mailbox::Mailbox {
            line: line
                .iter()
                .map(|post| mailbox::Post {
                    caller: byte(post.caller),
                    command: post.command,
                    data: post.data,
                })
                .collect(),
            register: match register {
                Register::Idle => mailbox::Register::Idle,
                Register::Command { caller, word } => mailbox::Register::Command {
                    caller: byte(caller),
                    word,
                },
                Register::Response { caller, word } => mailbox::Register::Response {
                    caller: byte(caller),
                    word,
                },
            },
            places: places.map(|place| match place {
                CallerPlace::Free => mailbox::Place::Free,
                CallerPlace::Waiting => mailbox::Place::Waiting,
                CallerPlace::Ready(word) => mailbox::Place::Ready(word),
            }),
            firmware: mailbox::Firmware::fresh(),
        }
    }

    fn post(&mut self, caller: u32, command: u32, data: u16) -> Answer<()> {
        second::mailbox::Mailbox::post(self, caller, command, data).map_err(refusal)
    }

    fn load(&mut self) -> Answer<bool> {
        second::mailbox::Mailbox::load(self).map_err(refusal)
    }

    fn turn(&mut self) -> Answer<bool> {
        second::mailbox::Mailbox::turn(self).map_err(refusal)
    }

    fn unload(&mut self) -> Answer<bool> {
        second::mailbox::Mailbox::unload(self).map_err(refusal)
    }

    fn take(&mut self, caller: u32) -> Answer<u64> {
        second::mailbox::Mailbox::take(self, caller)
            .map(u64::from)
            .map_err(refusal)
    }

    fn firmware(&self) -> Firmware {
        let firmware = &self.firmware;
        let interrupts = firmware.saved.iter().zip(firmware.delivery);
        Firmware {
            interface: firmware.interface_on,
            held: firmware.held,
            interrupts: interrupts
                .map(|(&descriptor, delivery)| Interrupt {
                    descriptor,
                    delivery,
                })
                .collect(),
        }
    }
}

/// A caller of a described mailbox: the second program has eight bits for it.
fn byte(caller: u32) -> u8 {
    u8::try_from(caller).expect("a described caller is at most 255")
}

// ---- the plain reading in C

/// The plain reading in C.
pub struct Plain;

/// What a call in C gave, or its refusal.
fn given<T>(number: plain::Number, value: T) -> Answer<T> {
    match number {
        0 => Ok(value),
        number => Err(Refusal::alone(number as u64)),
    }
}

/// The same of a call on a directory, whose refusal tells where it was met.
fn given_of<T>(number: plain::Number, value: T, met: &plain::Met) -> Answer<T> {
    given(number, value).map_err(|refused| Refusal {
        place: place_of(met),
        ..refused
    })
}

/// Where it was met, if in a directory.
fn place_of(met: &plain::Met) -> Option<Place> {
    let index = match met.within {
        plain::MET_HEADER => None,
        plain::MET_ENTRY => Some(met.index),
        _ => return None,
    };
    Some(Place {
        level: u64::from(met.level),
        index,
        directory: met.directory,
    })
}

/// The same of a lookup, which leaves a count where nothing was found.
fn looked_up<T>(number: plain::Number, tested: u64, value: T, met: &plain::Met) -> Answer<T> {
    given_of(number, value, met).map_err(|refused| match refused.number {
        Refusal::ABSENT => Refusal {
            tested: Some(tested),
            ..refused
        },
        _ => refused,
    })
}

fn plain_directory_of(found: &plain::Directory) -> Directory {
    Directory {
        place: found.place,
        level: u64::from(found.level),
        total: u64::from(found.total),
    }
}

fn plain_entry_of(entry: &plain::Entry) -> Entry {
    Entry {
        class: u64::from(entry.class),
        subprogram: u64::from(entry.subprogram),
        size: u64::from(entry.size),
        location: entry.location,
        mode: u64::from(entry.mode),
    }
}

fn plain_part_of(part: &plain::Part) -> Part {
    Part {
        place: part.place,
        length: part.length,
    }
}

// SAFETY, of every call below: a slice of Rust is aligned, not null and as long as it says, a mutable one overlaps no other,
// and the calls in C read and write within what they are given; what they give is written through the last pointer.

impl Program for Plain {
    const NAME: &'static str = "plain C";
    type Table = plain::Table;
    type Mailbox = plain::Mailbox;
    type Room = PlainRoom;

    fn checksum(bytes: &[u8]) -> u64 {
        u64::from(unsafe { plain::plain_checksum(bytes.as_ptr(), bytes.len()) })
    }

    fn directory(image: &[u8], level: u32) -> Answer<Directory> {
        let (mut found, mut met) = (plain::Directory::default(), plain::Met::default());
        let number = unsafe {
            plain::plain_directory(image.as_ptr(), image.len(), level, &mut found, &mut met)
        };
        given_of(number, plain_directory_of(&found), &met)
    }

    fn entry(image: &[u8], level: u32, index: usize) -> Answer<Entry> {
        let (mut entry, mut met) = (plain::Entry::default(), plain::Met::default());
        let (index, length) = (index as u64, image.len());
        let number = unsafe {
            plain::plain_entry(image.as_ptr(), length, level, index, &mut entry, &mut met)
        };
        given_of(number, plain_entry_of(&entry), &met)
    }

    fn part(image: &[u8], level: u32, index: usize) -> Answer<Part> {
        let (mut part, mut met) = (plain::Part::default(), plain::Met::default());
        let (index, length) = (index as u64, image.len());
        let number =
            unsafe { plain::plain_part(image.as_ptr(), length, level, index, &mut part, &mut met) };
        given_of(number, plain_part_of(&part), &met)
    }

    fn find(image: &[u8], level: u32, class: u8, subprogram: u8) -> Answer<Match> {
        let (mut found, mut met) = (plain::Match::default(), plain::Met::default());
        let number = unsafe {
            plain::plain_find(
                image.as_ptr(),
                image.len(),
                level,
                class,
                subprogram,
                &mut found,
                &mut met,
            )
        };
        let plain::Match { index, tested } = found;
        looked_up(number, tested, Match { index, tested }, &met)
    }

    fn find_image(image: &[u8], class: u8, subprogram: u8) -> Answer<ImageMatch> {
        let (mut found, mut met) = (plain::ImageMatch::default(), plain::Met::default());
        let number = unsafe {
            plain::plain_find_image(
                image.as_ptr(),
                image.len(),
                class,
                subprogram,
                &mut found,
                &mut met,
            )
        };
        let told = ImageMatch {
            place: found.place,
            level: u64::from(found.level),
            index: found.index,
            tested: found.tested,
        };
        looked_up(number, found.tested, told, &met)
    }

    fn start(buffer: &mut [u8], level: u32) -> Answer<()> {
        given(
            unsafe { plain::plain_start(buffer.as_mut_ptr(), buffer.len(), level) },
            (),
        )
    }

    fn extend(buffer: &mut [u8], entry: &NewEntry) -> Answer<u64> {
        let entry = plain::Entry {
            class: entry.class,
            subprogram: entry.subprogram,
            size: entry.size,
            location: entry.location,
            mode: entry.mode,
        };
        let (mut total, mut met) = (0, plain::Met::default());
        let (bytes, length) = (buffer.as_mut_ptr(), buffer.len());
        let number = unsafe { plain::plain_extend(bytes, length, &entry, &mut total, &mut met) };
        given_of(number, u64::from(total), &met)
    }

    fn aspt_read(bytes: &[u8]) -> Answer<plain::Table> {
        let mut table = plain::Table::default();
        let number = unsafe { plain::plain_aspt_read(bytes.as_ptr(), bytes.len(), &mut table) };
        given(number, table)
    }

    fn aspt_write(buffer: &mut [u8], table: &plain::Table) -> Answer<()> {
        given(
            unsafe { plain::plain_aspt_write(buffer.as_mut_ptr(), buffer.len(), table) },
            (),
        )
    }

    fn told(table: &plain::Table) -> AsptTable {
        table.into()
    }

    fn guids(image: &[u8]) -> Answer<GuidTable> {
        let (mut total, mut entries) = (0, 0);
        let number =
            unsafe { plain::plain_guids(image.as_ptr(), image.len(), &mut total, &mut entries) };
        let total = u64::from(total);
        given(number, GuidTable { total, entries })
    }

    fn guid_find(image: &[u8], guid: &Guid) -> Answer<GuidMatch> {
        let mut found = plain::GuidMatch::default();
        let number = unsafe {
            plain::plain_guid_find(image.as_ptr(), image.len(), guid.0.as_ptr(), &mut found)
        };
        let told = GuidMatch {
            place: found.place,
            length: found.length,
            tested: found.tested,
        };
        looked_up(number, found.tested, told, &plain::Met::default())
    }

    fn guid_start(buffer: &mut [u8]) -> Answer<()> {
        given(
            unsafe { plain::plain_guid_start(buffer.as_mut_ptr(), buffer.len()) },
            (),
        )
    }

    fn guid_extend(buffer: &mut [u8], guid: &Guid, data: &[u8]) -> Answer<u64> {
        let mut total = 0;
        let number = unsafe {
            plain::plain_guid_extend(
                buffer.as_mut_ptr(),
                buffer.len(),
                guid.0.as_ptr(),
                data.as_ptr(),
                data.len(),
                &mut total,
            )
        };
        given(number, u64::from(total))
    }

    fn view_entries(
        image: &[u8],
        place: usize,
        room: &mut PlainRoom,
        each: impl FnMut(EntryRow),
    ) -> Answer<Directory> {
        let (mut directory, mut met) = (plain::Directory::default(), plain::Met::default());
        let number = unsafe {
            plain::plain_view_entries(
                image.as_ptr(),
                image.len(),
                place as u64,
                room.rows.as_mut_ptr(),
                &mut directory,
                &mut met,
            )
        };
        given_of(number, (), &met)?;
        room.rows_of(&directory).for_each(each);
        Ok(plain_directory_of(&directory))
    }

    fn directories(image: &[u8], room: &mut PlainRoom, each: impl FnMut(Entered)) -> Answer<()> {
        let count = room.enter(image)?;
        let entered = &room.entered[..count];
        entered.iter().map(plain_entered_of).for_each(each);
        Ok(())
    }

    fn list(image: &[u8], room: &mut PlainRoom, mut each: impl FnMut(Listed)) -> Answer<()> {
        let count = room.enter(image)?;
        for i in 0..count {
            let entered = room.entered[i];
            each(Listed::Directory(plain_entered_of(&entered)));
            let directory = &entered.directory;
            let rows = room.rows.as_mut_ptr();
            unsafe { plain::plain_entries_of(image.as_ptr(), image.len(), directory, rows) };
            let rows = room.rows_of(directory);
            rows.for_each(|row| each(Listed::Entry(row)));
        }
        Ok(())
    }
}

/// Rows for the largest directory, and room for the directories of any image.
pub struct PlainRoom {
    rows: Vec<plain::Row>,
    entered: Vec<plain::Entered>,
}

impl Default for PlainRoom {
    fn default() -> PlainRoom {
        PlainRoom {
            rows: vec![plain::Row::default(); plain::MOST_ENTRIES],
            entered: vec![plain::Entered::default(); plain::MOST_DIRECTORIES],
        }
    }
}

impl PlainRoom {
    /// Puts all directories of an image into the room, and tells how many they are.
    fn enter(&mut self, image: &[u8]) -> Answer<usize> {
        let (mut count, mut met) = (0, plain::Met::default());
        let (entered, length) = (self.entered.as_mut_ptr(), image.len());
        let number = unsafe {
            plain::plain_directories(image.as_ptr(), length, entered, &mut count, &mut met)
        };
        given_of(number, count as usize, &met)
    }

    /// The rows that were written for a directory.
    fn rows_of(&self, directory: &plain::Directory) -> impl Iterator<Item = EntryRow> + '_ {
        let rows = &self.rows[..directory.total as usize];
        rows.iter().map(|row| EntryRow {
            entry: plain_entry_of(&row.entry),
            part: given(row.answer, plain_part_of(&row.part)),
        })
    }
}

fn plain_entered_of(entered: &plain::Entered) -> Entered {
    Entered {
        directory: plain_directory_of(&entered.directory),
        lead: entered.lead,
    }
}

impl MailboxCalls for plain::Mailbox {
    fn fresh() -> Self {
        let mut mailbox = std::mem::MaybeUninit::uninit();
        // SAFETY: the call in C writes the whole mailbox, every flag of it false or true.
        unsafe {
            plain::plain_mailbox_fresh(mailbox.as_mut_ptr());
            mailbox.assume_init()
        }
    }

    fn of(line: &[Post], register: Register, places: [CallerPlace; 8]) -> Self {
        let mut mailbox: plain::Mailbox = MailboxCalls::fresh();
        let (phase, caller, word) = match register {
            Register::Idle => (plain::IDLE, 0, 0),
            Register::Command { caller, word } => (plain::COMMAND, caller, word),
            Register::Response { caller, word } => (plain::RESPONSE, caller, word),
        };
        mailbox.phase = phase;
        mailbox.caller = caller;
        mailbox.word = word;
        mailbox.count = line.len() as u32;
        for (to, post) in mailbox.line.iter_mut().zip(line) {
            *to = plain::Post {
                caller: post.caller,
                command: post.command,
                data: post.data,
            };
        }
        mailbox.places = places.map(|place| match place {
            CallerPlace::Free => plain::Place {
                state: plain::FREE,
                word: 0,
            },
            CallerPlace::Waiting => plain::Place {
                state: plain::WAITING,
                word: 0,
            },
            CallerPlace::Ready(word) => plain::Place {
                state: plain::READY,
                word,
            },
        });
        mailbox
    }

    fn post(&mut self, caller: u32, command: u32, data: u16) -> Answer<()> {
        given(
            unsafe { plain::plain_post(self, caller, command, data) },
            (),
        )
    }

    fn load(&mut self) -> Answer<bool> {
        let mut acted = false;
        given(unsafe { plain::plain_load(self, &mut acted) }, ()).map(|()| acted)
    }

    fn turn(&mut self) -> Answer<bool> {
        let mut acted = false;
        given(unsafe { plain::plain_turn(self, &mut acted) }, ()).map(|()| acted)
    }

    fn unload(&mut self) -> Answer<bool> {
        let mut acted = false;
        given(unsafe { plain::plain_unload(self, &mut acted) }, ()).map(|()| acted)
    }

    fn take(&mut self, caller: u32) -> Answer<u64> {
        let mut word = 0;
        given(unsafe { plain::plain_take(self, caller, &mut word) }, ()).map(|()| u64::from(word))
    }

    fn firmware(&self) -> Firmware {
        let firmware = &self.firmware;
        let held = [0, 1, 2].map(|part| firmware.held[part].then_some(firmware.parts[part]));
        Firmware {
            interface: firmware.interface_on,
            held,
            interrupts: firmware
                .interrupts
                .iter()
                .map(|interrupt| Interrupt {
                    descriptor: interrupt.saved.then_some(interrupt.parts),
                    delivery: interrupt.delivery,
                })
                .collect(),
        }
    }
}
