//! An entry of a directory as people and programs are shown it: its fields with their names, where its bytes lie or why not, and
//! the version that they carry.

use crate::arguments::wanted_entry::{WantedDirectory, WantedEntry};
use crate::shown::forms;
use crate::shown::json::{Fields, Json};
use crate::shown::names;
use crate::shown::places::Refused;
use crate::shown::refusals;
use crate::shown::versions;
use crate::system::ending::Ending;
use crate::system::folding::on_one_line;
use bindings::{
    directory, version, view_entries, view_entry, view_part, view_version, Answer, Directory,
    Entry, EntryRow, Part, Place, Refusal, Words,
};

/// What the library answers about one entry.
#[derive(Clone, Copy)]
pub struct EntryShown {
    pub entry: Entry,
    /// Where its bytes lie.
    pub part: Answer<Part>,
    /// Why they do not lie in the image, where they do not: a value has none to refuse.
    pub refused: Option<Refused>,
    /// The version that its bytes carry, where it has bytes.
    pub version: Option<Answer<u64>>,
}

impl EntryShown {
    /// What the library answers about an entry of the directory that begins at a place of an image.
    pub fn of(image: &[u8], place: usize, index: usize) -> Answer<EntryShown> {
        let entry = view_entry(image, place, index)?;
        let part = view_part(image, place, index);
        Ok(EntryShown {
            entry,
            part,
            refused: refused(image, part),
            version: part.ok().map(|_| view_version(image, place, index)),
        })
    }

    /// The same by a row of its directory. There the library tells of bytes that are refused the number alone, for the row tells the entry.
    pub fn of_row(image: &[u8], directory: Directory, index: u64, row: EntryRow) -> EntryShown {
        let place = Place {
            level: directory.level,
            index: Some(index),
            directory: directory.place,
        };
        let part = row.part.map_err(|refusal| Refusal {
            place: Some(place),
            ..refusal
        });
        EntryShown {
            entry: row.entry,
            part,
            refused: refused(image, part),
            version: part.ok().map(|part| version(bytes_of(image, part))),
        }
    }

    /// What the library answers about the entry that is wanted, and about its directory.
    pub fn wanted(image: &[u8], wanted: WantedEntry) -> Answer<(Directory, EntryShown)> {
        let directory = match wanted.directory {
            WantedDirectory::Level(level) => directory(image, level)?,
            WantedDirectory::At(place) => view_entries(image, place, &mut Words::new())?.directory,
        };
        let shown = EntryShown::of(image, directory.place as usize, wanted.index)?;
        Ok((directory, shown))
    }

    /// The value that the entry holds in place of bytes, where it does. That is in order, and no fault of the image.
    pub fn value(&self) -> Option<u64> {
        let refusal = self.part.err()?;
        refusal.is(Refusal::VALUE).then_some(self.entry.location)
    }

    /// How a run ends that was asked for this entry.
    pub fn ending(&self) -> Ending {
        match self.refused {
            None => Ending::Done,
            Some(_) => Ending::Refused,
        }
    }

    /// The version that its bytes carry, where they have a firmware header.
    pub fn version_words(&self) -> Option<String> {
        versions::words(self.version?)
    }

    /// The lines on the entry, for people.
    pub fn lines(&self) -> String {
        let Entry {
            class,
            subprogram,
            size,
            location,
            mode,
        } = self.entry;
        let location = match self.value() {
            Some(value) => format!("  value       {value:#x}\n"),
            None => {
                let counted = names::address_mode_words(mode);
                format!("  location    {location:#x}, {counted}\n")
            }
        };
        let version = match (self.part, self.version_words()) {
            (Err(_), _) => String::new(),
            (Ok(_), None) => {
                String::from("  version     none: the bytes have no firmware header\n")
            }
            (Ok(_), Some(version)) => format!("  version     {version}\n"),
        };
        format!(
            "  type        {}\n  \
               subprogram  {subprogram:#04x}\n  \
               size        {}\n\
             {location}  \
               bytes       {}\n\
             {version}",
            names::numbered_type(class),
            forms::size(size),
            match (self.part, self.refused) {
                (Ok(part), _) => forms::range_of_image(part),
                (Err(_), None) => String::from("none: the entry holds the value"),
                (Err(_), Some(refused)) => refused_lines(&refused),
            }
        )
    }

    /// The fields of the entry for programs, with the index that it has in its directory.
    pub fn fields(&self, index: u64) -> Fields {
        let EntryShown { entry, part, .. } = self;
        let hexadecimal = |number: u64| Json::Text(format!("{number:#x}"));
        let name = names::entry_type(entry.class).map(|known| known.name);
        vec![
            ("index", Json::Number(index)),
            ("type", Json::Number(entry.class)),
            ("name", Json::or_null(name, Json::text)),
            ("subprogram", Json::Number(entry.subprogram)),
            ("size", Json::Number(entry.size)),
            ("mode", Json::Number(entry.mode)),
            ("location", hexadecimal(entry.location)),
            ("value", Json::or_null(self.value(), hexadecimal)),
            (
                "place",
                Json::or_null(part.ok(), |part| Json::Number(part.place)),
            ),
            (
                "length",
                Json::or_null(part.ok(), |part| Json::Number(part.length)),
            ),
            // A value is in order: what says that there are no bytes is the value itself.
            (
                "refused",
                Json::or_null(self.refused, |refused| Json::Number(refused.refusal.number)),
            ),
            Refused::wrong_field(self.refused.as_ref()),
            ("version", Json::or_null(self.version_words(), Json::Text)),
        ]
    }
}

/// The bytes that the library pointed out.
pub fn bytes_of(image: &[u8], part: Part) -> &[u8] {
    &image[part.place as usize..][..part.length as usize]
}

/// Why the bytes of an entry do not lie in the image.
fn refused(image: &[u8], part: Answer<Part>) -> Option<Refused> {
    let refusal = part.err().filter(|refusal| !refusal.is(Refusal::VALUE));
    refusal.map(|refusal| Refused::by(image, refusal))
}

/// The same for people: what is wrong, and what to do, on lines of their own behind the number.
fn refused_lines(refused: &Refused) -> String {
    let why = refused.sentence().map_or(String::new(), |sentence| {
        format!("\n  why         {}", on_one_line(&sentence))
    });
    let Refused { refusal, .. } = refused;
    let explain = refusals::explain(*refusal);
    format!("{}{why}\n  explain     {explain}", refusals::told(*refusal))
}

#[cfg(test)]
mod tests {
    use super::*;

    const ENTRY: Entry = Entry {
        class: 0x0B,
        subprogram: 2,
        size: 0x10,
        location: 0x1234,
        mode: 3,
    };

    fn with(part: Answer<Part>) -> EntryShown {
        let no_header = Refusal::alone(Refusal::SIGNATURE);
        EntryShown {
            entry: ENTRY,
            part,
            refused: refused(&[], part),
            version: part.ok().map(|_| Err(no_header)),
        }
    }

    #[test]
    fn a_value_is_in_order_and_other_refusals_are_not() {
        let part = Part {
            place: 0,
            length: 0,
        };
        assert_eq!(with(Ok(part)).ending(), Ending::Done);
        let value = with(Err(Refusal::alone(Refusal::VALUE)));
        assert_eq!(value.ending(), Ending::Done);
        assert_eq!(value.value(), Some(0x1234));
        let lines = "\n  value       0x1234\n  bytes       none: the entry holds the value\n";
        assert!(value.lines().contains(lines), "{}", value.lines());
        assert!(!value.lines().contains("mode"), "{}", value.lines());
        for number in [Refusal::OUTSIDE, Refusal::MODE] {
            let refused = with(Err(Refusal::alone(number)));
            assert_eq!(refused.ending(), Ending::Refused);
            assert_eq!(refused.value(), None);
            let told = format!("  bytes       refused {number}: ");
            assert!(refused.lines().contains(&told), "{}", refused.lines());
            assert!(refused
                .lines()
                .contains("  location    0x1234, mode 3: from "));
        }
    }

    #[test]
    fn a_version_is_shown_where_there_are_bytes() {
        let part = Part {
            place: 0x1000,
            length: 0x10,
        };
        let mut shown = with(Ok(part));
        assert!(shown
            .lines()
            .ends_with("of the image\n  version     none: the bytes have no firmware header\n"));
        shown.version = Some(Ok(0x0008_0174));
        assert!(shown.lines().ends_with("\n  version     00.08.01.74\n"));
        let refused = with(Err(Refusal::alone(Refusal::OUTSIDE)));
        assert!(!refused.lines().contains("version"), "{}", refused.lines());
    }
}
