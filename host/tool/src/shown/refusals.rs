//! The refusal numbers of document 01 in words: what each means, what usually causes it, and what to look at.

use crate::shown::json::Json;
use crate::system::folding::kept;
use bindings::{Answer, Refusal};

/// A refusal number in words.
pub struct Explained {
    pub number: u64,
    /// A few words, for a line.
    pub title: &'static str,
    pub means: &'static str,
    pub causes: &'static str,
    pub look: &'static str,
    /// Where in a directory it may be met, and what `stands` and `should` are there; none where it tells no place.
    pub place: Option<&'static str>,
}

/// The refusals of document 01; number N stands at N - 1.
pub static REFUSALS: [Explained; 18] = [
    Explained {
        number: Refusal::SHORT,
        title: "too few bytes",
        means: "What must be read does not end inside the bytes: a directory's header of 16 \
             bytes or its entries, the 112 bytes of an ASPT, the last 50 bytes of an image with \
             a GUID table, or the 256 bytes of a firmware header.",
        causes: "A file that was cut off, a directory so near the image's end that its entries \
             run out of it, or the wrong file.",
        look: "The file's length; where the directory begins, and 16 bytes for each of its \
             entries behind the first 16.",
        place: Some(
            "In the header. What stands is how many bytes the image has from the \
             field on; what should is how many the header takes, or the entries behind it. The \
             level is 0 where the directory was named by its place and its header is cut off. Of \
             any other table no place is told.",
        ),
    },
    Explained {
        number: Refusal::SIGNATURE,
        title: "signature not found",
        means: "The bytes do not begin with what they must begin with: no embedded firmware \
             structure (EFS) lies at any of its places in the image, a directory lacks the \
             cookie of its level, an ASPT lacks its four letters, a GUID table its footer, or \
             firmware the mark of its header.",
        causes: "A dump that is not as long as the flash part. Its last byte is taken for the \
             one at 0xffffffff, so bytes that are missing or added at its end move all physical \
             addresses, and mostly no EFS is left where it is looked for. One of 8 MiB that is \
             padded to 16 MiB behind its last byte may still have one, at 0x20000, and what a \
             physical address in it points to is then looked for 0x800000 bytes too far on. \
             Other causes: a file of another kind, an encrypted or compressed image, or a \
             pointer that leads to something else.",
        look: "First the file's length. Where it is not that of the flash part, read the part \
             again, or take off what was added. Then bytes aa 55 aa 55 at the places below; and \
             where the pointer leads, the four letters there: $PSP for level 1, $PL2 for level 2.",
        place: Some(
            "In the header. What stands and what should are the four bytes of the \
             cookie, the lowest first. The level is 0 where the directory was named by its place \
             and has neither cookie; then that of level 1 is told as what should stand there. Of \
             the EFS and of any other table no place is told.",
        ),
    },
    Explained {
        number: Refusal::LIMITS,
        title: "length or count outside its limits",
        means: "A number of entries, a length or a total is larger or smaller than the rules \
             allow: more than 512 entries in a directory, an ASPT that says another length than \
             112 or another count than 3, a GUID table with a total below 18 or above what lies \
             before it.",
        causes: "Bytes that are no such table although their first four fit, or a table that was \
             damaged or is full.",
        look: "The total at offset 8 of the directory; length and count of the ASPT; the two \
             bytes 50 before the end of an image with a GUID table.",
        place: Some(
            "In the header. What stands is its total; what should is the largest \
             that it may be. Of any other table, and of an entry that is to be added, no place is \
             told.",
        ),
    },
    Explained {
        number: Refusal::CHECKSUM,
        title: "checksum is wrong",
        means: "The checksum that a table carries is not the one of its bytes.",
        causes: "A table that was changed without a new checksum, damage, or a maker that sums \
             in another way: a directory here carries Fletcher's 32-bit sum, and the 112 bytes \
             of an ASPT sum to 0 modulo 256.",
        look: "The four bytes at offset 4 of the directory, the lowest first; whether the image \
             was patched by hand after it was made.",
        place: Some(
            "In the header. What stands is the checksum there; what should is the \
             sum of the bytes behind it, to the end of the last entry. Of an ASPT no place is \
             told.",
        ),
    },
    Explained {
        number: Refusal::FIELD,
        title: "reserved bits set, or a value that is not allowed",
        means: "Bits that must be zero are not, or a field holds what it may not hold: an ASPT's \
             revision, base address or ID byte, a location of 2^62 or more, an address mode \
             above 3, or a mailbox that breaks its own rules.",
        causes: "A newer form of the table, which gives these bits a meaning, or damage that the \
             checksum does not show. Directories that amdfwtool, coreboot's tool, wrote have their \
             size and more in the last word of the header, where document 01 asks for zero: such \
             an image need not be damaged, and may be good for its board.",
        look:
            "The field that `kpalumere register IMAGE` names: bytes 2 and 3 of an entry, or bytes \
             12 to 15 of a directory's header. To see what an image of amdfwtool holds, put zero \
             there in a copy of it, and then the checksum that the register tells.",
        place: Some(
            "In the header, or in an entry. What stands is the header's last word, \
             or bytes 2 and 3 of the entry; what should is 0. Of any other table, of a mailbox, \
             and of an entry that is to be added, no place is told.",
        ),
    },
    Explained {
        number: Refusal::STRUCTURE,
        title: "structure or entry of wrong type or length",
        means: "A structure of the ASPT is not 20 bytes long, or its type is above 2 or stood \
             before; or an entry of the GUID table is shorter than 18 bytes or longer than what \
             is left of the table.",
        causes: "A total that counts more than the entries, as some published tables do, or a \
             structure of a newer kind.",
        look: "The lengths of the entries, counted backwards from the footer; the types and \
             lengths of the three structures.",
        place: None,
    },
    Explained {
        number: Refusal::OUTSIDE,
        title: "address outside the image",
        means: "An address or a range does not lie in the image: a physical address outside the \
             image's window, which is as long as the image and ends at 4 GiB; a pointer of the \
             embedded firmware structure (EFS) that is neither in the window nor below the \
             image's length; a place or an end beyond the image's last byte; or a register \
             outside its space.",
        causes: "A dump that is not as long as the flash part. One that is cut off has a window \
             that begins too high: what lies below it is refused, and so is a flash offset that \
             the dump does not reach. Other causes: addresses made for a larger flash part, as \
             0xff020000 on a board of 8 MiB; an entry whose bytes lie in another file; or an \
             address mode that does not fit the location.",
        look: "First the file's length. Where it is not that of the flash part, read the part \
             again, or take off what was added. Then the pointers at 0x10 and 0x14 of the EFS, \
             and location, size and address mode of the entry, beside what is taken, below.",
        place: Some(
            "In an entry. What stands is its location; what should is the image's length, by \
             which its bytes must end. Of a pointer of the EFS, of a place that was given, and of \
             a register no place is told.",
        ),
    },
    Explained {
        number: Refusal::ABSENT,
        title: "no such entry, pointer or post",
        means: "What was asked for is not there: an index at or above the total, a type and \
             subprogram that no entry has, a directory that nothing leads to, or a caller \
             without a post.",
        causes: "A question for firmware that this image does not carry, or an image without \
             level 2.",
        look: "The entries of both directories, as `kpalumere register IMAGE` shows them.",
        place: None,
    },
    Explained {
        number: Refusal::RANGE,
        title: "level, caller or command out of range",
        means: "A number in the question is one that there is not: a level other than 1 and 2, a \
             caller above 7, a command above 0x3ff.",
        causes: "A slip in the question. The bytes were not looked at.",
        look: "The numbers that were given.",
        place: None,
    },
    Explained {
        number: Refusal::OUTSTANDING,
        title: "caller has a post outstanding",
        means: "A caller of the mailbox posted again before it took the answer to its last post.",
        causes: "A program that does not wait, or two programs that use the same caller number.",
        look: "Which callers have posted and not taken, as `kpalumere mailbox` shows them.",
        place: None,
    },
    Explained {
        number: Refusal::EARLY,
        title: "answer is not there yet",
        means: "A caller asks for a word that has not been unloaded to its place.",
        causes: "Asking too soon: the post still waits in line, or its answer still stands in \
             the register.",
        look: "The loads, turns and unloads that came after the post.",
        place: None,
    },
    Explained {
        number: Refusal::ROOM,
        title: "no room in the buffer",
        means: "What is to be written does not fit into the buffer that was lent for it. Nothing \
             was written.",
        causes: "A buffer without 16 more bytes for an entry, or, for a GUID table, without free \
             bytes before it.",
        look: "The length of the buffer or the file.",
        place: None,
    },
    Explained {
        number: Refusal::WRITTEN,
        title: "bytes to be written over are not zero",
        means: "A new entry of a GUID table would be written over bytes that hold something. \
             Nothing was written.",
        causes: "An image with code or data right before its GUID table.",
        look: "The bytes before the table: as many as the entry's data and 18 more must be zero.",
        place: None,
    },
    Explained {
        number: Refusal::MISPLACED,
        title: "pointer to level 2 inside level 2",
        means:
            "A directory of level 2 has an entry of type 0x40, which belongs into level 1 alone.",
        causes: "Entries of level 1 copied into level 2, or a directory with the cookie of the \
             wrong level.",
        look: "The types of the entries of level 2.",
        place: Some(
            "In an entry. What stands is its type; what should is the level in which that may \
             stand. Of an entry that is to be added no place is told.",
        ),
    },
    Explained {
        number: Refusal::IMAGE,
        title: "image empty or too long",
        means: "A flash image has at least one byte and at most 16777216, as many as the \
             longest window below 4 GiB.",
        causes: "An empty file, or the image of a flash of 32 MiB or more.",
        look: "The file's length. Of a larger flash, give the part of 16 MiB that holds the \
             firmware.",
        place: None,
    },
    Explained {
        number: Refusal::MODE,
        title: "address mode 3",
        means: "The entry counts its location from the start of a partition, and nothing in the \
             image says where that is.",
        causes: "An image for a newer family, whose entries are placed so.",
        look: "The entry's address mode; the location is shown and is not followed.",
        place: Some(
            "In an entry. What stands is its address mode; what should is the highest that is \
             followed.",
        ),
    },
    Explained {
        number: Refusal::VALUE,
        title: "the entry holds a value",
        means: "An entry of type 0x0b has no bytes in the image: its 62-bit location is itself \
             the value.",
        causes: "Asking for the bytes of the soft fuse chain.",
        look: "The location that is shown for the entry: it is the value.",
        place: Some(
            "In an entry. What stands is its type; what should is the type that holds a value, \
             which is the same.",
        ),
    },
    Explained {
        number: Refusal::REPEATED,
        title: "entry repeats an earlier one",
        means: "An entry has the type and subprogram of an earlier entry of the same directory, \
             or one that is to be added has them; then nothing was written. In a PSP directory \
             a type and subprogram may stand once; level 1 and level 2 may share them.",
        causes: "An entry that was added where the old one was to be replaced, two directories \
             joined into one, or a maker that writes several instances of a type, which only \
             BIOS directories may have.",
        look: "The two entries that `kpalumere register IMAGE` names. The first entry begins at \
             offset 16 of the directory, each has 16 bytes, and the first two of these are its \
             type and its subprogram. Leave one of the two entries out, or give it another \
             subprogram, and build the directory again.",
        place: Some(
            "In the later one of the two entries. What stands is its type; what should is the \
             index of the earlier entry. Of an entry that is to be added no place is told.",
        ),
    },
];

/// The words for a number, where document 01 has it.
pub fn explained(number: u64) -> Option<&'static Explained> {
    REFUSALS.iter().find(|known| known.number == number)
}

/// A refusal as every command shows it: `refused 4: checksum is wrong`.
pub fn told(refusal: Refusal) -> String {
    numbered(refusal.number, title(refusal.number))
}

/// The same, with the number on the line of the word before it.
pub fn told_kept(refusal: Refusal) -> String {
    told(refusal).replacen("refused ", &kept("refused "), 1)
}

/// A refusal number with the words for it: where a command knows the rule that was broken, these say it.
pub fn numbered(number: u64, words: &str) -> String {
    format!("refused {number}: {words}")
}

/// The number alone, for a cell of a table.
pub fn number(refusal: Refusal) -> String {
    format!("refused {}", refusal.number)
}

/// The words that explain a number.
pub fn explain(refusal: Refusal) -> String {
    format!("kpalumere explain {}", refusal.number)
}

/// What to do next.
pub fn hint(refusal: Refusal) -> String {
    let command = kept(&format!("`{}`", explain(refusal)));
    format!("{command} says what usually causes this, and what to look at.")
}

/// The few words for a number.
pub fn title(number: u64) -> &'static str {
    explained(number).map_or("no number of document 01", |known| known.title)
}

/// Why something was refused, as programs are told it: the number, or null where it was not refused.
pub fn json<T>(answer: &Answer<T>) -> Json {
    Json::or_null(answer.as_ref().err(), |refusal| {
        Json::Number(refusal.number)
    })
}

#[cfg(test)]
mod tests {
    use super::*;

    #[test]
    fn every_number_of_document_01_has_its_words() {
        let numbers: Vec<u64> = REFUSALS.iter().map(|known| known.number).collect();
        assert_eq!(numbers, (1..=18).collect::<Vec<u64>>());
        for known in &REFUSALS {
            assert!(known.title.len() <= 50, "{}", known.number);
            let texts = [known.means, known.causes, known.look];
            for text in texts.into_iter().chain(known.place) {
                assert!(text.ends_with('.'), "{}: {text}", known.number);
            }
        }
        assert!(explained(0).is_none() && explained(19).is_none());
        let met = REFUSALS.iter().filter(|known| known.place.is_some());
        let met: Vec<u64> = met.map(|known| known.number).collect();
        assert_eq!(met, [1, 2, 3, 4, 5, 7, 14, 16, 17, 18]);
    }

    #[test]
    fn a_refusal_is_told_with_its_title() {
        assert_eq!(
            told(Refusal::alone(Refusal::CHECKSUM)),
            "refused 4: checksum is wrong"
        );
        let unknown = told(Refusal::alone(99));
        assert_eq!(unknown, "refused 99: no number of document 01");
    }
}
