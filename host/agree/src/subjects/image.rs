//! Random flash images: an EFS, level one, some directories of level two, and what breaks them.

use super::damage::scatter;
use super::directory::{repair, tell_apart, Directory, Entry, CLASSES, LEAD, SUBPROGRAMS, VALUE};
use super::draft::Draft;
use super::words::{hex, number};
use crate::random::Random;

/// Where an EFS is looked for, as physical addresses in the order in which it is, and how many bytes it has.
const CANDIDATES: [u64; 6] = [
    0xFFFA_0000,
    0xFFF2_0000,
    0xFFE2_0000,
    0xFFC2_0000,
    0xFF82_0000,
    0xFF02_0000,
];
const EFS_BYTES: u64 = 0x24;

/// Where the physical addresses of every image end: at 4 GiB.
const WINDOW_END: u64 = 1 << 32;

/// The most bytes of an image, and the lengths that boards have.
const MOST_BYTES: u64 = 16_777_216;
const BOARDS: [u64; 3] = [MOST_BYTES / 4, MOST_BYTES / 2, MOST_BYTES];

/// Where a window would begin if it were of the most bytes for every image.
const WIDEST_WINDOW: u64 = WINDOW_END - MOST_BYTES;

/// An image with more bytes than this takes long to make.
const LARGE: u64 = 0x10_0000;

/// Bytes of an image, and where they lie.
#[derive(Clone)]
struct Part {
    place: u64,
    bytes: Vec<u8>,
    /// Whether they are a directory, which has a checksum.
    is_directory: bool,
}

/// An image, zero but for its parts.
pub struct Image {
    pub length: u64,
    /// The candidate at which its own EFS is, if it has one.
    efs: Option<u64>,
    /// A later part is written over an earlier one.
    parts: Vec<Part>,
    /// The part that was broken after the image was written.
    broken: Option<usize>,
    /// Whether it is right but for one thing.
    one_fault: bool,
    /// The directories and where they begin, the level one first.
    pub directories: Vec<(u64, Directory)>,
}

impl Image {
    /// Any image: mostly a good one, or one with one or two things broken.
    pub fn random(random: &mut Random) -> Image {
        if random.once_in(12) {
            return Image::without_efs(random);
        }
        if random.once_in(2) {
            let length = least_length(CANDIDATES[0]) + random.below(0x4000);
            return Image::with_one_fault(random, length);
        }
        let any = random.one_of(&CANDIDATES);
        let (efs, length) = match random.below(20) {
            // A length that boards have, or any: the candidate may lie below the window.
            0 => (any, random.one_of(&BOARDS)),
            1 => (any, 1 + random.below(MOST_BYTES)),
            // Just enough to bring it into the window, a byte less or a byte more.
            2 => (any, least_length(any) - 1 + random.below(3)),
            _ => (CANDIDATES[0], short_length(random)),
        };
        Image::with_efs(random, efs, length)
    }

    /// An image of a length with an EFS at a candidate.
    fn with_efs(random: &mut Random, efs: u64, length: u64) -> Image {
        let mut image = Image::bare(efs, length);
        image.add_directories(random);
        for _ in 0..random.one_of(&[0, 0, 0, 1, 1, 2]) {
            let at = random.below(image.directories.len() as u64) as usize;
            image.directories[at].1.break_one(random);
        }
        image.add_efs(random, efs);
        if image.directories.len() > 1 && random.once_in(3) {
            image.misplace_lead(random);
        }
        image.place_directories();
        if random.once_in(12) {
            for _ in 0..1 + random.below(3) {
                let at = random.below(image.parts.len() as u64) as usize;
                image.parts[at].break_bytes(random);
            }
        }
        image
    }

    /// A short image that is right but for one thing, in level one or in the level two that an entry of it leads to. Nothing else keeps the
    /// calls from coming to it.
    fn with_one_fault(random: &mut Random, length: u64) -> Image {
        let efs = CANDIDATES[0];
        let mut image = Image::bare(efs, length);
        image.one_fault = true;
        // Behind the EFS, which is in the first 0x4000 bytes, there is room for both.
        let mut places = [0x8000, 0x1_0000].map(|first| first + random.below(0x4000));
        let (at, fault) = (random.below(2) as usize, random.below(11));
        match fault {
            // Both have more bytes than these, so the image's end cuts it off.
            0 => places[at] = length - 1 - random.below(47),
            // To the image's end a lead may lead, and no further.
            1 => places[1] = random.one_of(&[length, length + 1, 2 * length]),
            _ => {}
        }
        let [one, two] = places;
        for (level, place) in [(1, one), (2, two)] {
            let amount = match random.below(12) {
                // So that an index has more than eight bits.
                0 => 250 + random.below(80),
                _ => 2 + random.below(6),
            };
            let entries = (0..amount).map(|_| image.part_entry(random, place));
            let mut entries: Vec<Entry> = entries.collect();
            if fault == 2 && at + 1 == level as usize {
                // The directory is good, and none of its entries has bytes.
                let value = random.once_in(2);
                for entry in &mut entries {
                    match value {
                        true => entry.class = VALUE,
                        false => entry.word |= 3 << 62,
                    }
                }
            }
            if level == 1 {
                let lead = image.lead_entry(random, place, two);
                entries.insert(random.below(amount + 1) as usize, lead);
            }
            tell_apart(random, &mut entries);
            image
                .directories
                .push((place, Directory::of(level, entries)));
        }
        // At 3 nothing is wrong.
        if fault > 3 {
            image.directories[at].1.break_check(random);
        }
        let mut bytes = vec![0; EFS_BYTES as usize];
        bytes[..4].copy_from_slice(&[0xAA, 0x55, 0xAA, 0x55]);
        bytes[0x14..0x18].copy_from_slice(&(one as u32).to_le_bytes());
        image.parts.push(plain_part(efs - image.window(), bytes));
        image.place_directories();
        image
    }

    /// An image of a length that is to have an EFS at a candidate, before anything is in it.
    fn bare(efs: u64, length: u64) -> Image {
        Image {
            length,
            efs: Some(efs),
            parts: Vec::new(),
            broken: None,
            one_fault: false,
            directories: Vec::new(),
        }
    }

    /// Makes parts of the directories.
    fn place_directories(&mut self) {
        for (place, directory) in &self.directories {
            self.parts.push(Part {
                place: *place,
                bytes: directory.bytes(),
                is_directory: true,
            });
        }
    }

    /// An image of a length on the edge of some rule, with no EFS, or half of one.
    fn without_efs(random: &mut Random) -> Image {
        let least = least_length(CANDIDATES[0]);
        // Of those below the least the last two would do, if the window were of the most bytes.
        let below = [1, 0x24, 0x2_0023, 0x2_0024];
        let lengths = [
            0,
            0,
            0,
            0,
            random.one_of(&below),
            least - 1,
            least,
            least + 1,
        ];
        let length = random.one_of(&lengths);
        let signature = random.one_of(&[[0xAA, 0x55, 0xAA, 0x55], [0x55, 0xAA, 0x55, 0xAA]]);
        let places = [length.saturating_sub(least), CANDIDATES[5] - WIDEST_WINDOW];
        let mut parts = vec![plain_part(0, random.bytes(64))];
        parts.extend(places.map(|place| plain_part(place, signature.to_vec())));
        Image {
            length,
            efs: None,
            parts,
            broken: None,
            one_fault: false,
            directories: vec![(0, Directory::of(1, Vec::new()))],
        }
    }

    /// The physical address of the first byte.
    pub fn window(&self) -> u64 {
        WINDOW_END - self.length
    }

    fn add_directories(&mut self, random: &mut Random) {
        let mut below = Vec::new();
        for _ in 0..random.one_of(&[0, 1, 1, 1, 2, 3]) {
            let amount = amount_of_entries(random);
            let place = self.place_for(random, amount);
            let mut entries: Vec<Entry> = (0..amount)
                .map(|_| self.part_entry(random, place))
                .collect();
            tell_apart(random, &mut entries);
            below.push((place, Directory::of(2, entries)));
        }
        let amount = amount_of_entries(random);
        let place = self.place_for(random, amount);
        let entries = (0..amount).map(|_| match below.len() as u64 {
            leads if leads > 0 && random.once_in(2) => {
                let to = below[random.below(leads) as usize].0;
                self.lead_entry(random, place, to)
            }
            _ => self.part_entry(random, place),
        });
        let mut entries: Vec<Entry> = entries.collect();
        tell_apart(random, &mut entries);
        self.directories.push((place, Directory::of(1, entries)));
        self.directories.extend(below);
    }

    /// A place for a directory: anywhere in the image's first bytes, at its end, or just beyond.
    fn place_for(&self, random: &mut Random, entries: u64) -> u64 {
        let end = self.length.saturating_sub(16 + 16 * entries);
        match random.below(40) {
            0 => 0,
            1 => end,
            2 => end + 1,
            3 => self.length.saturating_sub(random.one_of(&[1, 15, 16])),
            4 => random.one_of(&[self.length, self.length + 1]),
            _ => random.below(0x1_0000),
        }
    }

    /// An entry of any type. Where its bytes end is in the image, at its end, or just beyond.
    fn part_entry(&self, random: &mut Random, directory: u64) -> Entry {
        let class = random.one_of(&CLASSES);
        let size = match random.below(8) {
            0 => 0,
            1 => random.number() as u32,
            _ => random.below(0x400) as u32,
        };
        // What has no bytes is on the edge more often.
        let end = match random.below(if size == 0 { 4 } else { 8 }) {
            0 => self.length,
            1 => self.length + 1,
            2 => self.length - 1,
            _ => random.below(self.length),
        };
        let start = end.saturating_sub(u64::from(size));
        let astray = random.once_in(4);
        Entry {
            class: if class == LEAD { 0x63 } else { class },
            subprogram: random.one_of(&SUBPROGRAMS),
            reserved: 0,
            size,
            word: self.aimed(random, directory, start, astray),
        }
    }

    /// An entry of level one that leads to a place.
    fn lead_entry(&self, random: &mut Random, directory: u64, to: u64) -> Entry {
        let astray = random.once_in(4);
        Entry {
            class: LEAD,
            subprogram: random.one_of(&SUBPROGRAMS),
            reserved: 0,
            size: random.one_of(&[0, 0x400, u32::MAX]),
            word: self.aimed(random, directory, to, astray),
        }
    }

    /// The location and mode that lead from a directory to a place, or astray.
    fn aimed(&self, random: &mut Random, directory: u64, to: u64, astray: bool) -> u64 {
        const MODE: u64 = 1 << 62;
        let window = self.window();
        if !astray {
            let from_directory = to.wrapping_sub(directory) & (MODE - 1);
            return random.one_of(&[window + to, to | MODE, from_directory | 2 * MODE]);
        }
        match random.below(12) {
            0..=3 => random.number() | 3 * MODE,
            4 => random.number(),
            // What would lead there if the image's length, the window, 32 bits or the directory did not count.
            5 => WIDEST_WINDOW + to,
            6 => to,
            7 => (window + to) | MODE,
            8 => (window + to + (1 << 32)) & (MODE - 1),
            9 => (to + (1 << 32)) | MODE,
            // The window's first address and its last, and those before and behind.
            _ => random.one_of(&[window - 1, window, WINDOW_END - 1, WINDOW_END]),
        }
    }

    /// The EFS that leads to level one, and perhaps others.
    fn add_efs(&mut self, random: &mut Random, efs: u64) {
        let root = self.directories[0].0;
        // Others, which are found before or after it, and lead elsewhere.
        let others = match efs == CANDIDATES[0] {
            true => random.below(5) / 4,
            false => random.below(4),
        };
        let at = CANDIDATES.iter().position(|candidate| *candidate == efs);
        let at = at.unwrap_or_default();
        let next = [CANDIDATES[at.saturating_sub(1)], CANDIDATES[(at + 1) % 6]];
        for _ in 0..others {
            let other = match random.once_in(2) {
                true => random.one_of(&next),
                false => random.one_of(&CANDIDATES),
            };
            let (place, to) = (self.efs_place(random, other), random.below(self.length));
            let bytes = self.efs_bytes(random, to);
            self.parts.push(plain_part(place, bytes));
        }
        let mut bytes = self.efs_bytes(random, root);
        if random.once_in(40) {
            bytes[random.below(4) as usize] ^= 1 << random.below(8);
        }
        let place = self.efs_place(random, efs);
        self.parts.push(plain_part(place, bytes));
    }

    /// Where an EFS is written for a candidate. One below the window has no place, and is none wherever it stands: it is written where a
    /// window that begins earlier would have it.
    fn efs_place(&self, random: &mut Random, candidate: u64) -> u64 {
        match candidate.checked_sub(self.window()) {
            Some(place) if !random.once_in(60) => place,
            _ => random.one_of(&[0, candidate - WIDEST_WINDOW]),
        }
    }

    /// An EFS whose pointers lead to a place, mostly.
    fn efs_bytes(&self, random: &mut Random, to: u64) -> Vec<u8> {
        let mut bytes = vec![random.one_of(&[0, 0, 0xFF, 0x11]); EFS_BYTES as usize];
        bytes[..4].copy_from_slice(&[0xAA, 0x55, 0xAA, 0x55]);
        let (length, window) = (self.length, self.window());
        let good = random.one_of(&[to, window + to, window + to]) as u32;
        let absent = random.one_of(&[0, 0xFFFF_FFFF]);
        let strange = [
            // About the ends of what is a flash offset and of what is physical, for this length and for the most bytes.
            length - 1,
            length,
            window - 1,
            window,
            WINDOW_END - 2,
            MOST_BYTES - 1,
            MOST_BYTES,
            WIDEST_WINDOW - 1,
            WIDEST_WINDOW,
            WIDEST_WINDOW + to,
            0x1234_5678,
            1,
        ];
        let bad = random.one_of(&strange) as u32;
        let (early, late) = match random.below(30) {
            0 => (absent, absent),
            1 | 2 => (good, bad),
            3 => (bad, absent),
            4..=12 => (good, absent),
            13..=21 => (bad, good),
            _ => (absent, good),
        };
        bytes[0x10..0x14].copy_from_slice(&early.to_le_bytes());
        bytes[0x14..0x18].copy_from_slice(&late.to_le_bytes());
        bytes
    }

    /// Puts an entry of type 0x40 into a level two that there is.
    fn misplace_lead(&mut self, random: &mut Random) {
        let below = random.below(self.directories.len() as u64 - 1) as usize;
        let entries = &mut self.directories[1 + below].1.entries;
        if !entries.is_empty() {
            let at = random.below(entries.len() as u64) as usize;
            entries[at].class = LEAD;
        }
    }

    /// How many times calls are asked of the image, which is changed between. A large one takes long to make, and so is
    /// used for longer, if its EFS is found; one with a fault gets another fault each time.
    pub fn rounds(&self, random: &mut Random) -> u64 {
        let found = self.efs.map_or(false, |efs| efs >= self.window());
        match self.length {
            0 => 1,
            _ if self.one_fault => 6,
            length if length > LARGE && length <= MOST_BYTES && found => 6,
            _ => 1 + random.below(2),
        }
    }

    /// How many calls are asked of it at a time.
    pub fn calls(&self, random: &mut Random) -> u64 {
        match self.one_fault {
            true => 3 + random.below(5),
            false => 8 + random.below(16),
        }
    }

    /// The lines that change an image which was written before: another takes its place, or some of its bytes break.
    pub fn change(&mut self, random: &mut Random, draft: &mut Draft, name: &str) {
        match self.efs {
            Some(_) if self.one_fault => {
                let next = Image::with_one_fault(random, self.length);
                self.give_way(random, draft, name, next);
            }
            Some(efs) if random.once_in(3) => {
                let next = Image::with_efs(random, efs, self.length);
                self.give_way(random, draft, name, next);
            }
            _ => self.break_anew(random, draft, name),
        }
    }

    /// The lines that put another image of the same length in the place of this one.
    fn give_way(&mut self, random: &mut Random, draft: &mut Draft, name: &str, next: Image) {
        for part in &mut self.parts {
            part.bytes.fill(0);
            part.write(random, draft, name, self.length);
        }
        *self = next;
        self.write_parts(random, draft, name);
    }

    /// The lines that break bytes of a part; the part that was broken last is mended.
    fn break_anew(&mut self, random: &mut Random, draft: &mut Draft, name: &str) {
        if let Some(last) = self.broken {
            self.parts[last].write(random, draft, name, self.length);
        }
        let at = random.below(self.parts.len() as u64) as usize;
        let mut part = self.parts[at].clone();
        part.break_bytes(random);
        part.write(random, draft, name, self.length);
        self.broken = Some(at);
    }

    /// The lines that make the image.
    pub fn write(&self, random: &mut Random, draft: &mut Draft, name: &str) {
        let length = number(random, self.length);
        draft.line(format!("buffer {name} {length}"));
        self.write_parts(random, draft, name);
    }

    fn write_parts(&self, random: &mut Random, draft: &mut Draft, name: &str) {
        for part in &self.parts {
            part.write(random, draft, name, self.length);
        }
    }

    /// An index of an entry, mostly one that there is in some directory.
    pub fn index(&self, random: &mut Random) -> u64 {
        let at = random.below(self.directories.len() as u64) as usize;
        let total = self.directories[at].1.entries.len() as u64;
        match random.below(12) {
            0 => total,
            1 => total + 1,
            2 => random.one_of(&[511, 512, 1 << 32, u64::MAX]),
            _ => random.below(total.max(1)),
        }
    }

    /// A type and subprogram, mostly of some entry.
    pub fn sought(&self, random: &mut Random) -> (u8, u8) {
        let at = random.below(self.directories.len() as u64) as usize;
        let entries = &self.directories[at].1.entries;
        match entries.len() as u64 {
            amount if amount > 0 && !random.once_in(3) => {
                let entry = &entries[random.below(amount) as usize];
                (entry.class, entry.subprogram)
            }
            _ => (random.one_of(&CLASSES), random.one_of(&SUBPROGRAMS)),
        }
    }
}

impl Part {
    /// Changes some of the bytes. A directory's checksum is mostly made right again.
    fn break_bytes(&mut self, random: &mut Random) {
        scatter(random, &mut self.bytes);
        if self.is_directory && !random.once_in(4) {
            repair(&mut self.bytes);
        }
    }

    /// The line that writes what of it lies in an image, if anything does.
    fn write(&self, random: &mut Random, draft: &mut Draft, name: &str, length: u64) {
        let room = length.saturating_sub(self.place);
        let bytes = &self.bytes[..self.bytes.len().min(room as usize)];
        if !bytes.is_empty() {
            let place = number(random, self.place);
            draft.line(format!("patch {name} {place} {}", hex(random, bytes)));
        }
    }
}

fn plain_part(place: u64, bytes: Vec<u8>) -> Part {
    Part {
        place,
        bytes,
        is_directory: false,
    }
}

/// The length of the shortest image whose window a candidate lies in.
fn least_length(candidate: u64) -> u64 {
    WINDOW_END - candidate
}

/// The length of an image with an EFS at the first candidate, which needs the fewest bytes: just enough for it, a little more or a byte
/// less, or more than is allowed.
fn short_length(random: &mut Random) -> u64 {
    let least = least_length(CANDIDATES[0]);
    match random.below(120) {
        0..=2 => least - 1,
        3 => MOST_BYTES + 1,
        4..=23 => least,
        _ => least + random.below(0x4000),
    }
}

/// How many entries a directory has: mostly few.
fn amount_of_entries(random: &mut Random) -> u64 {
    match random.below(60) {
        0 => random.one_of(&[510, 511, 512]),
        1 => 20 + random.below(100),
        2..=6 => 0,
        _ => 1 + random.below(6),
    }
}

#[cfg(test)]
mod tests {
    use super::*;

    /// So many images that each kind is among them. Those with one fault are all of one kind, and left out.
    fn many_images() -> Vec<Image> {
        let mut random = Random::from_seed(2);
        let images = std::iter::repeat_with(|| Image::random(&mut random));
        images.filter(|image| !image.one_fault).take(8000).collect()
    }

    /// The image's own EFS: of the parts that are no directories the last.
    fn own_efs(image: &Image) -> &Part {
        let efs = image.parts.iter().rev().find(|part| !part.is_directory);
        efs.expect("every image has an EFS, or half of one")
    }

    /// Of the numbers that are wanted of every image, which follow from its length, each is among those that it has in five images or more.
    /// In images of the most bytes nothing differs from a window of as many for all, so they do not count.
    fn each_comes(
        told: &str,
        wanted: impl Fn(&Image) -> Vec<u64>,
        has: impl Fn(&Image) -> Vec<u64>,
    ) {
        let mut amounts: Vec<usize> = Vec::new();
        for image in many_images() {
            if image.efs.is_some() && image.length < MOST_BYTES {
                let has = has(&image);
                let came = wanted(&image)
                    .into_iter()
                    .map(|number| has.contains(&number));
                let came: Vec<bool> = came.collect();
                amounts.resize(came.len(), 0);
                for (amount, came) in amounts.iter_mut().zip(came) {
                    *amount += usize::from(came);
                }
            }
        }
        assert!(
            amounts.iter().all(|amount| *amount >= 5),
            "{told}: {amounts:?}"
        );
    }

    #[test]
    fn every_candidate_is_just_in_the_window_and_just_out_of_it() {
        let images = many_images();
        for candidate in CANDIDATES {
            let least = least_length(candidate);
            for length in [least - 1, least, least + 1] {
                let fits = |image: &&Image| (image.efs, image.length) == (Some(candidate), length);
                let amount = images.iter().filter(fits).count();
                assert!(amount >= 5, "{candidate:#x} in {length:#x} bytes: {amount}");
            }
        }
    }

    #[test]
    fn boards_of_4_8_and_16_mib_come_and_most_images_are_short() {
        let images = many_images();
        let amount = |fits: &dyn Fn(u64) -> bool| {
            let lengths = images.iter().map(|image| image.length);
            lengths.filter(|length| fits(*length)).count()
        };
        for mib in [4, 8, 16] {
            let board = amount(&|length| length == mib << 20);
            assert!(board >= 50, "{board} images have {mib} MiB");
        }
        assert!(amount(&|length| length > MOST_BYTES) >= 5);
        let short = amount(&|length| length <= 0x6_4000);
        assert!(short > images.len() * 4 / 5, "{short} images are short");
    }

    #[test]
    fn an_efs_in_the_window_is_mostly_where_the_window_has_it() {
        let (mut there, mut astray, mut below) = (0, 0, 0);
        for image in many_images() {
            let efs = match image.efs {
                Some(efs) if image.length <= MOST_BYTES => efs,
                _ => continue,
            };
            let place = Some(own_efs(&image).place);
            match efs.checked_sub(WINDOW_END - image.length) {
                None => below += 1,
                due if due == place => there += 1,
                _ => astray += 1,
            }
        }
        assert!(there > 6000, "{there} are in their place");
        assert!(astray >= 20, "{astray} are astray");
        assert!(
            below >= 100,
            "{below} have none, since their window begins above it"
        );
    }

    #[test]
    fn an_image_with_one_fault_has_all_that_leads_to_it() {
        let mut random = Random::from_seed(3);
        let (mut cut, mut led) = (0, 0);
        for _ in 0..1000 {
            let length = least_length(CANDIDATES[0]) + random.below(0x4000);
            let image = Image::with_one_fault(&mut random, length);
            let efs = own_efs(&image);
            assert_eq!(Some(efs.place), CANDIDATES[0].checked_sub(image.window()));
            let (one, two) = (&image.directories[0], &image.directories[1]);
            assert_eq!(efs.bytes[0x14..0x18], (one.0 as u32).to_le_bytes());
            for (place, directory) in &image.directories {
                let end = place + directory.bytes().len() as u64;
                cut += u32::from(end > image.length);
            }
            let to = [image.window() + two.0, two.0 | 1 << 62];
            let from_one = two.0.wrapping_sub(one.0) & ((1 << 62) - 1);
            let leads = one.1.entries.iter().filter(|entry| entry.class == LEAD);
            let mut words = leads.map(|entry| entry.word);
            led += u32::from(words.any(|word| to.contains(&word) || word == from_one | 2 << 62));
        }
        assert!((50..300).contains(&cut), "{cut} are cut off");
        assert!(led > 650, "{led} have an entry that leads to level two");
    }

    #[test]
    fn pointers_come_on_both_sides_of_every_limit() {
        let limits = |image: &Image| {
            let window = WINDOW_END - image.length;
            vec![
                image.length - 1,
                image.length,
                window - 1,
                window,
                WINDOW_END - 2,
                // What would lead to level one if the window were of the most bytes.
                WIDEST_WINDOW + image.directories[0].0,
            ]
        };
        let pointers = |image: &Image| {
            let fields = own_efs(image).bytes[0x10..0x18].chunks(4);
            let values =
                fields.map(|field| u32::from_le_bytes([field[0], field[1], field[2], field[3]]));
            values.map(u64::from).collect()
        };
        each_comes("a pointer", limits, pointers);
    }

    #[test]
    fn physical_locations_come_on_both_sides_of_every_limit() {
        let limits = |image: &Image| {
            let window = WINDOW_END - image.length;
            vec![window - 1, window, WINDOW_END - 1, WINDOW_END]
        };
        let of_class = |lead: bool| {
            move |image: &Image| {
                let entries = image.directories.iter().flat_map(|(_, one)| &one.entries);
                let entries = entries.filter(|entry| (entry.class == LEAD) == lead);
                // Those of mode 0 are the word itself.
                entries.map(|entry| entry.word).collect()
            }
        };
        each_comes("the location of a lead", limits, of_class(true));
        each_comes("the location of a part", limits, of_class(false));
        // What would lead to a level two if the window were of the most bytes.
        let widest = |image: &Image| {
            let last = image.directories.last().map_or(0, |(place, _)| *place);
            vec![WIDEST_WINDOW + last]
        };
        each_comes("the location of a lead", widest, of_class(true));
    }
}
