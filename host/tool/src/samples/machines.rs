//! The five machines without a boot loader: on each the lookup of type 1 and subprogram 0 truly finds none, for another reason that
//! would tempt a careless reader. docs/DECISIONS.md, F21, says what they are made from.

use super::image::{
    at, entry, put_directory, put_efs, put_uncounted, small_image, BOOT_LOADER, LEVEL_ONE, PHYSICAL,
};
use bindings::{Answer, NewEntry};

/// A machine: the name of its image, and how it is made.
pub struct Machine {
    pub name: &'static str,
    pub make: fn() -> Answer<Vec<u8>>,
}

pub static MACHINES: [Machine; 5] = [
    Machine {
        name: "machine-1-behind-the-last-entry.rom",
        make: behind_the_last_entry,
    },
    Machine {
        name: "machine-2-nothing-leads-there.rom",
        make: nothing_leads_there,
    },
    Machine {
        name: "machine-3-another-subprogram.rom",
        make: another_subprogram,
    },
    Machine {
        name: "machine-4-another-efs.rom",
        make: another_efs,
    },
    Machine {
        name: "machine-5-thirteenth-of-twelve.rom",
        make: thirteenth_of_twelve,
    },
];

/// Where level 2 begins on most of them.
const LEVEL_TWO: usize = 0x4000;

/// The type of an entry that leads to level 2.
const LEAD: u8 = 0x40;

/// Behind the last entry of level 2 stand sixteen bytes that look like the entry of a boot loader, which no total counts.
fn behind_the_last_entry() -> Answer<Vec<u8>> {
    let mut image = small_image();
    let one = [
        at(0x00, 0, 0x240, 0x2000),
        at(LEAD, 0, 0x40, LEVEL_TWO as u64),
        entry(0x0B, 0, 0, 1, PHYSICAL),
    ];
    let two = [
        at(0x08, 0, 0x80, 0x8200),
        at(0x13, 0, 0x40, 0x8300),
        at(BOOT_LOADER, 1, 0x40, 0x8400),
    ];
    put_directory(&mut image[LEVEL_ONE..], 1, &one)?;
    put_directory(&mut image[LEVEL_TWO..], 2, &two)?;
    put_uncounted(&mut image, 0x4040, at(BOOT_LOADER, 0, 0x100, 0x8000))?;
    Ok(image)
}

/// A good level 2 has a boot loader, and nothing leads there: one entry holds its bytes as data, and one has 0x40 as its subprogram.
fn nothing_leads_there() -> Answer<Vec<u8>> {
    let mut image = small_image();
    let one = [
        at(0x00, 0, 0x240, 0x2000),
        at(0x41, 0, 0x20, LEVEL_TWO as u64),
        at(0x04, LEAD, 0x20, LEVEL_TWO as u64),
        at(0x08, 0, 0x80, 0x8200),
    ];
    put_directory(&mut image[LEVEL_ONE..], 1, &one)?;
    put_directory(
        &mut image[LEVEL_TWO..],
        2,
        &[at(BOOT_LOADER, 0, 0x100, 0x8000)],
    )?;
    Ok(image)
}

/// Each of the four boot loaders that there are has another subprogram.
fn another_subprogram() -> Answer<Vec<u8>> {
    let mut image = small_image();
    let one = [
        at(BOOT_LOADER, 0x01, 0x100, 0x8000),
        at(0x00, 0x01, 0x240, 0x2000),
        at(LEAD, 0, 0x30, LEVEL_TWO as u64),
        at(BOOT_LOADER, 0x10, 0x100, 0x8000),
    ];
    let two = [
        at(BOOT_LOADER, 0xFF, 0x100, 0x8100),
        at(BOOT_LOADER, 0x02, 0x100, 0x8200),
    ];
    put_directory(&mut image[LEVEL_ONE..], 1, &one)?;
    put_directory(&mut image[LEVEL_TWO..], 2, &two)?;
    Ok(image)
}

/// Only the directory of an EFS that does not count has a boot loader: in 1 MiB, the one at 0xfffa0000 is looked at before the one
/// at 0xfff20000.
fn another_efs() -> Answer<Vec<u8>> {
    const OTHER_LEVEL_ONE: usize = 0x2000;
    let mut image = vec![0; 0x10_0000];
    put_efs(&mut image, 0xA_0000, LEVEL_ONE as u32);
    put_efs(&mut image, 0x2_0000, 0xFFF0_0000 + OTHER_LEVEL_ONE as u32);
    let counts = [at(0x00, 0, 0x240, 0x6000), at(0x08, 0, 0x80, 0x8200)];
    let other = [
        at(BOOT_LOADER, 0, 0x100, 0x8000),
        at(LEAD, 0, 0x20, LEVEL_TWO as u64),
    ];
    put_directory(&mut image[LEVEL_ONE..], 1, &counts)?;
    put_directory(&mut image[OTHER_LEVEL_ONE..], 1, &other)?;
    put_directory(
        &mut image[LEVEL_TWO..],
        2,
        &[at(BOOT_LOADER, 0, 0x100, 0x8000)],
    )?;
    Ok(image)
}

/// A boot loader stands as a thirteenth entry behind the twelve of level 1, and level 2 follows it.
fn thirteenth_of_twelve() -> Answer<Vec<u8>> {
    const THIRTEENTH: usize = 0x10D0;
    const NEXT_DIRECTORY: usize = 0x10E0;
    let mut image = small_image();
    let mut one: Vec<NewEntry> = (0x02..=0x0A)
        .map(|class| at(class, 0, 0x10, 0x8000 + 0x100 * u64::from(class - 2)))
        .collect();
    one.extend([
        at(0x20, 1, 0x10, 0x9000),
        at(0x21, 0, 0x10, 0x9100),
        at(LEAD, 0, 0x30, NEXT_DIRECTORY as u64),
    ]);
    let two = [at(0x08, 1, 0x80, 0xA000), at(0x13, 0, 0x40, 0xA100)];
    put_directory(&mut image[LEVEL_ONE..], 1, &one)?;
    put_uncounted(&mut image, THIRTEENTH, at(BOOT_LOADER, 0, 0x100, 0xB000))?;
    put_directory(&mut image[NEXT_DIRECTORY..], 2, &two)?;
    Ok(image)
}

#[cfg(test)]
mod tests {
    use super::*;
    use bindings::{find_image, Refusal};

    #[test]
    fn no_machine_has_a_boot_loader_and_none_is_refused() {
        for Machine { name, make } in &MACHINES {
            let image = make().expect("the writer refuses none of it");
            let refusal = find_image(&image, BOOT_LOADER, 0).unwrap_err();
            assert_eq!(refusal.number, Refusal::ABSENT, "{name}");
        }
    }
}
