//! Random calls on flash images: directories, entries, their bytes, and both lookups.

use super::draft::Draft;
use super::image::Image;
use super::words::number;
use super::{Script, Subject};
use crate::random::Random;

pub const SUBJECT: Subject = Subject {
    name: "flash",
    script,
};

fn script(random: &mut Random, calls: u64) -> Script {
    let mut draft = Draft::default();
    while draft.len() < calls {
        let mut image = Image::random(random);
        let name = random.pick(&["a", "Board_2"]);
        image.write(random, &mut draft, name);
        for round in 0..image.rounds(random) {
            if round > 0 {
                image.change(random, &mut draft, name);
            }
            for level in [1, 2] {
                draft.line(format!("directory {name} {level}"));
            }
            for _ in 0..image.calls(random) {
                let call = call(random, &image, name);
                draft.ask(random, call);
            }
        }
    }
    draft.script()
}

/// One call on an image.
fn call(random: &mut Random, image: &Image, name: &str) -> String {
    let level = level(random);
    match random.below(10) {
        0 => format!("directory {name} {level}"),
        1 | 2 => {
            let index = image.index(random);
            format!("entry {name} {level} {}", number(random, index))
        }
        3..=5 => {
            let index = image.index(random);
            format!("bytes {name} {level} {}", number(random, index))
        }
        6 | 7 => format!("find {name} {level} {}", sought(random, image)),
        _ => format!("find-image {name} {}", sought(random, image)),
    }
}

/// A level, mostly one that there is.
pub fn level(random: &mut Random) -> String {
    let level = match random.below(24) {
        0 => random.one_of(&[0, 3, 257, 0xFFFF_FFFF, 0x1_0000_0001]),
        1..=12 => 1,
        _ => 2,
    };
    number(random, level)
}

/// A type and a subprogram to look for.
fn sought(random: &mut Random, image: &Image) -> String {
    let (class, subprogram) = image.sought(random);
    let class = number(random, u64::from(class));
    format!("{class} {}", number(random, u64::from(subprogram)))
}
