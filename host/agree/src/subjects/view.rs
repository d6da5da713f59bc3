//! Random calls on views: of the directories of random flash images, and of places where there is none.

use super::draft::Draft;
use super::flash::level;
use super::image::Image;
use super::words::number;
use super::{Script, Subject};
use crate::random::Random;

pub const SUBJECT: Subject = Subject {
    name: "view",
    script,
};

fn script(random: &mut Random, calls: u64) -> Script {
    let mut draft = Draft::default();
    while draft.len() < calls {
        let mut image = Image::random(random);
        image.write(random, &mut draft, "a");
        for round in 0..image.rounds(random) {
            if round > 0 {
                image.change(random, &mut draft, "a");
            }
            for _ in 0..image.calls(random) {
                let call = call(random, &image);
                draft.ask(random, call);
            }
        }
    }
    draft.script()
}

/// One call on a view of an image.
fn call(random: &mut Random, image: &Image) -> String {
    if random.once_in(5) {
        return format!("view a {}", level(random));
    }
    let name = random.pick(&["view-entry", "view-bytes"]);
    let place = place(random, image);
    let index = image.index(random);
    let place = number(random, place);
    format!("{name} a {place} {}", number(random, index))
}

/// A view's place: mostly a directory's, or one near the edge of the image or of its number.
fn place(random: &mut Random, image: &Image) -> u64 {
    let at = random.below(image.directories.len() as u64) as usize;
    let place = image.directories[at].0;
    match random.below(16) {
        0 => place + 1,
        // What would lead there if 32 bits counted alone, or if a place were a physical address.
        1 => random.one_of(&[place + (1 << 32), image.window() + place]),
        2 => random.one_of(&[image.length, image.length + 1]),
        3 => image.length.saturating_sub(random.one_of(&[1, 15, 16, 17])),
        4 => u64::MAX - random.one_of(&[0, 7, 15, 16]),
        5 => random.below(image.length.max(1)),
        _ => place,
    }
}
