//! What came of an image that a register was asked for.

use super::facts::Facts;
use super::sample;
use super::sources::Source;
use super::verdict::Judgement;
use crate::shown::refusals;
use crate::system::files;
use bindings::Words;

/// What came of a source.
pub struct Outcome {
    pub judgement: Judgement,
    /// What the library says of the image, or the message that says why it was not read.
    pub facts: Result<Facts, String>,
}

impl Outcome {
    /// Reads an image and asks the library about it. The image is let go of before the next one is read.
    pub fn of(source: &Source, words: &mut Words) -> Outcome {
        let facts = image(source).map(|image| Facts::of(&image, words));
        let judgement = facts
            .as_ref()
            .map_or(Judgement::NOT_READ, |facts| Judgement::of(facts));
        Outcome { judgement, facts }
    }
}

/// The bytes of an image. The error is the message to show.
fn image(source: &Source) -> Result<Vec<u8>, String> {
    match source {
        Source::File(name) => files::read(name),
        Source::Unlisted(_, message) => Err(message.clone()),
        Source::Sample => sample::board().map_err(|refusal| {
            let told = refusals::told(refusal);
            format!("the sample board cannot be made: {told}. This is a fault of the tool.")
        }),
    }
}
