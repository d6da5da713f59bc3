//! The entries for which a directory is refused with 18, as the library names them.

use bindings::{directory, repeated, Refusal, Repeat};

/// Both entries, where one repeats an earlier one. The library names those of the directory of a level. That is the one in which a refusal
/// was met, where the call by level is refused at the same place.
pub fn named(image: &[u8], refusal: Refusal) -> Option<Repeat> {
    if !refusal.is(Refusal::REPEATED) {
        return None;
    }
    let level = u32::try_from(refusal.place?.level).ok()?;
    match directory(image, level) {
        Err(same) if same == refusal => repeated(image, level).ok(),
        _ => None,
    }
}
