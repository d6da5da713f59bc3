//! Bytes changed at random, in whatever they belong to.

use crate::random::Random;

/// Changes some bytes, of which there is at least one: a bit, a byte, a few bytes in a row, or two that change places.
pub fn scatter(random: &mut Random, bytes: &mut [u8]) {
    let length = bytes.len() as u64;
    let place = random.below(length) as usize;
    match random.below(4) {
        0 => bytes[place] ^= 1 << random.below(8),
        1 => bytes[place] = random.one_of(&[0, 1, 0x40, 0x7F, 0x80, 0xFF]),
        2 => {
            let end = bytes.len().min(place + 2 + random.below(7) as usize);
            let row = random.bytes(end - place);
            bytes[place..end].copy_from_slice(&row);
        }
        _ => bytes.swap(place, random.below(length) as usize),
    }
}

#[cfg(test)]
mod tests {
    use super::*;

    #[test]
    fn some_bytes_change_and_most_do_not() {
        let changed = |seed| {
            let mut bytes: Vec<u8> = (0..100).collect();
            scatter(&mut Random::from_seed(seed), &mut bytes);
            (0..100).zip(bytes).filter(|(a, b)| a != b).count()
        };
        let amounts: Vec<usize> = (0..200).map(changed).collect();
        assert!(amounts.iter().all(|amount| *amount <= 8));
        assert!(amounts.iter().filter(|amount| **amount > 0).count() > 180);
        scatter(&mut Random::from_seed(1), &mut [0]);
    }
}
