//! Little-endian numbers in lent bytes. The caller has checked that the bytes are there.

/// The 16-bit number at the offset.
pub fn u16_at(bytes: &[u8], offset: usize) -> u16 {
    u16::from_le_bytes([bytes[offset], bytes[offset + 1]])
}

/// The 32-bit number at the offset.
pub fn u32_at(bytes: &[u8], offset: usize) -> u32 {
    u32::from(u16_at(bytes, offset)) | (u32::from(u16_at(bytes, offset + 2)) << 16)
}

/// The 64-bit number at the offset.
pub fn u64_at(bytes: &[u8], offset: usize) -> u64 {
    u64::from(u32_at(bytes, offset)) | (u64::from(u32_at(bytes, offset + 4)) << 32)
}

/// Writes the bytes (a number's, or any others) at the offset.
pub fn put(bytes: &mut [u8], offset: usize, what: &[u8]) {
    bytes[offset..offset + what.len()].copy_from_slice(what);
}

#[cfg(test)]
mod tests {
    use super::*;

    const BYTES: [u8; 9] = [0xFF, 0x81, 0x92, 0xA3, 0xB4, 0xC5, 0xD6, 0xE7, 0xF8];

    #[test]
    fn the_lowest_byte_comes_first() {
        assert_eq!(u16_at(&BYTES, 1), 0x9281);
        assert_eq!(u32_at(&BYTES, 1), 0xB4A3_9281);
        assert_eq!(u64_at(&BYTES, 1), 0xF8E7_D6C5_B4A3_9281);
    }

    #[test]
    fn put_writes_there_and_nowhere_else() {
        let mut bytes = [9; 6];
        put(&mut bytes, 1, &0x0403_0201u32.to_le_bytes());
        assert_eq!(bytes, [9, 1, 2, 3, 4, 9]);
    }
}
