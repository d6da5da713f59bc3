//! The version of firmware as people and programs are shown it.

use bindings::Answer;

/// A version as source 001 writes it, its highest byte first: 00.08.01.74. There is none to show where the bytes have no firmware
/// header.
pub fn words(version: Answer<u64>) -> Option<String> {
    let version = version.ok()?;
    let parts = [24, 16, 8, 0].map(|bits| format!("{:02x}", version >> bits & 0xFF));
    Some(parts.join("."))
}

#[cfg(test)]
mod tests {
    use super::*;
    use bindings::Refusal;

    #[test]
    fn a_version_is_written_as_source_001_writes_it() {
        assert_eq!(words(Ok(0x0008_0174)), Some(String::from("00.08.01.74")));
        assert_eq!(words(Ok(0xABCD_0F01)), Some(String::from("ab.cd.0f.01")));
        let no = Refusal::alone(Refusal::SIGNATURE);
        assert_eq!(words(Err(no)), None);
    }
}
