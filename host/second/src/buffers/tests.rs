use super::*;
use std::path::PathBuf;
use std::{env, process};

/// A file of that length for one test, gone at its end.
struct Scratch(PathBuf);

impl Scratch {
    fn of(name: &str, length: u64) -> Scratch {
        let path = env::temp_dir().join(format!("second-{}-{}", process::id(), name));
        File::create(&path).unwrap().set_len(length).unwrap();
        Scratch(path)
    }

    fn path(&self) -> &[u8] {
        self.0.as_os_str().as_bytes()
    }
}

impl Drop for Scratch {
    fn drop(&mut self) {
        let _ = fs::remove_file(&self.0);
    }
}

/// One buffer, named a, of the bytes 0 to 9.
fn ten() -> Buffers {
    let mut buffers = Buffers::default();
    buffers.set(b"a", (0..10).collect());
    buffers
}

#[test]
fn a_new_buffer_stands_in_the_place_of_the_old() {
    let mut buffers = ten();
    assert_eq!(buffers.make(b"a", 3, 0xEE), Ok(3));
    assert_eq!(buffers.lent(b"a"), Ok(&[0xEE; 3][..]));
    assert_eq!(buffers.make(b"a", 0, 1), Ok(0));
    assert_eq!(buffers.lent(b"a"), Ok(&[][..]));
}

#[test]
fn a_buffer_has_at_most_67108864_bytes() {
    let mut buffers = ten();
    for length in [67_108_865, 1 << 32, u64::MAX] {
        assert!(buffers.make(b"a", length, 0).is_err());
        assert_eq!(buffers.lent(b"a").map(|bytes| bytes.len()), Ok(10));
    }
    assert_eq!(buffers.make(b"a", 67_108_864, 0), Ok(67_108_864));
}

#[test]
fn names_differ_by_case_and_unknown_ones_are_told() {
    let mut buffers = ten();
    assert!(buffers.lent(b"A").is_err());
    assert!(buffers.lent_to_write(b"b").is_err());
    let BadLine(reason) = buffers.lent(b"x").unwrap_err();
    assert_eq!(
        reason,
        "no buffer is named 'x'; make one with buffer or file"
    );
}

#[test]
fn a_copy_is_of_another_or_of_itself_and_apart_from_it() {
    let mut buffers = ten();
    assert_eq!(buffers.copy(b"b", b"a"), Ok(10));
    assert_eq!(buffers.copy(b"a", b"a"), Ok(10));
    assert_eq!(buffers.patch(b"b", 0, &[9]), Ok(()));
    assert_eq!(buffers.lent(b"a").map(|bytes| bytes[0]), Ok(0));
    assert_eq!(
        buffers.lent(b"b").map(|bytes| bytes[..2].to_vec()),
        Ok(vec![9, 1])
    );
    assert!(buffers.copy(b"c", b"none").is_err());
    assert!(buffers.lent(b"c").is_err());
    assert!(buffers.copy(b"c", b"c").is_err());
}

#[test]
fn a_patch_fits_or_changes_nothing() {
    let mut buffers = ten();
    assert_eq!(buffers.patch(b"a", 8, &[0xAA, 0xBB]), Ok(()));
    assert_eq!(
        buffers.lent(b"a"),
        Ok(&[0, 1, 2, 3, 4, 5, 6, 7, 0xAA, 0xBB][..])
    );
    for (offset, length) in [
        (9, 2),
        (10, 1),
        (0, 11),
        (11, 0),
        (u64::MAX, 0),
        (u64::MAX, 1),
    ] {
        assert!(buffers.patch(b"a", offset, &vec![1; length]).is_err());
    }
    assert_eq!(buffers.patch(b"a", 10, &[]), Ok(()));
    assert_eq!(buffers.patch(b"a", 0, &[]), Ok(()));
    assert_eq!(
        buffers.lent(b"a"),
        Ok(&[0, 1, 2, 3, 4, 5, 6, 7, 0xAA, 0xBB][..])
    );
    assert!(buffers.patch(b"none", 0, &[]).is_err());
}

#[test]
fn a_part_lies_in_the_buffer() {
    let buffers = ten();
    assert_eq!(buffers.part(b"a", 8, 2), Ok(&[8, 9][..]));
    assert_eq!(buffers.part(b"a", 10, 0), Ok(&[][..]));
    for (offset, length) in [
        (9, 2),
        (11, 0),
        (1, u64::MAX),
        (u64::MAX, 1),
        (u64::MAX, u64::MAX),
    ] {
        assert!(buffers.part(b"a", offset, length).is_err());
    }
}

#[test]
fn the_digest_is_fnv_1a() {
    assert_eq!(digest(b""), 0xCBF2_9CE4_8422_2325);
    assert_eq!(digest(b"a"), 0xAF63_DC4C_8601_EC8C);
    assert_eq!(digest(b"foobar"), 0x8594_4171_F739_67E8);
}

#[test]
fn a_file_is_read_whole() {
    let file = Scratch::of("whole", 0);
    fs::write(&file.0, b"\x00\xFF\n#").unwrap();
    let mut buffers = ten();
    assert_eq!(buffers.read_file(b"a", file.path()), Ok(4));
    assert_eq!(buffers.lent(b"a"), Ok(&b"\x00\xFF\n#"[..]));
}

#[test]
fn a_file_that_cannot_be_read_changes_nothing() {
    let mut buffers = ten();
    let folder = env::temp_dir();
    let folder = folder.as_os_str().as_bytes();
    for path in [&b"no/such/file"[..], folder, b"a\0b", b"\xFF\xFE"] {
        assert!(buffers.read_file(b"a", path).is_err());
    }
    assert_eq!(buffers.lent(b"a").map(|bytes| bytes.len()), Ok(10));
}

#[test]
fn a_file_has_at_most_67108864_bytes() {
    let mut buffers = ten();
    let longer = Scratch::of("longer", LONGEST + 1);
    assert!(buffers.read_file(b"a", longer.path()).is_err());
    assert_eq!(buffers.lent(b"a").map(|bytes| bytes.len()), Ok(10));
    let longest = Scratch::of("longest", LONGEST);
    assert_eq!(
        buffers.read_file(b"a", longest.path()),
        Ok(LONGEST as usize)
    );
}
