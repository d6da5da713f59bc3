//! The largest buffers, files and lines, on both sides of their limits, answered by both programs.

use agree::compare::{answers_of, departure};
use agree::programs::{built_folder, Program};
use std::fs::{self, File};
use std::path::Path;

/// The most bytes that a buffer has.
const LIMIT: u64 = 67_108_864;

/// Both programs answer a script with these lines, where `bad line` stands for any bad line.
fn both_answer(script: &str, expected: &str, status: i32, folder: &Path) {
    for program in [Program::tool(), Program::second()] {
        let run = program.answers_to(script.as_bytes(), folder);
        let told = departure(
            script.as_bytes(),
            &answers_of(expected.as_bytes()),
            status,
            &run,
        );
        assert_eq!(told, None, "{}", program.name);
    }
}

#[test]
fn a_buffer_has_at_most_64_mib() {
    let script = "buffer a 67108864 7\nbuffer a 67108865\nshow a 67108862 2\nshow a 67108863 2\n\
                  patch a 67108863 ff\npatch a 67108864 ff\npatch a 67108864 -\ncopy b a\nshow b 67108863 1\n";
    let expected = "ok length=67108864\nbad line\nbytes 0707\nbad line\n\
                    ok\nbad line\nok\nok length=67108864\nbytes ff\n";
    both_answer(script, expected, 1, &built_folder());
}

#[test]
fn a_file_has_at_most_64_mib() {
    let folder = built_folder().join("agree-limits");
    fs::create_dir_all(&folder).unwrap();
    for (name, length) in [("largest.bin", LIMIT), ("larger.bin", LIMIT + 1)] {
        // A file with a hole takes no room on the disk.
        File::create(folder.join(name))
            .unwrap()
            .set_len(length)
            .unwrap();
    }
    let script = "file a largest.bin\nfile a larger.bin\nshow a 67108863 1\ndigest a\n";
    // Of zero bytes alone the hash is the start value times the prime to the power of their number.
    let expected =
        "ok length=67108864\nbad line\nbytes 00\ndigest length=67108864 fnv=0x805f256ad4222325\n";
    both_answer(script, expected, 1, &folder);
    fs::remove_dir_all(&folder).unwrap();
}

#[test]
fn a_line_may_be_of_any_length() {
    let long = 1 << 20;
    let script = format!(
        "buffer a {long}\npatch a 0 {}# {}\nshow a 0 2\nshow a {} 2\n{}\nshow{}a 0 1\nshow a {}1 1\n",
        "a5".repeat(long),
        "comment ".repeat(long / 8),
        long - 2,
        "x".repeat(long),
        " ".repeat(long),
        "0".repeat(long),
    );
    let expected =
        format!("ok length={long}\nok\nbytes a5a5\nbytes a5a5\nbad line\nbytes a5\nbytes a5\n");
    both_answer(&script, &expected, 1, &built_folder());
}
