use super::*;

fn read(kind: u16, id: u8, registers: [u32; 3]) -> Option<Structure> {
    Some(Structure {
        kind,
        id,
        registers,
    })
}

#[test]
fn structures_have_the_fields_of_their_type() {
    let structure = |word: &str| structure(word.as_bytes()).ok();
    assert_eq!(structure("0:-:1:2:3"), read(0, 0, [1, 2, 3]));
    assert_eq!(structure("1:1:0x20:36:0x28"), read(1, 1, [32, 36, 40]));
    assert_eq!(
        structure("1:255:0:0:4294967295"),
        read(1, 255, [0, 0, u32::MAX])
    );
    assert_eq!(structure("2:-:0x30:-:-"), read(2, 0, [0x30, 0, 0]));
    assert_eq!(structure("9:1:0:0:0"), read(9, 1, [0, 0, 0]));
    assert_eq!(structure("3:0:1:2:3"), read(3, 0, [1, 2, 3]));
    assert_eq!(structure("0xffff:1:2:3:4"), read(65_535, 1, [2, 3, 4]));
    assert_eq!(structure("0x0002:-:1:-:-"), read(2, 0, [1, 0, 0]));
}

#[test]
fn structures_of_another_form_are_bad() {
    for word in [
        "0:1:1:2:3",
        "0:0:1:2:3",
        "0:-:-:2:3",
        "0:-:1:-:3",
        "0:-:1:2:-",
        "1:-:1:2:3",
        "1:1:-:2:3",
        "1:1:1:2:-",
        "1:256:1:2:3",
        "2:1:1:-:-",
        "2:-:1:2:-",
        "2:-:1:-:3",
        "2:-:1:0:0",
        "2:-:-:-:-",
        "3:-:1:2:3",
        "9:1:1:-:-",
        "9:1:1:2:-",
        "65536:1:0:0:0",
        "-:-:0:0:0",
        "0:-:1:2",
        "0:-:1:2:3:",
        "0:-:1:2:3:4",
        "0::1:2:3",
        ":-:1:2:3",
        "0:-:1:2:4294967296",
        "0:--:1:2:3",
        "0",
        "-",
    ] {
        assert!(structure(word.as_bytes()).is_err(), "{}", word);
    }
}

#[test]
fn structures_are_shown_with_a_decimal_type() {
    let shown = |word: &str| shown_structure(&structure(word.as_bytes()).unwrap());
    assert_eq!(shown("1:1:0x20:0x24:0x28"), "1:0x1:0x20:0x24:0x28");
    assert_eq!(shown("0:-:0:10:4092"), "0:-:0x0:0xa:0xffc");
    assert_eq!(shown("2:-:255:-:-"), "2:-:0xff:-:-");
}

#[test]
fn a_line_is_posts_oldest_first() {
    let post = |caller, command, data| Post {
        caller,
        command,
        data,
    };
    assert_eq!(line(b"-"), Ok(vec![]));
    assert_eq!(line(b"1:2:3"), Ok(vec![post(1, 2, 3)]));
    assert_eq!(
        line(b"255:0xffff:65535,0:0:0"),
        Ok(vec![post(255, 0xFFFF, 0xFFFF), post(0, 0, 0)])
    );
}

#[test]
fn a_line_has_at_most_eight_posts() {
    let posts = |n: usize| vec!["1:1:1"; n].join(",").into_bytes();
    assert_eq!(line(&posts(8)).map(|posts| posts.len()), Ok(8));
    assert!(line(&posts(9)).is_err());
}

#[test]
fn lines_of_another_form_are_bad() {
    for word in [
        "1:2",
        "1:2:3:4",
        "1:2:3,",
        ",1:2:3",
        "1:2:3,,1:2:3",
        ",",
        "256:0:0",
        "0:65536:0",
        "0:0:65536",
        "-,1:2:3",
        "-:2:3",
        "1::3",
        "--",
        "idle",
    ] {
        assert!(line(word.as_bytes()).is_err(), "{}", word);
    }
}

#[test]
fn a_register_is_idle_or_holds_a_callers_word() {
    assert_eq!(register(b"idle"), Ok(Register::Idle));
    let (caller, word) = (255, u32::MAX);
    assert_eq!(
        register(b"command:255:0xffffffff"),
        Ok(Register::Command { caller, word })
    );
    assert_eq!(
        register(b"response:255:4294967295"),
        Ok(Register::Response { caller, word })
    );
    for word in [
        "-",
        "Idle",
        "idle:",
        "idle:0:0",
        "command",
        "command:0",
        "command:0:0:0",
        "command:256:0",
        "command:0:4294967296",
        "response:256:0",
        "Command:0:0",
        "command::0",
        ":0:0",
    ] {
        assert!(register(word.as_bytes()).is_err(), "{}", word);
    }
}

#[test]
fn places_hold_each_callers_word_once() {
    assert_eq!(places(b"-"), Ok([None; 8]));
    let mut expected = [None; 8];
    expected[7] = Some(1);
    expected[0] = Some(u32::MAX);
    assert_eq!(places(b"7:1,0:0xffffffff"), Ok(expected));
    for word in [
        "8:0",
        "255:0",
        "0",
        "0:0:0",
        "0:4294967296",
        "1:1,1:1",
        "0:0,",
        ",0:0",
        "-,0:0",
        ":0",
        "0:",
        "4294967296:0",
    ] {
        assert!(places(word.as_bytes()).is_err(), "{}", word);
    }
}
