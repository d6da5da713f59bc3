use super::*;

fn number<T: std::fmt::Debug>(result: Result<T, Refusal>) -> u8 {
    let refusal = result.expect_err("accepted");
    assert_eq!(refusal.tested, None);
    refusal.number
}

/// Firmware with its interface off.
fn off() -> Firmware {
    let mut firmware = Firmware::fresh();
    firmware.respond(0x0080_0000);
    firmware
}

fn post(caller: u8, command: u16) -> Post {
    Post {
        caller,
        command,
        data: 0,
    }
}

const NO_WORDS: [Option<u32>; CALLERS] = [None; CALLERS];

// Firmware

#[test]
fn fresh_firmware_is_on_and_empty() {
    let fresh = Firmware::fresh();
    assert!(fresh.interface_on);
    assert_eq!(fresh.held, [None; 3]);
    assert!(fresh.saved.iter().all(|saved| saved.is_none()));
    assert!(fresh.delivery.iter().all(|on| !on));
}

#[test]
fn m3_query() {
    assert_eq!(Firmware::fresh().respond(0x0081_0000), 0x8081_0001);
    assert_eq!(Firmware::fresh().respond(0x0081_FFFF), 0x8081_0001);
    assert_eq!(off().respond(0x0081_FFFF), 0x8081_0000);
    let mut firmware = Firmware::fresh();
    firmware.respond(0x0081_0000);
    assert_eq!(firmware, Firmware::fresh());
}

#[test]
fn m4_disable() {
    assert_eq!(Firmware::fresh().respond(0x0080_0000), 0x8080_0000);
    assert_eq!(Firmware::fresh().respond(0x0080_1234), 0x8080_1234);
    let mut firmware = Firmware::fresh();
    firmware.respond(0x0080_0000);
    let expected = Firmware {
        interface_on: false,
        ..Firmware::fresh()
    };
    assert_eq!(firmware, expected);
    assert_eq!(firmware.respond(0x0080_0000), 0x8080_0000);
    assert_eq!(firmware, expected);
}

#[test]
fn m5_m6_and_m7_enable() {
    assert_eq!(Firmware::fresh().respond(0x0085_0401), 0x8C85_0401);
    assert_eq!(off().respond(0x0085_0401), 0x8885_0401);
    assert_eq!(off().respond(0x0085_0403), 0xFC85_0403);
}

#[test]
fn m8_any_other_command() {
    assert_eq!(Firmware::fresh().respond(0x0086_0000), 0x8486_0000);
    assert_eq!(off().respond(0x0086_0000), 0x8486_0000);
    for command in (0..=0x3FF).filter(|c| !(0x80..=0x85).contains(c)) {
        let mut firmware = Firmware::fresh();
        let word = command << 16 | 0xABCD;
        assert_eq!(firmware.respond(word), 0x8400_0000 | word);
        assert_eq!(firmware, Firmware::fresh());
    }
}

#[test]
fn a_descriptor_is_saved_whichever_part_comes_last() {
    let words = [0x0082_1111, 0x0083_2222, 0x0084_FC33];
    for order in [
        [0, 1, 2],
        [0, 2, 1],
        [1, 0, 2],
        [1, 2, 0],
        [2, 0, 1],
        [2, 1, 0],
    ] {
        let mut firmware = Firmware::fresh();
        for k in order {
            assert_eq!(firmware.saved, [None; IDS]);
            assert_eq!(firmware.respond(words[k]), 0x8000_0000 | words[k]);
        }
        let mut expected = Firmware::fresh();
        expected.saved[63] = Some([0x1111, 0x2222, 0xFC33]);
        assert_eq!(firmware, expected);
    }
}

#[test]
fn a_part_replaces_one_held() {
    let mut firmware = off();
    for word in [0x0082_0001, 0x0083_0002, 0x0082_0003, 0x0083_0004] {
        firmware.respond(word);
    }
    assert_eq!(firmware.held, [Some(3), Some(4), None]);
    firmware.respond(0x0084_0405);
    assert_eq!(firmware.held, [None; 3]);
    assert_eq!(firmware.saved[1], Some([3, 4, 0x0405]));
}

#[test]
fn a_part_that_comes_when_all_three_are_held_is_saved_with_the_others() {
    let mut firmware = Firmware::fresh();
    firmware.held = [Some(1), Some(2), Some(0x0803)];
    firmware.respond(0x0082_0009);
    assert_eq!(firmware.held, [None; 3]);
    assert_eq!(firmware.saved[2], Some([9, 2, 0x0803]));
}

#[test]
fn delivery_is_tested_by_3_then_1f_then_2() {
    let mut firmware = Firmware::fresh();
    assert_eq!(firmware.respond(0x0085_0403), 0x8C85_0403);
    let mut firmware = off();
    for bit in 1..=9 {
        let word = 0x0085_0401 | 1 << bit;
        assert_eq!(firmware.respond(word), 0xFC00_0000 | word);
        assert_eq!(firmware.respond(word & !1), 0xFC00_0000 | word & !1);
    }
    assert_eq!(firmware.respond(0x0085_0400), 0x8885_0400);
    assert_eq!(firmware, off());
}

#[test]
fn delivery_is_set_under_its_own_id() {
    let mut firmware = off();
    for word in [0x0082_0001, 0x0083_0002, 0x0084_0403] {
        firmware.respond(word);
    }
    assert_eq!(firmware.respond(0x0085_0001), 0x8885_0001);
    assert_eq!(firmware.respond(0x0085_0801), 0x8885_0801);
    assert_eq!(firmware.respond(0x0085_0401), 0x8085_0401);
    let on: Vec<usize> = (0..IDS).filter(|id| firmware.delivery[*id]).collect();
    assert_eq!(on, [1]);
    assert_eq!(firmware.respond(0x0085_0401), 0x8085_0401);
    assert!(firmware.delivery[1]);
    assert_eq!(firmware.respond(0x0085_0400), 0x8085_0400);
    assert_eq!(firmware.delivery, [false; IDS]);
}

#[test]
fn saving_again_keeps_the_delivery() {
    let mut firmware = off();
    let parts = [0x0082_0001, 0x0083_0002, 0x0084_0403];
    for word in parts.into_iter().chain([0x0085_0401]).chain(parts) {
        firmware.respond(word);
    }
    assert!(firmware.delivery[1]);
    firmware.respond(0x0085_0400);
    for word in [0x0084_0407, 0x0083_0008, 0x0082_0009] {
        firmware.respond(word);
    }
    assert!(!firmware.delivery[1]);
    assert_eq!(firmware.saved[1], Some([9, 8, 0x0407]));
}

// Mailbox

#[test]
fn a_post_goes_its_whole_way() {
    let mut mailbox = Mailbox::fresh();
    assert_eq!(mailbox.post(3, 0x81, 0xFFFF), Ok(()));
    assert_eq!(number(mailbox.take(3)), 11);
    assert_eq!(mailbox.turn(), Ok(false));
    assert_eq!(mailbox.unload(), Ok(false));
    assert_eq!(mailbox.load(), Ok(true));
    assert_eq!(
        mailbox.register,
        Register::Command {
            caller: 3,
            word: 0x0081_FFFF
        }
    );
    assert_eq!(number(mailbox.take(3)), 11);
    assert_eq!(mailbox.load(), Ok(false));
    assert_eq!(mailbox.unload(), Ok(false));
    assert_eq!(mailbox.turn(), Ok(true));
    assert_eq!(
        mailbox.register,
        Register::Response {
            caller: 3,
            word: 0x8081_0001
        }
    );
    assert_eq!(number(mailbox.take(3)), 11);
    assert_eq!(mailbox.load(), Ok(false));
    assert_eq!(mailbox.turn(), Ok(false));
    assert_eq!(mailbox.unload(), Ok(true));
    assert_eq!(mailbox.register, Register::Idle);
    assert_eq!(mailbox.unload(), Ok(false));
    assert_eq!(mailbox.take(3), Ok(0x8081_0001));
    assert_eq!(number(mailbox.take(3)), 8);
    assert_eq!(mailbox, Mailbox::fresh());
}

#[test]
fn calls_that_do_not_act_change_nothing() {
    let mut mailbox = Mailbox::fresh();
    assert_eq!(mailbox.load(), Ok(false));
    assert_eq!(mailbox.turn(), Ok(false));
    assert_eq!(mailbox.unload(), Ok(false));
    assert_eq!(mailbox, Mailbox::fresh());
    mailbox.post(0, 0x80, 0).unwrap();
    mailbox.load().unwrap();
    mailbox.post(1, 0x81, 0).unwrap();
    let before = mailbox.clone();
    assert_eq!(mailbox.load(), Ok(false));
    assert_eq!(mailbox.unload(), Ok(false));
    assert_eq!(number(mailbox.post(1, 0x81, 0)), 10);
    assert_eq!(number(mailbox.take(1)), 11);
    assert_eq!(mailbox, before);
}

#[test]
fn the_oldest_post_is_loaded_and_each_caller_takes_its_own_word() {
    let mut mailbox = Mailbox::fresh();
    for caller in [5, 0, 7, 2] {
        mailbox.post(caller, 0x100 + caller, caller as u16).unwrap();
    }
    for caller in [5, 0, 7, 2] {
        assert_eq!(mailbox.load(), Ok(true));
        assert_eq!(mailbox.turn(), Ok(true));
        assert_eq!(mailbox.unload(), Ok(true));
        assert!(matches!(mailbox.places[caller], Place::Ready(_)));
    }
    for caller in [2, 7, 5, 0] {
        let word = 0x8400_0000 | (0x100 + caller) << 16 | caller;
        assert_eq!(mailbox.take(caller), Ok(word));
    }
    assert_eq!(number(mailbox.take(1)), 8);
}

#[test]
fn take_gives_no_other_callers_word() {
    let mut mailbox = Mailbox::of(vec![post(1, 0)], Register::Idle, {
        let mut words = NO_WORDS;
        words[2] = Some(7);
        words
    });
    assert_eq!(number(mailbox.take(0)), 8);
    assert_eq!(number(mailbox.take(1)), 11);
    assert_eq!(mailbox.take(2), Ok(7));
    assert_eq!(mailbox.places[1], Place::Waiting);
}

#[test]
fn post_and_take_test_their_numbers_in_order() {
    let mut mailbox = Mailbox::fresh();
    mailbox.post(7, 0x3FF, 0xFFFF).unwrap();
    let before = mailbox.clone();
    assert_eq!(number(mailbox.post(8, 0x400, 0)), 9);
    assert_eq!(number(mailbox.post(8, 0, 0)), 9);
    assert_eq!(number(mailbox.post(256 + 6, 0, 0)), 9);
    assert_eq!(number(mailbox.post(u32::MAX, 0, 0)), 9);
    assert_eq!(number(mailbox.post(6, 0x400, 0)), 9);
    assert_eq!(number(mailbox.post(6, 0x1_0000, 0)), 9);
    assert_eq!(number(mailbox.post(7, 0x400, 0)), 9);
    assert_eq!(number(mailbox.post(7, 0x3FF, 0)), 10);
    assert_eq!(number(mailbox.take(8)), 9);
    assert_eq!(number(mailbox.take(256 + 7)), 9);
    assert_eq!(number(mailbox.take(u32::MAX)), 9);
    assert_eq!(mailbox, before);
}

#[test]
fn a_post_is_untaken_in_line_register_and_place() {
    let mut mailbox = Mailbox::fresh();
    mailbox.post(4, 0x81, 0).unwrap();
    assert_eq!(number(mailbox.post(4, 0x81, 0)), 10);
    for step in [Mailbox::load, Mailbox::turn, Mailbox::unload] {
        assert_eq!(step(&mut mailbox), Ok(true));
        assert_eq!(number(mailbox.post(4, 0x81, 0)), 10);
    }
    mailbox.take(4).unwrap();
    assert_eq!(mailbox.post(4, 0x81, 0), Ok(()));
}

#[test]
fn all_eight_callers_may_wait() {
    let mut mailbox = Mailbox::fresh();
    for caller in 0..8 {
        assert_eq!(mailbox.post(caller, 0, 0), Ok(()));
    }
    assert_eq!(mailbox.line.len(), 8);
    assert_eq!(number(mailbox.post(0, 0, 0)), 10);
    assert_eq!(mailbox.load(), Ok(true));
}

/// Every call on a mailbox that breaks a rule is 5, first of all, and changes nothing.
fn broken(mailbox: Mailbox) {
    let mut now = mailbox.clone();
    assert_eq!(number(now.post(99, 0xFFFF, 0)), 5);
    assert_eq!(number(now.post(6, 0x81, 0)), 5);
    assert_eq!(number(now.load()), 5);
    assert_eq!(number(now.turn()), 5);
    assert_eq!(number(now.unload()), 5);
    assert_eq!(number(now.take(99)), 5);
    assert_eq!(number(now.take(0)), 5);
    assert_eq!(now, mailbox);
}

fn whole(mailbox: Mailbox) {
    assert_eq!(mailbox.check_consistent(), Ok(()), "{:?}", mailbox);
}

fn words_of(callers: &[usize]) -> [Option<u32>; CALLERS] {
    let mut words = NO_WORDS;
    for caller in callers {
        words[*caller] = Some(0);
    }
    words
}

fn command(caller: u8, word: u32) -> Register {
    Register::Command { caller, word }
}

fn response(caller: u8, word: u32) -> Register {
    Register::Response { caller, word }
}

#[test]
fn callers_are_0_to_7() {
    whole(Mailbox::of(vec![post(7, 0)], Register::Idle, NO_WORDS));
    broken(Mailbox::of(vec![post(8, 0)], Register::Idle, NO_WORDS));
    broken(Mailbox::of(vec![post(255, 0)], Register::Idle, NO_WORDS));
    whole(Mailbox::of(vec![], command(7, 0), NO_WORDS));
    broken(Mailbox::of(vec![], command(8, 0), NO_WORDS));
    whole(Mailbox::of(vec![], response(7, 0), NO_WORDS));
    broken(Mailbox::of(vec![], response(8, 0), NO_WORDS));
}

#[test]
fn a_caller_is_found_once() {
    let line = |callers: &[u8]| callers.iter().map(|c| post(*c, 0)).collect::<Vec<_>>();
    whole(Mailbox::of(line(&[1, 2]), command(0, 0), words_of(&[3])));
    broken(Mailbox::of(line(&[1, 1]), Register::Idle, NO_WORDS));
    broken(Mailbox::of(line(&[1, 2, 1]), Register::Idle, NO_WORDS));
    broken(Mailbox::of(line(&[1]), command(1, 0), NO_WORDS));
    broken(Mailbox::of(line(&[1]), response(1, 0), NO_WORDS));
    broken(Mailbox::of(line(&[1]), Register::Idle, words_of(&[1])));
    broken(Mailbox::of(vec![], command(1, 0), words_of(&[1])));
    broken(Mailbox::of(vec![], response(1, 0), words_of(&[1])));
    let all = [0, 1, 2, 3, 4, 5, 6, 7];
    whole(Mailbox::of(line(&all), Register::Idle, NO_WORDS));
    broken(Mailbox::of(line(&all), response(0, 0), NO_WORDS));
    whole(Mailbox::of(line(&all[1..]), response(0, 0), NO_WORDS));
    whole(Mailbox::of(vec![], Register::Idle, [Some(0); 8]));
}

#[test]
fn commands_are_at_most_0x3ff_in_line_and_register() {
    whole(Mailbox::of(vec![post(1, 0x3FF)], Register::Idle, NO_WORDS));
    broken(Mailbox::of(vec![post(1, 0x400)], Register::Idle, NO_WORDS));
    let last = vec![post(1, 0), post(2, 0xFFFF)];
    broken(Mailbox::of(last, Register::Idle, NO_WORDS));
    whole(Mailbox::of(vec![], command(1, 0x03FF_FFFF), NO_WORDS));
    for bit in 26..32 {
        broken(Mailbox::of(vec![], command(1, 1 << bit), NO_WORDS));
        whole(Mailbox::of(vec![], response(1, 1 << bit), NO_WORDS));
    }
    whole(Mailbox::of(vec![], response(1, u32::MAX), NO_WORDS));
    whole(Mailbox::of(vec![], response(1, 0), NO_WORDS));
}

#[test]
fn a_mark_without_a_post_and_a_post_without_a_mark_break_the_rules() {
    let mut mailbox = Mailbox::fresh();
    mailbox.places[5] = Place::Waiting;
    broken(mailbox);
    let mut mailbox = Mailbox::of(vec![post(5, 0)], Register::Idle, NO_WORDS);
    whole(mailbox.clone());
    mailbox.places[5] = Place::Free;
    broken(mailbox);
}

#[test]
fn nothing_is_asked_of_the_firmware() {
    let mut mailbox = Mailbox::fresh();
    mailbox.firmware.held = [Some(1), Some(2), Some(3)];
    mailbox.firmware.delivery = [true; IDS];
    whole(mailbox);
}

#[test]
fn the_places_of_any_mailbox() {
    let mut words = NO_WORDS;
    words[1] = Some(11);
    words[4] = Some(44);
    let mailbox = Mailbox::of(
        vec![post(1, 0), post(9, 0), post(2, 0)],
        command(3, 0),
        words,
    );
    let expected = [
        Place::Free,
        Place::Ready(11),
        Place::Waiting,
        Place::Waiting,
        Place::Ready(44),
        Place::Free,
        Place::Free,
        Place::Free,
    ];
    assert_eq!(mailbox.places, expected);
    assert_eq!(mailbox.firmware, Firmware::fresh());
}

#[test]
fn any_response_word_is_unloaded_as_it_is() {
    let mut mailbox = Mailbox::of(vec![], response(1, 0x1234_5678), NO_WORDS);
    assert_eq!(mailbox.turn(), Ok(false));
    assert_eq!(mailbox.unload(), Ok(true));
    assert_eq!(mailbox.take(1), Ok(0x1234_5678));
}
