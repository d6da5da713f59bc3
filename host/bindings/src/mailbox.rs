//! The mailbox: eight callers before the CmdResp word, and the firmware behind it, as words that are lent to each call.
//!
//! Between calls a mailbox is 88 words. Word by word:
//!
//! - 0: the register: 0 idle, 1 a command, 2 a response; 1: its caller; 2: its word (both 0 where it is idle)
//! - 3: how many posts are in the line
//! - 4: the interface: 1 on, 0 off
//! - 5 to 7: the parts 1 to 3: 0 for none, 2^16 + its value for one that is held
//! - 8 to 15: the line, the oldest post first: caller in bits 63:32, command in 31:16, data in 15:0
//! - 16 to 23: the places of callers 0 to 7: 0 free, 2^32 waiting, 2 * 2^32 + w for the word w
//! - 24 to 87: the IDs 0 to 63: bit 0 a descriptor is saved, bit 1 delivery is on, parts 1, 2, 3 in bits 31:16, 47:32, 63:48

use crate::answer::{answer_of, done_by, Answer};
use crate::exported::exported;
use std::ops::Range;

exported! {
    fn kpalumere_mailbox_fresh(words: &mut [u64]) -> u64;
    fn kpalumere_post(words: &mut [u64], values: &mut [u64], caller: u32, command: u32, data: u16) -> u64;
    fn kpalumere_load(words: &mut [u64], values: &mut [u64]) -> u64;
    fn kpalumere_turn(words: &mut [u64], values: &mut [u64]) -> u64;
    fn kpalumere_unload(words: &mut [u64], values: &mut [u64]) -> u64;
    fn kpalumere_take(words: &mut [u64], values: &mut [u64], caller: u32) -> u64;
}

/// How many words a mailbox takes.
pub(crate) const ALL: usize = 88;

// Where its parts stand among them.
const REGISTER: usize = 0;
const COUNT: usize = 3;
const INTERFACE: usize = 4;
const HELD: Range<usize> = 5..8;
const LINE: Range<usize> = 8..16;
const PLACES: Range<usize> = 16..24;
const INTERRUPTS: Range<usize> = 24..ALL;

/// A mailbox. Its words may break the rules: then every call on it is refused with 5.
#[derive(Clone, Debug, PartialEq, Eq)]
pub struct Mailbox {
    words: [u64; ALL],
}

/// A post in the line.
#[derive(Clone, Copy, Debug, PartialEq, Eq)]
pub struct Post {
    pub caller: u32,
    pub command: u16,
    pub data: u16,
}

/// What the register holds.
#[derive(Clone, Copy, Debug, PartialEq, Eq)]
pub enum Register {
    Idle,
    Command { caller: u32, word: u32 },
    Response { caller: u32, word: u32 },
}

/// A caller's place.
#[derive(Clone, Copy, Debug, PartialEq, Eq)]
pub enum CallerPlace {
    Free,
    /// The caller's post is in the line or in the register.
    Waiting,
    /// The word is there to be taken.
    Ready(u32),
}

/// The state of the firmware behind a mailbox.
#[derive(Clone, Debug, PartialEq, Eq)]
pub struct Firmware {
    /// Whether the interface is on.
    pub interface: bool,
    /// The parts 1 to 3, where they are held.
    pub held: [Option<u16>; 3],
    /// What is kept for each ID from 0 to 63.
    pub interrupts: Vec<Interrupt>,
}

/// What the firmware keeps for an ID.
#[derive(Clone, Copy, Debug, PartialEq, Eq)]
pub struct Interrupt {
    /// The parts 1 to 3 of the descriptor, where one is saved.
    pub descriptor: Option<[u16; 3]>,
    /// Whether delivery is on.
    pub delivery: bool,
}

impl Mailbox {
    /// A fresh mailbox before fresh firmware.
    #[inline]
    pub fn fresh() -> Mailbox {
        let mut words = [0; ALL];
        let number = kpalumere_mailbox_fresh(&mut words);
        assert_eq!(number, 0, "{ALL} words hold a mailbox");
        Mailbox { words }
    }

    /// The mailbox described, before fresh firmware. It need not keep the rules; the line has at most eight posts.
    pub fn of(line: &[Post], register: Register, places: [CallerPlace; 8]) -> Mailbox {
        assert!(line.len() <= LINE.len(), "a line has at most eight posts");
        let mut mailbox = Mailbox::fresh();
        let words = &mut mailbox.words;
        words[REGISTER..COUNT].copy_from_slice(&register_words(register));
        words[COUNT] = line.len() as u64;
        for (word, post) in words[LINE].iter_mut().zip(line) {
            *word = post_word(post);
        }
        for (word, place) in words[PLACES].iter_mut().zip(places) {
            *word = place_word(place);
        }
        mailbox
    }

    /// A caller's command with its data joins the line.
    #[inline]
    pub fn post(&mut self, caller: u32, command: u32, data: u16) -> Answer<()> {
        done_by(kpalumere_post(
            &mut self.words,
            &mut [],
            caller,
            command,
            data,
        ))
    }

    /// The oldest post enters an idle register. Answers whether it did.
    #[inline]
    pub fn load(&mut self) -> Answer<bool> {
        self.step(kpalumere_load)
    }

    /// A command in the register becomes its response. Answers whether it did.
    #[inline]
    pub fn turn(&mut self) -> Answer<bool> {
        self.step(kpalumere_turn)
    }

    /// A response goes to its caller's place. Answers whether it did.
    #[inline]
    pub fn unload(&mut self) -> Answer<bool> {
        self.step(kpalumere_unload)
    }

    /// A caller takes its word.
    #[inline]
    pub fn take(&mut self, caller: u32) -> Answer<u64> {
        answer_of(
            |values| kpalumere_take(&mut self.words, values, caller),
            |&[word]| word,
        )
    }

    /// The state of the firmware, as the words tell it.
    pub fn firmware(&self) -> Firmware {
        let held: Vec<Option<u16>> = self.words[HELD].iter().map(held_of).collect();
        Firmware {
            interface: self.words[INTERFACE] == 1,
            held: [held[0], held[1], held[2]],
            interrupts: self.words[INTERRUPTS].iter().map(interrupt_of).collect(),
        }
    }

    #[inline]
    fn step(&mut self, call: impl FnOnce(&mut [u64], &mut [u64]) -> u64) -> Answer<bool> {
        answer_of(
            |values| call(&mut self.words, values),
            |&[acted]| acted == 1,
        )
    }
}

fn register_words(register: Register) -> [u64; 3] {
    match register {
        Register::Idle => [0, 0, 0],
        Register::Command { caller, word } => [1, u64::from(caller), u64::from(word)],
        Register::Response { caller, word } => [2, u64::from(caller), u64::from(word)],
    }
}

fn post_word(post: &Post) -> u64 {
    u64::from(post.caller) << 32 | u64::from(post.command) << 16 | u64::from(post.data)
}

fn place_word(place: CallerPlace) -> u64 {
    match place {
        CallerPlace::Free => 0,
        CallerPlace::Waiting => 1 << 32,
        CallerPlace::Ready(word) => 2 << 32 | u64::from(word),
    }
}

/// The part that a word tells.
fn held_of(word: &u64) -> Option<u16> {
    (word >> 16 == 1).then_some(*word as u16)
}

/// What a word tells of its ID.
fn interrupt_of(word: &u64) -> Interrupt {
    let parts = [16, 32, 48].map(|bit| (word >> bit) as u16);
    Interrupt {
        descriptor: (word & 1 == 1).then_some(parts),
        delivery: word >> 1 & 1 == 1,
    }
}

#[cfg(test)]
mod tests {
    use super::*;
    use crate::answer::Refusal;

    /// Takes a command word through the mailbox for caller 0, and answers the word that comes back.
    fn round(mailbox: &mut Mailbox, word: u32) -> u64 {
        assert_eq!(mailbox.post(0, word >> 16, word as u16), Ok(()));
        assert_eq!(mailbox.load(), Ok(true));
        assert_eq!(mailbox.turn(), Ok(true));
        assert_eq!(mailbox.unload(), Ok(true));
        mailbox.take(0).unwrap()
    }

    /// A mailbox whose interface is off.
    fn interface_off() -> Mailbox {
        let mut mailbox = Mailbox::fresh();
        assert_eq!(round(&mut mailbox, 0x0080_0000), 0x8080_0000);
        mailbox
    }

    #[test]
    fn fresh_words_are_zero_but_for_the_interface() {
        let mut expected = [0; ALL];
        expected[INTERFACE] = 1;
        assert_eq!(Mailbox::fresh().words, expected);
        assert!(Mailbox::fresh().firmware().interface);
        assert_eq!(kpalumere_mailbox_fresh(&mut [7; ALL - 1]), 12);
        let mut words = [7; ALL + 1];
        assert_eq!(kpalumere_mailbox_fresh(&mut words), 0);
        assert_eq!((words[0], words[ALL]), (0, 7));
    }

    #[test]
    fn values_m3_to_m8() {
        let mut fresh = Mailbox::fresh();
        assert_eq!(round(&mut fresh, 0x0081_0000), 0x8081_0001);
        assert_eq!(round(&mut fresh, 0x0085_0401), 0x8C85_0401);
        assert_eq!(round(&mut fresh, 0x0086_0000), 0x8486_0000);
        let mut off = interface_off();
        assert!(!off.firmware().interface);
        assert_eq!(round(&mut off, 0x0085_0401), 0x8885_0401);
        assert_eq!(round(&mut off, 0x0085_0403), 0xFC85_0403);
        assert_eq!(round(&mut off, 0x0086_0000), 0x8486_0000);
    }

    #[test]
    fn the_firmwares_state_is_told() {
        let mut mailbox = interface_off();
        for word in [0x0084_FC03, 0x0082_1111] {
            round(&mut mailbox, word);
        }
        let held = mailbox.firmware().held;
        assert_eq!(held, [Some(0x1111), None, Some(0xFC03)]);
        round(&mut mailbox, 0x0083_2222);
        round(&mut mailbox, 0x0085_FC01);
        round(&mut mailbox, 0x0083_0000);
        let firmware = mailbox.firmware();
        assert_eq!(firmware.held, [None, Some(0), None]);
        let last = Interrupt {
            descriptor: Some([0x1111, 0x2222, 0xFC03]),
            delivery: true,
        };
        assert_eq!(
            (firmware.interrupts.len(), firmware.interrupts[63]),
            (64, last)
        );
        let others = &firmware.interrupts[..63];
        assert!(others
            .iter()
            .all(|id| id.descriptor.is_none() && !id.delivery));
    }

    #[test]
    fn a_caller_has_one_post_at_a_time() {
        let mut mailbox = Mailbox::fresh();
        assert_eq!(mailbox.take(8), Err(Refusal::alone(9)));
        assert_eq!(mailbox.take(7), Err(Refusal::alone(8)));
        assert_eq!(mailbox.post(8, 0, 0), Err(Refusal::alone(9)));
        assert_eq!(mailbox.post(7, 0x400, 0), Err(Refusal::alone(9)));
        assert_eq!(mailbox.post(7, 0x3FF, 0xFFFF), Ok(()));
        assert_eq!(mailbox.post(7, 0x3FF, 0), Err(Refusal::alone(10)));
        assert_eq!(mailbox.take(7), Err(Refusal::alone(11)));
        assert_eq!(mailbox.turn(), Ok(false));
        assert_eq!(mailbox.unload(), Ok(false));
        assert_eq!(mailbox.load(), Ok(true));
        assert_eq!(mailbox.load(), Ok(false));
    }

    #[test]
    fn a_mailbox_is_laid_out_as_the_library_lays_it_out() {
        let mut posted = Mailbox::fresh();
        for (caller, command) in [(3, 0x80), (7, 0x3FF), (0, 0x81)] {
            assert_eq!(posted.post(caller, command, 0xABCD), Ok(()));
        }
        assert_eq!(posted.load(), Ok(true));
        let post = |caller, command| Post {
            caller,
            command,
            data: 0xABCD,
        };
        let mut places = [CallerPlace::Free; 8];
        for caller in [0, 3, 7] {
            places[caller] = CallerPlace::Waiting;
        }
        let line = [post(7, 0x3FF), post(0, 0x81)];
        let command = Register::Command {
            caller: 3,
            word: 0x0080_ABCD,
        };
        assert_eq!(Mailbox::of(&line, command, places), posted);
        assert_eq!(posted.turn(), Ok(true));
        let off = posted.words[INTERFACE];
        let response = Register::Response {
            caller: 3,
            word: 0x8080_ABCD,
        };
        let mut described = Mailbox::of(&line, response, places);
        described.words[INTERFACE] = off;
        assert_eq!(described, posted);
        assert_eq!(posted.unload(), Ok(true));
        places[3] = CallerPlace::Ready(0x8080_ABCD);
        let mut described = Mailbox::of(&line, Register::Idle, places);
        described.words[INTERFACE] = off;
        assert_eq!(described, posted);
    }

    #[test]
    fn a_mailbox_that_breaks_the_rules_is_refused_and_kept() {
        let stray = Post {
            caller: 8,
            command: 0,
            data: 0,
        };
        let mut broken = Mailbox::of(&[stray], Register::Idle, [CallerPlace::Free; 8]);
        let kept = broken.clone();
        let refused = Refusal::alone(5);
        assert_eq!(broken.post(0, 0, 0), Err(refused));
        assert_eq!(broken.load(), Err(refused));
        assert_eq!(broken.turn(), Err(refused));
        assert_eq!(broken.unload(), Err(refused));
        assert_eq!(broken.take(9), Err(refused));
        assert_eq!(broken, kept);
    }

    #[test]
    fn a_place_and_its_post_belong_together_and_the_line_has_eight() {
        let post = Post {
            caller: 2,
            command: 0x81,
            data: 0,
        };
        let mut waits = [CallerPlace::Free; 8];
        waits[2] = CallerPlace::Waiting;
        let whole = Mailbox::of(&[post], Register::Idle, waits);
        let mark_alone = Mailbox::of(&[], Register::Idle, waits);
        let post_alone = Mailbox::of(&[post], Register::Idle, [CallerPlace::Free; 8]);
        let mut nine = whole.clone();
        nine.words[COUNT] = 9;
        for mut broken in [mark_alone, post_alone, nine] {
            let kept = broken.clone();
            assert_eq!(broken.load(), Err(Refusal::alone(5)));
            assert_eq!(broken, kept);
        }
        let mut unused_slot = whole;
        unused_slot.words[LINE.start + 1] = u64::MAX;
        assert_eq!(unused_slot.load(), Ok(true));
    }

    #[test]
    fn three_held_parts_are_allowed_and_saved_when_the_next_comes() {
        let mut mailbox = Mailbox::fresh();
        for (word, part) in mailbox.words[HELD].iter_mut().zip([1, 2, 0x400]) {
            *word = 0x1_0000 + part;
        }
        assert_eq!(round(&mut mailbox, 0x0083_0007), 0x8083_0007);
        let firmware = mailbox.firmware();
        assert_eq!(firmware.held, [None; 3]);
        assert_eq!(firmware.interrupts[1].descriptor, Some([1, 7, 0x400]));
    }

    #[test]
    fn words_that_are_no_mailbox_and_missing_room_change_nothing() {
        let mut words = Mailbox::of(&[], Register::Idle, [CallerPlace::Ready(3); 8]).words;
        let kept = words;
        let missing = &mut words[..ALL - 1];
        assert_eq!(kpalumere_take(missing, &mut [0], 0), 5);
        assert_eq!(kpalumere_take(&mut words, &mut [], 0), 12);
        assert_eq!(kpalumere_load(&mut words, &mut []), 12);
        assert_eq!(words, kept);
        words[REGISTER] = 3;
        assert_eq!(kpalumere_take(&mut words, &mut [0], 0), 5);
    }
}
