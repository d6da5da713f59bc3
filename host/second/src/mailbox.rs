//! ACPI mailbox: the CmdResp word, a model of the firmware behind it, eight callers before it.

use crate::refusal::{require, Refusal};
use std::collections::VecDeque;

/// How many callers there are, and so places.
pub const CALLERS: usize = 8;
/// How many descriptors may be saved: the IDs 0 to 63.
pub const IDS: usize = 64;
/// The largest command: ten bits.
const LARGEST_COMMAND: u32 = 0x3FF;

/// A word of the CmdResp register: bit 31 says response, 30:26 status, 25:16 command, 15:0 data.
fn response_word(status: u32, command: u32, data: u16) -> u32 {
    (1 << 31) | (status << 26) | (command << 16) | u32::from(data)
}

/// The firmware behind the mailbox.
#[derive(Clone, Debug, PartialEq, Eq)]
pub struct Firmware {
    pub interface_on: bool,
    /// Parts 1 to 3 of a descriptor, those that are held.
    pub held: [Option<u16>; 3],
    /// For each ID the three parts of its saved descriptor.
    pub saved: [Option<[u16; 3]>; IDS],
    /// For each ID whether delivery is on.
    pub delivery: [bool; IDS],
}

impl Firmware {
    const DISABLE_INTERFACE: u32 = 0x80;
    const QUERY_INTERFACE: u32 = 0x81;
    const SET_PART_1: u32 = 0x82;
    const SET_PART_2: u32 = 0x83;
    const SET_PART_3: u32 = 0x84;
    const ENABLE_DELIVERY: u32 = 0x85;

    const SUCCESS: u32 = 0;
    const INVALID_COMMAND: u32 = 1;
    const INVALID_PARAMETER: u32 = 2;
    const INVALID_STATE: u32 = 3;
    const FAILURE: u32 = 0x1F;

    /// The interface on, nothing held or saved, no delivery.
    pub fn fresh() -> Firmware {
        Firmware {
            interface_on: true,
            held: [None; 3],
            saved: [None; IDS],
            delivery: [false; IDS],
        }
    }

    /// Carries out the command in bits 25:16 of a command word and gives the response word.
    pub fn respond(&mut self, word: u32) -> u32 {
        let command = (word >> 16) & LARGEST_COMMAND;
        let data = word as u16;
        // the answer's data are the command's, but for the query
        let mut answer = data;
        let status = match command {
            Firmware::DISABLE_INTERFACE => {
                self.interface_on = false;
                Firmware::SUCCESS
            }
            Firmware::QUERY_INTERFACE => {
                answer = u16::from(self.interface_on);
                Firmware::SUCCESS
            }
            Firmware::SET_PART_1 => self.hold(0, data),
            Firmware::SET_PART_2 => self.hold(1, data),
            Firmware::SET_PART_3 => self.hold(2, data),
            Firmware::ENABLE_DELIVERY => self.set_delivery(data),
            _ => Firmware::INVALID_COMMAND,
        };
        response_word(status, command, answer)
    }

    /// Holds a part. Whichever part makes the descriptor whole, it is saved under the ID in part 3.
    fn hold(&mut self, part: usize, data: u16) -> u32 {
        self.held[part] = Some(data);
        if let [Some(part_1), Some(part_2), Some(part_3)] = self.held {
            self.saved[id_of(part_3)] = Some([part_1, part_2, part_3]);
            self.held = [None; 3];
        }
        Firmware::SUCCESS
    }

    /// Turns delivery on or off for the ID in the data.
    fn set_delivery(&mut self, data: u16) -> u32 {
        if self.interface_on {
            return Firmware::INVALID_STATE;
        }
        // bits 9:1
        if data & 0x03FE != 0 {
            return Firmware::FAILURE;
        }
        if self.saved[id_of(data)].is_none() {
            return Firmware::INVALID_PARAMETER;
        }
        self.delivery[id_of(data)] = data & 1 == 1;
        Firmware::SUCCESS
    }
}

/// The ID in bits 15:10.
fn id_of(data: u16) -> usize {
    usize::from(data >> 10)
}

/// An accepted post. The fields are wide enough for posts that no mailbox would accept.
#[derive(Clone, Copy, Debug, PartialEq, Eq)]
pub struct Post {
    pub caller: u8,
    pub command: u16,
    pub data: u16,
}

/// The register.
#[derive(Clone, Copy, Debug, PartialEq, Eq)]
pub enum Register {
    Idle,
    Command { caller: u8, word: u32 },
    Response { caller: u8, word: u32 },
}

/// The place of one caller.
#[derive(Clone, Copy, Debug, PartialEq, Eq)]
pub enum Place {
    /// No post of the caller is untaken.
    Free,
    /// The caller's post is in the line or in the register.
    Waiting,
    /// The caller's response has been unloaded.
    Ready(u32),
}

/// The mailbox.
#[derive(Clone, Debug, PartialEq, Eq)]
pub struct Mailbox {
    /// The posts not yet loaded, oldest first.
    pub line: VecDeque<Post>,
    pub register: Register,
    pub places: [Place; CALLERS],
    pub firmware: Firmware,
}

impl Mailbox {
    /// Nothing posted, the register idle, fresh firmware.
    pub fn fresh() -> Mailbox {
        Mailbox {
            line: VecDeque::new(),
            register: Register::Idle,
            places: [Place::Free; CALLERS],
            firmware: Firmware::fresh(),
        }
    }

    /// Any mailbox, also one that breaks the rules, with fresh firmware. The places are those of
    /// `ready`; a caller in line or register that has no word there waits, any other is free.
    pub fn of(line: Vec<Post>, register: Register, ready: [Option<u32>; CALLERS]) -> Mailbox {
        let mut mailbox = Mailbox {
            line: line.into(),
            register,
            places: [Place::Free; CALLERS],
            firmware: Firmware::fresh(),
        };
        for caller in mailbox.callers_on_the_way() {
            if let Some(place) = mailbox.places.get_mut(usize::from(caller)) {
                *place = Place::Waiting;
            }
        }
        for (place, word) in mailbox.places.iter_mut().zip(ready) {
            if let Some(word) = word {
                *place = Place::Ready(word);
            }
        }
        mailbox
    }

    /// The callers in line and register, each as often as it is found there.
    fn callers_on_the_way(&self) -> Vec<u8> {
        let mut callers: Vec<u8> = self.line.iter().map(|post| post.caller).collect();
        match self.register {
            Register::Idle => {}
            Register::Command { caller, .. } => callers.push(caller),
            Register::Response { caller, .. } => callers.push(caller),
        }
        callers
    }

    /// Whether the rules that document 01 names hold; any other mailbox is 5 in every call.
    fn check_consistent(&self) -> Result<(), Refusal> {
        // commands in line and register; bits 31:26 of a command word make its command larger
        for post in &self.line {
            require(u32::from(post.command) <= LARGEST_COMMAND, 5)?;
        }
        if let Register::Command { word, .. } = self.register {
            require(word >> 16 <= LARGEST_COMMAND, 5)?;
        }
        // callers 0 to 7 alone
        let mut found = [0; CALLERS];
        for caller in self.callers_on_the_way() {
            require(usize::from(caller) < CALLERS, 5)?;
            found[usize::from(caller)] += 1;
        }
        // one that waits is found once in line or register, any other nowhere
        for (place, found) in self.places.iter().zip(found) {
            let expected = if *place == Place::Waiting { 1 } else { 0 };
            require(found == expected, 5)?;
        }
        Ok(())
    }

    /// A caller's post joins the line's end.
    pub fn post(&mut self, caller: u32, command: u32, data: u16) -> Result<(), Refusal> {
        self.check_consistent()?;
        // caller
        require(caller < CALLERS as u32, 9)?;
        // command
        require(command <= LARGEST_COMMAND, 9)?;
        // no post of this caller still untaken
        require(self.places[caller as usize] == Place::Free, 10)?;
        self.places[caller as usize] = Place::Waiting;
        self.line.push_back(Post {
            caller: caller as u8,
            command: command as u16,
            data,
        });
        Ok(())
    }

    /// The oldest post enters an idle register. Answers whether it did.
    pub fn load(&mut self) -> Result<bool, Refusal> {
        self.check_consistent()?;
        if self.register != Register::Idle {
            return Ok(false);
        }
        match self.line.pop_front() {
            Some(post) => {
                self.register = Register::Command {
                    caller: post.caller,
                    word: (u32::from(post.command) << 16) | u32::from(post.data),
                };
                Ok(true)
            }
            None => Ok(false),
        }
    }

    /// A command in the register becomes its response. Answers whether one did.
    pub fn turn(&mut self) -> Result<bool, Refusal> {
        self.check_consistent()?;
        match self.register {
            Register::Command { caller, word } => {
                let word = self.firmware.respond(word);
                self.register = Register::Response { caller, word };
                Ok(true)
            }
            _ => Ok(false),
        }
    }

    /// A response goes to its caller's place. Answers whether one did.
    pub fn unload(&mut self) -> Result<bool, Refusal> {
        self.check_consistent()?;
        match self.register {
            Register::Response { caller, word } => {
                self.places[usize::from(caller)] = Place::Ready(word);
                self.register = Register::Idle;
                Ok(true)
            }
            _ => Ok(false),
        }
    }

    /// The caller takes its word, and its place is free.
    pub fn take(&mut self, caller: u32) -> Result<u32, Refusal> {
        self.check_consistent()?;
        // caller
        require(caller < CALLERS as u32, 9)?;
        let place = &mut self.places[caller as usize];
        match *place {
            Place::Free => Err(Refusal::of(8)),
            Place::Waiting => Err(Refusal::of(11)),
            Place::Ready(word) => {
                *place = Place::Free;
                Ok(word)
            }
        }
    }
}

#[cfg(test)]
mod tests;
