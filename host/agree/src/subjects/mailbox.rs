//! Random calls on the mailbox, in long sequences, with the state of the firmware after each.

use super::draft::Draft;
use super::words::number;
use super::{Script, Subject};
use crate::random::Random;

pub const SUBJECT: Subject = Subject {
    name: "mailbox",
    script,
};

fn script(random: &mut Random, calls: u64) -> Script {
    let mut draft = Draft::default();
    if calls >= 2 * CALLS_FOR_EVERY_ID && random.once_in(2) {
        use_every_id(random, &mut draft);
    }
    while draft.len() + CALLS_TO_EMPTY < calls {
        match random.below(3) {
            0 => draft.ask(random, "mailbox"),
            1 => {
                let call = described(random);
                draft.ask(random, call);
            }
            _ => {}
        }
        let rounds = random.one_of(&[2, 6, 20]);
        match random.below(5) {
            0 | 1 => (0..rounds).for_each(|_| round(random, &mut draft)),
            2 | 3 => (0..rounds).for_each(|_| any_call(random, &mut draft)),
            _ => all_callers(random, &mut draft),
        }
        if random.once_in(6) {
            empty(&mut draft);
        }
    }
    empty(&mut draft);
    draft.script()
}

/// A call, and mostly what the firmware's state is after it: a turn alone may change it.
fn ask(random: &mut Random, draft: &mut Draft, call: &str) {
    draft.ask(random, call);
    if call == "turn" || random.once_in(3) {
        draft.ask(random, "firmware");
    }
}

/// Takes all posts to their ends, so that whatever the mailbox held is seen.
fn empty(draft: &mut Draft) {
    for _ in 0..9 {
        for step in ["load", "turn", "unload"] {
            draft.line(step);
        }
    }
    for caller in 0..8 {
        draft.line(format!("take {caller}"));
    }
    draft.line("firmware");
}

/// How many calls [`empty`] makes, and how many [`use_every_id`] makes at least.
const CALLS_TO_EMPTY: u64 = 36;
const CALLS_FOR_EVERY_ID: u64 = 5 * 64 * 4;

/// Saves a descriptor under each ID and turns most deliveries on, in one mailbox.
fn use_every_id(random: &mut Random, draft: &mut Draft) {
    draft.line("mailbox");
    let mut ids: Vec<u64> = (0..64).collect();
    random.shuffle(&mut ids);
    for id in &ids {
        let mut parts = [0x82, 0x83, 0x84];
        random.shuffle(&mut parts);
        for part in parts {
            let data = id << 10 | random.below(0x400);
            serve(random, draft, part, data);
        }
    }
    serve(random, draft, 0x80, 0);
    random.shuffle(&mut ids);
    for id in &ids {
        let on = u64::from(!random.once_in(8));
        serve(random, draft, 0x85, id << 10 | on);
    }
    draft.line("firmware");
}

/// A post of any caller, served at once and taken.
fn serve(random: &mut Random, draft: &mut Draft, command: u64, data: u64) {
    let caller = random.below(8);
    draft.line(format!("post {caller} {command} {data}"));
    for step in ["load", "turn", "unload"] {
        draft.line(step);
    }
    draft.line(format!("take {caller}"));
}

/// Every caller posts, one of them twice; then all are served, and take their words in another order.
fn all_callers(random: &mut Random, draft: &mut Draft) {
    let mut callers: Vec<u64> = (0..8).collect();
    random.shuffle(&mut callers);
    let again = random.below(8);
    for caller in callers.iter().chain([&again]) {
        let (command, data) = command(random);
        draft.line(format!("post {caller} {} {data}", command & 0x3FF));
    }
    random.shuffle(&mut callers);
    for caller in callers {
        for step in ["load", "turn", "unload"] {
            ask(random, draft, step);
        }
        let call = format!("take {caller}");
        ask(random, draft, &call);
    }
}

/// One call of any kind.
fn any_call(random: &mut Random, draft: &mut Draft) {
    let call = match random.below(8) {
        0 | 1 => post(random),
        2 => "load".to_string(),
        3 => "turn".to_string(),
        4 => "unload".to_string(),
        5 => described(random),
        _ => format!("take {}", caller(random)),
    };
    ask(random, draft, &call);
}

/// Posts, then the steps that serve one of them, then takes: each in its order, mostly.
fn round(random: &mut Random, draft: &mut Draft) {
    for _ in 0..random.one_of(&[0, 1, 1, 1, 2, 5]) {
        let call = post(random);
        ask(random, draft, &call);
    }
    for step in ["load", "turn", "unload"] {
        match random.below(16) {
            0 => {}
            1 => any_call(random, draft),
            2 => {
                ask(random, draft, step);
                ask(random, draft, step);
            }
            _ => ask(random, draft, step),
        }
    }
    for _ in 0..random.one_of(&[0, 1, 2, 2, 8]) {
        let call = format!("take {}", caller(random));
        ask(random, draft, &call);
    }
}

/// A caller, mostly one that there is.
fn caller(random: &mut Random) -> String {
    let caller = match random.below(24) {
        0 => random.one_of(&[8, 9, 256, 0x1_0000, 0xFFFF_FFFF]),
        _ => random.below(8),
    };
    number(random, caller)
}

/// A post whose command mostly does something.
fn post(random: &mut Random) -> String {
    let (command, data) = command(random);
    let caller = caller(random);
    let command = number(random, command);
    format!("post {caller} {command} {}", number(random, data))
}

/// A command and its data. The IDs that they speak of are mostly few, so that they meet.
fn command(random: &mut Random) -> (u64, u64) {
    let any_id = random.below(64);
    let id = random.one_of(&[0, 1, 2, 31, 63, any_id]) << 10;
    let any = random.below(0x1_0000);
    match random.below(24) {
        0 => (0x80, any),
        1 | 2 => (0x81, any),
        3..=6 => (0x82, any),
        7..=10 => (0x83, any),
        11..=14 => (0x84, id | random.below(0x400)),
        15..=18 => (0x85, id | random.below(2)),
        19 => (0x85, id | 1 << random.below(10)),
        20 => (0x86, any),
        21 => (random.one_of(&[0, 0x3FF, 0x7F, 0x180, 0x280]), any),
        22 => (random.one_of(&[0x400, 0x480, 0x1_0080, 0xFFFF_FFFF]), any),
        _ => (random.below(0x400), any),
    }
}

/// A call that describes a mailbox: mostly one that keeps the rules.
fn described(random: &mut Random) -> String {
    let mut callers = Callers::random(random);
    let posts = random.one_of(&[0, 0, 1, 2, 3, 6, 8, 9]);
    let posts = (0..posts).map(|_| described_post(random, &mut callers));
    let posts = posts.collect();
    let register = described_register(random, &mut callers);
    let places = (0..random.one_of(&[0, 0, 1, 2])).map(|_| {
        let word = random.below(1 << 32) >> random.below(32);
        let caller = callers.next(random, 8);
        format!("{}:{}", number(random, caller), number(random, word))
    });
    let places = places.collect();
    let (line, places) = (listed(random, posts), listed(random, places));
    format!("mailbox-of {line} {register} {places}")
}

/// A post in a mailbox that is described.
fn described_post(random: &mut Random, callers: &mut Callers) -> String {
    let caller = callers.next(random, 255);
    let (command, data) = command(random);
    let command = match random.below(50) {
        0 => random.one_of(&[0x400, 0xFFFF]),
        _ => command & 0x3FF,
    };
    let fields = [caller, command, data];
    fields.map(|value| number(random, value)).join(":")
}

/// The register of a mailbox that is described.
fn described_register(random: &mut Random, callers: &mut Callers) -> String {
    let (phase, word) = match random.below(4) {
        0 | 1 => return "idle".to_string(),
        2 => {
            let (command, data) = command(random);
            let above = u64::from(random.once_in(20)) << (26 + random.below(6));
            ("command", (command & 0x3FF) << 16 | data | above)
        }
        _ => ("response", random.below(1 << 32)),
    };
    let caller = callers.next(random, 255);
    format!(
        "{phase}:{}:{}",
        number(random, caller),
        number(random, word)
    )
}

/// Callers for a mailbox that is described, in a random order.
struct Callers {
    left: Vec<u64>,
}

impl Callers {
    fn random(random: &mut Random) -> Callers {
        let mut left: Vec<u64> = (0..8).collect();
        random.shuffle(&mut left);
        Callers { left }
    }

    /// One that was not named before, mostly; else one that is named again, or that is no caller.
    fn next(&mut self, random: &mut Random, most: u64) -> u64 {
        match random.below(60) {
            0 => random.below(8),
            1 => random.one_of(&[7, 8, 9, most]).min(most),
            _ => self.left.pop().unwrap_or(0),
        }
    }
}

/// Items as a word of the language; once in a while as one that is none.
fn listed(random: &mut Random, items: Vec<String>) -> String {
    match items.is_empty() {
        true => "-".to_string(),
        false if random.once_in(60) => items.join(",") + ",",
        false => items.join(","),
    }
}
