//! How much stack each call of the library takes at its deepest.
//!
//! A call is made in a thread whose stack is memory of this program, every word of it a mark before. Once the thread has ended,
//! the lowest word that is a mark no longer shows how deep the call went. An empty call with the same arguments shows where it
//! began.

use crate::programs::{Plain, Program};
use crate::rows::COMMANDS;
use crate::samples;
use bindings::Refusal;
use std::ffi::c_void;
use std::ptr;

/// The stack of the thread in words. It is many times what any call takes, since nothing guards its end.
const LENGTH: usize = 2 << 17;
/// What each word of it is before the call.
const MARK: u64 = 0xA5C3_5A3C_96F0_690F;
/// How many bytes below the thread's first frames a call is made: what starts and ends a thread goes less deep.
const ROOM: usize = 1 << 16;
/// What an empty call takes: the address where it returns to.
const EMPTY: usize = 8;

/// How the C library starts a thread. The form is that of x86-64.
#[repr(C)]
struct Attributes([u64; 7]);

extern "C" {
    fn pthread_attr_init(attributes: *mut Attributes) -> i32;
    fn pthread_attr_setstack(attributes: *mut Attributes, stack: *mut c_void, len: usize) -> i32;
    fn pthread_attr_destroy(attributes: *mut Attributes) -> i32;
    fn pthread_create(
        thread: *mut u64,
        attributes: *const Attributes,
        start: extern "C" fn(*mut c_void) -> *mut c_void,
        given: *mut c_void,
    ) -> i32;
    fn pthread_join(thread: u64, answer: *mut *mut c_void) -> i32;
}

/// What one call took.
pub struct Depth {
    pub call: &'static str,
    /// What it was given.
    pub given: &'static str,
    /// In bytes, the address where it returns to with them.
    pub bytes: usize,
}

/// What the thread does: it makes a call of form `F`, and keeps the answer.
struct Job<'a, F> {
    make: &'a mut dyn FnMut(F) -> u64,
    call: F,
    answer: u64,
    /// The lowest address of the room above the call.
    room: *const u8,
}

extern "C" fn start<F: Copy>(given: *mut c_void) -> *mut c_void {
    // SAFETY: `lowest_of` gives its job, and waits until this thread has ended.
    make_below_room(unsafe { &mut *given.cast::<Job<F>>() });
    ptr::null_mut()
}

#[inline(never)]
fn make_below_room<F: Copy>(job: &mut Job<F>) {
    let room = [0; ROOM];
    // Whoever is called could look at the room through the job, so the compiler keeps it.
    job.room = room.as_ptr();
    job.answer = (job.make)(job.call);
}

/// Makes a call in a thread with this stack, marked before. Gives its answer, and the place of the lowest word that was written.
fn lowest_of<F: Copy>(
    stack: &mut [u64],
    call: F,
    make: &mut dyn FnMut(F) -> u64,
) -> Result<(u64, usize), String> {
    stack.fill(MARK);
    let length = std::mem::size_of_val(stack);
    let mut job = Job {
        make,
        call,
        answer: 0,
        room: ptr::null(),
    };
    let mut attributes = Attributes([0; 7]);
    let mut thread = 0;
    // SAFETY: the stack, the attributes and the job live until the thread has ended, and nothing else uses them meanwhile.
    let failed = unsafe {
        pthread_attr_init(&mut attributes) != 0
            || pthread_attr_setstack(&mut attributes, stack.as_mut_ptr().cast(), length) != 0
            || pthread_create(
                &mut thread,
                &attributes,
                start::<F>,
                ptr::addr_of_mut!(job).cast(),
            ) != 0
            || pthread_join(thread, ptr::null_mut()) != 0
            || pthread_attr_destroy(&mut attributes) != 0
    };
    if failed {
        return Err("a thread with a stack of its own cannot be started".into());
    }
    match stack.iter().position(|word| *word != MARK) {
        Some(0) => Err(format!("a stack of {length} bytes was used up")),
        Some(lowest) if stack[lowest..].as_ptr().cast() < job.room => Ok((job.answer, lowest)),
        _ => Err("a call left no trace on its stack, so that nothing was measured".into()),
    }
}

/// The bytes of stack that a call takes. It must answer the number that is expected: a call that is refused early takes less.
fn bytes_of<F: Copy>(
    name: &str,
    [library, empty]: [F; 2],
    make: &mut dyn FnMut(F) -> u64,
    expected: u64,
) -> Result<usize, String> {
    // One stack for both: where in it a thread begins depends on the stack's address.
    let mut stack = vec![0; LENGTH];
    let (_, began) = lowest_of(&mut stack, empty, make)?;
    let (answer, lowest) = lowest_of(&mut stack, library, make)?;
    if answer != expected {
        return Err(format!(
            "{name} answered {answer} and not {expected}, so its stack says nothing"
        ));
    }
    Ok(EMPTY + 8 * (began - lowest))
}

/// What an exported call takes, given the type and the value of each argument, the number that it must answer, and what the
/// arguments are. A slice is lent as a pointer and a length, both of one value. The call and the empty one are made by one piece
/// of code, so that they begin at the same depth.
macro_rules! depth_of {
    ($call:ident(
        $($(&mut [$written:ty])? $(&[$read:ty])? $($number:ident)?: $value:expr),*
    ) answers $expected:expr, $given:expr) => {{
        type Call = unsafe extern "C" fn($($(*mut $written, usize)? $(*const $read, usize)? $($number)?),*) -> u64;
        extern "C" {
            fn $call($($(_: *mut $written, _: usize)? $(_: *const $read, _: usize)? $(_: $number)?),*) -> u64;
        }
        extern "C" fn empty($($(_: *mut $written, _: usize)? $(_: *const $read, _: usize)? $(_: $number)?),*) -> u64 {
            0
        }
        // SAFETY: the arguments are lent slices and numbers, as `kpalumere.h` has them. What it asks of slices, those of Rust
        // are; and each that is written is of a value that no other argument is of.
        let mut make = |call: Call| unsafe {
            call($(
                $(<[$written]>::as_mut_ptr(&mut $value), <[$written]>::len(&$value))?
                $(<[$read]>::as_ptr(&$value), <[$read]>::len(&$value))?
                $({ let number: $number = $value; number })?
            ),*)
        };
        let call = stringify!($call);
        let bytes = bytes_of(call, [$call as Call, empty], &mut make, $expected)?;
        Depth { call, given: $given, bytes }
    }};
}

/// Measures every exported call.
pub fn measure() -> Result<Vec<Depth>, String> {
    let mut all = walks()?;
    all.extend(flash()?);
    all.extend(tables()?);
    all.extend(mailbox()?);
    Ok(all)
}

/// An image whose levels have 512 entries each, where those of level one that `leads` picks, at most 256, lead to level two.
fn board(leads: fn(usize) -> bool) -> Vec<u8> {
    let mut one = samples::mixed_entries(512, 0);
    let mut subprograms = 0..=u8::MAX;
    for (i, entry) in one.iter_mut().enumerate() {
        if leads(i) {
            let subprogram = subprograms.next();
            *entry = samples::lead_with(subprogram.expect("at most 256 entries lead"));
        }
    }
    samples::image(samples::LONGEST, &one, &samples::mixed_entries(512, 1))
}

/// The same, where the last entry of level two repeats the one before it.
fn board_that_repeats(leads: fn(usize) -> bool) -> Vec<u8> {
    let mut two = samples::mixed_entries(512, 1);
    two[511].class = two[510].class;
    two[511].subprogram = two[510].subprogram;
    let bytes = samples::directory_bytes(b"$PL2", &two);
    let mut image = board(leads);
    image[samples::LEVEL_TWO..][..bytes.len()].copy_from_slice(&bytes);
    image
}

const LAST_LEADS: fn(usize) -> bool = |i| i == 511;
/// No more of them can lead: each has a subprogram of its own.
const EVERY_SECOND_LEADS: fn(usize) -> bool = |i| i % 2 == 0;

fn walks() -> Result<Vec<Depth>, String> {
    let boards: [(&'static str, fn(usize) -> bool); 3] = [
        ("a miss, the last of 512 entries leads to 512", LAST_LEADS),
        ("a miss, the first of 512 entries leads to 512", |i| i == 0),
        ("a miss, 256 of 512 entries lead to 512", EVERY_SECOND_LEADS),
    ];
    let mut depths = Vec::new();
    for (given, leads) in boards {
        let (image, mut words) = (board(leads), [0; 4]);
        let miss = depth_of!(kpalumere_find_image(&[u8]: image, u8: samples::MISSING, u8: 0, &mut [u64]: words)
            answers Refusal::ABSENT, given);
        depths.push(miss);
    }
    for (given, leads) in [
        ("an image, the last of 512 entries leads to 512", LAST_LEADS),
        (
            "an image, 256 of 512 entries lead to 512",
            EVERY_SECOND_LEADS,
        ),
    ] {
        let (image, mut words) = (board(leads), [0; 1 + 4 * 257]);
        let all =
            depth_of!(kpalumere_directories(&[u8]: image, &mut [u64]: words) answers 0, given);
        depths.push(all);
    }
    Ok(depths)
}

fn flash() -> Result<Vec<Depth>, String> {
    let (image, place) = (board(LAST_LEADS), samples::LEVEL_TWO);
    let given = "level two of 512 entries, to which the last of 512 leads";
    let repeats = board_that_repeats(LAST_LEADS);
    let repeated = "the same, where the last entry repeats the one before it";
    let viewed = "a directory of 512 entries";
    let summed = &image[place + 8..][..8 + 16 * 512];
    let mut binary = [0; 256];
    binary[0x10..0x14].copy_from_slice(b"$PS1");
    let mut entries = samples::mixed_entries(512, 1);
    let last = entries.pop().expect("there are 512");
    let mut buffer = samples::directory_bytes(b"$PL2", &entries);
    buffer.extend([0; 16]);
    let mut words = [0; 5];
    let mut words_for_all = [0; 3 + 8 * 512];
    Ok(vec![
        depth_of!(kpalumere_efs(&[u8]: image, &mut [u64]: words) answers 0, "an image"),
        depth_of!(kpalumere_pointer(&[u8]: image, &mut [u64]: words) answers 0, "an image"),
        depth_of!(kpalumere_directory(&[u8]: image, u32: 2, &mut [u64]: words) answers 0, given),
        depth_of!(kpalumere_repeated(&[u8]: repeats, u32: 2, &mut [u64]: words) answers 0, repeated),
        depth_of!(kpalumere_entry(&[u8]: image, u32: 2, u64: 511, &mut [u64]: words) answers 0, given),
        depth_of!(kpalumere_part(&[u8]: image, u32: 2, u64: 511, &mut [u64]: words) answers 0, given),
        depth_of!(kpalumere_find(&[u8]: image, u32: 2, u8: samples::MISSING, u8: 0, &mut [u64]: words)
            answers Refusal::ABSENT, given),
        depth_of!(kpalumere_view(&[u8]: image, u32: 2, &mut [u64]: words) answers 0, given),
        depth_of!(kpalumere_view_entry(&[u8]: image, usize: place, usize: 511, &mut [u64]: words) answers 0, viewed),
        depth_of!(kpalumere_view_part(&[u8]: image, usize: place, usize: 511, &mut [u64]: words) answers 0, viewed),
        depth_of!(kpalumere_view_entries(&[u8]: image, usize: place, &mut [u64]: words_for_all) answers 0, viewed),
        depth_of!(kpalumere_wrong(&[u8]: repeats, usize: place, u32: 2, usize: 511, &mut [u64]: words) answers 0,
            "a directory of 512 entries, of which the last repeats the one before it"),
        depth_of!(kpalumere_checksum(&[u8]: summed, &mut [u64]: words) answers 0, viewed),
        depth_of!(kpalumere_version(&[u8]: binary, &mut [u64]: words) answers 0, "a header"),
        depth_of!(kpalumere_entry_version(&[u8]: image, u32: 2, u64: 511, &mut [u64]: words) answers Refusal::SIGNATURE, given),
        depth_of!(kpalumere_view_version(&[u8]: image, usize: place, usize: 511, &mut [u64]: words)
            answers Refusal::SIGNATURE, viewed),
        depth_of!(kpalumere_extend(&mut [u8]: buffer, u8: last.class, u8: last.subprogram, u32: last.size, u64: last.location,
            u32: last.mode, &mut [u64]: words) answers 0, "a directory of 511 entries"),
        depth_of!(kpalumere_start(&mut [u8]: buffer, u32: 1) answers 0, "a buffer"),
    ])
}

fn tables() -> Result<Vec<Depth>, String> {
    let mut bytes = vec![0; 112];
    Plain::aspt_write(&mut bytes, &(&samples::aspt()).into()).expect("the table is good");
    let mut guest = samples::guest(511);
    let (added, data) = (u128::from_le_bytes(samples::guid(511).0), [0; 8]);
    let mut words = [0; 22];
    let mut buffer = [0; 50];
    let given = "a table of 512 entries";
    Ok(vec![
        // The words that are read are those that are written.
        depth_of!(kpalumere_aspt_read(&[u8]: bytes, &mut [u64]: words) answers 0, "a table"),
        depth_of!(kpalumere_aspt_write(&mut [u8]: bytes, &[u64]: words) answers 0, "a table"),
        depth_of!(kpalumere_guid_start(&mut [u8]: buffer) answers 0, "a buffer"),
        depth_of!(kpalumere_guid_extend(&mut [u8]: guest, u64: added as u64, u64: (added >> 64) as u64, &[u8]: data,
            &mut [u64]: words) answers 0, "a table of 511 entries"),
        depth_of!(kpalumere_guids(&[u8]: guest, &mut [u64]: words) answers 0, given),
        depth_of!(kpalumere_guid_find(&[u8]: guest, u64: added as u64, u64: (added >> 64) as u64, &mut [u64]: words)
            answers 0, given),
        depth_of!(kpalumere_guid_entry(&[u8]: guest, usize: 511, &mut [u64]: words) answers 0, given),
    ])
}

/// The calls on a mailbox, each with the most that it took of any command.
fn mailbox() -> Result<Vec<Depth>, String> {
    let (mut words, mut values) = ([0; 88], [0; 1]);
    let given = "eight callers at once, the deepest of all commands";
    let fresh = depth_of!(kpalumere_mailbox_fresh(&mut [u64]: words) answers 0, "88 words");
    let mut depths = vec![fresh];
    let mut commands = COMMANDS.iter().cycle();
    // Twice eight posts have each of the twelve commands among them.
    for _ in 0..2 {
        for caller in 0..8 {
            let word = *commands.next().expect("the commands go round");
            let post = depth_of!(kpalumere_post(&mut [u64]: words, &mut [u64]: values, u32: caller, u32: word >> 16,
                u16: word as u16) answers 0, given);
            keep_deepest(&mut depths, post);
        }
        for _ in 0..8 {
            let load =
                depth_of!(kpalumere_load(&mut [u64]: words, &mut [u64]: values) answers 0, given);
            keep_deepest(&mut depths, load);
            let turn =
                depth_of!(kpalumere_turn(&mut [u64]: words, &mut [u64]: values) answers 0, given);
            keep_deepest(&mut depths, turn);
            let unload =
                depth_of!(kpalumere_unload(&mut [u64]: words, &mut [u64]: values) answers 0, given);
            keep_deepest(&mut depths, unload);
        }
        for caller in 0..8 {
            let take = depth_of!(kpalumere_take(&mut [u64]: words, &mut [u64]: values, u32: caller) answers 0, given);
            keep_deepest(&mut depths, take);
        }
    }
    Ok(depths)
}

/// Adds what a call took, or keeps the more of two where the call is there already.
fn keep_deepest(depths: &mut Vec<Depth>, depth: Depth) {
    match depths.iter_mut().find(|kept| kept.call == depth.call) {
        Some(kept) => kept.bytes = kept.bytes.max(depth.bytes),
        None => depths.push(depth),
    }
}

#[cfg(test)]
mod tests {
    use super::*;
    use std::collections::BTreeSet;

    /// A call that writes a frame of so many words.
    extern "C" fn deep<const WORDS: usize>(number: u64) -> u64 {
        let mut words = [0; WORDS];
        for word in &mut words {
            // SAFETY: a word of this frame. The compiler leaves no such write out.
            unsafe { ptr::write_volatile(word, number) };
        }
        number
    }

    extern "C" fn empty(_: u64) -> u64 {
        0
    }

    fn bytes_of_deep<const WORDS: usize>(expected: u64) -> Result<usize, String> {
        bytes_of::<extern "C" fn(u64) -> u64>(
            "deep",
            [deep::<WORDS>, empty],
            &mut |call| call(7),
            expected,
        )
    }

    #[test]
    fn the_stack_of_a_call_is_what_its_frame_takes() {
        let small = bytes_of_deep::<100>(7).expect("the call answers 7");
        assert!((800..1000).contains(&small), "{small}");
        let large = bytes_of_deep::<10_000>(7).expect("the call answers 7");
        assert!((80_000..80_200).contains(&large), "{large}");
    }

    #[test]
    fn an_empty_call_takes_the_address_where_it_returns_to() {
        let calls: [extern "C" fn(u64) -> u64; 2] = [empty, empty];
        assert_eq!(bytes_of("empty", calls, &mut |call| call(7), 0), Ok(EMPTY));
    }

    #[test]
    fn another_answer_than_the_expected_is_told() {
        let told = bytes_of_deep::<100>(8).expect_err("the call answers 7");
        assert!(told.contains("deep answered 7 and not 8"), "{told}");
    }

    #[test]
    fn every_call_of_the_header_is_measured() {
        let depths = measure().expect("every call answers what is expected of it");
        let measured: BTreeSet<&str> = depths.iter().map(|depth| depth.call).collect();
        // Nothing else in the header has the type of an answer at a line's start.
        let declarations = include_str!("../../kpalumere.h").split("\nuint64_t ");
        let names = declarations.skip(1).map(|rest| rest.split('(').next());
        assert_eq!(measured, names.flatten().collect());
    }
}
