//! The library's functions as the headers declare them (`take-ledger/ledger.h`, `looking.h`,
//! `engine.h`, `notation.h`), for a program that lends its own buffers. What a caller owes stands
//! in `take-ledger/ledger_steps.h`; the rest of this crate owes it for you.

/// A part of the image: the `length` bytes from `offset` on.
#[repr(C)]
#[derive(Clone, Copy, Debug, PartialEq, Eq)]
pub struct Part {
    pub offset: usize,
    pub length: usize,
}

/// A window of a list of replies.
#[repr(C)]
#[derive(Clone, Copy, Debug, PartialEq, Eq)]
pub struct Window {
    pub count: usize,
    pub place: usize,
}

/// What rests on the present life of a take, volumes as their bits.
#[repr(C)]
#[derive(Clone, Copy, Debug, PartialEq, Eq)]
pub struct Resting {
    pub resting: u16,
    pub through: u16,
    pub unfinished: u16,
    pub carried: u16,
}

/// Why a volume can't be signed, in numbers.
#[repr(C)]
#[derive(Clone, Copy, Debug, PartialEq, Eq)]
pub struct Reason {
    pub kind: u8,
    pub take: u8,
    pub ground: u8,
}

/// Why no volume with a take could be signed, in numbers.
#[repr(C)]
#[derive(Clone, Copy, Debug, PartialEq, Eq)]
pub struct Cause {
    pub kind: u8,
    pub take: u8,
    pub ground: u8,
    pub next: u8,
}

/// For whom a step acts, in numbers.
#[repr(C)]
#[derive(Clone, Copy, Debug, PartialEq, Eq)]
pub struct Acting {
    pub kind: usize,
    pub takes: usize,
}

/// What a receipt would reply, in numbers.
#[repr(C)]
#[derive(Clone, Copy, Debug, PartialEq, Eq)]
pub struct Verdict {
    pub outcome: usize,
    pub take: usize,
}

/// Two marks compared, in numbers.
#[repr(C)]
#[derive(Clone, Copy, Debug, PartialEq, Eq)]
pub struct Compared {
    pub relation: u8,
    pub newer: u8,
}

/// What a byte of an image belongs to, in numbers.
#[repr(C)]
#[derive(Clone, Copy, Debug, PartialEq, Eq)]
pub struct Field {
    pub kind: u8,
    pub holder: u8,
    pub map: u8,
    pub ground: u8,
    pub entry: u8,
    pub byte: u8,
}

/// How many bytes were written, and the refusal or 0.
#[repr(C)]
#[derive(Clone, Copy, Debug, PartialEq, Eq)]
pub struct Given {
    pub length: usize,
    pub refusal: u8,
}

#[rustfmt::skip]
extern "C" {
    pub fn ledger_version() -> u32;
    pub fn ledger_begin(image: *mut u8, image_length: usize, takes: usize, parcels: usize, signings: usize) -> u8;
    pub fn ledger_run(
        image: *mut u8, image_length: usize, list: *const u8, list_length: usize, start: usize, end: usize,
        replies: *mut u8, replies_length: usize,
    ) -> u8;
    pub fn ledger_offer(image: *const u8, image_length: usize, take: usize, refusal: *mut u8) -> u16;
    pub fn ledger_smallest_group(image: *const u8, image_length: usize, take: usize, refusal: *mut u8) -> u16;
    pub fn ledger_ready_count(image: *const u8, image_length: usize, size: usize, refusal: *mut u8) -> usize;
    pub fn ledger_all_heard_stable(image: *const u8, image_length: usize, take: usize, refusal: *mut u8) -> u8;
    pub fn ledger_dependents(image: *const u8, image_length: usize, take: usize, refusal: *mut u8) -> Resting;
    pub fn ledger_obstacle(image: *const u8, image_length: usize, volume: usize, refusal: *mut u8) -> Reason;
    pub fn ledger_impediment(image: *const u8, image_length: usize, take: usize, refusal: *mut u8) -> Cause;
    pub fn ledger_actor(image: *const u8, image_length: usize, step: *const u8, step_length: usize, refusal: *mut u8) -> Acting;
    pub fn ledger_fault(image: *const u8, image_length: usize, at: *mut usize, clause: *mut u8) -> u8;
    pub fn ledger_plan(
        image: *const u8, image_length: usize, take: usize, out: *mut u8, out_length: usize, refusal: *mut u8,
    ) -> usize;
    pub fn ledger_thin(
        image: *const u8, image_length: usize, list: *const u8, list_length: usize, start: usize, end: usize,
        out: *mut u8, out_length: usize, refusal: *mut u8,
    ) -> usize;
    pub fn ledger_show(image: *const u8, image_length: usize, parcel: usize, refusal: *mut u8) -> Part;
    pub fn ledger_forward(source: *const u8, source_length: usize, target: *mut u8, target_length: usize) -> u8;
    pub fn ledger_back(source: *const u8, source_length: usize, target: *mut u8, target_length: usize) -> u8;
    pub fn ledger_worst_window(replies: *const u8, replies_length: usize, width: usize, refusal: *mut u8) -> Window;

    pub fn engine_play(
        list: *const u8, list_length: usize, replies: *mut u8, replies_length: usize,
        takes: usize, parcels: usize, signings: usize,
    ) -> u8;

    pub fn looking_decision(image: *const u8, image_length: usize, parcel: usize, refusal: *mut u8) -> Verdict;
    pub fn looking_compare(
        left: *const u8, left_length: usize, right: *const u8, right_length: usize, refusal: *mut u8,
    ) -> Compared;
    pub fn looking_independent(
        image: *const u8, image_length: usize, first: *const u8, first_length: usize,
        second: *const u8, second_length: usize, refusal: *mut u8,
    ) -> u8;
    pub fn looking_field(at: usize) -> Field;

    pub fn notation_parse(
        text: *const u8, text_length: usize, out: *mut u8, out_length: usize,
        line: *mut usize, column: *mut usize, expected: *mut u8,
    ) -> usize;
    pub fn notation_expected_text(expected: u8, out: *mut u8, out_length: usize) -> Given;
    pub fn notation_refusal_text(number: u8, out: *mut u8, out_length: usize) -> Given;
    pub fn notation_length(list: *const u8, list_length: usize) -> Given;
    pub fn notation_print(list: *const u8, list_length: usize, out: *mut u8, out_length: usize) -> Given;
    pub fn notation_step(list: *const u8, list_length: usize, i: usize, out: *mut u8, out_length: usize) -> Given;
    pub fn notation_reply(
        list: *const u8, list_length: usize, replies: *const u8, replies_length: usize, i: usize,
        out: *mut u8, out_length: usize,
    ) -> Given;
    pub fn notation_image(image: *const u8, image_length: usize, n: usize, out: *mut u8, out_length: usize) -> Given;
}
