//! What is wrong with an image (docs/RULES.md, 9.13): byte and clause by hand for images that fail several tests, and for each of the file
//! `images` what the library and the Rust reading say.

use crate::image::{hex, mark_at, Map};
use crate::images::{full, small, Changed};
use crate::json::Json;
use crate::kit::{Kit, Suite, Test, LIMITS};
use bench::generate::{parcel_at, take_at};
use bench::ledger::IMAGE;

const ABOUT: &str = "What is wrong with an image: its answer is the byte and the clause of docs/RULES.md, section 8, beside 19; 0 and 0 \
    beside 0, where nothing is, and beside 16. The first tests fail in one or two places, in the order of section 9.13.";

struct Builder<'a> {
    kit: &'a mut Kit,
    suite: Suite,
    small: Vec<u8>,
    full: Vec<u8>,
}

type Change<'a> = &'a [(usize, &'a [u8])];

impl Builder<'_> {
    fn add(&mut self, comment: &str, base: &str, image: &[u8], change: Json, length: usize) -> (u8, [usize; 2]) {
        let (refusal, answer) = self.kit.fault(image);
        let flags = ["query", if refusal == 0 { "well-formed" } else { "ill-formed" }];
        let test = Test::new(comment, if refusal == 16 { &["query", "refusal"] } else { &flags }, "fault");
        let test = test.with("image", base).with("change", change);
        let test = if length == IMAGE { test } else { test.with("length", length) };
        self.suite.tests.push(test.with("refusal", refusal as usize).with("answer", answer.to_vec()));
        (refusal, answer)
    }

    /// By hand: the byte and the clause.
    fn case(&mut self, base: &str, comment: &str, change: Change, at: usize, clause: usize) {
        let mut image = if base == "full" { self.full.clone() } else { self.small.clone() };
        for (at, bytes) in change {
            image[*at..*at + bytes.len()].copy_from_slice(bytes);
        }
        let stretches = change.iter().map(|(at, bytes)| Json::List(vec![(*at).into(), hex(bytes).into()]));
        let told = self.add(comment, base, &image, Json::List(stretches.collect()), IMAGE);
        assert!(told == (19, [at, clause]), "{comment}: {told:?}, not byte {at}, clause {clause}");
    }

    fn length(&mut self, comment: &str, length: usize, refusal: u8) {
        let mut image = self.small.clone();
        image.resize(length, 0);
        let told = self.add(comment, "small", &image, Json::List(Vec::new()), length);
        assert!(told == (refusal, [0, 0]), "{comment}: {told:?}");
    }
}

/// The head and the limits come first, byte 3 before byte 7, that before the limits, these before takes and parcels.
fn heads(b: &mut Builder) {
    let (first, third) = (take_at(0), parcel_at(2));
    b.case("small", "Byte 3.", &[(3, &[9])], 3, 1);
    b.case("small", "Byte 7.", &[(7, &[9])], 7, 1);
    b.case("small", "Byte 3 before byte 7.", &[(3, &[1]), (7, &[1])], 3, 1);
    b.case("small", "Byte 7 before the limits, which stand before it.", &[(4, &[0]), (7, &[1])], 7, 1);
    b.case("small", "Byte 7 before the last limit.", &[(6, &[16]), (7, &[128])], 7, 1);
    b.case("small", "The limits, at the first of them, also where the last is wrong.", &[(6, &[16])], 4, 2);
    b.case("small", "The limits before takes opened.", &[(0, &[5]), (5, &[0])], 4, 2);
    b.case("small", "Takes opened, at byte 0.", &[(4, &[2])], 0, 6);
    b.case("small", "Takes opened before parcels waiting.", &[(4, &[2]), (5, &[1])], 0, 6);
    b.case("small", "Parcels waiting, at their limit's byte.", &[(5, &[1])], 5, 6);
    b.case(
        "small",
        "Those before the first place that does not wait are counted: two, though a fourth place says that it waits.",
        &[(5, &[2]), (parcel_at(3), &[0x80, 0, 8])],
        parcel_at(3),
        12,
    );
    b.case(
        "small",
        "Three of two wait, before what is wrong with the third.",
        &[(5, &[2]), (third, &[0xff, 0, 0])],
        5,
        6,
    );
    b.case("small", "Parcels waiting before what is wrong with a take.", &[(5, &[1]), (first, &[0])], 5, 6);
}

/// Take by take; in each the order of section 9.13, which is not that of the bytes.
fn takes(b: &mut Builder) {
    let [first, second, gone, unopened] = [0, 1, 2, 3].map(take_at);
    let [own, creation, behaviour] = [Map::State(0), Map::Creation(0), Map::Behaviour(0)].map(|map| mark_at(map, 0));
    b.case("small", "The zero bits of a status.", &[(first, &[0x41])], first, 3);
    b.case("small", "The zero bits before status 0.", &[(first, &[0x01])], first, 3);
    b.case("small", "Status 0.", &[(first, &[0])], first, 7);
    b.case("small", "The state map before the creation map.", &[(own, &[0xb0]), (creation, &[0xb0])], own, 5);
    b.case("small", "The map, though its last mark is wrong.", &[(mark_at(Map::State(0), 15), &[0x80])], own, 5);
    b.case("small", "The creation map.", &[(creation + 32, &[1])], creation, 5);
    b.case(
        "small",
        "The creation map before the own mark, which stands before it.",
        &[(creation, &[0x40]), (own, &[0; 33])],
        creation,
        5,
    );
    b.case(
        "small",
        "The own mark, where it should stand.",
        &[(mark_at(Map::State(1), 1), &[0; 33])],
        mark_at(Map::State(1), 1),
        8,
    );
    b.case(
        "small",
        "The own mark before the saved text, which stands before it.",
        &[(second + 5, &[1]), (mark_at(Map::State(1), 1), &[0; 33])],
        mark_at(Map::State(1), 1),
        8,
    );
    b.case(
        "small",
        "A map of the take before its saved text.",
        &[(second + 8, &[1]), (mark_at(Map::Creation(1), 0), &[0x10])],
        mark_at(Map::Creation(1), 0),
        5,
    );
    b.case("small", "The saved text, at its first byte.", &[(second + 8, &[1])], second + 5, 9);
    b.case(
        "small",
        "The saved text before the behaviour map.",
        &[(second + 5, &[1]), (mark_at(Map::Behaviour(1), 0), &[0xff])],
        second + 5,
        9,
    );
    b.case(
        "small",
        "The behaviour map of an idle take, at its first byte.",
        &[(mark_at(Map::Behaviour(0), 2), &[0x80])],
        behaviour,
        10,
    );
    b.case("small", "Also where it holds what is no mark.", &[(behaviour + 527, &[1])], behaviour, 10);
    b.case(
        "small",
        "The behaviour map of a take at work.",
        &[(mark_at(Map::Behaviour(1), 15), &[0x80])],
        mark_at(Map::Behaviour(1), 0),
        5,
    );
    b.case("small", "A vanished take, at the byte after its status.", &[(take_at(3) - 1, &[1])], gone + 1, 11);
    b.case("small", "The zero bits of a vanished take before the rest.", &[(gone, &[0xc1, 1])], gone, 3);
    b.case("small", "A take that is not opened, at its first byte.", &[(take_at(4) - 1, &[1])], unopened, 3);
    b.case(
        "small",
        "Take 0 before take 1, also where the tests of take 1 are earlier ones.",
        &[(behaviour, &[0x80]), (second, &[0])],
        behaviour,
        10,
    );
    b.case("full", "The last take.", &[(take_at(15), &[0x7f])], take_at(15), 3);
    b.case(
        "small",
        "A take that is not opened before a parcel.",
        &[(unopened + 9, &[0x80]), (parcel_at(0), &[0xf0])],
        unopened,
        3,
    );
    let own = mark_at(Map::State(15), 15);
    b.case("full", "The zero bits of the last take before its status 0.", &[(take_at(15), &[0x3f])], take_at(15), 3);
    b.case(
        "full",
        "The last take's own mark before its saved text.",
        &[(take_at(15) + 5, &[1]), (own, &[0; 33])],
        own,
        8,
    );
    let creation = mark_at(Map::Creation(15), 0);
    b.case("full", "Its creation map before its own mark.", &[(creation + 33, &[1]), (own, &[0; 33])], creation, 5);
    let (saved, behaviour) = (take_at(1) + 5, mark_at(Map::Behaviour(1), 0));
    b.case(
        "full",
        "The saved text of an idle take before its behaviour map.",
        &[(saved, &[1]), (behaviour, &[0x80])],
        saved,
        9,
    );
}

/// Place by place.
fn places(b: &mut Builder) {
    let [first, second, third] = [0, 1, 2].map(parcel_at);
    b.case("small", "The zero bits of a place that waits.", &[(first, &[0x90])], first, 4);
    b.case("small", "The zero bits before the addressee.", &[(first, &[0x9f])], first, 4);
    b.case("small", "The addressee.", &[(first, &[0x83])], first, 15);
    b.case("small", "The addressee before the number.", &[(first, &[0x83, 0, 9])], first, 15);
    b.case("small", "The addressee of the second before its number.", &[(second, &[0x8f, 0, 9])], second, 15);
    b.case("small", "A number at the next one.", &[(second + 1, &[0, 9])], second + 1, 14);
    b.case(
        "small",
        "Above the next before out of order.",
        &[(first + 1, &[0, 20]), (second + 1, &[0, 10])],
        first + 1,
        14,
    );
    b.case("small", "Out of order.", &[(second + 1, &[0, 3])], second + 1, 13);
    b.case(
        "small",
        "At the next number, and above the one before it.",
        &[(1, &[0, 3]), (first + 1, &[0, 2]), (second + 1, &[0, 3])],
        second + 1,
        14,
    );
    b.case("small", "The number before the map.", &[(second + 1, &[0, 2]), (second + 7, &[0x30])], second + 1, 13);
    b.case("small", "The map, at its first byte.", &[(mark_at(Map::Parcel(1), 3), &[0x80])], second + 7, 5);
    b.case("small", "The first free place.", &[(third + 534, &[1])], third, 4);
    b.case("small", "A free place whose zero bits are set.", &[(third, &[0x70])], third, 4);
    b.case("small", "A gap: the place behind it.", &[(second, &[0; 7]), (third, &[0x80, 0, 8])], third, 12);
    b.case(
        "small",
        "The place of the gap, where it is not zero.",
        &[(second, &[0]), (third, &[0x80, 0, 8])],
        second,
        4,
    );
    b.case(
        "small",
        "Behind a gap nothing else is asked.",
        &[(second, &[0; 7]), (third, &[0xff, 0xff, 0xff])],
        third,
        12,
    );
    b.case("full", "The last place.", &[(parcel_at(31), &[0xf0])], parcel_at(31), 4);
    b.case("full", "The last place, free and not zero.", &[(parcel_at(31), &[0])], parcel_at(31), 4);
    b.case("full", "The last number.", &[(parcel_at(31) + 1, &[0, 60])], parcel_at(31) + 1, 13);
    b.case("full", "The last mark of the image.", &[(IMAGE - 33, &[0xb0])], parcel_at(31) + 7, 5);
}

pub fn suite(kit: &mut Kit, changed: &[Changed]) -> Suite {
    let mut b = Builder { kit, suite: Suite::new("faults", ABOUT), small: small().0, full: full().0 };
    b.suite.good("small", "Take 0 idle and signed, 1 at work, 2 vanished, 3 not opened; parcels 3 and 7.", &small().0);
    b.suite.good("full", "All takes opened, all parcels waiting, a list of fifteen entries.", &full().0);
    b.suite.good("fresh", "A fresh image.", &crate::image::Image::fresh(LIMITS).0);
    b.length("0: nothing is wrong.", IMAGE, 0);
    b.length("16: one byte short.", IMAGE - 1, 16);
    b.length("16: one byte over.", IMAGE + 1, 16);
    b.length("16: nothing.", 0, 16);
    b.length("16: the old form's length.", 22_132, 16);
    heads(&mut b);
    takes(&mut b);
    places(&mut b);
    for Changed { base, comment, change, image, kept } in changed {
        let (refusal, _) = b.add(comment, base, image, change.clone(), IMAGE);
        assert!((refusal == 0) == *kept, "{comment}: {refusal}");
    }
    b.suite
}
