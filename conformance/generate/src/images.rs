//! Ill-formed images as changed bytes of a good one: one or more for each clause of the form, and the well-formed neighbour. Each is asked
//! by a run of an empty list.

use crate::image::{frozen, hex, mark, mark_at, Image, Map, AT_WORK, IDLE, VANISHED};
use crate::json::Json;
use crate::kit::{Kit, Suite, Test, LIMITS};
use bench::generate::{parcel_at, take_at};

/// Document 01's and W7's list, "Ill-formed: ..", taken apart.
pub const CLAUSES: [&str; 24] = [
    "zero byte of the head",
    "limits in range",
    "zero byte of the limits",
    "takes opened within the limit",
    "status of an opened take",
    "zero bits of a status",
    "unopened take all zero",
    "own mark of a live take",
    "saved text of a never signed take",
    "behaviour map of an idle take",
    "vanished take with its status alone",
    "zero bits of a mark",
    "count within the limit",
    "places past the count",
    "absent mark all zero",
    "mark of an unopened take",
    "zero bits of a parcel",
    "parcels without gaps",
    "place without a parcel all zero",
    "parcels in rising number",
    "number below the next",
    "addressee opened",
    "parcels waiting within the limit",
    "marks of a parcel",
];

/// An image of this file, for the call that says what is wrong with it.
pub struct Changed {
    pub base: String,
    pub comment: String,
    pub change: Json,
    pub image: Vec<u8>,
    pub kept: bool,
}

struct Builder<'a> {
    kit: &'a mut Kit,
    suite: Suite,
    changed: Vec<Changed>,
    small: Vec<u8>,
    full: Vec<u8>,
    fresh: Vec<u8>,
}

/// Takes 0 idle and signed, 1 at work, 2 vanished, 3 not opened; two parcels.
pub fn small() -> Image {
    let own = mark(&[2], 1);
    Image::fresh([4, 3, 3])
        .take(IDLE, 7, own.clone())
        .saved(0, 5)
        .take(AT_WORK, 8, mark(&[], 0))
        .take(VANISHED, 0, mark(&[], 0))
        .has(Map::State(0), 1, &frozen(&[], 0))
        .has(Map::Creation(0), 1, &mark(&[], 0))
        .has(Map::State(1), 0, &own)
        .has(Map::Behaviour(1), 0, &own)
        .parcel(3, 0, 9, &[(0, own), (1, mark(&[], 0))])
        .parcel(7, 2, 10, &[])
        .next(9)
}

/// All takes opened, all parcels waiting, a list of fifteen entries.
pub fn full() -> Image {
    let mut image = Image::fresh(LIMITS).take(IDLE, 1, frozen(&[1; 15], 65_535)).saved(0, 2);
    for t in 1..16 {
        image = image.take(IDLE, t, mark(&[], 0));
    }
    for k in 0..32 {
        image = image.parcel(2 * k, k as usize % 16, 0, &[]);
    }
    image
}

impl Builder<'_> {
    fn case(&mut self, base: &str, clause: &str, kept: bool, comment: &str, change: &[(usize, &[u8])]) {
        assert!(CLAUSES.contains(&clause), "no clause: {clause}");
        let mut image = match base {
            "small" => self.small.clone(),
            "fresh" => self.fresh.clone(),
            _ => self.full.clone(),
        };
        for (at, bytes) in change {
            image[*at..*at + bytes.len()].copy_from_slice(bytes);
        }
        let ran = self.kit.run(&image, &[], 0, 0, 0);
        assert!(ran.refusal == if kept { 0 } else { 19 }, "{clause}: {comment}: {}", ran.refusal);
        self.kit.seen.clauses.insert((clause.to_string(), kept));
        let change = change.iter().map(|(at, bytes)| Json::List(vec![(*at).into(), hex(bytes).into()]));
        let (change, comment) = (Json::List(change.collect()), format!("{clause}: {comment}"));
        self.changed.push(Changed { base: base.into(), comment: comment.clone(), change: change.clone(), image, kept });
        let flags = if kept { ["well-formed"] } else { ["ill-formed"] };
        let test = Test::new(&comment, &flags, "run").with("image", base);
        let test = test.with("change", change).with("list", "").with("refusal", ran.refusal as usize);
        let sum = crate::sha256::hex_digest(&ran.image);
        self.suite.tests.push(if kept { test.with("replies", "").with("sha256", sum) } else { test });
    }

    fn ill(&mut self, clause: &str, comment: &str, change: &[(usize, &[u8])]) {
        self.case("small", clause, false, comment, change);
    }

    fn good(&mut self, clause: &str, comment: &str, change: &[(usize, &[u8])]) {
        self.case("small", clause, true, comment, change);
    }
}

fn head(b: &mut Builder) {
    b.good("zero byte of the head", "as it is", &[]);
    b.ill("zero byte of the head", "byte 3 is 1", &[(3, &[1])]);
    b.ill("zero byte of the head", "byte 3 is 128", &[(3, &[128])]);
    let c = "limits in range";
    b.good(c, "16, 32 and 15", &[(4, &[16, 32, 15])]);
    for (at, over) in [(4, 17), (5, 33), (6, 16)] {
        b.ill(c, "0", &[(at, &[0])]);
        b.ill(c, "one over", &[(at, &[over])]);
        b.ill(c, "255", &[(at, &[255])]);
        b.case("fresh", c, false, "0, and nothing else is wrong", &[(at, &[0])]);
    }
    b.ill("zero byte of the limits", "byte 7 is 1", &[(7, &[1])]);
    b.good("zero byte of the limits", "as it is", &[]);
    let c = "takes opened within the limit";
    b.good(c, "three, and three are allowed", &[(4, &[3])]);
    b.ill(c, "three, and two are allowed", &[(4, &[2])]);
    b.case("full", c, true, "sixteen", &[]);
    b.case("full", c, false, "sixteen, and fifteen are allowed", &[(4, &[15])]);
    b.case("full", c, false, "seventeen", &[(0, &[17])]);
    b.case("full", c, false, "255", &[(0, &[255])]);
}

fn takes(b: &mut Builder) {
    let [first, second, gone, unopened] = [0, 1, 2, 3].map(take_at);
    let c = "status of an opened take";
    b.good(c, "take 3 opened, and vanished", &[(0, &[4]), (unopened, &[0xc0])]);
    b.ill(c, "take 3 opened, with status 0", &[(0, &[4])]);
    b.ill(c, "take 0 has status 0", &[(first, &[0])]);
    b.ill(c, "take 2, opened, has nothing", &[(gone, &[0])]);
    let c = "zero bits of a status";
    b.good(c, "take 0 at work", &[(first, &[0x80])]);
    for bit in 0..6 {
        b.ill(c, "of an idle take", &[(first, &[0x40 | 1 << bit])]);
    }
    b.ill(c, "of a take at work", &[(second, &[0x81])]);
    b.ill(c, "of a vanished take", &[(gone, &[0xc1])]);
}

fn unopened_take(b: &mut Builder) {
    let (first, unopened) = (take_at(0), take_at(3));
    let c = "unopened take all zero";
    b.good(c, "as it is", &[]);
    for (what, at, byte) in [
        ("idle", 0, 0x40),
        ("vanished", 0, 0xc0),
        ("a zero bit of its status", 0, 1),
        ("its text", 4, 1),
        ("its saved text", 5, 1),
    ] {
        b.ill(c, what, &[(unopened + at, &[byte])]);
    }
    for (what, map) in [
        ("its own mark", Map::State(3)),
        ("a mark in its creation map", Map::Creation(3)),
        ("a mark in its behaviour map", Map::Behaviour(3)),
    ] {
        b.ill(c, what, &[(mark_at(map, 3), &[0x80])]);
    }
    b.ill(c, "its last byte", &[(take_at(4) - 1, &[1])]);
    b.ill(c, "the last byte of take 15", &[(take_at(16) - 1, &[1])]);
    let c = "own mark of a live take";
    b.good(c, "as it is", &[]);
    b.ill(c, "take 1 has none", &[(mark_at(Map::State(1), 1), &[0])]);
    b.ill(
        c,
        "take 0, signed, has none, and no saved text",
        &[(first + 5, &[0; 4]), (mark_at(Map::State(0), 0), &[0; 33])],
    );
}

fn saved_and_maps(b: &mut Builder) {
    let [first, second, gone] = [0, 1, 2].map(take_at);
    let c = "saved text of a never signed take";
    b.good(c, "a signed take may have 0", &[(first + 5, &[0; 4])]);
    b.ill(c, "its last byte", &[(second + 8, &[1])]);
    b.ill(c, "its first byte", &[(second + 5, &[1])]);
    b.ill(c, "its own mark loses its list, also at life 1", &[(mark_at(Map::State(0), 0), &[0x80, 0, 1, 0, 0])]);
    let c = "behaviour map of an idle take";
    b.good(c, "take 0 at work with a mark", &[(first, &[0x80]), (mark_at(Map::Behaviour(0), 0), &[0x80])]);
    b.ill(c, "take 0 idle with a mark", &[(mark_at(Map::Behaviour(0), 0), &[0x80])]);
    b.ill(c, "take 1, which has a mark, is idle", &[(second, &[0x40])]);
    b.ill(c, "its last byte", &[(take_at(1) - 1, &[1])]);
    let c = "vanished take with its status alone";
    b.good(c, "as it is", &[]);
    b.ill(c, "a text", &[(gone + 4, &[1])]);
    b.ill(c, "a saved text", &[(gone + 8, &[1])]);
    for map in [Map::State(2), Map::Creation(2), Map::Behaviour(2)] {
        b.ill(c, "a mark", &[(mark_at(map, 2), &[0x80])]);
    }
    b.ill(c, "its last byte", &[(take_at(3) - 1, &[1])]);
}

/// The clauses of a mark, in one map of each kind.
fn marks(b: &mut Builder) {
    for (name, map) in [
        ("state", Map::State(0)),
        ("creation", Map::Creation(0)),
        ("behaviour", Map::Behaviour(1)),
        ("a parcel's", Map::Parcel(0)),
    ] {
        present_mark(b, name, mark_at(map, 1));
        absent_mark(b, name, mark_at(map, 1));
        let said = |what: &str| format!("{name} map, {what}");
        b.ill("mark of an unopened take", &said("take 3"), &[(mark_at(map, 3), &[0x80])]);
        b.ill("mark of an unopened take", &said("take 15"), &[(mark_at(map, 15), &[0x80])]);
        b.good("mark of an unopened take", &said("take 2, which vanished"), &[(mark_at(map, 2), &[0x80])]);
    }
    b.good("count within the limit", "one signing is allowed, all lists have at most one entry", &[(6, &[1])]);
    b.case("full", "count within the limit", true, "fifteen entries of fifteen", &[]);
    b.case("full", "count within the limit", false, "fifteen entries, and fourteen are allowed", &[(6, &[14])]);
}

fn present_mark(b: &mut Builder, map: &str, at: usize) {
    let said = |what: &str| format!("{map} map, {what}");
    b.ill("zero bits of a mark", &said("bit 5"), &[(at, &[0xa0])]);
    b.ill("zero bits of a mark", &said("bit 4"), &[(at, &[0x90])]);
    b.good("zero bits of a mark", &said("frozen"), &[(at, &[0xc0])]);
    b.good("count within the limit", &said("three entries"), &[(at, &[0x83])]);
    b.ill("count within the limit", &said("four entries"), &[(at, &[0x84])]);
    b.ill("count within the limit", &said("fifteen entries"), &[(at, &[0x8f])]);
    let c = "places past the count";
    b.good(c, &said("the greatest n, and two entries of 65,535"), &[(at, &[0x82, 255, 255, 255, 255, 255, 255])]);
    b.ill(c, &said("the low byte of the first place"), &[(at, &[0x80, 0, 0, 0, 1])]);
    b.ill(c, &said("the high byte of the place after the second"), &[(at, &[0x82, 0, 0, 0, 0, 0, 0, 1])]);
    b.ill(c, &said("the last byte"), &[(at, &[0x83]), (at + 32, &[1])]);
}

fn absent_mark(b: &mut Builder, map: &str, at: usize) {
    let said = |what: &str| format!("{map} map, {what}");
    let (c, clear): (&str, &[u8]) = ("absent mark all zero", &[0; 33]);
    b.good(c, &said("absent"), &[(at, clear)]);
    b.ill(c, &said("frozen alone"), &[(at, clear), (at, &[0x40])]);
    b.ill(c, &said("a count alone"), &[(at, clear), (at, &[1])]);
    b.ill(c, &said("n alone, high byte"), &[(at, clear), (at + 1, &[1])]);
    b.ill(c, &said("its last byte"), &[(at, clear), (at + 32, &[1])]);
}

fn parcels(b: &mut Builder) {
    let [first, second, third] = [0, 1, 2].map(parcel_at);
    let c = "zero bits of a parcel";
    b.good(c, "as it is", &[]);
    for bit in [0x40, 0x20, 0x10] {
        b.ill(c, "one is set", &[(first, &[0x80 | bit])]);
    }
    let c = "parcels without gaps";
    b.good(c, "a third behind the second", &[(third, &[0x80, 0, 8])]);
    b.ill(c, "none in the second place", &[(second, &[0; 7]), (third, &[0x80, 0, 8])]);
    b.ill(c, "one in the last place", &[(parcel_at(31), &[0x80, 0, 8])]);
    b.ill(c, "the first is not waiting, its bytes are there", &[(first, &[0])]);
    let c = "place without a parcel all zero";
    b.good(c, "as it is", &[]);
    for (what, at, byte) in
        [("an addressee", 0, 1), ("a number", 2, 8), ("a text", 6, 1), ("a mark", 7, 0x80), ("its last byte", 534, 1)]
    {
        b.ill(c, what, &[(third + at, &[byte])]);
    }
    b.ill(c, "the last byte of the image", &[(42_615, &[1])]);
}

fn numbers(b: &mut Builder) {
    let [first, second] = [0, 1].map(parcel_at);
    let c = "parcels in rising number";
    b.good(c, "3 and 4", &[(second + 1, &[0, 4])]);
    b.ill(c, "3 and 3", &[(second + 1, &[0, 3])]);
    b.ill(c, "3 and 2", &[(second + 1, &[0, 2])]);
    b.ill(c, "256 and 3, below the next, 512", &[(1, &[2, 0]), (first + 1, &[1, 0]), (second + 1, &[0, 3])]);
    b.good(c, "3 and 256, the next is 512", &[(1, &[2, 0]), (second + 1, &[1, 0])]);
    let c = "number below the next";
    b.good(c, "one below", &[(1, &[0, 8])]);
    b.ill(c, "at the next number", &[(1, &[0, 7])]);
    b.ill(c, "above it", &[(1, &[0, 6])]);
    b.good(c, "65,534 where the next is 65,535", &[(1, &[255, 255]), (second + 1, &[255, 254])]);
    b.ill(c, "65,535", &[(1, &[255, 255]), (second + 1, &[255, 255])]);
    let c = "addressee opened";
    b.good(c, "take 2, which vanished", &[(first, &[0x82])]);
    b.ill(c, "take 3", &[(first, &[0x83])]);
    b.ill(c, "take 15", &[(second, &[0x8f])]);
    let c = "parcels waiting within the limit";
    b.good(c, "two of two", &[(5, &[2])]);
    b.ill(c, "two, and one is allowed", &[(5, &[1])]);
    b.case("full", c, true, "thirty-two", &[]);
    b.case("full", c, false, "thirty-two, and thirty-one are allowed", &[(5, &[31])]);
    b.good("marks of a parcel", "as it is", &[]);
    b.ill("marks of a parcel", "take 0's, a zero bit", &[(mark_at(Map::Parcel(0), 0), &[0xa1])]);
    b.ill("marks of a parcel", "the second parcel's", &[(mark_at(Map::Parcel(1), 0), &[0x84])]);
}

/// The last take, the last mark of a map and the last parcel; lists around the middle of a mark.
fn last_places(b: &mut Builder) {
    let last = take_at(15);
    let mut full = |clause: &str, kept: bool, comment: &str, at: usize, bytes: &[u8]| {
        b.case("full", clause, kept, comment, &[(at, bytes)])
    };
    full("status of an opened take", false, "take 15 has status 0", last, &[0]);
    full("zero bits of a status", false, "of take 15", last, &[0x41]);
    full("own mark of a live take", false, "take 15 has none", mark_at(Map::State(15), 15), &[0]);
    full("saved text of a never signed take", false, "take 15", last + 5, &[1]);
    full("behaviour map of an idle take", false, "take 15", mark_at(Map::Behaviour(15), 0), &[0x80]);
    full("vanished take with its status alone", false, "take 15, with its text and its mark", last, &[0xc0]);
    for (name, map) in [("state", Map::State(0)), ("creation", Map::Creation(0)), ("a parcel's", Map::Parcel(31))] {
        let said = |what: &str| format!("{name} map, {what}");
        full("zero bits of a mark", false, &said("take 15"), mark_at(map, 15), &[0x90]);
        full("zero bits of a mark", true, &said("take 15 frozen"), mark_at(map, 15), &[0xc0]);
        full("absent mark all zero", false, &said("take 15, its last byte"), mark_at(map, 15) + 32, &[1]);
    }
    for count in [1, 5, 6, 7, 8, 9, 13, 14] {
        let mut bytes = [255; 33];
        bytes[0] = 0x80 | count as u8;
        bytes[3 + 2 * count..].fill(0);
        full("places past the count", true, "full up to the count", mark_at(Map::Creation(2), 1), &bytes);
        bytes[4 + 2 * count] = 1;
        full("places past the count", false, "the low byte of the first place", mark_at(Map::Creation(2), 1), &bytes);
        bytes[3 + 2 * count..5 + 2 * count].copy_from_slice(&[1, 0]);
        full("places past the count", false, "its high byte", mark_at(Map::Creation(2), 1), &bytes);
    }
}

fn last_parcels(b: &mut Builder) {
    let last = parcel_at(31);
    b.case(
        "full",
        "parcels in rising number",
        false,
        "the last has the number of the one before",
        &[(last + 1, &[0, 60])],
    );
    b.case(
        "full",
        "parcels in rising number",
        true,
        "the last has the next after the one before",
        &[(last + 1, &[0, 61])],
    );
    b.case("full", "parcels in rising number", false, "the second has the first's", &[(parcel_at(1) + 1, &[0, 0])]);
    b.case("full", "number below the next", false, "the last is at the next number", &[(last + 1, &[0, 63])]);
    b.case("full", "zero bits of a parcel", false, "of the last", &[(last, &[0xaf])]);
    b.case("full", "parcels without gaps", false, "the last but one does not wait", &[(parcel_at(30), &[0; 7])]);
    b.case("full", "parcels without gaps", true, "the last does not wait", &[(last, &[0; 7])]);
    b.case(
        "full",
        "place without a parcel all zero",
        false,
        "the last has a text alone",
        &[(last, &[0, 0, 0, 0, 0, 0, 1])],
    );
    b.ill("addressee opened", "the second parcel, take 3", &[(parcel_at(1), &[0x83])]);
    b.ill("addressee opened", "the first parcel, take 4", &[(parcel_at(0), &[0x84])]);
    b.ill("addressee opened", "the first parcel, take 15", &[(parcel_at(0), &[0x8f])]);
    b.ill("zero byte of the limits", "byte 7 is 128", &[(7, &[128])]);
    b.ill("vanished take with its status alone", "the first byte of its text", &[(take_at(2) + 1, &[1])]);
    b.ill("vanished take with its status alone", "the first bit of its text", &[(take_at(2) + 1, &[128])]);
    b.ill(
        "parcels waiting within the limit",
        "three, and two are allowed",
        &[(5, &[2]), (parcel_at(2), &[0x80, 0, 8])],
    );
}

pub fn suite(kit: &mut Kit) -> (Suite, Vec<Changed>) {
    let mut suite = Suite::new(
        "images",
        "Images, well-formed or not, as changed bytes of a well-formed one. A run of an empty list tells: 0, or 19.",
    );
    let (small, full, fresh) = (small().0, full().0, Image::fresh(LIMITS).0);
    suite.good("small", "Take 0 idle and signed, 1 at work, 2 vanished, 3 not opened; parcels 3 and 7.", &small);
    suite.good("full", "All takes opened, all parcels waiting, a list of fifteen entries.", &full);
    suite.good("fresh", "A fresh image.", &fresh);
    let mut b = Builder { kit, suite, changed: Vec::new(), small, full, fresh };
    head(&mut b);
    takes(&mut b);
    unopened_take(&mut b);
    saved_and_maps(&mut b);
    marks(&mut b);
    parcels(&mut b);
    numbers(&mut b);
    last_places(&mut b);
    last_parcels(&mut b);
    (b.suite, b.changed)
}
