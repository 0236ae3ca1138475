//! Calls turned back: lengths, parts, rooms, limits, numbers out of range; and their order.

use crate::image::{steps, words};
use crate::images::small;
use crate::kit::{Kit, Suite, Test, LIMITS};
use bench::ledger::IMAGE;

const ABOUT: &str = "Calls that are turned back, and their neighbours. After a refusal no byte is changed. length: the image cut \
    off, or with zeros behind; list_length: the list with zeros behind; room: bytes for replies, or for the short list.";

struct Builder<'a> {
    kit: &'a mut Kit,
    suite: Suite,
    good: Vec<u8>,
    ill: Vec<u8>,
}

/// A run or a thinning: its list as steps and zeros, its part and its room.
#[derive(Clone, Copy)]
struct Part {
    steps: &'static [[usize; 5]],
    length: usize,
    start: usize,
    end: usize,
    room: usize,
}

const STEPS: &[[usize; 5]] = &[[0, 0, 0, 0, 1], [1, 0, 0, 0, 2], [5, 1, 0, 0, 0]];
const WHOLE: Part = Part { steps: STEPS, length: 24, start: 0, end: 24, room: 24 };

impl Builder<'_> {
    fn bytes(&self, image: &str, length: usize) -> Vec<u8> {
        let mut bytes = if image == "ill" { self.ill.clone() } else { self.good.clone() };
        bytes.resize(length, 0);
        bytes
    }

    fn begin(&mut self, comment: &str, length: usize, limits: [usize; 3]) {
        let (refusal, after) = self.kit.begin(&self.bytes("ill", length), limits);
        let test = Test::new(comment, &["refusal"], "begin").with("image", "ill").with("length", length);
        let test = test.with("limits", limits.to_vec()).with("refusal", refusal as usize);
        let sum = crate::sha256::hex_digest(&after);
        self.suite.tests.push(if refusal == 0 { test.with("sha256", sum) } else { test });
    }

    fn part(&mut self, comment: &str, image: &str, length: usize, part: Part) {
        let mut list = steps(part.steps);
        let head = words(&list);
        list.resize(part.length, 0);
        let bytes = self.bytes(image, length);
        let input = |call: &str| {
            let test = Test::new(comment, &["refusal"], call).with("image", image).with("length", length);
            let test = test.with("list", head.as_str()).with("list_length", part.length);
            test.with("start", part.start).with("end", part.end).with("room", part.room)
        };
        let ran = self.kit.run(&bytes, &list, part.start, part.end, part.room);
        self.suite.tests.push(input("run").ran(&ran, false));
        let (refusal, kept, out) = self.kit.thin(&bytes, &list, part.start, part.end, part.room);
        let test = input("thin").with("refusal", refusal as usize).with("answer", kept);
        self.suite.tests.push(if refusal == 0 { test.with("out", words(&out[..8 * kept])) } else { test });
    }

    fn ask(&mut self, comment: &str, call: &'static str, image: &str, length: usize, key: &str, of: usize) {
        let bytes = self.bytes(image, length);
        let (refusal, answer) = self.kit.ask(call, &bytes, of);
        let test = Test::new(comment, &["refusal"], call).with("image", image).with("length", length).with(key, of);
        self.suite.tests.push(test.with("refusal", refusal as usize).with("answer", answer));
    }

    fn play(&mut self, comment: &str, limits: [usize; 3], length: usize, room: usize) {
        let mut list = steps(STEPS);
        list.resize(length, 0);
        let (refusal, replies) = self.kit.engine(limits, &list, room);
        let test = Test::new(comment, &["refusal", "engine"], "play").with("limits", limits.to_vec());
        let test = test.with("list", words(&list[..length.min(24)])).with("list_length", length).with("room", room);
        let test = test.with("refusal", refusal as usize);
        self.suite.tests.push(if refusal == 0 { test.with("replies", words(&replies)) } else { test });
    }
}

fn beginnings(b: &mut Builder) {
    b.begin("The bytes of the buffer may be anything.", IMAGE, LIMITS);
    b.begin("The least limits.", IMAGE, [1, 1, 1]);
    b.begin("16: one byte short.", IMAGE - 1, LIMITS);
    b.begin("16: one byte over.", IMAGE + 1, LIMITS);
    b.begin("16: the old form's length.", 22_132, LIMITS);
    b.begin("16: the length before the limits were stored.", 42_612, LIMITS);
    b.begin("16: nothing.", 0, LIMITS);
    b.begin("16 comes before 33.", 8, [0, 0, 0]);
    for (i, (what, greatest)) in [("takes", 16), ("parcels", 32), ("signings", 15)].into_iter().enumerate() {
        let out = [
            (0, "none"),
            (greatest + 1, "one over"),
            (256 + 1, "257 is not 1"),
            (65_536 + 1, "65,537 is not 1"),
            (1 << 32 | 1, "4,294,967,297 is not 1"),
        ];
        for (n, told) in out {
            let mut limits = [1, 1, 1];
            limits[i] = n;
            b.begin(&format!("33: {what}, {told}."), IMAGE, limits);
        }
        let mut limits = LIMITS;
        limits[i] = 0;
        b.begin(&format!("33: {what}, none, the others the greatest."), IMAGE, limits);
    }
}

fn parts(b: &mut Builder) {
    let p = WHOLE;
    b.part("The whole list.", "small", IMAGE, p);
    b.part("An empty list.", "small", IMAGE, Part { length: 0, steps: &[], start: 0, end: 0, room: 0 });
    b.part("An empty part at the end of the list.", "small", IMAGE, Part { start: 24, end: 24, room: 0, ..p });
    b.part("A part from the middle.", "small", IMAGE, Part { start: 8, end: 24, room: 16, ..p });
    b.part(
        "A part may start at any byte of the list: here its steps are other ones.",
        "small",
        IMAGE,
        Part { start: 4, end: 20, room: 16, ..p },
    );
    odd_lists(b);
    b.part("16: one byte short.", "small", IMAGE - 1, p);
    b.part("16: one byte over.", "small", IMAGE + 1, p);
    b.part("16 comes before 17.", "small", 0, Part { end: 23, ..p });
    b.part("17: its length is no multiple of 8.", "small", IMAGE, Part { end: 23, room: 23, ..p });
    b.part("17: it ends past the list.", "small", IMAGE, Part { end: 32, room: 32, ..p });
    b.part("17: it starts after its end.", "small", IMAGE, Part { start: 16, end: 8, room: 0, ..p });
    b.part("17: it starts and ends past the list.", "small", IMAGE, Part { start: 32, end: 32, room: 0, ..p });
    b.part("17: over 8,192 bytes.", "small", IMAGE, Part { length: 8_200, end: 8_200, room: 8_200, ..p });
    b.part(
        "A list of over 8,192 bytes, a part of which is not.",
        "small",
        IMAGE,
        Part { length: 8_200, start: 8_192, end: 8_200, room: 8, ..p },
    );
    b.part("17 comes before 18.", "small", IMAGE, Part { end: 23, ..p });
    b.part("18: one reply short.", "small", IMAGE, Part { room: 16, ..p });
    b.part("18: one byte over.", "small", IMAGE, Part { room: 25, ..p });
    b.part("18: no room.", "small", IMAGE, Part { room: 0, ..p });
    b.part("18 comes before 19.", "ill", IMAGE, Part { room: 16, ..p });
    b.part("19: ill-formed.", "ill", IMAGE, p);
    b.part("19 also for an empty part.", "ill", IMAGE, Part { start: 0, end: 0, room: 0, ..p });
}

/// Lists whose own length is no multiple of 8, and parts that end past the list.
fn odd_lists(b: &mut Builder) {
    let (p, far) = (WHOLE, 1 << 32);
    b.part("The list's own length is no multiple of 8, that of its part is.", "small", IMAGE, Part { length: 27, ..p });
    b.part("The same, up to its end.", "small", IMAGE, Part { length: 27, start: 3, end: 27, ..p });
    b.part("17: it ends one byte past the list.", "small", IMAGE, Part { length: 23, steps: &STEPS[..2], ..p });
    b.part("17: it ends four bytes past the list.", "small", IMAGE, Part { length: 20, steps: &STEPS[..2], ..p });
    b.part("17: it ends seven bytes past the list.", "small", IMAGE, Part { length: 25, end: 32, start: 8, ..p });
    b.part("17: it starts one byte after its end.", "small", IMAGE, Part { start: 9, end: 8, room: 0, ..p });
    b.part("17: 4,294,967,296 is not 0, as its start.", "small", IMAGE, Part { start: far, ..p });
    b.part("17: nor as its end.", "small", IMAGE, Part { end: far, room: 0, ..p });
    b.part("17: nor as both.", "small", IMAGE, Part { start: far, end: far, room: 0, ..p });
    b.part("17: a part past 4,294,967,296.", "small", IMAGE, Part { start: far, end: far + 24, ..p });
    b.part("17: it ends past 4,294,967,296.", "small", IMAGE, Part { end: far + 24, ..p });
    b.part("17: over 8,192 bytes by far.", "small", IMAGE, Part { length: 16_384, end: 16_384, room: 16_384, ..p });
}

/// The five queries about a take, of the small image.
fn takes_asked(b: &mut Builder) {
    for call in ["offer", "smallest_volume", "all_heard_frozen", "dependents", "impediment"] {
        b.ask("Take 0.", call, "small", IMAGE, "take", 0);
        b.ask("16.", call, "small", IMAGE - 1, "take", 0);
        b.ask("16 comes before 19.", call, "ill", IMAGE + 8, "take", 99);
        b.ask("19.", call, "ill", IMAGE, "take", 0);
        b.ask("19 comes before 21.", call, "ill", IMAGE, "take", 99);
        b.ask("21: the first that is not opened.", call, "small", IMAGE, "take", 3);
        b.ask("21: 16.", call, "small", IMAGE, "take", 16);
        b.ask("21: 256 is not 0.", call, "small", IMAGE, "take", 256);
        b.ask("21: 65,536 is not 0.", call, "small", IMAGE, "take", 65_536);
        b.ask("21: 4,294,967,296 is not 0.", call, "small", IMAGE, "take", 1 << 32);
        b.ask("22: vanished.", call, "small", IMAGE, "take", 2);
    }
}

fn others_asked(b: &mut Builder) {
    let mut size =
        |told: &str, image: &str, length: usize, n: usize| b.ask(told, "ready_count", image, length, "size", n);
    size("Size 1.", "small", IMAGE, 1);
    size("Size 16.", "small", IMAGE, 16);
    size("34: 0.", "small", IMAGE, 0);
    size("16.", "small", IMAGE + 1, 2);
    size("19.", "ill", IMAGE, 2);
    size("34: 17.", "small", IMAGE, 17);
    size("34: 257 is not 1.", "small", IMAGE, 257);
    size("34: 4,294,967,297 is not 1.", "small", IMAGE, 1 << 32 | 1);
    size("16 comes before 34.", "small", IMAGE - 1, 0);
    size("19 comes before 34.", "ill", IMAGE, 0);
    let mut parcel = |told: &str, image: &str, length: usize, n: usize| b.ask(told, "show", image, length, "parcel", n);
    parcel("The first waiting.", "small", IMAGE, 3);
    parcel("The second.", "small", IMAGE, 7);
    parcel("24: between them.", "small", IMAGE, 5);
    parcel("24: the next number.", "small", IMAGE, 9);
    parcel("24: 0, which free places have.", "small", IMAGE, 0);
    parcel("24: 65,535.", "small", IMAGE, 65_535);
    parcel("24: 65,539 is not 3.", "small", IMAGE, 65_539);
    parcel("24: 4,294,967,299 is not 3.", "small", IMAGE, 1 << 32 | 3);
    parcel("16.", "small", IMAGE + 1, 3);
    parcel("19.", "ill", IMAGE, 3);
    parcel("16 comes before 24.", "small", 0, 5);
    parcel("19 comes before 24.", "ill", IMAGE, 5);
    let mut volume =
        |told: &str, image: &str, length: usize, n: usize| b.ask(told, "obstacle", image, length, "volume", n);
    volume("Take 1.", "small", IMAGE, 2);
    volume("29: empty.", "small", IMAGE, 0);
    volume("21 comes before 22.", "small", IMAGE, 12);
    volume("21: take 15.", "small", IMAGE, 1 << 15);
    volume("21: 65,536 names take 16, and is not empty.", "small", IMAGE, 1 << 16);
    volume("21: 65,538 is not the volume of take 1.", "small", IMAGE, 1 << 16 | 2);
    volume("21: 4,294,967,298 is not the volume of take 1.", "small", IMAGE, 1 << 32 | 2);
    volume("21, of take 16, comes before 22.", "small", IMAGE, 1 << 16 | 4);
    volume("22.", "small", IMAGE, 4);
    volume("22 with others.", "small", IMAGE, 7);
    volume("16 comes before 21.", "small", 7, 1 << 16);
    volume("19 comes before 21.", "ill", IMAGE, 1 << 16);
    volume("16 comes before 29.", "small", 7, 0);
    volume("19 comes before 29.", "ill", IMAGE, 0);
}

fn engine(b: &mut Builder) {
    b.play("Three steps.", LIMITS, 24, 24);
    b.play("An empty list.", LIMITS, 0, 0);
    b.play("The longest list, 1,024 steps.", LIMITS, 8_192, 8_192);
    b.play("17: no multiple of 8.", LIMITS, 20, 20);
    b.play("17: over 8,192 bytes.", LIMITS, 8_200, 8_200);
    b.play("17 comes before 18.", LIMITS, 20, 24);
    b.play("18: one reply short.", LIMITS, 24, 16);
    b.play("18: one over.", LIMITS, 24, 32);
    b.play("18 comes before 33.", [0, 0, 0], 24, 16);
    b.play("18 comes before 33: seventeen takes.", [17, 1, 1], 24, 23);
    b.play("18 comes before 33: sixteen signings.", [1, 1, 16], 24, 32);
    b.play("18 comes before 33: no parcels.", [1, 0, 1], 24, 0);
    b.play("33: no takes.", [0, 1, 1], 24, 24);
    b.play("33: 17 takes.", [17, 1, 1], 24, 24);
    b.play("33: no parcels.", [1, 0, 1], 24, 24);
    b.play("33: 33 parcels.", [1, 33, 1], 24, 24);
    b.play("33: no signings.", [1, 1, 0], 24, 24);
    b.play("33: 16 signings.", [1, 1, 16], 24, 24);
    b.play("33: 257 is not 1.", [257, 1, 1], 24, 24);
}

pub fn suite(kit: &mut Kit) -> Suite {
    let mut suite = Suite::new("calls", ABOUT);
    let good = small().0;
    let ill = small().put(3, &[1]).0;
    suite.good("small", "Take 0 idle and signed, 1 at work, 2 vanished, 3 not opened; parcels 3 and 7.", &good);
    suite.image("ill", "The same, ill-formed by byte 3.", &ill);
    let mut b = Builder { kit, suite, good, ill };
    beginnings(&mut b);
    parts(&mut b);
    takes_asked(&mut b);
    others_asked(&mut b);
    engine(&mut b);
    b.suite
}
