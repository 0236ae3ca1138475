//! Thinner step lists, the worst window, and conversions of images.

use crate::image::{frozen, hex, mark, mark_at, sparse, words, Image, Map, AT_WORK, IDLE, VANISHED};
use crate::json::Json;
use crate::kit::{grown, Kit, Suite, Test, LIMITS};
use crate::notation;
use crate::sha256::hex_digest;
use bench::generate::{parcel_at, take_at};
use bench::ledger::IMAGE;

const OLD: usize = bench::convert::OLD_IMAGE;

const ABOUT_THIN: &str =
    "Thinner step lists: the list without the refused steps and without reads whose map is emptied \
    unused; out is followed by zeros up to the input's length.";

const ABOUT_WINDOW: &str =
    "The stretch of a list of replies with most outcomes 3 and 4. answer: its count and its place. \
    list_length: the list with zeros behind.";

const ABOUT_CONVERT: &str =
    "Images from the old form, 22,132 bytes, to the ledger's, and back. length: the source cut off, \
    or with zeros behind; the target is untouched after a refusal.";

fn list(text: &str) -> Vec<u8> {
    notation::lines(text).iter().flat_map(|l| l.step.to_be_bytes()).collect()
}

/// Takes 0 and 1, at work; take 0 signed once.
const BEFORE: &str =
    "root text 1; root text 2; letter to 0 text 3; receive 0; freeze 0; sign {0}; letter to 0 text 4; \
    letter to 1 text 5; receive 1; receive 2; letter to 0 text 6; letter to 1 text 7";

/// Comment, steps, how many are kept.
const THINNED: &[(&str, &str, usize)] = &[
    ("Nothing to leave out.", "write 0 text 1; done 0", 2),
    ("An empty list.", "", 0),
    (
        "Refused steps are left out, whatever their kind.",
        "receive 9; root text 1; sign {}; raw d000000000000000; lose 9; read 9; done 0",
        2,
    ),
    ("All are refused: nothing is kept, and the output is zero.", "receive 9; lose 9", 0),
    ("A read whose map is emptied by done.", "read 0; done 0", 1),
    ("By a fall.", "read 0; fall 0", 1),
    ("By a held fall.", "freeze 0; read 0; fall 0", 2),
    ("By a fail that is not held.", "read 0; fail 0", 1),
    (
        "A held fail empties nothing, and is the next step that acts: the read stays.",
        "freeze 0; read 0; fail 0; done 0",
        4,
    ),
    ("By a signing with outcome 0.", "freeze 0; read 0; sign {0}", 2),
    ("A signing with outcome 5 is passed over.", "read 0; sign {0}; done 0", 2),
    ("It does not empty the map: the read is used.", "read 0; sign {0}; write 0 text 2", 3),
    ("A signing that does not name the take is passed over.", "read 1; freeze 0; sign {0}; write 1 text 2", 4),
    ("A write uses it.", "read 0; write 0 text 2; done 0", 3),
    ("A held write acts too.", "freeze 0; read 0; write 0 text 2; done 0", 4),
    ("A send uses it.", "read 0; send 0 to 1 text 2; done 0", 3),
    ("A new uses it.", "read 0; new 0 text 2; done 0", 3),
    ("A freeze acts.", "read 0; freeze 0; done 0", 3),
    ("Of two reads the second is left out: the step after the first that acts is a read.", "read 0; read 0; done 0", 2),
    ("Refused steps between are passed over.", "read 0; send 0 to 9 text 2; raw 8000000000000001; done 0", 1),
    (
        "Steps of other takes between are passed over.",
        "read 0; write 1 text 2; read 1; letter to 0 text 1; done 0; send 1 to 0 text 2",
        5,
    ),
    ("The last read has no such step after it: it stays.", "done 1; read 0", 2),
    (
        "A read before a receipt: the done between them empties it.",
        "read 0; done 0; receive 3; read 0; write 0 text 1",
        4,
    ),
    ("A volume of two: both reads are left out.", "freeze 0; freeze 1; read 0; read 1; sign {0,1}", 3),
    ("A volume that is refused is passed over.", "freeze 0; read 0; sign {0,9}; done 0", 2),
    ("The rule is not applied again to its own result.", "read 0; read 0; done 0; receive 3; read 0; done 0", 4),
    ("A refused done empties nothing: the write uses the read.", "read 0; raw 8000000000000001; write 0 text 2", 2),
    ("Nor does a refused fall.", "read 0; raw 9000000000000001; write 0 text 2", 2),
    ("Nor a refused fail.", "read 0; raw a000000000000001; write 0 text 2", 2),
    ("Nor a refused volume.", "freeze 0; read 0; sign {0,9}; write 0 text 2", 3),
    ("A send to the take is no step that acts on it.", "read 1; send 0 to 1 text 2; done 1", 2),
    ("By a fall with outcome 4: take 1 was never signed, and vanishes.", "read 1; fall 1", 1),
    ("By a fail with outcome 4.", "read 1; fail 1", 1),
    ("By a fall with outcome 4, after a write.", "write 1 text 3; read 1; fall 1; root text 1", 3),
    ("A held fail of take 1.", "freeze 1; read 1; fail 1; done 1", 4),
    ("A held fail, then a signing.", "freeze 1; read 1; fail 1; sign {1}", 4),
    ("A signing of take 1 with outcome 5 is passed over.", "read 1; sign {1}; done 1", 2),
    ("It does not empty the map of take 1.", "read 1; sign {1}; write 1 text 2", 3),
    ("A volume of two with outcome 5.", "freeze 0; read 0; sign {0,1}; send 0 to 1 text 2", 4),
    ("A freeze of take 1 acts.", "read 1; freeze 1; done 1", 3),
    ("A send of take 1 uses it.", "read 1; send 1 to 0 text 2; done 1", 3),
    ("A new of take 1 uses it.", "read 1; new 1 text 2; done 1", 3),
    ("A write of take 1 uses it.", "read 1; write 1 text 2; fail 1", 3),
    ("A refused done of take 1 empties nothing.", "read 1; raw 8100000000000001; write 1 text 2", 2),
    ("Nor does a refused fall.", "read 1; raw 9100000000000001; send 1 to 0 text 2", 2),
    ("Nor a refused fail.", "read 1; raw a100000000000001; new 1 text 2", 2),
    ("Nor a signing that is refused.", "freeze 1; read 1; sign {1,9}; write 1 text 2", 3),
    ("Read, read, done: what the first is followed by is a read.", "read 1; read 1; done 1; read 0; read 0; fail 0", 4),
    ("A signing that does not name the take, which is done later.", "read 1; freeze 0; sign {0}; done 1", 3),
];

/// Lists up to so many steps are told in words.
const SHOWN: usize = 64;

/// An image of its own, what it is, and what is thinned on it.
type Thinned = (&'static str, &'static str, Vec<u8>, Vec<(&'static str, String, usize)>);

/// Sixteen takes at work; a receipt with unrelated marks; long lists.
fn others() -> Vec<Thinned> {
    let (own, held) = (mark(&[0], 0), frozen(&[0], 0));
    let busy = (0..16).fold(Image::fresh(LIMITS), |image, t| image.take(AT_WORK, t, held.clone()));
    let listening =
        Image::fresh(LIMITS).take(IDLE, 1, own.clone()).take(AT_WORK, 2, own).has(Map::State(0), 1, &mark(&[3], 0));
    let listening = listening.parcel(0, 0, 5, &[(1, mark(&[4], 0))]);
    let long = |steps: &str, times: usize, then: &str| format!("{}{then}", steps.repeat(times));
    let sixteen = vec![
        ("Takes 8 and 15 are in the volume's high byte.", "read 8; read 15; read 3; sign {8,15}".to_string(), 2),
        ("Take 15 alone is signed.", "read 15; sign {15}".to_string(), 1),
        ("Take 7 is not signed by the volume of take 15.", "read 7; sign {15}; write 7 text 1".to_string(), 3),
        (
            "All sixteen are signed.",
            long("read 0; read 7; read 8; read 15; ", 1, "sign {0,1,2,3,4,5,6,7,8,9,10,11,12,13,14,15}"),
            1,
        ),
        ("A done of take 15.", "read 15; read 14; done 15; write 14 text 2".to_string(), 3),
        ("300 steps stay: more than a byte counts.", long("write 0 text 1; ", 300, "read 0; done 0"), 301),
        ("256 steps stay.", long("write 0 text 1; ", 255, "receive 9; read 0; done 0"), 256),
        (
            "The longest list; the last step empties the read before it.",
            long("write 3 text 1; ", 1_022, "read 15; done 15"),
            1_023,
        ),
        ("The longest list; its last step is refused.", long("write 3 text 1; ", 1_022, "read 15; receive 9"), 1_023),
    ];
    let refused = vec![(
        "A receipt that is refused with 31 is left out, twice.",
        "receive 0; read 1; receive 0; done 1".to_string(),
        1,
    )];
    vec![
        ("sixteen at work", "Sixteen frozen takes at work, each signed once.", busy.0, sixteen),
        ("unrelated", "Take 0 would receive parcel 0 with 31; take 1 is at work.", listening.0, refused),
    ]
}

fn thinned(kit: &mut Kit, name: &str, image: &[u8], comment: &str, steps: &str, kept: usize) -> Test {
    let list = list(steps);
    let (refusal, answer, out) = kit.thin(image, &list, 0, list.len(), list.len());
    assert!((refusal, answer) == (0, kept), "{comment} keeps {answer}");
    let short = &out[..8 * kept];
    let (whole, again) =
        (kit.run(image, &list, 0, list.len(), list.len()), kit.run(image, short, 0, short.len(), short.len()));
    assert!(whole.image == again.image, "{comment} The short list leaves another image.");
    let test = Test::new(comment, &["thin"], "thin").with("image", name);
    let told = list.len() <= 8 * SHOWN;
    let test = if told { test.with("text", crate::kit::texts(&list)) } else { test };
    let test = test.with("list", words(&list)).with("refusal", 0usize).with("answer", answer);
    test.with("out", words(short))
}

pub fn thin(kit: &mut Kit) -> Suite {
    let mut suite = Suite::new("thin", ABOUT_THIN);
    let before = grown(LIMITS, &list(BEFORE));
    suite.good("two at work", "Takes 0 and 1 are at work, take 0 was signed once.", &before);
    for (comment, steps, kept) in THINNED {
        suite.tests.push(thinned(kit, "two at work", &before, comment, steps, *kept));
    }
    for (name, told, image, cases) in others() {
        suite.good(name, told, &image);
        suite
            .tests
            .extend(cases.iter().map(|(comment, steps, kept)| thinned(kit, name, &image, comment, steps, *kept)));
    }
    suite
}

/// Comment, first bytes of replies, width, count, place.
fn windows() -> Vec<(&'static str, Vec<u8>, usize, [usize; 2])> {
    let bad = |n: usize, at: &[usize]| (0..n).map(|i| if at.contains(&i) { 3 } else { 0 }).collect::<Vec<u8>>();
    vec![
        ("An empty list gives count 0 at place 0.", vec![], 1, [0, 0]),
        ("An empty list, with the greatest width.", vec![], 256, [0, 0]),
        ("A list shorter than the width is one window.", vec![0, 3, 4], 256, [2, 0]),
        ("As long as the width.", vec![3, 0, 4], 3, [2, 0]),
        ("The first of several with the greatest count.", vec![0, 3, 0, 4, 0, 3], 1, [1, 1]),
        ("Width 2: the greatest count is 1, and the window at 0 has it.", vec![0, 3, 0, 4, 0], 2, [1, 0]),
        ("Width 2: neighbours.", vec![3, 0, 0, 3, 4, 0], 2, [2, 3]),
        ("The last window.", vec![3, 0, 0, 0, 0, 4, 3], 2, [2, 5]),
        ("Only outcomes 3 and 4 count.", vec![0, 1, 2, 5, 16, 20, 28, 35, 131, 255], 3, [0, 0]),
        ("Both count.", vec![4, 4, 3, 0], 3, [3, 0]),
        ("One over the width.", bad(257, &[0, 256]), 256, [1, 0]),
        ("The window moves on by one.", bad(257, &[1, 256]), 256, [2, 1]),
        ("Late in the list.", bad(40, &[3, 30, 31]), 2, [2, 30]),
        ("A window that ends with the last reply.", bad(120, &[5, 50, 117, 118, 119]), 5, [3, 115]),
        ("Two far apart.", bad(300, &[10, 265, 299]), 256, [2, 10]),
    ]
}

pub fn window(kit: &mut Kit) -> Suite {
    let mut suite = Suite::new("window", ABOUT_WINDOW);
    let mut add = |comment: &str, list: &[u8], shown: usize, width: usize, expected: Result<[usize; 2], u8>| {
        let answer = kit.window(list, width).map(|(count, place)| [count, place]);
        assert!(answer == expected, "{comment} {answer:?}");
        let test = Test::new(comment, &["window"], "worst_window")
            .with("list", words(&list[..shown]))
            .with("list_length", list.len());
        let test = test.with("width", width).with("refusal", answer.err().unwrap_or(0) as usize);
        suite.tests.push(test.with("answer", answer.unwrap_or([0, 0]).to_vec()));
    };
    for (comment, firsts, width, expected) in windows() {
        // The other bytes of a reply say nothing.
        let list: Vec<u8> = firsts.iter().flat_map(|first| [*first, 3, 4, 3, 4, 3, 4, 3]).collect();
        let list = if firsts.len() > 100 {
            firsts.iter().flat_map(|first| [*first, 0, 0, 0, 0, 0, 0, 0]).collect()
        } else {
            list
        };
        add(comment, &list, list.len(), width, Ok(expected));
    }
    add("The longest list.", &[0; 8_192], 0, 1, Ok([0, 0]));
    let mut last = vec![0; 8_192];
    last[8_184] = 4;
    add("The longest list, trouble in its last reply.", &last, 8_192, 1, Ok([1, 1_023]));
    add("The longest list, the window before it too.", &last, 8_192, 256, Ok([1, 768]));
    add("17: no multiple of 8.", &[3; 9], 9, 1, Err(17));
    add("17: one byte.", &[3], 1, 1, Err(17));
    add("35: width 0, of an empty list.", &[], 0, 0, Err(35));
    add("35: width 257, of an empty list.", &[], 0, 257, Err(35));
    add("17: over 8,192 bytes.", &[0; 8_200], 0, 1, Err(17));
    add("17 comes before 35.", &[3; 7], 7, 0, Err(17));
    add("35: width 0.", &[3; 8], 8, 0, Err(35));
    add("35: width 257.", &[3; 8], 8, 257, Err(35));
    add("35: 65,537 is not 1.", &[3; 8], 8, 65_537, Err(35));
    add("35: 4,294,967,297 is not 1.", &[], 0, 1 << 32 | 1, Err(35));
    suite
}

struct Converter<'a> {
    kit: &'a mut Kit,
    suite: Suite,
    /// The names of the two images.
    names: [&'static str; 2],
    old: Vec<u8>,
    new: Vec<u8>,
}

impl Converter<'_> {
    fn case(
        &mut self,
        forward: bool,
        comment: &str,
        length: usize,
        target: usize,
        change: &[(usize, &[u8])],
        expected: u8,
    ) {
        let mut source = if forward { self.old.clone() } else { self.new.clone() };
        for (at, bytes) in change {
            source[*at..*at + bytes.len()].copy_from_slice(bytes);
        }
        source.resize(length, 0);
        let (refusal, after) = self.kit.convert(forward, &source, target);
        assert!(refusal == expected, "{comment} {refusal}");
        let change = change.iter().map(|(at, bytes)| Json::List(vec![(*at).into(), hex(bytes).into()]));
        let (call, image) = if forward { ("forward", self.names[0]) } else { ("back", self.names[1]) };
        let test =
            Test::new(comment, &["convert"], call).with("image", image).with("change", change.collect::<Vec<_>>());
        let test = test.with("length", length).with("target_length", target).with("refusal", refusal as usize);
        let done = |test: Test| test.with("sha256", hex_digest(&after)).with("after", sparse(&after));
        self.suite.tests.push(if refusal == 0 { done(test) } else { test });
    }

    fn forward(&mut self, comment: &str, change: &[(usize, &[u8])], expected: u8) {
        self.case(true, comment, OLD, IMAGE, change, expected);
    }

    fn back(&mut self, comment: &str, change: &[(usize, &[u8])], expected: u8) {
        self.case(false, comment, IMAGE, OLD, change, expected);
    }
}

/// A new image that has an old form: lives of at most 255, the greatest limits.
fn convertible() -> Image {
    Image::fresh(LIMITS)
        .take(IDLE, 7, mark(&[2, 255], 255))
        .saved(0, 5)
        .take(AT_WORK, 0x0102_0304, mark(&[], 1))
        .take(VANISHED, 0, mark(&[], 0))
        .has(Map::Creation(0), 1, &frozen(&[], 1))
        .has(Map::Behaviour(1), 0, &mark(&[2], 255))
        .parcel(300, 1, 9, &[(0, frozen(&[2, 255], 255))])
        .parcel(65_534, 2, 10, &[])
}

fn forwards(c: &mut Converter) {
    let (take, parcel) = (|t: usize| 4 + 825 * t, |k: usize| 4 + 825 * 16 + 279 * k);
    c.forward("The old image.", &[], 0);
    c.forward("With a parcel 0.", &[(parcel(0) + 1, &[0, 0])], 0);
    c.case(true, "16: the source is one byte short.", OLD - 1, IMAGE, &[], 16);
    c.case(true, "16: the source has the new length.", IMAGE, IMAGE, &[], 16);
    c.case(true, "16: the target is one byte over.", OLD, IMAGE + 1, &[], 16);
    c.case(true, "16: the target has the old length.", OLD, OLD, &[], 16);
    c.case(true, "16 comes before 19.", OLD, 0, &[(3, &[1])], 16);
    c.forward("19: the zero byte of the head.", &[(3, &[1])], 19);
    c.forward("19: seventeen takes opened.", &[(0, &[17])], 19);
    c.forward("19: an opened take with status 0.", &[(0, &[4])], 19);
    c.forward("19: a zero bit of a status.", &[(take(0), &[0x41])], 19);
    c.forward("19: a never signed take with a saved text.", &[(take(1) + 8, &[1])], 19);
    c.forward("19: an idle take with a behaviour map.", &[(take(0) + 9 + 2 * 272, &[0x80])], 19);
    c.forward("19: a vanished take with a text.", &[(take(2) + 1, &[1])], 19);
    c.forward("19: a live take without its own mark.", &[(take(1) + 9 + 17, &[0; 17])], 19);
    c.forward("19: a zero bit of a mark.", &[(take(1) + 9 + 17, &[0xa0])], 19);
    c.forward("19: a place past the count.", &[(take(1) + 9 + 17, &[0x80, 1, 1])], 19);
    c.forward(
        "A mark with the longest list.",
        &[(take(1) + 9, &[0x8f, 9, 1, 2, 3, 4, 5, 6, 7, 8, 9, 10, 11, 12, 13, 14, 255])],
        0,
    );
    c.forward("19: a mark of an unopened take.", &[(take(0) + 9 + 17 * 3, &[0x80])], 19);
    c.forward("19: parcels out of order.", &[(parcel(1) + 1, &[1, 44])], 19);
    c.forward("19: a number at the next.", &[(1, &[255, 254])], 19);
    c.forward("19: a parcel to an unopened take.", &[(parcel(0), &[0x83])], 19);
    c.forward("19: a place without a parcel has a text.", &[(parcel(2) + 5, &[1])], 19);
    c.forward("19: its last byte.", &[(OLD - 1, &[1])], 19);
    c.forward(
        "19: parcels with a gap: the second stands in the third place.",
        &[(parcel(1), &[0; 7]), (parcel(2), &[0x82, 255, 254, 0, 0, 0, 10])],
        19,
    );
    for head in [0xc1, 0xa1, 0x91] {
        c.forward("19: a zero bit of a parcel.", &[(parcel(0), &[head])], 19);
    }
    for (what, at, head) in [("second", parcel(1), 0x83), ("first", parcel(0), 0x84), ("first", parcel(0), 0x8f)] {
        c.forward(&format!("19: the {what} parcel is for a take that is not opened."), &[(at, &[head])], 19);
    }
    absent(c);
}

/// What must be zero: absent marks, and the places of takes that are not opened.
fn absent(c: &mut Converter) {
    let (take, parcel) = (|t: usize| 4 + 825 * t, |k: usize| 4 + 825 * 16 + 279 * k);
    for (what, at) in [
        ("state", take(1) + 9),
        ("creation", take(1) + 9 + 272),
        ("behaviour", take(1) + 9 + 2 * 272),
        ("a parcel's", parcel(0) + 7),
    ] {
        c.forward(&format!("19: an absent mark with an n, {what} map."), &[(at + 2 * 17 + 1, &[1])], 19);
    }
    c.forward("19: an absent mark that is frozen.", &[(take(1) + 9 + 2 * 17, &[0x40])], 19);
    c.forward("19: an absent mark with a count.", &[(take(1) + 9 + 2 * 17, &[1])], 19);
    c.forward("19: a take that is not opened, idle.", &[(take(3), &[0x40])], 19);
    c.forward("19: a take that is not opened, with a text.", &[(take(3) + 4, &[1])], 19);
    c.forward("19: the last byte of take 15.", &[(take(16) - 1, &[1])], 19);
}

fn backs(c: &mut Converter) {
    c.back("The new image.", &[], 0);
    c.case(false, "16: the source has the old length.", OLD, OLD, &[], 16);
    c.case(false, "16: the source is one byte over.", IMAGE + 1, OLD, &[], 16);
    c.case(false, "16: the target is one byte short.", IMAGE, OLD - 1, &[], 16);
    c.case(false, "16 comes before 19.", IMAGE, IMAGE, &[(3, &[1])], 16);
    c.back("19: ill-formed.", &[(3, &[1])], 19);
    c.back("19 comes before 32.", &[(3, &[1]), (4, &[8])], 19);
    c.back("32: fifteen takes.", &[(4, &[15])], 32);
    c.back("32: thirty-one parcels.", &[(5, &[31])], 32);
    c.back("32: fourteen signings.", &[(6, &[14])], 32);
    c.back("32: a life number of 256 in a take.", &[(mark_at(Map::State(0), 0) + 1, &[1, 0])], 32);
    c.back("32: an entry of 256 in a take.", &[(mark_at(Map::State(0), 0) + 5, &[1, 0])], 32);
    c.back("32: a life number in a creation map.", &[(mark_at(Map::Creation(0), 1) + 1, &[255, 255])], 32);
    c.back("32: an entry in a behaviour map.", &[(mark_at(Map::Behaviour(1), 0) + 3, &[1])], 32);
    c.back("32: a life number in a parcel.", &[(mark_at(Map::Parcel(0), 0) + 1, &[1])], 32);
    c.back(
        "32: the last entry of the longest list, in a parcel.",
        &[(mark_at(Map::Parcel(0), 0), &[0xcf]), (mark_at(Map::Parcel(0), 0) + 31, &[1, 0])],
        32,
    );
    c.back(
        "The greatest numbers that the old form has.",
        &[(mark_at(Map::Parcel(0), 0), &[0xcf]), (mark_at(Map::Parcel(0), 0) + 31, &[0, 255])],
        0,
    );
    c.back(
        "Texts, numbers of parcels and their next are not lives.",
        &[(take_at(0) + 1, &[255; 4]), (parcel_at(0) + 3, &[255; 4])],
        0,
    );
}

/// Sixteen takes and thirty-two parcels in the old form's limits.
fn full() -> Image {
    let mut image = Image::fresh(LIMITS).take(AT_WORK, 1, frozen(&[255; 14], 254)).saved(0, 2);
    for t in 1..16 {
        image = if t == 9 { image.take(VANISHED, 0, mark(&[], 0)) } else { image.take(IDLE, t, mark(&[], 0)) };
    }
    image = image.has(Map::Behaviour(0), 15, &mark(&[1, 2, 3], 4)).has(Map::Creation(3), 0, &mark(&[255; 15], 255));
    (0..32).fold(image, |image, k| image.parcel(8 * k + 7, k as usize % 16, k as u32, &[(15, mark(&[k], 1))]))
}

fn full_forwards(c: &mut Converter) {
    let (take, parcel) = (|t: usize| 4 + 825 * t, |k: usize| 4 + 825 * 16 + 279 * k);
    let map = |t: usize, m: usize, u: usize| take(t) + 9 + 272 * m + 17 * u;
    c.forward("All takes, all parcels.", &[], 0);
    c.forward("19: seventeen takes.", &[(0, &[17])], 19);
    c.forward("19: fifteen takes, and a sixteenth in its place.", &[(0, &[15])], 19);
    c.forward("19: a zero bit of take 15's status.", &[(take(15), &[0x44])], 19);
    c.forward("19: take 15 without its own mark.", &[(map(15, 0, 15), &[0])], 19);
    c.forward("19: a never signed take with a saved text, its first byte.", &[(take(15) + 5, &[1])], 19);
    c.forward("19: an idle take with a behaviour map, its last byte.", &[(take(16) - 1, &[1])], 19);
    c.forward("19: take 9, vanished, with the last byte of its text.", &[(take(9) + 4, &[1])], 19);
    c.forward("19: its last byte.", &[(take(10) - 1, &[1])], 19);
    c.forward("19: a zero bit of a mark of take 15.", &[(map(0, 2, 15), &[0x93])], 19);
    c.forward("19: a mark of take 0, a zero bit.", &[(map(3, 1, 0), &[0xaf])], 19);
    for count in [1, 6, 7, 13, 14] {
        let mut bytes = [255; 17];
        bytes[0] = 0x80 | count as u8;
        bytes[2 + count..].fill(0);
        c.forward("Full up to the count.", &[(map(5, 0, 1), &bytes)], 0);
        bytes[2 + count] = 1;
        c.forward("19: a place past the count.", &[(map(5, 0, 1), &bytes)], 19);
    }
    c.forward("19: an absent mark of take 15 with a count.", &[(map(0, 0, 15), &[3])], 19);
    c.forward("19: an absent mark of take 15 that is frozen.", &[(map(0, 1, 15), &[0x40])], 19);
    c.forward("19: an absent mark with its last byte.", &[(map(0, 1, 15) + 16, &[1])], 19);
    c.forward("19: a zero bit of take 0's mark in a state map.", &[(map(3, 0, 0), &[0x90])], 19);
    c.forward("19: in the first parcel.", &[(parcel(0) + 7, &[0x90])], 19);
    c.forward("19: take 9, vanished, with the first byte of its text.", &[(take(9) + 1, &[1])], 19);
    c.forward("19: a saved text of a take that was never signed, its first bit.", &[(take(14) + 5, &[128])], 19);
    c.forward("19: take 15, idle, with a mark of take 0 in behaviour.", &[(map(15, 2, 0), &[0x80])], 19);
    c.forward("19: take 1, idle, with a mark of take 15 in behaviour.", &[(map(1, 2, 15), &[0xc1, 7, 7])], 19);
    c.forward("19: the next number and the last parcel's are 512.", &[(1, &[2, 0]), (parcel(31) + 1, &[2, 0])], 19);
    c.forward("A take that was signed once.", &[(map(15, 0, 15), &[0x81]), (take(15) + 5, &[1])], 0);
    c.forward("A frozen one.", &[(map(14, 0, 14), &[0xc1, 3, 4]), (take(14) + 5, &[9, 9, 9, 9])], 0);
    c.forward("The first parcel has the number 0.", &[(parcel(0) + 1, &[0, 0])], 0);
    c.forward("19: the second one too.", &[(parcel(0) + 1, &[0, 0]), (parcel(1) + 1, &[0, 0])], 19);
    c.forward("A signed take may be saved with any text.", &[(take(0) + 5, &[255; 4])], 0);
    c.forward("A take that was signed twice.", &[(map(15, 0, 15), &[0x82]), (take(15) + 5, &[1])], 0);
    c.forward("19: the last parcel has the number of the one before.", &[(parcel(31) + 1, &[0, 247])], 19);
    c.forward("19: the second has the first's.", &[(parcel(1) + 1, &[0, 7])], 19);
    c.forward("19: 256 comes after 7.", &[(parcel(0) + 1, &[1, 0])], 19);
    c.forward("19: the last is at the next number.", &[(1, &[0, 255])], 19);
    c.forward("19: the next number is 511, and the last parcel 512.", &[(1, &[1, 255]), (parcel(31) + 1, &[2, 0])], 19);
    c.forward("The next number is 512, and the last parcel 511.", &[(1, &[2, 0]), (parcel(31) + 1, &[1, 255])], 0);
    c.forward("19: a zero bit of the last parcel.", &[(parcel(31), &[0x9f])], 19);
    c.forward("19: the last but one does not wait.", &[(parcel(30), &[0; 279])], 19);
    c.forward("The last does not wait.", &[(parcel(31), &[0; 279])], 0);
    c.forward("19: the last does not wait, and has a mark.", &[(parcel(31), &[0; 7])], 19);
    c.forward("19: a mark of the last parcel.", &[(parcel(31) + 7 + 17 * 15, &[0xa1])], 19);
}

fn full_backs(c: &mut Converter) {
    c.back("All takes, all parcels.", &[], 0);
    c.back("32: an entry of take 15's own mark.", &[(mark_at(Map::State(15), 15), &[0x81, 0, 0, 1, 0])], 32);
    c.back("32: a life number in a state map.", &[(mark_at(Map::State(4), 15), &[0x80, 1, 0])], 32);
    c.back("32: an entry in a state map.", &[(mark_at(Map::State(4), 15), &[0x81, 0, 0, 1, 0])], 32);
    c.back("32: an entry in a creation map.", &[(mark_at(Map::Creation(15), 15), &[0x81, 0, 0, 1, 0])], 32);
    c.back("32: the fifteenth entry, of take 0 in a creation map.", &[(mark_at(Map::Creation(3), 0) + 31, &[1])], 32);
    c.back("32: a life number in a behaviour map.", &[(mark_at(Map::Behaviour(0), 15) + 1, &[1])], 32);
    c.back("32: the last mark of the last parcel.", &[(mark_at(Map::Parcel(31), 15) + 1, &[1])], 32);
    c.back("19 comes before 32: a life number past the count.", &[(mark_at(Map::Parcel(31), 15) + 5, &[1])], 19);
    c.back(
        "32: one limit is another.",
        &[(6, &[14]), (mark_at(Map::Creation(3), 0), &[0x80; 1]), (mark_at(Map::Creation(3), 0) + 3, &[0; 30])],
        32,
    );
}

fn converted(
    kit: &mut Kit,
    suite: Suite,
    image: Image,
    names: [&'static str; 2],
    cases: [fn(&mut Converter); 2],
) -> Suite {
    let (new, mut old, mut suite) = (image.0, vec![0; OLD], suite);
    assert!(bench::convert::back(&new, &mut old) == 0);
    suite.image(names[0], "An image of the old form.", &old);
    suite.good(names[1], "The same image in the ledger's form.", &new);
    let mut c = Converter { kit, suite, names, old, new };
    cases.iter().for_each(|case| case(&mut c));
    c.suite
}

pub fn convert(kit: &mut Kit) -> Suite {
    let suite = Suite::new("convert", ABOUT_CONVERT);
    let suite = converted(kit, suite, convertible(), ["old", "new"], [forwards, backs]);
    converted(kit, suite, full(), ["old, full", "new, full"], [full_forwards, full_backs])
}
