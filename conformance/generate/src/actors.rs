//! For whom steps act (docs/RULES.md, 9.12). Who it is was written down by hand for each.

use crate::image::words;
use crate::images::{full, small};
use crate::kit::{texts, Kit, Suite, Test};
use crate::notation;
use bench::generate::{self, Random};
use bench::ledger::{self, IMAGE, STEP};

const ABOUT: &str = "For whom a step acts. The list is the step; list_length, where it is given, its bytes, cut off or with zeros behind. \
    The answer is 0 nobody, 1 the house, 2 a take, 3 a volume; and the takes, take t counting 2^t.";

/// A step, for whom it acts, and why.
type Said = (&'static str, [usize; 2], &'static str);

const NOBODY: [usize; 2] = [0, 0];
const HOUSE: [usize; 2] = [1, 0];

const fn take(t: usize) -> [usize; 2] {
    [2, 1 << t]
}

const fn volume(bits: usize) -> [usize; 2] {
    [3, bits]
}

/// Of the small image: takes 0 idle, 1 at work, 2 vanished, 3 not opened; parcel 3 waits for take 0, parcel 7 for take 2.
const SMALL: &[Said] = &[
    ("root text 9", HOUSE, "Root is the house's."),
    ("root text 0", HOUSE, "Also with text 0: eight zero bytes."),
    ("letter to 1 text 5", HOUSE, "A letter is the house's, not its addressee's."),
    ("letter to 9 text 5", HOUSE, "Also to a take that is not opened: 21 is not asked about."),
    ("lose 3", HOUSE, "So is the loss of a parcel."),
    ("lose 5", HOUSE, "Also of one that does not wait: 24 is not asked about."),
    ("receive 3", take(0), "A receipt is the addressee's."),
    ("receive 7", take(2), "Also where the addressee vanished, and it is refused with 22."),
    ("receive 0", NOBODY, "Number 0, which free places have, does not wait."),
    ("receive 5", NOBODY, "Nor does a number between those that wait."),
    ("receive 9", NOBODY, "Nor does the next number."),
    ("receive 259", NOBODY, "259 is not 3."),
    ("receive 65535", NOBODY, "Nor does 65,535."),
    ("new 1 text 5", take(1), "New is its opener's."),
    ("send 1 to 0 text 5", take(1), "A send is the sender's, not its addressee's."),
    ("send 0 to 1 text 5", take(0), "Also where the sender is idle, and it is refused with 23."),
    ("read 1", take(1), "Kinds 5 to 10 are the acting take's: read."),
    ("write 1 text 5", take(1), "Write."),
    ("freeze 1", take(1), "Freeze."),
    ("done 1", take(1), "Done."),
    ("fall 1", take(1), "Fall."),
    ("fail 0", take(0), "Fail."),
    ("fail 2", take(2), "Also of a take that vanished: 22 is not asked about."),
    ("freeze 3", take(3), "Also of one that is not opened: nor is 21."),
    ("done 15", take(15), "The last take, which is not opened."),
    ("sign {0}", volume(1), "A signing is the named takes'."),
    ("sign {0,1}", volume(3), "Of both of them."),
    ("sign {2,15}", volume(1 << 15 | 4), "Also of takes that can't be signed."),
    ("sign {}", volume(0), "Also of none: 29 is not asked about."),
    ("raw cf00000300000000", NOBODY, "20: a signing with a take."),
    ("raw 0100000000000009", NOBODY, "20: a root with a take."),
    ("raw 0010000000000009", NOBODY, "20: a root with an addressee."),
    ("raw 0001000000000009", NOBODY, "20: a root with a zero bit."),
    ("raw 0000000100000009", NOBODY, "20: a root with a parcel."),
    ("raw 1011000000000005", NOBODY, "20: a letter with a zero bit."),
    ("raw 2000000300000001", NOBODY, "20: a receipt of a waiting parcel with a text."),
    ("raw 2100000300000000", NOBODY, "20: a receipt with a take."),
    ("raw 3110000000000005", NOBODY, "20: new with an addressee."),
    ("raw 4108000000000005", NOBODY, "20: a send with a zero bit."),
    ("raw 4100000100000005", NOBODY, "20: a send with a parcel."),
    ("raw 5100000000000001", NOBODY, "20: a read with a text."),
    ("raw 6110000000000005", NOBODY, "20: a write with an addressee."),
    ("raw 7100000100000000", NOBODY, "20: a freeze with a parcel."),
    ("raw 8102000000000000", NOBODY, "20: done with a zero bit."),
    ("raw 9100000000000100", NOBODY, "20: a fall with a text."),
    ("raw a120000000000000", NOBODY, "20: a fail with an addressee."),
    ("raw b000000300000001", NOBODY, "20: a loss with a text."),
    ("raw b100000300000000", NOBODY, "20: a loss with a take."),
    ("raw c000000300000001", NOBODY, "20: a signing with a text."),
    ("raw d000000000000000", NOBODY, "20: kind 13."),
    ("raw e100000000000000", NOBODY, "20: kind 14."),
    ("raw f000000300000000", NOBODY, "20: kind 15."),
];

/// All takes opened; in each place k waits parcel 2 k, for take k mod 16.
const FULL: &[Said] = &[
    ("receive 0", take(0), "The parcel in the first place."),
    ("receive 2", take(1), "That in the second."),
    ("receive 30", take(15), "That to the last take."),
    ("receive 32", take(0), "The next one, to the first take again."),
    ("receive 62", take(15), "The parcel in the last place."),
    ("receive 1", NOBODY, "A number between them."),
    ("fall 15", take(15), "The last take."),
    ("sign {}", volume(0), "No take."),
    ("send 15 to 0 text 1", take(15), "The last take as sender."),
    ("root text 1", HOUSE, "Also where no take is left to open: 25 is not asked about."),
    ("letter to 15 text 1", HOUSE, "Also where no place is left: nor is 26."),
    ("sign {0,1,2,3,4,5,6,7,8,9,10,11,12,13,14,15}", volume(65_535), "All takes."),
];

struct Builder<'a> {
    kit: &'a mut Kit,
    suite: Suite,
}

impl Builder<'_> {
    fn add(&mut self, comment: &str, name: &str, image: &[u8], step: u64) -> Result<[usize; 2], u8> {
        let list = step.to_be_bytes();
        let answer = self.kit.actor(image, &list);
        let test = Test::new(comment, &["query"], "actor").with("image", name).with("text", texts(&list));
        let numbers = answer.unwrap_or([0, 0]).to_vec();
        self.suite.tests.push(test.with("list", words(&list)).with("refusal", 0usize).with("answer", numbers));
        answer
    }

    fn said(&mut self, name: &str, image: &[u8], all: &[Said]) {
        for (text, acts, comment) in all {
            let answer = self.add(comment, name, image, notation::step(text));
            assert!(answer == Ok(*acts), "{name}: {text}: {answer:?}, not {acts:?}");
        }
    }

    fn refused(&mut self, refusal: u8, comment: &str, name: &str, image: &[u8], length: usize, step: usize) {
        let mut lent = image.to_vec();
        lent.resize(length, 0);
        let list = notation::step("freeze 1").to_be_bytes();
        let answer = self.kit.actor(&lent, &[&list[..], &[0; 16]].concat()[..step]);
        assert!(answer == Err(refusal), "{comment}: {answer:?}");
        let mut test = Test::new(comment, &["query", "refusal"], "actor").with("image", name);
        if length != IMAGE {
            test = test.with("length", length);
        }
        let test = test.with("text", texts(&list)).with("list", words(&list));
        let test = if step == STEP { test } else { test.with("list_length", step) };
        self.suite.tests.push(test.with("refusal", refusal as usize).with("answer", vec![0usize; 2]));
    }
}

/// Steps of random sessions.
fn random(b: &mut Builder) {
    for seed in 0..4 {
        let mut r = Random(seed);
        let mut image = vec![0; IMAGE];
        ledger::begin(&mut image, 3 + r.below(14), 1 + r.below(32), 1 + r.below(3));
        generate::steps(&mut r, &generate::SIGNING, &mut image, 60);
        let name = format!("random {seed}");
        b.suite.good(&name, "A random session.", &image);
        for _ in 0..8 {
            let step = generate::step(&mut r, &generate::SIGNING, &image);
            b.add("Of a random session.", &name, &image, step).expect("a well-formed image");
        }
    }
}

pub fn suite(kit: &mut Kit) -> Suite {
    let mut b = Builder { kit, suite: Suite::new("actors", ABOUT) };
    let (small, full) = (small().0, full().0);
    let ill = small.iter().enumerate().map(|(at, byte)| if at == 3 { 1 } else { *byte }).collect::<Vec<u8>>();
    b.suite.good(
        "small",
        "Take 0 idle, 1 at work, 2 vanished, 3 not opened; parcel 3 for take 0, 7 for take 2.",
        &small,
    );
    b.suite.good("full", "All takes opened; parcel 2 k waits in place k, for take k mod 16.", &full);
    b.suite.image("ill", "The small one, ill-formed by byte 3.", &ill);
    b.said("small", &small, SMALL);
    b.said("full", &full, FULL);
    b.refused(16, "16: one byte short.", "small", &small, IMAGE - 1, STEP);
    b.refused(16, "16: one byte over.", "small", &small, IMAGE + 1, STEP);
    b.refused(16, "16 comes before 17.", "small", &small, 0, 7);
    b.refused(16, "16 comes before 19.", "ill", &ill, IMAGE - 1, STEP);
    b.refused(17, "17: the step is one byte short.", "small", &small, IMAGE, 7);
    b.refused(17, "17: one byte over.", "small", &small, IMAGE, 9);
    b.refused(17, "17: two steps.", "small", &small, IMAGE, 16);
    b.refused(17, "17: none.", "small", &small, IMAGE, 0);
    b.refused(17, "17 comes before 19.", "ill", &ill, IMAGE, 7);
    b.refused(17, "17 comes before 19: two steps.", "ill", &ill, IMAGE, 16);
    b.refused(19, "19.", "ill", &ill, IMAGE, STEP);
    random(&mut b);
    b.suite
}
