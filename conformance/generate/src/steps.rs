//! Steps on images that no session grows: 31; 28 at life 65,535; 27 at the last numbers; joins to the letter.

use crate::house;
use crate::image::{frozen, mark, sparse, words, Image, Map, Mark, AT_WORK, IDLE, VANISHED};
use crate::kit::{texts, Kit, Suite, Test, LIMITS};
use crate::notation;

/// Comment, flags, image, steps with their outcomes.
pub type Case = (&'static str, &'static str, Image, &'static str);

const TIE: &str = "left-at-a-tie mistake";
const HIDES: &str = "join-hides mistake";
const OWN: &str = "news-own-entry mistake news";

/// Takes 0 and 1; take 1 idle, with an own mark and these marks of take 0 in its state and creation maps; a parcel to it.
fn receipt(own: &Mark, state: Option<&Mark>, creation: Option<&Mark>, parcel: &[(usize, &Mark)]) -> Image {
    let mut image = Image::fresh(LIMITS).take(IDLE, 1, mark(&[], 0)).take(IDLE, 2, own.clone());
    for (map, m) in [(Map::State(1), state), (Map::Creation(1), creation)] {
        image = if let Some(m) = m { image.has(map, 0, m) } else { image };
    }
    let saved = if own.list.is_empty() { 0 } else { 77 };
    let parcel: Vec<(usize, Mark)> = parcel.iter().map(|(u, m)| (*u, (*m).clone())).collect();
    image.saved(1, saved).parcel(0, 1, 5, &parcel)
}

fn unrelated() -> Vec<Case> {
    let (own, m, x, other) = (&mark(&[1], 2), &mark(&[3], 0), &mark(&[4], 0), &mark(&[2], 2));
    let newest = &mark(&[3], 1);
    let busy = receipt(own, Some(m), None, &[(0, x)]).put(bench::generate::take_at(1), &[AT_WORK << 6]);
    vec![
        (
            "31: the parcel's mark of take 0 and the one in the state map are unrelated. The parcel stays.",
            "unrelated",
            receipt(own, Some(m), None, &[(0, x)]),
            "receive 0 => 31; receive 0 => 31",
        ),
        ("31: the one in the creation map.", "unrelated", receipt(own, None, Some(m), &[(0, x)]), "receive 0 => 31"),
        ("31, frozen.", "unrelated", receipt(&frozen(&[1], 2), Some(m), None, &[(0, x)]), "receive 0 => 31"),
        ("31: the own entry is asked too.", "unrelated", receipt(own, None, None, &[(1, other)]), "receive 0 => 31"),
        ("23 comes before 31.", "unrelated order", busy, "receive 0 => 23"),
        (
            "A mark that the take alone has is compared with nothing.",
            "unrelated",
            receipt(own, Some(newest), None, &[(1, own)]),
            "receive 0",
        ),
        (
            "Nor is one that the parcel alone has: no mark is not the opening mark.",
            "unrelated",
            receipt(own, None, None, &[(0, newest)]),
            "receive 0",
        ),
    ]
}

fn unrelated_first() -> Vec<Case> {
    let (own, m, newer, other) = (&mark(&[1], 2), &mark(&[3], 0), &mark(&[3], 1), &mark(&[2], 2));
    vec![
        (
            "31 comes before dropped: take 0's mark in the parcel is stale, its mark of take 1 unrelated.",
            "unrelated order",
            receipt(own, Some(newer), None, &[(0, m), (1, other)]),
            "receive 0 => 31",
        ),
        (
            "31 comes before a fall.",
            "unrelated order",
            receipt(own, Some(m), None, &[(0, newer), (1, other)]),
            "receive 0 => 31",
        ),
    ]
}

fn hidden() -> Vec<Case> {
    let (own, m, x) = (&mark(&[1], 2), &mark(&[3], 0), &mark(&[4], 0));
    let (newer, unrelated) = (&mark(&[4, 0], 0), &mark(&[3, 0], 0));
    vec![
        (
            "The join hides an unrelated mark: that of the creation map, unrelated to the parcel's, is hidden \
             by that of the state map, which is not. The parcel is taken.",
            HIDES,
            receipt(own, Some(newer), Some(m), &[(0, x)]),
            "receive 0",
        ),
        (
            "The state map's mark is hidden, by a longer list in the creation map.",
            HIDES,
            receipt(own, Some(m), Some(newer), &[(0, x)]),
            "receive 0",
        ),
        (
            "The neighbour: the joined mark is the unrelated one.",
            HIDES,
            receipt(own, Some(x), Some(unrelated), &[(0, x)]),
            "receive 0 => 31",
        ),
        (
            "At a tie the state map's mark is left, and the joined one: it is unrelated to the parcel's.",
            TIE,
            receipt(own, Some(m), Some(x), &[(0, x)]),
            "receive 0 => 31",
        ),
        ("The neighbour: the creation map's is hidden.", TIE, receipt(own, Some(x), Some(m), &[(0, x)]), "receive 0"),
    ]
}

fn last_life() -> Vec<Case> {
    let (last, ground, newer) = (&mark(&[0], 65_535), Some(&mark(&[3], 1)), &mark(&[3], 2));
    vec![
        (
            "28: a signed take would fall from life 65,535. The parcel stays.",
            "last-life",
            receipt(last, ground, None, &[(0, newer)]),
            "receive 0 => 28; receive 0 => 28",
        ),
        ("28, frozen.", "last-life", receipt(&frozen(&[0], 65_535), ground, None, &[(0, newer)]), "receive 0 => 28"),
        (
            "From life 65,534 it falls to 65,535.",
            "last-life",
            receipt(&mark(&[0], 65_534), ground, None, &[(0, newer)]),
            "receive 0 => 3",
        ),
        (
            "Never signed, at life 65,535: it vanishes, with no 28.",
            "last-life",
            receipt(&mark(&[], 65_535), ground, None, &[(0, newer)]),
            "receive 0 => 4",
        ),
    ]
}

fn after_dropped() -> Vec<Case> {
    let (last, ground, newer, own) = (&mark(&[0], 65_535), &mark(&[3], 1), &mark(&[3], 2), &mark(&[0], 65_534));
    vec![
        (
            "28 after dropped: the parcel has a stale mark too, so it is dropped.",
            "28-after-dropped mistake order",
            receipt(last, Some(ground), None, &[(0, newer), (1, own)]),
            "receive 0 => 2",
        ),
        (
            "28 only where the take would fall: this parcel is dropped.",
            "28-after-dropped mistake",
            receipt(last, Some(newer), None, &[(0, ground)]),
            "receive 0 => 2",
        ),
        (
            "And this one is taken.",
            "28-after-dropped mistake",
            receipt(last, Some(ground), None, &[(0, ground)]),
            "receive 0",
        ),
    ]
}

fn falls() -> Vec<Case> {
    let at = |own: Mark| {
        let saved = 9 * !own.list.is_empty() as u32;
        Image::fresh(LIMITS).take(AT_WORK, 1, own).saved(0, saved)
    };
    vec![
        (
            "Fail at 65,534 gives 65,535; fail at 65,535 is refused with 28, and changes nothing.",
            "last-life",
            at(mark(&[0], 65_534)),
            "fail 0 => 3; fail 0 => 28",
        ),
        (
            "Fall at 65,534, and at 65,535.",
            "last-life",
            at(mark(&[0], 65_534)),
            "fall 0 => 3; fall 0 => 23; letter to 0 text 5; receive 0; fall 0 => 28",
        ),
        (
            "254, 255 and 256 are lives like others.",
            "low-byte-alone mistake",
            at(mark(&[0], 254)),
            "fail 0 => 3; fail 0 => 3; fail 0 => 3; fail 0 => 3",
        ),
        (
            "A frozen take at life 65,535 is held, and can be signed: the list then ends with 65,535.",
            "last-life",
            at(frozen(&[0], 65_535)),
            "fail 0 => 1; fall 0 => 1; sign {0}",
        ),
        ("Never signed, at life 65,535: it vanishes.", "last-life", at(mark(&[], 65_535)), "fall 0 => 4"),
    ]
}

/// A signed take with marks in all its maps, which falls back.
fn emptied() -> Vec<Case> {
    let (own, older, m) = (&mark(&[2], 1), &mark(&[2], 0), &mark(&[], 0));
    let full = Image::fresh(LIMITS).take(IDLE, 1, m.clone()).take(AT_WORK, 2, own.clone()).saved(1, 77);
    let full = full.has(Map::State(1), 0, m).has(Map::Creation(1), 0, m).has(Map::Creation(1), 1, older);
    let full = full.has(Map::Behaviour(1), 0, m);
    vec![
        (
            "A take that falls back, here by fail, has its next mark alone: the creation map is emptied too.",
            "outcome",
            full.clone(),
            "fail 1 => 3",
        ),
        ("The same by fall.", "outcome", full, "fall 1 => 3"),
        (
            "The same by a receipt that shows that a ground of its creation map fell.",
            "outcome",
            receipt(own, None, Some(&mark(&[3], 0)), &[(0, &mark(&[3], 1))]),
            "receive 0 => 3",
        ),
    ]
}

fn last_number() -> Vec<Case> {
    let at = |next: u16| Image::fresh([2, 2, 2]).take(AT_WORK, 1, mark(&[], 0)).next(next);
    vec![
        (
            "The last number is 65,534; then a letter, and a send, is refused with 27.",
            "last-number",
            at(65_534),
            "letter to 0 text 5; letter to 0 text 6 => 27; send 0 to 0 text 7 => 27",
        ),
        (
            "The same by send; a lost parcel gives no number back.",
            "last-number",
            at(65_534),
            "send 0 to 0 text 5; send 0 to 0 text 6 => 27; lose 65534; letter to 0 text 7 => 27",
        ),
        (
            "At 65,535 no parcel can be made.",
            "last-number",
            at(65_535),
            "letter to 0 text 5 => 27; send 0 to 0 text 6 => 27",
        ),
        (
            "26 comes before 27.",
            "last-number order",
            at(0).parcel(65_533, 0, 1, &[]).parcel(65_534, 0, 2, &[]),
            "letter to 0 text 5 => 26; send 0 to 0 text 6 => 26; lose 65533; letter to 0 text 5 => 27",
        ),
        (
            "21, 22 and 23 come before 27.",
            "last-number order",
            at(65_535).take(VANISHED, 0, mark(&[], 0)),
            "letter to 5 text 0 => 21; send 1 to 0 text 0 => 22; done 0; send 0 to 0 text 0 => 23",
        ),
    ]
}

/// Take 1 at work, with these marks of take 0 in its three maps.
fn at_work(state: &Mark, creation: Option<&Mark>, behaviour: &Mark) -> Image {
    let image = Image::fresh(LIMITS).take(IDLE, 1, mark(&[], 0)).take(AT_WORK, 2, mark(&[], 0));
    let image = image.has(Map::State(1), 0, state).has(Map::Behaviour(1), 0, behaviour);
    if let Some(m) = creation {
        image.has(Map::Creation(1), 0, m)
    } else {
        image
    }
}

fn ties() -> Vec<Case> {
    let (m, x, third) = (&mark(&[3], 0), &mark(&[4], 0), &mark(&[9], 0));
    vec![
        ("Read, at a tie: state is left, so its mark replaces the other.", TIE, at_work(m, None, x), "read 1"),
        ("Write, at a tie: behaviour is left.", TIE, at_work(m, None, x), "write 1 text 9"),
        ("Send, at a tie: creation is left of behaviour.", TIE, at_work(m, Some(third), x), "send 1 to 0 text 9"),
        ("New, at a tie: creation is left of behaviour.", TIE, at_work(m, Some(third), x), "new 1 text 9"),
        (
            "A receipt, at a tie of state and creation, and the joins afterwards.",
            TIE,
            receipt(&mark(&[], 0), Some(m), Some(x), &[(0, m)]),
            "receive 0; send 1 to 0 text 1; read 1; write 1 text 2",
        ),
    ]
}

fn own_ties() -> Vec<Case> {
    let (m, x) = (&mark(&[3], 0), &mark(&[4], 0));
    let own = |in_creation: &Mark| at_work(m, None, x).has(Map::Creation(1), 1, in_creation);
    let alone = Image::fresh(LIMITS).take(AT_WORK, 2, m.clone()).saved(0, 1);
    vec![
        (
            "Send: here the creation map's mark of the take itself is newer than its own mark.",
            TIE,
            own(&mark(&[], 1)),
            "send 1 to 0 text 9",
        ),
        (
            "Send: here the own mark is newer, being frozen.",
            TIE,
            own(&mark(&[], 0)).has(Map::State(1), 1, &frozen(&[], 0)),
            "send 1 to 0 text 9",
        ),
        (
            "Send, at a tie of creation and own mark: creation is left.",
            TIE,
            alone.clone().has(Map::Creation(0), 0, x),
            "send 0 to 0 text 9; new 0 text 9",
        ),
        (
            "Send, at a tie of behaviour and own mark: behaviour is left.",
            TIE,
            alone.has(Map::Behaviour(0), 0, x),
            "send 0 to 0 text 9; new 0 text 9",
        ),
    ]
}

fn to_the_letter() -> Vec<Case> {
    let work =
        |own: Mark, in_hand: Mark| Image::fresh(LIMITS).take(AT_WORK, 2, own).has(Map::Behaviour(0), 0, &in_hand);
    vec![
        (
            "Joins are applied to the letter: a write replaces the own mark by a newer one from the behaviour map.",
            "to-the-letter",
            work(mark(&[], 3), mark(&[], 7)),
            "write 0 text 9",
        ),
        (
            "A write so freezes the own mark; the next one is held.",
            "to-the-letter",
            work(mark(&[], 3), frozen(&[], 3)),
            "write 0 text 9; write 0 text 9 => 1; sign {0}",
        ),
        (
            "A write so makes a never signed take a signed one, with saved text 0.",
            "to-the-letter",
            work(mark(&[], 3), mark(&[3], 0)),
            "write 0 text 9; fail 0 => 3",
        ),
        (
            "A read keeps a newer mark of the take itself that the behaviour map has.",
            "to-the-letter",
            work(mark(&[], 3), mark(&[], 7)),
            "read 0",
        ),
        (
            "The neighbour: an older one is replaced by the own mark.",
            "to-the-letter",
            work(mark(&[], 3), mark(&[], 2)),
            "read 0",
        ),
    ]
}

fn own_news() -> Vec<Case> {
    let (own, m) = (&mark(&[1], 2), &mark(&[3], 0));
    vec![
        (
            "News of a freeze is not written into the receiver's own entry, here of the state map, though the \
             parcel has its life frozen.",
            OWN,
            receipt(own, None, None, &[(1, &frozen(&[1], 2))]),
            "receive 0; sign {1} => 5",
        ),
        (
            "Nor though the parcel shows it signed.",
            OWN,
            receipt(own, None, None, &[(1, &mark(&[1, 2], 0))]),
            "receive 0; write 1 text 3",
        ),
        (
            "Nor into its entry of its own creation map.",
            OWN,
            receipt(own, None, None, &[(1, &frozen(&[1], 2))]).has(Map::Creation(1), 1, own),
            "receive 0",
        ),
        (
            "The neighbour: into every other entry, of both maps.",
            OWN,
            receipt(own, Some(m), Some(m), &[(0, &frozen(&[3], 0))]),
            "receive 0",
        ),
    ]
}

fn news() -> Vec<Case> {
    let (own, m, signed) = (&mark(&[1], 2), Some(&mark(&[3], 4)), Some(&mark(&[], 3)));
    vec![
        (
            "News, each map by itself: the parcel's list begins with the list of each recorded mark and goes on with its n.",
            "news",
            receipt(own, m, signed, &[(0, &mark(&[3, 4], 0))]),
            "receive 0",
        ),
        (
            "The creation mark was signed, the state mark is of the frozen life: both become frozen.",
            "news",
            receipt(own, m, signed, &[(0, &frozen(&[3], 4))]),
            "receive 0",
        ),
        (
            "No news: the state mark's life is shown unfrozen; the creation mark's, which the join hides, was \
             withdrawn: the list goes on with a greater number.",
            "news",
            receipt(own, m, Some(&mark(&[], 2)), &[(0, &mark(&[3], 4))]),
            "receive 0",
        ),
        (
            "A frozen mark stays so, also where the parcel has it unfrozen.",
            "news",
            receipt(own, Some(&frozen(&[3], 4)), None, &[(0, &mark(&[3], 4))]),
            "receive 0",
        ),
    ]
}

/// Take 1, frozen, with a mark of take 0 in its creation map, and take 0 with this present mark.
fn ground(ground: Mark, present: Mark) -> Image {
    let saved = !present.list.is_empty() as u32;
    let image = Image::fresh(LIMITS).take(IDLE, 1, present).saved(0, saved).take(IDLE, 2, frozen(&[], 0));
    image.has(Map::Creation(1), 0, &ground)
}

fn signed_lives() -> Vec<Case> {
    let present = || mark(&[5, 256, 1], 0);
    vec![
        (
            "Signed: the present list begins with the life's list and goes on with its n.",
            "signing",
            ground(mark(&[5], 256), present()),
            "sign {1}",
        ),
        (
            "Not signed: it goes on with another number, the same in its low byte.",
            "signing low-byte-alone mistake",
            ground(mark(&[5], 256), mark(&[5, 0, 1], 0)),
            "sign {1} => 5",
        ),
        ("Not signed: the list begins otherwise.", "signing", ground(mark(&[6], 256), present()), "sign {1} => 5"),
        (
            "Not signed: a life that is newer than the present one.",
            "signing",
            ground(mark(&[5, 256], 3), mark(&[5], 256)),
            "sign {1} => 5",
        ),
        (
            "The present life, frozen in the map and not where it is present: the take must be named, and frozen.",
            "signing",
            ground(frozen(&[5], 2), mark(&[5], 2)),
            "sign {1} => 5; sign {0,1} => 5",
        ),
        (
            "Named and frozen: the mark in the map may be unfrozen.",
            "signing",
            ground(mark(&[5], 2), frozen(&[5], 2)),
            "sign {1} => 5; sign {0,1}",
        ),
    ]
}

fn signings() -> Vec<Case> {
    let (opening, held) = (mark(&[], 0), frozen(&[], 0));
    let vanished = Image::fresh(LIMITS).take(VANISHED, 0, opening.clone()).take(IDLE, 2, held.clone());
    let busy = Image::fresh(LIMITS).take(IDLE, 1, opening.clone()).take(AT_WORK, 2, held);
    let own = Image::fresh(LIMITS).take(IDLE, 1, frozen(&[2], 5)).saved(0, 1);
    let most = Image::fresh([16, 32, 3]).take(IDLE, 1, mark(&[2, 0, 0], 5)).saved(0, 1);
    vec![
        (
            "No life of a vanished take is signed or present.",
            "signing",
            vanished.has(Map::State(1), 0, &opening),
            "sign {1} => 5",
        ),
        (
            "Unfinished work is not counted: the behaviour map is not looked at.",
            "signing",
            busy.has(Map::Behaviour(1), 0, &opening),
            "sign {1}",
        ),
        (
            "A withdrawn life of the take itself, in its creation map.",
            "signing",
            own.has(Map::Creation(0), 0, &mark(&[2], 4)),
            "sign {0} => 5",
        ),
        (
            "30 comes before 5, 22 before 30, 21 before 22.",
            "30-before-5 mistake order",
            most.take(VANISHED, 0, opening),
            "sign {0} => 30; sign {0,1} => 22; sign {0,1,2} => 21",
        ),
    ]
}

fn test(kit: &mut Kit, (comment, flags, image, steps): &Case) -> Test {
    assert!(bench::ledger::formed(&image.0), "{comment}: ill-formed");
    let lines = notation::lines(steps);
    let list: Vec<u8> = lines.iter().flat_map(|l| l.step.to_be_bytes()).collect();
    let ran = kit.run(&image.0, &list, 0, list.len(), list.len());
    let replied: Vec<u8> = ran.replies.chunks_exact(8).map(|r| r[0]).collect();
    assert!(ran.refusal == 0 && lines.iter().map(|l| l.outcome).eq(replied.clone()), "{comment}: {replied:?}");
    let flags: Vec<&str> = flags.split(' ').collect();
    flags.iter().for_each(|flag| kit.seen.name(flag));
    let test = Test::new(comment, &flags, "run").with("image", sparse(&image.0));
    test.with("text", texts(&list)).with("list", words(&list)).ran(&ran, true)
}

pub fn suite(kit: &mut Kit) -> Suite {
    let about = "Step lists on images that no session grows: the image before is given as its bytes that are not zero.";
    let mut suite = Suite::new("steps", about);
    let receipts = [unrelated(), unrelated_first(), hidden(), last_life(), after_dropped(), falls(), emptied()];
    let others = [last_number(), ties(), own_ties(), to_the_letter(), own_news(), news(), signed_lives(), signings()];
    let house = [house::receipts(), house::signings(), house::kinds()];
    suite.tests = receipts.iter().chain(&others).chain(&house).flatten().map(|case| test(kit, case)).collect();
    suite
}
