//! The conformance kit through the types of this crate. A test that the types leave no room for (a
//! step of seven bytes, a target of another length) is counted as skipped.

#[path = "../../../../conformance/generate/src/sha256.rs"]
mod sha256;

mod json;

use json::Json;
use std::path::Path;
use take_ledger::{
    back, forward, play, replies_of, unpacked, worst_window, Actor, Defect, Impediment, Limits, Obstacle, Refused,
    Session, Volume, IMAGE, OLD_IMAGE,
};

/// What a test came to: nothing to say, no room for it in the types, or a difference.
enum Found {
    Same,
    Skipped,
    Differs(String),
}

fn same<T: PartialEq + std::fmt::Debug>(what: &str, got: T, expected: T) -> Found {
    if got == expected {
        Found::Same
    } else {
        Found::Differs(format!("{what} is {got:?}, not {expected:?}"))
    }
}

fn both(first: Found, second: impl FnOnce() -> Found) -> Found {
    match first {
        Found::Same => second(),
        other => other,
    }
}

fn hexadecimal(digits: &str) -> Vec<u8> {
    (0..digits.len() / 2).map(|i| u8::from_str_radix(&digits[2 * i..2 * i + 2], 16).unwrap()).collect()
}

/// Steps or replies: words of digits without the zeros at their end, cut off or with zeros behind.
fn words(text: &Json, length: Option<usize>) -> Vec<u8> {
    let text = text.text().expect("a list");
    let mut whole: Vec<u8> = text.split_whitespace().flat_map(|word| hexadecimal(&format!("{word:0<16}"))).collect();
    whole.resize(length.unwrap_or(whole.len()), 0);
    whole
}

fn sparse(whole: &mut [u8], stretches: &Json) {
    for stretch in stretches.list() {
        let (at, bytes) = (stretch.list()[0].number().unwrap(), hexadecimal(stretch.list()[1].text().unwrap()));
        whole[at..at + bytes.len()].copy_from_slice(&bytes);
    }
}

fn image_of(file: &Json, test: &Json, size: usize) -> Vec<u8> {
    let mut image = vec![0; size];
    match test.get("image") {
        Json::Text(name) => sparse(&mut image, file.get("images").get(name).get("bytes")),
        given => sparse(&mut image, given),
    }
    sparse(&mut image, test.get("change"));
    image.resize(test.get("length").number().unwrap_or(size), 0);
    image
}

fn same_image(test: &Json, image: &[u8]) -> Found {
    let mut expected = vec![0; image.len()];
    sparse(&mut expected, test.get("after"));
    if *test.get("after") != Json::Null && expected != image {
        return Found::Differs("another image".into());
    }
    match test.get("sha256").text() {
        Some(digest) => same("the image's SHA-256", sha256::hex_digest(image), digest.to_string()),
        None => Found::Same,
    }
}

fn limits(test: &Json) -> Limits {
    let n = test.get("limits").numbers();
    Limits { takes: n[0], parcels: n[1], signings: n[2] }
}

/// What the refused call must answer; else what is found of the answer.
fn told<T>(test: &Json, got: Result<T, Refused>, then: impl FnOnce(T) -> Found) -> Found {
    let refusal = test.get("refusal").number().unwrap();
    match got {
        Err(refused) => same("the refusal", usize::from(refused.number()), refusal),
        Ok(_) if refusal != 0 => Found::Differs(format!("not refused with {refusal}")),
        Ok(answer) => then(answer),
    }
}

fn session_of(file: &Json, test: &Json) -> Result<Session, Refused> {
    match test.get("image") {
        Json::Null => Session::begin(limits(test)),
        _ => Session::from_image(&image_of(file, test, IMAGE)),
    }
}

/// The part of a list that a test is about, and whether its replies have the room that they need.
fn part(test: &Json) -> Option<(Vec<u8>, usize, usize, usize)> {
    let list = words(test.get("list"), test.get("list_length").number());
    let start = test.get("start").number().unwrap_or(0);
    let end = test.get("end").number().unwrap_or(list.len());
    let room = test.get("room").number().unwrap_or(end.wrapping_sub(start));
    (room < 1 << 20).then_some((list, start, end, room))
}

fn run(file: &Json, test: &Json) -> Found {
    let Some((list, start, end, room)) = part(test) else {
        return Found::Skipped;
    };
    let mut session = match session_of(file, test) {
        // 17 and 18 come before 19: an ill-formed image is no Session, so its list is not looked at
        Err(refused) if refused.number() == 19 && test.get("refusal").number() != Some(19) => return Found::Skipped,
        Err(refused) => return told::<()>(test, Err(refused), |_| Found::Same),
        Ok(session) => session,
    };
    let (before, mut replies) = (session.clone(), vec![0xA5; room]);
    let got = session.run_packed(&list, start, end, &mut replies);
    if got.is_err() && (session != before || replies.iter().any(|byte| *byte != 0xA5)) {
        return Found::Differs("a refused run changed a byte".into());
    }
    told(test, got, |()| {
        let expected = words(test.get("replies"), None);
        let typed = before.clone().run(&unpacked(&list[start..end]));
        both(same("replies", replies, expected.clone()), || {
            both(same("replies by run", typed, replies_of(&expected)), || same_image(test, session.image()))
        })
    })
}

fn thin(session: &Session, test: &Json) -> Found {
    let Some((list, start, end, room)) = part(test) else {
        return Found::Skipped;
    };
    if start > end || end > list.len() || room != end - start || room % 8 != 0 {
        return Found::Skipped;
    }
    told(test, session.thin(&unpacked(&list[start..end])), |kept| {
        let mut out: Vec<u8> = kept.iter().flat_map(|step| step.bytes()).collect();
        let steps = same("how many", kept.len(), test.get("answer").number().unwrap());
        out.resize(room, 0);
        both(steps, || same("the short list", out, words(test.get("out"), Some(room))))
    })
}

fn plan(session: &Session, test: &Json) -> Found {
    if *test.get("room") != Json::Null {
        return Found::Skipped;
    }
    told(test, session.plan(test.get("take").number().unwrap()), |steps| {
        let out: Vec<u8> = steps.iter().flat_map(|step| step.bytes()).collect();
        both(same("how many", steps.len(), test.get("answer").number().unwrap()), || {
            let expected = words(test.get("out"), None);
            same("the plan", out.clone(), expected)
        })
    })
}

fn answers(test: &Json, got: Result<Vec<usize>, Refused>) -> Found {
    told(test, got, |answer| same("the answer", answer, test.get("answer").numbers()))
}

fn number(test: &Json, got: Result<Option<usize>, Refused>) -> Found {
    told(test, got, |answer| same("the answer", answer, test.get("answer").number()))
}

fn truth(test: &Json, got: Result<bool, Refused>) -> Found {
    told(test, got, |answer| same("the answer", Json::Bool(answer), test.get("answer").clone()))
}

fn obstacle(session: &Session, test: &Json) -> Found {
    let Ok(bits) = u16::try_from(test.get("volume").number().unwrap()) else {
        return Found::Skipped;
    };
    let numbers = |o| match o {
        Obstacle::Nothing => vec![0, 0, 0],
        Obstacle::NotFrozen { take } => vec![1, take.into(), 0],
        Obstacle::Outside { take, ground } => vec![2, take.into(), ground.into()],
        Obstacle::Withdrawn { take, ground } => vec![3, take.into(), ground.into()],
    };
    answers(test, session.obstacle(Volume::from_bits(bits)).map(numbers))
}

fn impediment(session: &Session, test: &Json) -> Found {
    let numbers = |o| -> Vec<u8> {
        match o {
            Impediment::Nothing => vec![0, 0, 0, 0],
            Impediment::Hopeless { take, ground, next } => vec![1, take, ground, next],
            Impediment::Exhausted { take, next } => vec![2, take, 0, next],
            Impediment::NotFrozen { take, next } => vec![3, take, 0, next],
        }
    };
    let got = session.impediment(test.get("take").number().unwrap());
    answers(test, got.map(|o| numbers(o).into_iter().map(usize::from).collect()))
}

fn dependents(session: &Session, test: &Json) -> Found {
    let got = session.dependents(test.get("take").number().unwrap());
    let bits = |volume: Volume| usize::from(volume.bits());
    answers(test, got.map(|d| vec![bits(d.resting), bits(d.through), bits(d.unfinished), d.carried.into()]))
}

/// The kit gives offset and length, the method the bytes there.
fn show(session: &Session, test: &Json) -> Found {
    told(test, session.show(test.get("parcel").number().unwrap()), |map| {
        let expected = test.get("answer").numbers();
        same("the map", map, &session.image()[expected[0]..expected[0] + expected[1]])
    })
}

fn independent(session: &Session, test: &Json) -> Found {
    if *test.get("lengths") != Json::Null {
        return Found::Skipped;
    }
    let steps = unpacked(&words(test.get("list"), None));
    truth(test, Ok(session.independent(steps[0], steps[1])))
}

fn actor(session: &Session, test: &Json) -> Found {
    if test.get("list_length").number().map_or(false, |length| length != 8) {
        return Found::Skipped;
    }
    let numbers = match session.actor(unpacked(&words(test.get("list"), None))[0]) {
        Actor::Nobody => vec![0, 0],
        Actor::House => vec![1, 0],
        Actor::Take(take) => vec![2, 1 << take],
        Actor::Volume(volume) => vec![3, usize::from(volume.bits())],
    };
    answers(test, Ok(numbers))
}

fn fault(file: &Json, test: &Json) -> Found {
    let (number, answer) = match take_ledger::defect(&image_of(file, test, IMAGE)) {
        Ok(()) => (0, vec![0, 0]),
        Err(Defect::Length) => (16, vec![0, 0]),
        Err(Defect::Clause { at, clause }) => (19, vec![at, clause.into()]),
    };
    both(same("the refusal", number, test.get("refusal").number().unwrap()), || {
        same("the answer", answer.clone(), test.get("answer").numbers())
    })
}

fn convert(file: &Json, test: &Json, carried_forward: bool) -> Found {
    let (from, to) = if carried_forward { (OLD_IMAGE, IMAGE) } else { (IMAGE, OLD_IMAGE) };
    if test.get("target_length").number() != Some(to) {
        return Found::Skipped;
    }
    let source = image_of(file, test, from);
    let got = if carried_forward { forward(&source) } else { back(&source) };
    told(test, got, |target| same_image(test, &target))
}

fn window(test: &Json) -> Found {
    let list = words(test.get("list"), test.get("list_length").number());
    if list.len() % 8 != 0 {
        return Found::Skipped;
    }
    let got = worst_window(&replies_of(&list), test.get("width").number().unwrap());
    answers(test, got.map(|worst| vec![worst.count, worst.place]))
}

fn played(test: &Json) -> Found {
    let list = words(test.get("list"), test.get("list_length").number());
    if list.len() % 8 != 0 || test.get("room").number().map_or(false, |room| room != list.len()) {
        return Found::Skipped;
    }
    told(test, play(&unpacked(&list), limits(test)), |replies| {
        same("replies", replies, replies_of(&words(test.get("replies"), None)))
    })
}

fn begin(test: &Json) -> Found {
    if test.get("length").number().map_or(false, |length| length != IMAGE) {
        return Found::Skipped;
    }
    told(test, Session::begin(limits(test)), |session| same_image(test, session.image()))
}

/// The calls on a well-formed image.
fn asked(session: &Session, test: &Json) -> Found {
    let of = |key: &str| test.get(key).number().unwrap();
    let volume = |v: Option<Volume>| v.map(|v| usize::from(v.bits()));
    match test.get("call").text().unwrap() {
        "offer" => number(test, session.offer(of("take")).map(|p| p.map(usize::from))),
        "smallest_volume" => number(test, session.smallest_volume(of("take")).map(volume)),
        "ready_count" => number(test, session.ready_count(of("size")).map(Some)),
        "all_heard_frozen" => truth(test, session.all_heard_frozen(of("take"))),
        "dependents" => dependents(session, test),
        "obstacle" => obstacle(session, test),
        "impediment" => impediment(session, test),
        "plan" => plan(session, test),
        "independent" => independent(session, test),
        "actor" => actor(session, test),
        "show" => show(session, test),
        "thin" => thin(session, test),
        call => panic!("the kit has a call {call}, which this crate has not"),
    }
}

fn check(file: &Json, test: &Json) -> Found {
    match test.get("call").text().unwrap() {
        "begin" => begin(test),
        "run" => run(file, test),
        "play" => played(test),
        "forward" => convert(file, test, true),
        "back" => convert(file, test, false),
        "worst_window" => window(test),
        "fault" => fault(file, test),
        _ => match session_of(file, test) {
            Ok(session) => asked(&session, test),
            Err(refused) if refused.number() == 19 && test.get("refusal").number() != Some(19) => Found::Skipped,
            Err(refused) => told::<()>(test, Err(refused), |_| Found::Same),
        },
    }
}

#[test]
fn kit() {
    let here = Path::new(env!("CARGO_MANIFEST_DIR")).join("../../conformance/vectors");
    let folder = std::env::var_os("TAKE_LEDGER_VECTORS").map_or(here, Into::into);
    let (mut passed, mut skipped, mut failed) = (0, 0, Vec::new());
    let mut files: Vec<_> = std::fs::read_dir(&folder).unwrap().map(|f| f.unwrap().path()).collect();
    files.sort();
    for path in files {
        let file = json::read(&std::fs::read_to_string(&path).unwrap());
        for test in file.get("tests").list() {
            match check(&file, test) {
                Found::Same => passed += 1,
                Found::Skipped => skipped += 1,
                Found::Differs(what) => failed.push(format!("{} {:?}: {what}", path.display(), test.get("number"))),
            }
        }
    }
    println!("kit: {passed} passed, {skipped} skipped, {} failed", failed.len());
    assert!(failed.is_empty(), "{}", failed.join("\n"));
    assert!(passed > 2000 && skipped < passed / 10, "{passed} passed, {skipped} skipped");
}
