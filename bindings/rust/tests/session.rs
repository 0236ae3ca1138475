//! Document 01's session, the errors, long lists, lists of random bytes beside the engine, threads.

use std::thread;
use take_ledger::*;

fn document01() -> Result<Vec<Step>, Unfit> {
    Ok(vec![
        Step::root(7),
        Step::root(8),
        Step::letter(0, 5)?,
        Step::receive(0),
        Step::write(0, 9)?,
        Step::send(0, 1, 9)?,
        Step::receive(1),
        Step::write(1, 10)?,
        Step::freeze(1)?,
        Step::sign(Volume::of([1])?),
        Step::freeze(0)?,
        Step::sign(Volume::of([0, 1])?),
        Step::fail(0)?,
    ])
}

/// Outcome, take, parcel, text of each reply, as docs/RULES.md, section 11, has them.
const REPLIES: [(u8, u8, u16, u32); 13] = [
    (0, 0, 0, 0),
    (0, 1, 0, 0),
    (0, 0, 0, 0),
    (0, 0, 0, 5),
    (0, 0, 0, 0),
    (0, 0, 1, 0),
    (0, 1, 1, 9),
    (0, 1, 0, 0),
    (0, 1, 0, 0),
    (5, 0, 0, 0),
    (0, 0, 0, 0),
    (0, 0, 0, 0),
    (3, 0, 0, 0),
];

#[test]
fn the_session_of_document_01() {
    let replies = Session::new().run(&document01().unwrap());
    let got: Vec<_> = replies.iter().map(|r| (r.number(), r.take(), r.parcel(), r.text())).collect();
    assert_eq!(got, REPLIES);
    assert_eq!(replies[9].outcome(), Ok(Outcome::NotReady));
    assert_eq!(replies[12].outcome(), Ok(Outcome::FallenBack));
}

#[test]
fn questions() {
    let mut hearing = Session::new();
    hearing.run(&document01().unwrap()[..9]);
    let names_and_page = Volume::of([0, 1]).unwrap();
    assert_eq!(hearing.dependents(0).unwrap().through, names_and_page);
    assert_eq!(
        hearing.impediment(1),
        Ok(Impediment::NotFrozen { take: 0, next: 0 }),
        "the page rests on the names, which are not frozen"
    );
    assert_eq!(hearing.smallest_volume(1), Ok(None));
    hearing.run(&[Step::freeze(0).unwrap()]);
    assert_eq!(hearing.smallest_volume(1), Ok(Some(names_and_page)));
    assert_eq!(hearing.obstacle(names_and_page), Ok(Obstacle::Nothing));
    assert_eq!(hearing.ready_count(2), Ok(1));
    assert_eq!(hearing.plan(1), Ok(vec![Step::sign(names_and_page)]));
    hearing.run(&[Step::letter(1, 3).unwrap()]);
    assert_eq!(hearing.offer(1), Ok(Some(2)));
    assert_eq!(hearing.show(2).unwrap(), [0; MAP]);
    assert_eq!(hearing.decide(2).unwrap_err().number(), 23);
    assert!(hearing.independent(Step::read(0).unwrap(), Step::read(1).unwrap()));
    assert!(!hearing.independent(Step::read(0).unwrap(), Step::write(0, 1).unwrap()));
}

#[test]
fn errors_have_the_library_s_words() {
    let refused = Session::new().offer(260).unwrap_err();
    assert_eq!(refused.number(), 21);
    assert!(!refused.text().is_empty());
    assert_eq!(refused.to_string(), format!("refused 21: {}", refused.text()));
    assert!((16..=35).all(|number| !refusal_text(number).is_empty()));
    assert!([0, 15, 36, 255].iter().all(|number| refusal_text(*number).is_empty()));
    let limits = Limits { takes: 17, ..Limits::default() };
    assert_eq!(Session::begin(limits).unwrap_err().number(), 33);
    assert_eq!(Session::from_image(&[]).unwrap_err().number(), 16);
    assert_eq!(Session::from_image(&[0; IMAGE]).unwrap_err().number(), 19);
    assert_eq!(Volume::of([3, 16]), Err(Unfit(16)));
    assert_eq!(Step::send(0, 99, 1), Err(Unfit(99)));
}

#[test]
fn texts_come_back() {
    let steps = document01().unwrap();
    let text = text_of(&steps);
    assert_eq!(parse(&text).unwrap(), steps);
    assert_eq!(text_length(&steps), Ok(text.len()));
    let long: Vec<Step> = steps.iter().copied().cycle().take(3000).collect();
    assert_eq!(parse(text_of(&long)).unwrap(), long);
    assert_eq!(text_length(&long).unwrap_err().number(), 17);
    assert!(Session::new().text().contains("16"));
    let raw = Step::from_bytes([0xF0, 1, 2, 3, 4, 5, 6, 7]);
    assert_eq!((raw.kind(), parse(raw.to_string()).unwrap()), (None, vec![raw]));
}

#[test]
fn marks_and_fields() {
    let mark = |flags: u8, n: u8, first: u8| {
        let mut bytes = [0; MARK];
        (bytes[0], bytes[2], bytes[4]) = (flags, n, first);
        bytes
    };
    // (;0) was signed at 0 by (0;0); (;0) is stale by (;1)
    let signed = compare(&mark(0x80, 0, 0), &mark(0x81, 0, 0)).unwrap();
    assert_eq!((signed.relation, signed.right_is_newer), (Relation::LeftSigned, true));
    let stale = compare(&mark(0x80, 1, 0), &mark(0x80, 0, 0)).unwrap();
    assert_eq!((stale.relation, stale.right_is_newer), (Relation::RightStale, false));
    assert_eq!(compare(&mark(0x80, 0, 0), &[0; MARK]).unwrap_err().number(), 19);
    let fields: Vec<_> = (0..IMAGE).map(|at| field(at).unwrap()).collect();
    assert_eq!(fields[9 + 8], (Field::MarkHead { map: Map::State(0), take: 0 }, 0));
    assert_eq!(fields[25_496], (Field::Addressee { place: 0 }, 0));
    assert_eq!(fields[IMAGE - 1], (Field::MarkEntry { map: Map::Parcel(31), take: 15, entry: 14 }, 1));
    assert_eq!(field(usize::MAX), None);
}

/// Numbers that look random, the same each time (xorshift).
struct Random(u64);

impl Random {
    fn below(&mut self, n: u64) -> u64 {
        self.0 ^= self.0 << 13;
        self.0 ^= self.0 >> 7;
        self.0 ^= self.0 << 17;
        self.0 % n
    }

    fn step(&mut self) -> Step {
        let (take, other) = (self.below(5) as usize, self.below(5) as usize);
        let (parcel, text) = (self.below(40) as u16, self.below(9) as u32);
        match self.below(14) {
            0 => Ok(Step::root(text)),
            1 => Step::letter(take, text),
            2 | 13 => Ok(Step::receive(parcel)),
            3 => Step::new(take, text),
            4 => Step::send(take, other, text),
            5 => Step::read(take),
            6 => Step::write(take, text),
            7 => Step::freeze(take),
            8 => Step::done(take),
            9 => Step::fall(take),
            10 => Step::fail(take),
            11 => Ok(Step::lose(parcel)),
            _ => Ok(Step::sign(Volume::from_bits(self.below(32) as u16))),
        }
        .unwrap()
    }
}

#[test]
fn random_lists_by_the_ledger_and_by_the_engine() {
    let mut random = Random(46);
    for _ in 0..200 {
        let steps: Vec<Step> = (0..300).map(|_| random.step()).collect();
        let mut session = Session::new();
        let replies = session.run(&steps);
        assert_eq!(play(&steps, Limits::default()).unwrap(), replies);
        let kept = Session::new().thin(&steps).unwrap();
        let mut again = Session::new();
        assert!(again.run(&kept).iter().all(|reply| !reply.refused()));
        assert_eq!(again, session);
        assert_eq!(back(session.image()).and_then(|old| forward(&old)).as_deref(), Ok(session.image()));
        let fallen: Vec<usize> = replies.iter().map(|reply| usize::from(matches!(reply.number(), 3 | 4))).collect();
        let most = fallen.windows(256).map(|window| window.iter().sum()).max().unwrap();
        let place = fallen.windows(256).position(|window| window.iter().sum::<usize>() == most).unwrap();
        assert_eq!(worst_window(&replies, 256), Ok(Window { count: most, place }));
        assert_eq!(defect(session.image()), Ok(()));
    }
}

#[test]
fn a_step_changes_no_take_that_it_does_not_act_for() {
    let mut random = Random(64);
    let mut session = Session::new();
    for _ in 0..3000 {
        let (step, before) = (random.step(), session.clone());
        let acts = session.actor(step);
        session.run(&[step]);
        for take in 0..usize::from(before.image()[0]) {
            let place = 8 + 1593 * take..8 + 1593 * (take + 1);
            let changed = before.image()[place.clone()] != session.image()[place];
            let may = match acts {
                Actor::Nobody | Actor::House => false,
                Actor::Take(t) => usize::from(t) == take,
                Actor::Volume(volume) => volume.contains(take),
            };
            assert!(may || !changed, "{step} changes take {take}");
        }
    }
}

#[test]
fn a_session_goes_to_other_threads() {
    let steps = document01().unwrap();
    let mut hearing = Session::new();
    hearing.run(&steps[..9]);
    let shared = &hearing;
    thread::scope(|scope| {
        for _ in 0..4 {
            scope.spawn(move || {
                for _ in 0..200 {
                    assert_eq!(shared.plan(1).unwrap().len(), 2);
                }
            });
        }
    });
    let moved = thread::spawn(move || {
        hearing.run(&[Step::freeze(0).unwrap()]);
        hearing
    });
    assert_eq!(moved.join().unwrap().smallest_volume(1).unwrap().unwrap().len(), 2);
}

#[test]
fn the_version_is_the_crate_s() {
    let (major, minor, patch) = version();
    assert_eq!(format!("{major}.{minor}.{patch}"), env!("CARGO_PKG_VERSION"));
}
