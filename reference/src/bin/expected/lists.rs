//! The programs that play packed steps: replay and test_replay_parts, listing, test_mixed, test_engine.

use reference::ledger::{self, IMAGE, LONGEST, STEP};
use reference::{engine, generate, notation};

/// Each step of the input with its reply, played on a fresh session; a rest under eight bytes is ignored.
fn played(input: &[u8]) -> Vec<(&[u8], [u8; STEP])> {
    let mut image = generate::fresh();
    let steps = &input[..input.len() / STEP * STEP];
    let mut all = Vec::new();
    for part in steps.chunks(LONGEST) {
        let mut replies = vec![0; part.len()];
        assert_eq!(ledger::run(&mut image, part, 0, part.len(), &mut replies), 0);
        let pairs = part.chunks_exact(STEP).zip(replies.chunks_exact(STEP));
        all.extend(pairs.map(|(step, reply)| (step, reply.try_into().unwrap())));
    }
    all
}

/// Outcome or refusal, take, parcel and text.
pub fn numbers(reply: &[u8]) -> [u32; 4] {
    let r = u64::from_be_bytes(reply.try_into().unwrap());
    [(r >> 56) as u32, (r >> 48 & 255) as u32, (r >> 32 & 65_535) as u32, r as u32]
}

/// A line for a step: its number from 1, and what it was replied.
pub fn replay(input: &[u8]) -> Vec<u8> {
    let line = |(i, (_, reply)): (usize, &(&[u8], [u8; STEP]))| {
        let [outcome, take, parcel, text] = numbers(reply);
        format!("{} {outcome} {take} {parcel} {text}\n", i + 1)
    };
    played(input).iter().enumerate().map(line).collect::<String>().into_bytes()
}

/// The steps as text, each with its reply as a comment.
pub fn listing(input: &[u8]) -> Vec<u8> {
    let line = |(step, reply): &(&[u8], [u8; STEP])| {
        format!("{} # {}\n", notation::step_line(step).trim_end(), notation::reply(step[0] >> 4, reply))
    };
    played(input).iter().map(line).collect::<String>().into_bytes()
}

fn adler32(bytes: &[u8]) -> u32 {
    let (mut a, mut b) = (1, 0);
    for byte in bytes {
        a = (a + *byte as u32) % 65_521;
        b = (b + a) % 65_521;
    }
    b << 16 | a
}

/// Ten sessions of 2,000 steps, eight parts each, of which every fourth session begins with next parcel number 65,280: after
/// each part its last reply, and the sums of its replies and of the image.
pub fn mixed(input: &[u8]) -> Vec<u8> {
    const PART: usize = 250 * STEP;
    assert_eq!(input.len(), 80 * PART, "80 parts");
    let mut image = vec![0; IMAGE];
    let mut printed = String::new();
    for (i, part) in input.chunks_exact(PART).enumerate() {
        if i % 8 == 0 {
            assert_eq!(ledger::begin(&mut image, 16, 32, 15), 0);
            let next = if i / 8 % 4 == 3 { 65_280u16 } else { 0 };
            image[1..3].copy_from_slice(&next.to_be_bytes());
        }
        let mut replies = vec![0; PART];
        assert_eq!(ledger::run(&mut image, part, 0, PART, &mut replies), 0);
        let [outcome, take, parcel, text] = numbers(&replies[PART - STEP..]);
        let sums = [adler32(&replies), adler32(&image)];
        let step = 250 * (i + 1);
        printed += &format!("{step} {outcome} {take} {parcel} {text} {} {}\n", sums[0], sums[1]);
    }
    printed.into_bytes()
}

/// 24 lists of 1,024 steps with the limits of their sessions in front, in eight bytes: how many replies of the ledger have each
/// outcome, and whether the engine without maps gives the same ones.
pub fn engine(input: &[u8]) -> Vec<u8> {
    assert_eq!(input.len(), 24 * (STEP + LONGEST), "24 lists");
    input.chunks_exact(STEP + LONGEST).map(one_list).collect::<String>().into_bytes()
}

fn one_list(input: &[u8]) -> String {
    let (limits, list) = input.split_at(STEP);
    let [takes, parcels, signings] = [0, 1, 2].map(|i| limits[i] as usize);
    let mut image = vec![0; IMAGE];
    let (mut replies, mut others) = (vec![0; LONGEST], vec![0; LONGEST]);
    assert_eq!(ledger::begin(&mut image, takes, parcels, signings), 0);
    assert_eq!(ledger::run(&mut image, list, 0, LONGEST, &mut replies), 0);
    assert_eq!(engine::play(list, takes, parcels, signings, &mut others), 0);
    let mut line = format!("{takes} {parcels} {signings}: {} steps, ", LONGEST / STEP);
    let firsts = || replies.chunks_exact(STEP).map(|r| r[0]);
    for (outcome, word) in ["done", "held", "dropped", "fallen back", "vanished", "not ready"].iter().enumerate() {
        line += &format!("{} {word}, ", firsts().filter(|first| *first as usize == outcome).count());
    }
    line += &format!("{} refused: ", firsts().filter(|first| *first >= 20).count());
    match replies.iter().zip(&others).position(|(a, b)| a != b) {
        None => line + "all replies equal\n",
        Some(at) => line + &format!("they differ at step {}\n", at / STEP + 1),
    }
}
