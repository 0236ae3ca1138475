//! Images drawn at random that no session grows: a step list on each, its thinner list, and every query about some of its takes.

use crate::image::words;
use crate::kit::{texts, Kit, Suite, Test};
use crate::queries::{about, told};
use bench::generate::{self, number, opened, volume, waiting, Random};

const ABOUT: &str =
    "Images drawn at random that no session grows, half of them with sixteen takes: a step list on each, its thinner \
    list, and queries.";

const IMAGES: u64 = 40;
const STEPS: usize = 40;
/// An image may take so many bytes that are not zero.
const MOST: usize = 1_500;

/// An image of few marks; of each second one all sixteen takes are opened.
fn image(i: u64) -> (Random, Vec<u8>) {
    let drawn = (0..).map(|k| {
        let mut r = Random(1_000_000 * i + k);
        let mut image = generate::image(&mut r);
        generate::paste(&mut r, &mut image);
        (r, image)
    });
    let small = |image: &[u8]| (100..MOST).contains(&image.iter().filter(|byte| **byte != 0).count());
    let wanted = |image: &[u8]| small(image) && waiting(image) > 0 && (i % 2 == 0 || opened(image) == 16);
    drawn.into_iter().find(|(_, image)| wanted(image)).expect("one is found")
}

/// Takes that are asked about: the first, the last, and some between.
fn takes(r: &mut Random, image: &[u8]) -> Vec<usize> {
    let mut takes = vec![0, opened(image) - 1, r.below(opened(image)), r.below(opened(image))];
    takes.sort_unstable();
    takes.dedup();
    takes
}

/// Queries, each with what it asks about.
fn asked(r: &mut Random, image: &[u8]) -> Vec<(&'static str, &'static str, usize)> {
    let mut asked = Vec::new();
    for t in takes(r, image) {
        for call in ["offer", "smallest_volume", "all_heard_frozen", "dependents", "impediment"] {
            asked.push((call, "take", t));
        }
        asked.push(("obstacle", "volume", 1 << t));
    }
    asked.push(("obstacle", "volume", volume(r, image)));
    asked.push(("obstacle", "volume", (1 << opened(image)) - 1));
    asked.push(("ready_count", "size", 1 + r.below(2)));
    asked.push(("show", "parcel", number(image, waiting(image) - 1) as usize));
    asked
}

pub fn suite(kit: &mut Kit) -> Suite {
    let mut suite = Suite::new("strange", ABOUT);
    for i in 0..IMAGES {
        let (mut r, image) = image(i);
        let name = format!("strange {}", i + 1);
        let [takes, parcels, signings] = generate::limits(&image);
        let limits = format!("Limits {takes}, {parcels} and {signings}.");
        suite.good(
            &name,
            &format!("{limits} Takes opened: {}; parcels waiting: {}.", opened(&image), waiting(&image)),
            &image,
        );
        let mix = generate::MIXES[i as usize % 5];
        let list = generate::steps(&mut r, &mix, &mut image.clone(), STEPS);
        let ran = kit.run(&image, &list, 0, list.len(), list.len());
        let test = |call: &str, comment: &str| Test::new(comment, &["strange"], call).with("image", name.as_str());
        let run = test("run", "A mixed list.").with("text", texts(&list)).with("list", words(&list));
        suite.tests.push(run.ran(&ran, true));
        let (refusal, kept, out) = kit.thin(&image, &list, 0, list.len(), list.len());
        let thinned = test("thin", &format!("Of that list {kept} steps stay.")).with("list", words(&list));
        let thinned = thinned.with("refusal", refusal as usize).with("answer", kept);
        suite.tests.push(thinned.with("out", words(&out[..8 * kept])));
        for (call, key, of) in asked(&mut r, &image) {
            let (refusal, answer) = kit.ask(call, &image, of);
            let comment = match refusal {
                0 => told(call, of, &answer),
                _ => format!("{}: refused with {refusal}.", about(call, of)),
            };
            let asked = test(call, &comment).with(key, of).with("refusal", refusal as usize);
            suite.tests.push(asked.with("answer", answer));
        }
    }
    suite
}
