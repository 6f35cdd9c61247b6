//! The converter, and the check of the old layout against a plain one.

use std::collections::BTreeMap;

mod common;
use common::plain::plain_old_check;
use common::*;
use peer::generator::encode::Attributes;
use peer::generator::old_images::{Pool, KINDS, LINKED, WHOLE};
use peer::generator::random::Random;
use peer::old_check;

const UNTOUCHED: u8 = 0x3C;

/// A store that has been worked in, without verifiers, and its old image.
fn sample() -> (Lane, Vec<u8>) {
    let mut lane = Lane::new(9, 10, 40);
    let first = lane.mkdir(&root(), b"first");
    let second = lane.mkdir(&first, b"second");
    lane.create(&root(), b"gone");
    let file = lane.create(&second, b"file");
    assert_eq!(lane.write(&file, 100, &[0xAB; 1900]), 0);
    lane.create(&first, b"exactly-thirty-two-bytes-of-name");
    let other = lane.create(&root(), b"file");
    assert_eq!(lane.write(&other, 4096, &[0xCD; 4096]), 0);
    assert_eq!(lane.status(&remove(&root(), b"gone")), 0);
    lane.poke_object(8, 4, u32::MAX);
    // Bytes that belong to no file.
    let at = lane.block_at(39);
    lane.store[at..].fill(0x77);
    let image = old_image(&lane.store);
    (lane, image)
}

/// Converts into an untouched target; refusals leave it and have length 0.
fn converted(old: &[u8], length: usize) -> (u32, Vec<u8>) {
    let mut target = vec![UNTOUCHED; length];
    let answer = peer::convert(old, &mut target);
    assert_eq!(answer.length, 0);
    if answer.number != 0 {
        assert!(target.iter().all(|&byte| byte == UNTOUCHED));
    }
    (answer.number, target)
}

/// Whether the old check passes the image; the converter's answer for a
/// target without bytes must say the same.
fn verdict(image: &[u8]) -> bool {
    let sound = plain_old_check(image);
    let counts = old_check::check(image);
    assert_eq!(counts.is_some(), sound);
    if let Some(counts) = counts {
        assert_eq!(counts.length(), image.len());
    }
    assert_eq!(converted(image, 0).0, if sound { 6 } else { 1 });
    sound
}

#[test]
fn every_field_is_kept() {
    for (objects, names, blocks) in [
        (1, 0, 0),
        (64, 0, 0),
        (1, 128, 3),
        (3, 5, 7),
        (64, 128, 1024),
    ] {
        let lane = Lane::new(objects, names, blocks);
        let old = old_image(&lane.store);
        assert_eq!(
            old.len() as u32,
            20 + 80 * objects + 44 * names + 512 * blocks
        );
        assert_eq!(converted(&old, lane.store.len()), (0, lane.store));
    }
    let (lane, old) = sample();
    assert_eq!(converted(&old, lane.store.len()), (0, lane.store));
}

#[test]
fn smallest_and_largest() {
    let old = old_image(&Lane::new(1, 0, 0).store);
    assert_eq!(old.len(), 100);
    for (length, wanted) in [(112, 0), (111, 6), (113, 6), (100, 6), (0, 6)] {
        assert_eq!(converted(&old, length).0, wanted);
    }
    let mut lane = Lane::new(64, 128, 1024);
    for number in 0..63 {
        let name = format!("{number:032}");
        let request = create(&root(), name.as_bytes(), Attributes::size(8192));
        assert_eq!(lane.status(&request), 0);
    }
    let old = old_image(&lane.store);
    assert_eq!(old.len(), 535_060);
    assert_eq!(converted(&old, 535_827).0, 6);
    assert_eq!(converted(&old, 535_829).0, 6);
    assert_eq!(converted(&old, 535_060).0, 6);
    assert_eq!(converted(&old, 535_828), (0, lane.store));
}

#[test]
fn handles_go_on_working() {
    let (lane, old) = sample();
    let mut store = vec![UNTOUCHED; lane.store.len()];
    assert_eq!(peer::convert(&old, &mut store).number, 0);
    let mut lane = Lane { store, ..lane };
    let (status, mut got) = lane.ask(&lookup(&root(), b"file"));
    assert_eq!(status, status::OK);
    let file = got.opaque();
    assert_eq!(lane.read(&file, 4096, 4096).0, [0xCD; 4096]);
    let (_, mut got) = lane.ask(&lookup(&root(), b"first"));
    let first = got.opaque();
    // A converted file keeps no verifier; a new one does.
    for verifier in [[0; 8], [1; 8]] {
        let request = exclusive(&root(), b"file", verifier);
        assert_eq!(lane.status(&request), status::EXIST);
    }
    let request = exclusive(&first, b"new", [1; 8]);
    assert_eq!(lane.status(&request), status::OK);
    assert_eq!(lane.status(&request), status::OK);
}

#[test]
fn answer_1_before_6() {
    let (lane, old) = sample();
    let mut bad = old.clone();
    bad[12 + 8] = 1;
    for length in [
        0,
        lane.store.len() - 1,
        lane.store.len(),
        lane.store.len() + 1,
    ] {
        assert_eq!(converted(&bad, length).0, 1);
        let wanted = if length == lane.store.len() { 0 } else { 6 };
        assert_eq!(converted(&old, length).0, wanted);
    }
    // Cut and longer images.
    for length in [0, 1, 4, 8, 11, 12, 15, 16, 99, 100, old.len() - 1] {
        assert_eq!(converted(&old[..length], lane.store.len()).0, 1);
        assert!(!verdict(&old[..length]));
    }
    let mut longer = old;
    longer.push(0);
    assert_eq!(converted(&longer, lane.store.len()).0, 1);
}

#[test]
fn a_store_is_no_old_image() {
    let (lane, _) = sample();
    assert_eq!(converted(&lane.store, lane.store.len()).0, 1);
    assert!(!verdict(&Lane::new(1, 0, 0).store));
    for objects in 1..=64 {
        for names in [0, 3, 64, 128] {
            assert!(!verdict(&Lane::new(objects, names, 2).store));
        }
    }
}

#[test]
fn counts_at_their_limits() {
    for (objects, names, blocks, good) in [
        (64usize, 128usize, 1024usize, true),
        (65, 0, 0, false),
        (1, 129, 0, false),
        (1, 0, 1025, false),
        (0, 0, 0, false),
        (1, 0, 0, true),
    ] {
        let mut image = vec![0; 20 + 80 * objects + 44 * names + 512 * blocks];
        let root = old_image(&Lane::new(1, 0, 0).store);
        let start = image.len().min(92);
        image[..start].copy_from_slice(&root[..start]);
        for (at, count) in [
            (8, objects),
            (12 + 80 * objects, names),
            (16 + 80 * objects + 44 * names, blocks),
        ] {
            image[at..at + 4].copy_from_slice(&(count as u32).to_be_bytes());
        }
        assert_eq!(verdict(&image), good, "{objects} {names} {blocks}");
    }
}

/// Every byte of the records, one at a time.
#[test]
fn single_bytes() {
    let (lane, old) = sample();
    let records = 20 + 80 * lane.shape.objects + 44 * lane.shape.names;
    let (mut sound, mut unsound) = (0, 0);
    for at in 0..records + 600 {
        for change in [0x01, 0x80, 0xFF] {
            let mut image = old.clone();
            image[at] ^= change;
            if verdict(&image) {
                assert_eq!(converted(&image, lane.store.len()).0, 0);
                sound += 1;
            } else {
                assert_eq!(converted(&image, lane.store.len()).0, 1);
                assert!(at < records);
                unsound += 1;
            }
        }
    }
    assert!(sound > 1000 && unsound > 1000);
}

#[test]
fn several_bytes() {
    let mut random = Random::new(30);
    let (lane, old) = sample();
    let records = 20 + 80 * lane.shape.objects + 44 * lane.shape.names;
    let mut sound = 0;
    for _ in 0..40_000 {
        let mut image = old.clone();
        for _ in 0..random.between(1, 2) {
            let at = random.below(records);
            image[at] = match random.below(4) {
                0 => image[at] ^ (1 << random.below(8)),
                1 => random.next() as u8,
                2 => random.below(12) as u8,
                _ => 0,
            };
        }
        sound += usize::from(verdict(&image));
    }
    assert!(sound > 4_000);
}

#[test]
fn records_copied_over_others() {
    let mut random = Random::new(31);
    let (lane, old) = sample();
    let (objects, names) = (lane.shape.objects, lane.shape.names);
    let mut sound = 0;
    for _ in 0..30_000 {
        let mut image = old.clone();
        for _ in 0..random.between(1, 3) {
            let (start, bytes, count) = if random.once_in(2) {
                (12, 80, objects)
            } else {
                (16 + 80 * objects, 44, names)
            };
            let from = start + bytes * random.below(count);
            let to = start + bytes * random.below(count);
            if random.once_in(2) {
                image.copy_within(from..from + bytes, to);
            } else {
                for at in 0..bytes {
                    image.swap(from + at, to + at);
                }
            }
        }
        sound += usize::from(verdict(&image));
    }
    assert!(sound > 1_000);
}

#[test]
fn random_bytes() {
    let mut random = Random::new(32);
    for _ in 0..2_000 {
        let length = random.below(2000);
        assert!(!verdict(&random.bytes(length)));
    }
}

/// The images that `compare` makes.
#[test]
fn generated_images() {
    let pool = Pool::new(33);
    let mut image = Vec::new();
    let mut answers: BTreeMap<&str, [usize; 2]> = BTreeMap::new();
    let mut other_lengths = 0;
    for number in 0..40_000 {
        let made = pool.make(&mut Random::part(34, number), &mut image);
        let sound = verdict(&image);
        answers.entry(made.kind).or_default()[usize::from(sound)] += 1;
        let wanted = if !sound {
            1
        } else if store_of(&image).len() != made.target {
            other_lengths += 1;
            6
        } else {
            0
        };
        assert_eq!(converted(&image, made.target).0, wanted);
    }
    assert_eq!(answers.len(), KINDS.len() + 4);
    let [unsound, sound] = answers.remove(LINKED).unwrap();
    assert!(unsound > 500 && sound == 0);
    assert!(other_lengths > 1_000);
    for (kind, [unsound, sound]) in answers {
        let always_sound = [WHOLE, "stamp", "bytes of a block"].contains(&kind);
        assert_eq!(unsound == 0, always_sound, "{kind}");
        assert!(
            sound > 3 || ["cut", "longer"].contains(&kind),
            "{kind}: {sound}"
        );
    }
}

#[test]
fn rings_of_directories() {
    let mut lane = Lane::new(64, 64, 0);
    let mut at = root();
    for _ in 0..63 {
        at = lane.mkdir(&at, b"d");
    }
    let old = old_image(&lane.store);
    assert!(verdict(&old));
    for target in [1u8, 17, 63] {
        let mut image = old.clone();
        image[16 + 80 * 64 + 3] = target;
        assert!(!verdict(&image));
    }
}
