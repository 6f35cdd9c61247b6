//! The demands of the store check, one at a time, and the fast check against
//! a plain one that compares records in pairs.

mod common;
use common::plain::plain_check;
use common::*;
use peer::generator::encode::{Attributes, Request};
use peer::generator::random::Random;

/// A store with files of several sizes, directories in directories, holes
/// among the records, a spent free record and a file that keeps a verifier.
fn sample() -> Lane {
    let mut lane = Lane::new(12, 14, 40);
    let first = lane.mkdir(&root(), b"first");
    let second = lane.mkdir(&first, b"second");
    let third = lane.mkdir(&second, b"third");
    lane.create(&root(), b"gone");
    let file = lane.create(&root(), b"file");
    lane.create(&third, b"file");
    lane.create(&third, b"exactly-thirty-two-bytes-of-name");
    assert_eq!(lane.write(&file, 0, &[1; 1300]), 0);
    let other = lane.create(&second, b"other");
    assert_eq!(lane.write(&other, 4096, &[2; 4096]), 0);
    let request = exclusive(&third, b"kept", *b"keep \0me");
    assert_eq!(lane.status(&request), 0);
    assert_eq!(lane.status(&remove(&root(), b"gone")), 0);
    let spent = 11;
    lane.poke_object(spent, 4, u32::MAX);
    assert!(plain_check(&lane.store));
    assert_eq!(peer::check(&lane.store).number, 0);
    lane
}

fn verdict(store: &[u8]) -> bool {
    let fast = peer::check(store).number == 0;
    assert_eq!(fast, plain_check(store));
    fast
}

/// Whether the sample is valid after one field has another value.
fn with_object(object: usize, field: usize, value: u32) -> bool {
    let mut lane = sample();
    lane.poke_object(object, field, value);
    verdict(&lane.store)
}

fn with_place(object: usize, place: usize, value: u16) -> bool {
    let mut lane = sample();
    let at = 12 + RECORD * object + 48 + 2 * place;
    lane.store[at..at + 2].copy_from_slice(&value.to_be_bytes());
    verdict(&lane.store)
}

fn with_name(record: usize, field: usize, bytes: &[u8]) -> bool {
    let mut lane = sample();
    let at = 16 + RECORD * lane.shape.objects + 44 * record + field;
    lane.store[at..at + bytes.len()].copy_from_slice(bytes);
    verdict(&lane.store)
}

#[test]
fn the_sample() {
    let lane = sample();
    assert_eq!(lane.name(0).3[..5], *b"first");
    assert_eq!((lane.name(0).0, lane.name(0).1), (0, 1));
    assert_eq!((lane.name(1).0, lane.name(1).1), (1, 2));
    assert_eq!((lane.name(2).0, lane.name(2).1), (2, 3));
    assert_eq!(lane.name(3), (0, 0, 0, vec![0; 32]));
    assert_eq!((lane.name(4).0, lane.name(4).1), (0, 5));
    assert_eq!(&lane.places(5)[..4], &[0, 1, 2, 65535]);
    assert_eq!(lane.places(8)[..16].len(), 16);
    assert_eq!(lane.places(4), vec![0; 16]);
}

#[test]
fn counts_and_length() {
    for (at, good) in [
        (0, 1),
        (8, 12),
        (12 + 12 * RECORD, 14),
        (16 + 12 * RECORD + 616, 40),
    ] {
        let lane = sample();
        assert_eq!(words(&lane.store[at..at + 4]), [good]);
        for value in [
            0,
            2,
            good + 1,
            good.wrapping_sub(1),
            65,
            129,
            1025,
            u32::MAX,
        ] {
            let mut store = lane.store.clone();
            store[at..at + 4].copy_from_slice(&value.to_be_bytes());
            assert_eq!(verdict(&store), value == good);
        }
    }
    // Counts just over their range in a buffer of the fitting length.
    for (objects, names, blocks) in [(65usize, 0usize, 0usize), (1, 129, 0), (1, 0, 1025)] {
        let mut store = vec![0u8; 20 + RECORD * objects + 44 * names + 512 * blocks];
        let root = Lane::new(1, 0, 0).store;
        store[..12 + RECORD].copy_from_slice(&root[..12 + RECORD]);
        store[8..12].copy_from_slice(&(objects as u32).to_be_bytes());
        let at = 12 + RECORD * objects;
        store[at..at + 4].copy_from_slice(&(names as u32).to_be_bytes());
        let at = at + 4 + 44 * names;
        store[at..at + 4].copy_from_slice(&(blocks as u32).to_be_bytes());
        assert!(!verdict(&store));
    }
}

#[test]
fn types_and_root() {
    assert!(!with_object(0, 0, 0));
    assert!(!with_object(0, 0, 1));
    assert!(!with_object(0, 0, 3));
    assert!(!with_object(6, 0, 3));
    assert!(!with_object(6, 0, 0x0100_0000));
    // An empty file and an empty directory look alike but for their type.
    assert!(with_object(6, 0, 2));
    assert!(!with_object(3, 0, 1));
}

#[test]
fn free_objects() {
    assert!(with_object(10, 4, 17));
    assert!(with_object(10, 4, u32::MAX));
    for field in (8..RECORD).step_by(4) {
        assert!(!with_object(10, field, 1), "field {field}");
        assert!(!with_object(10, field, 0x8000_0000), "field {field}");
    }
    assert!(!with_object(10, 48, u32::MAX));
}

#[test]
fn live_fields() {
    for object in [0, 1, 5] {
        assert!(with_object(object, 4, u32::MAX - 1));
        assert!(!with_object(object, 4, u32::MAX));
        assert!(with_object(object, 8, 4095));
        assert!(!with_object(object, 8, 4096));
        for field in [12, 16, 24, 32, 40] {
            assert!(with_object(object, field, u32::MAX));
        }
        for field in [28, 36, 44] {
            assert!(with_object(object, field, 999_999_999));
            assert!(!with_object(object, field, 1_000_000_000));
        }
    }
    assert!(!with_object(0, 20, 1));
    assert!(!with_object(1, 20, 512));
}

#[test]
fn verifiers_and_flags() {
    // Object 9 keeps a verifier, object 5 is a file that keeps none, 10 and 4
    // are free, the others are directories.
    for value in [0, 1, 0x8000_0000, u32::MAX] {
        assert!(with_object(9, 80, value));
        assert!(with_object(9, 84, value));
    }
    assert!(with_object(5, 88, 1), "a verifier of eight zeros");
    for object in [0, 1, 3, 4, 10, 11] {
        assert!(!with_object(object, 88, 1), "object {object}");
    }
    for object in [0, 1, 4, 5, 9, 10] {
        for flag in [2, 3, 255, 256, 0x0100_0000, 0x8000_0001, u32::MAX] {
            assert!(!with_object(object, 88, flag), "object {object}");
        }
    }
    // A verifier without its flag, in any of its bytes.
    assert!(!with_object(9, 88, 0));
    for object in [0, 1, 4, 5, 10] {
        for at in 80..88 {
            let mut lane = sample();
            lane.store[12 + RECORD * object + at] = 0x10;
            assert!(!verdict(&lane.store), "object {object}, byte {at}");
        }
    }
    // Both on a directory and on free records.
    for object in [0, 1, 4, 10] {
        let mut lane = sample();
        let kept = lane.record(9)[80..].to_vec();
        let at = 12 + RECORD * object + 80;
        lane.store[at..at + 12].copy_from_slice(&kept);
        assert!(!verdict(&lane.store), "object {object}");
    }
    // The file that keeps one made a directory, and without it.
    assert!(!with_object(9, 0, 2));
    let mut lane = sample();
    lane.poke_object(9, 0, 2);
    lane.store[12 + RECORD * 9 + 80..12 + RECORD * 10].fill(0);
    assert!(verdict(&lane.store));
    // Two files may keep the same verifier.
    let mut lane = sample();
    let kept = lane.record(9)[80..].to_vec();
    let at = 12 + RECORD * 5 + 80;
    lane.store[at..at + 12].copy_from_slice(&kept);
    assert!(verdict(&lane.store));
}

#[test]
fn sizes_and_blocks() {
    // The file has 1,300 bytes in blocks 0, 1 and 2.
    for (size, good) in [
        (1024, false),
        (1025, true),
        (1536, true),
        (1537, false),
        (0, false),
        (8192, false),
        (8193, false),
    ] {
        assert_eq!(with_object(5, 20, size), good, "size {size}");
    }
    for (place, block, good) in [
        (0, 39, true),
        (0, 40, false),
        (0, 65535, false),
        (2, 65535, false),
        (3, 39, false),
        (3, 0, false),
        (15, 0, false),
        (0, 1, false),
        (2, 0, false),
        (1, 3, false),
        (1, 30, true),
    ] {
        assert_eq!(with_place(5, place, block), good, "place {place} {block}");
    }
    // A directory has no blocks.
    assert!(!with_place(1, 0, 30));
    assert!(!with_place(0, 15, 0));
    // Block numbers may stand in any order.
    let mut lane = sample();
    let at = 12 + RECORD * 5 + 48;
    lane.store[at..at + 6].copy_from_slice(&[0, 2, 0, 0, 0, 1]);
    assert!(verdict(&lane.store));
    // A file without blocks in a store without blocks, then with one.
    let mut lane = Lane::new(2, 1, 0);
    lane.create(&root(), b"f");
    assert!(verdict(&lane.store));
    lane.poke_object(1, 20, 1);
    assert!(!verdict(&lane.store));
    let at = 12 + RECORD + 48;
    lane.store[at..at + 2].fill(0);
    assert!(!verdict(&lane.store));
    // Block contents are not checked.
    let mut lane = sample();
    let at = lane.block_at(0);
    lane.store[at..].fill(0xEE);
    assert!(verdict(&lane.store));
}

#[test]
fn free_names() {
    for at in 0..44 {
        if (8..12).contains(&at) {
            continue;
        }
        assert!(!with_name(3, at, &[1]), "byte {at}");
    }
}

#[test]
fn used_names() {
    // Record 0: "first" in the root.
    for length in [4u32, 6, 33, 32, 0, u32::MAX, 0x0100_0005] {
        assert!(!with_name(0, 8, &length.to_be_bytes()), "length {length}");
    }
    for at in 0..5 {
        assert!(!with_name(0, 12 + at, &[0]));
        assert!(!with_name(0, 12 + at, b"/"));
        assert!(with_name(0, 12 + at, &[0xFF]));
        assert!(with_name(0, 12 + at, &[1]));
        assert!(with_name(0, 12 + at, &[0x30]));
        assert!(with_name(0, 12 + at, &[0xAF]));
    }
    for at in 5..32 {
        assert!(!with_name(0, 12 + at, &[1]), "padding {at}");
    }
    let named = |text: &[u8]| {
        let mut bytes = (text.len() as u32).to_be_bytes().to_vec();
        bytes.extend(text);
        bytes.resize(36, 0);
        with_name(0, 8, &bytes)
    };
    assert!(!named(b"."));
    assert!(!named(b".."));
    assert!(named(b"..."));
    assert!(named(b".a"));
    assert!(named(b"a."));
    assert!(named(b"..a"));
    assert!(named(b"a"));
    assert!(named(&[b'x'; 32]));
    // The name of another file in the same directory, whole and in part.
    assert!(!named(b"file"));
    assert!(named(b"fil"));
    assert!(named(b"files"));
}

#[test]
fn names_join_live_objects() {
    for directory in [3u32, 0, 2] {
        // The moved directory 1 holds 2, which holds 3.
        let good = directory == 0;
        assert_eq!(with_name(0, 0, &directory.to_be_bytes()), good);
    }
    for directory in [4u32, 5, 9, 11, 12, 63, 64, 128, u32::MAX] {
        assert!(!with_name(0, 0, &directory.to_be_bytes()));
    }
    for child in [0u32, 2, 4, 5, 9, 11, 12, 63, 64, 65, u32::MAX] {
        assert!(!with_name(0, 4, &child.to_be_bytes()));
    }
    // Two names for a file: record 3 is free.
    let mut lane = sample();
    let at = 16 + RECORD * 12 + 44 * 3;
    lane.store[at..at + 13].copy_from_slice(&[0, 0, 0, 0, 0, 0, 0, 6, 0, 0, 0, 1, b'q']);
    assert!(verdict(&lane.store));
    // Two names for a directory, a name for the root, a name of a free object.
    for child in [1, 2, 3, 0, 4, 11] {
        lane.store[at + 7] = child;
        assert!(!verdict(&lane.store), "{child}");
    }
    // An object without a name.
    let mut lane = sample();
    let at = 16 + RECORD * 12;
    lane.store[at..at + 44].fill(0);
    assert!(!verdict(&lane.store));
}

#[test]
fn parents_lead_to_the_root() {
    // Directory 1 in itself, then 1 in 3 while 3 is below 1.
    assert!(!with_name(0, 0, &1u32.to_be_bytes()));
    assert!(!with_name(0, 0, &3u32.to_be_bytes()));
    // A chain of 63 directories is fine; closed to a ring it is not.
    let mut lane = Lane::new(64, 64, 0);
    let mut at = root();
    for _ in 0..63 {
        at = lane.mkdir(&at, b"d");
    }
    assert!(verdict(&lane.store));
    let first = 16 + RECORD * 64;
    for target in [1u8, 17, 63] {
        let mut store = lane.store.clone();
        store[first + 3] = target;
        assert!(!verdict(&store));
    }
}

#[test]
fn full_stores() {
    let mut lane = Lane::new(64, 128, 1024);
    for number in 0..63u32 {
        let name = format!("file-{number}");
        let file = lane.create(&root(), name.as_bytes());
        assert_eq!(lane.write(&file, 0, &[1; 4096]), 0);
        assert_eq!(lane.write(&file, 4096, &[2; 4096]), 0);
    }
    assert!(verdict(&lane.store));
    assert_eq!(lane.space(), (16 * 512, 0));
    let mut twice = lane.store.clone();
    // The last block number of the last file is that of the first file.
    twice[12 + RECORD * 63 + 78..12 + RECORD * 63 + 80].fill(0);
    assert!(!verdict(&twice));
    let request = create(&root(), b"more", Attributes::default());
    assert_eq!(lane.status(&request), status::NOSPC);
}

#[test]
fn changed_bytes_of_valid_stores() {
    let mut random = Random::new(20);
    let lane = sample();
    let record_bytes = lane.block_at(0);
    let mut valid = 0;
    for _ in 0..60_000 {
        let mut store = lane.store.clone();
        for _ in 0..random.between(1, 2) {
            let at = random.below(record_bytes);
            store[at] = match random.below(4) {
                0 => store[at] ^ (1 << random.below(8)),
                1 => random.next() as u8,
                2 => random.below(12) as u8,
                _ => 0,
            };
        }
        valid += usize::from(verdict(&store));
    }
    assert!(valid > 5_000);
}

#[test]
fn records_copied_over_others() {
    let mut random = Random::new(21);
    let lane = sample();
    let mut valid = 0;
    for _ in 0..40_000 {
        let mut store = lane.store.clone();
        for _ in 0..random.between(1, 3) {
            let (start, bytes, count) = if random.once_in(2) {
                (12, RECORD, 12)
            } else {
                (16 + 12 * RECORD, 44, 14)
            };
            let from = start + bytes * random.below(count);
            let to = start + bytes * random.below(count);
            if random.once_in(2) {
                store.copy_within(from..from + bytes, to);
            } else {
                for at in 0..bytes {
                    store.swap(from + at, to + at);
                }
            }
        }
        valid += usize::from(verdict(&store));
    }
    assert!(valid > 1_000);
}

#[test]
fn random_bytes() {
    let mut random = Random::new(22);
    for _ in 0..2_000 {
        let length = random.below(3000);
        let mut store = random.bytes(length);
        assert!(!verdict(&store));
        // The same with sound counts.
        let (objects, names) = (random.between(1, 8), random.between(0, 8));
        store = random.bytes(20 + RECORD * objects + 44 * names);
        for (at, count) in [
            (0, 1),
            (8, objects),
            (12 + RECORD * objects, names),
            (16 + RECORD * objects + 44 * names, 0),
        ] {
            store[at..at + 4].copy_from_slice(&(count as u32).to_be_bytes());
        }
        assert!(!verdict(&store));
    }
}

#[test]
fn every_call_checks_the_store() {
    let mut lane = sample();
    lane.poke_object(5, 8, 4096);
    let before = lane.store.clone();
    let mut reply = vec![SPARE; 4224];
    for request in [Request::Null, getattr(&root())] {
        let answer = peer::call(&request.call(1), &mut lane.store, &mut reply, 1, 1, 1);
        assert_eq!((answer.number, answer.length), (1, 0));
    }
    assert!(before == lane.store && reply.iter().all(|&byte| byte == SPARE));
}
