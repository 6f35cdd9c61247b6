//! The search for a name, with the byte pairs that it compares.

mod common;
use common::*;
use peer::generator::encode::{handle, Attributes};
use peer::{search, Search};

/// The search as the papers say it, over the bytes of a sound store.
fn plain_search(store: &[u8], directory: u32, name: &[u8]) -> Search {
    let head = |at: usize| words(&store[at..at + 12]);
    let names = 12 + RECORD * head(8)[0] as usize;
    let count = words(&store[names..names + 4])[0] as usize;
    let mut compared = 0;
    for record in 0..count {
        let at = names + 4 + 44 * record;
        let length = head(at)[2] as usize;
        if length == 0 || head(at)[0] != directory || length != name.len() {
            continue;
        }
        let text = &store[at + 12..at + 12 + length];
        if text == name {
            return got(Some(record), compared + length as u32);
        }
        let equal = (0..length).take_while(|&to| text[to] == name[to]).count();
        compared += equal as u32 + 1;
    }
    got(None, compared)
}

fn got(found: Option<usize>, compared: u32) -> Search {
    Search { found, compared }
}

/// A store with these files in the root, in records from 0 on.
fn with(names: &[&[u8]]) -> Lane {
    let mut lane = Lane::new(names.len() as u32 + 8, names.len() as u32 + 8, 0);
    for name in names {
        lane.create(&root(), name);
    }
    lane
}

/// Searches, and holds the result against both the wanted one and the plain
/// search. LOOKUP must answer by it.
fn expect(lane: &mut Lane, directory: u32, name: &[u8], found: Option<usize>, compared: u32) {
    let result = search(&lane.store, directory, name).unwrap();
    assert_eq!(result, got(found, compared), "{name:?} in {directory}");
    assert_eq!(result, plain_search(&lane.store, directory, name));
    let generation = words(&lane.record(directory as usize)[4..8])[0];
    let (answered, mut reply) = lane.ask(&lookup(&handle(STAMP, directory, generation), name));
    match found {
        Some(record) => {
            assert_eq!(answered, status::OK);
            let child = lane.name(record).1;
            assert_eq!(words(&reply.opaque())[1], child);
        }
        None => assert_eq!(answered, status::NOENT),
    }
}

#[test]
fn an_empty_directory() {
    let mut lane = with(&[]);
    expect(&mut lane, 0, b"a", None, 0);
    expect(&mut lane, 0, &[b'a'; 32], None, 0);
    // Without any name record at all, too.
    let mut lane = Lane::new(1, 0, 0);
    expect(&mut lane, 0, b"a", None, 0);
    // An empty directory beside names.
    let mut lane = with(&[b"tag", b"bag"]);
    lane.mkdir(&root(), b"cart");
    expect(&mut lane, 3, b"tag", None, 0);
}

#[test]
fn one_name() {
    let mut lane = with(&[b"tag"]);
    // Found: its whole length.
    expect(&mut lane, 0, b"tag", Some(0), 3);
    // Lengths that differ.
    for other in [&b"t"[..], b"ta", b"tags", b"tagtag", &[b't'; 32]] {
        expect(&mut lane, 0, other, None, 0);
    }
    // The first, a middle and the last byte differ.
    expect(&mut lane, 0, b"bag", None, 1);
    expect(&mut lane, 0, b"bug", None, 1);
    expect(&mut lane, 0, b"tug", None, 2);
    expect(&mut lane, 0, b"tub", None, 2);
    expect(&mut lane, 0, b"tab", None, 3);
    // Case and high bytes are bytes like others.
    expect(&mut lane, 0, b"Tag", None, 1);
    expect(&mut lane, 0, b"ta\xFF", None, 3);
}

#[test]
fn no_common_first_byte() {
    let names: [&[u8]; 5] = [b"ape", b"bee", b"cat", b"dog", b"elk"];
    let mut lane = with(&names);
    for (record, name) in names.iter().enumerate() {
        // One pair for each record before the match, nothing for those after.
        expect(&mut lane, 0, name, Some(record), record as u32 + 3);
    }
    expect(&mut lane, 0, b"fox", None, 5);
    expect(&mut lane, 0, b"cow", None, 6);
    expect(&mut lane, 0, b"eel", None, 6);
}

#[test]
fn equal_prefixes() {
    let names: [&[u8]; 5] = [b"tag-001", b"tag-002", b"tag-003", b"tag-004", b"tag-005"];
    let mut lane = with(&names);
    for (record, name) in names.iter().enumerate() {
        expect(&mut lane, 0, name, Some(record), 7 * record as u32 + 7);
    }
    expect(&mut lane, 0, b"tag-009", None, 35);
    expect(&mut lane, 0, b"tag-010", None, 30);
    expect(&mut lane, 0, b"tag-100", None, 25);
    expect(&mut lane, 0, b"bag-001", None, 5);
    expect(&mut lane, 0, b"tag-00", None, 0);
    expect(&mut lane, 0, b"tag-0011", None, 0);
}

#[test]
fn one_name_begins_with_the_other() {
    let mut lane = with(&[b"tagged", b"tag", b"tagg", b"t"]);
    expect(&mut lane, 0, b"tagged", Some(0), 6);
    expect(&mut lane, 0, b"tag", Some(1), 3);
    expect(&mut lane, 0, b"tagg", Some(2), 4);
    expect(&mut lane, 0, b"t", Some(3), 1);
    expect(&mut lane, 0, b"ta", None, 0);
    expect(&mut lane, 0, b"tagge", None, 0);
    expect(&mut lane, 0, b"taggeds", None, 0);
}

#[test]
fn bag_tags() {
    let mut lane = with(&[b"0123456789", b"123456789", b"0123456780"]);
    expect(&mut lane, 0, b"0123456789", Some(0), 10);
    expect(&mut lane, 0, b"123456789", Some(1), 9);
    expect(&mut lane, 0, b"0123456780", Some(2), 20);
    expect(&mut lane, 0, b"00123456789", None, 0);
    expect(&mut lane, 0, b"23456789", None, 0);
    expect(&mut lane, 0, b"1234567890", None, 2);
    expect(&mut lane, 0, b"012345678", None, 1);
}

#[test]
fn names_of_one_and_of_32_bytes() {
    let letters = *b"abcdefghijklmnopqrstuvwxyz012345";
    let changed = |at: usize| {
        let mut name = letters;
        name[at] = b'!';
        name
    };
    let mut lane = with(&[
        b"a",
        &letters,
        b"b",
        &changed(31),
        &changed(0),
        &changed(16),
    ]);
    expect(&mut lane, 0, b"a", Some(0), 1);
    expect(&mut lane, 0, b"b", Some(2), 2);
    expect(&mut lane, 0, b"c", None, 2);
    expect(&mut lane, 0, &letters, Some(1), 32);
    expect(&mut lane, 0, &changed(31), Some(3), 64);
    expect(&mut lane, 0, &changed(0), Some(4), 1 + 1 + 32);
    expect(&mut lane, 0, &changed(16), Some(5), 17 + 17 + 1 + 32);
    expect(&mut lane, 0, &letters[..31], None, 0);
    // Every place of the first difference, in names of every length.
    for length in 1..=32 {
        let mut lane = with(&[&letters[..length]]);
        expect(&mut lane, 0, &letters[..length], Some(0), length as u32);
        for at in 0..length {
            expect(&mut lane, 0, &changed(at)[..length], None, at as u32 + 1);
        }
    }
}

#[test]
fn other_directories_between() {
    let mut lane = Lane::new(16, 16, 0);
    let east = lane.mkdir(&root(), b"east");
    let west = lane.mkdir(&root(), b"west");
    lane.create(&east, b"0123456789");
    lane.create(&west, b"0123456789");
    lane.create(&east, b"0123456780");
    lane.create(&root(), b"0123456789");
    lane.create(&west, b"0123456780");
    lane.create(&west, b"9123456789");
    expect(&mut lane, 1, b"0123456789", Some(2), 10);
    expect(&mut lane, 2, b"0123456789", Some(3), 10);
    expect(&mut lane, 0, b"0123456789", Some(5), 10);
    expect(&mut lane, 1, b"0123456780", Some(4), 20);
    expect(&mut lane, 2, b"0123456780", Some(6), 20);
    expect(&mut lane, 0, b"0123456780", None, 10);
    expect(&mut lane, 1, b"9123456789", None, 2);
    expect(&mut lane, 2, b"9123456789", Some(7), 1 + 1 + 10);
    expect(&mut lane, 0, b"west", Some(1), 1 + 4);
    expect(&mut lane, 1, b"west", None, 0);
}

#[test]
fn free_records_between() {
    let names: [&[u8]; 5] = [b"tag-1", b"tag-2", b"tag-3", b"tag-4", b"tag-5"];
    let mut lane = with(&names);
    expect(&mut lane, 0, b"tag-5", Some(4), 25);
    for gone in [b"tag-1", b"tag-3"] {
        assert_eq!(lane.status(&remove(&root(), gone)), status::OK);
    }
    // The records stay where they are; free ones cost nothing.
    expect(&mut lane, 0, b"tag-5", Some(4), 15);
    expect(&mut lane, 0, b"tag-2", Some(1), 5);
    expect(&mut lane, 0, b"tag-1", None, 15);
    // RENAME leaves the moved name in its record and frees that of the target.
    let over = rename(&root(), b"tag-5", &root(), b"tag-2");
    assert_eq!(lane.status(&over), status::OK);
    expect(&mut lane, 0, b"tag-2", Some(4), 10);
    expect(&mut lane, 0, b"tag-4", Some(3), 5);
    expect(&mut lane, 0, b"tag-5", None, 10);
    // The lowest free record is used again.
    lane.create(&root(), b"tag-9");
    expect(&mut lane, 0, b"tag-9", Some(0), 5);
    expect(&mut lane, 0, b"tag-2", Some(4), 15);
}

#[test]
fn dots_are_not_searched() {
    let mut lane = with(&[b"tag", b"cart"]);
    let inner = lane.mkdir(&root(), b"inner");
    lane.create(&inner, b"tag");
    for dots in [&b"."[..], b".."] {
        assert_eq!(search(&lane.store, 0, dots), Some(got(None, 0)));
        assert_eq!(search(&lane.store, 3, dots), Some(got(None, 0)));
    }
    // LOOKUP answers them all the same.
    for (dots, object) in [(&b"."[..], 3), (b"..", 0)] {
        let (status, mut reply) = lane.ask(&lookup(&inner, dots));
        assert_eq!(status, status::OK);
        assert_eq!(words(&reply.opaque())[1], object);
    }
    // The search alone takes them as any other name; they are in no record.
    lane.create(&root(), b"a");
    lane.create(&root(), b".b");
    assert_eq!(search(&lane.store, 0, b"."), Some(got(None, 1)));
    assert_eq!(search(&lane.store, 0, b".."), Some(got(None, 2)));
}

#[test]
fn a_full_store() {
    // 63 names of 32 bytes, unlike each other in one byte.
    for at in [0, 5, 31] {
        let named = |number: usize| {
            let mut name = [b'x'; 32];
            name[at] = b'0' + number as u8;
            name
        };
        let mut lane = Lane::new(64, 63, 2);
        for number in 0..63 {
            lane.create(&root(), &named(number));
        }
        let pairs = at as u32 + 1;
        for number in [0, 1, 31, 61, 62] {
            let before = number as u32 * pairs;
            expect(&mut lane, 0, &named(number), Some(number), before + 32);
        }
        expect(&mut lane, 0, &named(63), None, 63 * pairs);
        expect(&mut lane, 0, &[b'y'; 32], None, 63);
        expect(&mut lane, 0, &[b'x'; 31], None, 0);
    }
}

#[test]
fn any_number_and_any_name() {
    let mut lane = with(&[b"tag", b"bag"]);
    lane.mkdir(&root(), b"gone");
    assert_eq!(lane.status(&rmdir(&root(), b"gone")), status::OK);
    // A file, free objects, one past the objects, and far beyond.
    for directory in [1, 2, 3, 4, 9, 10, 11, 63, 64, 128, 256, u32::MAX] {
        assert_eq!(search(&lane.store, directory, b"tag"), Some(got(None, 0)));
    }
    let mut with_zero = *b"tag";
    with_zero[2] = 0;
    for (name, compared) in [
        (&b""[..], 0),
        (&[b't'; 33], 0),
        (&[0; 33], 0),
        (&[b't'; 10_000], 0),
        (&with_zero, 3 + 1),
        (b"ta/", 3 + 1),
    ] {
        assert_eq!(search(&lane.store, 0, name), Some(got(None, compared)));
    }
}

#[test]
fn a_store_that_fails_its_check() {
    let mut lane = with(&[b"tag"]);
    assert!(search(&lane.store, 0, b"tag").is_some());
    assert_eq!(search(&lane.store[1..], 0, b"tag"), None);
    assert_eq!(search(&[], 0, b"tag"), None);
    lane.poke_object(0, 0, 1);
    assert_eq!(search(&lane.store, 0, b"tag"), None);
}

#[test]
fn every_procedure_finds_by_the_name_as_a_whole() {
    let mut lane = with(&[b"0123456789", b"0123456780"]);
    let cart = lane.mkdir(&root(), b"cart-00001");
    for near in [&b"123456789"[..], b"012345678", b"0123456788", b"cart-0000"] {
        assert_eq!(lane.status(&remove(&root(), near)), status::NOENT);
        assert_eq!(lane.status(&rmdir(&root(), near)), status::NOENT);
        let moved = rename(&root(), near, &cart, b"moved");
        assert_eq!(lane.status(&moved), status::NOENT);
    }
    for there in [&b"0123456789"[..], b"0123456780", b"cart-00001"] {
        let made = mkdir(&root(), there, Attributes::default());
        assert_eq!(lane.status(&made), status::EXIST);
        let made = create(&root(), there, Attributes::default());
        assert_eq!(lane.status(&made), status::EXIST);
    }
    // The same name elsewhere is free, and is then found there.
    lane.create(&cart, b"0123456789");
    let moved = rename(&root(), b"0123456789", &cart, b"0123456789");
    assert_eq!(lane.status(&moved), status::OK);
    expect(&mut lane, 0, b"0123456789", None, 10 + 1);
    expect(&mut lane, 3, b"0123456789", Some(0), 10);
    assert_eq!(lane.status(&remove(&cart, b"0123456789")), status::OK);
    assert_eq!(lane.status(&rmdir(&root(), b"cart-00001")), status::OK);
    expect(&mut lane, 0, b"0123456780", Some(1), 10);
}

#[test]
fn agrees_with_the_plain_search() {
    use peer::generator::random::Random;
    let mut random = Random::new(404);
    let mut found = 0;
    for _ in 0..60 {
        let mut lane = Lane::new(24, 30, 0);
        let mut directories = vec![root()];
        for _ in 0..40 {
            let length = random.pick(&[1, 2, 3, 7, 8, 9]);
            let name: Vec<u8> = (0..length).map(|_| random.pick(b"ab")).collect();
            let place = directories[random.below(directories.len())].clone();
            match random.below(5) {
                0 => {
                    let (status, mut reply) =
                        lane.ask(&mkdir(&place, &name, Attributes::default()));
                    if status == status::OK {
                        reply.word();
                        directories.push(reply.opaque());
                    }
                }
                1 => {
                    lane.status(&remove(&place, &name));
                }
                _ => {
                    lane.status(&create(&place, &name, Attributes::default()));
                }
            }
            for directory in 0..lane.shape.objects as u32 {
                let result = search(&lane.store, directory, &name).unwrap();
                assert_eq!(result, plain_search(&lane.store, directory, &name));
                found += usize::from(result.found.is_some());
            }
        }
    }
    assert!(found > 1000, "{found}");
}
