//! RENAME over names that exist. The wanted stores and replies are put
//! together field by field as the papers describe them.

mod common;
use common::*;
use peer::generator::encode::{handle, Attributes, Request};

const XID: u32 = 0x7069_6473;
const KEPT: [u8; 8] = *b"kept\0\x01\x02\x03";

fn bytes(words: &[u32]) -> Vec<u8> {
    words.iter().flat_map(|word| word.to_be_bytes()).collect()
}

/// The record of a free object.
fn free(generation: u32) -> Vec<u8> {
    let mut record = vec![0; 92];
    record[4..8].copy_from_slice(&generation.to_be_bytes());
    record
}

/// The record of a live object of generation 0. The times are those of access,
/// modification and change.
fn live(kind: u32, mode: u32, size: u32, times: [Time; 3], blocks: &[u16]) -> Vec<u8> {
    let [atime, mtime, ctime] = times;
    let mut record = bytes(&[
        kind, 0, mode, 0, 0, size, atime.0, atime.1, mtime.0, mtime.1, ctime.0, ctime.1,
    ]);
    for place in 0..16 {
        let number = blocks.get(place).copied().unwrap_or(65535);
        record.extend(number.to_be_bytes());
    }
    record.extend([0; 12]);
    record
}

fn root_record(times: [Time; 3]) -> Vec<u8> {
    live(2, 493, 0, times, &[])
}

/// A directory that a call made.
fn directory(times: [Time; 3]) -> Vec<u8> {
    live(2, 0, 0, times, &[])
}

/// A file that a call made.
fn file(size: u32, times: [Time; 3], blocks: &[u16]) -> Vec<u8> {
    live(1, 0, size, times, blocks)
}

/// The record with a verifier and the flag.
fn keeping(mut record: Vec<u8>) -> Vec<u8> {
    record[80..88].copy_from_slice(&KEPT);
    record[91] = 1;
    record
}

/// A used name record.
fn name(directory: u32, child: u32, text: &[u8]) -> Vec<u8> {
    let mut record = bytes(&[directory, child, text.len() as u32]);
    record.extend(text);
    record.resize(44, 0);
    record
}

fn free_name() -> Vec<u8> {
    vec![0; 44]
}

fn block(byte: u8, count: usize) -> Vec<u8> {
    let mut block = vec![byte; count];
    block.resize(512, 0);
    block
}

fn image(objects: &[Vec<u8>], names: &[Vec<u8>], blocks: &[Vec<u8>]) -> Vec<u8> {
    let mut image = bytes(&[1, STAMP, objects.len() as u32]);
    image.extend(objects.concat());
    image.extend((names.len() as u32).to_be_bytes());
    image.extend(names.concat());
    image.extend((blocks.len() as u32).to_be_bytes());
    image.extend(blocks.concat());
    image
}

/// What a reply says of a directory of mode and links: its times before the
/// call, and those after it.
fn change(
    object: u32,
    mode: u32,
    links: u32,
    atime: Time,
    before: [Time; 2],
    after: Time,
) -> Vec<u32> {
    let [mtime, ctime] = before;
    let mut words = vec![1, 0, 512, mtime.0, mtime.1, ctime.0, ctime.1, 1];
    // Type, mode, links, ids, size, used bytes, device, stamp, file number.
    words.extend([
        2,
        mode,
        links,
        0,
        0,
        0,
        512,
        0,
        0,
        0,
        0,
        0,
        STAMP,
        0,
        object + 1,
    ]);
    words.extend([atime.0, atime.1, after.0, after.1, after.0, after.1]);
    words
}

/// The whole reply with a status and the words after it.
fn reply(status: u32, body: &[Vec<u32>]) -> Vec<u8> {
    let mut words = vec![XID, 1, 0, 0, 0, 0, status];
    words.extend(body.concat());
    bytes(&words)
}

impl Lane {
    /// Sends a RENAME at the next moment of the clock.
    fn rename(&mut self, from: (&[u8], &[u8]), to: (&[u8], &[u8])) -> u32 {
        self.tick();
        self.status(&rename(from.0, from.1, to.0, to.1))
    }

    /// Sends a RENAME that changes nothing; both directories are live.
    fn rename_nothing(&mut self, from: (&[u8], &[u8]), to: (&[u8], &[u8]), wanted: u32) {
        let before = self.store.clone();
        let attributes = (self.attr(from.0), self.attr(to.0));
        self.tick();
        let (status, mut got) = self.ask(&rename(from.0, from.1, to.0, to.1));
        assert_eq!(status, wanted, "{:?} to {:?}", from.1, to.1);
        assert_eq!(got.bytes.len(), 260);
        for after in [attributes.0, attributes.1] {
            let change = got.wcc();
            assert!(change.unchanged());
            assert_eq!(change.after, Some(after));
        }
        got.end();
        assert!(self.store == before);
    }

    /// Makes a file EXCLUSIVE and returns its handle.
    fn make(&mut self, directory: &[u8], name: &[u8]) -> Vec<u8> {
        let (status, mut got) = self.ask(&exclusive(directory, name, KEPT));
        assert_eq!(status, status::OK);
        assert_eq!(got.word(), 1);
        got.opaque()
    }

    /// The handle that a name leads to.
    fn found(&mut self, directory: &[u8], name: &[u8]) -> Vec<u8> {
        let (status, mut got) = self.ask(&lookup(directory, name));
        assert_eq!(status, status::OK);
        got.opaque()
    }
}

#[test]
fn file_over_file_in_one_directory() {
    // The moved one is made first or second, so it has the lower or the
    // higher object and name record.
    for moved_first in [true, false] {
        let mut lane = Lane::new(4, 3, 5);
        let format = (1000, 1);
        let mut made = [(0, 0); 2];
        for (turn, clock) in made.iter_mut().enumerate() {
            lane.tick();
            *clock = lane.clock();
            if (turn == 0) == moved_first {
                let file = lane.create(&root(), b"from");
                assert_eq!(lane.write(&file, 0, &[0xAA; 600]), status::OK);
            } else {
                // Bytes behind the end, and a verifier.
                let file = lane.make(&root(), b"target");
                assert_eq!(lane.write(&file, 0, &[0xBB; 700]), status::OK);
                let at = lane.block_at(if moved_first { 3 } else { 1 });
                lane.store[at + 188..at + 512].fill(0xCC);
            }
        }
        // A free block's bytes stay.
        let at = lane.block_at(4);
        lane.store[at] = 0xDD;
        lane.tick();
        let clock = lane.clock();
        let got = lane.send(&rename(&root(), b"from", &root(), b"target"));
        let holder = root_record([format, clock, clock]);
        let moved = |made: Time, blocks: &[u16]| file(600, [made, made, clock], blocks);
        let other = block(0xDD, 1);
        let wanted = if moved_first {
            image(
                &[holder, moved(made[0], &[0, 1]), free(1), free(0)],
                &[name(0, 1, b"target"), free_name(), free_name()],
                &[
                    block(0xAA, 512),
                    block(0xAA, 88),
                    block(0, 0),
                    block(0, 0),
                    other,
                ],
            )
        } else {
            image(
                &[holder, free(1), moved(made[1], &[2, 3]), free(0)],
                &[free_name(), name(0, 2, b"target"), free_name()],
                &[
                    block(0, 0),
                    block(0, 0),
                    block(0xAA, 512),
                    block(0xAA, 88),
                    other,
                ],
            )
        };
        assert!(lane.store == wanted);
        let both = change(0, 493, 2, format, [made[1], made[1]], clock);
        assert_eq!(got.bytes, reply(0, &[both.clone(), both]));
        // Sent again, the first name is gone.
        lane.rename_nothing((&root(), b"from"), (&root(), b"target"), status::NOENT);
    }
}

#[test]
fn file_over_file_in_two_directories() {
    let mut lane = Lane::new(5, 5, 4);
    let format = (1000, 1);
    lane.tick();
    let first = lane.clock();
    let inner = lane.mkdir(&root(), b"inner");
    lane.tick();
    let second = lane.clock();
    // The target has the lower object and record; both keep a verifier.
    let target = lane.make(&inner, b"b");
    lane.tick();
    let third = lane.clock();
    let moved = lane.make(&root(), b"a");
    assert_eq!(lane.write(&target, 0, &[1; 1024]), status::OK);
    assert_eq!(lane.write(&moved, 511, &[2; 2]), status::OK);
    lane.tick();
    let clock = lane.clock();
    let got = lane.send(&rename(&root(), b"a", &inner, b"b"));
    let wanted = image(
        &[
            root_record([format, clock, clock]),
            directory([first, clock, clock]),
            free(1),
            keeping(file(513, [third, third, clock], &[2, 3])),
            free(0),
        ],
        &[
            name(0, 1, b"inner"),
            free_name(),
            name(1, 3, b"b"),
            free_name(),
            free_name(),
        ],
        &[
            block(0, 0),
            block(0, 0),
            [&[0; 511][..], &[2]].concat(),
            block(2, 1),
        ],
    );
    assert!(lane.store == wanted);
    let body = [
        change(0, 493, 3, format, [third, third], clock),
        change(1, 0, 2, first, [second, second], clock),
    ];
    assert_eq!(got.bytes, reply(0, &body));
    // The moved file is found by its handle, its name and its verifier.
    assert_eq!(lane.found(&inner, b"b"), moved);
    assert_eq!(lane.make(&inner, b"b"), moved);
    assert_eq!(lane.read(&moved, 511, 10), (vec![2, 2], true));
    assert_eq!(lane.status(&getattr(&target)), status::STALE);
    assert_eq!(lane.status(&lookup(&root(), b"a")), status::NOENT);
    assert_eq!(lane.space(), (1024, 2));
}

#[test]
fn directory_over_an_empty_one_in_one_directory() {
    let mut lane = Lane::new(6, 6, 0);
    let format = (1000, 1);
    lane.tick();
    let made = lane.clock();
    let target = lane.mkdir(&root(), b"target");
    let moved = lane.mkdir(&root(), b"moved");
    let sub = lane.mkdir(&moved, b"sub");
    lane.create(&moved, b"file");
    lane.tick();
    let clock = lane.clock();
    let got = lane.send(&rename(&root(), b"moved", &root(), b"target"));
    let wanted = image(
        &[
            root_record([format, clock, clock]),
            free(1),
            directory([made, made, clock]),
            directory([made, made, made]),
            file(0, [made, made, made], &[]),
            free(0),
        ],
        &[
            free_name(),
            name(0, 2, b"target"),
            name(2, 3, b"sub"),
            name(2, 4, b"file"),
            free_name(),
            free_name(),
        ],
        &[],
    );
    assert!(lane.store == wanted);
    // Three links are left of four.
    let both = change(0, 493, 3, format, [made, made], clock);
    assert_eq!(got.bytes, reply(0, &[both.clone(), both]));
    assert_eq!(lane.attr(&root()).nlink, 3);
    assert_eq!(lane.attr(&moved).nlink, 3);
    assert_eq!(lane.found(&moved, b".."), root());
    assert_eq!(lane.found(&sub, b".."), moved);
    assert_eq!(lane.status(&getattr(&target)), status::STALE);
}

#[test]
fn directory_over_an_empty_one_in_two_directories() {
    let mut lane = Lane::new(6, 6, 0);
    let format = (1000, 1);
    lane.tick();
    let made = lane.clock();
    let outer = lane.mkdir(&root(), b"outer");
    let moved = lane.mkdir(&root(), b"moved");
    let target = lane.mkdir(&outer, b"target");
    let inside = lane.create(&moved, b"file");
    lane.tick();
    let clock = lane.clock();
    let got = lane.send(&rename(&root(), b"moved", &outer, b"target"));
    let wanted = image(
        &[
            root_record([format, clock, clock]),
            directory([made, clock, clock]),
            directory([made, made, clock]),
            free(1),
            file(0, [made, made, made], &[]),
            free(0),
        ],
        &[
            name(0, 1, b"outer"),
            name(1, 2, b"target"),
            free_name(),
            name(2, 4, b"file"),
            free_name(),
            free_name(),
        ],
        &[],
    );
    assert!(lane.store == wanted);
    // The first directory loses a subdirectory, the second keeps its one.
    let body = [
        change(0, 493, 3, format, [made, made], clock),
        change(1, 0, 3, made, [made, made], clock),
    ];
    assert_eq!(got.bytes, reply(0, &body));
    assert_eq!(lane.found(&moved, b".."), outer);
    assert_eq!(lane.found(&moved, b"file"), inside);
    assert_eq!(lane.status(&lookup(&target, b".")), status::STALE);
    // And back up, over a new one.
    let again = lane.mkdir(&root(), b"again");
    assert_eq!(again, handle(STAMP, 3, 1));
    assert_eq!(
        lane.rename((&outer, b"target"), (&root(), b"again")),
        status::OK
    );
    assert_eq!(lane.found(&moved, b".."), root());
    assert_eq!(lane.attr(&outer).nlink, 2);
    assert_eq!(lane.attr(&root()).nlink, 4);
}

#[test]
fn targets_that_stay() {
    let mut lane = Lane::new(10, 10, 2);
    lane.create(&root(), b"file");
    lane.mkdir(&root(), b"empty");
    let full = lane.mkdir(&root(), b"full");
    let below = lane.mkdir(&full, b"below");
    lane.mkdir(&below, b"lowest");
    lane.create(&full, b"inside");
    let root = &root()[..];
    for (from, to) in [
        // Not empty.
        ((root, &b"empty"[..]), (root, &b"full"[..])),
        ((root, b"empty"), (&full, b"below")),
        // Among them the directory that holds the moved one, and one above.
        ((&full, b"below"), (root, b"full")),
        ((&below, b"lowest"), (&full, b"below")),
        ((&below, b"lowest"), (root, b"full")),
        // A file over a directory, a directory over a file.
        ((root, b"file"), (root, b"empty")),
        ((root, b"file"), (root, b"full")),
        ((&full, b"inside"), (root, b"full")),
        ((root, b"empty"), (root, b"file")),
        ((root, b"empty"), (&full, b"inside")),
        ((root, b"full"), (root, b"file")),
    ] {
        lane.rename_nothing(from, to, status::EXIST);
    }
    // Emptied, the directory goes.
    assert_eq!(lane.status(&rmdir(&below, b"lowest")), status::OK);
    let empty = lane.found(root, b"empty");
    assert_eq!(lane.rename((root, b"empty"), (&full, b"below")), status::OK);
    assert_eq!(lane.found(&full, b"below"), empty);
    assert_eq!(lane.status(&getattr(&below)), status::STALE);
}

#[test]
fn onto_itself() {
    // With room, and in a store where nothing is free.
    for (objects, names, blocks) in [(8, 8, 8), (6, 5, 2)] {
        let mut lane = Lane::new(objects, names, blocks);
        let file = lane.make(&root(), b"file");
        assert_eq!(lane.write(&file, 0, &[3; 1024]), status::OK);
        lane.mkdir(&root(), b"empty");
        let full = lane.mkdir(&root(), b"full");
        let inner = lane.mkdir(&full, b"inner");
        lane.create(&inner, b"inside");
        let root = &root()[..];
        for place in [
            (root, &b"file"[..]),
            (root, b"empty"),
            (root, b"full"),
            (&full, b"inner"),
            (&inner, b"inside"),
        ] {
            lane.rename_nothing(place, place, status::OK);
        }
        assert_eq!(lane.make(root, b"file"), file);
    }
    // Every byte of the reply.
    let mut lane = Lane::new(2, 1, 0);
    let made = lane.clock();
    lane.create(&root(), b"n");
    lane.tick();
    let got = lane.send(&rename(&root(), b"n", &root(), b"n"));
    let both = change(0, 493, 2, (1000, 1), [made, made], made);
    assert_eq!(got.bytes, reply(0, &[both.clone(), both]));
}

#[test]
fn below_itself_onto_an_existing_name() {
    let mut lane = Lane::new(10, 10, 0);
    let outer = lane.mkdir(&root(), b"outer");
    let middle = lane.mkdir(&outer, b"middle");
    let inner = lane.mkdir(&middle, b"inner");
    lane.mkdir(&outer, b"empty");
    lane.create(&outer, b"file");
    lane.mkdir(&inner, b"empty");
    lane.create(&inner, b"file");
    let root = &root()[..];
    for to in [
        (&outer[..], &b"empty"[..]),
        (&outer, b"file"),
        (&outer, b"middle"),
        (&middle, b"inner"),
        (&inner, b"empty"),
        (&inner, b"file"),
    ] {
        lane.rename_nothing((root, b"outer"), to, status::INVAL);
    }
    for to in [
        (&middle[..], &b"inner"[..]),
        (&inner, b"empty"),
        (&inner, b"file"),
    ] {
        lane.rename_nothing((&outer, b"middle"), to, status::INVAL);
    }
    // A file never lies above anything.
    assert_eq!(
        lane.rename((&outer, b"file"), (&inner, b"file")),
        status::OK
    );
    assert_eq!(
        lane.rename((&outer, b"empty"), (&inner, b"empty")),
        status::OK
    );
}

#[test]
fn tests_in_their_order() {
    let mut lane = Lane::new(8, 8, 2);
    let file = lane.create(&root(), b"file");
    lane.create(&root(), b"other");
    let directory = lane.mkdir(&root(), b"directory");
    lane.mkdir(&directory, b"empty");
    let stale = handle(STAMP, 7, 0);
    let bad = vec![0; 11];
    let long = [b'n'; 33];
    let root = &root()[..];
    let names = [&b""[..], &long, b"a/", b".", b"none", b"file", b"directory"];
    for name in names {
        for other in names {
            for (from, to, wanted) in [
                (&stale[..], &bad[..], status::STALE),
                (&bad, &stale, status::BADHANDLE),
                (&file, &bad, status::NOTDIR),
                (root, &bad, status::BADHANDLE),
                (root, &stale, status::STALE),
                (root, &file, status::NOTDIR),
            ] {
                let request = rename(from, name, to, other);
                assert_eq!(lane.status(&request), wanted, "{request:?}");
            }
        }
    }
    for (name, wanted) in [
        (&b""[..], status::ACCES),
        (&long, status::NAMETOOLONG),
        (b"file\0", status::ACCES),
    ] {
        for other in [&b"."[..], b"..", b"none", b"file", b"directory"] {
            lane.rename_nothing((root, name), (root, other), wanted);
            lane.rename_nothing((root, other), (root, name), wanted);
        }
    }
    for dots in [&b"."[..], b".."] {
        for other in [&b"none"[..], b"file", b"directory", b"empty", b"."] {
            lane.rename_nothing((root, dots), (&directory, other), status::INVAL);
            lane.rename_nothing((&directory, other), (root, dots), status::INVAL);
        }
    }
    for to in [&b"none"[..], b"file", b"directory"] {
        lane.rename_nothing((root, b"none"), (root, to), status::NOENT);
        lane.rename_nothing((&directory, b"file"), (root, to), status::NOENT);
    }
}

#[test]
fn nothing_is_free() {
    let mut lane = Lane::new(4, 3, 4);
    let first = lane.create(&root(), b"a");
    let second = lane.create(&root(), b"b");
    lane.mkdir(&root(), b"d");
    assert_eq!(lane.write(&first, 0, &[1; 1000]), status::OK);
    assert_eq!(lane.write(&second, 0, &[2; 1000]), status::OK);
    assert_eq!(lane.space(), (0, 0));
    let more = create(&root(), b"more", Attributes::default());
    assert_eq!(lane.status(&more), status::NOSPC);
    assert_eq!(lane.rename((&root(), b"a"), (&root(), b"b")), status::OK);
    assert_eq!(lane.space(), (1024, 1));
    // What the target had is taken next: object 2, name record 1, and
    // blocks 2 and 3.
    let third = lane.create(&root(), b"c");
    assert_eq!(third, handle(STAMP, 2, 1));
    assert_eq!(lane.name(1), (0, 2, 1, name(0, 2, b"c")[12..].to_vec()));
    assert_eq!(lane.write(&third, 0, &[3; 600]), status::OK);
    assert_eq!(lane.places(2)[..3], [2, 3, 65535]);
    assert_eq!(lane.status(&more), status::NOSPC);
    assert_eq!(lane.space(), (0, 0));
    assert_eq!(lane.status(&getattr(&second)), status::STALE);
    assert_eq!(lane.read(&first, 0, 4096), (vec![1; 1000], true));
    // The lowest of all: object 1, name record 0, blocks 0 and 1.
    assert_eq!(lane.rename((&root(), b"c"), (&root(), b"b")), status::OK);
    assert_eq!(lane.mkdir(&root(), b"e"), handle(STAMP, 1, 1));
    assert_eq!(lane.name(0).1, 1);
    assert_eq!(lane.write(&third, 600, &[4; 1000]), status::OK);
    assert_eq!(lane.places(2)[..5], [2, 3, 0, 1, 65535]);
    // A directory over a directory.
    assert_eq!(lane.status(&more), status::NOSPC);
    assert_eq!(lane.rename((&root(), b"e"), (&root(), b"d")), status::OK);
    assert_eq!(lane.create(&root(), b"more"), handle(STAMP, 3, 1));
}

#[test]
fn lower_free_ones_come_first() {
    let mut lane = Lane::new(8, 8, 8);
    for text in [b"a", b"b", b"c", b"d"] {
        let file = lane.create(&root(), text);
        assert_eq!(lane.write(&file, 0, &text[..]), status::OK);
    }
    assert_eq!(lane.status(&remove(&root(), b"b")), status::OK);
    assert_eq!(lane.rename((&root(), b"d"), (&root(), b"c")), status::OK);
    for (text, object, record, block) in [(b"x", 2, 1, 1), (b"y", 3, 2, 2), (b"z", 5, 4, 4)] {
        let file = lane.create(&root(), text);
        assert_eq!(lane.write(&file, 0, b"."), status::OK);
        assert_eq!(file[..8], bytes(&[STAMP, object])[..]);
        assert_eq!(lane.name(record).1, object);
        assert_eq!(lane.places(object as usize)[0], block);
    }
}

#[test]
fn handle_of_the_target() {
    for is_directory in [false, true] {
        let mut lane = Lane::new(4, 4, 2);
        let make = |lane: &mut Lane, name: &[u8], is_directory: bool| {
            if is_directory {
                lane.mkdir(&root(), name)
            } else {
                lane.make(&root(), name)
            }
        };
        let moved = make(&mut lane, b"from", is_directory);
        let old = make(&mut lane, b"to", is_directory);
        assert_eq!(
            lane.rename((&root(), b"from"), (&root(), b"to")),
            status::OK
        );
        let object = old.clone();
        let requests = [
            getattr(&old),
            setattr(&old, Attributes::default(), None),
            lookup(&old, b"."),
            Request::Access {
                object: object.clone(),
                access: 1,
            },
            Request::Read {
                file: object.clone(),
                offset: 0,
                count: 1,
            },
            write(&old, 0, b"x"),
            create(&old, b"x", Attributes::default()),
            mkdir(&old, b"x", Attributes::default()),
            remove(&old, b"x"),
            rmdir(&old, b"x"),
            rename(&old, b"to", &root(), b"to"),
            rename(&root(), b"to", &old, b"to"),
            readdir(&old, 0, 4096),
            Request::Fsstat {
                object: object.clone(),
            },
            Request::Fsinfo {
                object: object.clone(),
            },
            Request::Pathconf {
                object: object.clone(),
            },
            Request::Commit {
                file: object,
                offset: 0,
                count: 0,
            },
        ];
        for request in &requests {
            assert_eq!(lane.status(request), status::STALE, "{request:?}");
        }
        // The record used again, by the other kind.
        let again = make(&mut lane, b"again", !is_directory);
        assert_eq!(
            (&old[..], &again[..]),
            (&handle(STAMP, 2, 0)[..], &handle(STAMP, 2, 1)[..])
        );
        for request in &requests {
            assert_eq!(lane.status(request), status::STALE, "{request:?}");
        }
        assert_eq!(lane.attr(&again).kind, if is_directory { 1 } else { 2 });
        assert_eq!(lane.attr(&moved).kind, if is_directory { 2 } else { 1 });
    }
}

#[test]
fn target_of_the_last_generation() {
    for is_directory in [false, true] {
        let mut lane = Lane::new(4, 4, 0);
        for name in [b"from", b"goal"] {
            if is_directory {
                lane.mkdir(&root(), name);
            } else {
                lane.create(&root(), name);
            }
        }
        lane.poke_object(2, 4, u32::MAX - 1);
        assert_eq!(lane.space(), (0, 1));
        assert_eq!(
            lane.rename((&root(), b"from"), (&root(), b"goal")),
            status::OK
        );
        assert_eq!(lane.record(2), free(u32::MAX));
        assert_eq!(lane.space(), (0, 1));
        for generation in [u32::MAX - 1, u32::MAX] {
            let request = getattr(&handle(STAMP, 2, generation));
            assert_eq!(lane.status(&request), status::STALE);
        }
        assert_eq!(lane.create(&root(), b"new"), handle(STAMP, 3, 0));
        let more = create(&root(), b"more", Attributes::default());
        assert_eq!(lane.status(&more), status::NOSPC);
        assert_eq!(lane.space(), (0, 0));
    }
}

#[test]
fn clocks_of_the_call() {
    let mut lane = Lane::new(5, 5, 0);
    let inner = lane.mkdir(&root(), b"inner");
    for clock in [(0, 0), (u32::MAX, 999_999_999), (5, 1)] {
        for (from, to) in [(&root(), &root()), (&root(), &inner), (&inner, &inner)] {
            (lane.seconds, lane.nanoseconds) = (2000, 20);
            let moved = lane.create(from, b"from");
            lane.create(to, b"to");
            (lane.seconds, lane.nanoseconds) = clock;
            let (status, mut got) = lane.ask(&rename(from, b"from", to, b"to"));
            assert_eq!(status, status::OK);
            for directory in [from, to] {
                let change = got.wcc();
                assert_eq!(change.before, Some((512, (2000, 20), (2000, 20))));
                let after = lane.attr(directory);
                assert_eq!((after.mtime, after.ctime), (clock, clock));
                assert_ne!(after.atime, clock);
                assert_eq!(change.after, Some(after));
            }
            got.end();
            let after = lane.attr(&moved);
            let made = (2000, 20);
            assert_eq!((after.atime, after.mtime, after.ctime), (made, made, clock));
            (lane.seconds, lane.nanoseconds) = (2000, 20);
            assert_eq!(lane.status(&remove(to, b"to")), status::OK);
            let request = setattr(&root(), Attributes::default(), None);
            assert_eq!(lane.status(&request), status::OK);
        }
    }
}

#[test]
fn verifiers_of_both() {
    for (moved_keeps, target_keeps) in [(true, false), (false, true), (true, true)] {
        let mut lane = Lane::new(4, 4, 0);
        let make = |lane: &mut Lane, name: &[u8], keeps: bool| {
            if keeps {
                lane.make(&root(), name)
            } else {
                lane.create(&root(), name)
            }
        };
        let moved = make(&mut lane, b"from", moved_keeps);
        make(&mut lane, b"to", target_keeps);
        assert_eq!(
            lane.rename((&root(), b"from"), (&root(), b"to")),
            status::OK
        );
        assert_eq!(lane.record(2), free(1));
        let before = lane.store.clone();
        let request = exclusive(&root(), b"to", KEPT);
        if moved_keeps {
            assert_eq!(lane.make(&root(), b"to"), moved);
        } else {
            assert_eq!(lane.status(&request), status::EXIST);
        }
        assert!(lane.store == before);
    }
}
