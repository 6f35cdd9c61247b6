//! Hard links. The wanted stores and replies are put together from the papers.

mod common;
use common::plain_names::plain_names;
use common::*;
use peer::generator::encode::{handle, Attributes, Request};

const KEPT: [u8; 8] = *b"kept\0\x01\x02\x03";

impl Lane {
    /// Sends a call at the next moment of the clock. The whole store and the
    /// whole reply are those of the plain definition.
    fn told(&mut self, request: &Request) -> u32 {
        self.tick();
        let call = request.call(7);
        let wanted = plain_names(&self.store, &call, self.seconds, self.nanoseconds);
        let mut got = self.raw(&call);
        if let Some((store, result)) = wanted {
            assert!(self.store == store, "{request:?}");
            assert_eq!(got.bytes[24..], result, "{request:?}");
        }
        got.status()
    }

    /// Gives a file another name.
    fn link(&mut self, file: &[u8], directory: &[u8], name: &[u8]) {
        assert_eq!(self.told(&link(file, directory, name)), status::OK);
    }

    /// The used name records: number, directory, child and name.
    fn used(&self) -> Vec<(usize, u32, u32, Vec<u8>)> {
        (0..self.shape.names)
            .map(|record| (record, self.name(record)))
            .filter(|(_, (_, _, length, _))| *length > 0)
            .map(|(record, (directory, child, length, text))| {
                (record, directory, child, text[..length as usize].to_vec())
            })
            .collect()
    }

    /// The handle that a name leads to.
    fn found(&mut self, directory: &[u8], name: &[u8]) -> Vec<u8> {
        let (status, mut got) = self.ask(&lookup(directory, name));
        assert_eq!(status, status::OK);
        got.opaque()
    }
}

#[test]
fn a_second_name() {
    let mut lane = Lane::new(4, 4, 4);
    lane.tick();
    let inner = lane.mkdir(&root(), b"inner");
    lane.tick();
    let made = lane.clock();
    let file = lane.create(&root(), b"file");
    assert_eq!(lane.write(&file, 0, b"bytes"), status::OK);
    lane.tick();
    let before = lane.store.clone();
    let inner_before = lane.attr(&inner);
    let (status, mut got) = lane.ask(&link(&file, &inner, b"second"));
    assert_eq!(status, status::OK);
    assert_eq!(got.bytes.len(), 28 + 88 + 116);
    let attr = got.optional_attr().unwrap();
    assert_eq!((attr.kind, attr.nlink, attr.size), (1, 2, 5));
    assert_eq!((attr.atime, attr.mtime), (made, made));
    assert_eq!(attr.ctime, lane.clock());
    let change = got.wcc();
    got.end();
    assert_eq!(
        change.before,
        Some((512, inner_before.mtime, inner_before.ctime))
    );
    let after = change.after.unwrap();
    assert_eq!((after.mtime, after.ctime), (lane.clock(), lane.clock()));
    assert_eq!((after.atime, after.nlink), (inner_before.atime, 2));
    // Only the name record, the file's ctime and two times of the directory.
    let mut wanted = before;
    let clock = [lane.seconds.to_be_bytes(), lane.nanoseconds.to_be_bytes()].concat();
    for (object, field) in [(2, 40), (1, 32), (1, 40)] {
        wanted[12 + RECORD * object + field..][..8].copy_from_slice(&clock);
    }
    let at = 16 + RECORD * 4 + 44 * 2;
    wanted[at..at + 18].copy_from_slice(b"\0\0\0\x01\0\0\0\x02\0\0\0\x06second");
    assert!(lane.store == wanted);
    assert_eq!(lane.found(&inner, b"second"), file);
    assert_eq!(lane.attr(&file), attr);
    assert_eq!(lane.attr(&root()).nlink, 3);
}

/// A file with so many names: the first is "file" in the root, the others are
/// "0", "1" and so on there.
fn with_names(lane: &mut Lane, names: usize) -> Vec<u8> {
    let file = lane.create(&root(), b"file");
    for number in 0..names - 1 {
        lane.link(&file, &root(), number.to_string().as_bytes());
    }
    file
}

#[test]
fn every_reply_counts_the_names() {
    let mut lane = Lane::new(4, 20, 4);
    let file = lane.create(&root(), b"file");
    for names in 1..=16u32 {
        if names > 1 {
            lane.link(&file, &root(), names.to_string().as_bytes());
        }
        assert_eq!(lane.attr(&file).nlink, names);
        let (answer, mut got) = lane.ask(&lookup(&root(), b"file"));
        assert_eq!((answer, got.opaque()), (status::OK, file.clone()));
        assert_eq!(got.optional_attr().unwrap().nlink, names);
        assert_eq!(got.optional_attr().unwrap().nlink, 2);
        for request in [
            Request::Access {
                object: file.clone(),
                access: 63,
            },
            Request::Read {
                file: file.clone(),
                offset: 0,
                count: 1,
            },
            Request::Fsstat {
                object: file.clone(),
            },
            Request::Fsinfo {
                object: file.clone(),
            },
            Request::Pathconf {
                object: file.clone(),
            },
        ] {
            let (answer, mut got) = lane.ask(&request);
            assert_eq!(answer, status::OK);
            assert_eq!(got.optional_attr().unwrap().nlink, names, "{request:?}");
        }
        for request in [
            write(&file, 0, b"x"),
            setattr(&file, Attributes::default(), None),
            Request::Commit {
                file: file.clone(),
                offset: 0,
                count: 0,
            },
        ] {
            let (answer, mut got) = lane.ask(&request);
            assert_eq!(answer, status::OK);
            assert_eq!(got.wcc().after.unwrap().nlink, names, "{request:?}");
        }
        let (answer, mut got) = lane.ask(&unchecked(&root(), b"file", Attributes::size(3)));
        assert_eq!((answer, got.word()), (status::OK, 1));
        assert_eq!(got.opaque(), file);
        assert_eq!(got.optional_attr().unwrap().nlink, names);
        // A failure has them too.
        let (answer, mut got) = lane.ask(&link(&file, &file, b"x"));
        assert_eq!(answer, status::NOTDIR);
        assert_eq!(got.optional_attr().unwrap().nlink, names);
        assert_eq!(got.wcc().after.unwrap().nlink, names);
        got.end();
    }
}

#[test]
fn sixteen_names_and_one_more() {
    let mut lane = Lane::new(4, 24, 1);
    let inner = lane.mkdir(&root(), b"inner");
    let file = with_names(&mut lane, 16);
    for (directory, name) in [(root(), &b"17"[..]), (inner.clone(), b"17")] {
        assert_eq!(
            lane.told(&link(&file, &directory, name)),
            status::MLINK,
            "{name:?}"
        );
    }
    // EXIST and a bad name come first.
    assert_eq!(lane.told(&link(&file, &root(), b"3")), status::EXIST);
    assert_eq!(lane.told(&link(&file, &root(), b".")), status::EXIST);
    assert_eq!(lane.told(&link(&file, &root(), b"")), status::ACCES);
    // One name less is room for one more.
    assert_eq!(lane.told(&remove(&root(), b"7")), status::OK);
    lane.link(&file, &inner, b"17");
    assert_eq!(lane.told(&link(&file, &inner, b"18")), status::MLINK);
    // A RENAME between directories leaves the number as it is.
    assert_eq!(lane.told(&rename(&root(), b"3", &inner, b"3")), status::OK);
    assert_eq!(lane.told(&link(&file, &inner, b"18")), status::MLINK);
    assert_eq!(lane.attr(&file).nlink, 16);
}

#[test]
fn order_of_the_tests() {
    for full in [false, true] {
        let mut lane = Lane::new(6, 20, 2);
        let inner = lane.mkdir(&root(), b"inner");
        let many = with_names(&mut lane, 16);
        let file = lane.create(&inner, b"one name");
        let gone = lane.create(&inner, b"gone");
        assert_eq!(lane.status(&remove(&inner, b"gone")), status::OK);
        while full && lane.used().len() < 20 {
            let name = lane.used().len().to_string();
            lane.link(&file, &inner, name.as_bytes());
        }
        let handles = [
            b"".to_vec(),
            root()[..11].to_vec(),
            handle(STAMP, 6, 0),
            handle(STAMP + 1, 6, 0),
            gone,
            handle(STAMP, 5, 0),
            handle(STAMP + 1, 0, 0),
            root(),
            inner,
            file,
            many,
        ];
        let mut long = vec![b'n'; 33];
        let names: [&[u8]; 9] = [
            b"",
            &long.clone(),
            {
                long[5] = b'/';
                &long
            },
            b"a/b",
            b"a\0",
            b".",
            b"..",
            b"file",
            b"new",
        ];
        let mut seen = std::collections::BTreeSet::new();
        for source in &handles {
            for directory in &handles {
                for name in names {
                    let before = lane.store.clone();
                    seen.insert(lane.told(&link(source, directory, name)));
                    lane.store = before;
                }
            }
        }
        let mut wanted = vec![
            status::ACCES,
            status::EXIST,
            status::NOTDIR,
            status::INVAL,
            status::MLINK,
            status::NAMETOOLONG,
            status::STALE,
            status::BADHANDLE,
        ];
        wanted.push(if full { status::NOSPC } else { status::OK });
        wanted.sort_unstable();
        assert_eq!(seen.into_iter().collect::<Vec<_>>(), wanted);
    }
}

/// Failure bodies written out: which attributes are there.
#[test]
fn failure_bodies() {
    let mut lane = Lane::new(4, 4, 2);
    let inner = lane.mkdir(&root(), b"inner");
    let file = lane.create(&root(), b"file");
    let stale = handle(STAMP, 3, 0);
    let bad = b"bad".to_vec();
    for (source, directory, name, wanted, length) in [
        (&bad, &bad, &b"x"[..], status::BADHANDLE, 12),
        (&stale, &bad, b"x", status::STALE, 12),
        (&bad, &inner, b"x", status::BADHANDLE, 4 + 116),
        (&stale, &file, b"", status::STALE, 4 + 116),
        (&file, &stale, b"x", status::STALE, 88 + 8),
        (&inner, &stale, b"x", status::INVAL, 88 + 8),
        (&inner, &bad, b"", status::INVAL, 88 + 8),
        (&inner, &file, b"x", status::INVAL, 88 + 116),
        (&inner, &inner, b"x", status::INVAL, 88 + 116),
        (&file, &file, b"", status::NOTDIR, 88 + 116),
        (&file, &inner, b"..", status::EXIST, 88 + 116),
        (&file, &inner, b"a/b", status::ACCES, 88 + 116),
    ] {
        let (answer, mut got) = lane.ask(&link(source, directory, name));
        assert_eq!(answer, wanted);
        assert_eq!(got.bytes.len(), 28 + length);
        let live = |handle: &Vec<u8>| [&inner, &file].contains(&handle);
        let attr = got.optional_attr();
        assert_eq!(attr.is_some(), live(source));
        let change = got.wcc();
        got.end();
        assert_eq!(change.unchanged(), live(directory));
        assert_eq!(change.none(), !live(directory));
        if let Some(attr) = attr {
            assert_eq!(attr, lane.attr(source));
        }
        if let Some(after) = change.after {
            assert_eq!(after, lane.attr(directory));
        }
    }
}

#[test]
fn removal_in_every_order() {
    for order in [
        [0, 1, 2],
        [0, 2, 1],
        [1, 0, 2],
        [1, 2, 0],
        [2, 0, 1],
        [2, 1, 0],
    ] {
        let mut lane = Lane::new(4, 6, 4);
        let inner = lane.mkdir(&root(), b"inner");
        let file = lane.create(&root(), b"a");
        assert_eq!(lane.write(&file, 0, &[7; 1000]), status::OK);
        lane.link(&file, &inner, b"b");
        lane.link(&file, &root(), b"c");
        let places = [(root(), b"a"), (inner.clone(), b"b"), (root(), b"c")];
        let data = lane.read(&file, 0, 4096);
        let space = lane.space();
        assert_eq!(space, (1024, 1));
        for (turn, &at) in order.iter().enumerate() {
            let before = lane.attr(&file);
            let (directory, name) = &places[at];
            assert_eq!(lane.told(&remove(directory, *name)), status::OK);
            if turn < 2 {
                let mut wanted = before;
                wanted.nlink -= 1;
                wanted.ctime = lane.clock();
                assert_eq!(lane.attr(&file), wanted);
                assert_eq!(lane.read(&file, 0, 4096), data);
                assert_eq!(lane.space(), space);
            }
        }
        assert_eq!(lane.status(&getattr(&file)), status::STALE);
        assert_eq!(lane.told(&link(&file, &root(), b"d")), status::STALE);
        assert_eq!(lane.space(), (2048, 2));
        let at = lane.block_at(0);
        assert!(lane.store[at..].iter().all(|&byte| byte == 0));
        assert_eq!(lane.create(&root(), b"new"), handle(STAMP, 2, 1));
    }
}

#[test]
fn the_lowest_free_name_record() {
    let mut lane = Lane::new(4, 8, 1);
    let file = with_names(&mut lane, 6);
    for (gone, record) in [(b"1", 2), (b"3", 4)] {
        assert_eq!(lane.told(&remove(&root(), gone)), status::OK);
        assert!(lane.used().iter().all(|used| used.0 != record));
    }
    lane.link(&file, &root(), b"first");
    assert_eq!(lane.used()[2], (2, 0, 1, b"first".to_vec()));
    lane.link(&file, &root(), b"second");
    assert_eq!(lane.used()[4], (4, 0, 1, b"second".to_vec()));
    lane.link(&file, &root(), b"third");
    assert_eq!(lane.used()[6], (6, 0, 1, b"third".to_vec()));
}

#[test]
fn rename_of_names() {
    let mut lane = Lane::new(6, 10, 8);
    let inner = lane.mkdir(&root(), b"inner");
    let file = lane.create(&root(), b"a");
    assert_eq!(lane.write(&file, 0, &[1; 600]), status::OK);
    lane.link(&file, &root(), b"b");
    lane.link(&file, &inner, b"c");
    let other = lane.create(&root(), b"other");
    assert_eq!(lane.write(&other, 0, &[2; 700]), status::OK);
    // Between two names of one file nothing changes.
    for (from, to) in [
        ((root(), &b"a"[..]), (root(), &b"b"[..])),
        ((root(), b"b"), (root(), b"a")),
        ((root(), b"a"), (inner.clone(), b"c")),
        ((inner.clone(), b"c"), (root(), b"b")),
        ((inner.clone(), b"c"), (inner.clone(), b"c")),
    ] {
        let before = lane.store.clone();
        lane.tick();
        let (answer, mut got) = lane.ask(&rename(&from.0, from.1, &to.0, to.1));
        assert_eq!(answer, status::OK);
        assert!(got.wcc().unchanged() && got.wcc().unchanged());
        got.end();
        assert!(lane.store == before);
    }
    // Over its names one after the other; the last one frees it.
    for (turn, (directory, name)) in [(root(), b"b"), (inner.clone(), b"c"), (root(), b"a")]
        .into_iter()
        .enumerate()
    {
        let request = rename(&root(), b"other", &directory, name);
        assert_eq!(lane.told(&request), status::OK);
        assert_eq!(lane.found(&directory, name), other);
        if turn < 2 {
            let attr = lane.attr(&file);
            assert_eq!((attr.nlink, attr.size), (2 - turn as u32, 600));
            assert_eq!(attr.ctime, lane.clock());
            assert_eq!(lane.read(&file, 0, 10).0, [1; 10]);
            assert_eq!(lane.space().0, 8 * 512 - 4 * 512);
        } else {
            assert_eq!(lane.status(&getattr(&file)), status::STALE);
            assert_eq!(lane.space().0, 8 * 512 - 2 * 512);
        }
        let back = rename(&directory, name, &root(), b"other");
        assert_eq!(lane.told(&back), status::OK);
    }
    // One of several names over a directory, and the other way round.
    lane.link(&other, &inner, b"more");
    for (from, to) in [(b"other", b"inner"), (b"inner", b"other")] {
        assert_eq!(
            lane.told(&rename(&root(), from, &root(), to)),
            status::EXIST
        );
    }
    assert_eq!(lane.attr(&other).nlink, 2);
}

#[test]
fn kept_verifiers() {
    let mut lane = Lane::new(4, 8, 2);
    let inner = lane.mkdir(&root(), b"inner");
    let places = [
        (root(), &b"a"[..]),
        (root(), b"b"),
        (inner.clone(), b"a"),
        (inner.clone(), b"c"),
    ];
    let kept = |lane: &mut Lane, place: &(Vec<u8>, &[u8]), verifier: [u8; 8]| {
        let before = lane.store.clone();
        lane.tick();
        let (answer, mut got) = lane.ask(&exclusive(&place.0, place.1, verifier));
        assert!(lane.store == before);
        match answer {
            status::OK => {
                assert_eq!(got.word(), 1);
                Some(got.opaque())
            }
            other => {
                assert_eq!(other, status::EXIST);
                None
            }
        }
    };
    let (answer, mut got) = lane.ask(&exclusive(&root(), b"a", KEPT));
    assert_eq!((answer, got.word()), (status::OK, 1));
    let file = got.opaque();
    for place in &places[1..] {
        lane.link(&file, &place.0, place.1);
    }
    for place in &places {
        assert_eq!(kept(&mut lane, place, KEPT), Some(file.clone()));
        assert_eq!(kept(&mut lane, place, [0; 8]), None);
    }
    // REMOVE of a name, RENAME of one and RENAME over one keep it.
    assert_eq!(lane.told(&remove(&root(), b"a")), status::OK);
    assert_eq!(kept(&mut lane, &places[1], KEPT), Some(file.clone()));
    lane.create(&root(), b"other");
    assert_eq!(
        lane.told(&rename(&root(), b"other", &root(), b"b")),
        status::OK
    );
    assert_eq!(kept(&mut lane, &places[1], KEPT), None);
    assert_eq!(kept(&mut lane, &places[2], KEPT), Some(file.clone()));
    assert_eq!(
        lane.told(&rename(&inner, b"a", &root(), b"moved")),
        status::OK
    );
    let moved = (root(), &b"moved"[..]);
    assert_eq!(kept(&mut lane, &moved, KEPT), Some(file.clone()));
    // SETATTR by the handle of any name forgets it for all.
    let found = lane.found(&inner, b"c");
    let nothing = setattr(&found, Attributes::default(), None);
    assert_eq!(lane.status(&nothing), status::OK);
    for place in [&moved, &places[3]] {
        assert_eq!(kept(&mut lane, place, KEPT), None);
        assert_eq!(kept(&mut lane, place, [0; 8]), None);
    }
}

#[test]
fn room_for_names_and_objects() {
    // Free objects and no free name.
    let mut lane = Lane::new(8, 3, 2);
    let file = with_names(&mut lane, 3);
    assert_eq!(lane.told(&link(&file, &root(), b"x")), status::NOSPC);
    for request in [
        create(&root(), b"x", Attributes::default()),
        exclusive(&root(), b"x", KEPT),
        mkdir(&root(), b"x", Attributes::default()),
    ] {
        assert_eq!(lane.status(&request), status::NOSPC);
    }
    assert_eq!(lane.space(), (1024, 6));
    assert_eq!(lane.told(&remove(&root(), b"0")), status::OK);
    assert_eq!(lane.space(), (1024, 6));
    lane.create(&root(), b"x");
    assert_eq!(lane.space(), (1024, 5));
    // Free names and no free object.
    let mut lane = Lane::new(2, 8, 2);
    let file = with_names(&mut lane, 3);
    assert_eq!(lane.space(), (1024, 0));
    assert_eq!(
        lane.status(&create(&root(), b"x", Attributes::default())),
        status::NOSPC
    );
    lane.link(&file, &root(), b"x");
}

/// The names of a listing with their cookies, and whether it ends.
fn listed(lane: &mut Lane, cookie: u64, count: u32) -> (Vec<(u64, u64, Vec<u8>)>, bool) {
    let (answer, mut got) = lane.ask(&readdir(&root(), cookie, count));
    assert_eq!(answer, status::OK);
    assert!(got.bytes.len() <= 28 + count.min(4096) as usize);
    got.optional_attr().unwrap();
    assert_eq!(got.hyper(), 0);
    let mut entries = Vec::new();
    while got.word() == 1 {
        let fileid = got.hyper();
        let name = got.opaque();
        entries.push((got.hyper(), fileid, name));
    }
    let eof = got.word() == 1;
    got.end();
    (entries, eof)
}

#[test]
fn listings_are_cut() {
    let mut lane = Lane::new(64, 128, 0);
    let name = |number: usize| format!("{number:032}").into_bytes();
    let files: Vec<Vec<u8>> = (0..63)
        .map(|number| lane.create(&root(), &name(number)))
        .collect();
    for number in 63..128 {
        lane.link(&files[(number - 63) % 63], &root(), &name(number));
    }
    // 104, two dots of 28 and 70 names of 56 bytes are 4,080; one more is 4,136.
    let (first, eof) = listed(&mut lane, 0, 4096);
    assert_eq!((first.len(), eof), (72, false));
    let (second, eof) = listed(&mut lane, 72, 4096);
    assert_eq!((second.len(), eof), (58, true));
    let all = [first, second].concat();
    for (at, (cookie, fileid, text)) in all.iter().enumerate() {
        assert_eq!(*cookie, at as u64 + 1);
        if at >= 2 {
            assert_eq!(*text, name(at - 2));
            let file = if at < 65 { at - 2 } else { (at - 65) % 63 };
            assert_eq!(*fileid, file as u64 + 2);
        }
    }
    for (count, length) in [(4080, 72), (4079, 71), (u32::MAX, 72), (160, 2), (159, 1)] {
        let (entries, eof) = listed(&mut lane, 0, count);
        assert_eq!((entries.len(), eof), (length, false), "{count}");
    }
    for count in [216, 300, 1000, 4095, 4096, 5000] {
        let mut entries: Vec<(u64, u64, Vec<u8>)> = Vec::new();
        loop {
            let cookie = entries.last().map_or(0, |entry| entry.0);
            let (more, eof) = listed(&mut lane, cookie, count);
            entries.extend(more);
            if eof {
                break;
            }
        }
        assert_eq!(entries, all);
    }
    // Removed, linked and moved names between two parts.
    let (first, _) = listed(&mut lane, 0, 2000);
    let last = first.last().unwrap().0;
    assert_eq!(lane.told(&remove(&root(), &name(2))), status::OK);
    assert_eq!(lane.told(&remove(&root(), &name(127))), status::OK);
    lane.link(&files[9], &root(), b"in an early record");
    lane.link(&files[9], &root(), b"in the last record");
    let moved = rename(&root(), &name(100), &root(), b"renamed");
    assert_eq!(lane.told(&moved), status::OK);
    let mut later = Vec::new();
    let mut cookie = last;
    loop {
        let (more, eof) = listed(&mut lane, cookie, 2000);
        cookie = more.last().unwrap().0;
        later.extend(more.into_iter().map(|entry| entry.2));
        if eof {
            break;
        }
    }
    let wanted: Vec<Vec<u8>> = (last as usize - 2..127)
        .map(|number| {
            if number == 100 {
                b"renamed".to_vec()
            } else {
                name(number)
            }
        })
        .chain([b"in the last record".to_vec()])
        .collect();
    assert_eq!(later, wanted);
}

/// The check of a store in which an object has so many names.
#[test]
fn counts_of_names() {
    for (kind, good) in [(1, 1..=16), (2, 1..=1)] {
        for names in 0..=20 {
            let mut lane = Lane::new(4, 24, 0);
            let object = if kind == 1 {
                lane.create(&root(), b"first")
            } else {
                lane.mkdir(&root(), b"first")
            };
            assert_eq!(object, handle(STAMP, 1, 0));
            let start = 16 + RECORD * 4;
            for record in 0..24 {
                let at = start + 44 * record;
                lane.store[at..at + 44].fill(0);
                if record < names {
                    let name = format!("name {record:02}");
                    lane.store[at + 7] = 1;
                    lane.store[at + 11] = 7;
                    lane.store[at + 12..at + 19].copy_from_slice(name.as_bytes());
                }
            }
            let wanted = u32::from(!good.contains(&names));
            assert_eq!(peer::check(&lane.store).number, wanted, "{kind} {names}");
            assert_eq!(common::plain::plain_check(&lane.store), wanted == 0);
            // An old image is good with one name only.
            let old = old_image(&lane.store);
            let mut target = lane.store.clone();
            let converted = peer::convert(&old, &mut target);
            assert_eq!(converted.number, u32::from(names != 1));
            assert_eq!(common::plain::plain_old_check(&old), names == 1);
            assert!(target == lane.store);
            // Its names are equal: none but the first may stand.
            if names == 2 {
                let at = start + 44 + 12;
                lane.store[at..at + 7].copy_from_slice(b"name 00");
                assert_eq!(peer::check(&lane.store).number, 1);
            }
        }
    }
}

/// Every number of names for every object of a full store, and damaged ones.
#[test]
fn full_stores() {
    let mut lane = Lane::new(64, 128, 2);
    let inner = lane.mkdir(&root(), b"inner");
    let files: Vec<Vec<u8>> = (0..62)
        .map(|number| lane.create(&root(), format!("file {number}").as_bytes()))
        .collect();
    for number in 0..65 {
        let name = format!("link {number}");
        let directory = if number % 3 == 0 {
            inner.clone()
        } else {
            root()
        };
        lane.link(&files[number / 15], &directory, name.as_bytes());
    }
    assert_eq!(lane.used().len(), 128);
    assert_eq!(lane.told(&link(&files[9], &inner, b"x")), status::NOSPC);
    assert_eq!(lane.told(&link(&files[0], &inner, b"x")), status::MLINK);
    assert_eq!(lane.space(), (1024, 0));
    let start = 16 + RECORD * 64;
    let good = lane.store.clone();
    for record in 0..128 {
        for child in [0u8, 1, 2, 5, 6, 30, 63] {
            let mut store = good.clone();
            store[start + 44 * record + 7] = child;
            let wanted = u32::from(!common::plain::plain_check(&store));
            assert_eq!(peer::check(&store).number, wanted, "{record} {child}");
        }
        let mut store = good.clone();
        store[start + 44 * record..][..44].fill(0);
        let wanted = u32::from(!common::plain::plain_check(&store));
        assert_eq!(peer::check(&store).number, wanted, "{record}");
    }
    // The names go one after the other, from the last record on.
    for number in (0..65).rev() {
        let name = format!("link {number}");
        let directory = if number % 3 == 0 {
            inner.clone()
        } else {
            root()
        };
        assert_eq!(lane.told(&remove(&directory, name.as_bytes())), status::OK);
    }
    assert!(files.iter().all(|file| lane.attr(file).nlink == 1));
    assert_eq!(lane.told(&rmdir(&root(), b"inner")), status::OK);
}

#[test]
fn arguments_are_read_first() {
    let mut lane = Lane::new(3, 3, 0);
    let file = lane.create(&root(), b"file");
    let before = lane.store.clone();
    let mut reply = vec![SPARE; 4224];
    let mut offset = |bytes: &[u8]| {
        let answer = peer::call(bytes, &mut lane.store, &mut reply, 5, 5, 5);
        assert_eq!(answer.number, 0);
        assert_eq!(answer.length == 24, answer.offset != 0);
        answer.offset
    };
    // The file's handle from 40 on, the directory's from 56, the name from 72
    // to 84, with three pad bytes.
    let call = link(&file, &root(), b"link!").call(9);
    assert_eq!(call.len(), 84);
    for length in 40..84 {
        let wanted = match length {
            40..56 => 40,
            56..72 => 56,
            _ => 72,
        };
        assert_eq!(offset(&call[..length]), wanted, "{length}");
    }
    for (at, length, wanted) in [
        (40, 65u32, 40),
        (56, 65, 56),
        (72, 9, 72),
        (72, u32::MAX, 72),
    ] {
        let mut bytes = call.clone();
        bytes[at..at + 4].copy_from_slice(&length.to_be_bytes());
        assert_eq!(offset(&bytes), wanted);
    }
    assert_eq!(offset(&[&call[..], &[0]].concat()), 84);
    // Bad handles, and a name that would be refused: the arguments come first.
    let call = link(b"bad", b"", b"").call(9);
    assert_eq!(offset(&[&call[..], &[1, 2, 3, 4]].concat()), 56);
    assert_eq!(offset(&call), 0);
    assert!(lane.store == before);
    // Pad bytes of any value.
    let mut call = link(&file, &root(), b"link!").call(9);
    call[81..].fill(0xFF);
    assert_eq!(lane.raw(&call).status(), status::OK);
    assert_eq!(lane.found(&root(), b"link!"), file);
    assert_eq!(lane.name(1).3[..8], *b"link!\0\0\0");
}
