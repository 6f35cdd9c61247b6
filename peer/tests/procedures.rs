//! The served procedures, one after the other.

mod common;
use common::*;
use peer::generator::encode::{handle, Attributes, Request, Time as SetTime};

#[test]
fn attributes() {
    let mut lane = Lane::new(8, 8, 8);
    let wanted = Attr {
        kind: 2,
        mode: 493,
        nlink: 2,
        uid: 0,
        gid: 0,
        size: 512,
        used: 0,
        rdev: (0, 0),
        fsid: u64::from(STAMP),
        fileid: 1,
        atime: (1000, 1),
        mtime: (1000, 1),
        ctime: (1000, 1),
    };
    assert_eq!(lane.attr(&root()), wanted);
    let directory = lane.mkdir(&root(), b"d");
    let inner = lane.mkdir(&directory, b"e");
    let file = lane.create(&directory, b"f");
    assert_eq!(lane.attr(&root()).nlink, 3);
    assert_eq!(lane.attr(&directory).nlink, 3);
    assert_eq!(lane.attr(&inner).nlink, 2);
    assert_eq!(lane.attr(&file).nlink, 1);
    for (size, used) in [(0, 0), (1, 512), (512, 512), (513, 1024), (4096, 4096)] {
        assert_eq!(
            lane.status(&setattr(&file, Attributes::size(size), None)),
            status::OK
        );
        let attr = lane.attr(&file);
        assert_eq!((attr.size, attr.used, attr.kind), (size, used, 1));
        assert_eq!((attr.fileid, attr.rdev), (4, (0, 0)));
    }
}

#[test]
fn setattr_fields_and_times() {
    let mut lane = Lane::new(4, 4, 4);
    let file = lane.create(&root(), b"f");
    let made = lane.attr(&file);
    lane.tick();
    // Nothing set: only ctime.
    let (answer, mut got) = lane.ask(&setattr(&file, Attributes::default(), None));
    assert_eq!(answer, status::OK);
    let wcc = got.wcc();
    got.end();
    assert_eq!(wcc.before, Some((0, made.mtime, made.ctime)));
    let clock = lane.clock();
    assert_eq!(
        wcc.after,
        Some(Attr {
            ctime: clock,
            ..made.clone()
        })
    );
    lane.tick();
    let all = Attributes {
        mode: Some(4095),
        uid: Some(u32::MAX),
        gid: Some(7),
        size: Some(600),
        atime: SetTime::Client(u32::MAX, 999_999_999),
        mtime: SetTime::Client(3, 4),
    };
    assert_eq!(lane.status(&setattr(&file, all, Some(clock))), status::OK);
    let clock = lane.clock();
    let attr = lane.attr(&file);
    assert_eq!(
        attr,
        Attr {
            mode: 4095,
            uid: u32::MAX,
            gid: 7,
            size: 600,
            used: 1024,
            atime: (u32::MAX, 999_999_999),
            mtime: (3, 4),
            ctime: clock,
            ..made
        }
    );
    lane.tick();
    // A size equal to the old one sets mtime; server times are the clock.
    assert_eq!(
        lane.status(&setattr(&file, Attributes::size(600), None)),
        status::OK
    );
    assert_eq!(lane.attr(&file).mtime, lane.clock());
    assert_eq!(lane.attr(&file).atime, (u32::MAX, 999_999_999));
    lane.tick();
    let server = Attributes {
        atime: SetTime::Server,
        ..Attributes::default()
    };
    let mtime = lane.attr(&file).mtime;
    assert_eq!(lane.status(&setattr(&file, server, None)), status::OK);
    assert_eq!(lane.attr(&file).atime, lane.clock());
    assert_eq!(lane.attr(&file).mtime, mtime);
    lane.tick();
    let both = Attributes {
        mtime: SetTime::Client(1, 2),
        size: Some(0),
        ..Attributes::default()
    };
    assert_eq!(lane.status(&setattr(&file, both, None)), status::OK);
    assert_eq!(lane.attr(&file).mtime, (1, 2));
    // A directory takes everything but a size.
    let directory = Attributes {
        mode: Some(0),
        uid: Some(1),
        gid: Some(1),
        size: None,
        atime: SetTime::Server,
        mtime: SetTime::Server,
    };
    assert_eq!(lane.status(&setattr(&root(), directory, None)), status::OK);
    assert_eq!(lane.attr(&root()).mtime, lane.clock());
    assert_eq!(lane.attr(&root()).mode, 0);
}

#[test]
fn setattr_failures() {
    let mut lane = Lane::new(4, 4, 4);
    let file = lane.create(&root(), b"f");
    let (seconds, nanoseconds) = lane.attr(&file).ctime;
    let bad_time = SetTime::Client(0, 1_000_000_000);
    let cases = [
        (Attributes::mode(4096), status::INVAL),
        (Attributes::mode(u32::MAX), status::INVAL),
        (Attributes::size(8193), status::INVAL),
        (Attributes::size(1 << 32), status::INVAL),
        (Attributes::size(u64::MAX), status::INVAL),
        (
            Attributes {
                atime: bad_time,
                ..Attributes::default()
            },
            status::INVAL,
        ),
        (
            Attributes {
                mtime: SetTime::Client(0, u32::MAX),
                ..Attributes::default()
            },
            status::INVAL,
        ),
        // Four blocks in all.
        (Attributes::size(2049), status::NOSPC),
        (
            Attributes {
                mode: Some(4096),
                ..Attributes::size(2049)
            },
            status::INVAL,
        ),
    ];
    for (attributes, wanted) in cases {
        let (answer, mut got) = lane.ask(&setattr(&file, attributes, None));
        assert_eq!(answer, wanted, "{attributes:?}");
        assert!(got.wcc().unchanged());
        got.end();
        // The guard comes first.
        for guard in [
            (seconds + 1, nanoseconds),
            (seconds, nanoseconds + 1),
            (seconds, 2_000_000_000),
            (nanoseconds, seconds),
        ] {
            let request = setattr(&file, attributes, Some(guard));
            assert_eq!(lane.status(&request), status::NOT_SYNC);
        }
        let request = setattr(&file, attributes, Some((seconds, nanoseconds)));
        assert_eq!(lane.status(&request), wanted);
    }
    for size in [0, 1, 8192, u64::MAX] {
        let request = setattr(&root(), Attributes::size(size), None);
        assert_eq!(lane.status(&request), status::INVAL);
    }
    // Only the blocks to be added count.
    for size in [2048, 2000, 2048, 100] {
        let request = setattr(&file, Attributes::size(size), None);
        assert_eq!(lane.status(&request), status::OK);
    }
    let other = lane.create(&root(), b"g");
    for (size, wanted) in [(1537, status::NOSPC), (1536, status::OK)] {
        let request = setattr(&other, Attributes::size(size), None);
        assert_eq!(lane.status(&request), wanted);
    }
    let request = setattr(&other, Attributes::size(1537), None);
    assert_eq!(lane.status(&request), status::NOSPC);
}

#[test]
fn lookup_of_dots_and_names() {
    let mut lane = Lane::new(8, 8, 8);
    let first = lane.mkdir(&root(), b"first");
    let second = lane.mkdir(&first, b"second");
    for (directory, name, wanted) in [
        (&root(), &b"."[..], &root()),
        (&root(), b"..", &root()),
        (&first, b".", &first),
        (&first, b"..", &root()),
        (&second, b"..", &first),
        (&first, b"second", &second),
    ] {
        let (answer, mut got) = lane.ask(&lookup(directory, name));
        assert_eq!(answer, status::OK);
        assert_eq!(&got.opaque(), wanted);
        assert_eq!(got.optional_attr().unwrap(), lane.attr(wanted));
        assert_eq!(got.optional_attr().unwrap(), lane.attr(directory));
        got.end();
    }
    let (answer, mut got) = lane.ask(&lookup(&root(), b"second"));
    assert_eq!(answer, status::NOENT);
    assert_eq!(got.optional_attr().unwrap(), lane.attr(&root()));
    got.end();
    assert_eq!(lane.status(&lookup(&root(), b"...")), status::NOENT);
}

#[test]
fn access_bits() {
    let mut lane = Lane::new(4, 4, 4);
    let file = lane.create(&root(), b"f");
    for (object, mask) in [(&file, 0x2D), (&root(), 0x1F)] {
        for asked in [0, 1, 2, 4, 8, 16, 32, 64, 0x3F, u32::MAX, 0x8000_0000] {
            let (answer, mut got) = lane.ask(&Request::Access {
                object: object.clone(),
                access: asked,
            });
            assert_eq!(answer, status::OK);
            got.optional_attr().unwrap();
            assert_eq!(got.word(), asked & mask);
            got.end();
        }
    }
}

#[test]
fn read_counts_and_ends() {
    let mut lane = Lane::new(4, 4, 16);
    let file = lane.create(&root(), b"f");
    assert_eq!(lane.read(&file, 0, 10), (vec![], true));
    let data: Vec<u8> = (0..7000u32).map(|at| (at * 7 + at / 256) as u8).collect();
    assert_eq!(lane.write(&file, 0, &data[..4096]), 0);
    assert_eq!(lane.write(&file, 4096, &data[4096..]), 0);
    lane.tick();
    let attr = lane.attr(&file);
    for (offset, count, sent, eof) in [
        (0u64, 0u32, 0usize, false),
        (0, 1, 1, false),
        (0, 4096, 4096, false),
        (0, 4097, 4096, false),
        (0, u32::MAX, 4096, false),
        (2903, 4096, 4096, false),
        (2904, 4096, 4096, true),
        (2905, 4096, 4095, true),
        (511, 2, 2, false),
        (512, 512, 512, false),
        (6999, 1, 1, true),
        (6999, 0, 0, false),
        (6998, 1, 1, false),
        (7000, 0, 0, true),
        (7000, 5, 0, true),
        (7001, 5, 0, true),
        (8192, 4096, 0, true),
        (u64::MAX, 1, 0, true),
        (u64::MAX, u32::MAX, 0, true),
        (u64::MAX - 4095, 4096, 0, true),
        (1 << 32, 10, 0, true),
    ] {
        let (read, end) = lane.read(&file, offset, count);
        assert_eq!((read.len(), end), (sent, eof), "{offset} {count}");
        if sent > 0 {
            assert_eq!(read, data[offset as usize..offset as usize + sent]);
        }
    }
    assert_eq!(lane.attr(&file), attr);
    let request = Request::Read {
        file,
        offset: 0,
        count: 4096,
    };
    assert_eq!(lane.send(&request).bytes.len(), 4224);
}

#[test]
fn write_sizes_and_gaps() {
    let mut lane = Lane::new(4, 4, 16);
    let file = lane.create(&root(), b"f");
    let made = lane.attr(&file);
    lane.tick();
    // Stale bytes lie in every block.
    let at = lane.block_at(0);
    lane.store[at..].fill(0xEE);
    let (answer, mut got) = lane.ask(&write(&file, 700, b"abc"));
    assert_eq!(answer, status::OK);
    let wcc = got.wcc();
    assert_eq!((got.word(), got.word()), (3, 2));
    assert_eq!(got.hyper(), lane.verifier);
    got.end();
    assert_eq!(wcc.before, Some((0, made.mtime, made.ctime)));
    assert_eq!(
        wcc.after,
        Some(Attr {
            size: 703,
            used: 1024,
            mtime: lane.clock(),
            ctime: lane.clock(),
            ..made
        })
    );
    let mut wanted = vec![0; 703];
    wanted[700..].copy_from_slice(b"abc");
    assert_eq!(lane.read(&file, 0, 4096), (wanted, true));
    // New blocks are zeroed whole.
    let at = lane.block_at(1);
    assert!(lane.store[at + 191..at + 512].iter().all(|&byte| byte == 0));
    assert_eq!(lane.store[at + 512], 0xEE);
    // Bytes past the end stay when a write does not reach them, and become 0
    // between the old end and a gap.
    lane.store[at + 191..at + 512].fill(0xDD);
    assert_eq!(lane.write(&file, 800, b"xy"), status::OK);
    assert!(lane.store[at + 191..at + 288].iter().all(|&byte| byte == 0));
    assert_eq!(&lane.store[at + 288..at + 291], &[b'x', b'y', 0xDD]);
    assert!(lane.store[at + 290..at + 512]
        .iter()
        .all(|&byte| byte == 0xDD));
    // A gap over a whole block.
    assert_eq!(lane.write(&file, 2048, b"z"), status::OK);
    let (data, _) = lane.read(&file, 802, 4096);
    assert_eq!(data.len(), 2049 - 802);
    assert!(data[..data.len() - 1].iter().all(|&byte| byte == 0));
    // A write inside keeps the size and the other bytes.
    assert_eq!(lane.write(&file, 0, b"start"), status::OK);
    assert_eq!(lane.attr(&file).size, 2049);
    assert_eq!(lane.read(&file, 700, 3).0, b"abc");
}

#[test]
fn write_failures() {
    let mut lane = Lane::new(4, 4, 4);
    let file = lane.create(&root(), b"f");
    lane.tick();
    let attr = lane.attr(&file);
    let with_count = |count: u32, data: &[u8]| Request::Write {
        file: file.clone(),
        offset: u64::MAX,
        count,
        stable: 1,
        data: data.to_vec(),
    };
    // The count against the data's length, before anything else.
    for (count, length) in [(0, 1), (1, 0), (4, 5), (5, 4), (u32::MAX, 4), (4096, 4097)] {
        let request = with_count(count, &vec![1; length]);
        assert_eq!(lane.status(&request), status::INVAL);
    }
    for offset in [
        8192,
        8191,
        u64::MAX,
        u64::MAX - 1,
        u64::MAX - 2,
        1 << 32,
        1 << 63,
    ] {
        let (answer, mut got) = lane.ask(&write(&file, offset, b"ab"));
        assert_eq!(answer, status::FBIG, "{offset}");
        assert!(got.wcc().unchanged());
        got.end();
    }
    // Nothing to write succeeds at any offset and changes nothing.
    for offset in [0, 5, 8192, 8193, u64::MAX] {
        let before = lane.store.clone();
        let (answer, mut got) = lane.ask(&write(&file, offset, b""));
        assert_eq!(answer, status::OK);
        assert!(got.wcc().unchanged());
        assert_eq!((got.word(), got.word()), (0, 2));
        assert!(before == lane.store);
    }
    assert_eq!(lane.attr(&file), attr);
    // Four blocks: 2,048 bytes.
    assert_eq!(lane.write(&file, 2048, b"x"), status::NOSPC);
    assert_eq!(lane.write(&file, 2000, &[1; 49]), status::NOSPC);
    assert_eq!(lane.write(&file, 2000, &[1; 48]), status::OK);
    assert_eq!(lane.write(&file, 2048, b"x"), status::NOSPC);
    assert_eq!(lane.write(&file, 8192, b"x"), status::FBIG);
    assert_eq!(lane.write(&file, 0, &[2; 2048]), status::OK);
}

#[test]
fn write_takes_4096_bytes() {
    let mut lane = Lane::new(4, 4, 16);
    let file = lane.create(&root(), b"f");
    let data: Vec<u8> = (0..5000u32).map(|at| at as u8).collect();
    let (answer, mut got) = lane.ask(&write(&file, 0, &data));
    assert_eq!(answer, status::OK);
    got.wcc();
    assert_eq!(got.word(), 4096);
    assert_eq!(lane.attr(&file).size, 4096);
    // FBIG and NOSPC go by the bytes taken.
    assert_eq!(lane.write(&file, 4096, &data), status::OK);
    assert_eq!(lane.attr(&file).size, 8192);
    assert_eq!(lane.write(&file, 4097, &data), status::FBIG);
    assert_eq!(lane.read(&file, 4096, 4096).0, data[..4096]);
}

#[test]
fn sizes_cut_and_grow() {
    let mut lane = Lane::new(4, 4, 16);
    let file = lane.create(&root(), b"f");
    assert_eq!(lane.write(&file, 0, &[7; 3000]), status::OK);
    assert_eq!(lane.places(1)[..7], [0, 1, 2, 3, 4, 5, 65535]);
    // Bytes past the end of the last block stay when the file is cut inside it.
    let at = lane.block_at(5);
    lane.store[at + 440..at + 512].fill(0xCC);
    let cut = |lane: &mut Lane, size: u64| {
        let request = setattr(&handle(STAMP, 1, 0), Attributes::size(size), None);
        assert_eq!(lane.status(&request), status::OK);
    };
    cut(&mut lane, 2900);
    assert!(lane.store[at..at + 340].iter().all(|&byte| byte == 7));
    assert!(lane.store[at + 340..at + 440].iter().all(|&byte| byte == 0));
    assert!(lane.store[at + 440..at + 512]
        .iter()
        .all(|&byte| byte == 0xCC));
    // Growth inside the block zeroes up to the new end only.
    cut(&mut lane, 3050);
    assert!(lane.store[at + 340..at + 490].iter().all(|&byte| byte == 0));
    assert!(lane.store[at + 490..at + 512]
        .iter()
        .all(|&byte| byte == 0xCC));
    // Growth past the block zeroes the rest of it.
    cut(&mut lane, 3073);
    assert!(lane.store[at + 340..at + 512].iter().all(|&byte| byte == 0));
    assert_eq!(lane.places(1)[5..8], [5, 6, 65535]);
    // A cut to an earlier block: its tail and the freed blocks become 0.
    let second = lane.block_at(2);
    cut(&mut lane, 1100);
    assert_eq!(lane.places(1)[..4], [0, 1, 2, 65535]);
    assert!(lane.store[second..second + 76]
        .iter()
        .all(|&byte| byte == 7));
    assert!(lane.store[second + 76..].iter().all(|&byte| byte == 0));
    cut(&mut lane, 1024);
    assert_eq!(lane.places(1)[..3], [0, 1, 65535]);
    assert!(lane.store[second..].iter().all(|&byte| byte == 0));
    // A freed block is taken again and reads zero.
    cut(&mut lane, 1536);
    assert_eq!(lane.read(&file, 1024, 512).0, vec![0; 512]);
    cut(&mut lane, 0);
    assert_eq!(lane.space(), (16 * 512, 2));
    assert_eq!(lane.places(1), vec![65535; 16]);
    let start = lane.block_at(0);
    assert!(lane.store[start..].iter().all(|&byte| byte == 0));
}

#[test]
fn growth_over_stale_bytes() {
    let mut lane = Lane::new(4, 4, 16);
    let file = lane.create(&root(), b"f");
    assert_eq!(lane.write(&file, 0, &[7; 100]), status::OK);
    let at = lane.block_at(0);
    lane.store[at + 100..].fill(0xAB);
    assert_eq!(
        lane.status(&setattr(&file, Attributes::size(4000), None)),
        status::OK
    );
    let (data, eof) = lane.read(&file, 0, 4096);
    assert!(eof && data.len() == 4000);
    assert!(data[100..].iter().all(|&byte| byte == 0));
    // The last new block is zeroed whole.
    let last = lane.block_at(7);
    assert!(lane.store[last..last + 512].iter().all(|&byte| byte == 0));
    assert_eq!(lane.store[last + 512], 0xAB);
}

#[test]
fn create_new_files() {
    let mut lane = Lane::new(4, 4, 4);
    let root_before = lane.attr(&root());
    let at = lane.block_at(0);
    lane.store[at..].fill(0xAB);
    lane.tick();
    let attributes = Attributes {
        mode: Some(0o600),
        uid: None,
        gid: Some(9),
        size: Some(513),
        atime: SetTime::Keep,
        mtime: SetTime::Client(5, 6),
    };
    let (answer, mut got) = lane.ask(&create(&root(), b"f", attributes));
    assert_eq!(answer, status::OK);
    assert_eq!(got.word(), 1);
    assert_eq!(got.opaque(), handle(STAMP, 1, 0));
    let clock = lane.clock();
    assert_eq!(
        got.optional_attr().unwrap(),
        Attr {
            kind: 1,
            mode: 0o600,
            nlink: 1,
            uid: 0,
            gid: 9,
            size: 513,
            used: 1024,
            rdev: (0, 0),
            fsid: u64::from(STAMP),
            fileid: 2,
            atime: clock,
            mtime: (5, 6),
            ctime: clock,
        }
    );
    let wcc = got.wcc();
    got.end();
    assert_eq!(
        wcc.before,
        Some((512, root_before.mtime, root_before.ctime))
    );
    assert_eq!(
        wcc.after,
        Some(Attr {
            mtime: clock,
            ctime: clock,
            ..root_before
        })
    );
    assert_eq!(lane.places(1)[..3], [0, 1, 65535]);
    assert!(lane.store[at..at + 1024].iter().all(|&byte| byte == 0));
    assert_eq!(lane.store[at + 1024], 0xAB);
    let (directory, child, length, text) = lane.name(0);
    assert_eq!((directory, child, length, text[0]), (0, 1, 1, b'f'));
    // No fields set: all 0, times from the clock.
    lane.tick();
    let plain = lane.create(&root(), b"g");
    let attr = lane.attr(&plain);
    assert_eq!((attr.mode, attr.uid, attr.gid, attr.size), (0, 0, 0, 0));
    let clock = lane.clock();
    assert_eq!((attr.atime, attr.mtime, attr.ctime), (clock, clock, clock));
    // Server time is the clock too.
    let server = Attributes {
        atime: SetTime::Server,
        mtime: SetTime::Server,
        ..Attributes::default()
    };
    let (answer, _) = lane.ask(&create(&root(), b"h", server));
    assert_eq!(answer, status::OK);
}

#[test]
fn create_failures_in_their_order() {
    let mut lane = Lane::new(4, 4, 4);
    lane.create(&root(), b"file");
    lane.mkdir(&root(), b"dir");
    let bad_attributes = [
        Attributes::mode(4096),
        Attributes::size(8193),
        Attributes::size(u64::MAX),
        Attributes {
            atime: SetTime::Client(0, 1_000_000_000),
            ..Attributes::default()
        },
        Attributes {
            mtime: SetTime::Client(0, 1_000_000_000),
            ..Attributes::default()
        },
    ];
    let plain = Attributes::default();
    for name in [&b"."[..], b".."] {
        for attributes in [plain, bad_attributes[0], bad_attributes[1]] {
            for request in [
                create(&root(), name, attributes),
                unchecked(&root(), name, attributes),
                mkdir(&root(), name, attributes),
            ] {
                let (answer, mut got) = lane.ask(&request);
                assert_eq!(answer, status::EXIST);
                assert!(got.wcc().unchanged());
                got.end();
            }
        }
    }
    for name in [&b"file"[..], b"dir", b"new"] {
        for attributes in bad_attributes {
            for request in [
                create(&root(), name, attributes),
                unchecked(&root(), name, attributes),
                mkdir(&root(), name, attributes),
            ] {
                assert_eq!(lane.status(&request), status::INVAL);
            }
        }
        for size in [0, 1, 8192] {
            let request = mkdir(&root(), name, Attributes::size(size));
            assert_eq!(lane.status(&request), status::INVAL);
        }
    }
    for name in [&b"file"[..], b"dir"] {
        for request in [create(&root(), name, plain), mkdir(&root(), name, plain)] {
            assert_eq!(lane.status(&request), status::EXIST);
        }
    }
    for attributes in [plain, Attributes::size(1)] {
        let request = unchecked(&root(), b"dir", attributes);
        assert_eq!(lane.status(&request), status::EXIST);
    }
    assert_eq!(
        lane.status(&create(&root(), b"new", Attributes::size(2049))),
        status::NOSPC
    );
    assert_eq!(
        lane.status(&create(&root(), b"new", Attributes::size(2048))),
        status::OK
    );
    // Now objects are exhausted; an existing name still comes first.
    assert_eq!(lane.status(&create(&root(), b"more", plain)), status::NOSPC);
    assert_eq!(lane.status(&mkdir(&root(), b"more", plain)), status::NOSPC);
    assert_eq!(lane.status(&create(&root(), b"file", plain)), status::EXIST);
    assert_eq!(lane.status(&unchecked(&root(), b"file", plain)), status::OK);
    assert_eq!(
        lane.status(&unchecked(&root(), b"file", Attributes::size(1))),
        status::NOSPC
    );
}

#[test]
fn names_exhausted() {
    let mut lane = Lane::new(8, 2, 8);
    lane.create(&root(), b"a");
    let directory = lane.mkdir(&root(), b"b");
    let plain = Attributes::default();
    assert_eq!(lane.status(&create(&root(), b"c", plain)), status::NOSPC);
    assert_eq!(lane.status(&mkdir(&root(), b"c", plain)), status::NOSPC);
    // RENAME needs no free name.
    assert_eq!(
        lane.status(&rename(&root(), b"a", &directory, b"c")),
        status::OK
    );
    assert_eq!(lane.space(), (8 * 512, 5));
    let mut lane = Lane::new(8, 0, 8);
    assert_eq!(lane.status(&create(&root(), b"c", plain)), status::NOSPC);
}

#[test]
fn create_on_an_existing_file() {
    let mut lane = Lane::new(4, 4, 4);
    let file = lane.create(&root(), b"f");
    assert_eq!(lane.write(&file, 0, &[3; 600]), status::OK);
    let made = lane.attr(&file);
    let root_attr = lane.attr(&root());
    lane.tick();
    let ignored = Attributes {
        mode: Some(1),
        uid: Some(2),
        gid: Some(3),
        size: None,
        atime: SetTime::Client(4, 5),
        mtime: SetTime::Client(6, 7),
    };
    let before = lane.store.clone();
    let (answer, mut got) = lane.ask(&unchecked(&root(), b"f", ignored));
    assert_eq!(answer, status::OK);
    assert_eq!(got.word(), 1);
    assert_eq!(got.opaque(), file);
    assert_eq!(got.optional_attr().unwrap(), made);
    let wcc = got.wcc();
    assert!(wcc.unchanged());
    assert_eq!(wcc.after.unwrap(), root_attr);
    got.end();
    assert!(before == lane.store);
    for size in [600, 100, 1000] {
        lane.tick();
        let sized = Attributes {
            size: Some(size),
            ..ignored
        };
        let (answer, mut got) = lane.ask(&unchecked(&root(), b"f", sized));
        assert_eq!(answer, status::OK);
        assert_eq!(got.word(), 1);
        assert_eq!(got.opaque(), file);
        assert_eq!(
            got.optional_attr().unwrap(),
            Attr {
                size,
                used: size.next_multiple_of(512),
                mtime: lane.clock(),
                ctime: lane.clock(),
                ..made.clone()
            }
        );
        assert!(got.wcc().unchanged());
        assert_eq!(lane.attr(&root()), root_attr);
    }
    let (data, _) = lane.read(&file, 0, 4096);
    assert!(data[..100].iter().all(|&byte| byte == 3));
    assert!(data[100..].iter().all(|&byte| byte == 0));
}

#[test]
fn mkdir_and_links() {
    let mut lane = Lane::new(4, 4, 4);
    let root_before = lane.attr(&root());
    lane.tick();
    let attributes = Attributes {
        mode: Some(0o750),
        uid: Some(1),
        gid: Some(2),
        size: None,
        atime: SetTime::Client(3, 4),
        mtime: SetTime::Keep,
    };
    let (answer, mut got) = lane.ask(&mkdir(&root(), b"d", attributes));
    assert_eq!(answer, status::OK);
    assert_eq!(got.word(), 1);
    assert_eq!(got.opaque(), handle(STAMP, 1, 0));
    let clock = lane.clock();
    assert_eq!(
        got.optional_attr().unwrap(),
        Attr {
            kind: 2,
            mode: 0o750,
            nlink: 2,
            uid: 1,
            gid: 2,
            size: 512,
            used: 0,
            rdev: (0, 0),
            fsid: u64::from(STAMP),
            fileid: 2,
            atime: (3, 4),
            mtime: clock,
            ctime: clock,
        }
    );
    let wcc = got.wcc();
    got.end();
    assert_eq!(
        wcc.before,
        Some((512, root_before.mtime, root_before.ctime))
    );
    // The number of links after the call.
    assert_eq!(wcc.after.unwrap().nlink, 3);
    assert_eq!(lane.places(1), vec![65535; 16]);
    lane.tick();
    let (answer, mut got) = lane.ask(&rmdir(&root(), b"d"));
    assert_eq!(answer, status::OK);
    let wcc = got.wcc();
    got.end();
    assert_eq!(wcc.before, Some((512, clock, clock)));
    let after = wcc.after.unwrap();
    assert_eq!(
        (after.nlink, after.mtime, after.ctime),
        (2, lane.clock(), lane.clock())
    );
    assert_eq!(after.atime, root_before.atime);
}

#[test]
fn remove_and_rmdir() {
    let mut lane = Lane::new(8, 8, 8);
    let file = lane.create(&root(), b"f");
    assert_eq!(lane.write(&file, 0, &[9; 700]), status::OK);
    let directory = lane.mkdir(&root(), b"d");
    lane.create(&directory, b"inner");
    for (request, wanted) in [
        (remove(&root(), b"."), status::ACCES),
        (remove(&root(), b".."), status::ACCES),
        (remove(&root(), b"none"), status::NOENT),
        (remove(&root(), b"inner"), status::NOENT),
        (remove(&root(), b"d"), status::ACCES),
        (rmdir(&root(), b"."), status::INVAL),
        (rmdir(&root(), b".."), status::INVAL),
        (rmdir(&root(), b"none"), status::NOENT),
        (rmdir(&root(), b"f"), status::NOTDIR),
        (rmdir(&root(), b"d"), status::NOTEMPTY),
    ] {
        let (answer, mut got) = lane.ask(&request);
        assert_eq!(answer, wanted, "{request:?}");
        assert!(got.wcc().unchanged());
        got.end();
    }
    lane.tick();
    let start = lane.block_at(0);
    assert_eq!(lane.status(&remove(&root(), b"f")), status::OK);
    assert_eq!(lane.status(&getattr(&file)), status::STALE);
    let mut record = vec![0u8; RECORD];
    record[7] = 1;
    assert_eq!(lane.record(1), record);
    assert_eq!(lane.name(0), (0, 0, 0, vec![0; 32]));
    assert!(lane.store[start..].iter().all(|&byte| byte == 0));
    assert_eq!(lane.attr(&root()).mtime, lane.clock());
    // The record is taken again with the raised generation.
    let again = lane.create(&root(), b"f");
    assert_eq!(again, handle(STAMP, 1, 1));
    assert_eq!(lane.status(&getattr(&file)), status::STALE);
    assert_eq!(lane.status(&remove(&directory, b"inner")), status::OK);
    assert_eq!(lane.status(&rmdir(&root(), b"d")), status::OK);
    assert_eq!(lane.status(&lookup(&directory, b".")), status::STALE);
}

#[test]
fn spent_generations() {
    let mut lane = Lane::new(4, 8, 0);
    lane.poke_object(1, 4, u32::MAX - 1);
    lane.poke_object(2, 4, u32::MAX);
    assert_eq!(lane.space(), (0, 2));
    let first = lane.create(&root(), b"a");
    assert_eq!(first, handle(STAMP, 1, u32::MAX - 1));
    assert_eq!(lane.create(&root(), b"b"), handle(STAMP, 3, 0));
    let request = create(&root(), b"c", Attributes::default());
    assert_eq!(lane.status(&request), status::NOSPC);
    assert_eq!(lane.status(&remove(&root(), b"a")), status::OK);
    assert_eq!(lane.space(), (0, 0));
    assert_eq!(lane.status(&request), status::NOSPC);
    assert_eq!(lane.status(&getattr(&first)), status::STALE);
    assert_eq!(
        lane.status(&getattr(&handle(STAMP, 1, u32::MAX))),
        status::STALE
    );
    assert_eq!(lane.status(&remove(&root(), b"b")), status::OK);
    assert_eq!(lane.create(&root(), b"d"), handle(STAMP, 3, 1));
}

#[test]
fn lowest_numbers_are_taken() {
    let mut lane = Lane::new(6, 6, 8);
    for name in [b"a", b"b", b"c", b"d"] {
        let file = lane.create(&root(), name);
        assert_eq!(lane.write(&file, 0, &[1; 600]), status::OK);
    }
    assert_eq!(lane.status(&remove(&root(), b"c")), status::OK);
    assert_eq!(lane.status(&remove(&root(), b"a")), status::OK);
    let file = lane.create(&root(), b"e");
    assert_eq!(file, handle(STAMP, 1, 1));
    assert_eq!(lane.name(0).1, 1);
    assert_eq!(lane.write(&file, 0, &[2; 2000]), status::OK);
    assert_eq!(lane.places(1)[..5], [0, 1, 4, 5, 65535]);
}

#[test]
fn rename_in_place() {
    let mut lane = Lane::new(8, 8, 8);
    lane.create(&root(), b"first");
    let file = lane.create(&root(), b"second");
    let directory = lane.mkdir(&root(), b"d");
    let target = lane.mkdir(&root(), b"t");
    let (root_before, target_before) = (lane.attr(&root()), lane.attr(&target));
    let file_before = lane.attr(&file);
    lane.tick();
    let clock = lane.clock();
    let (answer, mut got) = lane.ask(&rename(&root(), b"second", &target, b"longer-name"));
    assert_eq!(answer, status::OK);
    let (from, to) = (got.wcc(), got.wcc());
    got.end();
    assert_eq!(
        from.before,
        Some((512, root_before.mtime, root_before.ctime))
    );
    assert_eq!(
        to.before,
        Some((512, target_before.mtime, target_before.ctime))
    );
    for (wcc, before) in [(&from, root_before), (&to, target_before)] {
        assert_eq!(
            wcc.after,
            Some(Attr {
                mtime: clock,
                ctime: clock,
                ..before
            })
        );
    }
    assert_eq!(
        lane.attr(&file),
        Attr {
            ctime: clock,
            ..file_before
        }
    );
    let (parent, child, length, text) = lane.name(1);
    assert_eq!((parent, child, length), (4, 2, 11));
    assert_eq!(&text[..12], b"longer-name\0");
    // A shorter name leaves no old bytes. One directory: the same pair twice.
    lane.tick();
    let (answer, mut got) = lane.ask(&rename(&target, b"longer-name", &target, b"x"));
    assert_eq!(answer, status::OK);
    let (from, to) = (got.wcc(), got.wcc());
    assert_eq!(from, to);
    assert!(!from.unchanged());
    let mut text = vec![0; 32];
    text[0] = b'x';
    assert_eq!(lane.name(1), (4, 2, 1, text));
    // A directory moves with its links.
    let (answer, mut got) = lane.ask(&rename(&root(), b"d", &target, b"d"));
    assert_eq!(answer, status::OK);
    let (from, to) = (got.wcc(), got.wcc());
    assert_eq!(from.after.unwrap().nlink, 3);
    assert_eq!(to.after.unwrap().nlink, 3);
    let (answer, mut got) = lane.ask(&lookup(&directory, b".."));
    assert_eq!(answer, status::OK);
    assert_eq!(got.opaque(), target);
}

#[test]
fn rename_failures_in_their_order() {
    let mut lane = Lane::new(8, 8, 8);
    let file = lane.create(&root(), b"f");
    let outer = lane.mkdir(&root(), b"outer");
    let middle = lane.mkdir(&outer, b"middle");
    let inner = lane.mkdir(&middle, b"inner");
    lane.create(&inner, b"there");
    let stale = handle(STAMP, 7, 0);
    let bad = vec![1];
    let long = [b'n'; 33];
    let cases: Vec<(Request, u32)> = vec![
        (rename(&stale, b"", &bad, b""), status::STALE),
        (rename(&bad, b"", &stale, b""), status::BADHANDLE),
        (rename(&file, b"", &bad, b""), status::NOTDIR),
        (rename(&root(), b"", &bad, b""), status::BADHANDLE),
        (rename(&root(), b"", &stale, b""), status::STALE),
        (rename(&root(), b"", &file, b""), status::NOTDIR),
        (rename(&root(), &long, &outer, b""), status::NAMETOOLONG),
        (rename(&root(), b"", &outer, &long), status::ACCES),
        (rename(&root(), b"a/", &outer, &long), status::ACCES),
        (rename(&root(), b".", &outer, &long), status::NAMETOOLONG),
        (rename(&root(), b".", &outer, b"a/"), status::ACCES),
        (rename(&root(), b".", &outer, b"x"), status::INVAL),
        (rename(&root(), b"..", &outer, b"x"), status::INVAL),
        (rename(&root(), b"none", &outer, b"."), status::INVAL),
        (rename(&root(), b"f", &outer, b".."), status::INVAL),
        (rename(&root(), b"none", &root(), b"f"), status::NOENT),
        (rename(&root(), b"f", &root(), b"outer"), status::EXIST),
        (rename(&root(), b"outer", &outer, b"middle"), status::INVAL),
        (rename(&root(), b"outer", &inner, b"there"), status::INVAL),
        (rename(&root(), b"outer", &outer, b"x"), status::INVAL),
        (rename(&root(), b"outer", &middle, b"x"), status::INVAL),
        (rename(&root(), b"outer", &inner, b"x"), status::INVAL),
        (rename(&outer, b"middle", &inner, b"x"), status::INVAL),
        (rename(&outer, b"middle", &outer, b"x"), status::OK),
        (rename(&middle, b"inner", &root(), b"x"), status::OK),
        (rename(&root(), b"f", &inner, b"x"), status::OK),
        (rename(&root(), b"outer", &inner, b"y"), status::OK),
    ];
    for (request, wanted) in cases {
        let Request::Rename { from, to, .. } = &request else {
            unreachable!()
        };
        let live = |object: &[u8]| object != stale && object != bad;
        let (from_live, to_live) = (live(from), live(to));
        let (answer, mut got) = lane.ask(&request);
        assert_eq!(answer, wanted, "{request:?}");
        for live in [from_live, to_live] {
            let wcc = got.wcc();
            assert_eq!(wcc.none(), !live);
            if live && answer != status::OK {
                assert!(wcc.unchanged());
            }
        }
        got.end();
    }
}

/// File number, name and cookie.
type Entry = (u64, Vec<u8>, u64);

/// The entries, whether the listing ended, and the bytes after the status.
fn list(lane: &mut Lane, directory: &[u8], cookie: u64, count: u32) -> (Vec<Entry>, bool, usize) {
    let (answer, mut got) = lane.ask(&readdir(directory, cookie, count));
    assert_eq!(answer, status::OK);
    let body = got.bytes.len() - 28;
    got.optional_attr().unwrap();
    assert_eq!(got.hyper(), 0);
    let mut entries = Vec::new();
    while got.word() == 1 {
        entries.push((got.hyper(), got.opaque(), got.hyper()));
    }
    let eof = got.word() == 1;
    got.end();
    (entries, eof, body)
}

#[test]
fn readdir_entries_and_cookies() {
    let mut lane = Lane::new(8, 8, 8);
    lane.create(&root(), b"one");
    let directory = lane.mkdir(&root(), b"d");
    lane.create(&directory, b"inner");
    lane.create(&root(), b"three");
    assert_eq!(lane.status(&remove(&root(), b"one")), status::OK);
    lane.create(&directory, b"zero");
    let all = vec![
        (1, b".".to_vec(), 1),
        (1, b"..".to_vec(), 2),
        (3, b"d".to_vec(), 4),
        (5, b"three".to_vec(), 6),
    ];
    let total = 104 + 28 + 28 + 28 + 32;
    assert_eq!(
        list(&mut lane, &root(), 0, 4096),
        (all.clone(), true, total)
    );
    let inside = vec![
        (3, b".".to_vec(), 1),
        (1, b"..".to_vec(), 2),
        (2, b"zero".to_vec(), 3),
        (4, b"inner".to_vec(), 5),
    ];
    assert_eq!(list(&mut lane, &directory, 0, 4096).0, inside);
    for (cookie, skipped) in [
        (1, 1),
        (2, 2),
        (3, 2),
        (4, 3),
        (5, 3),
        (6, 4),
        (7, 4),
        (130, 4),
        (131, 4),
        (1 << 32, 4),
        (u64::MAX, 4),
    ] {
        let (entries, eof, _) = list(&mut lane, &root(), cookie, 4096);
        assert_eq!((&entries[..], eof), (&all[skipped..], true), "{cookie}");
    }
    // The longest run that fits, a prefix.
    let costs = [28, 28, 28, 32];
    for count in 104..=total as u32 + 40 {
        let mut fits = 0;
        let mut used = 104;
        while fits < 4 && used + costs[fits] <= count as usize {
            used += costs[fits];
            fits += 1;
        }
        if fits == 0 {
            let (answer, mut got) = lane.ask(&readdir(&root(), 0, count));
            assert_eq!(answer, status::TOOSMALL);
            got.optional_attr().unwrap();
            got.end();
        } else {
            assert_eq!(
                list(&mut lane, &root(), 0, count),
                (all[..fits].to_vec(), fits == 4, used)
            );
        }
    }
    assert_eq!(list(&mut lane, &root(), 0, u32::MAX).0, all);
    assert_eq!(lane.status(&readdir(&root(), 0, 0)), status::TOOSMALL);
    assert_eq!(lane.status(&readdir(&root(), 0, 103)), status::TOOSMALL);
    assert_eq!(lane.status(&readdir(&root(), 99, 103)), status::TOOSMALL);
    assert_eq!(lane.status(&readdir(&root(), 99, 104)), status::OK);
    assert_eq!(lane.status(&readdir(&root(), 4, 135)), status::TOOSMALL);
    assert_eq!(lane.status(&readdir(&root(), 4, 136)), status::OK);
    // A verifier other than zero, before the count.
    for place in 0..8 {
        for cookie in [0, 1] {
            let mut verifier = [0; 8];
            verifier[place] = 1;
            let (answer, mut got) = lane.ask(&Request::Readdir {
                directory: root(),
                cookie,
                verifier,
                count: 0,
            });
            assert_eq!(answer, status::BAD_COOKIE);
            got.optional_attr().unwrap();
            got.end();
        }
    }
}

#[test]
fn largest_listing() {
    let mut lane = Lane::new(64, 128, 0);
    for number in 0..63 {
        let name = format!("{number:032}");
        lane.create(&root(), name.as_bytes());
    }
    let (entries, eof, body) = list(&mut lane, &root(), 0, u32::MAX);
    assert_eq!((entries.len(), eof, body), (65, true, 3688));
    assert_eq!(list(&mut lane, &root(), 0, 3688).0.len(), 65);
    let (entries, eof, _) = list(&mut lane, &root(), 0, 3687);
    assert_eq!((entries.len(), eof), (64, false));
    assert_eq!(entries[63].2, 64);
}

#[test]
fn file_system_numbers() {
    let mut lane = Lane::new(8, 8, 8);
    let file = lane.create(&root(), b"f");
    assert_eq!(lane.write(&file, 0, &[1; 513]), status::OK);
    for object in [root(), file.clone()] {
        let attr = lane.attr(&object);
        let (answer, mut got) = lane.ask(&Request::Fsstat {
            object: object.clone(),
        });
        assert_eq!(answer, status::OK);
        assert_eq!(got.optional_attr().unwrap(), attr);
        let numbers: Vec<u64> = (0..6).map(|_| got.hyper()).collect();
        assert_eq!(numbers, [4096, 3072, 3072, 8, 6, 6]);
        assert_eq!(got.word(), 0);
        got.end();
        let (answer, mut got) = lane.ask(&Request::Fsinfo {
            object: object.clone(),
        });
        assert_eq!(answer, status::OK);
        assert_eq!(got.optional_attr().unwrap(), attr);
        assert_eq!(
            words(&got.bytes[got.at..]),
            [4096, 4096, 1, 4096, 4096, 1, 4096, 0, 8192, 0, 1, 0x19]
        );
        let (answer, mut got) = lane.ask(&Request::Pathconf { object });
        assert_eq!(answer, status::OK);
        assert_eq!(got.optional_attr().unwrap(), attr);
        assert_eq!(words(&got.bytes[got.at..]), [16, 32, 1, 0, 0, 1]);
    }
}

#[test]
fn commit_answers_the_verifier() {
    let mut lane = Lane::new(4, 4, 4);
    let file = lane.create(&root(), b"f");
    for (offset, count) in [(0, 0), (u64::MAX, u32::MAX), (8192, 1)] {
        lane.tick();
        lane.verifier = lane.verifier.wrapping_mul(3);
        let before = lane.store.clone();
        let (answer, mut got) = lane.ask(&Request::Commit {
            file: file.clone(),
            offset,
            count,
        });
        assert_eq!(answer, status::OK);
        assert!(got.wcc().unchanged());
        assert_eq!(got.hyper(), lane.verifier);
        got.end();
        assert!(before == lane.store);
    }
}

#[test]
fn verifier_is_big_endian() {
    let mut lane = Lane::new(4, 4, 4);
    let file = lane.create(&root(), b"f");
    let got = lane.send(&write(&file, 0, b"a"));
    assert_eq!(got.bytes[152..], [1, 2, 3, 4, 5, 6, 7, 8]);
}
