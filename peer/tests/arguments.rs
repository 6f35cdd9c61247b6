//! Arguments that are not exactly of their XDR type, and handles.

mod common;
use common::*;
use peer::generator::encode::{
    encode, handle, malformed, Attributes, Header, Request, Time as SetTime,
};

/// One request of each served procedure, with every optional part there.
fn requests(file: &[u8]) -> Vec<Request> {
    let attributes = Attributes {
        mode: Some(0o644),
        uid: Some(1),
        gid: Some(2),
        size: Some(3),
        atime: SetTime::Client(4, 5),
        mtime: SetTime::Client(6, 7),
    };
    let file = file.to_vec();
    vec![
        getattr(&file),
        setattr(&file, attributes, Some((8, 9))),
        setattr(&file, Attributes::default(), None),
        lookup(&root(), b"name"),
        Request::Access {
            object: file.clone(),
            access: 63,
        },
        Request::Read {
            file: file.clone(),
            offset: 1,
            count: 2,
        },
        write(&file, 1, b"data!"),
        create(&root(), b"new", attributes),
        unchecked(&root(), b"name", attributes),
        exclusive(&root(), b"name", [9; 8]),
        mkdir(&root(), b"d", attributes),
        remove(&root(), b"n"),
        rmdir(&root(), b"nn"),
        rename(&root(), b"nnn", &root(), b"to"),
        link(&file, &root(), b"link"),
        readdir(&root(), 0, 4096),
        Request::Fsstat {
            object: file.clone(),
        },
        Request::Fsinfo {
            object: file.clone(),
        },
        Request::Pathconf {
            object: file.clone(),
        },
        Request::Commit {
            file,
            offset: 0,
            count: 0,
        },
    ]
}

#[test]
fn garbage_arguments() {
    let mut lane = Lane::new(4, 4, 4);
    let file = lane.create(&root(), b"name");
    let mut kinds = std::collections::BTreeMap::new();
    for request in requests(&file) {
        let mut got = lane.send(&request);
        got.status();
        for (kind, arguments) in malformed(&request.fields()) {
            let call = Header::new(3, request.procedure()).call(&arguments);
            let got = lane.raw(&call);
            assert_eq!(words(&got.bytes), [3, 1, 0, 0, 0, 4], "{request:?} {kind}");
            *kinds.entry(kind).or_insert(0) += 1;
        }
        // Cut at every byte.
        let whole = encode(&request.fields());
        for length in 0..whole.len() {
            let call = Header::new(3, request.procedure()).call(&whole[..length]);
            assert_eq!(words(&lane.raw(&call).bytes), [3, 1, 0, 0, 0, 4]);
        }
    }
    assert_eq!(kinds.len(), 6, "{kinds:?}");
}

#[test]
fn all_arguments_come_before_any_status() {
    let mut lane = Lane::new(4, 4, 4);
    // A bad handle, but the last boolean is garbage.
    let request = setattr(&[], Attributes::default(), None);
    let mut arguments = encode(&request.fields());
    *arguments.last_mut().unwrap() = 2;
    let got = lane.raw(&Header::new(3, 2).call(&arguments));
    assert_eq!(words(&got.bytes), [3, 1, 0, 0, 0, 4]);
    // EXCLUSIVE on a bad handle without its eight bytes, or with more.
    for count in [0, 4, 7, 9, 12] {
        let mut arguments = encode(&lookup(&[], b"x").fields());
        arguments.extend([0, 0, 0, 2]);
        arguments.extend(vec![0; count]);
        let got = lane.raw(&Header::new(3, 8).call(&arguments));
        assert_eq!(words(&got.bytes), [3, 1, 0, 0, 0, 4]);
    }
}

#[test]
fn handles() {
    let mut lane = Lane::new(4, 4, 4);
    let file = lane.create(&root(), b"f");
    for length in (0..=64).filter(|&length| length != 12) {
        assert_eq!(lane.status(&getattr(&vec![0; length])), status::BADHANDLE);
    }
    let mut longer = file.clone();
    longer.push(0);
    assert_eq!(lane.status(&getattr(&longer)), status::BADHANDLE);
    assert_eq!(lane.status(&getattr(&file[..11])), status::BADHANDLE);
    for (stamp, object, generation, wanted) in [
        (STAMP, 4, 0, status::BADHANDLE),
        (STAMP, 64, 0, status::BADHANDLE),
        (STAMP, 0x0100_0000, 0, status::BADHANDLE),
        (STAMP, u32::MAX, 0, status::BADHANDLE),
        // Whatever the stamp.
        (0, 4, 0, status::BADHANDLE),
        (STAMP + 1, 0, 0, status::STALE),
        (STAMP, 1, 1, status::STALE),
        (STAMP, 1, u32::MAX, status::STALE),
        // A free record with its present generation.
        (STAMP, 2, 0, status::STALE),
        (STAMP, 1, 0, status::OK),
        (STAMP, 0, 0, status::OK),
    ] {
        let request = getattr(&handle(stamp, object, generation));
        assert_eq!(
            lane.status(&request),
            wanted,
            "{stamp} {object} {generation}"
        );
    }
}

/// Statuses and the number of zero words with no live handle.
#[test]
fn failure_bodies_without_a_live_handle() {
    let zeros = [
        0, 0, 2, 1, 1, 1, 1, 2, 2, 2, 2, 2, 2, 2, 4, 3, 1, 1, 1, 1, 1, 2,
    ];
    for (bad, wanted) in [
        (vec![1, 2, 3], status::BADHANDLE),
        (handle(STAMP, 3, 0), status::STALE),
        (handle(0, 0, 0), status::STALE),
    ] {
        let mut lane = Lane::new(4, 4, 4);
        let attributes = Attributes::mode(9999);
        let requests = [
            getattr(&bad),
            setattr(&bad, attributes, Some((0, 0))),
            lookup(&bad, b""),
            Request::Access {
                object: bad.clone(),
                access: 1,
            },
            Request::Read {
                file: bad.clone(),
                offset: 0,
                count: 0,
            },
            Request::Write {
                file: bad.clone(),
                offset: 0,
                count: 9,
                stable: 2,
                data: vec![],
            },
            create(&bad, b"", attributes),
            exclusive(&bad, b"", [9; 8]),
            mkdir(&bad, b"", attributes),
            remove(&bad, b""),
            rmdir(&bad, b""),
            rename(&bad, b"", &bad, b""),
            link(&bad, &bad, b""),
            Request::Readdir {
                directory: bad.clone(),
                cookie: 0,
                verifier: [1; 8],
                count: 0,
            },
            Request::Fsstat {
                object: bad.clone(),
            },
            Request::Fsinfo {
                object: bad.clone(),
            },
            Request::Pathconf {
                object: bad.clone(),
            },
            Request::Commit {
                file: bad.clone(),
                offset: 0,
                count: 0,
            },
        ];
        for request in requests {
            let got = lane.send(&request);
            let mut expected = vec![0x7069_6473, 1, 0, 0, 0, 0, wanted];
            expected.resize(7 + zeros[request.procedure() as usize], 0);
            assert_eq!(words(&got.bytes), expected, "{request:?}");
        }
    }
}

/// What a live handle of the wrong type, or any later failure, brings along.
#[test]
fn failure_bodies_with_a_live_handle() {
    let mut lane = Lane::new(4, 4, 4);
    let file = lane.create(&root(), b"f");
    lane.tick();
    let attr = lane.attr(&file);
    let root_attr = lane.attr(&root());
    for (request, wanted) in [
        (lookup(&file, b""), status::NOTDIR),
        (
            Request::Readdir {
                directory: file.clone(),
                cookie: 0,
                verifier: [1; 8],
                count: 0,
            },
            status::NOTDIR,
        ),
    ] {
        let (answer, mut got) = lane.ask(&request);
        assert_eq!(answer, wanted);
        assert_eq!(got.optional_attr().unwrap(), attr);
        got.end();
    }
    for (request, wanted) in [
        (create(&file, b"", Attributes::mode(4096)), status::NOTDIR),
        (exclusive(&file, b"", [9; 8]), status::NOTDIR),
        (mkdir(&file, b"", Attributes::mode(4096)), status::NOTDIR),
        (remove(&file, b""), status::NOTDIR),
        (rmdir(&file, b""), status::NOTDIR),
    ] {
        let (answer, mut got) = lane.ask(&request);
        assert_eq!(answer, wanted);
        let wcc = got.wcc();
        assert!(wcc.unchanged());
        assert_eq!(wcc.after.unwrap(), attr);
        got.end();
    }
    // Files' procedures on a directory.
    let (answer, mut got) = lane.ask(&Request::Read {
        file: root(),
        offset: 0,
        count: 0,
    });
    assert_eq!(answer, status::INVAL);
    assert_eq!(got.optional_attr().unwrap(), root_attr);
    got.end();
    for request in [
        write(&root(), 0, b""),
        Request::Commit {
            file: root(),
            offset: 0,
            count: 0,
        },
    ] {
        let (answer, mut got) = lane.ask(&request);
        assert_eq!(answer, status::INVAL);
        let wcc = got.wcc();
        assert!(wcc.unchanged());
        assert_eq!(wcc.before.unwrap().0, 512);
        assert_eq!(wcc.after.unwrap(), root_attr);
        got.end();
    }
}

#[test]
fn name_checks() {
    let long = [b'n'; 33];
    let mut long_bad = long;
    long_bad[3] = b'/';
    let names: [(&[u8], u32); 9] = [
        (b"", status::ACCES),
        (&long, status::NAMETOOLONG),
        (&long_bad, status::NAMETOOLONG),
        (&[b'n'; 300], status::NAMETOOLONG),
        (b"a/b", status::ACCES),
        (b"/", status::ACCES),
        (b"a\0", status::ACCES),
        (b"\0", status::ACCES),
        (b"./", status::ACCES),
    ];
    let mut lane = Lane::new(4, 4, 4);
    let file = lane.create(&root(), b"file");
    for (name, wanted) in names {
        let attributes = Attributes::mode(4096);
        for request in [
            lookup(&root(), name),
            create(&root(), name, attributes),
            unchecked(&root(), name, attributes),
            exclusive(&root(), name, [9; 8]),
            mkdir(&root(), name, attributes),
            remove(&root(), name),
            rmdir(&root(), name),
            rename(&root(), name, &root(), b"."),
            rename(&root(), b".", &root(), name),
            link(&file, &root(), name),
        ] {
            assert_eq!(lane.status(&request), wanted, "{request:?}");
        }
    }
    // 32 bytes and any byte but 0 and 0x2F.
    let all: Vec<u8> = (1..=255).filter(|&byte| byte != b'/').collect();
    for text in all.chunks(32) {
        let file = lane.create(&root(), text);
        let (answer, mut got) = lane.ask(&lookup(&root(), text));
        assert_eq!(answer, status::OK);
        assert_eq!(got.opaque(), file);
        assert_eq!(lane.status(&remove(&root(), text)), status::OK);
    }
}

#[test]
fn stable_values_and_create_modes() {
    let mut lane = Lane::new(4, 4, 4);
    let file = lane.create(&root(), b"f");
    for stable in 0..=2 {
        let (answer, mut got) = lane.ask(&Request::Write {
            file: file.clone(),
            offset: 0,
            count: 1,
            stable,
            data: vec![1],
        });
        assert_eq!(answer, status::OK);
        got.wcc();
        assert_eq!((got.word(), got.word()), (1, 2));
        assert_eq!(got.hyper(), lane.verifier);
        got.end();
    }
    let (answer, mut got) = lane.ask(&exclusive(&root(), b"..", [0xFF; 8]));
    assert_eq!(answer, status::EXIST);
    assert!(got.wcc().unchanged());
    got.end();
}
