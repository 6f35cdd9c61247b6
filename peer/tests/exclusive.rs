//! EXCLUSIVE CREATE: making, sending again, keeping and forgetting verifiers.

mod common;
use common::*;
use peer::generator::encode::{handle, Attributes, Request, Time as SetTime};

const FIRST: [u8; 8] = *b"\x01\0 verif";
const OTHER: [u8; 8] = *b"\x01\0 veriF";
const ZEROS: [u8; 8] = [0; 8];

impl Lane {
    /// Makes a file EXCLUSIVE and returns its handle.
    fn make(&mut self, directory: &[u8], name: &[u8], verifier: [u8; 8]) -> Vec<u8> {
        let (status, mut got) = self.ask(&exclusive(directory, name, verifier));
        assert_eq!(status, status::OK);
        assert_eq!(got.word(), 1);
        got.opaque()
    }

    /// Sends the call to a name that exists; the verifier must be kept, and
    /// nothing changes.
    fn again(&mut self, directory: &[u8], name: &[u8], verifier: [u8; 8], file: &[u8]) {
        let before = self.store.clone();
        self.tick();
        let wanted = self.attr(file);
        let (status, mut got) = self.ask(&exclusive(directory, name, verifier));
        assert_eq!(status, status::OK);
        assert_eq!(got.word(), 1);
        assert_eq!(got.opaque(), file);
        assert_eq!(got.optional_attr(), Some(wanted));
        assert!(got.wcc().unchanged());
        got.end();
        assert!(before == self.store);
    }

    /// Sends the call, which is refused with the directory's attributes.
    fn refused(&mut self, directory: &[u8], name: &[u8], verifier: [u8; 8], wanted: u32) {
        let (status, mut got) = self.ask(&exclusive(directory, name, verifier));
        assert_eq!(status, wanted);
        assert!(got.wcc().unchanged());
        got.end();
    }

    /// What stands after the old fields of a record: verifier and flag.
    fn kept(&self, object: usize) -> &[u8] {
        &self.record(object)[80..]
    }
}

fn flagged(verifier: [u8; 8]) -> Vec<u8> {
    [&verifier[..], &[0, 0, 0, 1]].concat()
}

#[test]
fn a_new_file() {
    for verifier in [FIRST, ZEROS, [0xFF; 8]] {
        let mut lane = Lane::new(4, 4, 4);
        let before = lane.attr(&root());
        lane.tick();
        let (status, mut got) = lane.ask(&exclusive(&root(), b"new", verifier));
        assert_eq!(status, status::OK);
        assert_eq!(got.bytes.len(), 252);
        assert_eq!(got.word(), 1);
        let file = got.opaque();
        assert_eq!(file, handle(STAMP, 1, 0));
        let attr = got.optional_attr().unwrap();
        assert_eq!((attr.kind, attr.mode, attr.nlink), (1, 0, 1));
        assert_eq!((attr.uid, attr.gid), (0, 0));
        assert_eq!((attr.size, attr.used), (0, 0));
        let clock = lane.clock();
        assert_eq!((attr.atime, attr.mtime, attr.ctime), (clock, clock, clock));
        let change = got.wcc();
        assert_eq!(change.before, Some((512, before.mtime, before.ctime)));
        let after = change.after.unwrap();
        assert_eq!((after.mtime, after.ctime), (clock, clock));
        assert_eq!(after.atime, before.atime);
        got.end();
        assert_eq!(lane.attr(&file), attr);
        assert_eq!(lane.kept(1), flagged(verifier));
        assert_eq!(lane.places(1), vec![65535; 16]);
        assert_eq!(lane.name(0).1, 1);
    }
}

#[test]
fn sent_again() {
    for verifier in [FIRST, ZEROS] {
        let mut lane = Lane::new(4, 4, 4);
        let file = lane.make(&root(), b"new", verifier);
        for _ in 0..3 {
            lane.again(&root(), b"new", verifier, &file);
        }
        assert_eq!(lane.kept(1), flagged(verifier));
        // Any other verifier, one bit away.
        for bit in 0..64 {
            let mut other = verifier;
            other[bit / 8] ^= 1 << (bit % 8);
            lane.refused(&root(), b"new", other, status::EXIST);
        }
        lane.again(&root(), b"new", verifier, &file);
        // The same verifier under another name makes another file.
        let second = lane.make(&root(), b"second", verifier);
        assert_ne!(second, file);
        lane.again(&root(), b"new", verifier, &file);
        lane.again(&root(), b"second", verifier, &second);
    }
}

#[test]
fn names_that_exist() {
    let mut lane = Lane::new(6, 6, 4);
    let directory = lane.mkdir(&root(), b"directory");
    lane.create(&root(), b"guarded");
    let request = unchecked(&root(), b"unchecked", Attributes::size(10));
    assert_eq!(lane.status(&request), status::OK);
    let file = lane.make(&directory, b"inner", FIRST);
    for verifier in [FIRST, ZEROS, OTHER] {
        for name in [&b"directory"[..], b"guarded", b"unchecked", b".", b".."] {
            lane.refused(&root(), name, verifier, status::EXIST);
        }
        lane.refused(&directory, b"..", verifier, status::EXIST);
    }
    lane.again(&directory, b"inner", FIRST, &file);
    // The other two ways do not match a verifier.
    let request = create(&directory, b"inner", Attributes::default());
    assert_eq!(lane.status(&request), status::EXIST);
    let request = mkdir(&directory, b"inner", Attributes::default());
    assert_eq!(lane.status(&request), status::EXIST);
    lane.again(&directory, b"inner", FIRST, &file);
}

#[test]
fn tests_in_their_order() {
    let mut lane = Lane::new(4, 4, 4);
    let file = lane.make(&root(), b"new", FIRST);
    for (bad, wanted) in [
        (vec![1, 2], status::BADHANDLE),
        (handle(STAMP, 4, 0), status::BADHANDLE),
        (handle(STAMP, 3, 0), status::STALE),
        (handle(STAMP + 1, 0, 0), status::STALE),
    ] {
        for name in [&b""[..], b".", b"a/", b"new"] {
            let (status, mut got) = lane.ask(&exclusive(&bad, name, FIRST));
            assert_eq!(status, wanted);
            assert!(got.wcc().none());
            got.end();
        }
    }
    for name in [&b""[..], b".", b"a/", b"new", b"other"] {
        lane.refused(&file, name, FIRST, status::NOTDIR);
    }
    for (name, wanted) in [
        (&b""[..], status::ACCES),
        (&[b'n'; 33], status::NAMETOOLONG),
        (b"a/b", status::ACCES),
        (b"a\0", status::ACCES),
    ] {
        lane.refused(&root(), name, FIRST, wanted);
    }
}

#[test]
fn no_room() {
    // Objects, then names.
    for (objects, names) in [(2, 4), (4, 1)] {
        let mut lane = Lane::new(objects, names, 0);
        let file = lane.make(&root(), b"new", FIRST);
        for name in [&b"other"[..], b"ne", b"news"] {
            lane.refused(&root(), name, FIRST, status::NOSPC);
        }
        // A full store answers the same call as before, and EXIST and the
        // name tests come first.
        lane.again(&root(), b"new", FIRST, &file);
        lane.refused(&root(), b"new", OTHER, status::EXIST);
        lane.refused(&root(), b"..", FIRST, status::EXIST);
        lane.refused(&root(), b"", FIRST, status::ACCES);
        assert_eq!(lane.status(&remove(&root(), b"new")), status::OK);
        assert_eq!(
            lane.make(&root(), b"other", FIRST),
            handle(STAMP, 1, 1),
            "the freed record"
        );
    }
    // A spent record is no room.
    let mut lane = Lane::new(2, 2, 0);
    lane.poke_object(1, 4, u32::MAX);
    lane.refused(&root(), b"new", FIRST, status::NOSPC);
    // A file without a size needs no block.
    let mut lane = Lane::new(3, 3, 1);
    let request = create(&root(), b"all", Attributes::size(512));
    assert_eq!(lane.status(&request), status::OK);
    lane.make(&root(), b"new", FIRST);
}

#[test]
fn setattr_forgets() {
    let given = [
        Attributes::default(),
        Attributes::mode(0o644),
        Attributes::size(0),
        Attributes::size(700),
        Attributes {
            uid: Some(1),
            gid: Some(2),
            atime: SetTime::Server,
            mtime: SetTime::Client(3, 4),
            ..Attributes::default()
        },
    ];
    for attributes in given {
        for verifier in [FIRST, ZEROS] {
            let mut lane = Lane::new(4, 4, 4);
            let file = lane.make(&root(), b"new", verifier);
            let guard = Some(lane.attr(&file).ctime);
            lane.tick();
            assert_eq!(lane.status(&setattr(&file, attributes, guard)), status::OK);
            assert_eq!(lane.kept(1), [0; 12]);
            for sent in [verifier, ZEROS] {
                lane.refused(&root(), b"new", sent, status::EXIST);
            }
            // Nothing brings it back, and a directory has none to forget.
            assert_eq!(lane.status(&setattr(&file, attributes, None)), status::OK);
            lane.refused(&root(), b"new", verifier, status::EXIST);
            let request = setattr(&root(), Attributes::default(), None);
            assert_eq!(lane.status(&request), status::OK);
        }
    }
}

#[test]
fn refused_setattr_keeps() {
    let mut lane = Lane::new(4, 4, 1);
    let file = lane.make(&root(), b"new", FIRST);
    let bad_time = Attributes {
        atime: SetTime::Client(0, 1_000_000_000),
        ..Attributes::default()
    };
    for (attributes, guard, wanted) in [
        (Attributes::default(), Some((1, 1)), status::NOT_SYNC),
        (Attributes::mode(4096), None, status::INVAL),
        (bad_time, None, status::INVAL),
        (Attributes::size(8193), None, status::INVAL),
        (Attributes::size(513), None, status::NOSPC),
    ] {
        assert_eq!(lane.status(&setattr(&file, attributes, guard)), wanted);
        lane.again(&root(), b"new", FIRST, &file);
    }
    // So does the SETATTR of another file.
    let other = lane.make(&root(), b"other", FIRST);
    let request = setattr(&other, Attributes::default(), None);
    assert_eq!(lane.status(&request), status::OK);
    lane.again(&root(), b"new", FIRST, &file);
    lane.refused(&root(), b"other", FIRST, status::EXIST);
}

#[test]
fn other_calls_keep() {
    let mut lane = Lane::new(6, 6, 8);
    let directory = lane.mkdir(&root(), b"directory");
    let file = lane.make(&root(), b"new", FIRST);
    let plain = Attributes::default();
    for (request, wanted) in [
        (unchecked(&root(), b"new", plain), status::OK),
        (
            unchecked(&root(), b"new", Attributes::mode(0o600)),
            status::OK,
        ),
        (unchecked(&root(), b"new", Attributes::size(0)), status::OK),
        (
            unchecked(&root(), b"new", Attributes::size(900)),
            status::OK,
        ),
        (
            unchecked(&root(), b"new", Attributes::size(8192)),
            status::NOSPC,
        ),
        (create(&root(), b"new", plain), status::EXIST),
        (write(&file, 0, b"some bytes"), status::OK),
        (write(&file, 2000, b""), status::OK),
        (write(&file, 9000, b"x"), status::FBIG),
        (getattr(&file), status::OK),
        (
            Request::Commit {
                file: file.clone(),
                offset: 0,
                count: 0,
            },
            status::OK,
        ),
        (rename(&root(), b"new", &root(), b"new"), status::OK),
    ] {
        lane.tick();
        assert_eq!(lane.status(&request), wanted, "{request:?}");
        lane.again(&root(), b"new", FIRST, &file);
    }
    assert_eq!(lane.attr(&file).size, 900);
    // The verifier goes with the object to its new name.
    let request = rename(&root(), b"new", &root(), b"renamed");
    assert_eq!(lane.status(&request), status::OK);
    lane.again(&root(), b"renamed", FIRST, &file);
    let request = rename(&root(), b"renamed", &directory, b"moved");
    assert_eq!(lane.status(&request), status::OK);
    lane.again(&directory, b"moved", FIRST, &file);
    lane.refused(&directory, b"moved", ZEROS, status::EXIST);
    // Under the old name there is nothing, so a new file is made.
    let second = lane.make(&root(), b"new", FIRST);
    assert_ne!(second, file);
    lane.again(&directory, b"moved", FIRST, &file);
}

#[test]
fn removed_files_keep_nothing() {
    let mut lane = Lane::new(4, 4, 4);
    let file = lane.make(&root(), b"new", FIRST);
    assert_eq!(lane.status(&remove(&root(), b"new")), status::OK);
    let mut freed = vec![0; RECORD];
    freed[7] = 1;
    assert_eq!(lane.record(1), freed);
    // The same call makes a new object.
    lane.tick();
    let again = lane.make(&root(), b"new", FIRST);
    assert_eq!(again, handle(STAMP, 1, 1));
    assert_eq!(lane.status(&getattr(&file)), status::STALE);
    assert_eq!(lane.attr(&again).ctime, lane.clock());
    // A file or directory made in such a record keeps none.
    assert_eq!(lane.status(&remove(&root(), b"new")), status::OK);
    assert_eq!(lane.create(&root(), b"new"), handle(STAMP, 1, 2));
    assert_eq!(lane.kept(1), [0; 12]);
    lane.refused(&root(), b"new", FIRST, status::EXIST);
    lane.refused(&root(), b"new", ZEROS, status::EXIST);
    assert_eq!(lane.status(&remove(&root(), b"new")), status::OK);
    lane.mkdir(&root(), b"new");
    assert_eq!(lane.kept(1), [0; 12]);
}
