//! Pad bytes of a call: any are read, none counts, a missing one refuses.

mod common;
use common::*;
use peer::generator::encode::{
    handle, malformed, Attributes, Field, Header, Request, Time as SetTime,
};
use peer::generator::padding::{leftovers, Padded, ARGUMENTS, CREDENTIAL, VERIFIER};
use peer::generator::random::Random;
use peer::Answer;

/// What a call leaves behind: the answer, the reply space and the store.
#[derive(Clone, PartialEq, Eq)]
struct Left {
    answer: Answer,
    reply: Vec<u8>,
    store: Vec<u8>,
}

fn make(store: &[u8], call: &[u8]) -> Left {
    let mut left = Left {
        answer: Answer {
            number: 99,
            length: 99,
            offset: 99,
        },
        reply: vec![SPARE; 4224 + 16],
        store: store.to_vec(),
    };
    left.answer = peer::call(call, &mut left.store, &mut left.reply, 3000, 30, 33);
    left
}

impl Left {
    /// The words of the reply; the answer must be 0.
    fn words(&self) -> Vec<u32> {
        assert_eq!(self.answer.number, 0);
        words(&self.reply[..self.answer.length as usize])
    }

    /// The status of a reply that is accepted and successful.
    fn status(&self) -> u32 {
        let words = self.words();
        assert_eq!(words[1..6], [1, 0, 0, 0, 0]);
        words[6]
    }

    fn garbage(&self) -> bool {
        self.words()[1..] == [1, 0, 0, 0, 4]
    }

    /// The header is refused with this number, and every lent byte stays.
    fn no_header(&self, number: u32, store: &[u8]) -> bool {
        (self.answer.number, self.answer.length) == (number, 0)
            && self.store == store
            && self.reply.iter().all(|&byte| byte == SPARE)
    }
}

/// Makes the call with zeros and with every kind of pad bytes at each place,
/// and at all of them at once: what is left behind is the same. Cut inside a
/// padding it is refused: in the header with answer 8, in the arguments with
/// `cut`. Returns what zeros leave behind.
fn alike_or(
    store: &[u8],
    header: &Header,
    fields: &[Field],
    cut: impl Fn(&Left, &Left) -> bool,
) -> Left {
    let random = &mut Random::new(5);
    let call = Padded::new(header, fields);
    let wanted = make(store, &call.bytes);
    for place in call.padded() {
        let count = call.count(place);
        for pads in leftovers(count, random) {
            let mut dirty = call.clone();
            dirty.fill(place, &pads);
            let left = make(store, &dirty.bytes);
            assert!(left == wanted, "{fields:?} place {place} {pads:?}");
            for missing in 1..=count {
                let left = make(store, dirty.cut(place, missing));
                let refused = if place < ARGUMENTS {
                    left.no_header(8, store)
                } else {
                    cut(&left, &wanted) && left.store == store
                };
                assert!(refused, "{fields:?} place {place}, {missing} missing");
            }
        }
    }
    for _ in 0..4 {
        let mut dirty = call.clone();
        dirty.fill_all(random);
        assert!(make(store, &dirty.bytes) == wanted, "{fields:?}");
        // Bytes left over behind it.
        dirty.bytes.extend([0xFF; 4]);
        let zeros = [&call.bytes[..], &[0xFF; 4]].concat();
        assert!(make(store, &dirty.bytes) == make(store, &zeros));
    }
    wanted
}

/// The same for a request; the header's fields have this many bytes.
fn alike_with(store: &[u8], request: &Request, credential: usize, verifier: usize) -> Left {
    let header = Header {
        credential: (1, vec![0xC1; credential]),
        verifier: (2, vec![0xC2; verifier]),
        ..Header::new(17, request.procedure())
    };
    alike_or(store, &header, &request.fields(), |left, _| left.garbage())
}

/// The status of a request, whatever its pad bytes.
fn alike(store: &[u8], request: &Request) -> u32 {
    alike_with(store, request, 0, 0).status()
}

/// The numbers of bytes after which a field has `count` pad bytes.
fn lengths(count: usize, last: usize) -> impl Iterator<Item = usize> {
    (1..=last).filter(move |length| length.next_multiple_of(4) - length == count)
}

/// A store with a file, an empty directory and one that has a file, their
/// names of so many bytes.
struct Sample {
    lane: Lane,
    file: Vec<u8>,
    full: Vec<u8>,
    /// Names: the file's, the empty directory's, the other's, and none's.
    names: [Vec<u8>; 4],
}

fn sample(length: usize) -> Sample {
    let mut lane = Lane::new(8, 8, 20);
    let names = [b'f', b'e', b'd', b'n'].map(|byte| vec![byte; length]);
    let file = lane.create(&root(), &names[0]);
    assert_eq!(lane.write(&file, 0, &[0xD7; 700]), 0);
    lane.mkdir(&root(), &names[1]);
    let full = lane.mkdir(&root(), &names[2]);
    lane.create(&full, b"inside");
    Sample {
        lane,
        file,
        full,
        names,
    }
}

/// One request of each procedure that has a handle, all of them this one.
fn handled(bytes: &[u8]) -> Vec<Request> {
    let object = bytes.to_vec();
    let attributes = Attributes {
        mode: Some(0o644),
        uid: Some(1),
        gid: Some(2),
        size: Some(3),
        atime: SetTime::Client(4, 5),
        mtime: SetTime::Client(6, 7),
    };
    vec![
        getattr(bytes),
        setattr(bytes, attributes, Some((8, 9))),
        lookup(bytes, b"name"),
        Request::Access {
            object: object.clone(),
            access: 63,
        },
        Request::Read {
            file: object.clone(),
            offset: 1,
            count: 2,
        },
        write(bytes, 1, b"data!"),
        create(bytes, b"new", attributes),
        unchecked(bytes, b"na", attributes),
        exclusive(bytes, b"n", [9; 8]),
        mkdir(bytes, b"d", attributes),
        remove(bytes, b"n"),
        rmdir(bytes, b"nn"),
        rename(bytes, b"nnn", bytes, b"to"),
        link(bytes, bytes, b"lin"),
        readdir(bytes, 0, 4096),
        Request::Fsstat {
            object: object.clone(),
        },
        Request::Fsinfo {
            object: object.clone(),
        },
        Request::Pathconf {
            object: object.clone(),
        },
        Request::Commit {
            file: object,
            offset: 0,
            count: 0,
        },
    ]
}

#[test]
fn handles() {
    let Sample { lane, file, .. } = sample(4);
    let long = [&file[..], &[0; 52]].concat();
    for length in (1..=3).flat_map(|count| lengths(count, 64)) {
        let bad = &long[..length];
        let mut requests = handled(bad);
        requests.push(rename(&root(), b"ffff", bad, b"to"));
        requests.push(rename(bad, b"f", &root(), b"to"));
        requests.push(link(bad, &root(), b"to"));
        requests.push(link(&file, bad, b"to"));
        for request in requests {
            assert_eq!(alike(&lane.store, &request), status::BADHANDLE);
        }
        // The first directory decides; the second handle is read all the same.
        let request = rename(&file, b"", bad, b"");
        assert_eq!(alike(&lane.store, &request), status::NOTDIR);
        let request = link(&root(), bad, b"");
        assert_eq!(alike(&lane.store, &request), status::INVAL);
    }
}

/// A handle that is cut short stays so if its pad bytes are the missing ones.
#[test]
fn handles_that_pad_bytes_would_complete() {
    let mut lane = sample(4).lane;
    lane.poke_object(1, 4, 0x0A0B_0C0D);
    let file = handle(STAMP, 1, 0x0A0B_0C0D);
    assert_eq!(lane.status(&getattr(&file)), status::OK);
    for length in 9..12 {
        for request in handled(&file[..length]) {
            let mut call = Padded::of(&request, 17);
            let zeros = make(&lane.store, &call.bytes);
            call.fill(ARGUMENTS, &file[length..]);
            let left = make(&lane.store, &call.bytes);
            assert_eq!(left.status(), status::BADHANDLE);
            assert!(left == zeros);
        }
    }
}

#[test]
fn handles_over_their_limit() {
    let lane = sample(4).lane;
    for length in [65, 66, 67, 69, 399] {
        for request in handled(&vec![0; length]) {
            assert!(alike_with(&lane.store, &request, 0, 0).garbage());
        }
    }
}

#[test]
fn names() {
    let given = Attributes::size(900);
    let wrong = Attributes::mode(4096);
    for length in (1..=3).flat_map(|count| lengths(count, 32)) {
        let Sample {
            lane,
            file,
            full,
            names,
        } = sample(length);
        let [named, empty, filled, none] = &names;
        let root = &root();
        let stale = &handle(STAMP, 0, 7);
        let mut slash = none.clone();
        slash[length / 2] = b'/';
        let mut cases = vec![
            (lookup(root, named), status::OK),
            (lookup(root, none), status::NOENT),
            (create(root, none, given), status::OK),
            (create(root, named, given), status::EXIST),
            (create(root, none, wrong), status::INVAL),
            (create(root, none, Attributes::size(8192)), status::OK),
            (unchecked(root, none, given), status::OK),
            (unchecked(root, named, given), status::OK),
            (unchecked(root, empty, given), status::EXIST),
            (exclusive(root, none, [7; 8]), status::OK),
            (exclusive(root, named, [7; 8]), status::EXIST),
            (mkdir(root, none, Attributes::default()), status::OK),
            (mkdir(root, named, Attributes::default()), status::EXIST),
            (mkdir(root, none, given), status::INVAL),
            (remove(root, named), status::OK),
            (remove(root, none), status::NOENT),
            (remove(root, empty), status::ACCES),
            (rmdir(root, empty), status::OK),
            (rmdir(root, none), status::NOENT),
            (rmdir(root, named), status::NOTDIR),
            (rmdir(root, filled), status::NOTEMPTY),
            (rename(root, named, root, none), status::OK),
            (rename(root, empty, &full, named), status::OK),
            (rename(root, named, root, named), status::OK),
            (rename(root, named, root, empty), status::EXIST),
            (rename(root, empty, root, filled), status::EXIST),
            (rename(root, none, root, named), status::NOENT),
            (rename(root, filled, &full, none), status::INVAL),
            (link(&file, root, none), status::OK),
            (link(&file, &full, named), status::OK),
            (link(&file, root, empty), status::EXIST),
            (link(root, root, none), status::INVAL),
        ];
        for (directory, name, wanted) in [
            (stale, named, status::STALE),
            (&file, named, status::NOTDIR),
            (root, &slash, status::ACCES),
        ] {
            cases.extend([
                (lookup(directory, name), wanted),
                (create(directory, name, given), wanted),
                (unchecked(directory, name, given), wanted),
                (exclusive(directory, name, [7; 8]), wanted),
                (mkdir(directory, name, given), wanted),
                (remove(directory, name), wanted),
                (rmdir(directory, name), wanted),
                (rename(directory, name, root, none), wanted),
                (rename(root, named, directory, name), wanted),
                (link(&file, directory, name), wanted),
            ]);
        }
        for (request, wanted) in cases {
            assert_eq!(alike(&lane.store, &request), wanted, "{request:?}");
        }
    }
}

#[test]
fn names_that_are_too_long() {
    let lane = sample(4).lane;
    for length in [33, 34, 35, 61, 62, 63, 301] {
        let name = &vec![b'x'; length];
        for request in [
            lookup(&root(), name),
            create(&root(), name, Attributes::default()),
            unchecked(&root(), name, Attributes::default()),
            exclusive(&root(), name, [7; 8]),
            mkdir(&root(), name, Attributes::default()),
            remove(&root(), name),
            rmdir(&root(), name),
            rename(&root(), name, &root(), b"x"),
            rename(&root(), b"x", &root(), name),
        ] {
            assert_eq!(alike(&lane.store, &request), status::NAMETOOLONG);
        }
    }
}

#[test]
fn dots() {
    let Sample { lane, full, .. } = sample(4);
    for directory in [&root(), &full] {
        for name in [&b"."[..], b".."] {
            for (request, wanted) in [
                (lookup(directory, name), status::OK),
                (
                    create(directory, name, Attributes::default()),
                    status::EXIST,
                ),
                (exclusive(directory, name, [7; 8]), status::EXIST),
                (mkdir(directory, name, Attributes::default()), status::EXIST),
                (remove(directory, name), status::ACCES),
                (rmdir(directory, name), status::INVAL),
                (rename(directory, name, &root(), b"x"), status::INVAL),
                (rename(&root(), b"ffff", directory, name), status::INVAL),
            ] {
                assert_eq!(alike(&lane.store, &request), wanted, "{request:?}");
            }
        }
    }
}

/// Pad bytes that would make another name of it.
#[test]
fn names_that_pad_bytes_would_complete() {
    let mut lane = Lane::new(12, 12, 0);
    let [_, three, two, _] =
        [&b"abcd"[..], b"abc", b"ab", b"...a"].map(|name| lane.create(&root(), name));
    let ask = |lane: &Lane, name: &[u8], pads: &[u8]| {
        let mut call = Padded::of(&lookup(&root(), name), 3);
        call.fill(ARGUMENTS + 1, pads);
        make(&lane.store, &call.bytes)
    };
    for (name, pads, wanted) in [
        (&b"abc"[..], &b"d"[..], Some(&three)),
        (b"ab", b"cd", Some(&two)),
        (b"ab", b"c\0", Some(&two)),
        (b"a", b"bcd", None),
        (b"a", b"/b\0", None),
        (b".", b".\0\0", Some(&root())),
        (b".", b"..a", Some(&root())),
        (b"..", b".a", Some(&root())),
        (b"...", b"a", None),
    ] {
        let left = ask(&lane, name, pads);
        match wanted {
            Some(file) => {
                assert_eq!(left.status(), status::OK);
                assert_eq!(left.reply[32..44], file[..], "{name:?} {pads:?}");
            }
            None => assert_eq!(left.status(), status::NOENT, "{name:?} {pads:?}"),
        }
    }
}

#[test]
fn data() {
    for length in [
        1, 2, 3, 5, 6, 7, 511, 513, 1022, 4093, 4094, 4095, 4097, 4098, 4099,
    ] {
        let Sample { lane, file, .. } = sample(4);
        let data = &vec![0xDA; length];
        let size = length.min(4096);
        for (request, wanted) in [
            (write(&file, 0, data), status::OK),
            (write(&file, 3, data), status::OK),
            // Up to the end of the file, and over it.
            (write(&file, 700, data), status::OK),
            (write(&file, 700 - size.min(700) as u64, data), status::OK),
            (write(&file, 1500, data), status::OK),
            (write(&file, 8192 - size as u64, data), status::OK),
            (write(&file, 8193 - size as u64, data), status::FBIG),
            (write(&file, u64::MAX, data), status::FBIG),
            (write(&root(), 0, data), status::INVAL),
            (write(&handle(STAMP, 1, 1), 0, data), status::STALE),
            (
                Request::Write {
                    file: file.clone(),
                    offset: 0,
                    // The bytes with their padding.
                    count: length.next_multiple_of(4) as u32,
                    stable: 2,
                    data: data.clone(),
                },
                status::INVAL,
            ),
        ] {
            assert_eq!(alike(&lane.store, &request), wanted, "{length}");
        }
        let mut full = Lane::new(2, 2, 1);
        let file = full.create(&root(), b"f");
        assert_eq!(
            alike(&full.store, &write(&file, 512, data)),
            status::NOSPC,
            "{length}"
        );
    }
}

#[test]
fn credentials_and_verifiers() {
    let Sample { lane, file, .. } = sample(4);
    let lengths = [0, 1, 2, 3, 5, 6, 7, 397, 398, 399, 400];
    for credential in lengths {
        for verifier in lengths {
            let left = alike_with(&lane.store, &Request::Null, credential, verifier);
            assert_eq!(left.words(), [17, 1, 0, 0, 0, 0]);
            let left = alike_with(&lane.store, &getattr(&file), credential, verifier);
            assert_eq!(left.status(), status::OK);
        }
    }
    // In every procedure, with handles and names that are padded too.
    for request in handled(&file[..10]) {
        for (credential, verifier) in [(1, 2), (3, 5), (0, 397), (398, 0)] {
            let left = alike_with(&lane.store, &request, credential, verifier);
            assert_eq!(left.status(), status::BADHANDLE);
        }
    }
    let request = rename(&root(), b"ffff", &root(), b"n");
    let left = alike_with(&lane.store, &request, 5, 7);
    assert_eq!(left.status(), status::OK);
}

#[test]
fn credentials_and_verifiers_over_their_limit() {
    let store = Lane::new(1, 0, 0).store;
    for length in [401, 402, 403, 405] {
        for (credential, verifier) in [(length, 0), (0, length), (3, length), (length, 3)] {
            let header = Header {
                credential: (1, vec![0xC1; credential]),
                verifier: (2, vec![0xC2; verifier]),
                ..Header::new(17, 0)
            };
            let mut call = Padded::new(&header, &[]);
            call.fill_all(&mut Random::new(6));
            assert!(make(&store, &call.bytes).no_header(9, &store));
        }
    }
}

/// Pad bytes do not count where the call ends before its arguments are read.
#[test]
fn other_outcomes() {
    let Sample { lane, file, .. } = sample(4);
    let fields = write(&file[..11], 0, b"data!").fields();
    let header = Header {
        credential: (1, vec![0xC1; 5]),
        verifier: (2, vec![0xC2; 2]),
        ..Header::new(17, 7)
    };
    let unread = |left: &Left, whole: &Left| left == whole;
    for (header, wanted) in [
        (
            Header {
                program: 100_005,
                ..header.clone()
            },
            vec![17, 1, 0, 0, 0, 1],
        ),
        (
            Header {
                version: 2,
                ..header.clone()
            },
            vec![17, 1, 0, 0, 0, 2, 3, 3],
        ),
        (
            Header {
                procedure: 22,
                ..header.clone()
            },
            vec![17, 1, 0, 0, 0, 3],
        ),
    ] {
        let left = alike_or(&lane.store, &header, &fields, unread);
        assert_eq!(left.words(), wanted);
    }
    for (number, zeros) in [(5, 1), (10, 2), (11, 2), (17, 1)] {
        let header = Header {
            procedure: number,
            ..header.clone()
        };
        let left = alike_or(&lane.store, &header, &fields, unread);
        let mut wanted = vec![17, 1, 0, 0, 0, 0, status::NOTSUPP];
        wanted.resize(7 + zeros, 0);
        assert_eq!(left.words(), wanted);
    }
    // Another RPC version is denied before any padding, whole or cut.
    let header = Header {
        rpc_version: 3,
        ..header
    };
    let mut call = Padded::new(&header, &fields);
    call.fill_all(&mut Random::new(7));
    for place in [CREDENTIAL, VERIFIER, ARGUMENTS] {
        for missing in 0..=call.count(place) {
            let left = make(&lane.store, call.cut(place, missing));
            assert_eq!(left.words(), [17, 1, 1, 0, 2, 2]);
        }
    }
}

/// A later field that can't be read refuses, whatever was padded before it.
#[test]
fn a_later_fault() {
    let Sample { lane, file, .. } = sample(4);
    let random = &mut Random::new(8);
    let bad = &file[..9];
    let attributes = Attributes::mode(1);
    let mut faults = 0;
    for request in [
        lookup(bad, b"n"),
        create(bad, b"n", attributes),
        exclusive(bad, b"na", [1; 8]),
        mkdir(bad, b"nam", attributes),
        rename(bad, b"n", bad, b"na"),
        link(bad, bad, b"na"),
        write(bad, 0, b"d"),
        setattr(bad, attributes, None),
    ] {
        let spoiled = malformed(&request.fields());
        let mut call = Padded::of(&request, 17);
        call.fill_all(random);
        // The bytes up to and with the handle, then each spoiled rest.
        let start = call.places[ARGUMENTS].end;
        for (kind, arguments) in spoiled {
            if arguments.len() < start - 40 || arguments[..13] != call.bytes[40..53] {
                continue;
            }
            let bytes = [&call.bytes[..start], &arguments[start - 40..]].concat();
            let left = make(&lane.store, &bytes);
            assert!(left.garbage() && left.store == lane.store, "{kind}");
            faults += 1;
        }
    }
    assert!(faults > 150, "{faults}");
}

/// What dirty calls leave in the store and in later replies.
#[test]
fn nothing_is_taken_over() {
    let mut lane = Lane::new(12, 12, 8);
    let random = &mut Random::new(9);
    let mut send = |lane: &mut Lane, request: &Request| {
        let mut call = Padded::of(request, 17);
        assert!(!call.padded().is_empty());
        call.fill_all(random);
        let mut got = lane.raw(&call.bytes);
        assert_eq!(got.status(), status::OK);
    };
    let long = [b'l'; 31];
    let none = Attributes::default();
    send(&mut lane, &create(&root(), b"a", none));
    send(&mut lane, &unchecked(&root(), b"bb", none));
    send(&mut lane, &exclusive(&root(), b"ccc", [7; 8]));
    send(&mut lane, &mkdir(&root(), b"ddddd", none));
    send(&mut lane, &create(&root(), &long, none));
    // A shorter name in a record that held a longer one.
    send(&mut lane, &rename(&root(), &long, &root(), b"eeeeee"));
    for (record, name) in [&b"a"[..], b"bb", b"ccc", b"ddddd", b"eeeeee"]
        .into_iter()
        .enumerate()
    {
        let (directory, child, length, text) = lane.name(record);
        assert_eq!((directory, child), (0, record as u32 + 1));
        assert_eq!(length as usize, name.len());
        let mut wanted = name.to_vec();
        wanted.resize(32, 0);
        assert_eq!(text, wanted);
        assert_eq!(lane.status(&lookup(&root(), name)), status::OK);
    }
    // The listing's names have zeros as pad bytes, which `opaque` looks at.
    let (_, mut got) = lane.ask(&readdir(&root(), 2, 4096));
    got.optional_attr().unwrap();
    got.hyper();
    for name in [&b"a"[..], b"bb", b"ccc", b"ddddd", b"eeeeee"] {
        assert_eq!(got.word(), 1);
        got.hyper();
        assert_eq!(got.opaque(), name);
        got.hyper();
    }
    assert_eq!((got.word(), got.word()), (0, 1));
    got.end();
    // Data, and the bytes that the file grows by later.
    let file = handle(STAMP, 1, 0);
    let mut bytes = Vec::new();
    for (length, growth) in [(1, 3), (2, 2), (3, 1), (5, 7), (510, 1), (511, 9)] {
        send(
            &mut lane,
            &write(&file, bytes.len() as u64, &vec![0xD7; length]),
        );
        bytes.resize(bytes.len() + length, 0xD7);
        assert_eq!(lane.read(&file, 0, 4096), (bytes.clone(), true));
        bytes.resize(bytes.len() + growth, 0);
        let size = Attributes::size(bytes.len() as u64);
        assert_eq!(lane.status(&setattr(&file, size, None)), status::OK);
        assert_eq!(lane.read(&file, 0, 4096), (bytes.clone(), true));
    }
    // Bytes that are there stay behind data that ends before them.
    send(&mut lane, &write(&file, 0, b"x"));
    bytes[0] = b'x';
    assert_eq!(lane.read(&file, 0, 4096), (bytes, true));
}

/// Padding in a store and in an old image is still zero.
#[test]
fn lent_buffers() {
    let mut lane = Lane::new(6, 6, 1);
    for name in [&b"a"[..], b"bb", b"ccc", b"four", &[b'l'; 31]] {
        lane.create(&root(), name);
    }
    let sound = lane.store.clone();
    let call = getattr(&root()).call(1);
    for record in 0..5 {
        let length = lane.name(record).2 as usize;
        for at in length..32 {
            for byte in [1, b'.', b'/', b'0', 0xFF] {
                let at = 16 + RECORD * 6 + 44 * record + 12 + at;
                let mut store = sound.clone();
                store[at] = byte;
                assert_eq!(peer::check(&store).number, 1);
                let left = make(&store, &call);
                assert_eq!((left.answer.number, left.answer.length), (1, 0));
                let mut target = sound.clone();
                assert_eq!(peer::convert(&old_image(&store), &mut target).number, 1);
                assert!(target == sound);
            }
        }
    }
    assert_eq!(peer::check(&sound).number, 0);
}
