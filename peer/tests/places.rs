//! Request E6: the number and the offset of a call that is broken.

mod common;

use common::*;
use peer::generator::driver::{Call, Mount};
use peer::generator::encode::{
    encode, handle, Attributes, Field, Header, Request, Time as SetTime,
};
use peer::generator::lane::{
    access, commit, exclusive, fsinfo, fsstat, getattr, guarded, link, lookup, mkdir, pathconf,
    read, readdir, remove, rename, rmdir, setattr, unchecked, write,
};
use peer::generator::places;
use peer::generator::random::Random;
use peer::Answer;

const TABLE: usize = 33_024;
const SPACE: usize = 33_692;

/// Number and offset of a call at the NFS entry. A call that is refused, or
/// whose arguments are, changes nothing.
fn nfs_on(store: &[u8], call: &[u8]) -> (u32, u32) {
    let mut after = store.to_vec();
    let mut reply = vec![SPARE; 4224 + 8];
    let answer = peer::call(call, &mut after, &mut reply, 3000, 30, 33);
    let length = answer.length as usize;
    assert!(reply[length..].iter().all(|&byte| byte == SPARE));
    seen(answer, &reply[..length], call, after == store)
}

/// The same at the MOUNT entry.
fn mount_on(store: &[u8], call: &[u8]) -> (u32, u32) {
    let mut table = vec![0; TABLE];
    table[..9].copy_from_slice(&[0, 0, 0, 1, 0, 0, 0, 1, b'/']);
    let before = table.clone();
    let mut reply = vec![SPARE; SPACE + 8];
    let answer = peer::mount(call, store, &mut table, &mut reply, 1);
    let length = answer.length as usize;
    assert!(reply[length..].iter().all(|&byte| byte == SPARE));
    seen(answer, &reply[..length], call, table == before)
}

fn seen(answer: Answer, reply: &[u8], call: &[u8], same: bool) -> (u32, u32) {
    if answer.number != 0 {
        assert!(same && reply.is_empty());
    } else if answer.offset != 0 {
        let mut garbage = call[..4].to_vec();
        garbage.extend([0, 0, 0, 1, 0, 0, 0, 0, 0, 0, 0, 0, 0, 0, 0, 0, 0, 0, 0, 4]);
        assert!(same && reply == garbage);
    } else {
        // Any reply but GARBAGE_ARGS.
        assert!(reply.len() >= 24);
        let accepted = words(&reply[8..12])[0] == 0;
        assert!(!accepted || words(&reply[20..24])[0] != 4);
    }
    (answer.number, answer.offset)
}

/// A store with a file, and the file's handle.
fn store() -> (Vec<u8>, Vec<u8>) {
    let mut lane = Lane::new(4, 4, 2);
    let file = lane.create(&root(), b"file");
    (lane.store, file)
}

fn nfs(call: &[u8]) -> (u32, u32) {
    nfs_on(&store().0, call)
}

fn mount(call: &[u8]) -> (u32, u32) {
    mount_on(&store().0, call)
}

/// An entry for calls, its program and a good procedure without arguments.
type Entry = (fn(&[u8]) -> (u32, u32), u32);

const ENTRIES: [Entry; 2] = [(nfs, 100_003), (mount, 100_005)];

/// The header of a NULL with a credential and a verifier of these lengths.
fn header(program: u32, credential: usize, verifier: usize) -> Header {
    Header {
        program,
        credential: (1, vec![0xC1; credential]),
        verifier: (7, vec![0xC2; verifier]),
        ..Header::new(0x0102_0304, 0)
    }
}

/// Puts a word into a call.
fn with_word(call: &[u8], at: usize, word: u32) -> Vec<u8> {
    let mut call = call.to_vec();
    call[at..at + 4].copy_from_slice(&word.to_be_bytes());
    call
}

#[test]
fn under_eight_bytes() {
    for (entry, program) in ENTRIES {
        let call = header(program, 0, 0).encode();
        for length in 0..8 {
            assert_eq!(entry(&call[..length]), (5, 0));
            assert_eq!(entry(&vec![0xFF; length]), (5, 0));
            assert_eq!(entry(&vec![0; length]), (5, 0));
        }
    }
}

#[test]
fn message_types() {
    for (entry, program) in ENTRIES {
        let call = header(program, 5, 3).encode();
        for kind in [1, 2, 0x0100_0000, 0x8000_0000, u32::MAX] {
            let other = with_word(&call, 4, kind);
            for length in 8..=call.len() {
                assert_eq!(entry(&other[..length]), (7, 0), "{kind}, {length} bytes");
            }
            // Whatever else is wrong behind it.
            assert_eq!(entry(&with_word(&other, 8, 3)), (7, 0));
            assert_eq!(entry(&with_word(&other, 28, 401)), (7, 0));
            assert_eq!(entry(&[&other[..], &[1]].concat()), (7, 0));
        }
    }
}

#[test]
fn header_items() {
    for (entry, program) in ENTRIES {
        let call = header(program, 5, 3).encode();
        assert_eq!(call.len(), 52);
        for (from, to) in [
            (8, 12),
            (12, 16),
            (16, 20),
            (20, 24),
            (24, 28),
            // The credential: its length, 5 bytes and 3 of padding.
            (28, 40),
            (40, 44),
            // The verifier: its length, 3 bytes and 1 of padding.
            (44, 52),
        ] {
            for length in from..to {
                assert_eq!(entry(&call[..length]), (8, from as u32), "{length} bytes");
            }
        }
        assert_eq!(entry(&call), (0, 0));
    }
}

#[test]
fn authenticators_of_any_length() {
    for (entry, program) in ENTRIES {
        for body in [0usize, 1, 2, 3, 4, 5, 8, 397, 398, 399, 400] {
            let padded = body.div_ceil(4) * 4;
            let call = header(program, body, 0).encode();
            for length in 28..32 + padded {
                assert_eq!(entry(&call[..length]), (8, 28), "{body}: {length} bytes");
            }
            let verifier = 36 + padded;
            for length in 32 + padded..verifier {
                let flavor = verifier as u32 - 4;
                assert_eq!(
                    entry(&call[..length]),
                    (8, flavor),
                    "{body}: {length} bytes"
                );
            }
            for length in verifier..verifier + 4 {
                assert_eq!(entry(&call[..length]), (8, verifier as u32));
            }
            assert_eq!(entry(&call), (0, 0));
            let call = header(program, 7, body).encode();
            for length in 44..48 + padded {
                assert_eq!(entry(&call[..length]), (8, 44), "{body}: {length} bytes");
            }
            assert_eq!(entry(&call), (0, 0));
        }
    }
}

#[test]
fn overlong_authenticators() {
    for (entry, program) in ENTRIES {
        for length in [401, 402, 403, 404, 405, 1000, 2000] {
            // All bytes, and every number of them that is missing.
            let call = header(program, length, 3).encode();
            for end in (32..call.len()).step_by(7).chain([call.len()]) {
                assert_eq!(entry(&call[..end]), (9, 28), "{length}: {end} bytes");
            }
            let call = header(program, 6, length).encode();
            for end in (48..call.len()).step_by(7).chain([call.len()]) {
                assert_eq!(entry(&call[..end]), (9, 44), "{length}: {end} bytes");
            }
        }
        let call = header(program, 6, 0).encode();
        for length in [401, 0x7FFF_FFFF, 0x8000_0000, u32::MAX - 3, u32::MAX] {
            assert_eq!(entry(&with_word(&call, 28, length)), (9, 28));
            assert_eq!(entry(&with_word(&call, 44, length)), (9, 44));
            // Its length is itself cut.
            for end in 29..32 {
                assert_eq!(entry(&with_word(&call, 28, length)[..end]), (8, 28));
            }
            for end in 45..48 {
                assert_eq!(entry(&with_word(&call, 44, length)[..end]), (8, 44));
            }
        }
    }
}

#[test]
fn credential_before_verifier() {
    for (entry, program) in ENTRIES {
        let call = header(program, 8, 8).encode();
        // The verifier's length stands at 44.
        let long = with_word(&call, 28, 401);
        assert_eq!(entry(&long), (9, 28));
        assert_eq!(entry(&long[..32]), (9, 28));
        assert_eq!(entry(&long[..46]), (9, 28));
        assert_eq!(entry(&with_word(&long, 44, 500)), (9, 28));
        // A good length that leads past the call, over a verifier's length
        // that is not.
        for length in [25, 400] {
            let past = with_word(&with_word(&call, 44, 500), 28, length);
            assert_eq!(entry(&past), (8, 28));
        }
        assert_eq!(entry(&with_word(&call, 44, 500)), (9, 44));
        assert_eq!(entry(&with_word(&call, 44, 9)), (8, 44));
    }
}

#[test]
fn other_rpc_versions() {
    for (entry, program) in ENTRIES {
        for version in [0, 1, 3, 0x0200_0000, u32::MAX] {
            let call = with_word(&header(program, 5, 3).encode(), 8, version);
            for length in 8..12 {
                assert_eq!(entry(&call[..length]), (8, 8));
            }
            for length in 12..=call.len() {
                assert_eq!(entry(&call[..length]), (0, 0));
            }
            assert_eq!(entry(&with_word(&call, 28, 401)), (0, 0));
            assert_eq!(entry(&[&call[..], &[1, 2, 3]].concat()), (0, 0));
        }
    }
}

#[test]
fn not_served() {
    for (entry, program) in ENTRIES {
        let sound = header(program, 5, 3).encode();
        for (at, value) in [(12, 100_004), (12, 0), (16, 2), (16, 4), (20, 22), (20, 99)] {
            let call = with_word(&sound, at, value);
            // The header decides first.
            assert_eq!(entry(&call[..51]), (8, 44));
            assert_eq!(entry(&call[..39]), (8, 28));
            assert_eq!(entry(&with_word(&call, 28, 401)), (9, 28));
            assert_eq!(entry(&with_word(&call, 44, 401)), (9, 44));
            // Nobody looks at the arguments.
            for behind in [&[][..], &[0], &[0xFF; 3], &[0xFF; 64]] {
                assert_eq!(entry(&[&call[..], behind].concat()), (0, 0));
            }
        }
    }
    // The other entry's program.
    let call = header(100_005, 0, 0).encode();
    assert_eq!(nfs(&[&call[..], &[1]].concat()), (0, 0));
    let call = header(100_003, 0, 0).encode();
    assert_eq!(mount(&[&call[..], &[1]].concat()), (0, 0));
    // Procedures that the other program has.
    for procedure in 6..22 {
        let call = with_word(&header(100_005, 0, 0).encode(), 20, procedure);
        assert_eq!(mount(&[&call[..], &[1]].concat()), (0, 0));
    }
}

#[test]
fn unserved_procedures() {
    for procedure in [5, 10, 11, 17] {
        for arguments in [&[][..], &[0], &[0xFF; 6], &[0, 0, 0, 65], &[0; 200]] {
            assert_eq!(nfs(&Header::new(7, procedure).call(arguments)), (0, 0));
        }
    }
}

/// All attributes set.
fn all() -> Attributes {
    Attributes {
        mode: Some(1),
        uid: Some(2),
        gid: Some(3),
        size: Some(4),
        atime: SetTime::Client(5, 6),
        mtime: SetTime::Client(7, 8),
    }
}

/// Requests of every procedure, and where their items start if the arguments
/// start at 0; the last number is where the arguments end. Handles take 16
/// bytes, the names here 8.
fn requests(file: &[u8]) -> Vec<(Request, Vec<usize>)> {
    let root = &root();
    // Boolean and number three times, boolean and size, two times.
    let attributes = [0, 4, 8, 12, 16, 20, 24, 28, 36, 40, 44, 48, 52, 56, 60];
    let behind = |before: &[usize], start: usize, after: &[usize]| {
        let mut starts = before.to_vec();
        starts.extend(attributes.iter().map(|at| start + at));
        starts.extend(after);
        starts
    };
    let none = Attributes::default();
    vec![
        (Request::Null, vec![0]),
        (getattr(file), vec![0, 16]),
        (
            setattr(file, all(), Some((9, 10))),
            // The guard's boolean is behind the attributes.
            behind(&[0], 16, &[80, 84, 88]),
        ),
        (
            setattr(file, none, None),
            vec![0, 16, 20, 24, 28, 32, 36, 40, 44],
        ),
        (lookup(root, b"file"), vec![0, 16, 24]),
        (access(file, 1), vec![0, 16, 20]),
        (read(file, 1, 2), vec![0, 16, 24, 28]),
        (write(file, 0, b"data"), vec![0, 16, 24, 28, 32, 40]),
        (
            unchecked(root, b"name", all()),
            behind(&[0, 16, 24], 28, &[]),
        ),
        (guarded(root, b"name", all()), behind(&[0, 16, 24], 28, &[])),
        (
            guarded(root, b"name", none),
            vec![0, 16, 24, 28, 32, 36, 40, 44, 48, 52],
        ),
        (exclusive(root, b"name", [1; 8]), vec![0, 16, 24, 28, 36]),
        (mkdir(root, b"name", all()), behind(&[0, 16], 24, &[])),
        (remove(root, b"file"), vec![0, 16, 24]),
        (rmdir(root, b"file"), vec![0, 16, 24]),
        (
            rename(root, b"file", root, b"name"),
            vec![0, 16, 24, 40, 48],
        ),
        (link(file, root, b"name"), vec![0, 16, 32, 40]),
        (readdir(root, 0, 0, 1000), vec![0, 16, 24, 32, 36]),
        (fsstat(file), vec![0, 16]),
        (fsinfo(file), vec![0, 16]),
        (pathconf(file), vec![0, 16]),
        (commit(file, 0, 0), vec![0, 16, 24, 28]),
    ]
}

#[test]
fn arguments_cut_at_each_byte() {
    let (store, file) = store();
    for (credential, verifier, start) in [(0, 0, 40), (5, 3, 52), (4, 0, 44), (399, 400, 840)] {
        for (request, starts) in requests(&file) {
            let head = Header {
                procedure: request.procedure(),
                ..header(100_003, credential, verifier)
            };
            let call = head.call(&encode(&request.fields()));
            assert_eq!(call.len(), start + starts[starts.len() - 1], "{request:?}");
            for length in start..call.len() {
                let item = starts.iter().rev().find(|&&at| start + at <= length);
                let wanted = (start + item.unwrap()) as u32;
                assert_eq!(
                    nfs_on(&store, &call[..length]),
                    (0, wanted),
                    "{request:?} {length}"
                );
            }
            assert_eq!(nfs_on(&store, &call), (0, 0));
            for count in 1..6 {
                let longer = [&call[..], &vec![0; count]].concat();
                assert_eq!(nfs_on(&store, &longer), (0, call.len() as u32));
            }
        }
    }
}

#[test]
fn cut_bodies_and_padding() {
    let (store, file) = store();
    // A name of 5 bytes: its length at 56, its padding from 65 to 67.
    let call = lookup(&root(), b"names").call(1);
    assert_eq!(call.len(), 68);
    for length in 56..68 {
        assert_eq!(nfs_on(&store, &call[..length]), (0, 56));
    }
    // A handle of 9 bytes: its padding from 53 to 55.
    let call = getattr(&file[..9]).call(1);
    for length in 40..56 {
        assert_eq!(nfs_on(&store, &call[..length]), (0, 40));
    }
    // Data of 6 bytes: its length at 72, its padding at 82 and 83.
    let call = write(&file, 0, b"data!!").call(1);
    assert_eq!(call.len(), 84);
    for length in 72..84 {
        assert_eq!(nfs_on(&store, &call[..length]), (0, 72));
    }
    // The second name of a RENAME: behind 16, 8 and 16 bytes.
    let call = rename(&root(), b"file", &root(), b"n").call(1);
    assert_eq!(call.len(), 88);
    for length in 80..88 {
        assert_eq!(nfs_on(&store, &call[..length]), (0, 80));
    }
}

#[test]
fn values_out_of_range() {
    let (store, file) = store();
    let place = |call: &[u8], at: usize, word: u32| nfs_on(&store, &with_word(call, at, word));
    let call = setattr(&file, all(), Some((1, 2))).call(1);
    for word in [2, 3, 0x0100_0000, u32::MAX] {
        // Mode, uid, gid, size and the guard.
        for at in [56, 64, 72, 80, 116] {
            assert_eq!(place(&call, at, word), (0, at as u32));
        }
    }
    for word in [3, 4, 0x0200_0000, u32::MAX] {
        // The two manners of the times.
        for at in [92, 104] {
            assert_eq!(place(&call, at, word), (0, at as u32));
        }
        let call = write(&file, 0, b"data").call(1);
        assert_eq!(place(&call, 68, word), (0, 68));
        let call = guarded(&root(), b"name", all()).call(1);
        assert_eq!(place(&call, 64, word), (0, 64));
    }
    // Any number is a number.
    for at in [60, 68, 76, 84, 88, 96, 100, 108, 112, 120, 124] {
        assert_eq!(place(&call, at, u32::MAX), (0, 0));
    }
}

#[test]
fn lengths_out_of_range() {
    let (store, file) = store();
    let far = [
        9000,
        0x7FFF_FFFF,
        0x8000_0000,
        u32::MAX - 3,
        u32::MAX - 2,
        u32::MAX,
    ];
    for length in [65, 66, 67, 68, 100, 400] {
        let long = vec![1; length];
        for request in [getattr(&long), lookup(&long, b"n"), commit(&long, 0, 0)] {
            assert_eq!(nfs_on(&store, &request.call(1)), (0, 40));
        }
        let call = rename(&root(), b"file", &long, b"n").call(1);
        assert_eq!(nfs_on(&store, &call), (0, 64));
        // Without the bytes.
        assert_eq!(nfs_on(&store, &call[..68]), (0, 64));
    }
    for length in [0, 1, 11, 13, 63, 64] {
        let call = getattr(&vec![1; length]).call(1);
        assert_eq!(nfs_on(&store, &call), (0, 0));
    }
    let call = rename(&root(), b"file", &root(), b"name").call(1);
    for length in far {
        for at in [40, 56, 64, 80] {
            let long = with_word(&call, at, length);
            assert_eq!(nfs_on(&store, &long), (0, at as u32));
            assert_eq!(nfs_on(&store, &long[..at + 4]), (0, at as u32));
        }
    }
    // A name that takes all that is there is whole; one byte more is not.
    assert_eq!(nfs_on(&store, &with_word(&call, 80, 4)), (0, 0));
    assert_eq!(nfs_on(&store, &with_word(&call, 80, 5)), (0, 80));
    // The first name takes the rest of the call, so the second handle is
    // missing.
    assert_eq!(nfs_on(&store, &with_word(&call, 56, 28)), (0, 88));
    assert_eq!(nfs_on(&store, &with_word(&call, 56, 29)), (0, 56));
    let call = write(&file, 0, b"data").call(1);
    for length in far {
        assert_eq!(nfs_on(&store, &with_word(&call, 72, length)), (0, 72));
    }
    // Shorter data: the first byte behind its padding is left over.
    assert_eq!(nfs_on(&store, &with_word(&call, 72, 0)), (0, 76));
}

#[test]
fn first_of_two_faults() {
    let (store, file) = store();
    let call = setattr(&file, all(), Some((1, 2))).call(1);
    let both = with_word(&with_word(&call, 72, 2), 92, 3);
    assert_eq!(nfs_on(&store, &both), (0, 72));
    assert_eq!(nfs_on(&store, &both[..93]), (0, 72));
    assert_eq!(nfs_on(&store, &[&both[..], &[0]].concat()), (0, 72));
    let both = with_word(&with_word(&call, 40, 65), 116, 2);
    assert_eq!(nfs_on(&store, &both), (0, 40));
    // The header comes before the arguments.
    let head = with_word(&with_word(&call, 36, 401), 40, 65);
    assert_eq!(nfs_on(&store, &head), (9, 36));
    // Handles that would be refused come after the arguments.
    for bad in [handle(STAMP, 1, 9), handle(STAMP, 9, 0), vec![1; 3], vec![]] {
        for (request, _) in requests(&bad).into_iter().skip(1) {
            let mut call = request.call(1);
            let end = call.len() as u32;
            call.push(0);
            assert_eq!(nfs_on(&store, &call), (0, end), "{request:?}");
        }
        let call = write(&bad, 0, b"data").call(1);
        let stable = call.len() - 12;
        let unknown = with_word(&call, stable, 3);
        assert_eq!(nfs_on(&store, &unknown), (0, stable as u32));
    }
}

#[test]
fn pad_bytes() {
    let (store, file) = store();
    for (length, name) in [(11, &b"a"[..]), (9, b"ab"), (10, b"abc")] {
        let mut fields = rename(&file[..length], name, &file[..length], name).fields();
        let head = Header {
            procedure: 14,
            ..header(100_003, 5, 3)
        };
        for pad in [0, 1, 0xFF] {
            // From 52 on: 16, 8, 16 and 8 bytes.
            let mut call = head.call(&encode(&fields));
            call[37..40].fill(pad);
            call[51] = pad;
            call[56 + length..68].fill(pad);
            call[72 + name.len()..76].fill(pad);
            call[80 + length..92].fill(pad);
            call[96 + name.len()..100].fill(pad);
            assert_eq!(call.len(), 100);
            for (from, to) in [(52, 68), (68, 76), (76, 92), (92, 100)] {
                for length in from..to {
                    assert_eq!(nfs_on(&store, &call[..length]), (0, from as u32));
                }
            }
            for length in 28..40 {
                assert_eq!(nfs_on(&store, &call[..length]), (8, 28));
            }
            for length in 44..52 {
                assert_eq!(nfs_on(&store, &call[..length]), (8, 44));
            }
            assert_eq!(nfs_on(&store, &call), (0, 0));
            call.push(pad);
            assert_eq!(nfs_on(&store, &call), (0, 100));
        }
        fields.pop();
        let call = head.call(&encode(&fields));
        assert_eq!(nfs_on(&store, &call), (0, 92));
    }
}

#[test]
fn paths() {
    for procedure in [1, 3] {
        let head = Header {
            procedure,
            ..header(100_005, 5, 3)
        };
        for path in [&b""[..], b"/", b"/a", b"/ab", b"/abc", b"x"] {
            let call = head.call(&encode(&[Field::Text(path.to_vec())]));
            let end = 56 + path.len().div_ceil(4) * 4;
            assert_eq!(call.len(), end);
            for length in 52..end {
                assert_eq!(mount(&call[..length]), (0, 52), "{length} bytes");
            }
            assert!(places::mount(&call).offset == 0);
            for count in 1..6 {
                let longer = [&call[..], &vec![0xFF; count]].concat();
                assert_eq!(mount(&longer), (0, end as u32));
            }
        }
        for length in [1025, 1026, 1028, 4000] {
            let call = head.call(&encode(&[Field::Text(vec![b'/'; length])]));
            assert_eq!(mount(&call), (0, 52));
            assert_eq!(mount(&call[..56]), (0, 52));
            assert_eq!(mount(&[&call[..], &[0]].concat()), (0, 52));
        }
        for length in [2, 8000, 0x8000_0000, u32::MAX - 3, u32::MAX] {
            let call = head.call(&length.to_be_bytes());
            assert_eq!(mount(&call), (0, 52));
        }
    }
    // 1,024 bytes are a path, of which one is missing.
    let head = Header {
        procedure: 1,
        ..header(100_005, 0, 0)
    };
    let call = head.call(&encode(&[Field::Text(vec![b'/'; 1024])]));
    assert_eq!(mount(&call[..call.len() - 1]), (0, 40));
}

#[test]
fn void_procedures() {
    for (credential, verifier, end) in [(0, 0, 40), (5, 3, 52), (400, 397, 840)] {
        for procedure in [0, 2, 4, 5] {
            let head = Header {
                procedure,
                ..header(100_005, credential, verifier)
            };
            for count in 1..6 {
                assert_eq!(mount(&head.call(&vec![0; count])), (0, end));
            }
        }
        for count in 1..6 {
            let head = header(100_003, credential, verifier);
            assert_eq!(nfs(&head.call(&vec![0xFF; count])), (0, end));
        }
    }
}

#[test]
fn statuses_have_no_offset() {
    let (store, file) = store();
    let root = root();
    for request in [
        lookup(&root, b"missing"),
        lookup(&root, b""),
        lookup(&file, b"x"),
        lookup(&root, &[b'n'; 33]),
        read(&root, 0, 1),
        write(&file, 8192, b"x"),
        write(&file, 2000, b"x"),
        guarded(&root, b"file", Attributes::default()),
        rmdir(&root, b"file"),
        getattr(&handle(STAMP, 1, 5)),
        getattr(&[1; 64]),
        setattr(&file, Attributes::default(), Some((9, 9))),
        readdir(&root, 0, 1, 4096),
        readdir(&root, 0, 0, 1),
    ] {
        assert_eq!(nfs_on(&store, &request.call(1)), (0, 0), "{request:?}");
    }
    for path in [&b""[..], b"x", b"/x", b"/file", b"/a\0", &[b'/'; 1024]] {
        let head = Header {
            procedure: 1,
            ..header(100_005, 0, 0)
        };
        let call = head.call(&encode(&[Field::Text(path.to_vec())]));
        let mut table = vec![0; TABLE];
        let mut reply = vec![SPARE; SPACE];
        let answer = peer::mount(&call, &store, &mut table, &mut reply, 1);
        assert_eq!((answer.number, answer.offset), (0, 0));
    }
}

#[test]
fn other_entries_have_no_offset() {
    let (store, _) = store();
    let offset = |answer: Answer| (answer.number, answer.length, answer.offset);
    assert_eq!(offset(peer::check(&store)), (0, 0, 0));
    assert_eq!(offset(peer::check(&store[1..])), (1, 0, 0));
    let mut target = vec![0; 112];
    assert_eq!(
        offset(peer::format(&mut target, 1, 1, 0, 0, 1, 1)),
        (0, 0, 0)
    );
    assert_eq!(
        offset(peer::format(&mut target, 1, 0, 0, 0, 1, 1)),
        (6, 0, 0)
    );
    let nanoseconds = 1_000_000_000;
    let answer = peer::format(&mut target, 1, 1, 0, 0, 1, nanoseconds);
    assert_eq!(offset(answer), (3, 0, 0));
    let old = old_image(&Lane::new(1, 0, 0).store);
    assert_eq!(offset(peer::convert(&old, &mut target)), (0, 0, 0));
    assert_eq!(offset(peer::convert(&old, &mut target[1..])), (6, 0, 0));
    assert_eq!(offset(peer::convert(&old[1..], &mut target)), (1, 0, 0));
}

/// Calls that are broken in each way.
fn broken(program: u32) -> [Vec<u8>; 5] {
    let call = header(program, 0, 0).encode();
    [
        call[..5].to_vec(),
        with_word(&call, 4, 1),
        call[..30].to_vec(),
        with_word(&call, 28, 401),
        [&call[..], &[0]].concat(),
    ]
}

#[test]
fn earlier_refusals_have_no_offset() {
    let (good, _) = store();
    let mut damaged = good.clone();
    damaged[12 + 3] = 9;
    for call in broken(100_003) {
        let mut long = call.clone();
        long.resize(8193, 0);
        for (call, store, space, nanoseconds, number) in [
            (&call, &good, 4223, 5, 2),
            (&call, &good, 4224, 1_000_000_000, 3),
            (&long, &good, 4224, 5, 4),
            (&call, &damaged, 4224, 5, 1),
        ] {
            let mut store = store.clone();
            let mut reply = vec![SPARE; space];
            let answer = peer::call(call, &mut store, &mut reply, 1, nanoseconds, 2);
            let wanted = Answer {
                number,
                length: 0,
                offset: 0,
            };
            assert_eq!(answer, wanted);
        }
    }
    let mut other_table = vec![0; TABLE];
    other_table[TABLE - 1] = 1;
    for call in broken(100_005) {
        let mut long = call.clone();
        long.resize(8193, 0);
        let sound_table = vec![0; TABLE];
        for (call, store, table, space, number) in [
            (&call, &good, &sound_table, SPACE - 1, 2),
            (&long, &good, &sound_table, SPACE, 4),
            (&call, &damaged, &sound_table, SPACE, 1),
            (&call, &good, &other_table, SPACE, 12),
        ] {
            let mut table = table.clone();
            let mut reply = vec![SPARE; space];
            let answer = peer::mount(call, store, &mut table, &mut reply, 1);
            let wanted = Answer {
                number,
                length: 0,
                offset: 0,
            };
            assert_eq!(answer, wanted);
        }
    }
}

/// The definition in the generator, against places that are counted by hand.
#[test]
fn second_definition() {
    let (_, file) = store();
    let of = |call: &[u8]| {
        let place = places::nfs(call);
        (place.number, place.offset, place.item)
    };
    let call = setattr(&file, all(), Some((1, 2))).call(1);
    assert_eq!(of(&call), (0, 0, ""));
    assert_eq!(of(&call[..7]), (5, 0, ""));
    assert_eq!(of(&with_word(&call, 4, 1)), (7, 0, ""));
    assert_eq!(of(&call[..10]), (8, 8, "RPC version"));
    assert_eq!(of(&call[..12]), (8, 12, "program"));
    assert_eq!(of(&call[..19]), (8, 16, "version"));
    assert_eq!(of(&call[..23]), (8, 20, "procedure"));
    assert_eq!(of(&call[..24]), (8, 24, "credential's flavor"));
    assert_eq!(of(&call[..28]), (8, 28, "credential"));
    assert_eq!(of(&call[..32]), (8, 32, "verifier's flavor"));
    assert_eq!(of(&call[..36]), (8, 36, "verifier"));
    assert_eq!(of(&with_word(&call, 28, 401)), (9, 28, "credential"));
    assert_eq!(of(&with_word(&call, 36, 401)), (9, 36, "verifier"));
    assert_eq!(of(&call[..50]), (0, 40, "variable length"));
    assert_eq!(of(&call[..58]), (0, 56, "boolean or enum"));
    assert_eq!(of(&call[..60]), (0, 60, "4 bytes"));
    assert_eq!(of(&call[..91]), (0, 84, "8 bytes"));
    assert_eq!(of(&call[..99]), (0, 96, "4 bytes"));
    assert_eq!(of(&call[..100]), (0, 100, "4 bytes"));
    assert_eq!(of(&[&call[..], &[0]].concat()), (0, 128, "left over"));
    let call = header(100_003, 6, 3).encode();
    assert_eq!(of(&call[..41]), (8, 40, "verifier's flavor"));
    assert_eq!(of(&call[..44]), (8, 44, "verifier"));
    assert_eq!(of(&with_word(&call, 44, 401)), (9, 44, "verifier"));
}

/// Calls changed by chance: the entries and the definition agree.
#[test]
fn changed_calls() {
    let (store, file) = store();
    let mut random = Random::new(66);
    let mut numbers = std::collections::BTreeMap::new();
    let samples = requests(&file);
    for _ in 0..20_000 {
        let (request, _) = &samples[random.below(samples.len())];
        let lengths = [0, 0, 0, 1, 3, 4, 7, 400];
        let head = Header {
            procedure: request.procedure(),
            ..header(100_003, random.pick(&lengths), random.pick(&lengths))
        };
        let mut call = head.call(&encode(&request.fields()));
        if random.once_in(5) {
            // A MOUNT call with the same arguments.
            call[12..16].copy_from_slice(&100_005u32.to_be_bytes());
            call[23] %= 6;
        }
        for _ in 0..random.below(3) {
            let at = random.pick(&[28, 36, 40, 44, 56, 60, 64, 72, 80]);
            let word = random.pick(&[0, 1, 2, 3, 12, 64, 65, 400, 401, u32::MAX]);
            if at + 4 <= call.len() {
                call = with_word(&call, at, word);
            }
        }
        if random.once_in(3) {
            call.truncate(random.below(call.len() + 1));
        }
        if random.once_in(4) {
            call.resize(call.len() + random.below(6), 1);
        }
        let place = places::nfs(&call);
        assert_eq!(nfs_on(&store, &call), (place.number, place.offset));
        *numbers.entry((place.number, place.item)).or_insert(0) += 1;
        let place = places::mount(&call);
        let mut table = vec![0; TABLE];
        let mut reply = vec![SPARE; SPACE];
        let answer = peer::mount(&call, &store, &mut table, &mut reply, 1);
        assert_eq!((answer.number, answer.offset), (place.number, place.offset));
    }
    // Every kind of item was met: 8 of the header, 2 of them overlong, 5 of the
    // arguments, 5, 7 and none.
    assert!(numbers.len() >= 17, "{numbers:?}");
}

/// What an entry must answer is decided by the earlier tests first.
#[test]
fn second_definition_of_refusals() {
    let (good, _) = store();
    let bytes = header(100_003, 0, 0).encode();
    let call = |length: usize, nanoseconds, space| {
        let mut bytes = bytes.clone();
        bytes.resize(length, 0);
        let call = Call {
            bytes: &bytes,
            seconds: 1,
            nanoseconds,
            verifier: 1,
            space,
        };
        places::of_call(&call, &good).number
    };
    assert_eq!(call(8193, 1_000_000_000, 4223), 2);
    assert_eq!(call(8193, 1_000_000_000, 4224), 3);
    assert_eq!(call(8193, 999_999_999, 4224), 4);
    assert_eq!(call(7, 0, 4224), 5);
    let mount = Mount {
        bytes: &bytes,
        host: 1,
        space: SPACE,
    };
    let number = |store: &[u8], table: &[u8]| places::of_mount(&mount, store, table).number;
    assert_eq!(number(&good[1..], &[]), 1);
    assert_eq!(number(&good, &[]), 12);
    assert_eq!(number(&good, &vec![0; TABLE]), 0);
}
