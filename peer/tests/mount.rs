//! MOUNT version 3: every rule of request E5, with values worked out by hand.

mod common;
use common::*;
use peer::generator::encode::{handle, Attributes, Header, Request};
use peer::generator::mounts::definition::defined;
use peer::generator::random::Random;
use peer::Answer;

const ROW: usize = 1032;
const TABLE: usize = 33_024;
const SPACE: usize = 33_692;
/// 192.0.2.1
const HOST: u32 = 0xC000_0201;
const SERVERFAULT: u32 = 10_006;

const NULL: u32 = 0;
const MNT: u32 = 1;
const DUMP: u32 = 2;
const UMNT: u32 = 3;
const UMNTALL: u32 = 4;
const EXPORT: u32 = 5;

/// A store and a mount table under test.
struct Gate {
    lane: Lane,
    table: Vec<u8>,
    host: u32,
}

/// The words of a call before its arguments: xid 7, two empty authenticators.
fn head(procedure: u32) -> Vec<u8> {
    bytes(&[7, 0, 2, 100_005, 3, procedure, 0, 0, 0, 0])
}

fn bytes(words: &[u32]) -> Vec<u8> {
    words.iter().flat_map(|word| word.to_be_bytes()).collect()
}

/// A call with a path, padded with zeros.
fn with_path(procedure: u32, path: &[u8]) -> Vec<u8> {
    let mut call = head(procedure);
    call.extend((path.len() as u32).to_be_bytes());
    call.extend(path);
    call.resize(call.len().next_multiple_of(4), 0);
    call
}

/// The bytes of a row.
fn row(host: u32, path: &[u8]) -> Vec<u8> {
    let mut row = bytes(&[host, path.len() as u32]);
    row.extend(path);
    row.resize(ROW, 0);
    row
}

/// A table of these rows; an empty path makes a free one.
fn table(rows: &[(u32, &[u8])]) -> Vec<u8> {
    let mut table = Vec::new();
    for &(host, path) in rows {
        table.extend(row(host, path));
    }
    table.resize(TABLE, 0);
    table
}

impl Gate {
    /// A store with /a, /a/b and the file /file, and an empty table.
    fn new() -> Gate {
        let mut lane = Lane::new(8, 8, 4);
        let a = lane.mkdir(&root(), b"a");
        lane.mkdir(&a, b"b");
        lane.create(&root(), b"file");
        Gate {
            lane,
            table: vec![0; TABLE],
            host: HOST,
        }
    }

    /// The answer and the reply; what holds for all calls is tested.
    fn raw(&mut self, call: &[u8]) -> (u32, Vec<u8>) {
        let mut reply = vec![SPARE; SPACE + 20];
        let store = self.lane.store.clone();
        let before = self.table.clone();
        let answer = peer::mount(call, &store, &mut self.table, &mut reply, self.host);
        assert!(store == self.lane.store);
        let length = answer.length as usize;
        assert!(reply[length..].iter().all(|&byte| byte == SPARE));
        if answer.number != 0 {
            assert_eq!(length, 0);
            assert!(before == self.table);
        } else {
            assert_eq!(reply[..4], call[..4]);
        }
        reply.truncate(length);
        (answer.number, reply)
    }

    /// The words of the reply after those of a successful head.
    fn result(&mut self, call: &[u8]) -> Vec<u8> {
        let (number, reply) = self.raw(call);
        assert_eq!(number, 0);
        assert_eq!(reply[..24], bytes(&[7, 1, 0, 0, 0, 0]));
        reply[24..].to_vec()
    }

    /// The outcome of a call that is accepted.
    fn outcome(&mut self, call: &[u8]) -> u32 {
        let before = self.table.clone();
        let (number, reply) = self.raw(call);
        assert_eq!(number, 0);
        assert_eq!(reply[4..20], bytes(&[1, 0, 0, 0]));
        let outcome = words(&reply)[5];
        if outcome != 0 {
            assert!(before == self.table);
        }
        outcome
    }

    fn mnt(&mut self, path: &[u8]) -> u32 {
        let before = self.table.clone();
        let result = self.result(&with_path(MNT, path));
        let status = words(&result)[0];
        if status == 0 {
            assert_eq!(result.len(), 32);
            assert_eq!(words(&result)[1], 12);
            assert_eq!(words(&result)[5..], [2, 0, 1]);
        } else {
            assert_eq!(result.len(), 4);
            assert!(before == self.table);
        }
        status
    }

    /// The object that a path leads to.
    fn object(&mut self, path: &[u8]) -> u32 {
        let result = self.result(&with_path(MNT, path));
        let words = words(&result);
        assert_eq!(words[..2], [0, 12], "{}", path.escape_ascii());
        assert_eq!(words[2], STAMP);
        words[3]
    }

    fn umnt(&mut self, path: &[u8]) {
        assert!(self.result(&with_path(UMNT, path)).is_empty());
    }
}

#[test]
fn a_mount_byte_by_byte() {
    let mut gate = Gate::new();
    let call = b"\0\0\0\x07\0\0\0\0\0\0\0\x02\0\x01\x86\xA5\0\0\0\x03\0\0\0\x01\
                 \0\0\0\0\0\0\0\0\0\0\0\0\0\0\0\0\0\0\0\x04/a/b";
    let (number, reply) = gate.raw(call);
    assert_eq!(number, 0);
    assert_eq!(
        reply,
        b"\0\0\0\x07\0\0\0\x01\0\0\0\0\0\0\0\0\0\0\0\0\0\0\0\0\
          \0\0\0\0\0\0\0\x0CSTAM\0\0\0\x02\0\0\0\0\0\0\0\x02\0\0\0\0\0\0\0\x01"
    );
    assert_eq!(gate.table[..12], *b"\xC0\0\x02\x01\0\0\0\x04/a/b");
    assert!(gate.table[12..].iter().all(|&byte| byte == 0));
    // DUMP lists it: 1, "192.0.2.1", "/a/b", 0.
    assert_eq!(
        gate.result(&head(DUMP)),
        b"\0\0\0\x01\0\0\0\x09192.0.2.1\0\0\0\0\0\0\x04/a/b\0\0\0\0"
    );
    gate.umnt(b"/a/b");
    assert_eq!(gate.table, vec![0; TABLE]);
    assert_eq!(gate.result(&head(DUMP)), [0; 4]);
}

#[test]
fn void_procedures_and_the_export() {
    let mut gate = Gate::new();
    gate.table = table(&[(1, b"/x"), (HOST, b"/y")]);
    let start = gate.table.clone();
    assert!(gate.result(&head(NULL)).is_empty());
    assert_eq!(
        gate.result(&head(EXPORT)),
        bytes(&[1, 1, 0x2F00_0000, 0, 0])
    );
    assert!(gate.table == start);
    assert!(gate.result(&head(UMNTALL)).is_empty());
    assert!(gate.table == table(&[(1, b"/x")]));
}

#[test]
fn answers_in_their_order() {
    let mut damaged_table = vec![0; TABLE];
    damaged_table[5000] = 1;
    let good = Gate::new().lane.store;
    let mut damaged_store = good.clone();
    damaged_store[12 + 3] = 1;
    for faults in 0..32 {
        let has = |at: usize| faults >> at & 1 != 0;
        let mut reply = vec![SPARE; if has(0) { 33_691 } else { 33_692 }];
        let mut call = head(NULL);
        if has(4) {
            call.truncate(39);
        }
        if has(1) {
            // Too long, and still without a header: a reply's message type.
            call.resize(8193, 0);
            call[7] = u8::from(has(4));
        }
        let store = if has(2) { &damaged_store } else { &good };
        let start = if has(3) {
            damaged_table.clone()
        } else {
            vec![0; TABLE]
        };
        let mut table = start.clone();
        // The header is cut, or the message is a reply.
        let broken = if has(1) { 7 } else { 8 };
        let number = [(0, 2), (1, 4), (2, 1), (3, 12), (4, broken)]
            .into_iter()
            .find(|&(at, _)| has(at))
            .map_or(0, |(_, number)| number);
        let answer = peer::mount(&call, store, &mut table, &mut reply, 1);
        let length = if number == 0 { 24 } else { 0 };
        // The verifier's length starts at 36.
        let offset = if number == 8 { 36 } else { 0 };
        let wanted = Answer {
            number,
            length,
            offset,
        };
        assert_eq!(answer, wanted, "{faults}");
        assert!(table == start);
        assert!(reply[length as usize..].iter().all(|&byte| byte == SPARE));
    }
}

#[test]
fn limits_of_space_and_call() {
    let store = Gate::new().lane.store;
    for (space, number) in [(0, 2), (33_691, 2), (33_692, 0), (33_693, 0)] {
        let mut table = vec![0; TABLE];
        let mut reply = vec![SPARE; space];
        let answer = peer::mount(&head(NULL), &store, &mut table, &mut reply, 0);
        assert_eq!(answer.number, number);
    }
    let mut gate = Gate::new();
    let mut call = head(NULL);
    call.resize(8192, 0);
    assert_eq!(gate.outcome(&call), 4);
    call.push(0);
    assert_eq!(gate.raw(&call).0, 4);
}

#[test]
fn headers() {
    let mut gate = Gate::new();
    let call = with_path(MNT, b"/");
    for length in 0..40 {
        let wanted = if length < 8 { 5 } else { 8 };
        assert_eq!(gate.raw(&call[..length]).0, wanted, "{length} bytes");
    }
    // The header is complete; the path's length is missing or cut.
    for length in 40..48 {
        assert_eq!(gate.outcome(&call[..length]), 4, "{length} bytes");
    }
    assert!(gate.table == vec![0; TABLE]);
    let sound = Header {
        program: 100_005,
        ..Header::new(7, NULL)
    };
    let denied = Header {
        rpc_version: 3,
        program: 100_003,
        version: 4,
        procedure: 6,
        ..sound.clone()
    };
    let (number, reply) = gate.raw(&denied.encode()[..12]);
    assert_eq!((number, words(&reply)), (0, vec![7, 1, 1, 0, 2, 2]));
    let reply = gate.raw(&denied.encode()).1;
    assert_eq!(words(&reply), [7, 1, 1, 0, 2, 2]);
    for program in [100_003, 100_004, 0] {
        let other = Header {
            program,
            version: 4,
            procedure: 6,
            ..sound.clone()
        };
        let reply = gate.raw(&other.call(&[1])).1;
        assert_eq!(words(&reply), [7, 1, 0, 0, 0, 1]);
    }
    for version in [0, 1, 2, 4] {
        let other = Header {
            version,
            procedure: 6,
            ..sound.clone()
        };
        let reply = gate.raw(&other.call(&[1])).1;
        assert_eq!(words(&reply), [7, 1, 0, 0, 0, 2, 3, 3]);
    }
    for procedure in [6, 7, 21, u32::MAX] {
        let other = Header {
            procedure,
            ..sound.clone()
        };
        let reply = gate.raw(&other.call(&[1])).1;
        assert_eq!(words(&reply), [7, 1, 0, 0, 0, 3]);
    }
    // The MOUNT program at the NFS entry.
    for procedure in 0..6 {
        let other = Header {
            procedure,
            ..sound.clone()
        };
        let reply = gate.lane.raw(&other.encode()).bytes;
        assert_eq!(words(&reply), [7, 1, 0, 0, 0, 1]);
    }
    for (length, number) in [(399, 0), (400, 0), (401, 9)] {
        for verifier in [false, true] {
            let mut long = sound.clone();
            let field = if verifier {
                &mut long.verifier
            } else {
                &mut long.credential
            };
            *field = (77, vec![1; length]);
            assert_eq!(gate.raw(&long.encode()).0, number);
        }
    }
}

#[test]
fn pad_bytes() {
    let mut gate = Gate::new();
    for (path, object) in [(&b"/a"[..], 1), (b"/a/", 1), (b"//a/b", 2)] {
        let mut call = with_path(MNT, path);
        let pads = call.len() - 44 - path.len();
        let start = 44 + path.len();
        call[start..].fill(0xEE);
        for missing in 1..=pads {
            assert_eq!(gate.outcome(&call[..call.len() - missing]), 4);
        }
        assert_eq!(words(&gate.result(&call))[3], object);
        let mut strike = call.clone();
        strike[23] = UMNT as u8;
        assert_eq!(gate.table[..ROW], row(HOST, path));
        for missing in 1..=pads {
            assert_eq!(gate.outcome(&strike[..strike.len() - missing]), 4);
        }
        assert_eq!(gate.table[..ROW], row(HOST, path));
        assert!(gate.result(&strike).is_empty());
        assert!(gate.table == vec![0; TABLE]);
    }
    let odd = Header {
        program: 100_005,
        credential: (1, vec![1; 5]),
        verifier: (2, vec![2; 7]),
        ..Header::new(7, NULL)
    };
    let mut call = odd.encode();
    call[32 + 5..32 + 8].fill(0xFF);
    let last = call.len() - 1;
    call[last] = 0xFF;
    assert!(gate.result(&call).is_empty());
    assert_eq!(gate.raw(&call[..last]).0, 8);
}

#[test]
fn arguments_of_any_length() {
    let mut gate = Gate::new();
    gate.table = table(&[(HOST, b"/a"), (HOST, b"/")]);
    for procedure in [NULL, DUMP, UMNTALL, EXPORT] {
        for left in [1, 2, 3, 4, 5, 8] {
            let mut call = head(procedure);
            call.resize(40 + left, 0);
            assert_eq!(gate.outcome(&call), 4);
        }
    }
    for procedure in [MNT, UMNT] {
        for left in [1, 2, 3, 4] {
            let mut call = with_path(procedure, b"/a");
            call.resize(48 + left, 0);
            assert_eq!(gate.outcome(&call), 4);
        }
        for (length, there) in [
            (1025, 1028),
            (1025, 0),
            (u32::MAX, 0),
            (u32::MAX, 4),
            (u32::MAX - 3, 1024),
            (0x8000_0000, 8),
            (5, 4),
            (1, 0),
            (1024, 1020),
        ] {
            let mut call = head(procedure);
            call.extend(length.to_be_bytes());
            call.resize(44 + there, b'/');
            assert_eq!(gate.outcome(&call), 4, "{length}");
        }
    }
    for length in [1, 2, 1021, 1022, 1023, 1024] {
        let path = vec![b'/'; length];
        assert_eq!(gate.object(&path), 0);
        gate.umnt(&path);
    }
    assert!(gate.table == table(&[(HOST, b"/a")]));
}

#[test]
fn where_paths_lead() {
    let mut gate = Gate::new();
    let long = b"exactly-thirty-two-bytes-of-name";
    gate.lane.mkdir(&root(), long);
    gate.lane.mkdir(&root(), b"...");
    for (path, object) in [
        (&b"/"[..], 0),
        (b"//", 0),
        (b"/////", 0),
        (b"/.", 0),
        (b"/..", 0),
        (b"/../..//.././", 0),
        (b"/a", 1),
        (b"//a", 1),
        (b"/a/", 1),
        (b"/a//", 1),
        (b"/./a/.", 1),
        (b"/../a", 1),
        (b"/a/../a", 1),
        (b"/a/b", 2),
        (b"/a///b", 2),
        (b"/a/b/..", 1),
        (b"/a/b/../..", 0),
        (b"/a/b/../b/../../a/b", 2),
        (b"/exactly-thirty-two-bytes-of-name", 4),
        (b"/...", 5),
        (b"/.../..", 0),
    ] {
        assert_eq!(gate.object(path), object, "{}", path.escape_ascii());
        gate.umnt(path);
    }
    assert!(gate.table == vec![0; TABLE]);
}

#[test]
fn statuses_of_mnt() {
    use status::*;
    let mut gate = Gate::new();
    let long = [b"/", &[b'x'; 33][..]].concat();
    let long_zero = [b"/", &[0; 33][..]].concat();
    let behind = |first: &[u8], later: &[u8]| [first, later].concat();
    for full in [false, true] {
        if full {
            let rows: Vec<Vec<u8>> = (0..32).map(|at| format!("/{at}").into_bytes()).collect();
            let rows: Vec<(u32, &[u8])> = rows.iter().map(|path| (3, &path[..])).collect();
            gate.table = table(&rows);
        }
        for (path, status) in [
            (&b""[..], INVAL),
            (b"a", INVAL),
            (b"a/b", INVAL),
            (b".", INVAL),
            (b"\0", INVAL),
            (b"\0/a", INVAL),
            (b"x", INVAL),
            (&long[1..], INVAL),
            (b"/x", NOENT),
            (b"/b", NOENT),
            (b"/a/a", NOENT),
            (b"/aa", NOENT),
            (b"/fil", NOENT),
            (b"/files", NOENT),
            (b"/A", NOENT),
            (b"/x/..", NOENT),
            (b"/x/.", NOENT),
            (b"/x/x", NOENT),
            (b"/...", NOENT),
            (b"/a\0", ACCES),
            (b"/\0", ACCES),
            (b"/a/.\0", ACCES),
            (b"/a/b/\0x", ACCES),
            (&long, NAMETOOLONG),
            (&long_zero, NAMETOOLONG),
            (&behind(b"/a", &long), NAMETOOLONG),
            (&behind(&long, b"/../x"), NAMETOOLONG),
            (&behind(&long, b"/\0"), NAMETOOLONG),
            (&behind(b"/x", &long), NOENT),
            (&behind(b"/\0", &long), ACCES),
            (b"/\0/x", ACCES),
            (b"/x/\0", NOENT),
            (b"/file", NOTDIR),
            (b"/file/", NOTDIR),
            (b"/file//", NOTDIR),
            (b"/file/.", NOTDIR),
            (b"/file/..", NOTDIR),
            (b"/file/x", NOTDIR),
            (b"/file/\0", NOTDIR),
            (b"/a/../file/../a", NOTDIR),
            (&behind(b"/file", &long), NOTDIR),
        ] {
            assert_eq!(gate.mnt(path), status, "{}", path.escape_ascii());
        }
        let expected = if full { SERVERFAULT } else { OK };
        assert_eq!(gate.mnt(b"/a/b"), expected);
    }
}

#[test]
fn deepest_path() {
    let mut gate = Gate::new();
    gate.lane = Lane::new(64, 63, 0);
    let mut above = root();
    for _ in 0..63 {
        above = gate.lane.mkdir(&above, b"0123456789abcde");
    }
    let name = b"/0123456789abcde";
    for depth in [1, 2, 62, 63] {
        assert_eq!(gate.object(&name.repeat(depth)), depth as u32);
    }
    // 64 times 16 bytes are the longest path.
    assert_eq!(gate.mnt(&name.repeat(64)), status::NOENT);
    let up = [&name.repeat(60)[..], &b"/..".repeat(21)[..]].concat();
    assert_eq!(up.len(), 1023);
    assert_eq!(gate.object(&up), 39);
}

#[test]
fn rows_are_taken_and_struck() {
    let mut gate = Gate::new();
    for path in [&b"/a"[..], b"/a/", b"/", b"/a/b"] {
        assert_eq!(gate.mnt(path), 0);
        assert_eq!(gate.mnt(path), 0);
    }
    gate.host = 0;
    assert_eq!(gate.mnt(b"/a"), 0);
    assert!(
        gate.table
            == table(&[
                (HOST, b"/a"),
                (HOST, b"/a/"),
                (HOST, b"/"),
                (HOST, b"/a/b"),
                (0, b"/a"),
            ])
    );
    // The pair of another host, and other spellings, stay.
    gate.umnt(b"/a/");
    gate.umnt(b"//a");
    gate.umnt(b"");
    gate.umnt(b"a");
    gate.umnt(b"/never");
    gate.host = HOST;
    gate.umnt(b"/a/");
    gate.umnt(b"/");
    let free: (u32, &[u8]) = (0, b"");
    assert!(gate.table == table(&[(HOST, b"/a"), free, free, (HOST, b"/a/b"), (0, b"/a")]));
    assert_eq!(gate.mnt(b"/a/b"), 0);
    assert_eq!(gate.mnt(b"//"), 0);
    gate.host = 9;
    assert_eq!(gate.mnt(b"/a"), 0);
    assert_eq!(gate.mnt(b"/a/b"), 0);
    let rows: [(u32, &[u8]); 6] = [
        (HOST, b"/a"),
        (HOST, b"//"),
        (9, b"/a"),
        (HOST, b"/a/b"),
        (0, b"/a"),
        (9, b"/a/b"),
    ];
    assert!(gate.table == table(&rows));
    gate.host = 10;
    assert!(gate.result(&head(UMNTALL)).is_empty());
    assert!(gate.table == table(&rows));
    gate.host = HOST;
    assert!(gate.result(&head(UMNTALL)).is_empty());
    let left = [free, free, rows[2], free, rows[4], rows[5]];
    assert!(gate.table == table(&left));
    gate.host = 9;
    assert!(gate.result(&head(UMNTALL)).is_empty());
    gate.host = 0;
    assert!(gate.result(&head(UMNTALL)).is_empty());
    assert!(gate.table == vec![0; TABLE]);
}

#[test]
fn a_full_table() {
    let mut gate = Gate::new();
    let paths: Vec<Vec<u8>> = (0..31).map(|at| format!("/{at:04}").into_bytes()).collect();
    let mut rows: Vec<(u32, &[u8])> = paths.iter().map(|path| (HOST, &path[..])).collect();
    gate.table = table(&rows);
    assert_eq!(gate.mnt(b"/a/b"), 0);
    rows.push((HOST, b"/a/b"));
    assert!(gate.table == table(&rows));
    assert_eq!(gate.mnt(b"/a/b"), 0);
    assert_eq!(gate.mnt(b"/a"), SERVERFAULT);
    gate.host = 1;
    assert_eq!(gate.mnt(b"/a/b"), SERVERFAULT);
    gate.host = HOST;
    gate.umnt(b"/0017");
    assert_eq!(gate.mnt(b"/a/b"), 0);
    assert_eq!(gate.mnt(b"/"), 0);
    rows[17] = (HOST, b"/");
    assert!(gate.table == table(&rows));
    assert_eq!(gate.mnt(b"/a"), SERVERFAULT);
}

/// Files with several names, at the end of a path and beside it.
#[test]
fn linked_files() {
    let mut gate = Gate::new();
    let (a, b, file) = (
        handle(STAMP, 1, 0),
        handle(STAMP, 2, 0),
        handle(STAMP, 3, 0),
    );
    for (directory, name) in [
        (root(), b"link"),
        (a.clone(), b"link"),
        (b.clone(), b"file"),
    ] {
        let request = link(&file, &directory, name);
        assert_eq!(gate.lane.status(&request), status::OK);
    }
    for path in [
        &b"/file"[..],
        b"/link",
        b"/a/link",
        b"/a/b/file",
        b"/a/b/file/",
        b"/a/link/.",
        b"/link/..",
        b"/link/x",
    ] {
        assert_eq!(gate.mnt(path), status::NOTDIR, "{}", path.escape_ascii());
    }
    for (path, object) in [
        (&b"/a"[..], 1),
        (b"/a/b", 2),
        (b"/a/b/..", 1),
        (b"/a/..", 0),
    ] {
        assert_eq!(gate.object(path), object);
    }
    assert_eq!(gate.lane.status(&remove(&a, b"link")), status::OK);
    assert_eq!(gate.mnt(b"/a/link"), status::NOENT);
    assert_eq!(gate.mnt(b"/a/b/file"), status::NOTDIR);
}

#[test]
fn the_store_changes() {
    let mut gate = Gate::new();
    let a = handle(STAMP, 1, 0);
    assert_eq!(gate.object(b"/a/b"), 2);
    assert_eq!(gate.lane.status(&rmdir(&a, b"b")), 0);
    assert_eq!(gate.mnt(b"/a/b"), status::NOENT);
    gate.lane.create(&a, b"b");
    assert_eq!(gate.mnt(b"/a/b"), status::NOTDIR);
    assert_eq!(gate.lane.status(&remove(&a, b"b")), 0);
    gate.lane.mkdir(&a, b"b");
    // The record of generation 2 is used again.
    let result = gate.result(&with_path(MNT, b"/a/b"));
    assert_eq!(words(&result)[1..5], [12, STAMP, 2, 2]);
    assert_eq!(gate.lane.status(&rename(&root(), b"a", &root(), b"c")), 0);
    assert_eq!(gate.mnt(b"/a/b"), status::NOENT);
    assert_eq!(gate.object(b"/c/b"), 2);
    assert!(gate.table == table(&[(HOST, b"/a/b"), (HOST, b"/c/b")]));
    gate.umnt(b"/a/b");
    let free: (u32, &[u8]) = (0, b"");
    assert!(gate.table == table(&[free, (HOST, b"/c/b")]));
    // A handle from MNT is one for the NFS entry.
    let request = mkdir(&handle(STAMP, 2, 2), b"new", Attributes::default());
    assert_eq!(gate.lane.status(&request), 0);
    assert_eq!(gate.object(b"/c/b/new"), 4);
    let request = Request::Getattr { object: a };
    assert_eq!(gate.lane.status(&request), 0);
}

#[test]
fn lists() {
    let mut gate = Gate::new();
    for (host, text) in [
        (0, "0.0.0.0"),
        (u32::MAX, "255.255.255.255"),
        (0xC000_0201, "192.0.2.1"),
        (0x0A00_0001, "10.0.0.1"),
        (0x0102_0304, "1.2.3.4"),
        (0x6463_0A09, "100.99.10.9"),
        (0xC8F9_6400, "200.249.100.0"),
    ] {
        for length in 1..=9 {
            let path = &b"/abcdefgh"[..length];
            gate.table = table(&[(host, path)]);
            let mut wanted = bytes(&[1, text.len() as u32]);
            wanted.extend(text.as_bytes());
            wanted.resize(wanted.len().next_multiple_of(4), 0);
            wanted.extend((length as u32).to_be_bytes());
            wanted.extend(path);
            wanted.resize(wanted.len().next_multiple_of(4) + 4, 0);
            assert_eq!(gate.result(&head(DUMP)), wanted);
        }
    }
    // Rows in order, free ones left out, paths of any bytes.
    let free: (u32, &[u8]) = (0, b"");
    let rows = [
        free,
        (1, &b"/\0x"[..]),
        free,
        free,
        (0, b"/gone"),
        (1, b"/\xFF"),
    ];
    gate.table = table(&rows);
    assert_eq!(
        gate.result(&head(DUMP)),
        b"\0\0\0\x01\0\0\0\x070.0.0.1\0\0\0\0\x03/\0x\0\
          \0\0\0\x01\0\0\0\x070.0.0.0\0\0\0\0\x05/gone\0\0\0\
          \0\0\0\x01\0\0\0\x070.0.0.1\0\0\0\0\x02/\xFF\0\0\0\0\0\0"
    );
    assert!(gate.table == table(&rows));
    // The longest list.
    let paths: Vec<Vec<u8>> = (0..32)
        .map(|at| [&[b'/'; 1023][..], &[at]].concat())
        .collect();
    let rows: Vec<(u32, &[u8])> = paths.iter().map(|path| (u32::MAX, &path[..])).collect();
    gate.table = table(&rows);
    let result = gate.result(&head(DUMP));
    assert_eq!(result.len(), 33_692 - 24);
    for (at, path) in paths.iter().enumerate() {
        let entry = &result[1052 * at..][..1052];
        assert_eq!(entry[..24], *b"\0\0\0\x01\0\0\0\x0F255.255.255.255\0");
        assert_eq!(entry[24..28], [0, 0, 4, 0]);
        assert!(entry[28..] == path[..]);
    }
    assert_eq!(result[33_664..], [0; 4]);
}

/// Whether NULL finds the table good.
fn good(table: &[u8]) -> bool {
    let mut gate = Gate::new();
    gate.table = table.to_vec();
    let (number, _) = gate.raw(&head(NULL));
    assert!(number == 0 || number == 12);
    assert_eq!(peer::mount_table::sound(table), number == 0);
    number == 0
}

#[test]
fn good_tables() {
    let long = [b'/'; 1024];
    let mut other = long;
    other[1023] = b'x';
    assert!(good(&vec![0; TABLE]));
    assert!(good(&table(&[(0, b"/")])));
    assert!(good(&table(&[(0, b"/"), (1, b"/"), (2, b"/")])));
    assert!(good(&table(&[(1, &long), (1, &other), (2, &long)])));
    assert!(good(&table(&[(1, &long[..1023]), (1, &long), (1, b"//")])));
    assert!(good(&table(&[(1, b"/\0"), (1, b"/"), (1, b"/\0\0")])));
    assert!(good(&table(&[(0, b""), (1, b"/a"), (0, b""), (1, b"/b")])));
    // 32 paths that differ in one byte, wherever it is.
    for at in 1..1024 {
        let mut bytes = Vec::new();
        for number in 0..32 {
            let mut path = long;
            path[at] = 8 * number;
            bytes.extend(row(5, &path));
        }
        assert!(good(&bytes), "byte {at}");
        // The last row again in the first.
        bytes.copy_within(31 * ROW.., 0);
        assert!(!good(&bytes), "byte {at}");
    }
}

#[test]
fn damaged_tables() {
    let sound = table(&[(1, b"/"), (0, b""), (2, b"/path"), (1, b"/path")]);
    assert!(good(&sound));
    // Every byte that is zero and is not inside a used row's host.
    for at in 0..TABLE {
        let (number, place) = (at / ROW, at % ROW);
        let used = [0, 2, 3].contains(&number);
        if used && place < 8 || sound[at] != 0 {
            continue;
        }
        // In most rows the first and last bytes and some between them.
        if number > 4 && (48..1016).contains(&place) && !place.is_multiple_of(37) {
            continue;
        }
        let mut changed = sound.clone();
        changed[at] = 0x80;
        assert!(!good(&changed), "byte {at}");
    }
    let with = |at: usize, value: u32| {
        let mut changed = sound.clone();
        changed[at..at + 4].copy_from_slice(&value.to_be_bytes());
        good(&changed)
    };
    // Lengths: of a free row, shorter, longer, too long.
    assert!(!with(ROW + 4, 1));
    for length in [0, 1, 4, 1025, 1028, 4096, 0x8000_0005, u32::MAX] {
        assert!(!with(2 * ROW + 4, length), "{length}");
    }
    for length in [6, 7, 1023, 1024] {
        assert!(with(2 * ROW + 4, length), "{length}");
    }
    // The host makes two rows equal, or not.
    assert!(!with(2 * ROW, 1));
    assert!(with(2 * ROW, 0));
    for first in [b'a', b'.', 0, 0xAF] {
        let mut changed = sound.clone();
        changed[8] = first;
        assert!(!good(&changed));
    }
    let numbered: Vec<Vec<u8>> = (0..32).map(|at| format!("/{at}").into_bytes()).collect();
    for first in 0..32 {
        for second in 0..32 {
            let mut rows: Vec<(u32, &[u8])> = numbered.iter().map(|path| (7, &path[..])).collect();
            rows[second] = rows[first];
            assert_eq!(good(&table(&rows)), first == second);
            rows[second].0 = 8;
            assert!(good(&table(&rows)));
        }
    }
    for length in [
        0, 1, 8, 1032, 33_020, 33_023, 33_025, 33_028, 34_056, 66_048,
    ] {
        let mut other = vec![0; TABLE];
        other.resize(length, 0);
        assert!(!good(&other), "{length} bytes");
    }
}

/// Rows that the check sums up to equal numbers are compared byte by byte.
#[test]
fn rows_with_equal_sums() {
    // Words of a lane that differ by +1, -2, +1 have equal sums, and equal
    // sums of sums.
    let path = |changes: [u8; 3]| {
        let mut path = vec![b'/'; 1024];
        for (at, change) in changes.into_iter().enumerate() {
            path[64 + 32 * at] = change;
        }
        path
    };
    let (one, two) = (path([10, 20, 10]), path([11, 18, 11]));
    assert!(good(&table(&[(1, &one), (1, &two)])));
    assert!(good(&table(&[
        (1, &two),
        (1, &one),
        (1, &path([12, 16, 12]))
    ])));
    assert!(!good(&table(&[(1, &one), (1, &two), (1, &one)])));
}

#[test]
fn any_bytes() {
    let mut random = Random::new(9);
    let gate = Gate::new();
    let records = gate.lane.block_at(0);
    let pairs: [(u32, &[u8]); 3] = [(1, b"/a"), (0, b""), (2, b"/file/x")];
    let mut numbers = std::collections::BTreeMap::new();
    for _ in 0..30_000 {
        let mut store = gate.lane.store.clone();
        let mut table = table(&pairs);
        let path = random.pick(&[&b"/a"[..], b"/a/b", b"/file", b"", b"/x", b"/a/../a"]);
        let mut call = match random.below(8) {
            0 => head(random.pick(&[NULL, DUMP, UMNTALL, EXPORT])),
            1 => {
                let length = random.below(120);
                random.bytes(length)
            }
            _ => with_path(random.pick(&[MNT, UMNT]), path),
        };
        if random.once_in(2) && !call.is_empty() {
            let at = random.below(call.len());
            call[at] = random.next() as u8;
        }
        if random.once_in(6) {
            call.truncate(random.below(call.len() + 1));
        }
        if random.once_in(6) {
            let at = random.below(records);
            store[at] ^= 1 << random.below(8);
        }
        if random.once_in(4) {
            let at = random.pick(&[3, 7, 8, 9, 10, 1031, 1032, 2064, 2071, 2072, 2090, 33_023]);
            table[at] ^= 1 << random.below(8);
        }
        if random.once_in(20) {
            table = random.bytes(TABLE);
        }
        let space = random.pick(&[SPACE, SPACE, SPACE, SPACE + 3, SPACE - 1]);
        let host = random.pick(&[0, 1, 2, u32::MAX]);
        let mount = peer::generator::driver::Mount {
            bytes: &call,
            host,
            space,
        };
        let wanted = defined(&mount, &store, &table);
        let mut reply = vec![SPARE; space];
        let answer = peer::mount(&call, &store, &mut table, &mut reply, host);
        assert_eq!(answer.number, wanted.number);
        assert_eq!(answer.offset, wanted.offset);
        assert_eq!(reply[..answer.length as usize], wanted.reply);
        assert!(reply[answer.length as usize..]
            .iter()
            .all(|&byte| byte == SPARE));
        assert!(table == wanted.table);
        *numbers.entry(answer.number).or_insert(0) += 1;
    }
    assert_eq!(
        numbers.keys().copied().collect::<Vec<u32>>(),
        [0, 1, 2, 5, 7, 8, 9, 12]
    );
    for _ in 0..2000 {
        let length = random.pick(&[0, 1, 112, 400]);
        let store = random.bytes(length);
        let length = random.pick(&[0, 1, 1032, TABLE]);
        let mut table = random.bytes(length);
        let length = random.pick(&[0, 40, 8192, 8193]);
        let call = random.bytes(length);
        let mut reply = vec![SPARE; SPACE];
        let answer = peer::mount(&call, &store, &mut table, &mut reply, 1);
        assert_eq!(answer.number, if length > 8192 { 4 } else { 1 });
    }
}
