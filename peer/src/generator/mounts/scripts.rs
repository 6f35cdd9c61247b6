//! Runs written out by hand: answers and RPC outcomes, every path that MNT
//! takes or refuses, and what each procedure does to the table.

use super::super::driver::Call;
use super::super::encode::{Attributes, Header, Request};
use super::super::lane::*;
use super::super::padding::{leftovers, Padded};
use super::super::random::Random;
use super::super::rules::mount as rule;
use super::super::scripts::Runs;
use super::tables::{self, Row, Rows};
use super::*;
use crate::layout::MAX_NAME;
use crate::mount_table::{row_field, MAX_PATH, ROWS, ROW_BYTES, TABLE_BYTES};

/// Every scripted run, one after the other.
pub fn all(runs: &mut Runs<'_>) {
    answers(runs);
    edges(runs);
    outcomes(runs);
    headers(runs);
    left_over(runs);
    lengths(runs);
    paddings(runs);
    components(runs);
    files(runs);
    linked_files(runs);
    deep(runs);
    pairs(runs);
    full(runs);
    changes(runs);
    unmounting(runs);
    lists(runs);
    super::table_scripts::all(runs);
    super::place_scripts::all(runs);
}

/// Every set of refusals answers the one tested first.
fn answers(runs: &mut Runs<'_>) {
    let mut gate = Gateway::new(runs.open("every set of refusals", (2, 2, 0)));
    let root = gate.lane.object_at(0);
    gate.set_rows(&numbered_rows(HOST, 2));
    let sound = gate.lane.driver.table().to_vec();
    let mut damaged = sound.clone();
    damaged[TABLE_BYTES - 1] = 1;
    for faults in 0..16u32 {
        for broken in [0, 5, 7, 8, 9] {
            let due: Vec<u32> = (0..4)
                .filter(|at| faults >> at & 1 != 0)
                .map(|at| counts::ANSWERS[at])
                .chain([broken].into_iter().filter(|&number| number != 0))
                .collect();
            if !rule::possible(&due) {
                continue;
            }
            let has = |number: u32| due.contains(&number);
            let mut bytes = call(faults, mount_procedure::NULL, None);
            match broken {
                5 => bytes.truncate(7),
                7 => bytes[7] = 1,
                8 => bytes.truncate(39),
                9 => bytes[30] = 2,
                _ => {}
            }
            if has(4) {
                bytes.resize(8193, 0);
            }
            gate.space = if has(2) { 33_691 } else { 33_692 };
            gate.lane.patch_word(root, if has(1) { 1 } else { 2 });
            gate.lane
                .driver
                .set_table(if has(12) { &damaged } else { &sound });
            match due.split_first() {
                Some((&first, later)) => {
                    gate.refused(&bytes, first);
                    for &second in later {
                        gate.rule(&rule::refusal(first, second));
                    }
                }
                None => assert_eq!(gate.raw(&bytes).answer.length, 24),
            }
        }
    }
    gate.rule(rule::REFUSED);
}

/// Reply spaces and calls at their limits.
fn edges(runs: &mut Runs<'_>) {
    let mut gate = Gateway::new(runs.open("edges of the entry tests", (2, 2, 0)));
    let null = call(3, mount_procedure::NULL, None);
    for (space, number) in [
        (0, 2),
        (24, 2),
        (4224, 2),
        (33_691, 2),
        (33_692, 0),
        (33_693, 0),
        (33_800, 0),
    ] {
        gate.space = space;
        if number == 0 {
            assert_eq!(gate.raw(&null).answer.length, 24);
        } else {
            gate.refused(&null, number);
        }
    }
    gate.rules(&[rule::SPACE, rule::SPARE]);
    gate.space = 33_692;
    let mut longest = null.clone();
    longest.resize(8192, 0);
    // Too many bytes for NULL, but they are read.
    assert_eq!(gate.raw(&longest).reply[20..], 4u32.to_be_bytes());
    longest.push(0);
    gate.refused(&longest, 4);
    gate.rule(rule::LONGEST_CALL);
    let mount = call(4, mount_procedure::MNT, Some(b"/"));
    for length in 0..40 {
        gate.refused(&mount[..length], if length < 8 { 5 } else { 8 });
    }
    gate.rule(rule::CUT_HEADER);
    for kind in [1u32, 2, 0x0100_0000, u32::MAX] {
        let mut other = mount.clone();
        other[4..8].copy_from_slice(&kind.to_be_bytes());
        gate.refused(&other, 7);
    }
    gate.rule(rule::NO_CALL);
    assert_eq!(gate.used(), 0);
}

/// Sends a call with a changed header; answers the reply after the xid.
fn reply_to(gate: &mut Gateway<'_>, header: &Header, arguments: &[u8]) -> Vec<u32> {
    let outcome = gate.raw(&header.call(arguments));
    assert_eq!(outcome.answer.number, 0);
    let words = outcome.reply[4..].as_chunks::<4>().0;
    words.iter().map(|word| u32::from_be_bytes(*word)).collect()
}

/// The RPC outcomes and their order.
fn outcomes(runs: &mut Runs<'_>) {
    let mut gate = Gateway::new(runs.open("RPC outcomes", (2, 2, 0)));
    let sound = header(9, mount_procedure::NULL);
    for rpc_version in [0, 1, 3, u32::MAX] {
        let denied = Header {
            rpc_version,
            ..sound.clone()
        };
        assert_eq!(reply_to(&mut gate, &denied, &[]), [1, 1, 0, 2, 2]);
        let both = Header {
            program: 100_003,
            version: 9,
            procedure: 9,
            ..denied
        };
        assert_eq!(reply_to(&mut gate, &both, &[1]), [1, 1, 0, 2, 2]);
        let outcome = gate.raw(&both.encode()[..12]);
        assert_eq!(outcome.answer.length, 24);
    }
    gate.rules(&[rule::DENIED, rule::DENIED_FIRST]);
    let unavailable = [1, 0, 0, 0, 1];
    for program in [100_003, 0, 100_000, 100_004, 100_006, u32::MAX] {
        let other = Header {
            program,
            ..sound.clone()
        };
        assert_eq!(reply_to(&mut gate, &other, &[]), unavailable);
        let both = Header {
            version: 2,
            procedure: 6,
            ..other
        };
        assert_eq!(reply_to(&mut gate, &both, &[1]), unavailable);
    }
    gate.rules(&[rule::NFS_PROGRAM, rule::OTHER_PROGRAM, rule::PROGRAM_FIRST]);
    for version in rule::VERSIONS {
        for procedure in [0, 1, 6] {
            let other = Header {
                version,
                procedure,
                ..sound.clone()
            };
            assert_eq!(reply_to(&mut gate, &other, &[1]), [1, 0, 0, 0, 2, 3, 3]);
        }
        gate.rule(&rule::version(version));
    }
    gate.rule(rule::VERSION_FIRST);
    for procedure in rule::BEYOND {
        let other = Header {
            procedure,
            ..sound.clone()
        };
        assert_eq!(reply_to(&mut gate, &other, &[]), [1, 0, 0, 0, 3]);
        assert_eq!(reply_to(&mut gate, &other, &[1]), [1, 0, 0, 0, 3]);
        gate.rule(&rule::beyond(procedure));
    }
    gate.rule(rule::PROCEDURE_FIRST);
    // The MOUNT program at the NFS entry, every procedure and with every
    // argument, and the NFS program at the MOUNT entry.
    for procedure in 0..=mount_procedure::LAST {
        let outcome = gate.lane.raw(&call(procedure, procedure, Some(b"/")));
        assert_eq!(outcome.reply[4..], words(&unavailable));
        let nfs = Header::new(7, procedure);
        assert_eq!(reply_to(&mut gate, &nfs, &[]), unavailable);
    }
    gate.rule(rule::MOUNT_AT_NFS);
    assert_eq!(gate.used(), 0);
}

fn words(words: &[u32]) -> Vec<u8> {
    words.iter().flat_map(|word| word.to_be_bytes()).collect()
}

/// Credentials and verifiers.
fn headers(runs: &mut Runs<'_>) {
    let mut gate = Gateway::new(runs.open("credentials and verifiers", (2, 2, 0)));
    for flavor in [0, 1, 2, 3, 6, u32::MAX] {
        for length in [0, 1, 4, 20] {
            let any = Header {
                credential: (flavor, vec![0xC1; length]),
                verifier: (flavor, vec![0xC2; length]),
                ..header(5, mount_procedure::EXPORT)
            };
            assert_eq!(
                reply_to(&mut gate, &any, &[])[5..],
                [1, 1, 0x2F00_0000, 0, 0]
            );
        }
    }
    gate.rule(rule::ANY_FLAVOR);
    for (credential, verifier, number) in [
        (400, 0, 0),
        (0, 400, 0),
        (400, 400, 0),
        (401, 0, 9),
        (0, 401, 9),
        (404, 404, 9),
    ] {
        let long = Header {
            credential: (1, vec![1; credential]),
            verifier: (1, vec![2; verifier]),
            ..header(6, mount_procedure::NULL)
        };
        assert_eq!(gate.raw(&long.encode()).answer.number, number);
    }
    gate.rule(rule::LONGEST_AUTH);
}

/// GARBAGE_ARGS: the table stays.
fn garbage(gate: &mut Gateway<'_>, procedure: u32, arguments: &[u8]) {
    let table = gate.lane.driver.table().to_vec();
    let xid = gate.lane.next_xid();
    let got = reply_to(gate, &header(xid, procedure), arguments);
    assert_eq!(got, [1, 0, 0, 0, 4]);
    assert!(gate.lane.driver.table() == table);
}

/// Bytes behind the arguments.
fn left_over(runs: &mut Runs<'_>) {
    let mut gate = Gateway::new(runs.open("bytes left over", (2, 2, 0)));
    gate.set_rows(&[Row::new(HOST, b"/"), Row::new(HOST, b"/a")]);
    for procedure in 0..=mount_procedure::LAST {
        let path: Option<&[u8]> = rule::WITH_PATH.contains(&procedure).then_some(b"/a");
        let sound = super::super::encode::encode(&fields(path));
        for count in rule::LEFT_OVER {
            for value in [0, 0xFF] {
                let mut arguments = sound.clone();
                arguments.resize(sound.len() + count, value);
                garbage(&mut gate, procedure, &arguments);
            }
            gate.rule(&rule::left_over(procedure, count));
        }
    }
    assert_eq!(gate.used(), 2);
    // Arguments come before any status: these paths would be INVAL, and the
    // first pair is there.
    for path in [&b""[..], b"a", b"/missing", b"/"] {
        let mut arguments = Vec::new();
        super::super::encode::opaque(&mut arguments, path);
        arguments.push(0);
        garbage(&mut gate, mount_procedure::MNT, &arguments);
    }
    gate.rule(rule::ARGUMENTS_FIRST);
    for procedure in rule::WITH_PATH {
        for length in 0..4 {
            garbage(&mut gate, procedure, &[0; 4][..length]);
        }
        for (length, there) in [(1u32, 0usize), (2, 1), (4, 3), (5, 4), (1024, 1020), (9, 8)] {
            let mut arguments = length.to_be_bytes().to_vec();
            arguments.resize(4 + there, b'/');
            garbage(&mut gate, procedure, &arguments);
        }
    }
    gate.rules(&[rule::LENGTH_MISSING, rule::LENGTH_CUT]);
    gate.void(mount_procedure::NULL, None);
    gate.rule(rule::NULL);
}

/// Paths at the limit of their length.
fn lengths(runs: &mut Runs<'_>) {
    let mut gate = Gateway::new(runs.open("lengths of paths", (3, 3, 0)));
    let root = gate.lane.root();
    let directory = gate.lane.mkdir(&root, b"a");
    for length in [1023, 1024] {
        let path = long_path(length, b"a");
        gate.mnt_to(&path, &directory);
        assert!(gate.rows().contains(&Some(Row::new(HOST, &path))));
        gate.rule(&rule::length(mount_procedure::MNT, length as u32));
    }
    assert_eq!(gate.used(), 2);
    for length in [1023, 1024] {
        gate.umnt(&long_path(length, b"a"));
        gate.rule(&rule::length(mount_procedure::UMNT, length as u32));
    }
    assert_eq!(gate.used(), 0);
    gate.mnt_to(b"/", &root);
    for procedure in rule::WITH_PATH {
        for (length, there) in [
            (1025, 1028),
            (1025, 4),
            (1028, 1028),
            (4096, 4096),
            (u32::MAX, 4),
            (u32::MAX, 1024),
            (u32::MAX - 3, 8),
            (0x8000_0001, 4),
        ] {
            let mut arguments = length.to_be_bytes().to_vec();
            arguments.resize(4 + there, b'/');
            garbage(&mut gate, procedure, &arguments);
        }
        gate.rule(&rule::length(procedure, 1025));
        gate.rule(&rule::length(procedure, u32::MAX));
    }
    // The longest path to the root, and one that only has dots.
    gate.mnt_to(&vec![b'/'; MAX_PATH], &root);
    gate.mnt_to(&b"/.".repeat(512), &root);
    gate.mnt(&vec![b'x'; MAX_PATH], Status::INVAL);
    gate.mnt(&[&b"/"[..], &[b'x'; 1023]].concat(), Status::NAMETOOLONG);
    assert_eq!(gate.used(), 3);
}

/// Pad bytes of any value, and ones that are missing.
fn paddings(runs: &mut Runs<'_>) {
    let mut random = Random::new(5);
    let mut gate = Gateway::new(runs.open("pad bytes", (9, 9, 0)));
    let root = gate.lane.root();
    let names: [&[u8]; 3] = [b"abcdef", b"abcde", b"abcd"];
    let directories = names.map(|name| gate.lane.mkdir(&root, name));
    for count in 1..=3 {
        // "/abcd", "/abcde" and "/abcdef" have 3, 2 and 1 pad bytes.
        let path = [b"/", names[count - 1]].concat();
        for procedure in rule::WITH_PATH {
            for (place, field) in rule::FIELDS.iter().enumerate() {
                for pads in leftovers(count, &mut random) {
                    let xid = gate.lane.next_xid();
                    let mut head = header(xid, procedure);
                    if place == 0 {
                        head.credential = (1, vec![0xC1; 8 - count]);
                    } else if place == 1 {
                        head.verifier = (1, vec![0xC2; 8 - count]);
                    }
                    let mut padded = Padded::new(&head, &fields(Some(&path)));
                    padded.fill(place, &pads);
                    let used = gate.used();
                    for missing in 1..=count {
                        let number = gate.raw(padded.cut(place, missing)).answer.number;
                        assert_eq!(number, if place == 2 { 0 } else { 8 });
                        assert_eq!(gate.used(), used);
                    }
                    gate.rule(&rule::padding(procedure, field, count, true));
                    let outcome = gate.raw(&padded.bytes);
                    if procedure == mount_procedure::MNT {
                        assert_eq!(outcome.reply[32..44], directories[count - 1]);
                        assert_eq!(gate.rows()[0], Some(Row::new(HOST, &path)));
                    } else {
                        assert_eq!(outcome.reply.len(), 24);
                        assert_eq!(gate.used(), 0);
                    }
                    gate.rule(&rule::padding(procedure, field, count, false));
                }
            }
        }
    }
}

/// A tree for paths: /a/b/c, a name of 32 bytes, some odd names, and files.
struct Tree {
    root: Vec<u8>,
    a: Vec<u8>,
    b: Vec<u8>,
    c: Vec<u8>,
    long: Vec<u8>,
}

const LONG: &[u8; MAX_NAME] = b"exactly-thirty-two-bytes-of-name";

fn tree(lane: &mut Lane<'_>) -> Tree {
    let root = lane.root();
    let a = lane.mkdir(&root, b"a");
    lane.create(&root, b"file", 0);
    let b = lane.mkdir(&a, b"b");
    let c = lane.mkdir(&b, b"c");
    lane.create(&b, b"file", 0);
    let long = lane.mkdir(&root, LONG);
    Tree {
        root,
        a,
        b,
        c,
        long,
    }
}

/// Paths that lead somewhere and paths that fail, without files.
fn components(runs: &mut Runs<'_>) {
    let mut gate = Gateway::new(runs.open("components", (12, 12, 0)));
    let tree = tree(&mut gate.lane);
    for path in [&b"/"[..], b"//", b"///", b"////"] {
        gate.mnt_to(path, &tree.root);
    }
    gate.rules(&[rule::ROOT, rule::REPLY]);
    gate.mnt_to(b"/a", &tree.a);
    gate.mnt_to(b"/a/b", &tree.b);
    gate.mnt_to(b"/a/b/c", &tree.c);
    gate.rule(rule::FOUND);
    gate.mnt_to(b"//a///b////c", &tree.c);
    gate.rule(rule::EMPTY_COMPONENTS);
    gate.mnt_to(b"/a/", &tree.a);
    gate.mnt_to(b"/a/b//", &tree.b);
    gate.rule(rule::TRAILING);
    gate.mnt_to(b"/.", &tree.root);
    gate.mnt_to(b"/./a/./b/.", &tree.b);
    gate.rule(rule::DOT);
    gate.mnt_to(b"/a/..", &tree.root);
    gate.mnt_to(b"/a/b/../b/c/../../b", &tree.b);
    gate.rule(rule::DOT_DOT);
    gate.mnt_to(b"/..", &tree.root);
    gate.mnt_to(b"/../../a/../../../a/b", &tree.b);
    gate.rule(rule::ABOVE_ROOT);
    gate.mnt(b"/x/..", Status::NOENT);
    gate.mnt(b"/x/../a", Status::NOENT);
    gate.rule(rule::DOTS_OF_NOTHING);
    gate.mnt(b"/...", Status::NOENT);
    let dots = gate.lane.mkdir(&tree.root, b"...");
    gate.mnt_to(b"/...", &dots);
    gate.mnt_to(b"/.../..", &tree.root);
    gate.rule(rule::LIKE_DOTS);
    let any = gate.lane.mkdir(&tree.c, b"\x01\xFF \\");
    gate.mnt_to(b"/a/b/c/\x01\xFF \\", &any);
    gate.rule(rule::ANY_BYTES);
    let at_root = |name: &[u8]| [b"/", name].concat();
    gate.mnt_to(&at_root(LONG), &tree.long);
    gate.mnt(&at_root(&LONG[..31]), Status::NOENT);
    gate.rule(rule::NAME_32);
    let long = [&LONG[..], b"x"].concat();
    gate.mnt(&at_root(&long), Status::NAMETOOLONG);
    gate.mnt(&[b"/a/b/", &[b'y'; 33][..]].concat(), Status::NAMETOOLONG);
    gate.rule(rule::NAME_33);
    for path in [&b"/\0"[..], b"/a\0", b"/\0a", b"/a/b\0/c", b"/a/.\0"] {
        gate.mnt(path, Status::ACCES);
    }
    gate.rule(rule::ZERO_BYTE);
    gate.mnt(&at_root(&[0; 33]), Status::NAMETOOLONG);
    gate.mnt(&at_root(&[&long[..], b"\0"].concat()), Status::NAMETOOLONG);
    gate.rule(rule::LONG_WITH_ZERO);
    gate.mnt(b"/x", Status::NOENT);
    gate.mnt(b"/a/x", Status::NOENT);
    gate.rules(&[rule::MISSING, rule::FAILURE]);
    gate.mnt(b"/fil", Status::NOENT);
    gate.mnt(b"/aa", Status::NOENT);
    gate.rule(rule::PREFIX);
    gate.mnt(b"/b", Status::NOENT);
    gate.mnt(b"/a/a", Status::NOENT);
    gate.mnt(b"/a/b/c/c", Status::NOENT);
    gate.rule(rule::OTHER_DIRECTORY);
    gate.mnt(b"", Status::INVAL);
    gate.rule(rule::EMPTY_PATH);
    let slash_less: [&[u8]; 7] = [b"a", b"a/b", b".", b"..", b" /a", b"\0/a", b"x"];
    for path in slash_less {
        gate.mnt(path, Status::INVAL);
    }
    gate.rule(rule::NO_SLASH);
    for later in [&long[..], b"\0", b"x", b".", b"a"] {
        gate.mnt(&[b"/x/", later].concat(), Status::NOENT);
        gate.mnt(
            &[b"/", &long[..], b"/", later].concat(),
            Status::NAMETOOLONG,
        );
        gate.mnt(&[b"/\0/", later].concat(), Status::ACCES);
        gate.mnt(&[b"x/", later].concat(), Status::INVAL);
    }
    gate.rules(&[
        rule::MISSING_FIRST,
        rule::LONG_FIRST,
        rule::ZERO_FIRST,
        rule::INVAL_FIRST,
    ]);
}

/// Files on the path.
fn files(runs: &mut Runs<'_>) {
    let mut gate = Gateway::new(runs.open("files on the path", (12, 12, 0)));
    tree(&mut gate.lane);
    for (ends, label) in [
        (&[&b""[..]][..], rule::FILE),
        (&[b"/", b"//"], rule::FILE_SLASH),
        (&[b"/.", b"/./", b"//."], rule::FILE_DOT),
        (&[b"/..", b"/../a"], rule::FILE_DOT_DOT),
        (&[b"/x", b"/a", b"/file"], rule::FILE_NAME),
        (
            &[&[b'/'; 40], &[b"/", &[b'x'; 33][..]].concat(), b"/\0"],
            rule::FILE_LONG,
        ),
        (&[b"/x/\0", b"/./x", b"/a/b"], rule::FILE_FIRST),
    ] {
        for end in ends {
            gate.mnt(&[b"/file", *end].concat(), Status::NOTDIR);
            gate.mnt(&[b"/a/b/file", *end].concat(), Status::NOTDIR);
        }
        gate.rule(label);
    }
    assert_eq!(gate.used(), 0);
}

/// Files with several names on the path, at its end and beside it.
fn linked_files(runs: &mut Runs<'_>) {
    let mut gate = Gateway::new(runs.open("linked files on the path", (6, 24, 0)));
    let root = gate.lane.root();
    let outer = gate.lane.mkdir(&root, b"outer");
    let file = gate.lane.create(&root, b"file", 0);
    let inner = gate.lane.mkdir(&outer, b"inner");
    // Names before and after those of the directories, up to 16.
    for (directory, name) in [(&root, &b"link"[..]), (&outer, b"file"), (&inner, b"file")] {
        gate.lane.done(&link(&file, directory, name));
    }
    let empty = gate.lane.mkdir(&inner, b"empty");
    for number in 0..12 {
        let directory = [&root, &outer, &inner][number % 3];
        let name = format!("link {number}");
        gate.lane.done(&link(&file, directory, name.as_bytes()));
    }
    let more = link(&file, &root, b"more");
    assert_eq!(gate.lane.status(&more), Some(Status::MLINK.0));
    let names = [
        &b"/file"[..],
        b"/link",
        b"/outer/file",
        b"/outer/inner/file",
        b"/link 0",
        b"/outer/link 1",
        b"/outer/inner/link 11",
    ];
    for name in names {
        gate.mnt(name, Status::NOTDIR);
        gate.rule(rule::LINKED_END);
        for end in [&b"/"[..], b"/.", b"/..", b"/x", b"/file"] {
            gate.mnt(&[name, end].concat(), Status::NOTDIR);
        }
        gate.rule(rule::LINKED_INSIDE);
    }
    assert_eq!(gate.used(), 0);
    for (path, directory) in [
        (&b"/"[..], &root),
        (b"/outer", &outer),
        (b"/outer/inner", &inner),
        (b"/outer/inner/empty", &empty),
        (b"/outer/inner/empty/..", &inner),
        (b"/outer/inner/..", &outer),
        (b"/outer/inner/../..", &root),
        (b"/outer/inner/../../outer/./inner", &inner),
    ] {
        gate.mnt_to(path, directory);
    }
    gate.rule(rule::LINKED_THROUGH);
    for (directory, name, path) in [
        (&root, &b"file"[..], names[0]),
        (&inner, b"file", names[3]),
        (&root, b"link", names[1]),
    ] {
        gate.lane.done(&remove(directory, name));
        gate.mnt(path, Status::NOENT);
        gate.mnt(&[path, b"/x"].concat(), Status::NOENT);
        gate.mnt(names[2], Status::NOTDIR);
        gate.mnt(names[6], Status::NOTDIR);
    }
    gate.rule(rule::LINKED_REMOVED);
    gate.lane.done(&rename(&outer, b"inner", &root, b"link"));
    gate.mnt_to(b"/link", &inner);
    gate.mnt_to(b"/link/..", &root);
    gate.mnt(b"/link/link 2", Status::NOTDIR);
    gate.mnt(b"/outer/inner", Status::NOENT);
    gate.rule(rule::LINKED_REPLACED);
    gate.plain(mount_procedure::DUMP);
}

/// All objects in one path.
fn deep(runs: &mut Runs<'_>) {
    let mut gate = Gateway::new(runs.open("63 components", (64, 128, 0)));
    let root = gate.lane.root();
    let mut handles = vec![root];
    for depth in 0..63 {
        let above = handles[depth].clone();
        handles.push(gate.lane.mkdir(&above, b"deep"));
    }
    for depth in [1, 31, 62, 63] {
        gate.mnt_to(&b"/deep".repeat(depth), &handles[depth]);
    }
    gate.mnt(&b"/deep".repeat(64), Status::NOENT);
    gate.mnt(
        &[b"/deep".repeat(63), b"/x".to_vec()].concat(),
        Status::NOENT,
    );
    for up in [1, 40, 63, 70] {
        let path = [b"/deep".repeat(63), b"/..".repeat(up)].concat();
        gate.mnt_to(&path, &handles[63usize.saturating_sub(up)]);
    }
    let names = [&b"/"[..], LONG].concat();
    gate.mnt(&names.repeat(31), Status::NOENT);
    gate.rule(rule::DEEPEST);
    gate.plain(mount_procedure::DUMP);
}

/// Which rows MNT fills.
fn pairs(runs: &mut Runs<'_>) {
    let mut gate = Gateway::new(runs.open("pairs", (12, 12, 0)));
    let tree = tree(&mut gate.lane);
    let store = gate.lane.driver.store().to_vec();
    gate.mnt_to(b"/a", &tree.a);
    gate.mnt_to(b"/a/b", &tree.b);
    let mut wanted = vec![0; TABLE_BYTES];
    wanted[..12].copy_from_slice(b"\xC0\0\x02\x01\0\0\0\x02/a\0\0");
    wanted[ROW_BYTES..ROW_BYTES + 12].copy_from_slice(b"\xC0\0\x02\x01\0\0\0\x04/a/b");
    assert!(gate.lane.driver.table() == wanted);
    gate.rule(rule::ADDED);
    gate.mnt_without_row(b"/a", Status::OK);
    gate.mnt_without_row(b"/a/b", Status::OK);
    gate.rule(rule::THERE);
    let spellings: [&[u8]; 6] = [b"/a/", b"//a", b"/./a", b"/a/.", b"/a/b/..", b"/../a"];
    for path in spellings {
        gate.mnt_to(path, &tree.a);
        gate.mnt_without_row(path, Status::OK);
    }
    assert_eq!(gate.used(), 8);
    assert_eq!(gate.rows()[7], Some(Row::new(HOST, b"/../a")));
    gate.rules(&[rule::OTHER_PATH, rule::AS_SENT]);
    for host in [OTHER_HOST, 0, HOST + 1, 0x0102_00C0] {
        gate.host = host;
        gate.mnt_to(b"/a", &tree.a);
        gate.mnt_without_row(b"/a", Status::OK);
    }
    assert_eq!(gate.used(), 12);
    assert_eq!(gate.rows()[9], Some(Row::new(0, b"/a")));
    gate.rules(&[rule::OTHER_HOST, rule::ANY_HOST]);
    // Rows 2 and 5 become free; then they are taken, the lower one first.
    gate.host = HOST;
    gate.umnt(b"/a/");
    gate.umnt(b"/a/.");
    gate.mnt_without_row(b"/a", Status::OK);
    gate.mnt_to(b"/", &tree.root);
    assert_eq!(gate.rows()[2], Some(Row::new(HOST, b"/")));
    assert_eq!(gate.rows()[5], None);
    gate.host = 0;
    gate.mnt_to(b"/a/b/c", &tree.c);
    assert_eq!(gate.rows()[5], Some(Row::new(0, b"/a/b/c")));
    assert_eq!(gate.rows()[12], None);
    gate.rule(rule::MIDDLE);
    assert!(gate.lane.driver.store() == store);
    gate.rule(rule::STORE_STAYS);
}

/// MNT with a full table, and with one free row.
fn full(runs: &mut Runs<'_>) {
    let mut gate = Gateway::new(runs.open("full tables", (12, 12, 0)));
    let tree = tree(&mut gate.lane);
    for place in [0, 1, 16, 31] {
        let mut rows = numbered_rows(HOST, ROWS);
        rows[place] = Row::new(HOST, b"/a/b");
        gate.set_rows(&rows);
        gate.mnt_to(b"/a/b", &tree.b);
        gate.mnt_without_row(b"/a/b", Status::OK);
        gate.rule(rule::THERE_FULL);
        for path in [&b"/a"[..], b"/", b"/a/b/", b"/a/b/c"] {
            gate.mnt(path, Status::SERVERFAULT);
        }
        gate.host = OTHER_HOST;
        gate.mnt(b"/a/b", Status::SERVERFAULT);
        gate.host = HOST;
        gate.rule(rule::FULL);
        for (path, status, label) in [
            (&b""[..], Status::INVAL, rule::FULL_INVAL),
            (b"a", Status::INVAL, rule::FULL_INVAL),
            (b"/x", Status::NOENT, rule::FULL_NOENT),
            (b"/a/b/x", Status::NOENT, rule::FULL_NOENT),
            (b"/a\0", Status::ACCES, rule::FULL_ACCES),
            (&[b'/'; 33], Status::SERVERFAULT, rule::FULL),
            (
                &[b"/", &[b'z'; 33][..]].concat(),
                Status::NAMETOOLONG,
                rule::FULL_LONG,
            ),
            (b"/file", Status::NOTDIR, rule::FULL_NOTDIR),
            (b"/a/b/file/x", Status::NOTDIR, rule::FULL_NOTDIR),
        ] {
            gate.mnt(path, status);
            gate.rule(label);
        }
        // The row becomes free and is the only one.
        gate.umnt(b"/a/b");
        gate.mnt_to(b"/a", &tree.a);
        assert_eq!(gate.rows()[place], Some(Row::new(HOST, b"/a")));
        gate.mnt(b"/a/b", Status::SERVERFAULT);
        gate.rule(rule::FULL_LAST);
    }
}

/// NFS calls between the MOUNT calls.
fn changes(runs: &mut Runs<'_>) {
    let mut gate = Gateway::new(runs.open("the store changes", (12, 12, 4)));
    let root = gate.lane.root();
    gate.mnt(b"/one/two", Status::NOENT);
    let one = gate.lane.mkdir(&root, b"one");
    gate.mnt(b"/one/two", Status::NOENT);
    gate.lane.create(&one, b"two", 600);
    gate.mnt(b"/one/two", Status::NOTDIR);
    gate.lane.done(&remove(&one, b"two"));
    gate.mnt(b"/one/two", Status::NOENT);
    gate.rule(rule::AFTER_REMOVE);
    let two = gate.lane.mkdir(&one, b"two");
    gate.mnt_to(b"/one/two", &two);
    gate.rule(rule::AFTER_CREATE);
    gate.lane.done(&rmdir(&one, b"two"));
    gate.mnt_without_row(b"/one/two", Status::NOENT);
    gate.lane.create(&one, b"two", 0);
    gate.mnt_without_row(b"/one/two", Status::NOTDIR);
    gate.rule(rule::THERE_GONE);
    gate.lane.done(&remove(&one, b"two"));
    let again = gate.lane.mkdir(&one, b"two");
    assert_ne!(again, two);
    gate.mnt_to(b"/one/two", &again);
    assert_eq!(gate.used(), 1);
    gate.rule(rule::AFTER_RMDIR);
    gate.lane.done(&rename(&root, b"one", &root, b"first"));
    gate.mnt_without_row(b"/one/two", Status::NOENT);
    gate.mnt_to(b"/first/two", &again);
    gate.lane.done(&rename(&one, b"two", &root, b"two"));
    gate.mnt_without_row(b"/first/two", Status::NOENT);
    gate.mnt_to(b"/two", &again);
    gate.mnt_to(b"/two/..", &root);
    gate.rule(rule::AFTER_RENAME);
    let three = gate.lane.mkdir(&one, b"three");
    gate.mnt_to(b"/first/three", &three);
    gate.lane.done(&rename(&root, b"two", &one, b"three"));
    gate.mnt_to(b"/first/three", &again);
    gate.mnt_without_row(b"/two", Status::NOENT);
    gate.mnt_to(b"/first/three/..", &one);
    gate.rule(rule::AFTER_RENAME_OVER);
    // The paths stay in the table as they were sent, and are struck by them.
    let used = gate.used();
    gate.plain(mount_procedure::DUMP);
    for path in [&b"/one/two"[..], b"/first/two", b"/two", b"/two/.."] {
        gate.umnt(path);
    }
    assert_eq!(gate.used(), used - 4);
    gate.rule(rule::GONE);
    // The store goes on as it is.
    gate.lane.done(&mkdir(&root, b"two", Attributes::default()));
    let null = Request::Null.call(1);
    let call = Call {
        bytes: &null,
        seconds: 1,
        nanoseconds: 2,
        verifier: 3,
        space: 4224,
    };
    assert_eq!(gate.lane.driver.call(call).answer.length, 24);
}

/// UMNT and UMNTALL.
fn unmounting(runs: &mut Runs<'_>) {
    let mut gate = Gateway::new(runs.open("UMNT and UMNTALL", (4, 4, 0)));
    let root = gate.lane.root();
    gate.lane.mkdir(&root, b"a");
    let paths: [&[u8]; 5] = [b"/a", b"/a/", b"/gone", b"/a\0", b"/\xFF"];
    let mut rows = Vec::new();
    for path in paths {
        for host in [HOST, 0, OTHER_HOST] {
            rows.push(Row::new(host, path));
        }
    }
    let start = tables::write(&rows.iter().cloned().map(Some).collect::<Rows>());
    for (number, row) in rows.iter().enumerate() {
        gate.lane.driver.set_table(&start);
        gate.host = row.host;
        gate.umnt(&row.path);
        let mut wanted = start.clone();
        wanted[tables::row_at(number)..][..ROW_BYTES].fill(0);
        assert!(gate.lane.driver.table() == wanted);
        gate.umnt(&row.path);
        assert!(gate.lane.driver.table() == wanted);
    }
    gate.rules(&[
        rule::STRUCK,
        rule::OTHERS_PAIR,
        rule::OTHER_SPELLING,
        rule::UMNT_REPLY,
    ]);
    gate.lane.driver.set_table(&start);
    gate.host = HOST;
    let others: [&[u8]; 9] = [
        b"", b"a", b"/", b"//a", b"/a//", b"/gone/", b"/never", b"gone", b"/a\0\0",
    ];
    for path in others {
        gate.umnt(path);
        assert!(gate.lane.driver.table() == start);
    }
    gate.rules(&[rule::NOT_THERE, rule::NEVER]);
    gate.host = HOST + 1;
    gate.umnt(b"/a");
    gate.void(mount_procedure::UMNTALL, None);
    assert!(gate.lane.driver.table() == start);
    gate.rule(rule::ALL_NONE);
    gate.host = 0;
    gate.void(mount_procedure::UMNTALL, None);
    let kept = gate.rows();
    for (number, row) in rows.iter().enumerate() {
        let stays = (row.host != 0).then(|| row.clone());
        assert_eq!(kept[number], stays);
    }
    gate.rules(&[rule::ALL_SOME, rule::UMNTALL_REPLY]);
    gate.void(mount_procedure::UMNTALL, None);
    gate.host = HOST;
    gate.void(mount_procedure::UMNTALL, None);
    assert_eq!(gate.used(), 5);
    gate.host = OTHER_HOST;
    gate.void(mount_procedure::UMNTALL, None);
    assert!(gate.lane.driver.table() == tables::write(&[]));
    // All rows of a full table.
    gate.set_rows(&alike_rows(OTHER_HOST, MAX_PATH - 1));
    gate.void(mount_procedure::UMNTALL, None);
    assert!(gate.lane.driver.table() == tables::write(&[]));
    gate.rule(rule::ALL_ROWS);
    gate.void(mount_procedure::UMNTALL, None);
    gate.umnt(b"/a");
    // The first, a middle and the last row of a full table.
    let alike = alike_rows(OTHER_HOST, MAX_PATH - 1);
    gate.set_rows(&alike);
    for number in [0, 17, 31] {
        gate.umnt(&alike[number].path);
        assert_eq!(gate.rows()[number], None);
    }
    assert_eq!(gate.used(), ROWS - 3);
}

/// DUMP and EXPORT.
fn lists(runs: &mut Runs<'_>) {
    let mut gate = Gateway::new(runs.open("lists", (4, 4, 0)));
    assert_eq!(gate.plain(mount_procedure::DUMP).reply[20..], [0; 8]);
    gate.rule(rule::DUMP_EMPTY);
    for (host, text) in rule::HOSTS.iter().zip([
        &b"0.0.0.0\0"[..],
        b"255.255.255.255\0",
        b"192.0.2.1\0\0\0",
        b"10.0.0.1",
        b"1.2.3.4\0",
    ]) {
        gate.set_rows(&[Row::new(*host, b"/")]);
        let reply = gate.plain(mount_procedure::DUMP).reply;
        let length = text.iter().filter(|&&byte| byte != 0).count() as u8;
        let mut wanted = vec![0, 0, 0, 1, 0, 0, 0, length];
        wanted.extend(text);
        wanted.extend(b"\0\0\0\x01/\0\0\0\0\0\0\0");
        assert_eq!(reply[24..], wanted);
        gate.rule(&rule::host(*host));
    }
    for length in 1..9 {
        gate.set_rows(&[Row::new(0x0102_0304, &b"/abcdefgh"[..length])]);
        let reply = gate.plain(mount_procedure::DUMP).reply;
        assert_eq!(
            reply.len(),
            24 + 4 + 12 + 4 + length.next_multiple_of(4) + 4
        );
        gate.rule(&rule::remainder(length % 4));
    }
    // Every place of every byte of an address, alone and together.
    let numbers = [0u32, 1, 9, 10, 11, 99, 100, 101, 199, 200, 249, 250, 255];
    let mut rows = Vec::new();
    for number in numbers {
        rows.push(Row::new(number << 24 | 0x0001_0A64, b"/x"));
        rows.push(Row::new(0x6401_0A00 | number, b"/y"));
    }
    gate.set_rows(&rows);
    assert_eq!(gate.plain(mount_procedure::DUMP).answer.number, 0);
    // Used rows with free ones between them, hosts and paths of all kinds.
    let mut rows = vec![None; ROWS];
    for (at, path) in [
        (1, &b"/gone/for/ever"[..]),
        (4, b"/a\0b"),
        (5, b"/\xFF\x80"),
        (17, b"/./../x//"),
        (31, b"/z\0\0"),
    ] {
        rows[at] = Some(Row::new(rule::HOSTS[at % 5], path));
    }
    let table = tables::write(&rows);
    gate.lane.driver.set_table(&table);
    gate.plain(mount_procedure::DUMP);
    assert!(gate.lane.driver.table() == table);
    gate.rules(&[rule::DUMP_MIXED, rule::DUMP_STRANGE, rule::DUMP_STAYS]);
    gate.set_rows(&numbered_rows(0x0A0B_0C0D, ROWS));
    gate.plain(mount_procedure::DUMP);
    gate.set_rows(&alike_rows(u32::MAX, MAX_PATH - 1));
    let longest = gate.plain(mount_procedure::DUMP);
    assert_eq!(longest.answer.length, 33_692);
    gate.rule(rule::DUMP_FULL);
    for rows in [0, 5] {
        gate.set_rows(&numbered_rows(HOST, rows));
        let outcome = gate.plain(mount_procedure::EXPORT);
        assert_eq!(outcome.reply[24..], words(&[1, 1, 0x2F00_0000, 0, 0]));
    }
    gate.rule(rule::EXPORT);
    // One row has a path as long as a row can hold, and is followed by another.
    gate.set_rows(&[Row::new(HOST, &[b'/'; MAX_PATH]), Row::new(HOST, b"/next")]);
    gate.plain(mount_procedure::DUMP);
    assert_eq!(row_field::PATH + MAX_PATH, ROW_BYTES);
}
