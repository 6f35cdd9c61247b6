//! EXCLUSIVE CREATE, rule by rule.

use super::*;
use crate::generator::encode::{handle, Attributes, Time};
use crate::generator::lane::*;
use crate::generator::rules;
use crate::layout::word;
use crate::numbers::Status;

const ZEROS: [u8; 8] = [0; 8];
const OTHER: [u8; 8] = *b"Verifier";

/// The words of a reply that succeeded, after the status.
fn body(reply: &[u8], at: usize, count: usize) -> Vec<u32> {
    (at..at + count)
        .map(|at| word(reply, 28 + 4 * at))
        .collect()
}

/// Sends the call again: OK with this handle, and nothing changes.
fn again(lane: &mut Lane<'_>, directory: &[u8], name: &[u8], verifier: [u8; 8], file: &[u8]) {
    let before = lane.driver.store().to_vec();
    assert_eq!(lane.exclusive(directory, name, verifier), file);
    assert!(lane.driver.store() == before);
    lane.rule(rules::TWICE);
    if verifier == ZEROS {
        lane.rule(rules::ZEROS);
    }
}

/// Sends the call; a failure changes nothing and has the directory's
/// attributes before and after.
fn refused(
    lane: &mut Lane<'_>,
    directory: &[u8],
    name: &[u8],
    verifier: [u8; 8],
    (rule, status): (&str, Status),
) {
    let before = lane.driver.store().to_vec();
    let outcome = lane.expect(
        &format!("CREATE EXCLUSIVE: {rule}"),
        &exclusive(directory, name, verifier),
        status,
    );
    assert!(lane.driver.store() == before);
    let live = lane.status(&getattr(directory)) == Some(0);
    assert_eq!(outcome.reply.len(), if live { 28 + 116 } else { 28 + 8 });
    lane.rule(rule);
}

pub(super) fn making(runs: &mut Runs<'_>) {
    let mut lane = runs.open("EXCLUSIVE: new files", (8, 8, 4));
    let root = lane.root();
    let directory = lane.mkdir(&root, b"d");
    for (name, verifier) in [
        (&b"a"[..], VERIFIER),
        (b"zeros", ZEROS),
        (b"ones", [0xFF; 8]),
        (b"same", VERIFIER),
    ] {
        let outcome = lane.done(&exclusive(&directory, name, verifier));
        let reply = &outcome.reply;
        assert_eq!(reply.len(), 252);
        let file = reply[36..48].to_vec();
        let clock = [lane.seconds, lane.nanoseconds];
        // Type, mode, links, owner, group, size and used bytes.
        assert_eq!(body(reply, 6, 9), [1, 0, 1, 0, 0, 0, 0, 0, 0]);
        assert_eq!(body(reply, 21, 6), [clock; 3].concat());
        lane.rule(rules::NEW_FILE);
        // The directory's attributes after the call end the reply.
        assert_eq!(body(reply, 52, 4), [clock; 2].concat());
        lane.rule(rules::NEW_DIRECTORY);
        again(&mut lane, &directory, name, verifier, &file);
        again(&mut lane, &directory, name, verifier, &file);
        lane.done(&getattr(&file));
        lane.done(&getattr(&directory));
    }
    let first = lane.exclusive(&directory, b"a", VERIFIER);
    let second = lane.exclusive(&directory, b"same", VERIFIER);
    assert_ne!(first, second);
    lane.rule(rules::TWO_NAMES);
    lane.done(&readdir(&directory, 0, 0, 4096));
    lane.done(&fsstat(&root));
}

pub(super) fn names_that_exist(runs: &mut Runs<'_>) {
    let mut lane = runs.open("EXCLUSIVE: names that exist", (8, 8, 4));
    let root = lane.root();
    let directory = lane.mkdir(&root, b"directory");
    lane.create(&root, b"guarded", 10);
    lane.done(&unchecked(&root, b"unchecked", Attributes::default()));
    let file = lane.exclusive(&root, b"kept", VERIFIER);
    let zeros = lane.exclusive(&root, b"zeros", ZEROS);
    for verifier in [VERIFIER, ZEROS, OTHER] {
        for (name, rule) in [
            (&b"directory"[..], rules::ON_DIRECTORY),
            (b"guarded", rules::ON_GUARDED),
            (b"unchecked", rules::ON_UNCHECKED),
            (b".", rules::DOTS),
            (b"..", rules::DOTS),
        ] {
            refused(&mut lane, &root, name, verifier, (rule, Status::EXIST));
        }
        let exist = (rules::DOTS, Status::EXIST);
        refused(&mut lane, &directory, b"..", verifier, exist);
    }
    // One bit away, in each byte; the halves exchanged.
    let mut others: Vec<[u8; 8]> = (0..8)
        .map(|at| {
            let mut other = VERIFIER;
            other[at] ^= 1 << at;
            other
        })
        .collect();
    others.extend([OTHER, ZEROS, [0xFF; 8], *b"fierveri"]);
    for other in others {
        let exist = (rules::OTHER_VERIFIER, Status::EXIST);
        refused(&mut lane, &root, b"kept", other, exist);
    }
    let mut near = ZEROS;
    near[7] = 1;
    for other in [near, VERIFIER] {
        let exist = (rules::OTHER_VERIFIER, Status::EXIST);
        refused(&mut lane, &root, b"zeros", other, exist);
    }
    again(&mut lane, &root, b"kept", VERIFIER, &file);
    again(&mut lane, &root, b"zeros", ZEROS, &zeros);
    // The same name elsewhere is another file.
    assert_ne!(lane.exclusive(&directory, b"kept", VERIFIER), file);
    lane.expect(
        "CREATE EXIST: GUARDED on a file with a verifier",
        &guarded(&root, b"kept", Attributes::default()),
        Status::EXIST,
    );
    lane.expect(
        "MKDIR EXIST: a file with a verifier",
        &mkdir(&root, b"kept", Attributes::default()),
        Status::EXIST,
    );
}

pub(super) fn order(runs: &mut Runs<'_>) {
    let mut lane = runs.open("EXCLUSIVE: order of the tests", (2, 2, 0));
    let root = lane.root();
    let file = lane.exclusive(&root, b"kept", VERIFIER);
    let too_long = [b'n'; 33];
    let names = [&b""[..], b".", b"a/", &too_long, b"kept", b"other"];
    for (bad, status) in [
        (vec![], Status::BADHANDLE),
        (file[..11].to_vec(), Status::BADHANDLE),
        (handle(STAMP, 2, 0), Status::BADHANDLE),
        (handle(STAMP, 0, 1), Status::STALE),
        (handle(STAMP + 1, 0, 0), Status::STALE),
    ] {
        for name in names {
            let wanted = (rules::HANDLES_FIRST, status);
            refused(&mut lane, &bad, name, VERIFIER, wanted);
        }
    }
    for name in names {
        let wanted = (rules::NOTDIR, Status::NOTDIR);
        refused(&mut lane, &file, name, VERIFIER, wanted);
    }
    for (name, status) in [
        (&b""[..], Status::ACCES),
        (&too_long, Status::NAMETOOLONG),
        (b"a/b", Status::ACCES),
        (b"./", Status::ACCES),
        (b"kept\0", Status::ACCES),
    ] {
        let wanted = (rules::NAMES, status);
        refused(&mut lane, &root, name, VERIFIER, wanted);
    }
}

pub(super) fn full_stores(runs: &mut Runs<'_>) {
    for (title, counts, rule) in [
        ("EXCLUSIVE: no object", (2, 4, 1), rules::NO_OBJECT),
        ("EXCLUSIVE: no name", (4, 1, 1), rules::NO_NAME),
    ] {
        let mut lane = runs.open(title, counts);
        let root = lane.root();
        let file = lane.exclusive(&root, b"kept", VERIFIER);
        for name in [&b"other"[..], b"kep", b"keptt"] {
            refused(&mut lane, &root, name, VERIFIER, (rule, Status::NOSPC));
        }
        again(&mut lane, &root, b"kept", VERIFIER, &file);
        lane.rule(rules::FULL_AGAIN);
        let exist = (rules::OTHER_VERIFIER, Status::EXIST);
        refused(&mut lane, &root, b"kept", OTHER, exist);
        refused(&mut lane, &root, b"..", OTHER, (rules::DOTS, Status::EXIST));
        lane.done(&rename(&root, b"kept", &root, b"moved"));
        refused(&mut lane, &root, b"kept", VERIFIER, (rule, Status::NOSPC));
        again(&mut lane, &root, b"moved", VERIFIER, &file);
        lane.done(&remove(&root, b"moved"));
        assert_eq!(lane.exclusive(&root, b"kept", ZEROS), handle(STAMP, 1, 1));
    }
    // A spent record is no room; the blocks do not matter.
    let mut lane = runs.open("EXCLUSIVE: a spent record", (3, 3, 1));
    let root = lane.root();
    lane.create(&root, b"block", 512);
    let at = lane.object_at(2) + 4;
    lane.patch_word(at, u32::MAX);
    let wanted = (rules::NO_OBJECT, Status::NOSPC);
    refused(&mut lane, &root, b"new", VERIFIER, wanted);
    lane.patch_word(at, u32::MAX - 1);
    let file = lane.exclusive(&root, b"new", VERIFIER);
    assert_eq!(file, handle(STAMP, 2, u32::MAX - 1));
    again(&mut lane, &root, b"new", VERIFIER, &file);
    lane.done(&remove(&root, b"new"));
    refused(&mut lane, &root, b"new", VERIFIER, wanted);
}

pub(super) fn forgetting(runs: &mut Runs<'_>) {
    let mut lane = runs.open("EXCLUSIVE: what SETATTR forgets", (4, 4, 2));
    let root = lane.root();
    let times = Attributes {
        atime: Time::Server,
        mtime: Time::Client(1, 2),
        ..Attributes::default()
    };
    for (attributes, rule) in [
        (Attributes::default(), rules::SETATTR_NOTHING),
        (Attributes::mode(0o644), rules::SETATTR_OTHERS),
        (times, rules::SETATTR_OTHERS),
        (Attributes::size(0), rules::SETATTR_SIZE),
        (Attributes::size(700), rules::SETATTR_SIZE),
    ] {
        for verifier in [VERIFIER, ZEROS] {
            let file = lane.exclusive(&root, b"kept", verifier);
            let made = (lane.seconds, lane.nanoseconds);
            let other = lane.exclusive(&root, b"other", verifier);
            for (attributes, guard, status) in [
                (attributes, Some((made.0, made.1 + 1)), Status::NOT_SYNC),
                (Attributes::mode(4096), None, Status::INVAL),
                (Attributes::size(8193), None, Status::INVAL),
                (Attributes::size(1025), None, Status::NOSPC),
            ] {
                lane.expect(
                    "SETATTR refused: file with a verifier",
                    &setattr(&file, attributes, guard),
                    status,
                );
                again(&mut lane, &root, b"kept", verifier, &file);
                lane.rule(rules::SETATTR_REFUSED);
            }
            lane.done(&setattr(&file, attributes, Some(made)));
            for sent in [verifier, ZEROS, OTHER] {
                refused(&mut lane, &root, b"kept", sent, (rule, Status::EXIST));
            }
            again(&mut lane, &root, b"other", verifier, &other);
            lane.done(&remove(&root, b"kept"));
            lane.done(&remove(&root, b"other"));
        }
    }
    // A directory has no verifier to forget.
    lane.done(&setattr(&root, Attributes::default(), None));
}

pub(super) fn keeping(runs: &mut Runs<'_>) {
    let mut lane = runs.open("EXCLUSIVE: what keeps a verifier", (6, 6, 4));
    let root = lane.root();
    let directory = lane.mkdir(&root, b"d");
    let file = lane.exclusive(&root, b"kept", VERIFIER);
    let all = Attributes {
        mode: Some(0o600),
        uid: Some(7),
        mtime: Time::Client(3, 4),
        ..Attributes::default()
    };
    for (request, status, rule) in [
        (
            unchecked(&root, b"kept", Attributes::default()),
            Status::OK,
            rules::UNCHECKED_PLAIN,
        ),
        (
            unchecked(&root, b"kept", all),
            Status::OK,
            rules::UNCHECKED_PLAIN,
        ),
        (
            unchecked(&root, b"kept", Attributes::size(0)),
            Status::OK,
            rules::UNCHECKED_SIZE,
        ),
        (
            unchecked(&root, b"kept", Attributes::size(900)),
            Status::OK,
            rules::UNCHECKED_SIZE,
        ),
        (
            unchecked(&root, b"kept", Attributes::size(8192)),
            Status::NOSPC,
            rules::UNCHECKED_SIZE,
        ),
        (write(&file, 0, b"some bytes"), Status::OK, rules::WRITE),
        (write(&file, 1000, &[7; 600]), Status::OK, rules::WRITE),
        (write(&file, 5, b""), Status::OK, rules::WRITE),
        (write(&file, 8192, b"x"), Status::FBIG, rules::WRITE),
        (commit(&file, 0, 0), Status::OK, rules::WRITE),
        (
            rename(&root, b"kept", &root, b"kept"),
            Status::OK,
            rules::RENAME,
        ),
        (
            rename(&root, b"kept", &root, b"moved"),
            Status::OK,
            rules::RENAME,
        ),
        (
            rename(&root, b"moved", &directory, b"moved"),
            Status::OK,
            rules::RENAME,
        ),
        (
            rename(&directory, b"moved", &root, b"kept"),
            Status::OK,
            rules::RENAME,
        ),
    ] {
        assert_eq!(lane.status(&request), Some(status.0), "{request:?}");
        // By the name that the file has now.
        let place = [
            (&root, &b"kept"[..]),
            (&root, b"moved"),
            (&directory, b"moved"),
        ]
        .into_iter()
        .find(|(directory, name)| lane.status(&lookup(directory, name)) == Some(0));
        let (place, name) = place.expect("the file has a name");
        again(&mut lane, place, name, VERIFIER, &file);
        refused(
            &mut lane,
            place,
            name,
            OTHER,
            (rules::OTHER_VERIFIER, Status::EXIST),
        );
        lane.rule(rule);
    }
    lane.done(&getattr(&file));
    // Under the old name a new file is made.
    lane.done(&rename(&root, b"kept", &directory, b"there"));
    let second = lane.exclusive(&root, b"kept", VERIFIER);
    assert_ne!(second, file);
    again(&mut lane, &directory, b"there", VERIFIER, &file);
    // A removed file keeps nothing; the record is used again.
    lane.done(&remove(&directory, b"there"));
    let third = lane.exclusive(&directory, b"there", VERIFIER);
    assert_ne!(third, file);
    lane.rule(rules::REMOVE);
    lane.expect(
        "GETATTR STALE: removed file",
        &getattr(&file),
        Status::STALE,
    );
    lane.done(&remove(&directory, b"there"));
    lane.create(&directory, b"there", 100);
    for verifier in [VERIFIER, ZEROS] {
        let wanted = (rules::REMOVE, Status::EXIST);
        refused(&mut lane, &directory, b"there", verifier, wanted);
    }
    lane.done(&remove(&directory, b"there"));
    lane.mkdir(&directory, b"there");
    lane.driver.check();
}
