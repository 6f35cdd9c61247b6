//! Files with several names, rule by rule.

use super::image::{clock_of, listing, Image, Place};
use super::*;
use crate::generator::encode::{handle, Attributes};
use crate::generator::lane::*;
use crate::generator::old_images::old_image;
use crate::generator::rules;
use crate::generator::rules::link::{self as rule, Fault};
use crate::layout::*;
use crate::numbers::Status;

/// Counts a rule that the script has just seen hold.
fn note(lane: &mut Lane<'_>, label: &str) {
    assert!(rule::all().iter().any(|known| known == label), "{label}");
    lane.driver.note(rules::LINK_GROUP, label);
}

/// Gives a file another name. Every byte of the store and of the reply is the
/// one that the rules give.
fn linked(lane: &mut Lane<'_>, file: &[u8], to: Place<'_>) {
    let before = Image::of(lane);
    let outcome = lane.done(&link(file, to.0, to.1));
    let mut wanted = before.clone();
    wanted.link(file, to, clock_of(lane));
    assert!(lane.driver.store() == wanted.bytes);
    let result = before.link_result(&wanted, Status::OK, file, to.0);
    assert_eq!(outcome.reply[24..], result);
}

/// Sends a LINK that is refused. The reply has the attributes that go with each
/// handle.
fn refused(lane: &mut Lane<'_>, file: &[u8], to: Place<'_>, status: Status) {
    let before = Image::of(lane);
    let request = link(file, to.0, to.1);
    let outcome = lane.send(&request);
    assert!(lane.driver.store() == before.bytes);
    let result = before.link_result(&before, status, file, to.0);
    assert_eq!(outcome.reply[24..], result, "{request:?}");
}

/// Removes a name. Every byte is the one that the rules give.
fn removed(lane: &mut Lane<'_>, place: Place<'_>) {
    let before = Image::of(lane);
    let outcome = lane.done(&remove(place.0, place.1));
    let mut wanted = before.clone();
    wanted.remove(place, clock_of(lane));
    assert!(lane.driver.store() == wanted.bytes);
    let result = before.remove_result(&wanted, Status::OK, place.0);
    assert_eq!(outcome.reply[24..], result);
}

/// Renames to a new name, or over another object's. Every byte is the one that
/// the rules give.
fn moved(lane: &mut Lane<'_>, from: Place<'_>, to: Place<'_>) {
    let before = Image::of(lane);
    let outcome = lane.done(&rename(from.0, from.1, to.0, to.1));
    let mut wanted = before.clone();
    if before.view().find(to.0, to.1).is_some() {
        wanted.rename(from, to, clock_of(lane));
    } else {
        wanted.move_name(from, to, clock_of(lane));
    }
    assert!(lane.driver.store() == wanted.bytes);
    let result = before.result(&wanted, Status::OK, from, to);
    assert_eq!(outcome.reply[24..], result);
}

/// Sends a RENAME that changes nothing.
fn unmoved(lane: &mut Lane<'_>, from: Place<'_>, to: Place<'_>, status: Status) {
    let before = Image::of(lane);
    let outcome = lane.send(&rename(from.0, from.1, to.0, to.1));
    assert!(lane.driver.store() == before.bytes);
    let result = before.result(&before, status, from, to);
    assert_eq!(outcome.reply[24..], result);
}

/// Looks up every name of a file: the same handle and attributes.
fn look(lane: &mut Lane<'_>, file: &[u8]) {
    let image = Image::of(lane);
    let view = image.view();
    let object = word(file, 4) as usize;
    let attributes = image.attributes(object);
    assert_eq!(lane.done(&getattr(file)).reply[28..], attributes);
    for named in view.names.iter().filter(|named| named.child == object) {
        let directory = view.handle(named.directory).expect("a live directory");
        let mut wanted = vec![0, 0, 0, 12];
        wanted.extend(file);
        for object in [object, named.directory] {
            wanted.extend([0, 0, 0, 1]);
            wanted.extend(image.attributes(object));
        }
        let outcome = lane.done(&lookup(directory, &named.name));
        assert_eq!(outcome.reply[28..], wanted);
    }
    assert_eq!(word(&attributes, 8) as usize, view.links(object));
    note(lane, rule::COUNTED);
    note(lane, rule::ANY_NAME);
}

/// The numbers of FSSTAT.
fn numbers(lane: &mut Lane<'_>) -> Vec<u8> {
    let root = lane.root();
    lane.done(&fsstat(&root)).reply[28 + 88..].to_vec()
}

/// The name records that are used.
fn records(lane: &Lane<'_>) -> Vec<usize> {
    let names = Image::of(lane).view().names.into_iter();
    names.map(|named| named.record).collect()
}

pub(super) fn names(runs: &mut Runs<'_>) {
    let mut lane = runs.open("LINK: further names", (6, 20, 6));
    let root = lane.root();
    let outer = lane.mkdir(&root, b"outer");
    let inner = lane.mkdir(&outer, b"inner");
    let file = lane.create(&root, b"file", 0);
    lane.done(&write(&file, 0, &[0x46; 700]));
    let other = lane.create(&root, b"gone", 0);
    linked(&mut lane, &file, (&root, b"second"));
    note(&mut lane, rule::SAME_DIRECTORY);
    linked(&mut lane, &file, (&inner, b"third"));
    note(&mut lane, rule::OTHER_DIRECTORY);
    linked(&mut lane, &file, (&outer, b"file"));
    linked(&mut lane, &file, (&inner, b"file"));
    note(&mut lane, rule::SAME_TEXT);
    look(&mut lane, &file);
    // Two names of one file stand in one listing.
    let outcome = lane.done(&readdir(&root, 0, 0, 4096));
    assert_eq!(
        outcome.reply[24..],
        listing(&Image::of(&lane), &root, 0, 4096)
    );
    note(&mut lane, rule::LISTED_TWICE);
    // The lowest free name record, between used ones.
    assert_eq!(records(&lane), [0, 1, 2, 3, 4, 5, 6, 7]);
    removed(&mut lane, (&root, b"gone"));
    removed(&mut lane, (&inner, b"third"));
    assert_eq!(records(&lane), [0, 1, 2, 4, 6, 7]);
    linked(&mut lane, &file, (&inner, b"again"));
    assert_eq!(records(&lane), [0, 1, 2, 3, 4, 6, 7]);
    linked(&mut lane, &file, (&root, b"and again"));
    assert_eq!(records(&lane), [0, 1, 2, 3, 4, 5, 6, 7]);
    note(&mut lane, rule::LOWEST_RECORD);
    note(&mut lane, rule::FREED_RECORD);
    assert_eq!(lane.status(&getattr(&other)), Some(Status::STALE.0));
    // Whatever is there now cannot be made again.
    let none = Attributes::default();
    for (directory, name) in [(&inner, &b"file"[..]), (&root, b"second")] {
        for request in [
            guarded(directory, name, none),
            mkdir(directory, name, none),
            link(&file, directory, name),
        ] {
            let before = lane.driver.store().to_vec();
            assert_eq!(lane.status(&request), Some(Status::EXIST.0));
            assert!(lane.driver.store() == before);
        }
    }
    note(&mut lane, rule::GUARDED);
    // One file, whichever name is looked up.
    for (turn, (directory, name)) in [
        (&root, &b"file"[..]),
        (&inner, b"file"),
        (&outer, b"file"),
        (&root, b"second"),
    ]
    .into_iter()
    .enumerate()
    {
        let found = lane.done(&lookup(directory, name)).reply[32..44].to_vec();
        assert_eq!(found, file);
        lane.done(&write(&found, 10 * turn as u64, &[b'a' + turn as u8; 10]));
        let data = lane.done(&read(&file, 10 * turn as u64, 10)).reply;
        assert_eq!(data[28 + 88 + 12..][..10], [b'a' + turn as u8; 10]);
        let mode = Attributes::mode(0o600 + turn as u32);
        lane.done(&setattr(&found, mode, None));
        let attributes = lane.done(&getattr(&file)).reply;
        assert_eq!(word(&attributes, 32), 0o600 + turn as u32);
        lane.done(&access(&found, 63));
        lane.done(&commit(&found, 0, 0));
    }
    note(&mut lane, rule::ANY_HANDLE);
    // A size by one of the names.
    for (directory, name, size) in [(&inner, &b"again"[..], 5), (&outer, b"file", 600)] {
        let outcome = lane.done(&unchecked(directory, name, Attributes::size(size)));
        assert_eq!(outcome.reply[36..48], file);
        let attributes = lane.done(&getattr(&file)).reply;
        assert_eq!(u64::from(word(&attributes, 28 + 24)), size);
        lane.done(&unchecked(directory, name, none));
    }
    look(&mut lane, &file);
    note(&mut lane, rule::UNCHECKED);
    // A directory that holds a link is not empty; the link is no directory.
    for (request, status) in [
        (rmdir(&root, b"second"), Status::NOTDIR),
        (rmdir(&outer, b"inner"), Status::NOTEMPTY),
    ] {
        assert_eq!(lane.status(&request), Some(status.0));
    }
    for name in [&b"file"[..], b"again"] {
        removed(&mut lane, (&inner, name));
    }
    lane.done(&rmdir(&outer, b"inner"));
    note(&mut lane, rule::RMDIR);
    let outcome = lane.done(&pathconf(&file));
    assert_eq!(word(&outcome.reply, 28 + 88), 16);
    note(&mut lane, rule::LINKMAX);
    let outcome = lane.done(&fsinfo(&file));
    assert_eq!(word(&outcome.reply, outcome.reply.len() - 4), 0x19);
    note(&mut lane, rule::PROPERTIES);
    lane.driver.check();
}

/// Fifteen further names of all kinds.
const TEXTS: [&[u8]; 15] = [
    b"a",
    b"b",
    b"ab",
    b"abc",
    b"abcd",
    b"...",
    b"..a",
    b"\xFF",
    b"\x01\x02\x03",
    b"\xFF\xFE\x80\x2E",
    b"exactly-thirty-two-bytes-of-name",
    b"exactly-thirty-two-bytes-of-namf",
    b"exactly-thirty-one-bytes-of-nam",
    b"0123456789",
    b"123456789",
];

pub(super) fn sixteen(runs: &mut Runs<'_>) {
    for apart in [false, true] {
        let mut lane = runs.open("LINK: up to 16 names", (5, 24, 2));
        let root = lane.root();
        let inner = lane.mkdir(&root, b"inner");
        let file = lane.create(&root, b"file", 5);
        let one = lane.create(&root, b"one name", 5);
        let directory = |turn: usize| {
            if apart && turn % 2 == 1 {
                &inner
            } else {
                &root
            }
        };
        for (turn, text) in TEXTS.into_iter().enumerate() {
            linked(&mut lane, &file, (directory(turn), text));
            assert_eq!(Image::of(&lane).links(1 + 1), turn + 2);
        }
        note(&mut lane, rule::UP_TO_16);
        note(&mut lane, rule::ANY_TEXT);
        look(&mut lane, &file);
        for (place, name) in [(&root, &b"17"[..]), (&inner, b"17"), (&inner, b"file")] {
            refused(&mut lane, &file, (place, name), Status::MLINK);
        }
        note(&mut lane, rule::SEVENTEENTH);
        linked(&mut lane, &one, (&inner, b"17"));
        // One name less, and one more.
        for turn in [0, 7, 14] {
            removed(&mut lane, (directory(turn), TEXTS[turn]));
            linked(&mut lane, &file, (&inner, b"instead"));
            refused(&mut lane, &file, (&inner, b"18"), Status::MLINK);
            moved(
                &mut lane,
                (&inner, b"instead"),
                (directory(turn), TEXTS[turn]),
            );
        }
        note(&mut lane, rule::AFTER_MLINK);
        lane.driver.check();
        removed(&mut lane, (&root, b"file"));
        for turn in (0..15).rev() {
            removed(&mut lane, (directory(turn), TEXTS[turn]));
        }
        assert_eq!(lane.status(&getattr(&file)), Some(Status::STALE.0));
        refused(&mut lane, &file, (&root, b"new"), Status::STALE);
        note(&mut lane, rule::STALE);
    }
}

pub(super) fn removing(runs: &mut Runs<'_>) {
    let mut lane = runs.open("LINK: removal in every order", (5, 8, 6));
    let root = lane.root();
    let inner = lane.mkdir(&root, b"inner");
    let places: [Place; 3] = [(&root, b"first"), (&inner, b"second"), (&root, b"third")];
    for order in [
        [0, 1, 2],
        [0, 2, 1],
        [1, 0, 2],
        [1, 2, 0],
        [2, 0, 1],
        [2, 1, 0],
    ] {
        let file = lane.exclusive(&root, b"first", VERIFIER);
        lane.done(&write(&file, 0, &[0x52; 600]));
        // Bytes behind the end of the file.
        let block = Image::of(&lane).blocks(word(&file, 4) as usize)[1];
        let at = lane.block_at(block);
        lane.driver.patch(at + 500, b"behind");
        let used = numbers(&mut lane);
        for place in &places[1..] {
            linked(&mut lane, &file, *place);
            note(&mut lane, rule::KEPT_LINK);
        }
        assert_eq!(numbers(&mut lane), used);
        note(&mut lane, rule::BLOCKS_ONCE);
        for (turn, &at) in order.iter().enumerate() {
            let bytes = lane.done(&read(&file, 0, 700)).reply[28 + 88..].to_vec();
            removed(&mut lane, places[at]);
            if turn == 2 {
                break;
            }
            assert_eq!(lane.done(&read(&file, 0, 700)).reply[28 + 88..], bytes);
            assert_eq!(numbers(&mut lane), used);
            note(&mut lane, rule::ONE_REMOVED);
            note(&mut lane, rule::FSSTAT);
            look(&mut lane, &file);
            let left = places[order[2]];
            let again = lane.done(&exclusive(left.0, left.1, VERIFIER));
            assert_eq!(again.reply[36..48], file);
            note(&mut lane, rule::KEPT_REMOVE);
        }
        note(&mut lane, rule::LAST_REMOVED);
        assert_eq!(lane.status(&getattr(&file)), Some(Status::STALE.0));
        assert_ne!(numbers(&mut lane), used);
    }
    note(&mut lane, rule::EVERY_ORDER);
    lane.driver.check();
}

pub(super) fn renaming(runs: &mut Runs<'_>) {
    let mut lane = runs.open("LINK: RENAME", (7, 14, 8));
    let root = lane.root();
    let inner = lane.mkdir(&root, b"inner");
    lane.mkdir(&root, b"empty");
    let file = lane.exclusive(&root, b"a", VERIFIER);
    lane.done(&write(&file, 0, &[0x41; 700]));
    let other = lane.create(&root, b"other", 600);
    linked(&mut lane, &file, (&root, b"b"));
    linked(&mut lane, &file, (&inner, b"c"));
    // One name moves.
    for (from, to) in [
        ((&root, &b"a"[..]), (&root, &b"moved"[..])),
        ((&root, b"moved"), (&inner, b"moved")),
        ((&inner, b"moved"), (&root, b"a")),
    ] {
        moved(&mut lane, (from.0, from.1), (to.0, to.1));
        look(&mut lane, &file);
    }
    note(&mut lane, rule::ONE_MOVED);
    // Between its names nothing changes.
    for (from, to, label) in [
        ((&root, &b"a"[..]), (&root, &b"b"[..]), rule::TWO_NAMES),
        ((&root, b"b"), (&root, b"a"), rule::TWO_NAMES),
        ((&root, b"a"), (&inner, b"c"), rule::TWO_DIRECTORIES),
        ((&inner, b"c"), (&root, b"b"), rule::TWO_DIRECTORIES),
        ((&root, b"a"), (&root, b"a"), rule::ONTO_ITSELF),
        ((&inner, b"c"), (&inner, b"c"), rule::ONTO_ITSELF),
    ] {
        unmoved(&mut lane, (from.0, from.1), (to.0, to.1), Status::OK);
        note(&mut lane, label);
    }
    // A directory and a file with several names.
    for (from, to) in [
        ((&root, &b"a"[..]), (&root, &b"empty"[..])),
        ((&inner, b"c"), (&root, b"empty")),
        ((&root, b"empty"), (&root, b"b")),
        ((&root, b"empty"), (&inner, b"c")),
    ] {
        unmoved(&mut lane, (from.0, from.1), (to.0, to.1), Status::EXIST);
    }
    note(&mut lane, rule::ON_DIRECTORY);
    // Another file over its names, one after the other, the last one too.
    for (turn, (directory, name)) in [(&root, b"a"), (&inner, b"c"), (&root, b"b")]
        .into_iter()
        .enumerate()
    {
        moved(&mut lane, (&root, b"other"), (directory, name));
        if turn < 2 {
            look(&mut lane, &file);
            let left = lane.done(&exclusive(&root, b"b", VERIFIER));
            assert_eq!(left.reply[36..48], file);
            note(&mut lane, rule::KEPT_OVER);
            let data = lane.done(&read(&file, 690, 20)).reply;
            assert_eq!(data[28 + 88 + 12..][..10], [0x41; 10]);
            note(&mut lane, rule::OVER_ONE);
        } else {
            assert_eq!(lane.status(&getattr(&file)), Some(Status::STALE.0));
            note(&mut lane, rule::OVER_LAST);
        }
        look(&mut lane, &other);
        moved(&mut lane, (directory, name), (&root, b"other"));
    }
    // One of several names over a file with one, and over one of several.
    let file = lane.create(&inner, b"x", 520);
    linked(&mut lane, &file, (&root, b"y"));
    linked(&mut lane, &file, (&root, b"z"));
    let single = lane.create(&root, b"single", 1000);
    moved(&mut lane, (&root, b"y"), (&root, b"single"));
    assert_eq!(lane.status(&getattr(&single)), Some(Status::STALE.0));
    look(&mut lane, &file);
    note(&mut lane, rule::BY_LINKED);
    linked(&mut lane, &other, (&inner, b"more"));
    linked(&mut lane, &other, (&inner, b"most"));
    for (from, to) in [
        ((&root, &b"z"[..]), (&inner, &b"more"[..])),
        ((&inner, b"most"), (&root, b"single")),
    ] {
        moved(&mut lane, (from.0, from.1), (to.0, to.1));
        look(&mut lane, &file);
        look(&mut lane, &other);
    }
    note(&mut lane, rule::LINKED_BOTH);
    lane.driver.check();
}

pub(super) fn verifiers(runs: &mut Runs<'_>) {
    let mut lane = runs.open("LINK: kept verifiers", (5, 10, 2));
    let root = lane.root();
    let inner = lane.mkdir(&root, b"inner");
    let places: [Place; 4] = [
        (&root, b"kept"),
        (&root, b"second"),
        (&inner, b"kept"),
        (&inner, b"fourth"),
    ];
    let file = lane.exclusive(&root, b"kept", VERIFIER);
    let plain = lane.create(&root, b"plain", 0);
    linked(&mut lane, &plain, (&inner, b"plain"));
    for place in &places[1..] {
        linked(&mut lane, &file, *place);
    }
    let tried = |lane: &mut Lane<'_>, place: Place<'_>, verifier: [u8; 8]| {
        let before = lane.driver.store().to_vec();
        let outcome = lane.send(&exclusive(place.0, place.1, verifier));
        assert!(lane.driver.store() == before);
        let found = (status_of(&outcome.reply) == Some(0)).then(|| outcome.reply[36..48].to_vec());
        if found.is_none() {
            assert_eq!(status_of(&outcome.reply), Some(Status::EXIST.0));
        }
        found
    };
    // What each kind of SETATTR forgets is forgotten for every name.
    for (turn, attributes) in [
        Attributes::default(),
        Attributes::mode(7),
        Attributes::size(3),
    ]
    .into_iter()
    .enumerate()
    {
        for place in places {
            assert_eq!(tried(&mut lane, place, VERIFIER).as_ref(), Some(&file));
            note(&mut lane, rule::KEPT_BY_EACH);
            for other in [[0; 8], *b"verifies"] {
                assert_eq!(tried(&mut lane, place, other), None);
            }
            note(&mut lane, rule::KEPT_OTHER);
        }
        let found = lane
            .done(&lookup(places[turn + 1].0, places[turn + 1].1))
            .reply[32..44]
            .to_vec();
        lane.done(&setattr(&found, attributes, None));
        for place in places {
            for verifier in [VERIFIER, [0; 8]] {
                assert_eq!(tried(&mut lane, place, verifier), None);
            }
        }
        note(&mut lane, rule::FORGOTTEN);
        let at = lane.object_at(word(&file, 4) as usize) + object_field::VERIFIER;
        let kept = [&VERIFIER[..], &[0, 0, 0, 1]].concat();
        lane.driver.patch(at, &kept);
    }
    for place in [(&root[..], &b"plain"[..]), (&inner, b"plain")] {
        for verifier in [VERIFIER, [0; 8]] {
            assert_eq!(tried(&mut lane, place, verifier), None);
        }
    }
    note(&mut lane, rule::NONE_KEPT);
}

/// What a handle is of.
#[derive(Clone, Copy, PartialEq, Eq)]
enum Handled {
    Bad,
    Stale,
    Directory,
    File,
    /// A file with 16 names.
    Many,
}

pub(super) fn order(runs: &mut Runs<'_>) {
    for full in [false, true] {
        let names = 20;
        let mut lane = runs.open("LINK: order of the tests", (6, names, 2));
        let root = lane.root();
        let inner = lane.mkdir(&root, b"inner");
        let file = lane.create(&root, b"file", 100);
        let many = lane.create(&inner, b"many", 5);
        for turn in 0..15 {
            let name = format!("name {turn}");
            linked(&mut lane, &many, (&inner, name.as_bytes()));
        }
        lane.create(&root, b"gone", 0);
        let stale = lane.create(&inner, b"stale", 0);
        lane.done(&remove(&inner, b"stale"));
        lane.done(&write(&file, 0, b"file"));
        if full {
            linked(&mut lane, &file, (&root, b"last"));
        }
        let free = (0..names).filter(|record| !records(&lane).contains(record));
        assert_eq!(free.count(), usize::from(!full));
        let beyond = handle(STAMP, 6, 0);
        let files = [
            (&root[..11], Handled::Bad),
            (&stale, Handled::Stale),
            (&root, Handled::Directory),
            (&file, Handled::File),
            (&many, Handled::Many),
        ];
        let directories = [
            (&beyond[..], Handled::Bad),
            (&stale, Handled::Stale),
            (&root, Handled::Directory),
            (&file, Handled::File),
            (&many, Handled::Many),
        ];
        let mut long = [b'n'; 40];
        let too_long = long[..33].to_vec();
        long[3] = b'/';
        let texts: [(&[u8], &[Fault]); 8] = [
            (b"", &[Fault::Empty]),
            (&too_long, &[Fault::TooLong]),
            (&long, &[Fault::TooLong, Fault::BadByte]),
            (b"a/b", &[Fault::BadByte]),
            (b"..", &[Fault::Dots]),
            (b".", &[Fault::Dots]),
            (b"file", &[Fault::Exists]),
            (b"new", &[]),
        ];
        for (file, of_file) in files {
            for (directory, of_directory) in directories {
                for (text, of_text) in texts {
                    let mut faults: Vec<Fault> = of_text.to_vec();
                    match of_directory {
                        Handled::Bad => faults.push(Fault::BadDirectory),
                        Handled::Stale => faults.push(Fault::StaleDirectory),
                        Handled::Directory => {}
                        Handled::File | Handled::Many => faults.push(Fault::NotDirectory),
                    }
                    match of_file {
                        Handled::Bad => faults.push(Fault::BadFile),
                        Handled::Stale => faults.push(Fault::StaleFile),
                        Handled::Directory => faults.push(Fault::Directory),
                        Handled::File => {}
                        Handled::Many => faults.push(Fault::Many),
                    }
                    if full {
                        faults.push(Fault::NoName);
                    }
                    faults.sort();
                    // The one that succeeds is seen elsewhere; dots come once.
                    let Some(&first) = faults.first() else {
                        continue;
                    };
                    if text == b"." && first != Fault::Dots {
                        continue;
                    }
                    refused(&mut lane, file, (directory, text), status_of_fault(first));
                    note_faults(&mut lane, &faults);
                    let live = |of: Handled| ![Handled::Bad, Handled::Stale].contains(&of);
                    note(&mut lane, &rule::body(live(of_file), live(of_directory)));
                    match (of_file, of_directory) {
                        (Handled::Directory, Handled::Directory) => {
                            note(&mut lane, rule::BODY_SAME_DIRECTORY);
                        }
                        (Handled::File, Handled::File) => note(&mut lane, rule::BODY_SAME_FILE),
                        (Handled::Directory, Handled::File) => {
                            note(&mut lane, rule::BODY_EXCHANGED);
                        }
                        _ => {}
                    }
                }
            }
        }
    }
}

fn status_of_fault(fault: Fault) -> Status {
    match fault {
        Fault::BadFile | Fault::BadDirectory => Status::BADHANDLE,
        Fault::StaleFile | Fault::StaleDirectory => Status::STALE,
        Fault::Directory => Status::INVAL,
        Fault::NotDirectory => Status::NOTDIR,
        Fault::Empty | Fault::BadByte => Status::ACCES,
        Fault::TooLong => Status::NAMETOOLONG,
        Fault::Dots | Fault::Exists => Status::EXIST,
        Fault::Many => Status::MLINK,
        Fault::NoName => Status::NOSPC,
    }
}

/// Counts the first fault of a call against each later one.
fn note_faults(lane: &mut Lane<'_>, faults: &[Fault]) {
    let (first, later) = (faults[0], &faults[1..]);
    if later.is_empty() {
        note(lane, &rule::alone(first));
    }
    for &later in later {
        if let Some(label) = rule::before(first, later) {
            note(lane, &label);
        }
    }
}

pub(super) fn room(runs: &mut Runs<'_>) {
    let none = Attributes::default();
    // Names run out before objects.
    let mut lane = runs.open("LINK: no free name", (6, 4, 2));
    let root = lane.root();
    let file = lane.create(&root, b"file", 0);
    let start = numbers(&mut lane);
    for name in [b"a", b"b", b"c"] {
        linked(&mut lane, &file, (&root, name));
    }
    assert_eq!(numbers(&mut lane), start);
    note(&mut lane, rule::FSSTAT);
    for _ in 0..2 {
        refused(&mut lane, &file, (&root, b"d"), Status::NOSPC);
        note(&mut lane, rule::NO_NAME);
        for request in [
            guarded(&root, b"d", none),
            unchecked(&root, b"d", none),
            exclusive(&root, b"d", VERIFIER),
            mkdir(&root, b"d", none),
        ] {
            assert_eq!(lane.status(&request), Some(Status::NOSPC.0));
        }
        note(&mut lane, rule::MAKE_NO_NAME);
        // The freed record goes to whoever is next.
        removed(&mut lane, (&root, b"b"));
        assert_eq!(numbers(&mut lane), start);
        linked(&mut lane, &file, (&root, b"b"));
    }
    removed(&mut lane, (&root, b"a"));
    lane.mkdir(&root, b"d");
    refused(&mut lane, &file, (&root, b"e"), Status::NOSPC);
    // A RENAME over one of several names needs no room.
    removed(&mut lane, (&root, b"c"));
    lane.create(&root, b"over", 0);
    moved(&mut lane, (&root, b"over"), (&root, b"b"));
    lane.driver.check();
    // Objects run out before names.
    let mut lane = runs.open("LINK: no free object", (3, 8, 2));
    let file = lane.create(&root, b"file", 0);
    let inner = lane.mkdir(&root, b"inner");
    for (directory, name) in [(&root, b"a"), (&inner, b"a"), (&inner, b"b")] {
        linked(&mut lane, &file, (directory, name));
        note(&mut lane, rule::NO_OBJECT);
        for request in [
            guarded(&root, b"d", none),
            exclusive(&root, b"d", VERIFIER),
            mkdir(&root, b"d", none),
        ] {
            assert_eq!(lane.status(&request), Some(Status::NOSPC.0));
        }
        note(&mut lane, rule::MAKE_NO_OBJECT);
    }
    for name in [b"a", b"b"] {
        removed(&mut lane, (&inner, name));
    }
    assert_eq!(
        lane.status(&guarded(&root, b"d", none)),
        Some(Status::NOSPC.0)
    );
    removed(&mut lane, (&root, b"file"));
    removed(&mut lane, (&root, b"a"));
    assert_eq!(lane.create(&root, b"d", 0), handle(STAMP, 1, 1));
    lane.driver.check();
}

pub(super) fn clocks(runs: &mut Runs<'_>) {
    let mut lane = runs.open("LINK: clocks", (4, 8, 1));
    let root = lane.root();
    let inner = lane.mkdir(&root, b"inner");
    let file = lane.create(&root, b"file", 9);
    // The moment before the one of the call.
    for (seconds, nanoseconds) in [
        (u32::MAX - 1, 998_999_996),
        (u32::MAX, 998_999_997),
        (4, 17),
        (0x7FFF_FFFF, 998_999_998),
    ] {
        for directory in [&root, &inner] {
            (lane.seconds, lane.nanoseconds) = (seconds, nanoseconds);
            linked(&mut lane, &file, (directory, b"link"));
            let clock = clock_of(&lane);
            let image = Image::of(&lane);
            let time = |object: usize, field: usize| {
                (image.field(object, field), image.field(object, field + 4))
            };
            let number = word(directory, 4) as usize;
            assert_eq!(time(2, object_field::CTIME), clock);
            assert_ne!(time(2, object_field::MTIME), clock);
            assert_ne!(time(2, object_field::ATIME), clock);
            assert_eq!(time(number, object_field::CTIME), clock);
            assert_eq!(time(number, object_field::MTIME), clock);
            assert_ne!(time(number, object_field::ATIME), clock);
            (lane.seconds, lane.nanoseconds) = (seconds ^ 1, nanoseconds);
            removed(&mut lane, (directory, b"link"));
            let image = Image::of(&lane);
            assert_eq!(
                (image.field(2, 40), image.field(2, 44)),
                clock_of(&lane),
                "the file's ctime"
            );
        }
        note(&mut lane, rule::CLOCKS);
    }
}

/// Lists a directory part by part until eof; between two parts `change` may
/// send other calls. The cookies and the names of all entries.
fn list(
    lane: &mut Lane<'_>,
    directory: &[u8],
    count: u32,
    mut change: impl FnMut(&mut Lane<'_>, usize),
) -> (Vec<(u64, Vec<u8>)>, usize) {
    let mut entries: Vec<(u64, Vec<u8>)> = Vec::new();
    let mut parts = 0;
    loop {
        let cookie = entries.last().map_or(0, |entry| entry.0);
        let outcome = lane.done(&readdir(directory, cookie, 0, count));
        let wanted = listing(&Image::of(lane), directory, cookie, count);
        assert_eq!(outcome.reply[24..], wanted);
        let bytes = &outcome.reply[28 + 88 + 8..];
        assert!(outcome.reply.len() <= 28 + count.min(4096) as usize);
        let mut at = 0;
        while word(bytes, at) == 1 {
            let length = word(bytes, at + 12) as usize;
            let name = bytes[at + 16..at + 16 + length].to_vec();
            at += 16 + length.next_multiple_of(4);
            entries.push((u64::from(word(bytes, at + 4)), name));
            at += 8;
        }
        parts += 1;
        if word(bytes, at + 4) == 1 {
            return (entries, parts);
        }
        change(lane, parts);
    }
}

/// A name of 32 bytes.
fn long_name(number: usize) -> Vec<u8> {
    format!("a name of thirty-two bytes, {number:04}").into_bytes()
}

/// A store of 64 objects whose 128 names are all in the root.
pub(super) fn full_store(runs: &mut Runs<'_>) {
    let mut lane = runs.open("LINK: 128 names of 32 bytes", (64, 128, 0));
    let root = lane.root();
    let mut files = Vec::new();
    for number in 0..63 {
        let name = long_name(number);
        files.push(lane.create(&root, &name, 0));
    }
    // Four files get 16 names, and one 6.
    for number in 63..128 {
        let name = long_name(number);
        let file = &files[(number - 63) / 15];
        if number % 16 == 0 {
            linked(&mut lane, file, (&root, &name));
        } else {
            lane.done(&link(file, &root, &name));
        }
    }
    assert_eq!(lane.driver.check().number, 0);
    let image = Image::of(&lane);
    assert_eq!(image.view().names.len(), 128);
    assert_eq!(image.view().live.len(), 64);
    assert_eq!([1, 4, 5, 6].map(|file| image.links(file)), [16, 16, 6, 1]);
    note(&mut lane, rule::CHECK_16);
    note(&mut lane, rule::FULL);
    refused(&mut lane, &files[0], (&root, b"more"), Status::MLINK);
    refused(&mut lane, &files[40], (&root, b"more"), Status::NOSPC);
    look(&mut lane, &files[4]);
    // Both dots and 70 names of 56 bytes are 3,976 bytes.
    let (entries, parts) = list(&mut lane, &root, 4096, |_, _| {});
    assert_eq!(parts, 2);
    assert_eq!(entries.len(), 130);
    note(&mut lane, rule::CUT);
    for count in [4095, 4080, 4079, 8192, u32::MAX, 1000] {
        let (all, _) = list(&mut lane, &root, count, |_, _| {});
        assert_eq!(all, entries);
    }
    let cookies: Vec<u64> = entries.iter().map(|entry| entry.0).collect();
    assert_eq!(cookies, (1..=130).collect::<Vec<u64>>());
    note(&mut lane, rule::RESUMED);
    for cookie in [70, 71, 72, 73, 128, 129, 130, 131] {
        let outcome = lane.done(&readdir(&root, cookie, 0, 4096));
        let wanted = listing(&Image::of(&lane), &root, cookie, 4096);
        assert_eq!(outcome.reply[24..], wanted);
    }
    // Names that come and go between the parts.
    let (entries, parts) = list(&mut lane, &root, 2000, |lane, part| match part {
        1 => {
            removed(lane, (&root, &long_name(3)));
            removed(lane, (&root, &long_name(70)));
            linked(lane, &files[50], (&root, b"early"));
        }
        2 => {
            linked(lane, &files[50], (&root, b"late"));
            moved(lane, (&root, &long_name(5)), (&root, b"renamed"));
            moved(lane, (&root, &long_name(120)), (&root, &long_name(100)));
        }
        _ => {}
    });
    assert!(parts > 3);
    let seen = |name: &[u8]| entries.iter().filter(|entry| entry.1 == name).count();
    for number in 0..128 {
        let wanted = usize::from(![70, 120].contains(&number));
        assert_eq!(seen(&long_name(number)), wanted, "{number}");
    }
    // The freed record 3 was passed before, the freed record 70 was not.
    assert_eq!((seen(b"early"), seen(b"late"), seen(b"renamed")), (0, 1, 0));
    note(&mut lane, rule::BETWEEN);
    lane.driver.check();
}

/// One change to the store and what the check says of it.
fn judged(lane: &mut Lane<'_>, patches: &[(usize, &[u8])], valid: bool, label: &str) {
    let kept = lane.driver.store().to_vec();
    for (at, bytes) in patches {
        lane.driver.patch(*at, bytes);
    }
    let wanted = u32::from(!valid);
    assert_eq!(lane.driver.check().number, wanted, "{label}");
    let call = getattr(&lane.root()).call(5);
    assert_eq!(lane.raw(&call).answer.number, wanted, "{label}");
    note(lane, label);
    for (at, bytes) in patches {
        lane.driver.patch(*at, &kept[*at..*at + bytes.len()]);
    }
}

/// A name record.
fn name_record(directory: u32, child: u32, text: &[u8]) -> Vec<u8> {
    let mut record = [directory, child, text.len() as u32]
        .map(u32::to_be_bytes)
        .concat();
    record.extend(text);
    record.resize(NAME_BYTES, 0);
    record
}

pub(super) fn damaged(runs: &mut Runs<'_>) {
    let mut lane = runs.open("LINK: damaged stores", (8, 24, 2));
    let root = lane.root();
    let outer = lane.mkdir(&root, b"outer");
    let inner = lane.mkdir(&outer, b"inner");
    let many = lane.create(&root, b"many", 600);
    let two = lane.create(&inner, b"two", 0);
    lane.create(&root, b"single", 0);
    linked(&mut lane, &two, (&root, b"two"));
    for turn in 0..15 {
        let directory = [&root, &outer, &inner][turn % 3];
        let name = format!("name {turn}");
        linked(&mut lane, &many, (directory, name.as_bytes()));
    }
    // Objects 1 outer, 2 inner, 3 many, 4 two, 5 single, 6 and 7 free. Records
    // 0 outer, 1 inner, 2 many, 3 two, 4 single, 5 two, 6 to 20 many, 21 to 23
    // free.
    assert_eq!(records(&lane), (0..21).collect::<Vec<usize>>());
    assert_eq!(lane.driver.check().number, 0);
    note(&mut lane, rule::CHECK_16);
    let free = lane.name_at(22);
    for (directory, child, text, valid, label) in [
        (0, 3, &b"17th"[..], false, rule::CHECK_17),
        (2, 3, b"17th", false, rule::CHECK_17),
        (0, 1, b"again", false, rule::CHECK_DIRECTORY),
        (1, 2, b"again", false, rule::CHECK_DIRECTORY),
        (2, 1, b"again", false, rule::CHECK_DIRECTORY),
        (0, 0, b"root", false, rule::CHECK_ROOT),
        (1, 0, b"root", false, rule::CHECK_ROOT),
        (0, 6, b"free", false, rule::CHECK_FREE),
        (2, 7, b"free", false, rule::CHECK_FREE),
        (0, 4, b"two", false, rule::CHECK_EQUAL),
        (2, 4, b"two", false, rule::CHECK_EQUAL),
        (0, 5, b"single", false, rule::CHECK_EQUAL),
        (1, 4, b"two", true, rule::CHECK_APART),
        (1, 5, b"single", true, rule::CHECK_APART),
    ] {
        let record = name_record(directory, child, text);
        judged(&mut lane, &[(free, &record)], valid, label);
    }
    // Names taken away.
    let none = [0; NAME_BYTES];
    let at = |lane: &Lane<'_>, record: usize| lane.name_at(record);
    let (two_first, two_second, single) = (at(&lane, 3), at(&lane, 5), at(&lane, 4));
    let both: [(usize, &[u8]); 2] = [(two_first, &none), (two_second, &none)];
    judged(&mut lane, &both, false, rule::CHECK_NONE);
    judged(&mut lane, &[(single, &none)], false, rule::CHECK_NONE);
    judged(&mut lane, &both[..1], true, rule::CHECK_APART);
    judged(&mut lane, &both[1..], true, rule::CHECK_APART);
    // A name of one file becomes one of another.
    let to = |child: u32| child.to_be_bytes();
    for (record, child, valid, label) in [
        (2, 4, true, rule::CHECK_16),
        (5, 3, false, rule::CHECK_17),
        (4, 4, false, rule::CHECK_NONE),
        (5, 5, true, rule::CHECK_APART),
        (5, 2, false, rule::CHECK_DIRECTORY),
        (6, 0, false, rule::CHECK_ROOT),
        (6, 6, false, rule::CHECK_FREE),
    ] {
        let at = lane.name_at(record) + name_field::CHILD;
        judged(&mut lane, &[(at, &to(child))], valid, label);
    }
    // All 16 names of the file for one that is free, and 16 of 17 after one is
    // taken away.
    let first = lane.name_at(2);
    let seventeenth = name_record(2, 3, b"17th");
    let one_for_another: [(usize, &[u8]); 2] = [(first, &none), (free, &seventeenth)];
    judged(&mut lane, &one_for_another, true, rule::CHECK_16);
    // The file becomes a directory, with 16 names and with two.
    for object in [3, 4] {
        let at = lane.object_at(object);
        let size = at + object_field::SIZE;
        let blocks = at + object_field::BLOCKS;
        let patches: [(usize, &[u8]); 3] =
            [(at, &[0, 0, 0, 2]), (size, &[0; 4]), (blocks, &[0xFF; 4])];
        judged(&mut lane, &patches, false, rule::CHECK_DIRECTORY);
    }
    // Rings of directories that hold linked files.
    for (record, directory) in [(0, 2), (0, 1), (1, 2)] {
        let at = lane.name_at(record) + name_field::DIRECTORY;
        judged(
            &mut lane,
            &[(at, &to(directory))],
            false,
            rule::CHECK_PARENTS,
        );
    }
    // The parent of a directory, whatever records stand after its own.
    for (directory, parent) in [(&inner, &outer), (&outer, &root), (&root, &root)] {
        let found = lane.done(&lookup(directory, b"..")).reply[32..44].to_vec();
        assert_eq!(found, *parent);
        let outcome = lane.done(&readdir(directory, 0, 0, 4096));
        let wanted = listing(&Image::of(&lane), directory, 0, 4096);
        assert_eq!(outcome.reply[24..], wanted);
    }
    let below = rename(&root, b"outer", &inner, b"below");
    assert_eq!(lane.status(&below), Some(Status::INVAL.0));
    moved(&mut lane, (&outer, b"inner"), (&root, b"moved"));
    let found = lane.done(&lookup(&inner, b"..")).reply[32..44].to_vec();
    assert_eq!(found, root);
    note(&mut lane, rule::DOT_DOT);
    look(&mut lane, &many);
}

/// Old images whose files have several names.
pub(super) fn conversions(runs: &mut Runs<'_>) {
    let mut lane = runs.open("LINK: old images", (4, 20, 2));
    let root = lane.root();
    let file = lane.create(&root, b"file", 700);
    let inner = lane.mkdir(&root, b"inner");
    let sound = old_image(lane.shape, lane.driver.store());
    for number in 2..=16 {
        let name = format!("name {number}");
        let directory = if number % 2 == 0 { &root } else { &inner };
        linked(&mut lane, &file, (directory, name.as_bytes()));
        let image = old_image(lane.shape, lane.driver.store());
        let before = lane.driver.store().to_vec();
        let answer = lane.driver.convert(&image);
        assert_eq!((answer.number, answer.length), (1, 0));
        assert!(lane.driver.store() == before);
        if number == 2 {
            note(&mut lane, rule::CONVERT_TWO);
        }
    }
    note(&mut lane, rule::CONVERT_16);
    let before = lane.driver.store().to_vec();
    let answer = lane.driver.convert(&old_image(lane.shape, &before)[..100]);
    assert_eq!(answer.number, 1);
    assert_eq!(lane.driver.convert(&sound).number, 0);
    linked(&mut lane, &file, (&inner, b"link"));
    look(&mut lane, &file);
    note(&mut lane, rule::CONVERT_LINKED);
    // The root and three files, so that no object is free.
    removed(&mut lane, (&inner, b"link"));
    lane.done(&rmdir(&root, b"inner"));
    for (name, object, generation) in [(&b"middle"[..], 2, 1), (b"last", 3, 0)] {
        let made = lane.create(&root, name, 0);
        assert_eq!(made, handle(STAMP, object, generation));
    }
    two_names_of_each(&mut lane);
}

/// Old images of a store whose objects are the root and three files, with names
/// in the records 0 to 2: each file in turn has two names, then either alone.
fn two_names_of_each(lane: &mut Lane<'_>) {
    let shape = lane.shape;
    let store = lane.driver.store().to_vec();
    let (names, free) = (
        [0, 1, 2].map(|record| lane.name_at(record)),
        lane.name_at(3),
    );
    for (object, label) in [
        (1, rule::CONVERT_FIRST),
        (2, rule::CONVERT_MIDDLE),
        (3, rule::CONVERT_LAST),
    ] {
        let first = names[object - 1];
        assert_eq!(word(&store, first + name_field::CHILD), object as u32);
        let mut both = store.clone();
        let further = name_record(0, object as u32, b"second name");
        both[free..free + NAME_BYTES].copy_from_slice(&further);
        let answer = lane.driver.convert(&old_image(shape, &both));
        assert_eq!((answer.number, answer.length), (1, 0), "{label}");
        assert!(lane.driver.store() == store);
        note(lane, label);
        let mut second = both;
        second[first..first + NAME_BYTES].fill(0);
        for alone in [&second, &store] {
            let answer = lane.driver.convert(&old_image(shape, alone));
            assert_eq!((answer.number, answer.length), (0, 0), "{label}");
            assert!(lane.driver.store() == *alone);
            note(lane, rule::CONVERT_EITHER);
        }
    }
}
