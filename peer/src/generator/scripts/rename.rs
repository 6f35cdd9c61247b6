//! RENAME over names that exist, rule by rule.

use super::image::{clock_of, Image, Place};
use super::*;
use crate::generator::encode::{handle, Attributes};
use crate::generator::lane::*;
use crate::generator::rules;
use crate::layout::*;
use crate::numbers::Status;

/// Renames over a name that exists. Every byte of the store and of the reply
/// is the one that the rules give.
pub(super) fn replaced(lane: &mut Lane<'_>, from: Place<'_>, to: Place<'_>, rules: &[&str]) {
    let before = Image::of(lane);
    let outcome = lane.done(&rename(from.0, from.1, to.0, to.1));
    let mut wanted = before.clone();
    wanted.rename(from, to, clock_of(lane));
    assert!(lane.driver.store() == wanted.bytes);
    let result = before.result(&wanted, Status::OK, from, to);
    assert_eq!(outcome.reply[24..], result);
    for rule in rules {
        lane.rule(rule);
    }
}

/// Sends a RENAME that changes nothing: a refusal, or the same object. The
/// reply has the attributes of both directories, before equal to after.
fn unchanged(lane: &mut Lane<'_>, from: Place<'_>, to: Place<'_>, status: Status, rule: &str) {
    let before = Image::of(lane);
    let request = rename(from.0, from.1, to.0, to.1);
    let outcome = lane.send(&request);
    assert!(lane.driver.store() == before.bytes);
    let result = before.result(&before, status, from, to);
    assert_eq!(outcome.reply[24..], result, "{rule}: {request:?}");
    lane.rule(rule);
}

/// Looks at both names, both directories and both objects after a RENAME over
/// an existing name, and sends it again.
fn look(lane: &mut Lane<'_>, from: Place<'_>, to: Place<'_>, moved: &[u8], target: &[u8]) {
    let found = lane.done(&lookup(to.0, to.1));
    assert_eq!(found.reply[32..44], *moved);
    assert_eq!(lane.status(&lookup(from.0, from.1)), Some(Status::NOENT.0));
    lane.done(&readdir(from.0, 0, 0, 4096));
    if from.0 != to.0 {
        lane.done(&readdir(to.0, 0, 0, 4096));
    }
    lane.done(&getattr(moved));
    assert_eq!(lane.status(&getattr(target)), Some(Status::STALE.0));
    lane.done(&fsstat(moved));
    let again = rename(from.0, from.1, to.0, to.1);
    assert_eq!(lane.status(&again), Some(Status::NOENT.0));
    lane.rule(rules::OVER_SENT_AGAIN);
}

/// Bytes of a file around the end of its first block, as READ sends them.
fn contents(lane: &mut Lane<'_>, file: &[u8]) -> Vec<u8> {
    let outcome = lane.done(&read(file, 500, 30));
    outcome.reply[28 + 88..].to_vec()
}

/// Makes a file whose blocks all hold bytes other than 0, also behind its end.
fn filled(lane: &mut Lane<'_>, place: Place<'_>, size: usize, kept: bool, byte: u8) -> Vec<u8> {
    let file = if kept {
        lane.exclusive(place.0, place.1, VERIFIER)
    } else {
        lane.create(place.0, place.1, 0)
    };
    if size > 0 {
        lane.done(&write(&file, size as u64 - 1, &[byte]));
    }
    for block in Image::of(lane).blocks(word(&file, 4) as usize) {
        let at = lane.block_at(block);
        lane.driver.patch(at, &[byte; 3]);
        lane.driver.patch(at + 509, &[byte; 3]);
    }
    file
}

/// A file over a file.
struct OverFile {
    /// The sizes of the moved one and of the target.
    sizes: (usize, usize),
    /// Whether each of them keeps a verifier.
    kept: (bool, bool),
    /// Whether the target is made first.
    target_first: bool,
    /// Whether their name records are exchanged.
    exchanged: bool,
    /// Whether each of them is in the inner directory.
    inner: (bool, bool),
}

const OVER_FILES: [OverFile; 12] = {
    const fn over(
        sizes: (usize, usize),
        kept: (bool, bool),
        target_first: bool,
        exchanged: bool,
        inner: (bool, bool),
    ) -> OverFile {
        OverFile {
            sizes,
            kept,
            target_first,
            exchanged,
            inner,
        }
    }
    const NONE: (bool, bool) = (false, false);
    const BOTH: (bool, bool) = (true, true);
    const FIRST: (bool, bool) = (true, false);
    const SECOND: (bool, bool) = (false, true);
    [
        over((700, 0), NONE, false, false, NONE),
        over((0, 700), NONE, true, false, NONE),
        over((700, 2000), FIRST, false, false, SECOND),
        over((2000, 700), SECOND, true, false, FIRST),
        over((0, 0), BOTH, false, false, BOTH),
        over((512, 512), NONE, true, true, SECOND),
        over((513, 4096), NONE, false, true, NONE),
        over((1, 1), BOTH, true, true, FIRST),
        over((4096, 1), SECOND, false, true, BOTH),
        over((100, 1024), SECOND, true, false, BOTH),
        over((0, 3000), FIRST, true, true, NONE),
        over((1025, 1535), BOTH, false, false, FIRST),
    ]
};

impl OverFile {
    /// The rules that the case shows.
    fn rules(&self) -> Vec<&'static str> {
        let (moved, target) = self.sizes;
        let mut rules = vec![if self.inner.0 == self.inner.1 {
            rules::OVER_FILE
        } else {
            rules::OVER_FILE_ELSEWHERE
        }];
        rules.push(if self.target_first {
            rules::OVER_EARLIER_OBJECT
        } else {
            rules::OVER_LATER_OBJECT
        });
        rules.push(if self.target_first == self.exchanged {
            rules::OVER_LATER_RECORD
        } else {
            rules::OVER_EARLIER_RECORD
        });
        rules.push(match target.cmp(&moved) {
            std::cmp::Ordering::Less => rules::OVER_SMALLER,
            std::cmp::Ordering::Equal => rules::OVER_EQUAL,
            std::cmp::Ordering::Greater => rules::OVER_LARGER,
        });
        if target == 0 {
            rules.push(rules::OVER_EMPTY);
        } else {
            rules.push(rules::OVER_FREE_BLOCKS);
        }
        if moved == 0 && target > 0 {
            rules.push(rules::OVER_BY_EMPTY);
        }
        if target % BLOCK_BYTES != 0 {
            rules.push(rules::OVER_TAIL);
        }
        rules
    }
}

pub(super) fn files(runs: &mut Runs<'_>) {
    let mut lane = runs.open("RENAME over: files", (6, 6, 14));
    let root = lane.root();
    let inner = lane.mkdir(&root, b"inner");
    for block in [0, 1, 13] {
        let at = lane.block_at(block) + 200;
        lane.driver.patch(at, &[0x99; 4]);
    }
    for case in OVER_FILES {
        let directory = |inside: bool| if inside { &inner } else { &root };
        let from: Place = (directory(case.inner.0), b"from");
        let to: Place = (directory(case.inner.1), b"the-target");
        let (moved, target) = if case.target_first {
            let target = filled(&mut lane, to, case.sizes.1, case.kept.1, 0x22);
            let moved = filled(&mut lane, from, case.sizes.0, case.kept.0, 0x11);
            (moved, target)
        } else {
            let moved = filled(&mut lane, from, case.sizes.0, case.kept.0, 0x11);
            let target = filled(&mut lane, to, case.sizes.1, case.kept.1, 0x22);
            (moved, target)
        };
        if case.exchanged {
            let mut image = Image::of(&lane);
            let (first, second) = (image.find(from).0, image.find(to).0);
            let records = [image.name(first).to_vec(), image.name(second).to_vec()];
            let (first, second) = (lane.name_at(first), lane.name_at(second));
            lane.driver.patch(first, &records[1]);
            lane.driver.patch(second, &records[0]);
        }
        let bytes = contents(&mut lane, &moved);
        replaced(&mut lane, from, to, &case.rules());
        look(&mut lane, from, to, &moved, &target);
        assert_eq!(contents(&mut lane, &moved), bytes);
        lane.rule(rules::OVER_MOVED_HANDLE);
        let again = lane.send(&exclusive(to.0, to.1, VERIFIER));
        if case.kept.0 {
            assert_eq!(status_of(&again.reply), Some(0));
            assert_eq!(again.reply[36..48], moved);
            lane.rule(rules::OVER_MOVED_VERIFIER);
        } else if case.kept.1 {
            assert_eq!(status_of(&again.reply), Some(Status::EXIST.0));
            lane.rule(rules::OVER_TARGET_VERIFIER);
        }
        lane.done(&remove(to.0, to.1));
    }
    // A shorter and a longer name in the rewritten record.
    for (name, other) in [
        (&b"exactly-thirty-two-bytes-of-name"[..], &b"x"[..]),
        (b"x", b"exactly-thirty-two-bytes-of-namf"),
    ] {
        lane.create(&root, name, 0);
        lane.create(&root, other, 0);
        replaced(&mut lane, (&root, name), (&root, other), &[]);
        lane.done(&readdir(&root, 0, 0, 4096));
        lane.done(&remove(&root, other));
    }
    // The same name in another directory, and names that begin alike.
    let file = lane.create(&root, b"name", 0);
    lane.create(&inner, b"name", 600);
    lane.create(&inner, b"nam", 0);
    lane.create(&inner, b"name1", 0);
    replaced(
        &mut lane,
        (&root, b"name"),
        (&inner, b"name"),
        &[rules::OVER_FILE_ELSEWHERE],
    );
    assert_eq!(lane.done(&lookup(&inner, b"name")).reply[32..44], file);
    lane.done(&readdir(&inner, 0, 0, 4096));
    lane.driver.check();
}

pub(super) fn directories(runs: &mut Runs<'_>) {
    let mut lane = runs.open("RENAME over: directories", (12, 12, 2));
    let root = lane.root();
    let outer = lane.mkdir(&root, b"outer");
    let middle = lane.mkdir(&outer, b"middle");
    for (from, to, target_first, full) in [
        (&root, &root, false, false),
        (&root, &root, true, true),
        (&middle, &middle, false, true),
        (&root, &outer, true, false),
        (&root, &middle, false, true),
        (&middle, &root, true, true),
        (&middle, &outer, false, false),
        (&outer, &middle, true, false),
    ] {
        let from: Place = (from, b"from");
        let to: Place = (to, b"to");
        let (moved, target) = if target_first {
            let target = lane.mkdir(to.0, to.1);
            (lane.mkdir(from.0, from.1), target)
        } else {
            let moved = lane.mkdir(from.0, from.1);
            (moved, lane.mkdir(to.0, to.1))
        };
        let mut rules = vec![];
        if full {
            lane.create(&moved, b"file", 600);
            lane.mkdir(&moved, b"sub");
            rules.push(rules::OVER_BY_FULL);
        }
        if from.0 == to.0 {
            rules.extend([rules::OVER_DIRECTORY, rules::OVER_LINKS]);
        } else {
            rules.extend([rules::OVER_DIRECTORY_ELSEWHERE, rules::OVER_LINKS_ELSEWHERE]);
        }
        replaced(&mut lane, from, to, &rules);
        look(&mut lane, from, to, &moved, &target);
        let above = lane.done(&lookup(&moved, b".."));
        assert_eq!(above.reply[32..44], *to.0);
        lane.rule(rules::OVER_DOT_DOT);
        lane.done(&readdir(&moved, 0, 0, 4096));
        if full {
            let sub = lane.done(&lookup(&moved, b"sub")).reply[32..44].to_vec();
            let above = lane.done(&lookup(&sub, b".."));
            assert_eq!(above.reply[32..44], moved);
            lane.done(&rmdir(&moved, b"sub"));
            lane.done(&remove(&moved, b"file"));
        }
        lane.done(&rmdir(to.0, to.1));
    }
    // A directory that held something: first full, then empty.
    let moved = lane.mkdir(&root, b"from");
    let target = lane.mkdir(&outer, b"to");
    lane.create(&target, b"file", 10);
    let (from, to): (Place, Place) = ((&root, b"from"), (&outer, b"to"));
    unchanged(&mut lane, from, to, Status::EXIST, rules::OVER_FULL);
    lane.done(&remove(&target, b"file"));
    replaced(&mut lane, from, to, &[rules::OVER_EMPTIED]);
    look(&mut lane, from, to, &moved, &target);
    // Emptied by RENAME itself: the target's last name goes away over it.
    let target = lane.mkdir(&root, b"holder");
    let held = lane.mkdir(&target, b"held");
    let (from, to): (Place, Place) = ((&target, b"held"), (&root, b"holder"));
    unchanged(&mut lane, from, to, Status::EXIST, rules::OVER_PARENT);
    lane.done(&rename(&target, b"held", &root, b"held"));
    let from: Place = (&root, b"held");
    replaced(&mut lane, from, to, &[rules::OVER_EMPTIED]);
    look(&mut lane, from, to, &held, &target);
    lane.driver.check();
}

pub(super) fn targets_that_stay(runs: &mut Runs<'_>) {
    let mut lane = runs.open("RENAME over: targets that stay", (12, 12, 6));
    let root = lane.root();
    lane.create(&root, b"file", 700);
    let empty = lane.mkdir(&root, b"empty");
    let full = lane.mkdir(&root, b"full");
    let below = lane.mkdir(&full, b"below");
    let lowest = lane.mkdir(&below, b"lowest");
    lane.create(&below, b"file", 100);
    lane.create(&full, b"kept", 0);
    lane.mkdir(&full, b"empty");
    let one = lane.mkdir(&root, b"one");
    lane.create(&one, b"inside", 0);
    let exist = Status::EXIST;
    let cases: [(Place, Place, &str); 17] = [
        ((&root, b"empty"), (&root, b"full"), rules::OVER_FULL),
        ((&root, b"empty"), (&root, b"one"), rules::OVER_FULL),
        ((&root, b"one"), (&root, b"full"), rules::OVER_FULL),
        ((&root, b"one"), (&full, b"below"), rules::OVER_FULL),
        ((&full, b"empty"), (&root, b"one"), rules::OVER_FULL),
        ((&full, b"below"), (&root, b"full"), rules::OVER_PARENT),
        ((&full, b"empty"), (&root, b"full"), rules::OVER_PARENT),
        ((&below, b"lowest"), (&full, b"below"), rules::OVER_PARENT),
        ((&below, b"lowest"), (&root, b"full"), rules::OVER_ABOVE),
        (
            (&root, b"file"),
            (&root, b"empty"),
            rules::FILE_OVER_DIRECTORY,
        ),
        (
            (&root, b"file"),
            (&root, b"full"),
            rules::FILE_OVER_DIRECTORY,
        ),
        (
            (&below, b"file"),
            (&root, b"empty"),
            rules::FILE_OVER_DIRECTORY,
        ),
        (
            (&below, b"file"),
            (&full, b"below"),
            rules::FILE_OVER_DIRECTORY,
        ),
        (
            (&root, b"empty"),
            (&root, b"file"),
            rules::DIRECTORY_OVER_FILE,
        ),
        (
            (&root, b"full"),
            (&root, b"file"),
            rules::DIRECTORY_OVER_FILE,
        ),
        (
            (&root, b"one"),
            (&full, b"kept"),
            rules::DIRECTORY_OVER_FILE,
        ),
        (
            (&full, b"empty"),
            (&below, b"file"),
            rules::DIRECTORY_OVER_FILE,
        ),
    ];
    for (from, to, rule) in cases {
        unchanged(&mut lane, from, to, exist, rule);
    }
    for directory in [&empty, &full, &below, &lowest] {
        lane.done(&getattr(directory));
    }
    lane.driver.check();
}

pub(super) fn same_object(runs: &mut Runs<'_>) {
    // Every object, name and block is used.
    for (title, counts) in [
        ("RENAME onto itself", (12, 12, 6)),
        ("RENAME onto itself: full store", (7, 6, 2)),
    ] {
        let mut lane = runs.open(title, counts);
        let root = lane.root();
        let file = filled(&mut lane, (&root, b"file"), 900, true, 0x33);
        let empty = lane.mkdir(&root, b"empty");
        let full = lane.mkdir(&root, b"full");
        let inner = lane.mkdir(&full, b"inner");
        lane.create(&full, b"another", 0);
        lane.create(&inner, b"exactly-thirty-two-bytes-of-name", 0);
        let cases: [(Place, &str); 6] = [
            ((&root, b"file"), rules::SAME_FILE),
            ((&full, b"another"), rules::SAME_FILE),
            (
                (&inner, b"exactly-thirty-two-bytes-of-name"),
                rules::SAME_FILE,
            ),
            ((&root, b"empty"), rules::SAME_DIRECTORY),
            ((&root, b"full"), rules::SAME_FULL),
            ((&full, b"inner"), rules::SAME_FULL),
        ];
        for (place, rule) in cases {
            unchanged(&mut lane, place, place, Status::OK, rule);
            unchanged(&mut lane, place, place, Status::OK, rule);
        }
        if counts.0 == 7 {
            lane.expect(
                "CREATE NOSPC: full store",
                &guarded(&root, b"more", Attributes::default()),
                Status::NOSPC,
            );
            lane.rule(rules::SAME_WITHOUT_ROOM);
        }
        for object in [&root, &file, &empty, &full, &inner] {
            lane.done(&getattr(object));
        }
        lane.done(&read(&file, 0, 100));
        assert_eq!(lane.exclusive(&root, b"file", VERIFIER), file);
        lane.done(&fsstat(&root));
    }
}

pub(super) fn below_itself(runs: &mut Runs<'_>) {
    let mut lane = runs.open("RENAME below itself onto a name there", (10, 10, 2));
    let root = lane.root();
    let outer = lane.mkdir(&root, b"outer");
    let middle = lane.mkdir(&outer, b"middle");
    let inner = lane.mkdir(&middle, b"inner");
    lane.mkdir(&outer, b"empty");
    lane.create(&outer, b"file", 0);
    lane.mkdir(&middle, b"empty");
    lane.mkdir(&inner, b"empty");
    lane.create(&inner, b"file", 10);
    lane.create(&inner, b"outer", 0);
    let cases: [(Place, Place, &str); 12] = [
        (
            (&root, b"outer"),
            (&outer, b"empty"),
            rules::BELOW_DIRECTORY,
        ),
        ((&root, b"outer"), (&outer, b"middle"), rules::BELOW_FULL),
        ((&root, b"outer"), (&outer, b"file"), rules::BELOW_FILE),
        ((&root, b"outer"), (&outer, b"empty"), rules::BELOW_ITSELF),
        ((&root, b"outer"), (&outer, b"file"), rules::BELOW_ITSELF),
        ((&root, b"outer"), (&outer, b"middle"), rules::BELOW_ITSELF),
        (
            (&root, b"outer"),
            (&middle, b"empty"),
            rules::BELOW_DIRECTORY,
        ),
        ((&root, b"outer"), (&middle, b"inner"), rules::BELOW_FULL),
        (
            (&root, b"outer"),
            (&inner, b"empty"),
            rules::BELOW_DIRECTORY,
        ),
        ((&root, b"outer"), (&inner, b"outer"), rules::BELOW_FILE),
        ((&outer, b"middle"), (&inner, b"file"), rules::BELOW_FILE),
        (
            (&outer, b"middle"),
            (&inner, b"empty"),
            rules::BELOW_DIRECTORY,
        ),
    ];
    for (from, to, rule) in cases {
        unchanged(&mut lane, from, to, Status::INVAL, rule);
    }
    // A file and another directory may go there.
    lane.done(&rename(&outer, b"file", &root, b"file"));
    replaced(&mut lane, (&root, b"file"), (&inner, b"file"), &[]);
    lane.done(&rename(&outer, b"empty", &root, b"aside"));
    replaced(&mut lane, (&root, b"aside"), (&inner, b"empty"), &[]);
    lane.driver.check();
}

/// Over an empty directory at the end of a chain, and back up; `chain` has the
/// handles from the root on, the last of them an empty directory.
pub(super) fn deepest(lane: &mut Lane<'_>, chain: &[Vec<u8>], name: &[u8]) {
    let [root, .., above, last] = chain else {
        panic!("a chain of directories");
    };
    let first = lane.mkdir(root, b"empty");
    // The top cannot go to the end, whatever is there.
    let (top, end): (Place, Place) = ((root, b"0"), (above, name));
    unchanged(lane, top, end, Status::INVAL, rules::BELOW_DEEP);
    unchanged(lane, end, top, Status::EXIST, rules::OVER_ABOVE);
    // The end goes up over the empty directory in the root.
    let aside: Place = (root, b"empty");
    replaced(lane, end, aside, &[rules::OVER_DIRECTORY_ELSEWHERE]);
    look(lane, end, aside, last, &first);
    // It goes back down, over a new one in its old place.
    let second = lane.mkdir(above, name);
    assert_eq!(second[..8], first[..8]);
    replaced(lane, aside, end, &[rules::OVER_DEEP]);
    look(lane, aside, end, last, &second);
    let found = lane.done(&lookup(last, b".."));
    assert_eq!(found.reply[32..44], *above);
}

pub(super) fn order(runs: &mut Runs<'_>) {
    let mut lane = runs.open("RENAME over: order of the tests", (8, 8, 2));
    let root = lane.root();
    let file = lane.create(&root, b"file", 300);
    lane.create(&root, b"other", 0);
    let directory = lane.mkdir(&root, b"directory");
    lane.create(&directory, b"inside", 0);
    lane.mkdir(&directory, b"empty");
    let removed = lane.mkdir(&root, b"removed");
    lane.done(&rmdir(&root, b"removed"));
    let long = [b'n'; 33];
    let names = [&b""[..], b"..", b"none", b"file", b"directory"];
    for (bad, status) in [
        (&removed[..], Status::STALE),
        (&root[..11], Status::BADHANDLE),
        (&file, Status::NOTDIR),
    ] {
        for name in names {
            let (sound, faulty): (Place, Place) = ((&root, name), (bad, name));
            unchanged(&mut lane, sound, faulty, status, rules::RENAME_HANDLES);
            unchanged(&mut lane, faulty, sound, status, rules::RENAME_HANDLES);
        }
    }
    // The first directory's fault decides.
    for (from, to, status) in [
        (&removed[..], &file[..], Status::STALE),
        (&file, &removed, Status::NOTDIR),
        (&file, &root[..3], Status::NOTDIR),
        (&root[..3], &removed, Status::BADHANDLE),
    ] {
        let (from, to): (Place, Place) = ((from, b"file"), (to, b"other"));
        unchanged(&mut lane, from, to, status, rules::RENAME_HANDLES);
    }
    let none: &[u8] = b"none";
    for (name, status) in [
        (&b""[..], Status::ACCES),
        (&long, Status::NAMETOOLONG),
        (b"file/", Status::ACCES),
        (b"file\0", Status::ACCES),
    ] {
        for other in [&b"."[..], none, b"file", b"directory"] {
            let (sound, faulty): (Place, Place) = ((&root, other), (&root, name));
            unchanged(&mut lane, sound, faulty, status, rules::RENAME_NAMES);
            unchanged(&mut lane, faulty, sound, status, rules::RENAME_NAMES);
        }
    }
    for dots in [&b"."[..], b".."] {
        for other in [&b".."[..], none, b"file", b"directory"] {
            let inval = Status::INVAL;
            let (sound, faulty): (Place, Place) = ((&root, other), (&directory, dots));
            unchanged(&mut lane, sound, faulty, inval, rules::RENAME_DOTS);
            unchanged(&mut lane, faulty, sound, inval, rules::RENAME_DOTS);
        }
    }
    for to in [
        (&root, &b"file"[..]),
        (&root, b"directory"),
        (&directory, b"empty"),
        (&directory, b"inside"),
        (&root, none),
    ] {
        for from in [(&root, none), (&root, b"inside"), (&directory, b"file")] {
            let (from, to): (Place, Place) = ((from.0, from.1), (to.0, to.1));
            unchanged(&mut lane, from, to, Status::NOENT, rules::RENAME_NOENT);
        }
    }
}

/// The names of a directory with their cookies and objects.
fn listed(lane: &Lane<'_>, directory: &[u8]) -> Vec<(Vec<u8>, usize, usize)> {
    let number = word(directory, 4) as usize;
    let names = Image::of(lane).view().names.into_iter();
    names
        .filter(|named| named.directory == number)
        .map(|named| (named.name, named.record, named.child))
        .collect()
}

/// A number of FSSTAT: 1 free bytes, 4 available objects.
fn fsstat_number(lane: &mut Lane<'_>, number: usize) -> u32 {
    let root = lane.root();
    let reply = lane.done(&fsstat(&root)).reply;
    word(&reply, 28 + 88 + 8 * number + 4)
}

pub(super) fn full_stores(runs: &mut Runs<'_>) {
    let plain = Attributes::default();
    // Nothing is free: two files that have all blocks, and a directory.
    let mut lane = runs.open("RENAME over: full store", (4, 3, 4));
    let root = lane.root();
    let first = filled(&mut lane, (&root, b"a"), 1024, false, 0x41);
    let second = filled(&mut lane, (&root, b"b"), 600, false, 0x42);
    lane.mkdir(&root, b"d");
    for request in [
        guarded(&root, b"c", plain),
        exclusive(&root, b"c", VERIFIER),
        mkdir(&root, b"c", plain),
        write(&first, 1024, b"x"),
    ] {
        assert_eq!(lane.status(&request), Some(Status::NOSPC.0));
    }
    assert_eq!(
        (fsstat_number(&mut lane, 1), fsstat_number(&mut lane, 4)),
        (0, 0)
    );
    let (from, to): (Place, Place) = ((&root, b"a"), (&root, b"b"));
    replaced(
        &mut lane,
        from,
        to,
        &[
            rules::OVER_NO_OBJECT,
            rules::OVER_NO_NAME,
            rules::OVER_NO_BLOCK,
        ],
    );
    look(&mut lane, from, to, &first, &second);
    assert_eq!(
        (fsstat_number(&mut lane, 1), fsstat_number(&mut lane, 4)),
        (1024, 1)
    );
    // What was freed is taken, and then nothing is free again.
    let third = lane.create(&root, b"c", 0);
    assert_eq!(third, handle(STAMP, 2, 1));
    lane.rule(rules::OVER_FREED_OBJECT);
    lane.rule(rules::OVER_REUSED);
    assert!(listed(&lane, &root).contains(&(b"c".to_vec(), 1, 2)));
    lane.rule(rules::OVER_FREED_NAME);
    lane.done(&write(&third, 0, &[7; 1024]));
    assert_eq!(Image::of(&lane).blocks(2), [2, 3]);
    lane.rule(rules::OVER_FREED_BLOCKS);
    assert_eq!(
        lane.status(&write(&third, 1024, b"x")),
        Some(Status::NOSPC.0)
    );
    assert_eq!(
        lane.status(&mkdir(&root, b"e", plain)),
        Some(Status::NOSPC.0)
    );
    // The file with the other blocks goes, and they are taken by growth.
    replaced(
        &mut lane,
        (&root, b"c"),
        (&root, b"b"),
        &[rules::OVER_NO_BLOCK],
    );
    lane.done(&write(&third, 1024, &[8; 1000]));
    assert_eq!(Image::of(&lane).blocks(2), [2, 3, 0, 1]);
    lane.done(&read(&third, 0, 4096));
    lane.done(&readdir(&root, 0, 0, 4096));
    let inner = lane.mkdir(&root, b"inner");
    assert_eq!(inner, handle(STAMP, 1, 1));
    // A directory over a directory, with no object and no name free.
    replaced(
        &mut lane,
        (&root, b"inner"),
        (&root, b"d"),
        &[rules::OVER_NO_OBJECT, rules::OVER_NO_NAME],
    );
    lane.done(&readdir(&root, 0, 0, 4096));
    assert_eq!(lane.mkdir(&inner, b"new"), handle(STAMP, 3, 1));
    lane.driver.check();
    // Only the objects, only the names, only the blocks are used up.
    for (title, counts, rule) in [
        ("RENAME over: no object", (3, 5, 5), rules::OVER_NO_OBJECT),
        ("RENAME over: no name", (5, 2, 5), rules::OVER_NO_NAME),
        ("RENAME over: no block", (5, 5, 2), rules::OVER_NO_BLOCK),
    ] {
        let mut lane = runs.open(title, counts);
        filled(&mut lane, (&root, b"to"), 512, false, 0x51);
        for kept in [false, true, false] {
            filled(&mut lane, (&root, b"from"), 300, kept, 0x52);
            assert_eq!(
                lane.status(&guarded(&root, b"more", Attributes::size(1))),
                Some(Status::NOSPC.0)
            );
            replaced(&mut lane, (&root, b"from"), (&root, b"to"), &[rule]);
        }
        lane.done(&readdir(&root, 0, 0, 4096));
        lane.done(&fsstat(&root));
        lane.done(&guarded(&root, b"more", Attributes::size(1)));
    }
}

pub(super) fn lowest_numbers(runs: &mut Runs<'_>) {
    let mut lane = runs.open("RENAME over: lowest free ones", (8, 8, 12));
    let root = lane.root();
    // Objects 1 to 5, name records 0 to 4, two blocks each.
    for name in [b"a", b"b", b"c", b"d", b"e"] {
        filled(&mut lane, (&root, name), 1000, false, name[0]);
    }
    lane.done(&remove(&root, b"b"));
    // Object 4, name record 3 and blocks 6 and 7 are freed beside lower ones.
    replaced(&mut lane, (&root, b"e"), (&root, b"d"), &[]);
    assert_eq!(lane.create(&root, b"f", 600), handle(STAMP, 2, 1));
    assert_eq!(Image::of(&lane).blocks(2), [2, 3]);
    lane.rule(rules::OVER_LOWER_FIRST);
    assert_eq!(lane.create(&root, b"g", 2000), handle(STAMP, 4, 1));
    assert_eq!(Image::of(&lane).blocks(4), [6, 7, 10, 11]);
    lane.rule(rules::OVER_FREED_BLOCKS);
    assert_eq!(
        listed(&lane, &root),
        [
            (b"a".to_vec(), 0, 1),
            (b"f".to_vec(), 1, 2),
            (b"c".to_vec(), 2, 3),
            (b"g".to_vec(), 3, 4),
            (b"d".to_vec(), 4, 5),
        ]
    );
    lane.done(&readdir(&root, 0, 0, 4096));
    // Object 1, name record 0 and blocks 0 and 1 are the lowest of all.
    replaced(&mut lane, (&root, b"g"), (&root, b"a"), &[]);
    assert_eq!(listed(&lane, &root).last().unwrap().1, 4);
    lane.done(&readdir(&root, 0, 0, 4096));
    let made = lane.mkdir(&root, b"h");
    assert_eq!(made, handle(STAMP, 1, 1));
    lane.rule(rules::OVER_FREED_OBJECT);
    let named = listed(&lane, &root);
    assert!(named.contains(&(b"h".to_vec(), 0, 1)));
    assert!(named.contains(&(b"a".to_vec(), 3, 4)));
    lane.rule(rules::OVER_FREED_NAME);
    let file = lane.create(&made, b"i", 1);
    assert_eq!(Image::of(&lane).blocks(word(&file, 4) as usize), [0]);
    lane.done(&read(&file, 0, 10));
    lane.done(&fsstat(&root));
    // Over and over: the pair of records takes turns.
    let mut wanted = (0, 0);
    for turn in 0..4 {
        let file = lane.create(&root, b"next", 100);
        let moved = (word(&file, 4), word(&file, 8));
        if turn > 1 {
            assert_eq!(moved, (wanted.0, wanted.1 + 1));
        }
        let target = Image::of(&lane).find((&root, b"a")).1 as u32;
        wanted = (
            target,
            Image::of(&lane).field(target as usize, object_field::GENERATION),
        );
        replaced(&mut lane, (&root, b"next"), (&root, b"a"), &[]);
    }
    lane.driver.check();
}

pub(super) fn old_handles(runs: &mut Runs<'_>) {
    for directory in [false, true] {
        let mut lane = runs.open("RENAME over: the target's handle", (4, 4, 4));
        let root = lane.root();
        let (moved, target) = if directory {
            (lane.mkdir(&root, b"from"), lane.mkdir(&root, b"to"))
        } else {
            (
                filled(&mut lane, (&root, b"from"), 100, false, 0x61),
                filled(&mut lane, (&root, b"to"), 600, true, 0x62),
            )
        };
        let third = lane.mkdir(&root, b"third");
        replaced(&mut lane, (&root, b"from"), (&root, b"to"), &[]);
        let plain = Attributes::default();
        let requests = [
            getattr(&target),
            setattr(&target, Attributes::mode(0), None),
            lookup(&target, b".."),
            access(&target, 63),
            read(&target, 0, 10),
            write(&target, 0, b"x"),
            guarded(&target, b"new", plain),
            exclusive(&target, b"new", VERIFIER),
            mkdir(&target, b"new", plain),
            remove(&target, b"to"),
            rmdir(&target, b"to"),
            rename(&target, b"to", &root, b"new"),
            rename(&root, b"to", &target, b"to"),
            rename(&target, b"to", &target, b"to"),
            link(&target, &root, b"new"),
            link(&target, &third, b"new"),
            link(&target, &target, b"new"),
            readdir(&target, 0, 0, 4096),
            fsstat(&target),
            fsinfo(&target),
            pathconf(&target),
            commit(&target, 0, 0),
        ];
        for reused in [false, true] {
            if reused {
                let again = if directory {
                    lane.create(&root, b"again", 5)
                } else {
                    lane.mkdir(&root, b"again")
                };
                assert_eq!(again, handle(STAMP, 2, 1));
                lane.done(&getattr(&again));
                lane.rule(rules::OVER_REUSED);
            }
            for request in &requests {
                let before = lane.driver.store().to_vec();
                lane.expect("STALE: a replaced object", request, Status::STALE);
                assert!(lane.driver.store() == before);
                let number = request.procedure();
                lane.rule(&rules::replaced_handle(number, directory, reused));
            }
        }
        lane.done(&getattr(&moved));
        lane.done(&getattr(&third));
        lane.rule(rules::OVER_MOVED_HANDLE);
    }
}

pub(super) fn spent_generations(runs: &mut Runs<'_>) {
    for directory in [false, true] {
        let mut lane = runs.open("RENAME over: a target of the last generation", (4, 4, 4));
        let root = lane.root();
        let make = |lane: &mut Lane<'_>, name: &[u8]| {
            if directory {
                lane.mkdir(&root, name)
            } else {
                filled(lane, (&root, name), 520, false, 0x71)
            }
        };
        make(&mut lane, b"from");
        make(&mut lane, b"to");
        // The moved one may have it too: it stays as it is.
        for object in [1, 2] {
            let at = lane.object_at(object) + object_field::GENERATION;
            lane.patch_word(at, u32::MAX - 1);
        }
        let [moved, target] = [1, 2].map(|object| handle(STAMP, object, u32::MAX - 1));
        assert_eq!(fsstat_number(&mut lane, 4), 1);
        let (from, to): (Place, Place) = ((&root, b"from"), (&root, b"to"));
        replaced(&mut lane, from, to, &[]);
        look(&mut lane, from, to, &moved, &target);
        assert_eq!(fsstat_number(&mut lane, 4), 1);
        let spent = handle(STAMP, 2, u32::MAX);
        assert_eq!(lane.status(&getattr(&spent)), Some(Status::STALE.0));
        let third = make(&mut lane, b"third");
        assert_eq!(third, handle(STAMP, 3, 0));
        assert_eq!(
            lane.status(&guarded(&root, b"more", Attributes::default())),
            Some(Status::NOSPC.0)
        );
        lane.rule(rules::OVER_SPENT);
        // One below: the record is used once more.
        let at = lane.object_at(3) + object_field::GENERATION;
        lane.patch_word(at, u32::MAX - 2);
        replaced(&mut lane, to, (&root, b"third"), &[]);
        assert_eq!(fsstat_number(&mut lane, 4), 1);
        let again = make(&mut lane, b"again");
        assert_eq!(again, handle(STAMP, 3, u32::MAX - 1));
        replaced(&mut lane, (&root, b"again"), (&root, b"third"), &[]);
        assert_eq!(fsstat_number(&mut lane, 4), 0);
        lane.rule(rules::OVER_SPENT);
        assert_eq!(
            lane.status(&mkdir(&root, b"more", Attributes::default())),
            Some(Status::NOSPC.0)
        );
        lane.driver.check();
    }
}

pub(super) fn clocks(runs: &mut Runs<'_>) {
    let mut lane = runs.open("RENAME over: clocks", (6, 6, 2));
    let root = lane.root();
    let inner = lane.mkdir(&root, b"inner");
    // The moment before the one of the call.
    for (seconds, nanoseconds) in [
        (u32::MAX - 1, 998_999_996),
        (u32::MAX, 998_999_997),
        (4, 17),
        (0x7FFF_FFFF, 998_999_998),
    ] {
        for (from, to, directory) in [
            (&root, &root, false),
            (&root, &inner, true),
            (&inner, &root, false),
            (&inner, &inner, true),
        ] {
            for (place, name) in [(from, b"from"), (to, b"goal")] {
                if directory {
                    lane.mkdir(place, name);
                } else {
                    lane.create(place, name, 0);
                }
            }
            let (from, to): (Place, Place) = ((from, b"from"), (to, b"goal"));
            let rule = if directory {
                rules::SAME_DIRECTORY
            } else {
                rules::SAME_FILE
            };
            unchanged(&mut lane, to, to, Status::OK, rule);
            (lane.seconds, lane.nanoseconds) = (seconds, nanoseconds);
            replaced(&mut lane, from, to, &[rules::OVER_CLOCK]);
            if directory {
                lane.done(&rmdir(to.0, to.1));
            } else {
                lane.done(&remove(to.0, to.1));
            }
        }
    }
}
