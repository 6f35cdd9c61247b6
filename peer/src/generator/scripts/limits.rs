//! Full stores, spent generations and the largest store.

use super::*;
use crate::generator::encode::{handle, Attributes};
use crate::generator::lane::*;
use crate::generator::rules;
use crate::numbers::Status;

pub(super) fn full_stores(runs: &mut Runs<'_>) {
    let plain = Attributes::default();
    let mut lane = runs.open("objects exhausted", (5, 9, 9));
    let root = lane.root();
    for name in [b"a", b"b", b"c", b"d"] {
        lane.create(&root, name, 1);
    }
    lane.driver.note(FULL, "objects exhausted");
    lane.expect(
        "CREATE NOSPC: objects",
        &guarded(&root, b"e", plain),
        Status::NOSPC,
    );
    lane.expect(
        "MKDIR NOSPC: objects",
        &mkdir(&root, b"e", plain),
        Status::NOSPC,
    );
    lane.done(&rename(&root, b"a", &root, b"e"));
    lane.done(&fsstat(&root));
    lane.done(&remove(&root, b"b"));
    lane.mkdir(&root, b"f");

    let mut lane = runs.open("names exhausted", (9, 2, 9));
    lane.create(&root, b"a", 1);
    let directory = lane.mkdir(&root, b"b");
    lane.driver.note(FULL, "names exhausted");
    lane.expect(
        "CREATE NOSPC: names",
        &guarded(&root, b"c", plain),
        Status::NOSPC,
    );
    lane.expect(
        "MKDIR NOSPC: names",
        &mkdir(&root, b"c", plain),
        Status::NOSPC,
    );
    lane.expect(
        "RENAME OK: no free name",
        &rename(&root, b"a", &directory, b"c"),
        Status::OK,
    );
    lane.done(&fsstat(&root));
    let mut lane = runs.open("no names at all", (9, 0, 9));
    lane.driver.note(FULL, "no names at all");
    lane.expect(
        "CREATE NOSPC: no names",
        &unchecked(&root, b"c", plain),
        Status::NOSPC,
    );
    lane.done(&readdir(&root, 0, 0, 4096));

    let mut lane = runs.open("blocks exhausted", (9, 9, 5));
    let file = lane.create(&root, b"a", 5 * 512 - 100);
    lane.driver.note(FULL, "blocks exhausted");
    lane.done(&setattr(&file, Attributes::size(5 * 512), None));
    lane.expect(
        "SETATTR NOSPC: blocks",
        &setattr(&file, Attributes::size(5 * 512 + 1), None),
        Status::NOSPC,
    );
    lane.expect(
        "WRITE NOSPC: blocks",
        &write(&file, 5 * 512, b"x"),
        Status::NOSPC,
    );
    lane.expect(
        "CREATE NOSPC: blocks",
        &guarded(&root, b"b", Attributes::size(1)),
        Status::NOSPC,
    );
    lane.done(&guarded(&root, b"b", Attributes::size(0)));
    lane.expect(
        "CREATE NOSPC: blocks, UNCHECKED",
        &unchecked(&root, b"b", Attributes::size(1)),
        Status::NOSPC,
    );
    lane.done(&write(&file, 0, &[1; 2560]));
    lane.done(&fsstat(&root));
    lane.done(&unchecked(&root, b"a", Attributes::size(512)));
    lane.done(&unchecked(&root, b"b", Attributes::size(2048)));
    let mut lane = runs.open("no blocks at all", (4, 4, 0));
    lane.driver.note(FULL, "no blocks at all");
    let file = lane.create(&root, b"a", 0);
    lane.expect(
        "WRITE NOSPC: no blocks",
        &write(&file, 0, b"x"),
        Status::NOSPC,
    );
    lane.expect(
        "SETATTR NOSPC: no blocks",
        &setattr(&file, Attributes::size(1), None),
        Status::NOSPC,
    );
    lane.done(&read(&file, 0, 10));
    lane.done(&fsstat(&file));
}

/// Files whose blocks do not follow each other in the store, read and
/// written across the gaps.
pub(super) fn scattered_blocks(runs: &mut Runs<'_>) {
    let mut lane = runs.open("blocks in pieces", (6, 6, 24));
    let root = lane.root();
    lane.create(&root, b"a", 3 * 512);
    lane.create(&root, b"b", 2 * 512);
    lane.create(&root, b"c", 512);
    lane.done(&remove(&root, b"b"));
    // Blocks 3 and 4, and then from 6 on.
    let upward = lane.create(&root, b"upward", 6 * 512);
    lane.done(&remove(&root, b"a"));
    // Block 12, and then from 0 on.
    lane.create(&root, b"d", 3 * 512);
    let downward = lane.create(&root, b"e", 512);
    lane.done(&remove(&root, b"d"));
    lane.done(&setattr(&downward, Attributes::size(4 * 512 - 7), None));
    lane.driver.note(FULL, "blocks in pieces");
    let data: Vec<u8> = (0..3072u32).map(|at| (at % 251) as u8 + 1).collect();
    for file in [&upward, &downward] {
        lane.done(&write(file, 100, &data[..1900]));
        for (offset, count) in [
            (0, 4096),
            (511, 2),
            (512, 512),
            (1000, 100),
            (1023, 2),
            (1024, 1),
            (500, 1500),
            (1, 2047),
        ] {
            lane.done(&read(file, offset, count));
        }
    }
    lane.done(&write(&upward, 0, &data));
    lane.done(&read(&upward, 3, 3070));
}

pub(super) fn spent_generations(runs: &mut Runs<'_>) {
    let mut lane = runs.open("spent generations", (5, 8, 4));
    let root = lane.root();
    let plain = Attributes::default();
    for (object, generation) in [(1, u32::MAX - 1), (2, u32::MAX), (3, u32::MAX - 2)] {
        let at = lane.object_at(object);
        lane.patch_word(at + 4, generation);
    }
    lane.driver.check();
    lane.done(&fsstat(&root));
    let first = lane.create(&root, b"a", 10);
    assert_eq!(first, handle(STAMP, 1, u32::MAX - 1));
    let third = lane.mkdir(&root, b"b");
    assert_eq!(third, handle(STAMP, 3, u32::MAX - 2));
    lane.create(&root, b"c", 0);
    lane.driver.note(FULL, "spent generations");
    lane.expect(
        "CREATE NOSPC: spent record",
        &guarded(&root, b"d", plain),
        Status::NOSPC,
    );
    lane.done(&remove(&root, b"a"));
    lane.done(&fsstat(&root));
    lane.expect(
        "CREATE NOSPC: record spent by REMOVE",
        &guarded(&root, b"d", plain),
        Status::NOSPC,
    );
    for generation in [u32::MAX - 1, u32::MAX] {
        lane.expect(
            "GETATTR STALE: spent record",
            &getattr(&handle(STAMP, 1, generation)),
            Status::STALE,
        );
    }
    lane.done(&rmdir(&root, b"b"));
    assert_eq!(lane.mkdir(&root, b"b"), handle(STAMP, 3, u32::MAX - 1));
    lane.done(&rmdir(&root, b"b"));
    lane.expect(
        "MKDIR NOSPC: record spent by RMDIR",
        &mkdir(&root, b"b", plain),
        Status::NOSPC,
    );
    lane.done(&fsstat(&root));
    lane.done(&remove(&root, b"c"));
    lane.create(&root, b"e", 0);
    // A root of the last generation that a live object may have.
    lane.patch_word(16, u32::MAX - 1);
    lane.driver.check();
    lane.expect("GETATTR STALE: root", &getattr(&root), Status::STALE);
    lane.done(&readdir(&handle(STAMP, 0, u32::MAX - 1), 0, 0, 4096));
}

/// The largest store, filled until no object is left.
pub(super) fn largest_store(runs: &mut Runs<'_>) {
    let mut lane = runs.open("largest store", (64, 128, 1024));
    let root = lane.root();
    lane.driver
        .note(FULL, "largest store, 1,008 of 1,024 blocks used");
    for number in 0..63 {
        let name = format!("{number:032}");
        lane.create(&root, name.as_bytes(), 8192);
    }
    lane.driver.check();
    lane.expect(
        "CREATE NOSPC: largest store full",
        &guarded(&root, b"more", Attributes::default()),
        Status::NOSPC,
    );
    lane.done(&fsstat(&root));
    let last = handle(STAMP, 63, 0);
    lane.done(&getattr(&last));
    lane.done(&write(&last, 8000, &[0x33; 192]));
    lane.done(&read(&last, 4096, 4096));
    let (shape, store) = (lane.shape, lane.driver.store().to_vec());
    for count in [4096, 3688, 3687, u32::MAX] {
        lane.done(&readdir(&root, 0, 0, count));
    }
    lane.done(&readdir(&root, 40, 0, 1000));
    lane.done(&lookup(&root, format!("{:032}", 62).as_bytes()));
    lane.done(&rename(
        &root,
        format!("{:032}", 5).as_bytes(),
        &root,
        b"five",
    ));
    // Over a file of 16 blocks, at both ends of the records.
    for (from, to) in [(62, 0), (1, 61)] {
        let [from, to] = [from, to].map(|number| format!("{number:032}"));
        rename::replaced(
            &mut lane,
            (&root, from.as_bytes()),
            (&root, to.as_bytes()),
            &[rules::OVER_LARGEST],
        );
        lane.create(&root, from.as_bytes(), 8192);
    }
    lane.done(&remove(&root, format!("{:032}", 30).as_bytes()));
    let again = lane.create(&root, b"again", 8192);
    assert_eq!(again, handle(STAMP, 31, 1));
    lane.done(&setattr(&again, Attributes::size(1), None));
    lane.done(&unchecked(&root, b"five", Attributes::size(0)));
    let grown = handle(STAMP, 6, 0);
    lane.done(&setattr(&grown, Attributes::size(8192), None));
    // Numbers just out of range in place of a file's first block.
    let at = lane.object_at(1) + 48;
    for block in [1024u16, 2048] {
        lane.driver.patch(at, &block.to_be_bytes());
        lane.driver
            .note(BROKEN, "block out of range, largest store");
        assert_eq!(lane.driver.check().number, 1);
    }
    lane.driver.patch(at, &[0, 0]);
    assert_eq!(lane.driver.check().number, 0);
    // The last block of the last file twice.
    let at = lane.object_at(63) + 78;
    lane.driver.patch(at, &[0, 0]);
    lane.driver
        .note(BROKEN, "block of two files, largest store");
    assert_eq!(lane.driver.check().number, 1);
    conversions::largest(runs, shape, &store);

    let mut lane = runs.open("deepest chain of directories", (64, 128, 2));
    let mut chain = vec![root.clone()];
    for number in 0..63 {
        let name = format!("{number}");
        chain.push(lane.mkdir(&chain[number], name.as_bytes()));
    }
    lane.driver.check();
    lane.expect(
        "RENAME INVAL: below itself, deepest chain",
        &rename(&root, b"0", &chain[63], b"x"),
        Status::INVAL,
    );
    lane.done(&lookup(&chain[63], b".."));
    lane.done(&rmdir(&chain[62], b"62"));
    rename::deepest(&mut lane, &chain[..63], b"61");
    let first = lane.name_at(0);
    for target in [1, 40, 62] {
        lane.patch_word(first, target);
        lane.driver.note(BROKEN, "directories in a ring");
        assert_eq!(lane.driver.check().number, 1);
    }
    lane.patch_word(first, 0);
    assert_eq!(lane.driver.check().number, 0);
}
