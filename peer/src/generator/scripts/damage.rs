//! Stores with each demand of the check broken, one at a time.

use super::*;
use crate::generator::lane::*;
use crate::generator::old_images::{old_image, old_place};
use crate::generator::rules;
use crate::layout::{object_field, OBJECT_BYTES};

/// A store with files of several sizes, directories in directories, and free
/// records between used ones.
fn sample<'r>(runs: &'r mut Runs<'_>, title: &str) -> Lane<'r> {
    let mut lane = runs.open(title, (12, 14, 40));
    let root = lane.root();
    let first = lane.mkdir(&root, b"first");
    let second = lane.mkdir(&first, b"second");
    let third = lane.mkdir(&second, b"third");
    lane.create(&root, b"gone", 0);
    let file = lane.create(&root, b"file", 0);
    lane.create(&third, b"file", 0);
    lane.create(&third, b"exactly-thirty-two-bytes-of-name", 0);
    lane.done(&write(&file, 0, &[1; 1300]));
    lane.create(&second, b"other", 8192);
    lane.done(&remove(&root, b"gone"));
    lane
}

/// The one change that a store stands and an old image does not.
const SECOND_NAME: &str = "file with two names";

/// One change to the sample store.
struct Change {
    label: String,
    at: usize,
    bytes: Vec<u8>,
    valid: bool,
    /// Whether the same change leaves the old image sound.
    old_valid: bool,
}

fn changes(lane: &Lane<'_>) -> Vec<Change> {
    let mut all = Vec::new();
    let mut change = |label: &str, at: usize, bytes: &[u8], valid: bool| {
        all.push(Change {
            label: label.to_owned(),
            at,
            bytes: bytes.to_vec(),
            valid,
            old_valid: valid,
        });
    };
    let word = u32::to_be_bytes;
    let names_at = lane.shape.name_count_at();
    let blocks_at = lane.shape.block_count_at();
    for value in [0, 2, u32::MAX] {
        change("volume count not 1", 0, &word(value), false);
    }
    change("another stamp", 4, &word(u32::MAX), true);
    for value in [0, 11, 13, 65, u32::MAX] {
        change("object count", 8, &word(value), false);
    }
    for value in [0, 13, 15, 129, u32::MAX] {
        change("name count", names_at, &word(value), false);
    }
    for value in [0, 39, 41, 1025, u32::MAX] {
        change("block count", blocks_at, &word(value), false);
    }
    let object = |number: usize, field: usize| lane.object_at(number) + field;
    let name = |number: usize, field: usize| lane.name_at(number) + field;
    change("root free", object(0, 0), &word(0), false);
    change("root a file", object(0, 0), &word(1), false);
    change("type over 2", object(0, 0), &word(3), false);
    for value in [3, 0x0100_0000, u32::MAX] {
        change("type over 2", object(6, 0), &word(value), false);
    }
    change("empty file made a directory", object(6, 0), &word(2), true);
    change(
        "directory with names made a file",
        object(3, 0),
        &word(1),
        false,
    );
    change("live object made free", object(6, 0), &word(0), false);
    for field in (8..OBJECT_BYTES).step_by(4) {
        change("free object not zero", object(9, field), &word(1), false);
        change(
            "free object not zero",
            object(9, field),
            &word(0x8000_0000),
            false,
        );
    }
    change(
        "free object's blocks unused",
        object(9, 48),
        &[0xFF; 32],
        false,
    );
    for value in [1, u32::MAX - 1, u32::MAX] {
        change("free object's generation", object(9, 4), &word(value), true);
    }
    for number in [0, 1, 5] {
        change(
            "live generation",
            object(number, 4),
            &word(u32::MAX - 1),
            true,
        );
        change(
            "live generation 4,294,967,295",
            object(number, 4),
            &word(u32::MAX),
            false,
        );
        change("mode 4,095", object(number, 8), &word(4095), true);
        change("mode over 4,095", object(number, 8), &word(4096), false);
        change("mode over 4,095", object(number, 8), &word(u32::MAX), false);
        for field in [12, 16, 24, 32, 40] {
            change(
                "any owner, group, seconds",
                object(number, field),
                &word(u32::MAX),
                true,
            );
        }
        for field in [28, 36, 44] {
            change(
                "nanoseconds",
                object(number, field),
                &word(999_999_999),
                true,
            );
            change(
                "nanoseconds out of range",
                object(number, field),
                &word(1_000_000_000),
                false,
            );
            change(
                "nanoseconds out of range",
                object(number, field),
                &word(u32::MAX),
                false,
            );
        }
    }
    for number in [0, 1] {
        for size in [1, 512, 8192] {
            change(
                "directory with a size",
                object(number, 20),
                &word(size),
                false,
            );
        }
        for place in [0, 15] {
            for block in [0u16, 30, 65534] {
                change(
                    "directory with a block",
                    object(number, 48 + 2 * place),
                    &block.to_be_bytes(),
                    false,
                );
            }
        }
    }
    // The file has 1,300 bytes in blocks 0, 1 and 2.
    for (size, valid) in [
        (1025, true),
        (1536, true),
        (1024, false),
        (1537, false),
        (0, false),
        (8192, false),
        (8193, false),
        (u32::MAX, false),
    ] {
        change("size against the blocks", object(5, 20), &word(size), valid);
    }
    change("size over 8,192", object(8, 20), &word(8193), false);
    change("size over 8,192", object(8, 20), &word(0x8000_2000), false);
    for (label, place, block, valid) in [
        ("last block in range", 0, 39u16, true),
        ("block out of range", 0, 40, false),
        ("block out of range", 2, 40, false),
        ("block out of range", 1, 32768, false),
        // Numbers that a narrower number would take for free blocks.
        ("block out of range", 1, 256 + 30, false),
        ("block out of range", 1, 1024 + 30, false),
        ("block out of range", 2, 32768 + 30, false),
        ("block out of range", 2, 30 * 256, false),
        ("used place without a block", 0, 65535, false),
        ("used place without a block", 2, 65535, false),
        ("unused place with a block", 3, 39, false),
        ("unused place with a block", 3, 0, false),
        ("unused place with a block", 15, 30, false),
        ("block twice in one file", 0, 1, false),
        ("block twice in one file", 2, 0, false),
        ("block of two files", 1, 3, false),
        ("block of two files", 2, 18, false),
        ("another free block", 1, 30, true),
    ] {
        change(
            label,
            object(5, 48 + 2 * place),
            &block.to_be_bytes(),
            valid,
        );
    }
    // Size, times and blocks of a file in a directory's record.
    let mut fields = lane.driver.store()[object(1, 20)..object(1, 80)].to_vec();
    fields[..4].copy_from_slice(&word(100));
    fields[28..30].copy_from_slice(&30u16.to_be_bytes());
    change(
        "directory with a size and a block",
        object(1, 20),
        &fields,
        false,
    );
    change("file with a size and a block", object(6, 20), &fields, true);
    change(
        "blocks in another order",
        object(5, 48),
        &[0, 2, 0, 0, 0, 1],
        true,
    );
    change("block contents", lane.block_at(0), &[0xEE; 600], true);
    for at in (0..44).filter(|at| !(8..12).contains(at)) {
        change("free name not zero", name(3, at), &[1], false);
    }
    for length in [4, 6, 33, 32, 0, u32::MAX, 0x0100_0005] {
        change("name length", name(0, 8), &word(length), false);
    }
    for at in 0..5 {
        change("byte 0 in a name", name(0, 12 + at), &[0], false);
        change("slash in a name", name(0, 12 + at), b"/", false);
        for byte in [1, 0x2E, 0x30, 0xAF, 0xFF] {
            change("any other byte in a name", name(0, 12 + at), &[byte], true);
        }
    }
    for at in 5..32 {
        change("name padding", name(0, 12 + at), &[1], false);
    }
    for at in 0..32 {
        change("slash in a long name", name(6, 12 + at), b"/", false);
        change("byte 0 in a long name", name(6, 12 + at), &[0], false);
    }
    for (text, valid) in [
        (&b"."[..], false),
        (b"..", false),
        (b"...", true),
        (b".a", true),
        (b"a.", true),
        (b"..a", true),
        (b"a", true),
        (b"file", false),
        (b"fil", true),
        (b"files", true),
        (b"filf", true),
        (&[b'x'; 32], true),
    ] {
        let mut bytes = word(text.len() as u32).to_vec();
        bytes.extend(text);
        bytes.resize(36, 0);
        let label = match (text, valid) {
            (b"file", _) => "name twice in a directory",
            (_, false) => "name of dots",
            _ => "another name",
        };
        change(label, name(0, 8), &bytes, valid);
    }
    for directory in [5, 4, 9, 12, 63, 64, 128, 256, u32::MAX] {
        change(
            "name's directory not a live directory",
            name(0, 0),
            &word(directory),
            false,
        );
    }
    for child in [4, 9, 11, 12, 63, 64, 65, 256, u32::MAX] {
        change("name's child not live", name(0, 4), &word(child), false);
    }
    change("directory named twice", name(0, 4), &word(2), false);
    change("object without a name", name(0, 4), &word(5), false);
    change("root named", name(0, 4), &word(0), false);
    change("object without a name", name(4, 0), &[0; 44], false);
    let mut second_name = [0; 44];
    second_name[7] = 6;
    second_name[11] = 1;
    second_name[12] = b'q';
    change(SECOND_NAME, name(3, 0), &second_name, true);
    second_name[7] = 2;
    change("directory named twice", name(3, 0), &second_name, false);
    second_name[7] = 0;
    change("root named", name(3, 0), &second_name, false);
    second_name[7] = 9;
    change("free object named", name(3, 0), &second_name, false);
    for directory in [1, 2, 3] {
        change(
            "directory below itself",
            name(0, 0),
            &word(directory),
            false,
        );
    }
    change("directory moved", name(2, 0), &word(0), true);
    change("directory below itself", name(2, 0), &word(3), false);
    change("directory below itself", name(1, 0), &word(3), false);
    change("file moved", name(4, 0), &word(1), true);
    for change in all.iter_mut().filter(|change| change.label == SECOND_NAME) {
        change.old_valid = false;
    }
    all
}

/// Makes a change, sees what every entry says of the store, and takes the
/// change back.
fn try_change(lane: &mut Lane<'_>, change: &Change) {
    let kept = lane.driver.store()[change.at..change.at + change.bytes.len()].to_vec();
    lane.driver.patch(change.at, &change.bytes);
    let wanted = u32::from(!change.valid);
    assert_eq!(lane.driver.check().number, wanted, "{}", change.label);
    let call = getattr(&lane.root()).call(5);
    assert_eq!(lane.raw(&call).answer.number, wanted, "{}", change.label);
    lane.driver.patch(change.at, &kept);
}

pub(super) fn damaged(runs: &mut Runs<'_>) {
    let mut lane = sample(runs, "damaged stores");
    let root = lane.root();
    lane.driver.check();
    for change in changes(&lane) {
        let group = if change.valid { SOUND } else { BROKEN };
        lane.driver.note(group, &change.label);
        try_change(&mut lane, &change);
    }
    assert_eq!(lane.driver.check().number, 0);
    lane.done(&getattr(&root));
}

/// Verifiers and flags: in a file that keeps one, a file that keeps none, the
/// root, another directory and free records.
pub(super) fn flags(runs: &mut Runs<'_>) {
    let mut lane = runs.open("verifiers and flags", (8, 8, 4));
    let root = lane.root();
    lane.exclusive(&root, b"kept", VERIFIER);
    lane.create(&root, b"plain", 700);
    lane.mkdir(&root, b"directory");
    lane.exclusive(&root, b"gone", VERIFIER);
    lane.done(&remove(&root, b"gone"));
    let (kept, plain) = (1, 2);
    let (directories, free) = ([0, 3], [4, 7]);
    let mut all = Vec::new();
    let mut change = |label: &str, object: usize, field: usize, bytes: &[u8], valid: bool| {
        all.push(Change {
            label: label.to_owned(),
            at: lane.object_at(object) + field,
            bytes: bytes.to_vec(),
            valid,
            old_valid: valid,
        });
    };
    let (verifier, flag) = (object_field::VERIFIER, object_field::FLAG);
    let both = |verifier: [u8; 8], flag: u8| [&verifier[..], &[0, 0, 0, flag]].concat();
    for value in [[0; 8], [0xFF; 8], *b"\0\0\0\x01\0\0\0\0", *b"another!"] {
        change(rules::ANY_VERIFIER, kept, verifier, &value, true);
        change(rules::ANY_VERIFIER, plain, verifier, &both(value, 1), true);
        for object in directories {
            let label = rules::FLAG_DIRECTORY;
            change(label, object, verifier, &both(value, 1), false);
        }
        for object in free {
            change(rules::FLAG_FREE, object, verifier, &both(value, 1), false);
        }
    }
    for value in [2u32, 3, 255, 256, 0x0001_0000, 0x0100_0000, u32::MAX] {
        for object in 0..8 {
            change(rules::FLAG_OTHER, object, flag, &value.to_be_bytes(), false);
        }
    }
    change(rules::NO_FLAG, kept, flag, &[0; 4], false);
    for at in verifier..flag {
        for object in [plain, 0, 3, 4, 7] {
            change(rules::NO_FLAG, object, at, &[1], false);
            change(rules::NO_FLAG, object, at, &[0x80], false);
        }
    }
    // The file that keeps a verifier made a directory.
    change(rules::FLAG_DIRECTORY, kept, 0, &[0, 0, 0, 2], false);
    for change in &all {
        try_change(&mut lane, change);
        lane.rule(&change.label);
    }
    lane.done(&exclusive(&root, b"kept", VERIFIER));
}

/// The same changes in the old image of the sample.
pub(super) fn old_images(runs: &mut Runs<'_>) {
    let lane = sample(runs, "damaged old images: the store");
    let shape = lane.shape;
    let image = old_image(shape, lane.driver.store());
    let changes = changes(&lane);
    let mut lane = runs.target("damaged old images", shape);
    for change in changes {
        let Some(at) = old_place(shape, change.at) else {
            continue;
        };
        let mut damaged = image.clone();
        damaged[at..at + change.bytes.len()].copy_from_slice(&change.bytes);
        let before = lane.driver.store().to_vec();
        let answer = lane.driver.convert(&damaged).number;
        assert_eq!(answer, u32::from(!change.old_valid), "{}", change.label);
        if change.old_valid {
            assert!(old_image(shape, lane.driver.store()) == damaged);
            lane.driver.note(SOUND, &change.label);
        } else {
            assert!(lane.driver.store() == before);
            lane.driver.note(BROKEN, &change.label);
            lane.rule(rules::BAD_IMAGE);
        }
    }
}
