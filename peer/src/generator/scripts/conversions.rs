//! Conversions of old images, good and bad.

use super::*;
use crate::generator::encode::handle;
use crate::generator::lane::*;
use crate::generator::old_images::old_image;
use crate::generator::rules;
use crate::numbers::Status;

/// A store that has been worked in, in which no file keeps a verifier.
fn worked<'r>(runs: &'r mut Runs<'_>, title: &str) -> Lane<'r> {
    let mut lane = runs.open(title, (6, 7, 5));
    let root = lane.root();
    let directory = lane.mkdir(&root, b"directory");
    lane.create(&root, b"gone", 600);
    let file = lane.create(&directory, b"exactly-thirty-two-bytes-of-name", 0);
    lane.create(&root, b"empty", 0);
    lane.done(&remove(&root, b"gone"));
    lane.done(&write(&file, 400, &[0xD7; 700]));
    // A spent record, and bytes of no file.
    let at = lane.object_at(5) + 4;
    lane.patch_word(at, u32::MAX);
    let at = lane.block_at(4);
    lane.driver.patch(at, b"bytes of no file");
    lane
}

/// Converts; a refusal leaves the target as it was.
fn convert(lane: &mut Lane<'_>, image: &[u8], wanted: u32) {
    let before = lane.driver.store().to_vec();
    let answer = lane.driver.convert(image);
    assert_eq!((answer.number, answer.length), (wanted, 0));
    if wanted != 0 {
        assert!(lane.driver.store() == before);
    }
}

pub(super) fn whole(runs: &mut Runs<'_>) {
    let lane = worked(runs, "conversion: the store");
    let (shape, store) = (lane.shape, lane.driver.store().to_vec());
    let image = old_image(shape, &store);
    let mut lane = runs.target("conversion", shape);
    convert(&mut lane, &image, 0);
    assert!(lane.driver.store() == store);
    lane.rule(rules::CONVERTED);
    lane.driver.check();
    // Calls go on with the handles from before.
    let root = lane.root();
    let (directory, file) = (handle(STAMP, 1, 0), handle(STAMP, 3, 0));
    lane.done(&getattr(&file));
    lane.done(&read(&file, 390, 800));
    lane.done(&readdir(&root, 0, 0, 4096));
    lane.done(&lookup(&directory, b"exactly-thirty-two-bytes-of-name"));
    lane.expect(
        "GETATTR STALE: removed before the conversion",
        &getattr(&handle(STAMP, 2, 0)),
        Status::STALE,
    );
    lane.done(&fsstat(&root));
    lane.done(&write(&file, 1500, b"after the conversion"));
    lane.rule(rules::HANDLES_STAY);
    for verifier in [VERIFIER, [0; 8]] {
        lane.expect(
            "CREATE EXIST: EXCLUSIVE on a converted file",
            &exclusive(&root, b"empty", verifier),
            Status::EXIST,
        );
        lane.rule(rules::NOTHING_KEPT);
    }
    let made = lane.exclusive(&root, b"new", VERIFIER);
    assert_eq!(made, handle(STAMP, 2, 1));
    lane.done(&exclusive(&root, b"new", VERIFIER));
    // Again over the store that is in use now: nothing of it stays.
    convert(&mut lane, &image, 0);
    assert!(lane.driver.store() == store);
    // The old image of a store with a verifier: the file is kept, not that.
    lane.done(&exclusive(&root, b"new", VERIFIER));
    let image = old_image(shape, lane.driver.store());
    convert(&mut lane, &image, 0);
    lane.done(&lookup(&root, b"new"));
    lane.expect(
        "CREATE EXIST: EXCLUSIVE on a converted file",
        &exclusive(&root, b"new", VERIFIER),
        Status::EXIST,
    );
    lane.driver.check();
    // Empty stores of several shapes.
    for (objects, names, blocks) in [(1, 0, 0), (64, 0, 0), (1, 128, 0), (1, 0, 3), (3, 5, 7)] {
        let lane = runs.open("conversion: an empty store", (objects, names, blocks));
        let (shape, store) = (lane.shape, lane.driver.store().to_vec());
        let mut lane = runs.target("conversion of an empty store", shape);
        let image = old_image(shape, &store);
        convert(&mut lane, &image, 0);
        assert!(lane.driver.store() == store);
        if image.len() == 100 {
            assert_eq!(store.len(), 112);
            lane.rule(rules::SMALLEST);
        }
        lane.rule(rules::CONVERTED);
        // A root of another type, also where no name needs a directory.
        for kind in [0, 1, 3] {
            let mut damaged = image.clone();
            damaged[15] = kind;
            convert(&mut lane, &damaged, 1);
            lane.rule(rules::BAD_IMAGE);
        }
        lane.send(&mkdir(&lane.root(), b"d", Attributes::default()));
        lane.driver.check();
    }
}

pub(super) fn refused(runs: &mut Runs<'_>) {
    let lane = worked(runs, "refused conversions: the store");
    let (shape, store) = (lane.shape, lane.driver.store().to_vec());
    let image = old_image(shape, &store);
    let records = image.len() - 512 * shape.blocks;
    let mut lane = runs.target("refused conversions", shape);
    for length in (0..records).step_by(7).chain([99, image.len() - 1]) {
        convert(&mut lane, &image[..length], 1);
        lane.rule(rules::CUT);
    }
    for more in [1, 12, 44, 80, 92, 512] {
        let mut longer = image.clone();
        longer.resize(image.len() + more, 0);
        convert(&mut lane, &longer, 1);
        lane.rule(rules::LONGER);
    }
    convert(&mut lane, &store, 1);
    lane.rule(rules::NEW_AS_OLD);
    // Each byte of the records with one bit changed.
    for at in 0..records {
        let mut damaged = image.clone();
        damaged[at] ^= 1 << (at % 8);
        if lane.driver.convert(&damaged).number == 1 {
            lane.rule(rules::BAD_IMAGE);
        }
    }
    convert(&mut lane, &image, 0);

    // Targets of other lengths, with a good and with a bad image.
    let mut bad = image.clone();
    bad[12] = 1;
    let wanted = shape.length();
    for length in [
        0,
        1,
        image.len(),
        wanted - 12,
        wanted - 1,
        wanted + 1,
        wanted + 12,
    ] {
        let number = runs.take_number();
        let driver = &mut *runs.driver;
        driver.start(number, length, "targets of other lengths");
        let rule = if length < wanted {
            rules::TARGET_SHORT
        } else {
            rules::TARGET_LONG
        };
        for (image, wanted, rule) in [(&image, 6, rule), (&bad, 1, rules::ONE_BEFORE_SIX)] {
            let before = driver.store().to_vec();
            assert_eq!(driver.convert(image).number, wanted);
            assert!(driver.store() == before);
            driver.note(rules::GROUP, rule);
        }
    }
    // Stores as old images; each has the length of its own target.
    for counts in [(1, 0, 0), (11, 3, 0), (64, 0, 0), (3, 128, 1)] {
        let mut lane = runs.open("stores as old images", counts);
        let store = lane.driver.store().to_vec();
        convert(&mut lane, &store, 1);
        lane.rule(rules::NEW_AS_OLD);
    }
}

/// The old image of the largest store, which is full but for 16 blocks.
pub(super) fn largest(runs: &mut Runs<'_>, shape: Shape, store: &[u8]) {
    let (root, last) = (handle(STAMP, 0, 0), handle(STAMP, 63, 0));
    let image = old_image(shape, store);
    assert_eq!((image.len(), store.len()), (535_060, 535_828));
    let mut lane = runs.target("the largest conversion", shape);
    let mut longer = image.clone();
    longer.push(0);
    convert(&mut lane, &longer, 1);
    lane.rule(rules::LONGER);
    convert(&mut lane, &image, 0);
    assert!(lane.driver.store() == store);
    lane.rule(rules::LARGEST);
    lane.done(&read(&last, 4000, 4096));
    lane.done(&remove(&root, format!("{:032}", 7).as_bytes()));
    lane.done(&exclusive(&root, b"new", VERIFIER));
    lane.done(&exclusive(&root, b"new", VERIFIER));
    // A block of two files, and numbers just out of range.
    for (object, block) in [(63, 0u16), (1, 1024), (63, 1024), (1, 2048)] {
        let mut damaged = image.clone();
        let at = 12 + 80 * object + 48;
        damaged[at..at + 2].copy_from_slice(&block.to_be_bytes());
        convert(&mut lane, &damaged, 1);
        lane.rule(rules::BAD_IMAGE);
    }
    for (length, rule) in [
        (535_827, rules::TARGET_SHORT),
        (535_829, rules::TARGET_LONG),
    ] {
        let number = runs.take_number();
        runs.driver
            .start(number, length, "targets beside the largest");
        assert_eq!(runs.driver.convert(&image).number, 6);
        runs.driver.note(rules::GROUP, rule);
    }
}
