//! Making an empty store.

use crate::layout::*;
use crate::Answer;

/// Writes an empty store of these counts over every byte of the buffer: a
/// root of mode 493 with times from the clock, everything else free.
pub fn format(
    store: &mut [u8],
    stamp: u32,
    objects: u32,
    names: u32,
    blocks: u32,
    seconds: u32,
    nanoseconds: u32,
) -> Answer {
    if nanoseconds >= NANOSECONDS {
        return Answer::refused(3);
    }
    let Some(shape) = Shape::new(objects, names, blocks) else {
        return Answer::refused(6);
    };
    if store.len() != shape.length() {
        return Answer::refused(6);
    }
    store.fill(0);
    put_word(store, 0, 1);
    put_word(store, STAMP_AT, stamp);
    put_word(store, OBJECT_COUNT_AT, objects);
    put_word(store, shape.name_count_at(), names);
    put_word(store, shape.block_count_at(), blocks);
    let root = shape.object_at(ROOT);
    put_word(store, root + object_field::TYPE, DIRECTORY);
    put_word(store, root + object_field::MODE, 493);
    for time in [
        object_field::ATIME,
        object_field::MTIME,
        object_field::CTIME,
    ] {
        put_word(store, root + time, seconds);
        put_word(store, root + time + 4, nanoseconds);
    }
    store[root + object_field::BLOCKS..root + object_field::VERIFIER].fill(0xFF);
    Answer::DONE
}
