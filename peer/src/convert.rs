//! Making a store of an image in the layout of document 01.

use crate::layout::{object_field, Shape, OBJECTS_AT, OBJECT_BYTES};
use crate::old_check::{self, Counts};
use crate::Answer;

impl From<Counts> for Shape {
    /// The shape of the store that an old image of these counts becomes.
    fn from(counts: Counts) -> Shape {
        Shape {
            objects: counts.objects,
            names: counts.names,
            blocks: counts.blocks,
        }
    }
}

/// Writes the store that an old image stands for over every byte of the
/// buffer. Every old field is kept; no object keeps a verifier.
///
/// Number 1 means that the old image fails the check of document 01, then 6
/// that the buffer is not of exactly the length of the store.
pub fn convert(old: &[u8], store: &mut [u8]) -> Answer {
    let Some(counts) = old_check::check(old) else {
        return Answer::refused(1);
    };
    let shape = Shape::from(counts);
    if store.len() != shape.length() {
        return Answer::refused(6);
    }
    let names_at = shape.name_count_at();
    let old_names_at = counts.name_count_at();
    store[..OBJECTS_AT].copy_from_slice(&old[..old_check::OBJECTS_AT]);
    store[names_at..].copy_from_slice(&old[old_names_at..]);
    let records = store[OBJECTS_AT..names_at]
        .as_chunks_mut::<OBJECT_BYTES>()
        .0;
    let old_records = old[old_check::OBJECTS_AT..old_names_at]
        .as_chunks::<{ old_check::OBJECT_BYTES }>()
        .0;
    for (record, old_record) in records.iter_mut().zip(old_records) {
        let (kept, new) = record.split_at_mut(object_field::VERIFIER);
        kept.copy_from_slice(old_record);
        new.fill(0);
    }
    Answer::DONE
}
