//! Images in the layout of document 01, whole and damaged.

use super::driver::{Call, Driver, Format, Mount, Outcome, Peer};
use super::random::Random;
use super::random_runs::{self, Extent};
use crate::layout::{object_field, Shape, OBJECTS_AT, OBJECT_BYTES};
use crate::old_check::{self, Counts};
use crate::Answer;

/// Bytes of an object record and of a name record of an old image.
const OLD_RECORD: usize = old_check::OBJECT_BYTES;
const NAME_RECORD: usize = 44;

/// The old image with the fields of a store of this shape; verifiers are lost.
pub fn old_image(shape: Shape, store: &[u8]) -> Vec<u8> {
    let names_at = shape.name_count_at();
    let mut image = store[..OBJECTS_AT].to_vec();
    for record in store[OBJECTS_AT..names_at].as_chunks::<OBJECT_BYTES>().0 {
        image.extend(&record[..object_field::VERIFIER]);
    }
    image.extend(&store[names_at..]);
    image
}

/// Frees the name records of an old image that name an object once more, but
/// for so many of them.
pub fn free_further_names(counts: Counts, image: &mut [u8], kept: usize) {
    let start = counts.name_count_at() + 4;
    let mut named = [false; 64];
    let mut further = 0;
    for record in image[start..counts.block_count_at()].chunks_mut(NAME_RECORD) {
        let child = usize::from(record[7]);
        if record[11] != 0 && std::mem::replace(&mut named[child], true) {
            further += 1;
            if further > kept {
                record.fill(0);
            }
        }
    }
}

/// Where a byte of a store of this shape stands in its old image, if it has a
/// place there.
pub fn old_place(shape: Shape, at: usize) -> Option<usize> {
    if at >= shape.name_count_at() {
        return Some(at - (OBJECT_BYTES - OLD_RECORD) * shape.objects);
    }
    let Some(inside) = at.checked_sub(OBJECTS_AT) else {
        return Some(at);
    };
    let (number, field) = (inside / OBJECT_BYTES, inside % OBJECT_BYTES);
    (field < OLD_RECORD).then_some(OBJECTS_AT + OLD_RECORD * number + field)
}

/// A whole old image that is being damaged.
pub struct Damaged<'a> {
    pub image: &'a mut Vec<u8>,
    /// The counts of the whole image.
    pub counts: Counts,
    pub random: &'a mut Random,
}

/// One kind of damage: what it is called, and what it does.
pub type Kind = (&'static str, fn(&mut Damaged<'_>));

/// Every kind of damage. Many of them often leave the image sound.
pub const KINDS: [Kind; 26] = [
    ("any bit of the records", |image| image.any_bit()),
    ("any byte of the records", |image| image.any_byte()),
    ("volume count", |image| {
        image.set_word(0, &[0, 1, 2, u32::MAX])
    }),
    ("stamp", |image| image.set_word(4, &[0, 1, u32::MAX])),
    ("object count", |image| {
        image.set_word(8, &[0, 1, 64, 65, u32::MAX])
    }),
    ("name count", |image| {
        image.set_word(image.counts.name_count_at(), &[0, 128, 129, u32::MAX]);
    }),
    ("block count", |image| {
        image.set_word(image.counts.block_count_at(), &[0, 1024, 1025, u32::MAX]);
    }),
    ("cut", |image| image.cut()),
    ("longer", |image| image.longer()),
    ("type", |image| {
        image.object_word(0, &[0, 1, 2, 3, 0x0100_0000, u32::MAX]);
    }),
    ("generation", |image| {
        image.object_word(4, &[0, 1, u32::MAX - 1, u32::MAX]);
    }),
    ("mode", |image| {
        image.object_word(8, &[0, 4095, 4096, u32::MAX]);
    }),
    ("owner, group or seconds", |image| {
        let field = image.random.pick(&[12, 16, 24, 32, 40]);
        image.object_word(field, &[0, 1, u32::MAX]);
    }),
    ("nanoseconds", |image| {
        let field = image.random.pick(&[28, 36, 44]);
        image.object_word(field, &[0, 999_999_999, 1_000_000_000, u32::MAX]);
    }),
    ("size", |image| image.size()),
    ("block number", |image| image.block_number()),
    ("byte of an object record", |image| image.object_byte()),
    ("object record over another", |image| {
        let (count, start) = (image.counts.objects, OBJECTS_AT);
        image.record_over_another(start, OLD_RECORD, count);
    }),
    ("directory of a name", |image| {
        image.name_word(0, &[0, 1, 63, 64, u32::MAX]);
    }),
    ("child of a name", |image| {
        image.name_word(4, &[0, 1, 63, 64, u32::MAX]);
    }),
    ("length of a name", |image| {
        image.name_word(8, &[0, 1, 31, 32, 33, 0x0100_0001, u32::MAX]);
    }),
    ("byte of a name", |image| image.name_byte()),
    ("another name", |image| image.another_name()),
    ("name record over another", |image| {
        let (count, start) = (image.counts.names, image.counts.name_count_at() + 4);
        image.record_over_another(start, NAME_RECORD, count);
    }),
    ("name record emptied", |image| image.empty_name()),
    ("bytes of a block", |image| image.block_bytes()),
];

impl Damaged<'_> {
    /// Damages the image in one way.
    pub fn once(&mut self) -> &'static str {
        let at = self.random.below(KINDS.len());
        let (name, damage) = KINDS[at];
        damage(self);
        name
    }

    /// Overwrites bytes, as far as the image has them.
    fn put(&mut self, at: usize, bytes: &[u8]) {
        if let Some(place) = self.image.get_mut(at..at + bytes.len()) {
            place.copy_from_slice(bytes);
        }
    }

    fn word(&self, at: usize) -> u32 {
        self.image
            .get(at..)
            .and_then(|rest| rest.first_chunk::<4>())
            .map_or(0, |field| u32::from_be_bytes(*field))
    }

    /// One of the values, or one more or less than it was.
    fn set_word(&mut self, at: usize, values: &[u32]) {
        let old = self.word(at);
        let value = match self.random.below(4) {
            0 => old.wrapping_add(1),
            1 => old.wrapping_sub(1),
            _ => self.random.pick(values),
        };
        self.put(at, &value.to_be_bytes());
    }

    /// Bytes before the blocks, their count included.
    fn records(&self) -> usize {
        (self.counts.block_count_at() + 4).min(self.image.len())
    }

    fn any_bit(&mut self) {
        if self.records() > 0 {
            let at = self.random.below(self.records());
            self.image[at] ^= 1 << self.random.below(8);
        }
    }

    fn any_byte(&mut self) {
        if self.records() > 0 {
            let at = self.random.below(self.records());
            let any = self.random.next() as u8;
            self.image[at] = self.random.pick(&[0, 1, 2, 0x2E, 0x2F, 0xFF, any, any]);
        }
    }

    fn cut(&mut self) {
        let length = self.image.len();
        let kept = match self.random.below(3) {
            0 => self.random.below(length + 1),
            1 => self.random.pick(&[0, 1, 4, 8, 12, 16, 20, 99]).min(length),
            _ => length.saturating_sub(self.random.pick(&[1, 4, 44, 80, 512])),
        };
        self.image.truncate(kept);
    }

    fn longer(&mut self) {
        let more = self.random.pick(&[1, 4, 12, 44, 80, 92, 512]);
        let length = self.image.len() + more.min(LARGEST_OLD + 1 - self.image.len());
        self.image.resize(length, 0);
    }

    fn any_object(&mut self) -> usize {
        OBJECTS_AT + OLD_RECORD * self.random.below(self.counts.objects)
    }

    fn object_word(&mut self, field: usize, values: &[u32]) {
        let at = self.any_object() + field;
        self.set_word(at, values);
    }

    /// A size that may ask for as many blocks as the file has.
    fn size(&mut self) {
        let at = self.any_object() + object_field::SIZE;
        let old = self.word(at);
        let value = match self.random.below(3) {
            0 => old.next_multiple_of(512),
            1 => old.saturating_sub(self.random.below(600) as u32),
            _ => self
                .random
                .pick(&[0, 1, 511, 512, 513, 8192, 8193, u32::MAX]),
        };
        self.put(at, &value.to_be_bytes());
    }

    fn block_number(&mut self) {
        let place = self.random.below(16);
        let at = self.any_object() + object_field::BLOCKS + 2 * place;
        let last = self.counts.blocks as u16;
        let any = self.random.below(self.counts.blocks + 1) as u16;
        let value = self
            .random
            .pick(&[0, last.wrapping_sub(1), last, 65534, 65535, any, any, any]);
        self.put(at, &value.to_be_bytes());
    }

    fn object_byte(&mut self) {
        let at = self.any_object() + self.random.below(OLD_RECORD);
        let value = self.random.pick(&[0, 1, 0x80, 0xFF]);
        self.put(at, &[value]);
    }

    /// A copy of one record over another, or both exchanged.
    fn record_over_another(&mut self, start: usize, bytes: usize, count: usize) {
        if count == 0 || self.image.len() < start + bytes * count {
            return;
        }
        let from = start + bytes * self.random.below(count);
        let to = start + bytes * self.random.below(count);
        let exchanged = self.random.once_in(2);
        let old = self.image[to..to + bytes].to_vec();
        self.image.copy_within(from..from + bytes, to);
        if exchanged {
            self.put(from, &old);
        }
    }

    fn any_name(&mut self) -> Option<usize> {
        let start = self.counts.name_count_at() + 4;
        (self.counts.names > 0).then(|| start + NAME_RECORD * self.random.below(self.counts.names))
    }

    fn empty_name(&mut self) {
        if let Some(at) = self.any_name() {
            self.put(at, &[0; NAME_RECORD]);
        }
    }

    fn name_word(&mut self, field: usize, values: &[u32]) {
        if let Some(at) = self.any_name() {
            self.set_word(at + field, values);
        }
    }

    /// A byte inside a name or just behind it, or any of the record.
    fn name_byte(&mut self) {
        let Some(at) = self.any_name() else {
            return;
        };
        let length = (self.word(at + 8) as usize).min(31);
        let inside = if self.random.once_in(3) {
            self.random.below(32)
        } else {
            self.random.below(length + 1)
        };
        let any = self.random.next() as u8;
        let value = self.random.pick(&[0, 1, 0x2E, 0x2F, 0xFF, any, any]);
        self.put(at + 12 + inside, &[value]);
    }

    /// Dots, a name at the limit, or the name that another record has.
    fn another_name(&mut self) {
        let (Some(at), Some(other)) = (self.any_name(), self.any_name()) else {
            return;
        };
        let name: &[u8] = self.random.pick(&[
            &b"."[..],
            b"..",
            b"...",
            b".a",
            b"a",
            b"exactly-thirty-two-bytes-of-name",
        ]);
        let mut bytes = (name.len() as u32).to_be_bytes().to_vec();
        bytes.extend(name);
        bytes.resize(36, 0);
        if self.random.once_in(2) {
            if let Some(taken) = self.image.get(other + 8..other + NAME_RECORD) {
                bytes.copy_from_slice(taken);
            }
        }
        self.put(at + 8, &bytes);
    }

    fn block_bytes(&mut self) {
        let start = self.counts.block_count_at() + 4;
        if start < self.image.len() {
            let at = self.random.between(start, self.image.len() - 1);
            self.image[at] = self.random.next() as u8;
        }
    }
}

/// How many images of each extent are kept whose files have several names.
const LINKED_IMAGES: usize = 30;

/// The length of the largest old image.
pub const LARGEST_OLD: usize = 535_060;

/// A driver that only runs the peer.
#[derive(Default)]
struct Quiet(Peer);

impl Driver for Quiet {
    fn start(&mut self, _number: u32, length: usize, _title: &str) {
        self.0.start(length);
    }

    fn format(&mut self, plan: Format) -> Answer {
        self.0.format(plan)
    }

    fn patch(&mut self, offset: usize, bytes: &[u8]) {
        self.0.patch(offset, bytes);
    }

    fn check(&mut self) -> Answer {
        crate::check(&self.0.store)
    }

    fn call(&mut self, call: Call<'_>) -> Outcome {
        self.0.call(call)
    }

    fn convert(&mut self, old: &[u8]) -> Answer {
        self.0.convert(old)
    }

    fn store(&self) -> &[u8] {
        &self.0.store
    }

    fn set_table(&mut self, table: &[u8]) {
        self.0.set_table(table);
    }

    fn mount(&mut self, mount: Mount<'_>) -> Outcome {
        self.0.mount(mount)
    }

    fn table(&self) -> &[u8] {
        &self.0.table
    }
}

/// Whole old images with their counts, by how often they are taken, and images
/// whose files have several names.
pub struct Pool {
    groups: [Vec<(Counts, Vec<u8>)>; 4],
    linked: Vec<(Counts, Vec<u8>)>,
}

/// How an image was made.
pub struct Made {
    /// The kind of damage, or what the image is.
    pub kind: &'static str,
    /// The length of the target that goes with it.
    pub target: usize,
}

/// What whole images are called, and those with more than one kind of damage.
pub const WHOLE: &str = "whole";
pub const SEVERAL: &str = "several kinds";
/// What images are called whose files have several names, whole and damaged.
pub const LINKED: &str = "files with several names";
pub const LINKED_DAMAGED: &str = "files with several names, damaged";

impl Pool {
    /// The whole images of a seed: small, middle, wide and largest ones that
    /// random runs have left, and empty ones at the limits.
    pub fn new(seed: u64) -> Pool {
        let mut quiet = Quiet::default();
        let mut number = 0;
        let mut linked = Vec::new();
        let mut left = |extent: Extent, count: usize, steps: usize| {
            let mut images = Vec::new();
            let most_linked = linked.len() + LINKED_IMAGES;
            while images.len() < count {
                number += 1;
                random_runs::run(&mut quiet, number, seed, extent, steps, 1500);
                let Some((counts, mut image)) = image_of(quiet.store()) else {
                    continue;
                };
                let whole = image.clone();
                free_further_names(counts, &mut image, 0);
                if image != whole && linked.len() < most_linked {
                    let mut one_more = whole.clone();
                    free_further_names(counts, &mut one_more, 1);
                    linked.extend([(counts, whole), (counts, one_more)]);
                }
                images.push((counts, image));
            }
            images
        };
        let mut small = left(Extent::Small, 300, 120);
        let middle = left(Extent::Middle, 80, 250);
        let mut wide = left(Extent::Wide, 40, 400);
        let largest = left(Extent::Largest, 2, 200);
        for (objects, names, blocks) in [(1, 0, 0), (1, 0, 1), (1, 1, 0), (2, 0, 0), (2, 1, 1)] {
            small.extend(empty(objects, names, blocks));
        }
        for (objects, names, blocks) in [(64, 0, 0), (1, 128, 0), (64, 128, 0)] {
            wide.extend(empty(objects, names, blocks));
        }
        Pool {
            groups: [small, middle, wide, largest],
            linked,
        }
    }

    /// Makes an image, whole or damaged, in the buffer.
    pub fn make(&self, random: &mut Random, image: &mut Vec<u8>) -> Made {
        let group = match random.below(2000) {
            0..1500 => 0,
            1500..1850 => 1,
            1850..1995 => 2,
            _ => 3,
        };
        let linked = random.once_in(12);
        let images = if linked {
            &self.linked
        } else {
            &self.groups[group]
        };
        let (counts, whole) = &images[random.below(images.len())];
        image.clear();
        image.extend_from_slice(whole);
        let mut damaged = Damaged {
            image,
            counts: *counts,
            random,
        };
        let kind = match damaged.random.below(8) {
            0..=3 if linked => LINKED,
            // Without one of its names the image may be sound.
            4..=5 if linked => {
                damaged.empty_name();
                LINKED_DAMAGED
            }
            _ if linked => {
                damaged.once();
                LINKED_DAMAGED
            }
            0 => WHOLE,
            1 => {
                damaged.once();
                damaged.once();
                SEVERAL
            }
            _ => damaged.once(),
        };
        let wanted = Shape::from(*counts).length();
        let target = match random.below(24) {
            0 => wanted + 1,
            1 => wanted - 1,
            2 => random.pick(&[0, 100, 112, image.len(), wanted + 12, wanted - 12]),
            _ => wanted,
        };
        Made { kind, target }
    }
}

/// The counts and the old image of a sound store. It fails its check where a
/// file has several names.
fn image_of(store: &[u8]) -> Option<(Counts, Vec<u8>)> {
    if crate::check(store).number != 0 {
        return None;
    }
    let shape = Shape::read(store)?;
    let counts = Counts {
        objects: shape.objects,
        names: shape.names,
        blocks: shape.blocks,
    };
    Some((counts, old_image(shape, store)))
}

/// The old image of an empty store with these counts, which are in range.
pub fn empty(objects: u32, names: u32, blocks: u32) -> Option<(Counts, Vec<u8>)> {
    let mut store = vec![0; Shape::new(objects, names, blocks)?.length()];
    crate::format(&mut store, 77, objects, names, blocks, 1, 2);
    image_of(&store)
}
